//! The three faults that are told apart from 18 (document 02, request c): 30 the limit is met before a byte that is needed, 31 a
//! number has no end in five bytes or is above 4294967295, 32 a 33rd register is saved. Each comes in the place of the 18 that it
//! replaces.
mod asked;

use asked::{hex, probe};

const AARCH64: u8 = 1;
const X86_64: u8 = 2;
const ARCHS: [u8; 2] = [AARCH64, X86_64];

/// Where a request's section begins.
const BASE: usize = 0x1000;

/// A request with its answer.
type Case = (String, String);

fn refused(request: impl Into<String>, number: u32) -> Case {
    (request.into(), format!("err {number}"))
}

/// The probe of an architecture answers each request so.
fn holds(arch: u8, cases: &[Case]) {
    let requests: Vec<String> = cases.iter().map(|(request, _)| request.clone()).collect();
    let said = probe(arch, &requests);
    assert_eq!(said.len(), cases.len());
    for ((request, due), said) in cases.iter().zip(said) {
        assert_eq!(&said, due, "architecture {arch}: {request}");
    }
}

/// A register file of zeros with a pc.
fn file(arch: u8, pc: usize) -> String {
    "0,".repeat(if arch == AARCH64 { 40 } else { 16 }) + &pc.to_string()
}

/// FP UNITS COUNT PAIRS of a state that counts so many pairs: 100 in slot 1, 101 in slot 2 and so on; at most 32 are listed.
fn state(count: usize) -> String {
    format!("0 0 {count} {}", pairs(&(0..count.min(32)).map(|i| (100 + i, 1 + i)).collect::<Vec<_>>(), 0))
}

/// PAIRS, filled up with 0:0 to at least so many.
fn pairs(pairs: &[(usize, usize)], least: usize) -> String {
    let listed = pairs.iter().copied().chain([(0, 0)].into_iter().cycle().take(least.saturating_sub(pairs.len())));
    let words: Vec<String> = listed.map(|(reg, slot)| format!("{reg}:{slot}")).collect();
    if words.is_empty() { "-".to_string() } else { words.join(",") }
}

/// A program's run at offset 0, with the limit so many bytes on.
fn run(program: &[u8], limit: usize) -> String {
    format!("{BASE} {} 1 - run {BASE} {} 0", hex(program), BASE + limit)
}

#[test]
fn programs_and_rows() {
    for arch in ARCHS {
        holds(arch, &[
            refused("0x1000 40 1 - run 0x1000 0x1001 0", 30),
            refused("0x1000 00 1 - run 0x1001 0x1001 0", 30),
            refused("0x1000 c080 1 - run 0x1000 0x1002 0", 30),
            refused("0x1000 c0808080808000 1 - run 0x1000 0x1007 0", 31),
            refused("0x1000 020529 1 - handler2 0x1000 0x1003 5", 30),
            refused("0x1000 0205298080808080 1 - handler2 0x1000 0x1008 5", 31),
            refused("0x1000 02000000 1 - handler2 0x1000 0x1002 5", 30),
            refused(format!("1 00 2 - personality 1 0 0 5 1 2 0 0 0 {}", file(arch, 5)), 30),
        ]);
    }
}

/// The other faults of a save come before the 33rd register, and a count above 32 before them.
#[test]
fn saves() {
    let mut cases = Vec::new();
    for (count, full) in [(0, 0), (31, 0), (32, 32), (33, 28)] {
        let other = if count > 32 { 28 } else { 18 };
        for fault in ["99 0", "99 65536", "99 70000", "65536 1", "70000 1", "70000 0", "100 0", "100 65536"] {
            cases.push(refused(format!("1 - 1 - save {} {fault}", state(count)), other));
        }
        if full > 0 {
            for new in ["99 1", "0 65535", "65535 1"] {
                cases.push(refused(format!("1 - 1 - save {} {new}", state(count)), full));
            }
        }
    }
    for arch in ARCHS {
        holds(arch, &cases);
    }
}

#[test]
fn saves_that_are_not_refused() {
    let old: Vec<(usize, usize)> = (0..32).map(|i| (100 + i, 1 + i)).collect();
    let mut changed = old.clone();
    changed[31].1 = 7;
    let said = |count, listed: &[_]| format!("state 0 0 {count} {}", pairs(listed, 32));
    let cases = [
        (format!("1 - 1 - save {} 99 1", state(0)), said(1, &[(99, 1)])),
        (format!("1 - 1 - save {} 131 32", state(31)), said(32, &old)),
        (format!("1 - 1 - save {} 131 7", state(32)), said(32, &changed)),
        (format!("1 - 1 - restore {} 131", state(32)), format!("state 0 0 31 {}", pairs(&old, 32))),
    ];
    for arch in ARCHS {
        holds(arch, &cases);
    }
}

/// On x86-64 a restore of the return register saves it anew; no program has a state without it.
#[test]
fn restores() {
    let restore = |count| format!("1 - 1 - restore {} 16", state(count));
    holds(X86_64, &[refused(restore(32), 32), refused(restore(33), 28)]);
    let unchanged = (0..32).map(|i| (100 + i, 1 + i)).collect::<Vec<_>>();
    holds(AARCH64, &[(restore(32), format!("state 0 0 32 {}", pairs(&unchanged, 32))), refused(restore(33), 28)]);
}

/// Saves of so many registers from 31 on, each in slot 1: none is fp or the return register.
fn saves_of(count: u8) -> Vec<u8> {
    (31..31 + count).flat_map(|reg| [0x80 | reg, 1]).collect()
}

/// Programs that fill the state, which has one pair at entry on x86-64, up to 32, and then go on so.
#[test]
fn programs_that_fill_a_state() {
    for (arch, at_entry) in [(AARCH64, 0), (X86_64, 1)] {
        let full = saves_of(32 - at_entry);
        let run = |more: &[u8]| run(&[&full, more].concat(), full.len() + more.len());
        holds(arch, &[
            refused(run(&[0x80, 1, 0x00]), 32),
            refused(run(&[0x80, 1]), 32),
            refused(run(&[0xc4, 99, 1, 0x00]), 32),
            refused(run(&[0xc9, 0x00]), 32),
            refused(run(&[0xca, 0x00]), 32),
            refused(run(&[0x80, 0, 0x00]), 18),
            refused(run(&[0xc4, 99, 0, 0x00]), 18),
            refused(run(&[0xc4, 99, 0x80, 0x80, 4, 0x00]), 18),
            refused(run(&[0xc4, 0x80, 0x80, 4, 1, 0x00]), 18),
            refused(run(&[0x80]), 30),
            refused(run(&[0xc4, 99]), 30),
            refused(run(&[0xc4, 99, 0x80]), 30),
            refused(run(&[0x80, 0x80, 0x80, 0x80, 0x80, 0x80]), 31),
            refused(run(&[0xc4, 99, 0xff, 0xff, 0xff, 0xff, 0x1f]), 31),
            refused(run(&[0xd0, 0x80, 1]), 18),
            refused(run(&[0x9f, 2]), 30),
        ]);
    }
}

/// c9 and ca save two registers: here the second is the 33rd on aarch64; on x86-64 it is there already.
#[test]
fn the_second_save_of_an_operation() {
    for operation in [0xc9, 0xca] {
        let run = |count| {
            let program = [saves_of(count), vec![operation, 0x00]].concat();
            run(&program, program.len())
        };
        holds(AARCH64, &[refused(run(31), 32), refused(run(32), 32)]);
        holds(X86_64, &[refused(run(31), 32)]);
        for said in [&probe(AARCH64, &[run(30)])[0], &probe(X86_64, &[run(30)])[0]] {
            assert!(said.starts_with("state ") && said.contains(" 32 "), "{said}");
        }
    }
}

/// The bytes before a number and the request that reads it, the limit being so many bytes on: by itself, in each operation that
/// has one, and in each place of a table, the next delta, which is only looked at, among them.
fn readers() -> Vec<(Vec<u8>, fn(usize) -> String)> {
    let uleb: fn(usize) -> String = |limit| format!("uleb {BASE} {}", BASE + limit);
    let run: fn(usize) -> String = |limit| format!("run {BASE} {} 0", BASE + limit);
    let rows: fn(usize) -> String = |limit| format!("handler2 {BASE} {} 5", BASE + limit);
    let programs: [&[u8]; 8] = [&[0x80], &[0xbf], &[0xc0], &[0xc1], &[0xc2], &[0xc3], &[0xc4], &[0xc5]];
    let tables: [&[u8]; 7] = [&[], &[1], &[1, 5], &[1, 0], &[2, 5, 0x29], &[2, 3, 0x29], &[2, 3, 0x29, 2]];
    let mut readers = vec![(Vec::new(), uleb), (vec![0xc4, 5], run), (vec![0x41, 0xc7, 0xc4, 0x85, 0x01], run)];
    readers.extend(programs.map(|bytes| (bytes.to_vec(), run)));
    readers.extend(tables.map(|bytes| (bytes.to_vec(), rows)));
    readers
}

/// The answers where a number has these bytes, its memory so many more, and its limit is so many bytes past or before its last one.
fn number(bytes: &[u8], more: usize, limit: isize, answer: u32) -> Vec<Case> {
    let case = |(before, request): (Vec<u8>, fn(usize) -> String)| {
        let section = [&before, bytes, &vec![0; more]].concat();
        let limit = (before.len() + bytes.len()).checked_add_signed(limit).unwrap();
        refused(format!("{BASE} {} 1 - {}", hex(&section), request(limit)), answer)
    };
    readers().into_iter().map(case).collect()
}

#[test]
fn five_bytes_without_end_or_too_large() {
    let large = |fifth: u8| [0xff, 0xff, 0xff, 0xff, fifth];
    let bad = [[0x80; 5], [0xff; 5], [0x80, 0x80, 0x80, 0x80, 0x10], large(0x1f), large(0x7f)];
    for arch in ARCHS {
        for bytes in bad {
            for (more, limit) in [(0, 0), (0, 1), (0, 99), (1, 0), (1, 1), (9, 0), (9, 9)] {
                holds(arch, &number(&bytes, more, limit, 31));
            }
            for limit in [-1, -2, -3, -4, -5] {
                holds(arch, &number(&bytes, 0, limit, 30));
            }
        }
    }
}

#[test]
fn up_to_four_bytes_without_end() {
    for (arch, count) in ARCHS.into_iter().flat_map(|arch| [0, 1, 2, 3, 4].map(|count| (arch, count))) {
        let bytes = vec![0x80; count];
        for more in [0, 1, 9] {
            holds(arch, &number(&bytes, more, 0, 30));
        }
        for limit in [1, 2, 99] {
            holds(arch, &number(&bytes, 0, limit, 27));
        }
    }
}

/// Also where there is no memory at all, or the limit is below.
#[test]
fn the_limit_comes_before_memory() {
    let requests = |limit: usize, number| {
        ["uleb 4096 LIMIT", "run 4096 LIMIT 0", "handler2 4096 LIMIT 5"]
            .map(|request| refused(format!("1 - 1 - {}", request.replace("LIMIT", &limit.to_string())), number))
    };
    for arch in ARCHS {
        for limit in [0, 1, 4095, 4096] {
            holds(arch, &requests(limit, 30));
        }
        for limit in [4097, 4098, usize::MAX] {
            holds(arch, &requests(limit, 27));
        }
        holds(arch, &[refused(run(&[0x40], 1), 30), refused(run(&[0x40, 0x00], 1), 30), refused(run(&[0x40], 2), 27)]);
    }
}

/// The faults of a function's program and of its rows, for a call that returns to its offset 5.
#[test]
fn reasons() {
    let saves = [saves_of(32), vec![0x80, 1, 0x80, 2]].concat();
    let cases: [(&[u8], u32); 11] = [
        (&[0x40], 30),
        (&[0xc0, 0x80], 30),
        (&[0x00], 30),
        (&[0x00, 1, 5], 30),
        (&[0x00, 2, 5, 0x29], 30),
        (&[0xc0, 0x80, 0x80, 0x80, 0x80, 0x80, 0x00, 0], 31),
        (&[0x00, 0xff, 0xff, 0xff, 0xff, 0x1f], 31),
        (&[0x00, 2, 5, 0x29, 0x80, 0x80, 0x80, 0x80, 0x80], 31),
        (&saves, 32),
        (&[0x00, 1, 5, 3], 18),
        (&[0xd0], 18),
    ];
    for (arch, phase) in ARCHS.into_iter().flat_map(|arch| [1, 2].map(|phase| (arch, phase))) {
        holds(arch, &cases.map(|(bytes, number)| {
            let (limit, file) = (BASE + bytes.len(), file(arch, 0x5005));
            let request = format!("personality {phase} 9 0 0x5000 {BASE} 2 0 {BASE} {limit} {file}");
            refused(format!("{BASE} {} 1 - {request}", hex(bytes)), number)
        }));
    }
}

/// What else was 18 still is.
#[test]
fn every_other_18_stays() {
    for arch in ARCHS {
        let word = |word: u32| format!("1 - 1 - step {word} 0 {}", file(arch, 0));
        holds(arch, &[
            refused(run(&[0xd0, 0x00], 2), 18),
            refused(run(&[0xc8, 0x00], 2), 18),
            refused(run(&[0x83, 0, 0x00], 3), 18),
            refused(run(&[0x83, 0x80, 0x80, 4, 0x00], 5), 18),
            refused(run(&[0xc4, 0x80, 0x80, 4, 1, 0x00], 6), 18),
            refused("0x1000 010503 1 - handler2 0x1000 0x1003 5", 18),
            refused("0x1000 01000000050000000000000001000000 1 - handler 0x1000 5", 18),
            refused(word(0), 18),
            refused(word(3), 18),
            refused(word(1 | 1 << 3 | 2 << 21), 18),
        ]);
        let lookup = |data: &str| {
            let chunk = format!("454b5557020{arch}0100010000001c000000f00f000010000000{data}");
            format!("0x1000 {chunk} 1 - lookup 0x2000")
        };
        holds(arch, &["00000080", "1c000000", "1c000080"].map(|data| refused(lookup(data), 18)));
    }
}
