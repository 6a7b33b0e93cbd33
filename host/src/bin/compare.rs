//! `compare [--told-apart] REQUESTS ORACLE PROBE`: the answers of both to the same requests, line by line. It prints how many agree
//! and how many differ by a rule of docs/DIFFERENCES.md; any other difference is printed whole, and the exit status is 1. The
//! oracle's answers to walk, unwind and sweep are those that `compose` makes of its other ones.
//! Where the library tells 30, 31 and 32 apart, ps-unwind has 18, and those numbers of the probe are read as 18. With
//! `--told-apart` the answers are of an oracle that tells them apart too, and every number is read as it stands.
use std::collections::BTreeMap;
use std::fs::File;
use std::io::{self, BufRead, BufReader};
use std::process::ExitCode;

#[allow(dead_code)]
#[path = "../../../oracle/program/tokens.rs"]
mod tokens;

/// How the two answers to a request stand to each other.
#[derive(Clone, Copy, PartialEq)]
enum Verdict {
    Equal,
    /// No memory there: the oracle says `outside`, the library 27.
    Outside,
    /// An opening, or a count of pairs, that the library refuses with 28; the Rust does not look at it.
    Opening,
    /// Equal, with a refusal 30, 31 or 32 in the place of the Rust's 18.
    ToldApart,
    /// Also where the request is malformed and nothing was compared.
    Different,
}

/// What was counted so far.
#[derive(Default)]
struct Tally {
    /// Whether the oracle tells 30, 31 and 32 apart too.
    told_apart: bool,
    /// By verdict, in the order of the enum.
    verdicts: [usize; 5],
    /// Refusals in answers that are told apart, by number.
    numbers: BTreeMap<String, usize>,
    operations: BTreeMap<String, usize>,
    /// Requests whose section and stack are not empty and touch.
    touching: usize,
    without_answer: usize,
}

fn main() -> ExitCode {
    let mut files: Vec<String> = std::env::args().skip(1).collect();
    let told_apart = files.first().is_some_and(|word| word == "--told-apart");
    files.drain(..told_apart as usize);
    let [requests, oracle, probe] = &files[..] else {
        eprintln!("usage: compare [--told-apart] REQUESTS ORACLE PROBE");
        return ExitCode::from(2);
    };
    match compare(told_apart, requests, oracle, probe) {
        Ok(tally) => report(&tally),
        Err(error) => {
            eprintln!("compare: {error}");
            ExitCode::from(2)
        }
    }
}

fn lines(name: &str) -> io::Result<io::Lines<BufReader<File>>> {
    Ok(BufReader::new(File::open(name)?).lines())
}

fn compare(told_apart: bool, requests: &str, oracle: &str, probe: &str) -> io::Result<Tally> {
    let (mut oracle, mut probe) = (lines(oracle)?, lines(probe)?);
    let mut tally = Tally { told_apart, ..Tally::default() };
    for request in lines(requests)? {
        let request = request?;
        let (Some(oracle), Some(probe)) = (oracle.next(), probe.next()) else {
            tally.without_answer += 1;
            continue;
        };
        tally.add(&request, &oracle?, &probe?);
    }
    Ok(tally)
}

impl Tally {
    fn add(&mut self, request: &str, oracle: &str, probe: &str) {
        let parsed = Request::parse(request);
        let verdict = parsed.as_ref().map_or(Verdict::Different, |parsed| parsed.verdict(self.told_apart, oracle, probe));
        self.verdicts[verdict as usize] += 1;
        if verdict == Verdict::Different {
            println!("request {request}\n  oracle {oracle}\n  probe  {probe}");
        }
        if verdict == Verdict::ToldApart {
            refusals(probe).for_each(|number| count(&mut self.numbers, number));
        }
        if let Some(parsed) = parsed {
            count(&mut self.operations, parsed.operation);
            self.touching += usize::from(touch(parsed.section, parsed.stack));
        }
    }
}

fn count(counts: &mut BTreeMap<String, usize>, name: &str) {
    *counts.entry(name.to_string()).or_default() += 1;
}

/// The counts as a list.
fn listed(counts: &BTreeMap<String, usize>) -> String {
    counts.iter().map(|(name, count)| format!("{name} {count}")).collect::<Vec<_>>().join(", ")
}

fn report(tally: &Tally) -> ExitCode {
    let [equal, outside, openings, told_apart, different] = tally.verdicts;
    let compared: usize = tally.verdicts.iter().sum();
    let missing = tally.without_answer;
    println!(
        "{compared} compared: {equal} equal, {told_apart} told apart from 18, {outside} outside memory, \
         {openings} openings refused, {different} different, {missing} without answer"
    );
    println!("  refusals in those told apart: {}", listed(&tally.numbers));
    println!("  section and stack touch: {}", tally.touching);
    println!("  by operation: {}", listed(&tally.operations));
    ExitCode::from((compared == 0 || different + missing > 0) as u8)
}

/// A base and a length.
type Range = (u64, u64);

struct Request<'a> {
    section: Range,
    stack: Range,
    operation: &'a str,
    arguments: Vec<&'a str>,
}

impl Request<'_> {
    /// None where the line has no two ranges and an operation.
    fn parse(line: &str) -> Option<Request<'_>> {
        let mut words = line.split_ascii_whitespace();
        let mut range =
            || -> Option<Range> { Some((tokens::number(words.next()?)?, tokens::bytes(words.next()?)?.len() as u64)) };
        let (section, stack) = (range()?, range()?);
        let operation = words.next()?;
        Some(Request { section, stack, operation, arguments: words.collect() })
    }

    fn verdict(&self, told_apart: bool, oracle: &str, probe: &str) -> Verdict {
        match (self.refused(), oracle, probe) {
            (Some(true), _, _) if Some(probe) == self.refusal().as_deref() => Verdict::Opening,
            (Some(false), "outside", "err 27") => Verdict::Outside,
            (Some(false), _, _) if probe != "bad" && !probe.contains("err 28") => self.agree(told_apart, oracle, probe),
            _ => Verdict::Different,
        }
    }

    /// Of two answers that no other rule is about.
    fn agree(&self, told_apart: bool, oracle: &str, probe: &str) -> Verdict {
        let folded = folded(self.operation, probe);
        if oracle != if told_apart { probe } else { &folded } {
            Verdict::Different
        } else if folded != probe {
            Verdict::ToldApart
        } else {
            Verdict::Equal
        }
    }

    /// The answer of a request that is refused with 28: a walk gives no frame, each sweep call is refused as the throw is, and a
    /// sweep call hands back the unwinding that it got.
    fn refusal(&self) -> Option<String> {
        let refused = "err 28";
        match self.operation {
            "walk" => Some(format!("walk {refused}")),
            "unwind" => {
                let calls = tokens::number(self.arguments.get(2)?)?;
                Some(vec![refused; calls as usize + 1].join(" | "))
            }
            "sweep" => Some(format!("{refused} | next {}", self.numbers()?.join(" "))),
            _ => Some(refused.to_string()),
        }
    }

    /// The arguments in decimal, lists of numbers among them.
    fn numbers(&self) -> Option<Vec<String>> {
        let decimal = |numbers: Vec<u64>| numbers.iter().map(u64::to_string).collect::<Vec<_>>().join(",");
        self.arguments.iter().map(|word| tokens::list(word).map(decimal)).collect()
    }

    /// Whether document 01 refuses the request with 28; none where the request is malformed.
    fn refused(&self) -> Option<bool> {
        let too_many_pairs = || Some(tokens::number(self.arguments.get(2)?)? > 32);
        match self.operation {
            "get" | "set" | "fp" | "sp" | "set_sp" | "strip" => Some(false),
            "save" | "restore" | "slot" => too_many_pairs(),
            "apply" => Some(!opens(self.section, self.stack) || too_many_pairs()?),
            _ => Some(!opens(self.section, self.stack)),
        }
    }
}

/// The numbers that an operation tells apart in the place of 18.
fn finer(operation: &str) -> &'static [&'static str] {
    match operation {
        "uleb" | "handler2" => &["30", "31"],
        "save" | "restore" => &["32"],
        "run" | "personality" | "walk" | "unwind" | "sweep" => &["30", "31", "32"],
        _ => &[],
    }
}

/// An answer in which each refusal that its operation tells apart is 18 again.
fn folded(operation: &str, answer: &str) -> String {
    let numbers = finer(operation);
    let mut refused = false;
    let words = answer.split(' ').map(|word| {
        let number = if refused && numbers.contains(&word) { "18" } else { word };
        refused = word == "err";
        number
    });
    words.collect::<Vec<_>>().join(" ")
}

/// The number of each refusal in an answer.
fn refusals(answer: &str) -> impl Iterator<Item = &str> {
    answer.split(' ').zip(answer.split(' ').skip(1)).filter(|(word, _)| *word == "err").map(|(_, number)| number)
}

/// Bases of 1 to 2^62, lengths of at most 2^31, no address shared.
fn opens((base, size): Range, (base2, size2): Range) -> bool {
    let bounded = |base: u64, size: u64| (1..=1 << 62).contains(&base) && size <= 1 << 31;
    bounded(base, size)
        && bounded(base2, size2)
        && (size == 0 || size2 == 0 || base + size <= base2 || base2 + size2 <= base)
}

/// Whether one begins where the other ends.
fn touch((base, size): Range, (base2, size2): Range) -> bool {
    let follows = |base: u64, size: u64, next: u64| base.checked_add(size) == Some(next);
    size > 0 && size2 > 0 && (follows(base, size, base2) || follows(base2, size2, base))
}

#[cfg(test)]
mod tests {
    use super::*;

    /// Every operation, with the numbers that it tells apart.
    const OPERATIONS: [(&str, &[u32]); 20] = [
        ("lookup", &[]),
        ("run", &[30, 31, 32]),
        ("apply", &[]),
        ("step", &[]),
        ("handler", &[]),
        ("handler2", &[30, 31]),
        ("personality", &[30, 31, 32]),
        ("save", &[32]),
        ("restore", &[32]),
        ("slot", &[]),
        ("uleb", &[30, 31]),
        ("get", &[]),
        ("fp", &[]),
        ("sp", &[]),
        ("strip", &[]),
        ("set", &[]),
        ("set_sp", &[]),
        ("walk", &[30, 31, 32]),
        ("unwind", &[30, 31, 32]),
        ("sweep", &[30, 31, 32]),
    ];

    #[test]
    fn a_refusal_is_folded_by_its_operation() {
        for (operation, told) in OPERATIONS {
            for number in 0..100 {
                let due = if told.contains(&number) { 18 } else { number };
                assert_eq!(folded(operation, &format!("err {number}")), format!("err {due}"), "{operation}");
            }
        }
    }

    #[test]
    fn only_the_numbers_of_refusals_are_folded() {
        assert_eq!(folded("walk", "walk 30:31:32 32:30:31 err 30"), "walk 30:31:32 32:30:31 err 18");
        assert_eq!(folded("unwind", "chosen 30 31 | landing 32 30,31 | err 31"), "chosen 30 31 | landing 32 30,31 | err 18");
        assert_eq!(folded("unwind", "err 32 | err 30 | err 27"), "err 18 | err 18 | err 27");
        assert_eq!(folded("sweep", "err 31 | next 30 0 31 32 30 1 30,31"), "err 18 | next 30 0 31 32 30 1 30,31");
        assert_eq!(folded("sweep", "landing 30 31 | next 32 0 30 31 32 1 30"), "landing 30 31 | next 32 0 30 31 32 1 30");
        for (operation, answer) in [("run", "state 0 30 31 30:31 32"), ("uleb", "uleb 30 31"), ("handler2", "row 30 31")] {
            assert_eq!(folded(operation, answer), answer);
        }
    }

    /// The verdict of a request in memory that opens, over answers of an oracle and the probe.
    fn verdict(told_apart: bool, operation: &str, oracle: &str, probe: &str) -> Verdict {
        Request::parse(&format!("0x1000 00 1 - {operation}")).unwrap().verdict(told_apart, oracle, probe)
    }

    #[test]
    fn an_oracle_that_says_18_agrees_with_a_finer_number() {
        for (operation, told) in OPERATIONS {
            for number in [30, 31, 32] {
                let due = if told.contains(&number) { Verdict::ToldApart } else { Verdict::Different };
                let request = format!("{operation} 0 0 0");
                assert!(verdict(false, &request, "err 18", &format!("err {number}")) == due, "{operation} {number}");
            }
        }
        assert!(verdict(false, "uleb 0x1000 0x1001", "err 18", "err 18") == Verdict::Equal);
        assert!(verdict(false, "uleb 0x1000 0x1001", "err 27", "err 30") == Verdict::Different);
        assert!(verdict(false, "uleb 0x1000 0x1001", "outside", "err 30") == Verdict::Different);
        assert!(verdict(false, "uleb 0x1000 0x1001", "uleb 18 1", "uleb 30 1") == Verdict::Different);
        assert!(verdict(false, "uleb 0x1000 0x1001", "err 30", "err 30") == Verdict::Different);
        assert!(verdict(false, "walk 0 1", "walk 1:2:3 err 18", "walk 1:2:3 err 31") == Verdict::ToldApart);
        assert!(verdict(false, "walk 0 1", "walk 1:2:18 err 18", "walk 1:2:31 err 31") == Verdict::Different);
    }

    #[test]
    fn an_oracle_that_tells_apart_has_the_number_itself() {
        for (operation, number) in [("uleb", 30), ("handler2", 31), ("run", 32), ("save 0 0 32", 32), ("personality", 30)] {
            let said = format!("err {number}");
            assert!(verdict(true, operation, &said, &said) == Verdict::ToldApart);
            assert!(verdict(true, operation, "err 18", &said) == Verdict::Different);
            assert!(verdict(true, operation, &said, "err 18") == Verdict::Different);
            assert!(verdict(true, operation, &said, &format!("err {}", number - 1)) == Verdict::Different);
        }
        assert!(verdict(true, "lookup 5", "err 18", "err 18") == Verdict::Equal);
        assert!(verdict(true, "lookup 5", "err 18", "err 30") == Verdict::Different);
        assert!(verdict(true, "sweep", "err 18 | next 1", "err 30 | next 1") == Verdict::Different);
    }

    #[test]
    fn refusals_are_counted_by_number() {
        assert_eq!(refusals("err 30 | err 32 | next 31 0").collect::<Vec<_>>(), ["30", "32"]);
        assert_eq!(refusals("uleb 30 31").count(), 0);
    }
}
