//! generate MODULE ARCH [SEED]: prints requests of the line protocol, for a seed in every run the same ones.

mod apply;
mod file;
mod handler;
mod handler2;
mod large;
mod lookup;
mod memory;
mod personality;
mod program;
mod random;
mod registers;
mod sample;
mod short;
mod sizes;
mod step;
mod uleb;

use std::collections::HashSet;
use std::process::exit;

use random::Random;

const SEED: u64 = 0x6d6f_7274_6877_7967;

fn main() {
    let args: Vec<String> = std::env::args().skip(1).collect();
    let list = match args.iter().map(String::as_str).collect::<Vec<_>>()[..] {
        [module, arch] => requests(module, arch, "0"),
        [module, arch, seed] => requests(module, arch, seed),
        _ => None,
    };
    let Some(list) = list else {
        eprintln!("usage: generate MODULE ARCH [SEED], where ARCH is 1 or 2 and MODULE one of");
        eprintln!("foundation, lookup, frame, program, rows; short, lengths, damaged, touching, openings");
        exit(2);
    };
    let mut seen = HashSet::new();
    for request in list.iter().filter(|request| seen.insert(*request)) {
        println!("{request}");
    }
}

/// A new module adds its line here.
fn requests(module: &str, arch: &str, seed: &str) -> Option<Vec<String>> {
    let arch = arch.parse().ok().filter(|n| [1, 2].contains(n))?;
    let seed: u32 = seed.parse().ok()?;
    let random = &mut Random::new(SEED ^ arch ^ (u64::from(seed) << 2));
    match module {
        "foundation" => Some(foundation(arch, random)),
        "lookup" => Some(lookups(arch, random)),
        "frame" => Some(frame(arch, random)),
        "program" => Some(program::requests(arch, random)),
        "rows" => Some(rows(arch, random)),
        "short" => Some(short::requests(arch)),
        "lengths" => Some(large::lengths(arch, random)),
        "damaged" => Some(large::damaged(arch, random)),
        "touching" => Some(large::touching(arch, random)),
        "openings" => Some(large::openings(arch, random)),
        _ => None,
    }
}

fn foundation(arch: u64, random: &mut Random) -> Vec<String> {
    let mut list = uleb::requests(random);
    sizes::numbers(&mut list);
    list.extend(registers::requests(arch, random));
    list
}

fn lookups(arch: u64, random: &mut Random) -> Vec<String> {
    let mut list = lookup::requests(arch, random);
    sizes::lookups(&mut list, arch);
    list
}

fn frame(arch: u64, random: &mut Random) -> Vec<String> {
    let mut list = apply::requests(arch, random);
    list.extend(step::requests(arch, random));
    sizes::slots(&mut list, arch);
    list
}

fn rows(arch: u64, random: &mut Random) -> Vec<String> {
    let mut list = handler::requests(random);
    list.extend(handler2::requests(random));
    list.extend(personality::requests(arch, random));
    sizes::tables(&mut list, arch);
    sizes::tables2(&mut list, arch);
    sizes::reasons(&mut list, arch);
    list
}
