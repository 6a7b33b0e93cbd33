//! Register files for requests that take a frame's registers.

use crate::random::Random;

/// The registers of one architecture: its numbers in a file, and what they hold.
#[derive(Clone)]
pub struct File {
    numbers: Vec<u64>,
    sp: usize,
    fp: usize,
    /// The return address: register 30 on aarch64, pc on x86-64.
    ra: usize,
}

impl File {
    /// Each number its own place plus 1.
    pub fn new(arch: u64) -> File {
        let (count, sp, fp, ra) = if arch == 1 { (41, 31, 29, 30) } else { (17, 7, 6, 16) };
        File { numbers: (1..=count).collect(), sp, fp, ra }
    }

    /// Numbers of any width.
    pub fn random(arch: u64, random: &mut Random) -> File {
        let mut file = File::new(arch);
        file.numbers.fill_with(|| random.any_width());
        file
    }

    pub fn sp(mut self, value: u64) -> File {
        self.numbers[self.sp] = value;
        self
    }

    pub fn fp(mut self, value: u64) -> File {
        self.numbers[self.fp] = value;
        self
    }

    pub fn ra(mut self, value: u64) -> File {
        self.numbers[self.ra] = value;
        self
    }

    /// pc is the last number on both.
    pub fn pc(mut self, value: u64) -> File {
        let last = self.numbers.len() - 1;
        self.numbers[last] = value;
        self
    }

    /// The request's token.
    pub fn token(&self) -> String {
        let numbers: Vec<String> = self.numbers.iter().map(u64::to_string).collect();
        numbers.join(",")
    }
}
