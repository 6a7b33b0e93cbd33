//! Row tables: random ones, written in both versions, with the place of each row.
use std::ops::Range;

use crate::program::uleb;
use crate::random::Random;

#[derive(Clone, Copy, PartialEq, Debug)]
pub struct Row {
    pub ret: u32,
    pub pad: u32,
    pub action: u32,
}

pub const CLEANUP: u32 = 0;
pub const CATCH: u32 = 1;
pub const TERMINATE: u32 = 2;

impl Row {
    /// Cleanup and catch have a pad, terminate has none.
    pub fn is_good(self) -> bool {
        match self.action {
            CLEANUP | CATCH => self.pad > 0,
            TERMINATE => self.pad == 0,
            _ => false,
        }
    }
}

/// Of a thousand rows, how many are a catch, terminate, or refused.
#[derive(Clone, Copy)]
pub struct Shares {
    pub catch: usize,
    pub terminate: usize,
    pub refused: usize,
}

/// Rows of random return offsets of a function, rising, none at 0.
pub fn random(random: &mut Random, length: usize, shares: Shares) -> Vec<Row> {
    let count = random.pick(&[0, 1, 3, 5, 9, 16]);
    let mut rets: Vec<u32> = (0..count).map(|_| 1 + random.below(length + 4) as u32).collect();
    rets.sort_unstable();
    rets.dedup();
    rets.into_iter().map(|ret| row(random, ret, shares)).collect()
}

fn row(random: &mut Random, ret: u32, shares: Shares) -> Row {
    let bits = random.pick(&[6, 6, 16, 30]);
    let pad = 1 + (random.word() as u32 >> (32 - bits)) % 0x3fff_ffff;
    if random.per_mille(shares.refused) {
        return random.pick(&[Row { ret, pad: 0, action: 0 }, Row { ret, pad, action: 2 }, Row { ret, pad, action: 3 }]);
    }
    match random.below(1000) {
        n if n < shares.catch => Row { ret, pad, action: CATCH },
        n if n < shares.catch + shares.terminate => Row { ret, pad: 0, action: TERMINATE },
        _ => Row { ret, pad, action: CLEANUP },
    }
}

/// Where a row stands: its return offset, or in version 2 its delta; its pad and action.
#[derive(Clone, PartialEq, Debug)]
pub struct Place {
    pub ret: Range<usize>,
    pub rest: Range<usize>,
}

/// A version 1 table that is written at the end of these bytes, and the places of its rows.
pub fn table(rows: &[Row], bytes: &mut Vec<u8>) -> Vec<Place> {
    bytes.extend((rows.len() as u32).to_le_bytes());
    let write = |row: &Row| {
        let at = bytes.len();
        bytes.extend([row.ret, row.pad, row.action].iter().flat_map(|word| word.to_le_bytes()));
        Place { ret: at..at + 4, rest: at + 4..at + 12 }
    };
    rows.iter().map(write).collect()
}

/// The same of version 2.
pub fn table2(random: &mut Random, rows: &[Row], bytes: &mut Vec<u8>) -> Vec<Place> {
    let mut before = 0;
    uleb(random, rows.len(), bytes);
    let write = |row: &Row| {
        let at = bytes.len();
        uleb(random, (row.ret - before) as usize, bytes);
        let rest = bytes.len();
        uleb(random, (row.pad * 4 + row.action) as usize, bytes);
        before = row.ret;
        Place { ret: at..rest, rest: rest..bytes.len() }
    };
    rows.iter().map(write).collect()
}
