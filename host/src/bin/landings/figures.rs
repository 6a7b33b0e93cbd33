//! What a run counts.
use std::collections::BTreeMap;
use std::ops::RangeBounds;

#[derive(Default)]
pub struct Figures {
    pub throws: usize,
    pub interrupts: usize,
    /// By the answer: 3, 5, 6.
    pub answers: [usize; 7],
    pub landings: usize,
    /// Those whose pc is a sum that wraps.
    pub wrapped: usize,
    pub finished: usize,
    /// Resume calls that were lent another stack than the throw.
    pub overwritten: usize,
    /// Landings of such calls, and those of them over a stack with another base or length.
    pub overwritten_landings: usize,
    pub resized_landings: usize,
    /// Irregular calls, by their status.
    pub irregular: BTreeMap<u32, usize>,
    /// Calls with an opening or an architecture that is refused.
    pub broken: usize,
    /// Runs of programs that fill a state.
    pub full: usize,
    /// Throws that are refused for a row.
    pub refused_throws: usize,
    pub walks: usize,
    /// Events within and against the rules.
    pub events: usize,
    pub refused: usize,
    /// Throws that are not compared, since the section is not sound for an open frame.
    pub unsound: usize,
    pub frames: usize,
    pub version1: usize,
    pub on_fp: usize,
    /// Frames with fp as base that have not saved it: their caller had set it.
    pub given_fp: usize,
    /// Frames with the return address in its register alone.
    pub unsaved: usize,
    pub machines: usize,
    pub depths: [usize; BOUNDS.len()],
    pub deepest: usize,
    pub most_landings: usize,
}

/// The most frames of each line of the histogram.
pub const BOUNDS: [usize; 8] = [1, 4, 16, 64, 256, 512, 1023, 1024];

impl Figures {
    pub fn depth(&mut self, depth: usize) {
        let line = BOUNDS.iter().position(|bound| depth <= *bound).expect("at most 1,024 frames");
        self.depths[line] += 1;
        self.deepest = self.deepest.max(depth);
    }

    /// How many irregular calls have a status of this range.
    fn irregular_with(&self, statuses: impl RangeBounds<u32>) -> usize {
        self.irregular.range(statuses).map(|(_, count)| count).sum()
    }

    pub fn print(&self, name: &str) {
        println!("{name}: {} throws, {} resume calls over an overwritten stack, no difference", self.throws, self.overwritten);
        let lines = [
            ("of them interrupts", self.interrupts),
            ("chosen", self.answers[6]),
            ("ended in 3", self.answers[3]),
            ("ended in 5", self.answers[5]),
            ("landings", self.landings),
            ("of them at a pc that wraps", self.wrapped),
            ("most landings of a throw", self.most_landings),
            ("finished", self.finished),
            ("resume calls over the throw's stack", self.landings + self.finished - self.overwritten),
            ("resume calls over an overwritten stack", self.overwritten),
            ("landings over an overwritten stack", self.overwritten_landings),
            ("of them with another base or length", self.resized_landings),
            ("irregular calls refused", self.irregular_with(2..)),
            ("of them with 18", self.irregular_with(18..=18)),
            ("of them with 22", self.irregular_with(22..=22)),
            ("of them with 24", self.irregular_with(24..=24)),
            ("of them with 27", self.irregular_with(27..=27)),
            ("of them with 29", self.irregular_with(29..=29)),
            ("irregular calls not refused", self.irregular_with(..2)),
            ("calls refused with 28", self.broken),
            ("runs that fill a state", self.full),
            ("throws refused for a row", self.refused_throws),
            ("walks", self.walks),
            ("open frames at the throws", self.frames),
            ("of them version 1", self.version1),
            ("of them with fp as base", self.on_fp),
            ("of them with fp as base, not saved", self.given_fp),
            ("of them with the return register unsaved", self.unsaved),
            ("machines", self.machines),
            ("events within the rules", self.events),
            ("events against the rules", self.refused),
            ("throws in a section that is not sound", self.unsound),
        ];
        for (what, count) in lines {
            println!("  {what:<40} {count:>12}");
        }
        let mut from = 1;
        for (bound, count) in BOUNDS.iter().zip(self.depths) {
            println!("  {:<40} {count:>12}", format!("depth {from} to {bound}"));
            from = bound + 1;
        }
    }
}
