//! State programs whose state is full, or nearly so, when c9 or ca saves fp and the return register: run by the library, and by hand.
use morthwyga::Memory;

use crate::check::Checked;
use crate::checked;
use crate::figures::Figures;
use crate::numbers::Numbers;
use crate::program::uleb;
use crate::random::Random;
use crate::state::State;

/// The most pairs of a state.
const MOST: usize = 32;

/// One program: saves up to 29 to 32 pairs, then c9 or ca, then END.
pub fn state(numbers: &'static Numbers, random: &mut Random, figures: &mut Figures) -> Checked {
    let mut bytes = Vec::new();
    let mut due = State::entry(numbers);
    for reg in registers(numbers, random, due.pairs.len()) {
        let slot = random.within(1, 200) as u16;
        if reg < 64 {
            bytes.push(0x80 | reg as u8);
        } else {
            bytes.push(0xc4);
            uleb(random, reg as usize, &mut bytes);
        }
        uleb(random, slot as usize, &mut bytes);
        due.put(reg, slot);
    }
    let based = random.once_in(2);
    bytes.extend([if based { 0xc9 } else { 0xca }, 0]);
    if based {
        (due.fp, due.units) = (true, 2);
    }
    due.put(numbers.fp, 2);
    due.put(numbers.ra, 1);
    let base = 0x1000;
    let memory = Memory { section: &bytes, section_base: base, stack: &[], stack_base: 1 };
    let told = checked::run(memory, numbers.arch as u8, base, base + bytes.len(), 0).map_err(|wrong| wrong.0)?;
    figures.full += 1;
    let pairs: Vec<(u16, u16)> = (0..told.state.count).map(|i| (told.state.regs[i], told.state.slots[i])).collect();
    let given = State { fp: told.state.cfa_fp, units: told.state.cfa_units as usize, pairs };
    let refused = due.pairs.len() > MOST;
    if told.status == if refused { 32 } else { 0 } && (refused || given == due && told.after == base + bytes.len()) {
        return Ok(());
    }
    Err(format!("program {bytes:x?}: status {}, {given:?}, not {due:?}", told.status))
}

/// Registers to save until there are 29 to 32 pairs; at times fp and the return register are among them.
fn registers(numbers: &Numbers, random: &mut Random, had: usize) -> Vec<u16> {
    let first = 100 + random.below(1000) as u16;
    let mut regs: Vec<u16> = (0..random.within(29, MOST) - had).map(|i| first + i as u16).collect();
    for reg in [numbers.fp, numbers.ra] {
        if random.once_in(3) && !(numbers.pushes && reg == numbers.ra) {
            let i = random.below(regs.len());
            regs[i] = reg;
        }
    }
    regs.dedup();
    regs
}
