//! A section with another row in the place of one.
use crate::function::Code;
use crate::random::Random;
use crate::rows::{CATCH, CLEANUP, Place, TERMINATE};
use crate::section::Section;

/// What the row has become.
#[derive(Clone, Copy, PartialEq)]
pub enum Spoiled {
    /// It is refused with this number.
    Refused(u32),
    Cleanup,
    Catch,
    Terminate,
}

/// The bytes of the section with a row of a function changed; none where its table has no row to do that by.
pub fn section(section: &Section, (function, row): (usize, usize), random: &mut Random) -> Option<(Vec<u8>, Spoiled)> {
    let places = &section.places[function];
    let version1 = matches!(section.functions[function].code, Code::Word(_));
    let mut table = Table { bytes: section.bytes.clone(), version1 };
    let place = places.get(row)?;
    let spoiled = match random.below(8) {
        0..3 => {
            table.set_action(place, 3);
            Spoiled::Refused(18)
        }
        3 | 4 => {
            table.repeat(places, row)?;
            Spoiled::Refused(24)
        }
        5 => {
            table.set_action(place, CATCH as u8);
            Spoiled::Catch
        }
        6 => {
            table.set_action(place, CLEANUP as u8);
            Spoiled::Cleanup
        }
        _ => {
            table.terminate(place);
            Spoiled::Terminate
        }
    };
    Some((table.bytes, spoiled))
}

struct Table {
    bytes: Vec<u8>,
    version1: bool,
}

impl Table {
    /// The pad stays.
    fn set_action(&mut self, place: &Place, action: u8) {
        if self.version1 {
            self.bytes[place.rest.start + 4] = action;
        } else {
            let byte = &mut self.bytes[place.rest.start];
            *byte = *byte & !3 | action;
        }
    }

    /// No pad, and terminate.
    fn terminate(&mut self, place: &Place) {
        if self.version1 {
            self.bytes[place.rest.clone()].fill(0);
        } else {
            self.clear(place.rest.clone());
        }
        self.set_action(place, TERMINATE as u8);
    }

    /// A number of version 2 becomes 0, in as many bytes.
    fn clear(&mut self, range: std::ops::Range<usize>) {
        self.bytes[range].iter_mut().for_each(|byte| *byte &= 0x80);
    }

    /// The row after this one, if there is one, else the one before has the same return offset. In version 2 a delta is 0.
    fn repeat(&mut self, places: &[Place], row: usize) -> Option<()> {
        let after = row + 1 < places.len();
        if self.version1 {
            let other = if after { row + 1 } else { row.checked_sub(1)? };
            self.bytes.copy_within(places[row].ret.clone(), places[other].ret.start);
        } else {
            self.clear(places[row + after as usize].ret.clone());
        }
        Some(())
    }
}
