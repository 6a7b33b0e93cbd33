//! What a call hands back, and that it is refused with 28 for an architecture that there is not.
use morthwyga::Arch;

use crate::checked::{Told, Wrong};

const UNKNOWN: [u8; 3] = [0, 3, 255];

/// Makes a call for the architecture, and for each that there is not.
pub fn asked(arch: Arch, status: impl Fn(u8) -> Told<u32>) -> Told<()> {
    status(arch as u8)?;
    for unknown in UNKNOWN {
        let status = status(unknown)?;
        if status != 28 {
            return Err(Wrong(format!("architecture {unknown} gets {status}, not 28")));
        }
    }
    Ok(())
}
