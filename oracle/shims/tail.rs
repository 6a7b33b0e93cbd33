
/// Appended to the build-time copy of eko.rs: opens its private items to the protocol.
pub mod shim {
    use super::{Bytes, HOST, Result, State};

    /// One number at `pos`, and the cursor after it.
    pub fn uleb(pos: usize, end: usize) -> Result<(usize, usize)> {
        let mut bytes = Bytes { pos, end };
        let value = bytes.uleb()?;
        Ok((value, bytes.pos))
    }

    pub fn save(state: &mut State, reg: usize, slot: usize) -> Result<()> {
        state.save(reg, slot)
    }

    pub fn restore(state: &mut State, reg: usize) -> Result<()> {
        state.restore(&HOST, reg)
    }
}
