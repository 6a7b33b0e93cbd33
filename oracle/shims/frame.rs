//! Stands in for ps-unwind's frame.rs: the two EKO kinds, and the fields that eko.rs uses.

pub enum Kind {
    Eko(u32),
    Eko2 { program: usize, limit: usize },
}

pub struct FrameInfo {
    pub start: usize,
    pub eko_handlers: usize,
    pub kind: Kind,
}
