//! Inputs that are no captures.
use crate::format::Sample;
use crate::throws;

/// Where interrupted stands in a capture.
const INTERRUPTED: usize = 384;

pub fn samples() -> Vec<Sample> {
    let (_, good) = throws::samples().swap_remove(0);
    let (mut version, mut interrupted) = (good.clone(), good.clone());
    version[8] = 2;
    interrupted[INTERRUPTED] = 2;
    vec![
        ("input-empty", Vec::new()),
        ("input-foreign", b"\x7fELF, or any other file\n".to_vec()),
        ("input-version-2", version),
        ("input-interrupted-2", interrupted),
        ("input-cut-in-the-head", good[..100].to_vec()),
        ("input-cut-in-the-section", good[..420].to_vec()),
        ("input-cut-in-the-stack", good[..good.len() - 1].to_vec()),
        ("input-overlong", [&good[..], b"more"].concat()),
    ]
}
