//! capture DIR: writes the sample captures to a folder. docs/CAPTURE.md has the format.
mod format;
mod input;
mod job;
mod refused;
mod section;
mod throws;

use std::path::Path;
use std::{env, fs, process};

fn main() {
    let Some(folder) = env::args().nth(1) else {
        eprintln!("usage: capture DIR");
        process::exit(2);
    };
    for (name, bytes) in throws::samples().into_iter().chain(refused::samples()).chain(input::samples()) {
        let path = Path::new(&folder).join(format!("{name}.capture"));
        if let Err(error) = fs::write(&path, bytes) {
            eprintln!("capture: {}: {error}", path.display());
            process::exit(1);
        }
    }
}
