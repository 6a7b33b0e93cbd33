//! Links the static library that `host/build` makes.
use std::path::Path;

fn main() {
    let here = std::env::var("CARGO_MANIFEST_DIR").expect("cargo sets it");
    instructions(Path::new(&here)).iter().for_each(|line| println!("{line}"));
}

/// What cargo is told of the library that belongs to the crate in a folder.
pub fn instructions(here: &Path) -> Vec<String> {
    let folder = here.join("../crates/capi/out");
    let library = folder.join("libcapi.a");
    // A file that is not there yet counts as changed, so the library is found once it is made.
    let mut lines = vec![format!("cargo::rerun-if-changed={}", library.display()), "cargo::rerun-if-changed=build.rs".to_string()];
    if library.is_file() {
        lines.push(format!("cargo::rustc-link-search=native={}", folder.display()));
        lines.push("cargo::rustc-link-lib=static=capi".to_string());
    } else {
        let missing = library.display();
        lines.push(format!("cargo::error=the static library {missing} is missing: run host/build, which proves and builds it"));
    }
    lines
}
