//! What the build script tells cargo.
#[allow(dead_code)]
#[path = "../build.rs"]
mod script;

use std::path::Path;

fn line<'a>(lines: &'a [String], key: &str) -> Option<&'a str> {
    lines.iter().find_map(|line| line.strip_prefix(key))
}

#[test]
fn a_missing_library_is_an_error_that_says_what_to_run() {
    let lines = script::instructions(Path::new("/nowhere/host"));
    let error = line(&lines, "cargo::error=").expect("an error");
    assert!(error.contains("/nowhere/host/../crates/capi/out/libcapi.a is missing: run host/build"), "{error}");
    assert_eq!(line(&lines, "cargo::rustc-link-lib="), None);
    assert_eq!(line(&lines, "cargo::rerun-if-changed="), Some("/nowhere/host/../crates/capi/out/libcapi.a"));
}

#[test]
fn the_library_is_linked_and_watched() {
    let lines = script::instructions(Path::new(env!("CARGO_MANIFEST_DIR")));
    assert_eq!(line(&lines, "cargo::error="), None);
    assert_eq!(line(&lines, "cargo::rustc-link-lib="), Some("static=capi"));
    let folder = line(&lines, "cargo::rustc-link-search=native=").expect("a folder");
    assert_eq!(line(&lines, "cargo::rerun-if-changed="), Some(&*format!("{folder}/libcapi.a")));
}

#[test]
fn the_package_names_no_licence_and_is_not_published() {
    let package = include_str!("../Cargo.toml");
    assert!(!package.contains("license") && package.contains("\npublish = false\n"));
}
