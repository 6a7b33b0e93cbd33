//! The programs that make the samples and show the use of the crate, against what the repository says of them.
use std::path::{Path, PathBuf};
use std::process::Command;
use std::{env, fs, process};

const CAPTURE: &str = env!("CARGO_BIN_EXE_capture");

fn here(path: &str) -> PathBuf {
    Path::new(env!("CARGO_MANIFEST_DIR")).join(path)
}

fn captures(folder: &Path) -> Vec<(PathBuf, Vec<u8>)> {
    let paths = fs::read_dir(folder).unwrap().map(|entry| entry.unwrap().path());
    let captures = paths.filter(|path| path.extension().is_some_and(|end| end == "capture"));
    let mut found: Vec<_> = captures.map(|path| (path.file_name().unwrap().into(), fs::read(&path).unwrap())).collect();
    found.sort();
    found
}

#[test]
fn the_samples_are_those_that_capture_writes() {
    let made = env::temp_dir().join(format!("captures-{}", process::id()));
    fs::create_dir(&made).unwrap();
    assert!(Command::new(CAPTURE).arg(&made).status().unwrap().success());
    let same = captures(&made) == captures(&here("../samples"));
    fs::remove_dir_all(&made).unwrap();
    assert!(same);
}

/// Lines as a block of a page.
fn block(text: &str) -> String {
    text.lines().map(|line| format!("    {line}\n")).collect()
}

#[test]
fn the_example_is_and_prints_what_the_pages_say() {
    let example = Path::new(CAPTURE).with_file_name("examples").join("unwind");
    let said = String::from_utf8(Command::new(example).output().unwrap().stdout).unwrap();
    assert!(!said.is_empty() && fs::read_to_string(here("README.md")).unwrap().contains(&block(&said)));
    let page = fs::read_to_string(here("../README.md")).unwrap();
    let (_, thrown) = said.split_once("frame 2: ").unwrap().1.split_once('\n').unwrap();
    let (thrown, _) = thrown.split_once("stack and section").unwrap();
    assert!(thrown.lines().count() == 4 && page.contains(&block(thrown)));
    let text = fs::read_to_string(here("examples/unwind.rs")).unwrap();
    let (_, throw) = text.split_once("fn throw").unwrap().1.split_once('\n').unwrap();
    assert!(page.contains(throw.strip_suffix("}\n").unwrap()));
}
