//! Requests to the program `probe`.
use std::io::Write;
use std::process::{Command, Stdio};

/// What the probe of an architecture answers to each line.
pub fn probe(arch: u8, lines: &[String]) -> Vec<String> {
    let mut command = Command::new(env!("CARGO_BIN_EXE_probe"));
    let mut child = command.arg(arch.to_string()).stdin(Stdio::piped()).stdout(Stdio::piped()).spawn().unwrap();
    let mut asked = child.stdin.take().unwrap();
    let text = lines.join("\n") + "\n";
    let writer = std::thread::spawn(move || asked.write_all(text.as_bytes()).unwrap());
    let said = String::from_utf8(child.wait_with_output().unwrap().stdout).unwrap();
    writer.join().unwrap();
    said.lines().map(str::to_string).collect()
}

/// Bytes as a request has them: `-` for none.
pub fn hex(bytes: &[u8]) -> String {
    if bytes.is_empty() { "-".to_string() } else { bytes.iter().map(|byte| format!("{byte:02x}")).collect() }
}
