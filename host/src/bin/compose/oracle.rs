//! The oracle as a process that is asked one request after the other.
use std::io::{self, BufRead, BufReader, Write};
use std::process::{Child, ChildStdin, ChildStdout, Command, Stdio};

pub struct Oracle {
    asked: ChildStdin,
    said: BufReader<ChildStdout>,
    _process: Child,
}

impl Oracle {
    pub fn start(program: &str) -> io::Result<Oracle> {
        let mut process = Command::new(program).stdin(Stdio::piped()).stdout(Stdio::piped()).spawn()?;
        let (asked, said) = (process.stdin.take(), process.stdout.take());
        let (asked, said) = (asked.expect("a pipe"), BufReader::new(said.expect("a pipe")));
        Ok(Oracle { asked, said, _process: process })
    }

    /// Its answer to a line.
    pub fn ask(&mut self, line: &str) -> io::Result<String> {
        self.asked.write_all(format!("{line}\n").as_bytes())?;
        let mut said = String::new();
        self.said.read_line(&mut said)?;
        Ok(said.trim_end().to_string())
    }
}
