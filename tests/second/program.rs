//! The proved programs, run as a user runs them.

use std::io::Write;
use std::process::{Command, Stdio};

/// What a program of this name writes for this input.
pub fn run(name: &str, input: &[u8]) -> Vec<u8> {
    let path = format!("crates/{name}/out/{name}");
    let mut child = Command::new(&path)
        .stdin(Stdio::piped())
        .stdout(Stdio::piped())
        .spawn()
        .unwrap_or_else(|error| panic!("{path}: {error}"));
    // A program that has read enough may end before it has taken all: that is no failure here.
    let _ = child.stdin.take().unwrap().write_all(input);
    child.wait_with_output().unwrap().stdout
}
