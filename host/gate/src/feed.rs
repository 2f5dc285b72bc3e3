//! Starts one of the two programs, feeds it and takes what it prints.

use std::io::{Read, Write};
use std::process::{Command, Stdio};

pub const CHECK: &str = "target/bin/boardcheck";
pub const RUN: &str = "target/bin/boardrun";

/// What the run program, or the check program, prints for a text.
pub fn prints(run: bool, text: &[u8]) -> Result<String, String> {
    fed(if run { RUN } else { CHECK }, |input| {
        // A program that has seen enough may close its end: what it printed decides.
        let _ = input.write_all(text);
    })
}

/// Starts a program, feeds it, and gives what it printed; ending by a signal is an error.
pub fn fed(program: &str, feed: impl FnOnce(&mut dyn Write) + Send) -> Result<String, String> {
    let mut child = Command::new(program)
        .stdin(Stdio::piped())
        .stdout(Stdio::piped())
        .spawn()
        .map_err(|error| format!("{program}: {error}"))?;
    let mut input = child.stdin.take().expect("it is piped");
    let mut output = child.stdout.take().expect("it is piped");
    let mut printed = Vec::new();
    let read = std::thread::scope(|scope| {
        scope.spawn(move || feed(&mut input));
        output.read_to_end(&mut printed)
    });
    read.map_err(|error| format!("{program}: {error}"))?;
    let status = child.wait().map_err(|error| format!("{program}: {error}"))?;
    if !status.success() {
        return Err(format!("{program} ended with {status}"));
    }
    String::from_utf8(printed).map_err(|_| format!("{program} printed bytes that are no text"))
}
