//! Running the program on trial.

use std::io::{self, Read};
use std::process::{Command, ExitStatus, Stdio};
use std::thread;

use crate::request::{write_stream, Request};

/// Stands where the trial wrote no line.
const NO_LINE: &str = "(no line)";

pub struct Output {
    lines: Vec<String>,
    last_line_ended: bool,
    status: ExitStatus,
}

impl Output {
    pub fn line(&self, number: usize) -> &str {
        self.lines.get(number).map_or(NO_LINE, String::as_str)
    }

    /// What may be wrong though the line of every request is right.
    pub fn fault(&self, requests: usize) -> Option<String> {
        if self.lines.len() > requests {
            Some(format!("the trial wrote {} lines too many", self.lines.len() - requests))
        } else if !self.last_line_ended {
            Some("the trial's last line is not ended".into())
        } else if !self.status.success() {
            Some(format!("the trial ended with {}", self.status))
        } else {
            None
        }
    }
}

pub fn run(trial: &str, requests: &[Request]) -> io::Result<Output> {
    let mut stream = Vec::new();
    write_stream(requests, &mut stream)?;
    let mut child = Command::new(trial).stdin(Stdio::piped()).stdout(Stdio::piped()).spawn()?;
    let mut input = child.stdin.take().expect("stdin is piped");
    // Written from a thread of its own, or both sides could wait on a full pipe. A trial that ends early shows in its
    // missing lines, so a write error says nothing more.
    let writer = thread::spawn(move || {
        let _ = io::copy(&mut stream.as_slice(), &mut input);
    });
    let mut output = Vec::new();
    child.stdout.take().expect("stdout is piped").read_to_end(&mut output)?;
    let status = child.wait()?;
    writer.join().expect("the writer does not panic");
    let text = String::from_utf8_lossy(&output);
    Ok(Output {
        lines: text.split_terminator('\n').map(String::from).collect(),
        last_line_ended: text.is_empty() || text.ends_with('\n'),
        status,
    })
}
