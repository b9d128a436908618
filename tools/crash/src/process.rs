//! A house that runs: lines go in, and what it prints comes back.

use post::frames::Name;
use std::io::{BufRead, BufReader, Write};
use std::os::unix::process::ExitStatusExt;
use std::process::{Child, ChildStdin, ChildStdout, Command};
use std::sync::mpsc::{self, Receiver, RecvTimeoutError};
use std::thread;
use std::time::Duration;

/// How long a house may take to answer.
const PATIENCE: Duration = Duration::from_secs(60);

/// A line that a house printed.
#[derive(Debug, PartialEq, Eq)]
pub enum Printed {
    Start(u32),
    Refused(u32),
    /// of a message; the number of a refusal, if it was one
    Message(Option<u32>),
    /// of the line of that number
    Line(u64, String),
    Ruled(Name),
}

fn read_name(text: &str) -> Option<Name> {
    let mut words = text.split(' ');
    Some(Name {
        home: words.next()?.parse().ok()?,
        start: words.next()?.parse().ok()?,
        number: words.next()?.parse().ok()?,
    })
}

impl Printed {
    fn read(text: &str) -> Option<Printed> {
        if let Some(start) = text.strip_prefix("start ") {
            return Some(Printed::Start(start.parse().ok()?));
        }
        if let Some(number) = text.strip_prefix("refused ") {
            return Some(Printed::Refused(number.parse().ok()?));
        }
        if let Some(name) = text.strip_prefix("ruled ") {
            return Some(Printed::Ruled(read_name(name)?));
        }
        let (source, answer) = text.split_once(": ")?;
        if source != "in" {
            return Some(Printed::Line(source.parse().ok()?, answer.to_string()));
        }
        if answer == "ok" {
            return Some(Printed::Message(None));
        }
        Some(Printed::Message(Some(answer.parse().ok()?)))
    }
}

/// Hands on every whole line of the output.
fn pass_lines(output: ChildStdout) -> Receiver<String> {
    let (sender, receiver) = mpsc::channel();
    thread::spawn(move || {
        let mut output = BufReader::new(output);
        let mut line = String::new();
        while output.read_line(&mut line).is_ok() {
            if line.pop() != Some('\n') || sender.send(std::mem::take(&mut line)).is_err() {
                break;
            }
        }
    });
    receiver
}

pub struct Process {
    child: Child,
    input: Option<ChildStdin>,
    lines: Receiver<String>,
    sent: u64,
}

impl Process {
    /// Starts the command, whose input and output are pipes.
    pub fn new(mut command: Command) -> Result<Process, String> {
        let mut child = command.spawn().map_err(|e| format!("not started: {e}"))?;
        let input = child.stdin.take();
        let output = child.stdout.take().ok_or("no output")?;
        Ok(Process {
            child,
            input,
            lines: pass_lines(output),
            sent: 0,
        })
    }

    /// Sends the lines, and answers the number of the last.
    pub fn send(&mut self, lines: &[String]) -> u64 {
        let text: String = lines.iter().map(|line| format!("{line}\n")).collect();
        self.sent += lines.len() as u64;
        if let Some(input) = &mut self.input {
            // one that has ended is found out when it doesn't answer
            let _ = input.write_all(text.as_bytes());
        }
        self.sent
    }

    /// The next line that it prints.
    pub fn next(&mut self) -> Result<Printed, String> {
        let text = match self.lines.recv_timeout(PATIENCE) {
            Ok(text) => text,
            Err(RecvTimeoutError::Timeout) => return Err("no answer".to_string()),
            Err(RecvTimeoutError::Disconnected) => {
                let status = self.child.wait().map_err(|e| e.to_string())?;
                return Err(format!("ended by itself ({status})"));
            }
        };
        Printed::read(&text).ok_or(format!("printed '{text}'"))
    }

    /// Ends it in the middle, and answers what it had printed by then.
    pub fn kill(mut self) -> Result<Vec<Printed>, String> {
        self.child.kill().map_err(|e| e.to_string())?;
        let status = self.child.wait().map_err(|e| e.to_string())?;
        if status.signal().is_none() {
            return Err(format!("ended by itself ({status})"));
        }
        let read = |text: String| Printed::read(&text).ok_or(format!("printed '{text}'"));
        self.lines.iter().map(read).collect()
    }

    /// Closes its input, and waits for its end, which must be a good one.
    pub fn end(mut self) -> Result<(), String> {
        drop(self.input.take());
        let status = self.child.wait().map_err(|e| e.to_string())?;
        if status.success() {
            return Ok(());
        }
        Err(format!("ended badly ({status})"))
    }
}

impl Drop for Process {
    fn drop(&mut self) {
        let _ = self.child.kill();
        let _ = self.child.wait();
    }
}
