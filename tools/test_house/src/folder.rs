//! A house's folder, and runs of the program in it.

use crate::bytes::frame;
use std::env;
use std::fs::{self, OpenOptions};
use std::io::{BufRead, BufReader, Write};
use std::path::{Path, PathBuf};
use std::process::{Child, ChildStdin, ChildStdout, Command, Stdio};
use std::sync::atomic::{AtomicUsize, Ordering};

/// A folder of a house among so many, removed when it is let go.
pub struct Folder {
    pub path: PathBuf,
    pub house: u8,
    pub houses: u8,
}

/// What a run printed, and its status; none where a signal ended it.
#[derive(Debug)]
pub struct Run {
    pub out: String,
    pub err: String,
    pub status: Option<i32>,
}

impl Run {
    pub fn lines(&self) -> Vec<&str> {
        self.out.lines().collect()
    }
}

/// The program under test, by a path that holds in every folder.
pub fn program() -> PathBuf {
    let path = env::args_os().nth(1).expect("the program's path");
    fs::canonicalize(path).expect("the program")
}

/// The library that traces calls and lets them fail.
fn faults() -> PathBuf {
    let here = env::current_exe().expect("own path");
    here.with_file_name("libfaults.so")
}

impl Folder {
    pub fn new(house: u8, houses: u8) -> Folder {
        static COUNT: AtomicUsize = AtomicUsize::new(0);
        let number = COUNT.fetch_add(1, Ordering::SeqCst);
        let path = env::temp_dir().join(format!("test_house.{}.{number}", std::process::id()));
        fs::create_dir(&path).expect("a folder");
        Folder {
            path,
            house,
            houses,
        }
    }

    pub fn file(&self, name: &str) -> PathBuf {
        self.path.join(name)
    }

    pub fn read(&self, name: &str) -> Vec<u8> {
        fs::read(self.file(name)).unwrap_or_default()
    }

    pub fn write(&self, name: &str, bytes: &[u8]) {
        fs::write(self.file(name), bytes).expect("a file written");
    }

    /// Adds a frame to `in`.
    pub fn post(&self, message: &[u8]) {
        append(&self.file("in"), &frame(self.house, message));
    }

    pub fn command(&self) -> Command {
        let mut command = Command::new(program());
        command
            .arg(self.house.to_string())
            .arg(self.houses.to_string())
            .current_dir(&self.path)
            .stdin(Stdio::piped())
            .stdout(Stdio::piped())
            .stderr(Stdio::piped());
        command
    }

    /// A command whose calls are traced into the file `trace` of the folder, and one of which fails.
    pub fn traced(&self, fail: &str) -> Command {
        let mut command = self.command();
        command
            .env("LD_PRELOAD", faults())
            .env("FAULTS_TRACE", self.file("trace"));
        if !fail.is_empty() {
            command.env("FAULTS_FAIL", fail);
        }
        command
    }

    pub fn run(&self, input: &str) -> Run {
        run(self.command(), input.as_bytes())
    }

    pub fn start(&self) -> Running {
        Running::new(self.command())
    }

    pub fn trace(&self) -> Vec<String> {
        let text = String::from_utf8(self.read("trace")).expect("text");
        text.lines().map(str::to_string).collect()
    }
}

impl Drop for Folder {
    fn drop(&mut self) {
        let _ = fs::remove_dir_all(&self.path);
    }
}

pub fn append(path: &Path, bytes: &[u8]) {
    let mut how = OpenOptions::new();
    let mut file = how.create(true).append(true).open(path).expect("a file");
    file.write_all(bytes).expect("a write");
}

/// Runs the command on this input to its end.
pub fn run(mut command: Command, input: &[u8]) -> Run {
    let mut child = command.spawn().expect("the program starts");
    if let Some(mut stdin) = child.stdin.take() {
        let _ = stdin.write_all(input);
    }
    let ended = child.wait_with_output().expect("the program ends");
    Run {
        out: String::from_utf8_lossy(&ended.stdout).into_owned(),
        err: String::from_utf8_lossy(&ended.stderr).into_owned(),
        status: ended.status.code(),
    }
}

/// A house that runs, and is asked line by line.
pub struct Running {
    pub child: Child,
    stdin: Option<ChildStdin>,
    stdout: BufReader<ChildStdout>,
    line: usize,
    /// `start S`, or what else it printed first
    pub first: String,
}

impl Running {
    pub fn new(mut command: Command) -> Running {
        Running::of(command.spawn().expect("the program starts"))
    }

    /// A house that was started just now.
    pub fn of(mut child: Child) -> Running {
        let stdin = child.stdin.take();
        let mut stdout = BufReader::new(child.stdout.take().expect("standard output"));
        let mut first = String::new();
        stdout.read_line(&mut first).expect("a line");
        Running {
            child,
            stdin,
            stdout,
            line: 0,
            first: first.trim_end().to_string(),
        }
    }

    fn send(&mut self, line: &str) {
        self.line += 1;
        let stdin = self.stdin.as_mut().expect("standard input");
        let _ = stdin.write_all(format!("{line}\n").as_bytes());
    }

    /// What is printed for the line and the messages before it, without the empty line that is sent after it; the numbers of lines
    /// are replaced by `line`. Where the program ends, what it printed until then.
    pub fn ask(&mut self, line: &str) -> Vec<String> {
        self.send(line);
        let asked = format!("{}:", self.line);
        self.send("");
        let last = format!("{}: ok", self.line);
        let mut answers = Vec::new();
        loop {
            let mut text = String::new();
            let len = self.stdout.read_line(&mut text).expect("a line");
            let text = text.trim_end();
            if len == 0 || text == last {
                return answers;
            }
            answers.push(text.replace(&asked, "line:"));
        }
    }

    /// Ends it in the middle, as a stop of the machine would.
    pub fn kill(mut self) {
        self.child.kill().expect("a signal");
        self.child.wait().expect("an end");
    }

    /// Closes its input, and waits for its end.
    pub fn end(mut self) -> Option<i32> {
        drop(self.stdin.take());
        self.child.wait().expect("an end").code()
    }
}
