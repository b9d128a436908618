//! A house of the test: its folder, its process while it is up, and what it has said.

use crate::disk::durable_after;
use crate::ledger::Ledger;
use crate::process::{Printed, Process};
use crate::said::Said;
use post::random::Random;
use std::env;
use std::fs::{self, OpenOptions};
use std::path::{Path, PathBuf};
use std::process::{Command, Stdio};
use std::thread;
use std::time::Duration;

/// The longest time after which a house is killed that has got its lines.
const KILL_WITHIN_MICROS: u64 = 2000;

/// So many lines fit into a pipe that isn't read from.
const LINES_AT_ONCE: usize = 100;

pub struct House {
    pub number: u8,
    houses: u8,
    program: PathBuf,
    pub folder: PathBuf,
    process: Option<Process>,
    pub said: Said,
    /// the number of its next order in this start
    pub next: u32,
    /// the bytes of the ledger that a stop of the machine would leave
    durable: u64,
    /// messages that were refused because of other orders
    pub refused: u64,
    pub cuts: u64,
    pub kills: u64,
}

/// The library that traces calls.
fn tracer() -> Result<PathBuf, String> {
    let here = env::current_exe().map_err(|e| e.to_string())?;
    let library = here.with_file_name("libfaults.so");
    if library.is_file() {
        return Ok(library);
    }
    Err(format!("{}: absent", library.display()))
}

impl House {
    pub fn new(number: u8, houses: u8, program: &Path, folder: PathBuf) -> Result<House, String> {
        fs::create_dir_all(&folder).map_err(|e| e.to_string())?;
        Ok(House {
            number,
            houses,
            program: program.to_path_buf(),
            folder,
            process: None,
            said: Said::default(),
            next: 0,
            durable: 0,
            refused: 0,
            cuts: 0,
            kills: 0,
        })
    }

    pub fn is_up(&self) -> bool {
        self.process.is_some()
    }

    fn at<T>(&self, answer: Result<T, String>) -> Result<T, String> {
        answer.map_err(|why| format!("house {}: {why}", self.number))
    }

    pub fn read(&self, file: &str) -> Vec<u8> {
        fs::read(self.folder.join(file)).unwrap_or_default()
    }

    pub fn ledger(&self) -> Result<Ledger, String> {
        self.at(Ledger::read(&self.read("ledger")))
    }

    fn command(&self) -> Result<Command, String> {
        let mut how = OpenOptions::new();
        let errors = how.create(true).append(true);
        let errors = errors.open(self.folder.join("errors"));
        let mut command = Command::new(&self.program);
        command
            .arg(self.number.to_string())
            .arg(self.houses.to_string())
            .current_dir(&self.folder)
            .env("LD_PRELOAD", tracer()?)
            .env("FAULTS_TRACE", self.folder.join("trace"))
            .stdin(Stdio::piped())
            .stdout(Stdio::piped())
            .stderr(errors.map_err(|e| e.to_string())?);
        Ok(command)
    }

    fn spawn(&mut self) -> Result<(), String> {
        let _ = fs::remove_file(self.folder.join("trace"));
        self.process = Some(Process::new(self.command()?)?);
        self.next = 0;
        Ok(())
    }

    /// Starts it, and waits until it says so.
    pub fn start(&mut self) -> Result<(), String> {
        self.spawn()?;
        let Some(process) = &mut self.process else {
            return Ok(());
        };
        let first = process.next();
        let first = self.at(first)?;
        let Printed::Start(_) = first else {
            return self.at(Err(format!("{first:?} instead of a start")));
        };
        self.note(&first);
        if self.read("trace").is_empty() {
            return self.at(Err("its calls aren't traced".to_string()));
        }
        Ok(())
    }

    /// Starts it, and kills it at once.
    pub fn start_and_kill(&mut self, random: &mut Random) -> Result<(), String> {
        self.spawn()?;
        self.kill(&[], random)
    }

    fn note(&mut self, printed: &Printed) {
        match printed {
            Printed::Start(start) => self.said.start = *start,
            Printed::Ruled(name) => {
                self.said.ruled.insert(*name);
            }
            Printed::Message(Some(9..=11)) => self.refused += 1,
            Printed::Message(_) | Printed::Line(..) | Printed::Refused(_) => {}
        }
    }

    /// Sends the lines, at least an empty one, and answers what it says to each.
    pub fn ask(&mut self, lines: &[String]) -> Result<Vec<String>, String> {
        let mut answers = self.ask_some(&lines[..lines.len().min(LINES_AT_ONCE)])?;
        while answers.len() < lines.len() {
            let rest = &lines[answers.len()..];
            answers.extend(self.ask_some(&rest[..rest.len().min(LINES_AT_ONCE)])?);
        }
        Ok(answers)
    }

    /// An empty line is sent behind the lines, so that what the last one brings about is printed before this ends.
    fn ask_some(&mut self, lines: &[String]) -> Result<Vec<String>, String> {
        let Some(mut process) = self.process.take() else {
            return self.at(Err("asked while it is down".to_string()));
        };
        process.send(lines);
        let last = process.send(&[String::new()]);
        let mut answers = Vec::new();
        loop {
            let printed = self.at(process.next())?;
            self.note(&printed);
            match printed {
                Printed::Line(number, _) if number == last => break,
                Printed::Line(_, answer) => answers.push(answer),
                _ => {}
            }
        }
        self.process = Some(process);
        if answers.len() == lines.len() {
            return Ok(answers);
        }
        self.at(Err(format!("{} lines, {answers:?}", lines.len())))
    }

    /// Sends the lines, kills it at any moment, and cuts its ledger where a stop of the machine might.
    pub fn kill(&mut self, lines: &[String], random: &mut Random) -> Result<(), String> {
        let Some(mut process) = self.process.take() else {
            return Ok(());
        };
        process.send(lines);
        thread::sleep(Duration::from_micros(random.below(KILL_WITHIN_MICROS)));
        self.kills += 1;
        for printed in self.at(process.kill())? {
            self.note(&printed);
        }
        self.cut(random)?;
        if random.chance(50) {
            // messages that it had got are lost; else it gets them all again
            let _ = fs::write(self.folder.join("in"), b"");
        }
        self.check()
    }

    /// Leaves the ledger as it is, or cuts it at any byte behind those that were synced.
    fn cut(&mut self, random: &mut Random) -> Result<(), String> {
        let trace = String::from_utf8_lossy(&self.read("trace")).into_owned();
        let len = self.read("ledger").len() as u64;
        self.durable = durable_after(&trace, self.durable).min(len);
        if self.durable == len || random.chance(20) {
            return Ok(());
        }
        let kept = self.durable + random.below(len - self.durable);
        let mut how = OpenOptions::new();
        let file = how.write(true).open(self.folder.join("ledger"));
        let cut = file.and_then(|file| file.set_len(kept));
        self.at(cut.map_err(|e| e.to_string()))?;
        self.durable = kept;
        self.cuts += 1;
        Ok(())
    }

    /// Whether its ledger has all that it has said.
    pub fn check(&mut self) -> Result<(), String> {
        self.said.take_out(&self.read("out"));
        self.at(self.said.check(&self.ledger()?))
    }

    pub fn end(&mut self) -> Result<(), String> {
        match self.process.take() {
            Some(process) => self.at(process.end()),
            None => Ok(()),
        }
    }
}
