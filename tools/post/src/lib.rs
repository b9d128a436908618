//! The post between houses: what each has written to its file `out` is added to the file `in` of the house that it is for.

pub mod frames;
pub mod random;

use frames::frames;
use random::Random;
use std::fs::{File, OpenOptions};
use std::io::{self, ErrorKind, Read, Seek, SeekFrom, Write};
use std::path::{Path, PathBuf};

/// How many of a hundred messages are lost, arrive twice, arrive later than others that were sent after them, or arrive at
/// another house.
#[derive(Clone, Copy, Default)]
pub struct Chances {
    pub lose: u32,
    pub double: u32,
    pub delay: u32,
    pub astray: u32,
}

/// How many messages met what.
#[derive(Clone, Copy, Default)]
pub struct Counts {
    pub delivered: u64,
    pub lost: u64,
    pub doubled: u64,
    pub delayed: u64,
    pub astray: u64,
}

/// A frame that arrives some turns later.
struct Delayed {
    turns: u64,
    to: usize,
    bytes: Vec<u8>,
}

/// The most turns that a message is delayed.
const MAX_DELAY: u64 = 12;

pub struct Post {
    folders: Vec<PathBuf>,
    /// how much of each `out` was taken
    taken: Vec<u64>,
    delayed: Vec<Delayed>,
    random: Random,
    pub chances: Chances,
    pub counts: Counts,
}

/// What the file has from `at` on. A file that is absent has nothing; one that ends before is a new one, and read from its start.
fn read_from(path: &Path, at: &mut u64) -> io::Result<Vec<u8>> {
    let mut file = match File::open(path) {
        Ok(file) => file,
        Err(e) if e.kind() == ErrorKind::NotFound => return Ok(Vec::new()),
        Err(e) => return Err(e),
    };
    if file.metadata()?.len() < *at {
        *at = 0;
    }
    file.seek(SeekFrom::Start(*at))?;
    let mut bytes = Vec::new();
    file.read_to_end(&mut bytes)?;
    Ok(bytes)
}

impl Post {
    /// A post between these folders, that of house 0 first.
    pub fn new(folders: Vec<PathBuf>, seed: u64, chances: Chances) -> Post {
        Post {
            taken: vec![0; folders.len()],
            folders,
            delayed: Vec::new(),
            random: Random::new(seed),
            chances,
            counts: Counts::default(),
        }
    }

    fn deliver(&mut self, to: usize, bytes: &[u8]) -> io::Result<()> {
        let mut how = OpenOptions::new();
        let path = self.folders[to].join("in");
        how.create(true).append(true).open(path)?.write_all(bytes)?;
        self.counts.delivered += 1;
        Ok(())
    }

    /// The house at which a message for `to` arrives.
    fn house_for(&mut self, to: usize) -> usize {
        if !self.random.chance(self.chances.astray) {
            return to;
        }
        self.counts.astray += 1;
        self.random.place(self.folders.len())
    }

    /// Delivers a frame, unless something happens to it; one for a house that there isn't is lost.
    fn carry(&mut self, to: u8, bytes: &[u8]) -> io::Result<()> {
        let to = usize::from(to);
        if to >= self.folders.len() || self.random.chance(self.chances.lose) {
            self.counts.lost += 1;
            return Ok(());
        }
        let to = self.house_for(to);
        if self.random.chance(self.chances.double) {
            self.counts.doubled += 1;
            self.deliver(to, bytes)?;
        }
        if self.random.chance(self.chances.delay) {
            self.counts.delayed += 1;
            self.delayed.push(Delayed {
                turns: 1 + self.random.below(MAX_DELAY),
                to,
                bytes: bytes.to_vec(),
            });
            return Ok(());
        }
        self.deliver(to, bytes)
    }

    /// Delivers what was delayed until this turn.
    fn deliver_due(&mut self) -> io::Result<()> {
        for mut message in std::mem::take(&mut self.delayed) {
            message.turns -= 1;
            if message.turns == 0 {
                self.deliver(message.to, &message.bytes)?;
            } else {
                self.delayed.push(message);
            }
        }
        Ok(())
    }

    /// Carries what every house has written since the last turn, and answers how many messages that were. A frame that is not
    /// all there waits.
    pub fn turn(&mut self) -> io::Result<usize> {
        self.deliver_due()?;
        let mut found = 0;
        for house in 0..self.folders.len() {
            let path = self.folders[house].join("out");
            let bytes = read_from(&path, &mut self.taken[house])?;
            for frame in frames(&bytes) {
                self.taken[house] += frame.bytes.len() as u64;
                self.carry(frame.to, frame.bytes)?;
                found += 1;
            }
        }
        Ok(found)
    }

    /// Delivers all that is delayed.
    pub fn deliver_delayed(&mut self) -> io::Result<()> {
        for message in std::mem::take(&mut self.delayed) {
            self.deliver(message.to, &message.bytes)?;
        }
        Ok(())
    }
}
