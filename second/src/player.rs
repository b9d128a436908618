//! Plays the lines of a script and prints the answers.

use crate::command::{Command, Kind};
use crate::play::{Answer, Play};
use crate::refusal::Refusal;
use crate::show::show;
use crate::words::is_passed_over;
use std::io::{self, Write};

/// The line that ends each of many scripts.
pub const END: &[u8] = b"%";

/// What became of a line that was not passed over.
#[derive(Clone, Copy, Debug, PartialEq, Eq)]
pub struct Outcome {
    /// What the line begins with, if that is a word of scripts.
    pub kind: Option<Kind>,
    pub answer: Result<Answer, Refusal>,
}

/// A script that is being played.
#[derive(Clone, Debug, Default)]
pub struct Player {
    pub play: Play,
    line: usize,
}

impl Player {
    /// Plays the next line and prints what there is to print of it.
    pub fn line(&mut self, text: &[u8], out: &mut impl Write) -> io::Result<Option<Outcome>> {
        self.line += 1;
        if is_passed_over(text) {
            return Ok(None);
        }
        let command = Command::parse(text);
        let answer = match &command {
            Ok(command) => self.play.perform(command),
            Err(refusal) => Err(*refusal),
        };
        match answer {
            Ok(Answer::Ok) => writeln!(out, "{}: ok", self.line)?,
            Ok(Answer::Yes) => writeln!(out, "{}: yes", self.line)?,
            Ok(Answer::No) => writeln!(out, "{}: no", self.line)?,
            Err(refusal) => writeln!(out, "{}: {}", self.line, refusal.number())?,
        }
        if command == Ok(Command::Show) && answer.is_ok() {
            show(&self.play, out)?;
        }
        let kind = Kind::of_line(text);
        Ok(Some(Outcome { kind, answer }))
    }
}

/// The lines of an input; what follows the last line's end is a line only if there is something.
pub fn lines(input: &[u8]) -> impl Iterator<Item = &[u8]> {
    let ended = input.split_inclusive(|&byte| byte == b'\n');
    ended.map(|line| line.strip_suffix(b"\n").unwrap_or(line))
}

/// Plays one script.
pub fn play_one(input: &[u8], out: &mut impl Write) -> io::Result<()> {
    let mut player = Player::default();
    for line in lines(input) {
        player.line(line, out)?;
    }
    Ok(())
}

/// Plays many scripts, each ended by a line `%`, which is printed in its place.
pub fn play_many(input: &[u8], out: &mut impl Write) -> io::Result<()> {
    let mut player = Player::default();
    for line in lines(input) {
        if line == END {
            player = Player::default();
            out.write_all(b"%\n")?;
        } else {
            player.line(line, out)?;
        }
    }
    Ok(())
}
