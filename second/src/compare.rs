//! Compares what another program prints for an input with what this one prints.

use crate::player::{END, Player, lines};
use crate::tally::Tally;
use std::io::{self, BufRead};

/// Why a comparison ends before the end of the input.
#[derive(Debug)]
pub enum Failure<'a> {
    Difference(Difference<'a>),
    Unreadable(io::Error),
}

/// The first place at which the other program prints something else.
#[derive(Debug)]
pub struct Difference<'a> {
    /// Which script it is, counted from 1.
    pub script: u64,
    /// The script's lines up to the one that is answered otherwise.
    pub lines: Vec<&'a [u8]>,
    /// The line that this program prints; nothing where it has printed all.
    pub expected: Vec<u8>,
    /// The line that the other program prints; nothing where it has printed all.
    pub printed: Vec<u8>,
}

impl From<io::Error> for Failure<'_> {
    fn from(error: io::Error) -> Self {
        Failure::Unreadable(error)
    }
}

/// Plays the input, and counts what occurs, as long as the other program prints the same.
pub fn compare<'a>(
    input: &'a [u8],
    many: bool,
    mut printed: impl BufRead,
) -> Result<Tally, Failure<'a>> {
    let mut tally = Tally::default();
    let mut player = Player::default();
    let mut script = Vec::new();
    let mut out = Vec::new();
    for line in lines(input) {
        out.clear();
        script.push(line);
        let ends = many && line == END;
        if ends {
            out.extend(b"%\n");
        } else if let Some(outcome) = player.line(line, &mut out)? {
            tally.add(outcome);
        }
        for expected in out.split_inclusive(|&byte| byte == b'\n') {
            expect(expected, &mut printed, &script, tally.scripts + 1)?;
        }
        if ends {
            tally.scripts += 1;
            player = Player::default();
            script.clear();
        }
    }
    expect(b"", printed, &script, tally.scripts + 1)?;
    tally.scripts += u64::from(!script.is_empty());
    Ok(tally)
}

/// The next line that the other program prints must be this one.
fn expect<'a>(
    expected: &[u8],
    mut printed: impl BufRead,
    lines: &[&'a [u8]],
    script: u64,
) -> Result<(), Failure<'a>> {
    let mut line = Vec::new();
    printed.read_until(b'\n', &mut line)?;
    if line == expected {
        return Ok(());
    }
    Err(Failure::Difference(Difference {
        script,
        lines: lines.to_vec(),
        expected: expected.to_vec(),
        printed: line,
    }))
}
