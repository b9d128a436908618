//! Counts how often each kind of line got each answer.

use crate::command::Kind;
use crate::play::Answer;
use crate::player::Outcome;
use std::fmt;

/// The answers that are counted: ok, yes, no, and the refusals by number from here on.
const FIRST_REFUSAL: usize = 3;
const REFUSALS: usize = 15;
const ANSWERS: usize = FIRST_REFUSAL + REFUSALS;

/// One row for each kind of line, and a last one for lines that are of none.
#[derive(Clone, Debug, Default)]
pub struct Tally {
    counts: [[u64; ANSWERS]; Kind::ALL.len() + 1],
    pub scripts: u64,
}

impl Tally {
    pub fn add(&mut self, outcome: Outcome) {
        let answer = match outcome.answer {
            Ok(Answer::Ok) => 0,
            Ok(Answer::Yes) => 1,
            Ok(Answer::No) => 2,
            Err(refusal) => FIRST_REFUSAL + refusal.number() - 1,
        };
        self.counts[row(outcome.kind)][answer] += 1;
    }

    pub fn join(&mut self, other: &Tally) {
        for (counts, more) in self.counts.iter_mut().zip(&other.counts) {
            for (count, more) in counts.iter_mut().zip(more) {
                *count += more;
            }
        }
        self.scripts += other.scripts;
    }

    /// How often lines of this kind were not refused.
    pub fn accepted(&self, kind: Kind) -> u64 {
        self.counts[row(Some(kind))][..FIRST_REFUSAL].iter().sum()
    }

    /// How often lines of this kind were refused by this number.
    pub fn refused(&self, kind: Kind, number: usize) -> u64 {
        self.counts[row(Some(kind))][FIRST_REFUSAL + number - 1]
    }

    /// How often any line was refused by this number.
    pub fn refused_by(&self, number: usize) -> u64 {
        let rows = self.counts.iter();
        rows.map(|row| row[FIRST_REFUSAL + number - 1]).sum()
    }

    /// The steps that were never accepted and the refusals that never occurred.
    pub fn missing(&self) -> Vec<String> {
        let steps = Kind::ALL.into_iter().filter(|kind| kind.is_step());
        let steps = steps.filter(|&step| self.accepted(step) == 0);
        let refusals = (1..=REFUSALS).filter(|&number| self.refused_by(number) == 0);
        let steps = steps.map(|step| format!("no {} was accepted", step.word()));
        let refusals = refusals.map(|number| format!("nothing was refused by {number}"));
        steps.chain(refusals).collect()
    }

    fn total(&self) -> [u64; ANSWERS] {
        let mut total = [0; ANSWERS];
        for row in &self.counts {
            for (sum, count) in total.iter_mut().zip(row) {
                *sum += count;
            }
        }
        total
    }
}

fn row(kind: Option<Kind>) -> usize {
    let place = Kind::ALL.iter().position(|&other| Some(other) == kind);
    place.unwrap_or(Kind::ALL.len())
}

impl fmt::Display for Tally {
    fn fmt(&self, out: &mut fmt::Formatter) -> fmt::Result {
        let refusals = (1..=REFUSALS).map(|number| number.to_string());
        let heads = ["ok", "yes", "no"].map(String::from).into_iter();
        write!(out, "{:8}", "")?;
        for head in heads.chain(refusals) {
            write!(out, "{head:>8}")?;
        }
        let kinds = Kind::ALL.map(Kind::word).into_iter().chain(["other"]);
        let rows = kinds.zip(self.counts).chain([("total", self.total())]);
        for (word, counts) in rows {
            write!(out, "\n{word:8}")?;
            for count in counts {
                write!(out, "{count:>8}")?;
            }
        }
        Ok(())
    }
}
