//! What a house has said, by which it is bound: the disk must have it for good by then.

use crate::ledger::Ledger;
use post::frames::{Message, Name, frames};
use std::collections::BTreeSet;

#[derive(Default)]
pub struct Said {
    /// the last start that it printed
    pub start: u32,
    /// orders that it has held, by a yes
    yes: BTreeSet<Name>,
    /// orders that it has ruled, as it printed or told
    pub ruled: BTreeSet<Name>,
    /// orders that it told to be none
    pub told_no: BTreeSet<Name>,
    /// how much of its file `out` was taken
    taken: usize,
}

impl Said {
    /// Notes what its file `out` has gained.
    pub fn take_out(&mut self, out: &[u8]) {
        for frame in frames(out.get(self.taken..).unwrap_or_default()) {
            self.taken += frame.bytes.len();
            match Message::read(frame.message) {
                Some(Message::Yes(_, name)) => self.yes.insert(name),
                Some(Message::Told(true, name)) => self.ruled.insert(name),
                Some(Message::Told(false, name)) => self.told_no.insert(name),
                Some(Message::Hold(_)) | None => continue,
            };
        }
    }

    /// Whether the ledger has all that was said.
    pub fn check(&self, ledger: &Ledger) -> Result<(), String> {
        if ledger.starts < self.start {
            let starts = ledger.starts;
            return Err(format!("said start {}, but kept {starts}", self.start));
        }
        if let Some(name) = self.yes.difference(&ledger.held).next() {
            return Err(format!("said yes to {name}, but hasn't kept it"));
        }
        if let Some(name) = self.ruled.difference(&ledger.ruled).next() {
            return Err(format!("said that {name} is ruled, but hasn't kept it"));
        }
        if let Some(name) = self.told_no.intersection(&ledger.ruled).next() {
            return Err(format!("told no of {name}, which is ruled"));
        }
        Ok(())
    }
}
