//! What a ledger says, read from the format alone.

use post::frames::Name;
use std::collections::BTreeSet;

const ENTRY: usize = 8;

#[derive(Default)]
pub struct Ledger {
    pub starts: u32,
    pub held: BTreeSet<Name>,
    pub done: BTreeSet<Name>,
    pub dropped: BTreeSet<Name>,
    pub ruled: BTreeSet<Name>,
}

/// The length of the order at the front of the bytes, if its counts are there.
fn order_len(bytes: &[u8]) -> Option<usize> {
    let reads = usize::from(*bytes.get(Name::LEN)?);
    let writes = usize::from(*bytes.get(Name::LEN + 1)?);
    Some(Name::LEN + 2 + ENTRY * (reads + writes))
}

impl Ledger {
    /// The whole records of the bytes; what is torn at the end is none.
    pub fn read(bytes: &[u8]) -> Result<Ledger, String> {
        let mut ledger = Ledger::default();
        let mut rest = bytes;
        while let Some((kind, body)) = rest.split_first() {
            let len = match kind {
                1 => Some(0),
                2 | 5 => order_len(body),
                3 | 4 => Some(Name::LEN),
                _ => return Err(format!("a record of kind {kind}")),
            };
            let Some(body) = len.and_then(|len| body.get(..len)) else {
                break;
            };
            ledger.note(*kind, Name::read(body));
            rest = &rest[1 + body.len()..];
        }
        Ok(ledger)
    }

    fn note(&mut self, kind: u8, name: Option<Name>) {
        let Some(name) = name else {
            self.starts += 1;
            return;
        };
        let names = match kind {
            2 => &mut self.held,
            3 => &mut self.done,
            4 => &mut self.dropped,
            _ => &mut self.ruled,
        };
        names.insert(name);
    }

    /// The names of orders that wait for their decision here.
    pub fn held_back(&self) -> impl Iterator<Item = Name> {
        let over = |name: &Name| self.done.contains(name) || self.dropped.contains(name);
        self.held.iter().filter(move |name| !over(name)).copied()
    }
}
