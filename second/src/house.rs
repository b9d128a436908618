//! A house with its file: what it holds back, what it learns, its syncs and its stops.

use crate::history::History;
use crate::limits::{MAX_FILE, MAX_HELD, MAX_STARTS};
use crate::name::Name;
use crate::order::Order;
use crate::record::{self, BEGAN, HELD};
use crate::refusal::Refusal;
use std::collections::BTreeSet;

/// An order that its home is asking about.
#[derive(Clone, Debug)]
pub struct Asked {
    /// The order's bytes.
    pub order: Vec<u8>,
    /// The houses that said yes.
    pub yes: BTreeSet<u32>,
}

impl Asked {
    pub fn order(&self) -> Order<'_> {
        Order::at_front(&self.order).expect("an order asked about is whole")
    }

    /// Whether every house of the order has said yes.
    pub fn all_said_yes(&self) -> bool {
        self.order().houses().is_subset(&self.yes)
    }
}

/// What a house as home knows only until it stops.
#[derive(Clone, Debug, Default)]
pub struct Memory {
    /// The orders asked about, in the order of submitting.
    pub asked: Vec<Asked>,
    /// The numbers tried in this start.
    pub tried: BTreeSet<u32>,
}

/// A house: its file, how much of it is durable, and its memory.
#[derive(Clone, Debug)]
pub struct House {
    pub number: u32,
    pub bytes: Vec<u8>,
    pub durable: usize,
    pub memory: Memory,
    /// Why the house could not come up again, once that has happened.
    pub down: Option<Refusal>,
}

impl House {
    /// A house in its first start.
    pub fn new(number: u32) -> House {
        House {
            number,
            bytes: vec![BEGAN],
            durable: 1,
            memory: Memory::default(),
            down: None,
        }
    }

    /// A hold message arrives. What is written is durable at once, since the house says yes.
    pub fn hold(&mut self, order: Order) -> Result<(), Refusal> {
        if order.entries().all(|entry| entry.house() != self.number) {
            return Err(Refusal::NotParty);
        }
        let history = History::of(&self.bytes);
        if history.held_back.contains(&order) {
            return Ok(());
        }
        if history.ever_held.contains(&order.name()) {
            return Err(Refusal::HeldBefore);
        }
        let mut held_back = history.held_back.iter();
        if held_back.any(|other| other.clashes(order)) {
            return Err(Refusal::Clash);
        }
        let shelves = history.shelves(self.number);
        let mut seen_here = order.reads().filter(|read| read.house() == self.number);
        if seen_here.any(|read| shelves.get(&read.key).copied().unwrap_or(0) != read.amount) {
            return Err(Refusal::NotAsSeen);
        }
        if history.held_back.len() >= MAX_HELD {
            return Err(Refusal::HeldFull);
        }
        self.append(&record::encode_order(HELD, order))?;
        self.sync();
        Ok(())
    }

    /// A yes or a no told of an order arrives. What is written is not durable yet.
    pub fn learn(&mut self, yes: bool, name: Name) -> Result<(), Refusal> {
        if History::of(&self.bytes).held(name).is_none() {
            return Err(Refusal::Unknown);
        }
        self.append(&record::encode_learnt(yes, name))
    }

    /// All that was written becomes durable.
    pub fn sync(&mut self) {
        self.durable = self.bytes.len();
    }

    /// The machine stops with `kept` of the bytes that are not durable still there; the house reads
    /// the whole records, cuts off what follows them and begins again, or stays down.
    pub fn stop(&mut self, kept: u32) -> Result<(), Refusal> {
        let kept = usize::try_from(kept).map_err(|_| Refusal::Form)?;
        if kept > self.bytes.len() - self.durable {
            return Err(Refusal::Form);
        }
        let history = History::of(&self.bytes[..self.durable + kept]);
        let (starts, end) = (history.starts, history.end);
        self.bytes.truncate(end);
        self.memory = Memory::default();
        let begun = match starts {
            MAX_STARTS => Err(Refusal::File),
            _ => self.append(&[BEGAN]),
        };
        self.sync();
        self.down = begun.err();
        begun
    }

    /// Adds a record to the file if there is room.
    pub(crate) fn append(&mut self, record: &[u8]) -> Result<(), Refusal> {
        if self.bytes.len() + record.len() > MAX_FILE {
            return Err(Refusal::FileFull);
        }
        self.bytes.extend(record);
        Ok(())
    }
}
