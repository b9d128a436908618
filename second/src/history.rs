//! What a file says, found by going through all of its records.

use crate::name::Name;
use crate::order::Order;
use crate::record::{Record, records};
use std::collections::BTreeMap;

/// What the whole records of a file say.
#[derive(Default)]
pub struct History<'a> {
    /// The start: how many records are began.
    pub starts: u32,
    /// The orders held back, in the order of holding.
    pub held_back: Vec<Order<'a>>,
    /// The names that were ever held.
    pub ever_held: Vec<Name>,
    /// The orders done, in the order of the file.
    pub done: Vec<Order<'a>>,
    /// The names ruled, in the order of the file.
    pub ruled: Vec<Name>,
    /// Where the last whole record ends.
    pub end: usize,
}

impl<'a> History<'a> {
    pub fn of(bytes: &'a [u8]) -> History<'a> {
        let mut history = History::default();
        let mut records = records(bytes);
        for record in records.by_ref() {
            history.add(record);
        }
        history.end = records.end();
        history
    }

    /// The order of this name that is held back.
    pub fn held(&self, name: Name) -> Option<Order<'a>> {
        let mut held_back = self.held_back.iter();
        held_back.find(|order| order.name() == name).copied()
    }

    /// The shelves of this house that were ever written, each with its amount, by rising key.
    pub fn shelves(&self, house: u32) -> BTreeMap<u32, u32> {
        let writes = self.done.iter().flat_map(|order| order.writes());
        let here = writes.filter(|write| write.house() == house);
        here.map(|write| (write.key, write.amount)).collect()
    }

    #[inline]
    fn add(&mut self, record: Record<'a>) {
        match record {
            Record::Began => self.starts += 1,
            Record::Held(order) => {
                self.held_back.push(order);
                self.ever_held.push(order.name());
            }
            Record::Done(name) => {
                let order = self.take(name);
                self.done.push(order);
            }
            Record::Dropped(name) => {
                self.take(name);
            }
            Record::Ruled(order) => self.ruled.push(order.name()),
        }
    }

    /// Takes the order of this name out of those held back.
    fn take(&mut self, name: Name) -> Order<'a> {
        let mut held_back = self.held_back.iter();
        let place = held_back.position(|order| order.name() == name);
        let place = place.expect("done and dropped are of orders held back");
        self.held_back.remove(place)
    }
}
