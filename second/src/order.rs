//! An order, looked at in its bytes: name, number of reads, number of writes, then the entries.

use crate::name::{Name, be32};
use std::collections::BTreeSet;
use std::fmt;

/// A key with the amount seen there, or the amount that is to stand there.
#[derive(Clone, Copy, Debug, PartialEq, Eq)]
pub struct Entry {
    pub key: u32,
    pub amount: u32,
}

impl Entry {
    /// How many bytes an entry takes.
    pub const LENGTH: usize = 8;

    pub fn house(self) -> u32 {
        house_of(self.key)
    }
}

/// The house of a key.
pub fn house_of(key: u32) -> u32 {
    key / 65_536
}

/// The item of a key.
pub fn item_of(key: u32) -> u32 {
    key % 65_536
}

/// The key of an item of a house.
pub fn key_of(house: u32, item: u32) -> u32 {
    house * 65_536 + item
}

/// A view of an encoded order; two orders are the same if their bytes are.
#[derive(Clone, Copy, Debug, PartialEq, Eq)]
pub struct Order<'a> {
    bytes: &'a [u8],
}

impl<'a> Order<'a> {
    /// How many bytes stand before the entries.
    pub const HEADER: usize = Name::LENGTH + 2;

    /// The order at the front of these bytes, if they have all of it.
    #[inline]
    pub fn at_front(bytes: &'a [u8]) -> Option<Order<'a>> {
        let header = bytes.get(..Self::HEADER)?;
        let entries = usize::from(header[Name::LENGTH]) + usize::from(header[Name::LENGTH + 1]);
        let bytes = bytes.get(..Self::HEADER + entries * Entry::LENGTH)?;
        Some(Order { bytes })
    }

    pub fn bytes(self) -> &'a [u8] {
        self.bytes
    }

    pub fn name(self) -> Name {
        Name::decode(self.bytes)
    }

    pub fn reads(self) -> impl Iterator<Item = Entry> + Clone + 'a {
        self.entries().take(self.count_of_reads())
    }

    pub fn writes(self) -> impl Iterator<Item = Entry> + Clone + 'a {
        self.entries().skip(self.count_of_reads())
    }

    /// What is read, then what is written.
    pub fn entries(self) -> impl Iterator<Item = Entry> + Clone + 'a {
        let entries = self.bytes[Self::HEADER..].chunks_exact(Entry::LENGTH);
        entries.map(|entry| Entry {
            key: be32(entry, 0),
            amount: be32(entry, 4),
        })
    }

    /// The houses of the order's keys.
    pub fn houses(self) -> BTreeSet<u32> {
        self.entries().map(Entry::house).collect()
    }

    /// Whether one of the two writes a key that the other reads or writes.
    pub fn clashes(self, other: Order) -> bool {
        self.writes_key_of(other) || other.writes_key_of(self)
    }

    fn writes_key_of(self, other: Order) -> bool {
        let mut writes = self.writes();
        writes.any(|write| other.entries().any(|entry| entry.key == write.key))
    }

    fn count_of_reads(self) -> usize {
        usize::from(self.bytes[Name::LENGTH])
    }
}

/// The bytes of an order; it has at most sixteen reads and sixteen writes.
pub fn encode(name: Name, reads: &[Entry], writes: &[Entry]) -> Vec<u8> {
    let mut bytes = Vec::new();
    name.encode(&mut bytes);
    for count in [reads.len(), writes.len()] {
        bytes.push(u8::try_from(count).expect("a count of entries fits one byte"));
    }
    for entry in reads.iter().chain(writes) {
        bytes.extend(entry.key.to_be_bytes());
        bytes.extend(entry.amount.to_be_bytes());
    }
    bytes
}

impl fmt::Display for Order<'_> {
    fn fmt(&self, out: &mut fmt::Formatter) -> fmt::Result {
        write!(out, "{} {}", self.name(), self.reads().count())?;
        for entry in self.reads() {
            write!(out, " {} {}", entry.key, entry.amount)?;
        }
        write!(out, " {}", self.writes().count())?;
        for entry in self.writes() {
            write!(out, " {} {}", entry.key, entry.amount)?;
        }
        Ok(())
    }
}
