// The crate ledger written again in plain Rust: the same tests in the same order over the same data.
use crate::plain::{Entry, Name, Order, Read, Record, Refusal, record_at};

const MAX_HELD: usize = 64;
const MAX_STARTS: u32 = 65535;
const MAX_BYTES: usize = 4194304;
const SHELVES: usize = 4096;

#[derive(Clone, Copy)]
pub struct NamedOrder {
    pub name: Name,
    pub order: Order,
}

// The names of each home, kept in order.
struct NameIndex(Vec<Vec<Name>>);

pub struct Ledger {
    house: u8,
    start: u32,
    held: Vec<NamedOrder>,
    ever: NameIndex,
    ruled: NameIndex,
    bytes: usize,
}

// The number of the refusal, 0 where there is none, and what the ledger says of itself.
#[derive(Debug, PartialEq, Eq)]
pub struct Summary {
    pub refused: u8,
    pub start: u32,
    pub held: usize,
    pub bytes: usize,
}

impl NameIndex {
    fn new() -> NameIndex {
        NameIndex((0..256).map(|_| Vec::new()).collect())
    }

    fn contains(&self, name: Name) -> bool {
        self.0[name.home as usize].binary_search(&name).is_ok()
    }

    fn insert(&mut self, name: Name) {
        let home = &mut self.0[name.home as usize];
        if let Err(at) = home.binary_search(&name) {
            home.insert(at, name);
        }
    }
}

fn touches_key(key: u32, entries: &[Entry]) -> bool {
    let mut found = false;
    for e in entries {
        found |= e.key == key;
    }
    found
}

fn have_common_key(entries: &[Entry], others: &[Entry]) -> bool {
    entries.iter().any(|e| touches_key(e.key, others))
}

fn any_in_house(house: u32, entries: &[Entry]) -> bool {
    entries.iter().any(|e| e.key / 65536 == house)
}

fn is_as_said(house: u32, shelves: &[u32], e: Entry) -> bool {
    e.key / 65536 != house
        || shelves.get((e.key % 65536) as usize).copied().unwrap_or(0) == e.amount
}

fn write_entries(house: u32, entries: &[Entry], shelves: &mut [u32]) {
    for e in entries {
        if e.key / 65536 == house {
            if let Some(shelf) = shelves.get_mut((e.key % 65536) as usize) {
                *shelf = e.amount;
            }
        }
    }
}

impl NamedOrder {
    fn reads(&self) -> &[Entry] {
        &self.order.reads[..self.order.read_count]
    }

    fn writes(&self) -> &[Entry] {
        &self.order.writes[..self.order.write_count]
    }

    fn clashes_with(&self, other: &NamedOrder) -> bool {
        have_common_key(self.writes(), other.reads())
            || have_common_key(self.writes(), other.writes())
            || have_common_key(self.reads(), other.writes())
    }

    fn touches_house(&self, house: u32) -> bool {
        any_in_house(house, self.reads()) || any_in_house(house, self.writes())
    }

    fn sees(&self, house: u32, shelves: &[u32]) -> bool {
        self.reads().iter().all(|e| is_as_said(house, shelves, *e))
    }

    fn is_same(&self, other: &NamedOrder) -> bool {
        self.name == other.name && self.reads() == other.reads() && self.writes() == other.writes()
    }

    fn record_len(&self) -> usize {
        12 + 8 * (self.order.read_count + self.order.write_count)
    }
}

impl Ledger {
    fn new(house: u8) -> Ledger {
        Ledger {
            house,
            start: 0,
            held: Vec::new(),
            ever: NameIndex::new(),
            ruled: NameIndex::new(),
            bytes: 0,
        }
    }

    fn find_named(&self, name: Name) -> Option<usize> {
        self.held.iter().position(|u| u.name == name)
    }

    fn any_clashes(&self, order: &NamedOrder) -> bool {
        self.held.iter().any(|u| order.clashes_with(u))
    }

    fn admits(&self, shelves: &[u32], record: Record, order: &Order) -> bool {
        match record {
            Record::Began => self.start < MAX_STARTS,
            Record::Held(name) => self.admits_held(
                shelves,
                &NamedOrder {
                    name,
                    order: *order,
                },
            ),
            Record::Done(name) | Record::Dropped(name) => {
                self.start > 0 && self.find_named(name).is_some()
            }
            Record::Ruled(name) => {
                self.start > 0 && name.home == self.house && !self.ruled.contains(name)
            }
        }
    }

    fn admits_held(&self, shelves: &[u32], order: &NamedOrder) -> bool {
        self.start > 0
            && order.touches_house(u32::from(self.house))
            && !self.ever.contains(order.name)
            && !self.any_clashes(order)
            && order.sees(u32::from(self.house), shelves)
            && self.held.len() < MAX_HELD
    }

    fn apply(&mut self, shelves: &mut [u32], record: Record, order: &Order) {
        match record {
            Record::Began => self.start += 1,
            Record::Held(name) => {
                self.ever.insert(name);
                self.held.push(NamedOrder {
                    name,
                    order: *order,
                });
            }
            Record::Done(name) => {
                while let Some(at) = self.find_named(name) {
                    let order = self.held.remove(at);
                    write_entries(u32::from(self.house), order.writes(), shelves);
                }
            }
            Record::Dropped(name) => {
                while let Some(at) = self.find_named(name) {
                    self.held.remove(at);
                }
            }
            Record::Ruled(name) => self.ruled.insert(name),
        }
    }

    // The ledger that the bytes say, with its shelves in the lent words, or the number by which they are refused.
    pub fn open(houses: u8, house: u8, bytes: &[u8], shelves: &mut [u32]) -> Result<Ledger, u8> {
        if houses < 1 || houses > 16 || house >= houses {
            return Err(2);
        }
        if shelves.len() != SHELVES {
            return Err(255);
        }
        let mut ledger = Ledger::new(house);
        let mut words = [0; SHELVES];
        ledger.replay(houses, bytes, &mut words)?;
        shelves.copy_from_slice(&words);
        Ok(ledger)
    }

    fn replay(&mut self, houses: u8, bytes: &[u8], shelves: &mut [u32]) -> Result<(), u8> {
        loop {
            match record_at(houses, bytes, self.bytes) {
                Read::Whole(record, order, next) => {
                    if next > MAX_BYTES || !self.admits(shelves, record, &order) {
                        return Err(3);
                    }
                    self.apply(shelves, record, &order);
                    self.bytes = next;
                }
                Read::Cut => return Ok(()),
                Read::Refused(Refusal::BadForm) => return Err(1),
                Read::Refused(Refusal::OutOfRange) => return Err(2),
            }
        }
    }

    // The number by which a hold is refused, 0 where it is answered by yes.
    pub fn may_hold(&self, shelves: &[u32], order: &NamedOrder) -> u8 {
        if !order.touches_house(u32::from(self.house)) {
            return 7;
        }
        if self.held.iter().any(|u| order.is_same(u)) {
            return 0;
        }
        if self.ever.contains(order.name) {
            return 8;
        }
        if self.any_clashes(order) {
            return 9;
        }
        if !order.sees(u32::from(self.house), shelves) {
            return 10;
        }
        if self.held.len() >= MAX_HELD {
            return 11;
        }
        if self.bytes + order.record_len() > MAX_BYTES {
            return 15;
        }
        0
    }

    pub fn summary(&self) -> Summary {
        Summary {
            refused: 0,
            start: self.start,
            held: self.held.len(),
            bytes: self.bytes,
        }
    }
}
