// Files of records, and the orders in them.
use crate::plain::{Entry, Name, Order};
use crate::plain_ledger::NamedOrder;

// A full file, but for one more order.
pub const ROOM: usize = 4 * 1024 * 1024 - 300;

const HELD: u8 = 2;
pub const DONE: u8 = 3;
pub const DROPPED: u8 = 4;
pub const HOLD: u8 = 6;

fn named(kind: u8, name: Name) -> Vec<u8> {
    let mut bytes = vec![kind, name.home];
    bytes.extend(name.start.to_be_bytes());
    bytes.extend(name.number.to_be_bytes());
    bytes
}

// A held record or a hold message of the order.
pub fn encoded(kind: u8, order: &NamedOrder) -> Vec<u8> {
    let NamedOrder { name, order } = order;
    let mut bytes = named(kind, *name);
    bytes.extend([order.read_count as u8, order.write_count as u8]);
    for e in order.reads[..order.read_count]
        .iter()
        .chain(&order.writes[..order.write_count])
    {
        bytes.extend(e.key.to_be_bytes());
        bytes.extend(e.amount.to_be_bytes());
    }
    bytes
}

// An order that read so many shelves at `amount`, from `item` of house 0 on, and writes so many from 16 further on.
pub fn order(name: Name, item: u32, reads: usize, writes: usize, amount: u32) -> NamedOrder {
    let mut order = Order {
        reads: [Entry { key: 0, amount: 0 }; 16],
        read_count: reads,
        writes: [Entry { key: 0, amount: 0 }; 16],
        write_count: writes,
    };
    for i in 0..16 {
        order.reads[i] = Entry {
            key: item + i as u32,
            amount,
        };
        order.writes[i] = Entry {
            key: item + 16 + i as u32,
            amount: item + 7,
        };
    }
    NamedOrder { name, order }
}

// The k-th name of those that come to the house: of three homes by turns, each in rising order but for neighbours that change places.
fn name(k: u32) -> Name {
    let turn = (k / 3) ^ 1;
    Name {
        home: 1 + (k % 3) as u8,
        start: 1 + turn / 65536,
        number: turn % 65536,
    }
}

// The file with 63 orders more held back, of 32 entries each.
pub fn crowded(mut file: Vec<u8>) -> Vec<u8> {
    for i in 0..63 {
        let name = Name {
            home: 0,
            start: 1,
            number: i,
        };
        file.extend(encoded(HELD, &order(name, 64 * i, 16, 16, 0)));
    }
    file
}

// The file with pairs of records more that hold an order back and are the end of it, up to `len` bytes.
pub fn filled(mut file: Vec<u8>, entries: usize, end: u8, len: usize) -> Vec<u8> {
    for k in 0.. {
        let order = order(name(k), 64 * 63, entries / 2, entries - entries / 2, 0);
        let mut pair = encoded(HELD, &order);
        pair.extend(named(end, order.name));
        if file.len() + pair.len() > len {
            break;
        }
        file.extend(pair);
    }
    file
}
