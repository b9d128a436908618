//! Random orders: mostly over two or three houses, mostly of what stands on the shelves.

use super::author::Author;
use crate::limits::{MAX_ENTRIES, MAX_ITEM};
use crate::name::Name;
use crate::order::{self, Entry, Order, house_of, key_of};

/// A line that submits an order of this name to a house.
pub fn submit_line(author: &mut Author, house: u32, name: Name) -> String {
    let order = random_order(author, name);
    let order = Order::at_front(&order).expect("an order is whole");
    format!("submit {house} {order}")
}

/// The bytes of an order of this name.
fn random_order(author: &mut Author, name: Name) -> Vec<u8> {
    let mut reads = Vec::new();
    let mut writes = Vec::new();
    let entries_each = match author.random.below(40) {
        0 => 0,
        1 => MAX_ENTRIES,
        2..10 => 4,
        _ => 2,
    };
    for house in some_houses(author) {
        for _ in 0..author.random.between(entries_each.min(1), entries_each) {
            let key = random_key(author, house);
            let both = author.random.percent(40);
            if both || author.random.percent(35) {
                reads.push(seen(author, key));
            }
            if both || reads.last().is_none_or(|read| read.key != key) {
                writes.push(to_stand(author, key));
            }
        }
    }
    reads.truncate(MAX_ENTRIES as usize);
    writes.truncate(MAX_ENTRIES as usize);
    if author.random.percent(10) {
        let place = author.random.place(reads.len() + 1);
        if let Some(read) = reads.get_mut(place) {
            read.amount = author.random.below(10);
        }
    }
    order::encode(name, &reads, &writes)
}

/// Some of the houses: two or three where there are as many, in no order.
fn some_houses(author: &mut Author) -> Vec<u32> {
    let mut houses: Vec<u32> = (0..author.houses()).collect();
    let count = match author.random.below(20) {
        0..3 => 1,
        3..10 => 2,
        10..18 => 3,
        _ => 4,
    };
    while houses.len() > count {
        let place = author.random.place(houses.len());
        houses.swap_remove(place);
    }
    houses
}

fn random_key(author: &mut Author, house: u32) -> u32 {
    let item = match author.random.below(50) {
        0 => MAX_ITEM,
        1 => author.random.below(MAX_ITEM),
        _ => author.random.below(author.items),
    };
    key_of(house, item)
}

/// A key with what stands there.
fn seen(author: &Author, key: u32) -> Entry {
    let house = house_of(key);
    let shelves = author.history(house).shelves(house);
    let amount = shelves.get(&key).copied().unwrap_or(0);
    Entry { key, amount }
}

/// A key with an amount that is to stand there.
fn to_stand(author: &mut Author, key: u32) -> Entry {
    let amount = match author.random.below(30) {
        0 => u32::MAX,
        1 => author.random.draw() as u32,
        _ => author.random.below(10),
    };
    Entry { key, amount }
}
