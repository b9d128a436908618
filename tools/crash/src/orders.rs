//! The orders of the test: each moves an amount from one shelf to another, so that the sum of all shelves stays.

use post::frames::Name;
use post::random::Random;

const KEYS_PER_HOUSE: u32 = 65536;

/// The items of each house that orders are about.
const ITEMS: u32 = 16;

/// The entries that an order may read, and that it may write.
pub const MAX_ENTRIES: usize = 16;

/// What each shelf is stocked with at first.
pub const STOCK: u32 = 1000;

pub fn house_of(key: u32) -> u8 {
    (key / KEYS_PER_HOUSE) as u8
}

/// The keys of all shelves that orders are about.
pub fn keys(houses: u8) -> Vec<u32> {
    let of_house = |house: u8| (0..ITEMS).map(move |item| u32::from(house) * KEYS_PER_HOUSE + item);
    (0..houses).flat_map(of_house).collect()
}

pub type Entries = Vec<(u32, u32)>;

/// An order that was submitted.
pub struct Order {
    pub name: Name,
    /// the turn in which it was
    pub turn: u64,
    /// whether its home was told to give it up
    pub is_given_up: bool,
}

fn write_entries(entries: &Entries) -> String {
    let mut text = entries.len().to_string();
    for (key, amount) in entries {
        text += &format!(" {key} {amount}");
    }
    text
}

pub fn submit_line(name: Name, reads: &Entries, writes: &Entries) -> String {
    let (reads, writes) = (write_entries(reads), write_entries(writes));
    format!("submit {name} {reads} {writes}")
}

/// What a move between these shelves reads and writes, by the amounts that they had; a third one is only read.
pub fn a_move(seen: &Entries, random: &mut Random) -> (Entries, Entries) {
    let (from, had) = seen[0];
    let (to, has) = seen[1];
    let amount = random.below(u64::from(had.min(100)) + 1) as u32;
    let writes = vec![(from, had - amount), (to, has.saturating_add(amount))];
    (seen.clone(), writes)
}

/// Different keys, at most `count` of them.
pub fn pick(keys: &[u32], count: usize, random: &mut Random) -> Vec<u32> {
    let mut left = keys.to_vec();
    let mut picked = Vec::new();
    while picked.len() < count && !left.is_empty() {
        picked.push(left.swap_remove(random.place(left.len())));
    }
    picked
}
