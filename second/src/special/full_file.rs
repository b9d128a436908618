//! A file that is filled to its last byte: house 1's, mostly by orders whose home is house 0.

use super::Writer;
use crate::limits::MAX_FILE;
use crate::name::Name;
use crate::order::{Entry, Order, key_of};

/// How many bytes a record of an order with so many entries takes.
const fn order_record(entries: usize) -> usize {
    1 + Order::HEADER + entries * Entry::LENGTH
}

/// How many bytes a done or dropped record takes.
const LEARNT: usize = 1 + Name::LENGTH;

/// What is left of the file when `fill` ends: three learnt records, and four orders of one entry.
const LEFT: usize = 3 * LEARNT + 4 * order_record(1);

/// The longest order, held and dropped.
const PAIR: usize = order_record(32) + LEARNT;

/// What is filled; by pairs, and where no pair fits any more by stops, of one byte each.
const SPACE: usize = MAX_FILE - LEFT - 1;

/// The start of house 1 when its file is filled.
const START: u32 = 1 + (SPACE % PAIR) as u32;

/// The last record that fits is held.
pub fn full_by_hold() -> String {
    let mut script = fill_to_28_bytes_left();
    script.submit(Name::new(0, 1, 60_000), 2, 1);
    script.add(
        "hold 1 0 1 60000
        show
        hold 1 0 1 60000
        vote 0 1 0 1 60000",
    );
    end(&mut script);
    script.text
}

/// The last record that fits is ruled.
pub fn full_by_rule() -> String {
    let mut script = fill_to_28_bytes_left();
    let name = Name::new(1, START + 2, 9);
    script.submit(name, 2, 0);
    script.add(&format!(
        "hold 0 {name}
        rule 1 {name}
        vote 1 0 {name}
        rule 1 {name}
        show
        answer 1 {name}
        learn 0 1 {name}"
    ));
    end(&mut script);
    script.text
}

/// Records that fit exactly and are lost, some that are longer than what is left by one byte, and
/// one that is torn.
fn fill_to_28_bytes_left() -> Writer {
    let mut script = Writer::default();
    fill(&mut script);
    hold_four(&mut script);
    ask_at_full(&mut script, START);
    script.submit(Name::new(0, 1, 60_003), 3, 1);
    script.add(&format!(
        "hold 1 0 1 60003
        rule 1 1 {START} 3
        learn 1 1 0 1 60010
        learn 1 0 0 1 60011
        learn 1 1 0 1 60012"
    ));
    try_full(&mut script, START);
    script.add(
        "stop 1 31
        stop 1 0
        show
        learn 1 1 0 1 60010",
    );
    ask_at_full(&mut script, START + 1);
    script.submit(Name::new(0, 1, 60_004), 1, 1);
    script.add(&format!(
        "hold 1 0 1 60004
        rule 1 1 {} 1
        show
        stop 1 9
        show",
        START + 1
    ));
    script
}

/// Fills the file by the longest orders, which are given up, and by stops.
fn fill(script: &mut Writer) {
    script.add("houses 2");
    for number in 0..SPACE / PAIR {
        script.add(&longest_order(number));
        script.add(&format!(
            "hold 1 0 1 {number}
            giveup 0 0 1 {number}
            learn 1 0 0 1 {number}"
        ));
    }
    script.add("sync 1");
    for _ in 1..START {
        script.add("stop 1 0");
    }
    script.add("show");
}

/// The longest order: it saw sixteen shelves of house 0 and writes sixteen of house 1.
fn longest_order(number: usize) -> String {
    let mut line = format!("submit 0 0 1 {number}");
    for house in [0, 1] {
        line += " 16";
        for item in 4_080..4_096 {
            line += &format!(" {} 0", key_of(house, item));
        }
    }
    line
}

/// House 1 holds four orders, of which three are ruled and one is given up; it learns nothing.
fn hold_four(script: &mut Writer) {
    for number in 60_010..60_014 {
        script.submit(Name::new(0, 1, number), 1, 1);
        script.add(&format!(
            "hold 1 0 1 {number}
            vote 0 1 0 1 {number}"
        ));
    }
    script.add(
        "rule 0 0 1 60010
        giveup 0 0 1 60011
        rule 0 0 1 60012
        rule 0 0 1 60013
        show",
    );
}

/// House 1 asks about an order without entries, and about two of house 0, which says yes.
fn ask_at_full(script: &mut Writer, start: u32) {
    for entries in [0, 1, 3] {
        script.submit(Name::new(1, start, entries), entries, 0);
    }
    for entries in [1, 3] {
        script.add(&format!(
            "hold 0 1 {start} {entries}
            vote 1 0 1 {start} {entries}"
        ));
    }
}

/// Tries what a house can do when its file has no byte left.
fn try_full(script: &mut Writer, start: u32) {
    let name = Name::new(0, 1, 61_000 + start);
    script.submit(name, 1, 1);
    script.add(&format!(
        "hold 1 {name}
        rule 1 1 {start} 0
        learn 1 1 0 1 60013
        learn 1 0 0 1 60013
        hold 1 0 1 60013
        show"
    ));
}

/// House 1 stops with a full file and stays down; house 0 goes on.
fn end(script: &mut Writer) {
    script.submit(Name::new(1, START + 2, 0), 0, 0);
    try_full(script, START + 2);
    script.add(
        "sync 1
        stop 1 1
        stop 1 0
        show",
    );
    script.try_house_down("0 1 60013");
    script.add(
        "learn 1 1 0 1 60013
        stop 0 0
        answer 0 0 1 60013
        show",
    );
}
