//! Scripts in which a house stops at every byte of what it has just learnt.

use super::author::Author;
use crate::name::Name;
use crate::order::key_of;

/// The bytes of a done or dropped record.
const LEARNT: u32 = 10;

/// A house learns of one to three orders and stops at one byte after the other of that.
pub fn torn_records(author: &mut Author) {
    let houses = author.random.between(1, 4);
    author.begin(houses);
    let house = author.any_house();
    let orders = author.random.between(1, 3);
    let first = author.random.below(orders * LEARNT + 2);
    for kept in first..=(first + 11).min(orders * LEARNT + 1) {
        let home = author.any_house();
        let names: Vec<_> = (0..orders)
            .map(|item| held(author, home, house, item))
            .collect();
        for name in &names {
            decide(author, house, *name);
        }
        author.say(&format!("stop {house} {kept}"));
        author.say("show");
        for name in &names {
            for told in [0, 1] {
                author.say(&format!("learn {house} {told} {name}"));
            }
        }
        if author.random.percent(50) {
            author.say(&format!("sync {house}"));
        }
    }
    author.say("show");
}

/// A new order of one item of a house, which holds it and says yes.
fn held(author: &mut Author, home: u32, house: u32, item: u32) -> Name {
    let name = author.new_name(home);
    let amount = author.random.below(10);
    let key = key_of(house, item);
    author.say(&format!("submit {home} {name} 0 1 {key} {amount}"));
    author.say(&format!("hold {house} {name}"));
    author.say(&format!("vote {home} {house} {name}"));
    name
}

/// The home rules the order or gives it up, and the house learns that.
fn decide(author: &mut Author, house: u32, name: Name) {
    let home = name.home;
    if author.random.percent(70) {
        author.say(&format!("rule {home} {name}"));
        author.say(&format!("learn {house} 1 {name}"));
    } else {
        author.say(&format!("giveup {home} {name}"));
        author.say(&format!("learn {house} 0 {name}"));
    }
}
