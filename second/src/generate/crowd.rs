//! Scripts in which a house asks about as many orders as it may, or holds back as many.

use super::author::Author;
use super::walk;
use crate::limits::{MAX_ASKED, MAX_HELD};
use crate::name::Name;
use crate::order::key_of;

/// A home asks about as many orders as it may, and some more are submitted.
pub fn many_asked(author: &mut Author) {
    let houses = author.random.between(1, 4);
    author.begin(houses);
    let home = author.any_house();
    let mut names = Vec::new();
    while author.play().houses[home as usize].memory.asked.len() < MAX_ASKED {
        let name = author.new_name(home);
        submit(author, home, name, names.len() as u32);
        names.push(name);
    }
    for _ in 0..author.random.between(3, 8) {
        let new = author.new_name(home);
        let name = author.random.pick(&names).unwrap_or(new);
        match author.random.below(6) {
            0..2 => submit(author, home, new, 0),
            2 => submit(author, home, name, 0),
            3 => submit(author, home, Name { start: 2, ..name }, 0),
            4 => author.say(&format!("giveup {home} {name}")),
            _ => author.say(&format!("stop {home} 0")),
        }
    }
    author.say("show");
    walk::steps(author, 12);
    author.say("show");
}

/// A house holds back as many orders as it may, and some more are to be held.
pub fn many_held(author: &mut Author) {
    let houses = author.random.between(2, 4);
    author.begin(houses);
    let house = author.any_house();
    let homes = [(house + 1) % houses, house];
    let mut names = Vec::new();
    for item in 0..MAX_HELD as u32 + 3 {
        let home = homes[item as usize % 2];
        let name = author.new_name(home);
        submit_here(author, home, name, house, item);
        author.say(&format!("hold {house} {name}"));
        names.push(name);
    }
    for _ in 0..author.random.between(4, 12) {
        let Some(name) = author.random.pick(&names) else {
            return;
        };
        let home = name.home;
        match author.random.below(6) {
            0 => author.say(&format!("hold {house} {name}")),
            1 => author.say(&format!("hold {} {name}", (house + 1) % houses)),
            2 => author.say(&format!("giveup {home} {name}")),
            3 => author.say(&format!("learn {house} 0 {name}")),
            4 => author.say(&format!("stop {house} 0")),
            _ => hold_refused(author, homes[0], house),
        }
    }
    author.say("show");
    walk::steps(author, 12);
    author.say("show");
}

/// One more order: it clashes, or saw what is not so, or there is no room to hold it.
fn hold_refused(author: &mut Author, home: u32, house: u32) {
    let name = author.new_name(home);
    let item = author.random.below(80);
    match author.random.below(3) {
        0 => submit_here(author, home, name, house, item),
        1 => submit_here(author, home, name, house, item + 100),
        _ => {
            let key = key_of(house, item + 100);
            author.say(&format!("submit {home} {name} 1 {key} 1 0"));
        }
    }
    author.say(&format!("hold {house} {name}"));
}

fn submit_here(author: &mut Author, home: u32, name: Name, house: u32, item: u32) {
    let key = key_of(house, item);
    author.say(&format!("submit {home} {name} 0 1 {key} 1"));
}

fn submit(author: &mut Author, home: u32, name: Name, item: u32) {
    let house = author.any_house();
    submit_here(author, home, name, house, item);
}
