//! What could sensibly happen next in a script.

use crate::history::History;
use crate::house::{Asked, House};
use crate::name::Name;
use crate::play::Play;

/// The orders asked about by any home.
fn asked(play: &Play) -> impl Iterator<Item = &Asked> {
    play.houses.iter().flat_map(|house| &house.memory.asked)
}

/// The names asked about.
pub fn names_asked(play: &Play) -> Vec<Name> {
    asked(play).map(|asked| asked.order().name()).collect()
}

/// The hold messages of orders asked about, each with a house of the order that has not said yes.
pub fn holds(play: &Play) -> Vec<(u32, Name)> {
    let orders = asked(play).map(Asked::order);
    let holds = orders.flat_map(|order| {
        let houses = order.houses().into_iter();
        houses.map(move |house| (house, order.name()))
    });
    holds.filter(|hold| !play.post.yes.contains(hold)).collect()
}

/// The votes that were sent and not noted, each with the house that sent it.
pub fn votes(play: &Play) -> Vec<(u32, Name)> {
    let votes = asked(play).flat_map(|asked| {
        let order = asked.order();
        let missing = order.houses().into_iter();
        let missing = missing.filter(|house| !asked.yes.contains(house));
        missing.map(move |house| (house, order.name()))
    });
    votes.filter(|vote| play.post.yes.contains(vote)).collect()
}

/// The names that may be ruled.
pub fn rulings(play: &Play) -> Vec<Name> {
    let ready = asked(play).filter(|asked| asked.all_said_yes());
    ready.map(|asked| asked.order().name()).collect()
}

/// The names held back, each with its house.
fn held_back(play: &Play) -> impl Iterator<Item = (u32, Name)> {
    let names = |house: &House| {
        let held_back = History::of(&house.bytes).held_back.into_iter();
        let names: Vec<_> = held_back
            .map(|order| (house.number, order.name()))
            .collect();
        names
    };
    play.houses.iter().flat_map(names)
}

/// What was told of names held back: the house, what was told, and the name.
pub fn lessons(play: &Play) -> Vec<(u32, bool, Name)> {
    let lessons = held_back(play).flat_map(|(house, name)| {
        let told = [false, true].into_iter();
        let told = told.filter(move |&yes| play.post.told.contains(&(yes, name)));
        told.map(move |yes| (house, yes, name))
    });
    lessons.collect()
}

/// The names held back that nobody asks about any more.
pub fn questions(play: &Play) -> Vec<Name> {
    let asked = names_asked(play);
    let names = held_back(play).map(|(_, name)| name);
    names.filter(|name| !asked.contains(name)).collect()
}

/// The orders that were done, each with a house that did it.
pub fn done(play: &Play) -> Vec<(u32, Name)> {
    let names = |house: &House| {
        let done = History::of(&house.bytes).done.into_iter();
        let names: Vec<_> = done.map(|order| (house.number, order.name())).collect();
        names
    };
    play.houses.iter().flat_map(names).collect()
}

/// The houses that have written what is not durable.
pub fn not_durable(play: &Play) -> Vec<u32> {
    let houses = play.houses.iter();
    let behind = houses.filter(|house| house.durable < house.bytes.len());
    behind.map(|house| house.number).collect()
}
