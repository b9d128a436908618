//! Scripts in which what can happen next is chosen at random, again and again.

use super::author::Author;
use super::choices;
use super::orders::submit_line;
use crate::name::Name;

/// A script of up to a hundred and fifty steps.
pub fn walk(author: &mut Author) {
    let houses = [1, 2, 2, 2, 3, 3, 3, 3, 4, 4][author.random.place(10)];
    author.begin(houses);
    let length = author.random.between(10, 150);
    steps(author, length);
    author.say("show");
}

/// So many steps, chosen at random; now and then an order is carried through at once.
pub fn steps(author: &mut Author, count: u32) {
    for _ in 0..count {
        if author.random.percent(3) {
            carry_through(author);
        }
        let line = next_line(author);
        author.say(&line);
        if author.random.percent(12) {
            author.say("show");
        }
    }
}

/// A new order is asked about, and held by all its houses, ruled and learnt as far as that goes.
pub fn carry_through(author: &mut Author) {
    let home = author.any_house();
    let name = author.new_name(home);
    let submit = submit_line(author, home, name);
    author.say(&submit);
    let Some(order) = author.play().post.holds.get(&name) else {
        return;
    };
    let order = crate::order::Order::at_front(order).expect("an order is whole");
    let houses = order.houses();
    for house in &houses {
        author.say(&format!("hold {house} {name}"));
        author.say(&format!("vote {home} {house} {name}"));
    }
    author.say(&format!("rule {home} {name}"));
    for house in &houses {
        author.say(&format!("learn {house} 1 {name}"));
    }
}

/// A sensible line in most cases, and else one of any houses and names.
fn next_line(author: &mut Author) -> String {
    if author.random.percent(12) {
        return odd_line(author);
    }
    for _ in 0..8 {
        let line = match author.random.below(100) {
            0..10 => submit_if_few(author),
            10..34 => hold(author),
            34..54 => vote(author),
            54..68 => rule(author),
            68..71 => give_up(author),
            71..77 => answer(author),
            77..95 => learn(author),
            95..97 => Some(format!("sync {}", author.any_house())),
            _ => Some(stop(author)),
        };
        if let Some(line) = line {
            return line;
        }
    }
    submit(author)
}

fn submit_if_few(author: &mut Author) -> Option<String> {
    let open = choices::names_asked(author.play()).len();
    let few = open < author.open_orders || author.random.percent(5);
    few.then(|| submit(author))
}

fn submit(author: &mut Author) -> String {
    let home = author.any_house();
    let name = author.new_name(home);
    submit_line(author, home, name)
}

/// A hold message arrives at a house that has not said yes, or at one that did the order long ago;
/// now and then its home gives it up, since the house may never say yes.
fn hold(author: &mut Author) -> Option<String> {
    let holds = match author.random.percent(3) {
        true => choices::done(author.play()),
        false => choices::holds(author.play()),
    };
    let (house, name) = author.random.pick(&holds)?;
    match author.random.percent(15) {
        true => Some(format!("giveup {} {name}", name.home)),
        false => Some(format!("hold {house} {name}")),
    }
}

fn vote(author: &mut Author) -> Option<String> {
    let votes = choices::votes(author.play());
    let (from, name) = author.random.pick(&votes)?;
    Some(format!("vote {} {from} {name}", name.home))
}

fn rule(author: &mut Author) -> Option<String> {
    let rulings = choices::rulings(author.play());
    let name = author.random.pick(&rulings)?;
    Some(format!("rule {} {name}", name.home))
}

fn give_up(author: &mut Author) -> Option<String> {
    let names = choices::names_asked(author.play());
    let name = author.random.pick(&names)?;
    Some(format!("giveup {} {name}", name.home))
}

fn answer(author: &mut Author) -> Option<String> {
    let names = match author.random.percent(20) {
        true => author.play().rulings.clone(),
        false => choices::questions(author.play()),
    };
    let name = author.random.pick(&names)?;
    Some(format!("answer {} {name}", name.home))
}

fn learn(author: &mut Author) -> Option<String> {
    let lessons = choices::lessons(author.play());
    let (house, yes, name) = author.random.pick(&lessons)?;
    Some(format!("learn {house} {} {name}", u32::from(yes)))
}

/// A stop that keeps none, some, or all of the bytes that are not durable, or more than there are.
fn stop(author: &mut Author) -> String {
    let behind = choices::not_durable(author.play());
    let house = match author.random.pick(&behind) {
        Some(house) if author.random.percent(70) => house,
        _ => author.any_house(),
    };
    let bytes = author.bytes_not_durable(house);
    let kept = match author.random.below(20) {
        0..5 => 0,
        5..9 => bytes,
        9 => bytes + 1,
        _ => author.random.between(0, bytes),
    };
    format!("stop {house} {kept}")
}

/// A line about any house and any name; few of them are accepted.
fn odd_line(author: &mut Author) -> String {
    let house = author.any_house();
    let from = author.any_house();
    let name = any_name(author);
    let told = author.random.below(2);
    match author.random.below(20) {
        0..3 => {
            let order_name = other_start(author, name);
            submit_line(author, house, order_name)
        }
        3..7 => format!("hold {house} {name}"),
        7..10 => format!("vote {house} {from} {name}"),
        10 => format!("vote {} {from} {name}", name.home),
        11 => format!("rule {house} {name}"),
        12 => format!("rule {} {name}", name.home),
        13 => format!("giveup {house} {name}"),
        14..16 => format!("answer {} {name}", name.home),
        16 => format!("answer {house} {name}"),
        17..19 => format!("learn {house} {told} {name}"),
        _ => format!("houses {}", author.random.below(6)),
    }
}

/// A name that was submitted, or one that could have been.
fn any_name(author: &mut Author) -> Name {
    let sent: Vec<Name> = author.play().post.holds.keys().copied().collect();
    if author.random.percent(80)
        && let Some(name) = author.random.pick(&sent)
    {
        return name;
    }
    let home = author.any_house();
    let start = author.start(home);
    let start = author.random.between(1, start + 1);
    Name::new(home, start, author.random.below(12))
}

/// The name as it is, or of the start that its home has now.
fn other_start(author: &mut Author, name: Name) -> Name {
    let start = match author.random.percent(50) {
        true => author.start(name.home),
        false => name.start,
    };
    Name { start, ..name }
}
