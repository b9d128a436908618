//! Generates scripts, valid and damaged ones, from a seed.

mod author;
mod choices;
mod crowd;
mod damage;
mod orders;
mod tear;
mod walk;

use crate::random::Random;
use author::Author;

/// Many scripts, each ended by a line `%`; in two of three cases the input's last line has no end,
/// and in one of these the last script has no `%`.
pub fn many_scripts(seed: u64, count: u64) -> Vec<u8> {
    let mut random = Random::new(seed);
    let mut text = Vec::new();
    for _ in 0..count {
        text.extend(script(&mut random));
        text.extend(b"%\n");
    }
    match random.below(3) {
        0 => {}
        1 => text.truncate(text.len().saturating_sub(1)),
        _ => text.truncate(text.len().saturating_sub(3)),
    }
    text
}

/// One script.
fn script(random: &mut Random) -> Vec<u8> {
    let mut author = Author::new(random);
    match author.random.below(100) {
        0..2 => crowd::many_asked(&mut author),
        2..4 => crowd::many_held(&mut author),
        4..10 => tear::torn_records(&mut author),
        10 => before_houses(&mut author),
        _ => walk::walk(&mut author),
    }
    author.into_text()
}

/// A script whose lines come before there are houses.
fn before_houses(author: &mut Author) {
    for _ in 0..author.random.between(1, 6) {
        early_line(author);
    }
    if author.random.percent(70) {
        let houses = author.random.between(1, 4);
        author.begin(houses);
        walk::steps(author, 10);
    }
}

/// A line that comes too early: well-formed, malformed, or with a number of houses that cannot be.
fn early_line(author: &mut Author) {
    const LINES: [&str; 22] = [
        "show",
        "show 0",
        "sync 0",
        "sync",
        "stop 0 0",
        "stop 0",
        "submit 0 0 1 0 0 0",
        "submit 0 0 1 0 0 17",
        "submit 9 0 0 0 0 1 4096 1",
        "hold 0 0 1 0",
        "vote 0 0 0 1 0",
        "rule 0 0 1 0",
        "giveup 0 0 1 0",
        "answer 0 0 1 0",
        "learn 0 1 0 1 0",
        "learn 0 2 0 1 0",
        "houses 0",
        "houses 5",
        "houses 4294967295",
        "houses 4294967296",
        "houses",
        "houses 1 1",
    ];
    let line = LINES[author.random.place(LINES.len())];
    author.say(line);
}
