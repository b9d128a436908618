//! Whole orders between houses, by frames that are copied by hand.

use crate::bytes::{Name, frame, frames, hold, told, yes};
use crate::folder::{Folder, append};

pub const TESTS: &[(&str, fn())] = &[
    ("order of two houses", two_houses),
    ("order that is given up", given_up),
    ("stop between hold and decision", stopped),
    ("order without entries", no_entries),
    ("frames for their houses", recipients),
];

const NAME: Name = Name(0, 1, 0);

/// Copies the frames that `from` sent since `taken` of them to the houses that they are for.
fn deliver(from: &Folder, to: &[&Folder], taken: &mut usize) {
    let sent = frames(&from.read("out"));
    for (house, message) in &sent[*taken..] {
        append(&to[usize::from(*house)].file("in"), &frame(*house, message));
    }
    *taken = sent.len();
}

fn two_houses() {
    let a = Folder::new(0, 2);
    let b = Folder::new(1, 2);
    let both = [&a, &b];
    let (mut from_a, mut from_b) = (0, 0);
    let (mut at_a, mut at_b) = (a.start(), b.start());
    assert_eq!(at_a.first, "start 1");
    let asked = at_a.ask("submit 0 1 0 0 2 5 3 65541 2");
    assert_eq!(asked, ["line: ok"]);
    deliver(&a, &both, &mut from_a);
    assert_eq!(at_b.ask(""), ["in: ok", "line: ok"]);
    deliver(&b, &both, &mut from_b);
    // its own hold, and the yes of the other
    assert_eq!(at_a.ask(""), ["in: ok", "in: ok", "line: ok"]);
    deliver(&a, &both, &mut from_a);
    // its own yes completes the order
    assert_eq!(at_a.ask(""), ["in: ok", "ruled 0 1 0", "line: ok"]);
    deliver(&a, &both, &mut from_a);
    assert_eq!(at_a.ask("shelf 5"), ["in: ok", "line: 3"]);
    assert_eq!(at_b.ask("shelf 65541"), ["in: ok", "line: 2"]);
    assert_eq!(at_a.ask("answer 0 1 0"), ["line: yes"]);
    assert_eq!((at_a.end(), at_b.end()), (Some(0), Some(0)));
    assert_eq!(a.run("shelf 5").lines()[0], "start 2");
    assert!(b.run("shelf 65541").lines().contains(&"1: 2"));
}

fn given_up() {
    let a = Folder::new(0, 2);
    let b = Folder::new(1, 2);
    b.post(&hold(NAME, &[(65541, 2)]));
    let mut at_b = b.start();
    assert_eq!(at_b.ask(""), ["in: ok", "line: ok"]);
    let run = a.run("submit 0 1 0 0 1 65541 2\ngiveup 0 1 0\ngiveup 0 1 0\nanswer 0 1 0\n");
    assert_eq!(run.lines(), ["start 1", "1: ok", "2: ok", "3: 12", "4: no"]);
    let no = (1, told(false, NAME));
    assert!(frames(&a.read("out")).contains(&no));
    b.post(&no.1);
    assert_eq!(at_b.ask("shelf 65541"), ["in: ok", "line: 0"]);
    b.post(&no.1);
    assert_eq!(at_b.ask(""), ["in: 12", "line: ok"]);
    b.post(&hold(NAME, &[(65541, 2)]));
    assert_eq!(at_b.ask(""), ["in: 8", "line: ok"]);
    assert_eq!(at_b.end(), Some(0));
}

/// A house that said yes keeps its word over a stop, and learns the decision afterwards.
fn stopped() {
    let b = Folder::new(1, 2);
    b.post(&hold(NAME, &[(65541, 2)]));
    let mut at_b = b.start();
    assert_eq!(at_b.ask(""), ["in: ok", "line: ok"]);
    at_b.kill();
    b.post(&hold(Name(0, 1, 1), &[(65541, 7)]));
    let mut at_b = b.start();
    assert_eq!(at_b.first, "start 2");
    // the hold again, and another order that clashes with it
    assert_eq!(at_b.ask(""), ["in: ok", "in: 9", "line: ok"]);
    b.post(&told(true, NAME));
    assert_eq!(at_b.ask("shelf 65541"), ["in: ok", "line: 2"]);
    let sent = frames(&b.read("out"));
    assert_eq!(sent, [(0, yes(1, NAME)), (0, yes(1, NAME))]);
    assert_eq!(at_b.end(), Some(0));
}

fn no_entries() {
    let a = Folder::new(0, 1);
    let run = a.run("submit 0 1 0 0 0\nsubmit 0 1 0 0 0\n");
    assert_eq!(run.lines(), ["start 1", "1: ok", "ruled 0 1 0", "2: 5"]);
}

fn recipients() {
    let a = Folder::new(0, 3);
    a.run("submit 0 1 0 1 131077 0 1 65541 2\ngiveup 0 1 0\n");
    let to: Vec<u8> = frames(&a.read("out")).iter().map(|f| f.0).collect();
    // the hold for the houses of the order, the no for all
    assert_eq!(to, [1, 2, 0, 1, 2]);
    let sent = frames(&a.read("out"));
    assert_eq!(sent[2].1, told(false, NAME));
}
