//! Draws a script as it is played: a lane for each house, a row for each step, an arrow for each message that arrives.

use crate::command::{Command, Step};
use crate::history::History;
use crate::play::{Answer, Play};
use crate::refusal::Refusal;
use std::io::{self, Write};

/// How far apart the lanes are.
const LANE: usize = 42;

/// Draws all lines that are commands; other lines end a paragraph.
pub fn picture<'a>(lines: impl Iterator<Item = &'a [u8]>, out: &mut impl Write) -> io::Result<()> {
    let mut play = Play::default();
    let mut spaced = true;
    for (number, line) in (1..).zip(lines) {
        let Ok(command) = Command::parse(line) else {
            if !spaced {
                row(out, "", &lanes(&play, b'|'), "")?;
            }
            spaced = true;
            continue;
        };
        let answer = play.perform(&command);
        let number = number.to_string();
        match &command {
            Command::Houses(_) => heads(&play, out)?,
            Command::Show => shown(&play, &number, out)?,
            Command::Step { house, step } => {
                let house = *house as usize;
                let drawn = match answer {
                    // its houses may be none of these
                    Err(Refusal::Form | Refusal::Range) => lanes(&play, b'|'),
                    _ => drawn(&play, house, step),
                };
                row(out, &number, &drawn, &outcome(&play, house, step, answer))?;
            }
        }
        spaced = matches!(command, Command::Houses(_));
    }
    Ok(())
}

/// A row: the line's number, the lanes, and what became of it.
fn row(out: &mut impl Write, number: &str, lanes: &[u8], outcome: &str) -> io::Result<()> {
    let lanes = String::from_utf8_lossy(lanes);
    let text = format!("{number:>4}  {lanes} {outcome}");
    writeln!(out, "{}", text.trim_end())
}

fn heads(play: &Play, out: &mut impl Write) -> io::Result<()> {
    let mut heads = lanes(play, b' ');
    for house in &play.houses {
        put(
            &mut heads,
            lane(house.number as usize),
            &format!("house {}", house.number),
        );
    }
    row(out, "line", &heads, "")?;
    row(out, "", &lanes(play, b'|'), "")
}

/// The shelves and the orders held back, under their houses.
fn shown(play: &Play, number: &str, out: &mut impl Write) -> io::Result<()> {
    let columns: Vec<Vec<String>> = play
        .houses
        .iter()
        .map(|house| facts(house.number, &house.bytes))
        .collect();
    let rows = columns.iter().map(Vec::len).max().unwrap_or(0);
    for index in 0..rows {
        let mut drawn = lanes(play, b'|');
        for (house, column) in columns.iter().enumerate() {
            let fact = column.get(index).map_or("", String::as_str);
            put(&mut drawn, lane(house) + 2, fact);
        }
        row(out, if index == 0 { number } else { "" }, &drawn, "")?;
    }
    Ok(())
}

fn facts(house: u32, bytes: &[u8]) -> Vec<String> {
    let history = History::of(bytes);
    let shelves = history.shelves(house);
    let shelves = shelves.into_iter().filter(|(_, amount)| *amount != 0);
    let mut facts: Vec<String> = shelves
        .map(|(key, amount)| format!("[shelf {key}: {amount}]"))
        .collect();
    facts.extend(
        history
            .held_back
            .iter()
            .map(|order| format!("[held {}]", order.name())),
    );
    if facts.is_empty() {
        facts.push("[nothing on the shelves]".to_string());
    }
    facts
}

/// The lanes with the step in them: an arrow from the house that sent the message, or the step's own word.
fn drawn(play: &Play, house: usize, step: &Step) -> Vec<u8> {
    let mut drawn = lanes(play, b'|');
    match step {
        Step::Hold(name) => arrow(
            &mut drawn,
            name.home as usize,
            house,
            &format!("hold {name}"),
        ),
        Step::Vote { from, name } => {
            arrow(&mut drawn, *from as usize, house, &format!("yes {name}"))
        }
        Step::Learn { yes, name } => {
            let told = if *yes { "yes" } else { "no" };
            arrow(
                &mut drawn,
                name.home as usize,
                house,
                &format!("told {told} {name}"),
            );
        }
        Step::Submit { name, .. } => put(&mut drawn, lane(house) + 2, &format!("submit {name}")),
        Step::Rule(name) => put(&mut drawn, lane(house) + 2, &format!("rule {name}")),
        Step::GiveUp(name) => put(&mut drawn, lane(house) + 2, &format!("give up {name}")),
        Step::Answer(name) => put(&mut drawn, lane(house) + 2, &format!("asked about {name}")),
        Step::Sync => put(&mut drawn, lane(house) + 2, "sync"),
        Step::Stop { .. } => put(&mut drawn, lane(house), "X its machine stops"),
    }
    drawn
}

fn arrow(lanes: &mut [u8], from: usize, to: usize, text: &str) {
    let (left, right) = (lane(from.min(to)) + 1, lane(from.max(to)));
    if from == to {
        return put(lanes, left + 1, &format!("{text}, to itself"));
    }
    lanes[left..right].fill(b'-');
    let (place, head) = if from < to {
        (right - 1, b'>')
    } else {
        (left, b'<')
    };
    lanes[place] = head;
    put(lanes, left + 3, &format!(" {text} "));
}

/// What the house did.
fn outcome(play: &Play, house: usize, step: &Step, answer: Result<Answer, Refusal>) -> String {
    let does = match (step, answer) {
        (_, Err(refusal)) => return format!("refused by {}", refusal.number()),
        (_, Ok(Answer::Yes)) => "tells yes",
        (_, Ok(Answer::No)) | (Step::GiveUp(_), _) => "tells no",
        (Step::Submit { .. }, _) => "asks its houses",
        (Step::Hold(_), _) => "holds it back, says yes",
        (Step::Vote { .. }, _) => "notes it",
        (Step::Rule(_), _) => "THE ORDER IS DONE; tells yes",
        (Step::Answer(_), _) => "",
        (Step::Learn { yes: true, .. }, _) => "does it",
        (Step::Learn { yes: false, .. }, _) => "drops it",
        (Step::Sync, _) => "all is safe",
        (Step::Stop { .. }, _) => {
            let starts = History::of(&play.houses[house].bytes).starts;
            return format!("comes up, start {starts}");
        }
    };
    does.to_string()
}

/// The lanes of all houses.
fn lanes(play: &Play, mark: u8) -> Vec<u8> {
    let mut lanes = vec![b' '; lane(play.houses.len().saturating_sub(1)) + 26];
    for house in 0..play.houses.len() {
        lanes[lane(house)] = mark;
    }
    lanes
}

fn lane(house: usize) -> usize {
    house * LANE
}

fn put(lanes: &mut [u8], place: usize, text: &str) {
    let end = lanes.len().min(place + text.len());
    lanes[place..end].copy_from_slice(&text.as_bytes()[..end - place]);
}
