//! The end of a world: every order is decided, every house learns it, and then all must be right.

use crate::ledger::Ledger;
use crate::orders::{Entries, MAX_ENTRIES, STOCK, pick};
use crate::world::World;
use post::frames::Name;
use std::collections::BTreeSet;
use std::path::Path;
use std::process::Command;

/// The rounds within which all must be settled.
const ROUNDS: usize = 20;

/// What became of the orders of a world.
#[derive(Default)]
pub struct Outcome {
    pub ruled: u64,
    pub given_up: u64,
    /// neither: their home stopped before
    pub stopped: u64,
}

fn ledgers(world: &World) -> Result<Vec<Ledger>, String> {
    world.houses.iter().map(|house| house.ledger()).collect()
}

/// Gives up every order that its home may still ask about.
fn give_up_all(world: &mut World) -> Result<(), String> {
    for house in &mut world.houses {
        let is_open = |name: Name| name.home == house.number && name.start == house.said.start;
        let mut lines = Vec::new();
        for order in &mut world.orders {
            if is_open(order.name) && !house.said.ruled.contains(&order.name) {
                order.is_given_up = true;
                lines.push(format!("giveup {}", order.name));
            }
        }
        house.ask(&lines)?;
    }
    Ok(())
}

/// Brings all houses up and asks and tells until none holds anything back.
pub fn settle(world: &mut World) -> Result<(), String> {
    for house in &mut world.houses {
        if !house.is_up() {
            house.start()?;
        }
    }
    world.deliver_all()?;
    give_up_all(world)?;
    for _ in 0..ROUNDS {
        world.deliver_all()?;
        if ledgers(world)?
            .iter()
            .all(|ledger| ledger.held_back().next().is_none())
        {
            return Ok(());
        }
        for home in 0..world.houses.len() {
            let lines = world.answer_lines(home)?;
            world.houses[home].ask(&lines)?;
        }
    }
    Err("houses still hold orders back, though all was told".to_string())
}

/// More orders, over all shelves, each of which passes on what a shelf has to the next: nothing stands in their way.
pub fn rule_once_more(world: &mut World) -> Result<(), String> {
    let keys = world.keys();
    let shuffled = pick(&keys, keys.len(), &mut world.random);
    for keys in shuffled.chunks(MAX_ENTRIES) {
        let mut seen: Entries = Vec::new();
        for key in keys {
            seen.push((*key, world.amount(*key)?));
        }
        let mut amounts: Vec<u32> = seen.iter().map(|entry| entry.1).collect();
        amounts.rotate_right(1);
        let writes = keys.iter().copied().zip(amounts).collect();
        world.rule_surely(&seen, &writes)?;
    }
    Ok(())
}

/// What each home answers of its orders: a yes exactly where a ruling was kept.
fn check_answers(world: &mut World) -> Result<Outcome, String> {
    let mut outcome = Outcome::default();
    for house in &mut world.houses {
        let ledger = house.ledger()?;
        let own = world
            .orders
            .iter()
            .filter(|order| order.name.home == house.number);
        let own: Vec<_> = own.collect();
        let lines: Vec<_> = own
            .iter()
            .map(|order| format!("answer {}", order.name))
            .collect();
        for (order, answer) in own.iter().zip(house.ask(&lines)?) {
            let name = order.name;
            let is_ruled = ledger.ruled.contains(&name);
            let expected = if is_ruled { "yes" } else { "no" };
            if answer != expected {
                return Err(format!("answer {name}: {answer}, and {expected} is right"));
            }
            match (is_ruled, order.is_given_up) {
                (true, _) => outcome.ruled += 1,
                (false, true) => outcome.given_up += 1,
                (false, false) => outcome.stopped += 1,
            }
        }
        let known: BTreeSet<Name> = own.iter().map(|order| order.name).collect();
        if let Some(name) = ledger.ruled.difference(&known).next() {
            return Err(format!("{name} is ruled, and nobody submitted it"));
        }
    }
    Ok(outcome)
}

/// Nothing was told, done or dropped against a ruling.
fn check_told(world: &mut World) -> Result<(), String> {
    let ledgers = ledgers(world)?;
    let ruled: BTreeSet<Name> = ledgers
        .iter()
        .flat_map(|ledger| ledger.ruled.clone())
        .collect();
    for (house, ledger) in world.houses.iter_mut().zip(&ledgers) {
        house.check()?;
        let number = house.number;
        if let Some(name) = house.said.told_no.intersection(&ruled).next() {
            return Err(format!("house {number} told no of {name}, which is ruled"));
        }
        if let Some(name) = ledger.done.difference(&ruled).next() {
            return Err(format!("house {number} has done {name}, which isn't ruled"));
        }
        if let Some(name) = ledger.dropped.intersection(&ruled).next() {
            return Err(format!("house {number} has dropped {name}, which is ruled"));
        }
    }
    Ok(())
}

/// The audit finds all sound, and the sum of the shelves is what they were stocked with.
fn check_audit(world: &World, audit: &Path) -> Result<(), String> {
    let ledgers = world.houses.iter().map(|house| house.folder.join("ledger"));
    let ended = Command::new(audit).args(ledgers).output();
    let ended = ended.map_err(|e| format!("audit: {e}"))?;
    let text = String::from_utf8_lossy(&ended.stdout);
    let mut lines = text.lines();
    if lines.next() != Some("sound") || !ended.status.success() {
        return Err(format!("audit: {}", text.trim_end()));
    }
    let mut sum: u64 = 0;
    for line in lines {
        let amount = line
            .split(' ')
            .nth(1)
            .and_then(|word| word.parse::<u64>().ok());
        sum += amount.ok_or(format!("audit: {line}"))?;
    }
    let stocked = u64::from(STOCK) * world.keys().len() as u64;
    if sum == stocked {
        return Ok(());
    }
    Err(format!(
        "the shelves have {sum}, and were stocked with {stocked}"
    ))
}

/// Settles a world, and checks it.
pub fn finish(world: &mut World, audit: &Path) -> Result<Outcome, String> {
    settle(world)?;
    rule_once_more(world)?;
    let outcome = check_answers(world)?;
    for house in &mut world.houses {
        house.end()?;
    }
    check_told(world)?;
    check_audit(world, audit)?;
    Ok(outcome)
}
