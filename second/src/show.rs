//! What `show` prints.

use crate::history::History;
use crate::house::House;
use crate::play::Play;
use std::io::{self, Write};

/// Prints each house in turn, then the rulings of all.
pub fn show(play: &Play, out: &mut impl Write) -> io::Result<()> {
    for house in &play.houses {
        show_house(house, out)?;
    }
    for (index, name) in play.rulings.iter().enumerate() {
        writeln!(out, "done {} {name}", index + 1)?;
    }
    Ok(())
}

fn show_house(house: &House, out: &mut impl Write) -> io::Result<()> {
    let history = History::of(&house.bytes);
    let (file, safe) = (house.bytes.len(), house.durable);
    write!(out, "house {} start {}", house.number, history.starts)?;
    write!(out, " file {file} safe {safe}")?;
    if let Some(refusal) = house.down {
        write!(out, " down {}", refusal.number())?;
    }
    writeln!(out)?;
    for (key, amount) in history.shelves(house.number) {
        if amount != 0 {
            writeln!(out, "shelf {key} {amount}")?;
        }
    }
    for order in &history.held_back {
        writeln!(out, "held {order}")?;
    }
    for asked in &house.memory.asked {
        write!(out, "asking {}", asked.order().name())?;
        for voter in &asked.yes {
            write!(out, " {voter}")?;
        }
        writeln!(out)?;
    }
    for name in &history.ruled {
        writeln!(out, "ruled {name}")?;
    }
    Ok(())
}
