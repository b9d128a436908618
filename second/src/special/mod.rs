//! Scripts that reach the two limits which take many steps: a full file, and all starts.

mod all_starts;
mod full_file;

use crate::name::Name;
use crate::order::key_of;

/// A script with a name of its own.
pub struct Special {
    pub name: &'static str,
    pub write: fn() -> String,
}

pub const SPECIALS: [Special; 3] = [
    Special {
        name: "full-by-hold",
        write: full_file::full_by_hold,
    },
    Special {
        name: "full-by-rule",
        write: full_file::full_by_rule,
    },
    Special {
        name: "all-starts",
        write: all_starts::all_starts,
    },
];

/// A script that is being written.
#[derive(Default)]
struct Writer {
    text: String,
    /// The lowest item that no order has.
    next_item: u32,
}

impl Writer {
    /// Adds lines, without the spaces around them.
    fn add(&mut self, lines: &str) {
        for line in lines.trim().lines() {
            self.text.push_str(line.trim());
            self.text.push('\n');
        }
    }

    /// Submits an order that writes so many shelves of a house, which no other order has.
    fn submit(&mut self, name: Name, writes: u32, house: u32) {
        let mut line = format!("submit {} {name} 0 {writes}", name.home);
        for _ in 0..writes {
            line += &format!(" {} 7", key_of(house, self.next_item));
            self.next_item += 1;
        }
        self.add(&line);
    }

    /// Tries each step but learn at house 1, which is down.
    fn try_house_down(&mut self, name: &str) {
        self.add(&format!(
            "submit 1 {name} 0 0
            submit 1 1 0 0 0 0
            submit 1 1 1 0 0 17
            hold 1 {name}
            vote 1 1 {name}
            rule 1 {name}
            rule 1 2 1 0
            giveup 1 {name}
            answer 1 {name}
            sync 1
            stop 1 0
            stop 1 1
            stop 1 4294967296
            stop 2 0"
        ));
    }
}
