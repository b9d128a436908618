//! A script that is being written; each line is played at once, so the next can follow from it.

use super::damage;
use crate::history::History;
use crate::name::Name;
use crate::play::Play;
use crate::player::Player;
use crate::random::Random;
use std::io;

pub struct Author<'r> {
    pub random: &'r mut Random,
    /// How many items of each house the orders use: the fewer, the more orders clash.
    pub items: u32,
    /// How many orders there may be in work before new ones are rare.
    pub open_orders: usize,
    /// In so many of a hundred cases a damaged line comes first.
    damage: u32,
    player: Player,
    text: Vec<u8>,
}

impl<'r> Author<'r> {
    pub fn new(random: &'r mut Random) -> Author<'r> {
        let items = [2, 6, 20, 60][random.place(4)];
        let open_orders = random.place(6) + 1;
        let damage = [0, 2, 5, 25][random.place(4)];
        Author {
            random,
            items,
            open_orders,
            damage,
            player: Player::default(),
            text: Vec::new(),
        }
    }

    pub fn into_text(self) -> Vec<u8> {
        self.text
    }

    pub fn play(&self) -> &Play {
        &self.player.play
    }

    pub fn houses(&self) -> u32 {
        self.play().houses.len() as u32
    }

    /// Any house.
    pub fn any_house(&mut self) -> u32 {
        self.random.below(self.player.play.houses.len() as u32)
    }

    /// What the file of a house says.
    pub fn history(&self, house: u32) -> History<'_> {
        History::of(&self.play().houses[house as usize].bytes)
    }

    pub fn start(&self, house: u32) -> u32 {
        self.history(house).starts
    }

    /// How many bytes of a house's file are not durable.
    pub fn bytes_not_durable(&self, house: u32) -> u32 {
        let house = &self.play().houses[house as usize];
        (house.bytes.len() - house.durable) as u32
    }

    /// A name that a house as home may submit now.
    pub fn new_name(&mut self, home: u32) -> Name {
        let start = self.start(home);
        loop {
            let number = match self.random.below(20) {
                0 => 65_535 - self.random.below(9),
                1 => self.random.below(65_536),
                _ => self.random.below(200),
            };
            let tried = &self.play().houses[home as usize].memory.tried;
            if !tried.contains(&number) {
                return Name::new(home, start, number);
            }
        }
    }

    /// Says how many houses there are.
    pub fn begin(&mut self, houses: u32) {
        self.say(&format!("houses {houses}"));
        if self.houses() == 0 {
            self.write(format!("houses {houses}").as_bytes());
        }
    }

    /// Writes a line; sometimes a damaged one before it, and sometimes with other spaces.
    pub fn say(&mut self, line: &str) {
        if self.random.percent(self.damage) {
            let damaged = damage::damaged(self.random, line, self.houses());
            self.write(&damaged);
        }
        if self.random.percent(4) {
            let respaced = damage::respaced(self.random, line);
            self.write(&respaced);
        } else {
            self.write(line.as_bytes());
        }
    }

    fn write(&mut self, line: &[u8]) {
        self.text.extend(line);
        self.text.push(b'\n');
        let played = self.player.line(line, &mut io::sink());
        played.expect("all that is printed is thrown away");
    }
}
