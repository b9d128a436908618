//! One world of houses, which does business while messages are lost and houses are killed.

use crate::house::House;
use crate::orders::{
    Entries, MAX_ENTRIES, Order, STOCK, a_move, house_of, keys, pick, submit_line,
};
use post::frames::Name;
use post::random::Random;
use post::{Chances, Post};
use std::collections::BTreeMap;
use std::path::Path;
use std::time::Instant;

/// The turns after which an order that isn't ruled is given up at the latest.
const MAX_TURNS: u64 = 24;

/// The rounds of messages after which there are no more: a hold, a yes and what is told follow one another.
const MAX_ROUNDS: usize = 20;

pub struct World {
    pub houses: Vec<House>,
    pub post: Post,
    pub random: Random,
    pub orders: Vec<Order>,
    /// the orders from here on may not be decided
    open: usize,
    /// the amounts that the shelves last were seen at
    seen: BTreeMap<u32, u32>,
    turn: u64,
    /// orders that their own home refused
    pub refused: u64,
}

impl World {
    pub fn new(program: &Path, folder: &Path, seed: u64) -> Result<World, String> {
        let mut random = Random::new(seed);
        let count = 2 + random.below(3) as u8;
        let place = |number: u8| folder.join(format!("house-{number}"));
        let houses: Result<Vec<House>, String> = (0..count)
            .map(|number| House::new(number, count, program, place(number)))
            .collect();
        let post_seed = random.draw();
        let folders = (0..count).map(place).collect();
        Ok(World {
            houses: houses?,
            post: Post::new(folders, post_seed, Chances::default()),
            random,
            orders: Vec::new(),
            open: 0,
            seen: BTreeMap::new(),
            turn: 0,
            refused: 0,
        })
    }

    pub fn keys(&self) -> Vec<u32> {
        keys(self.houses.len() as u8)
    }

    /// The line that submits an order of the house, under a new name.
    pub fn new_order(&mut self, home: usize, reads: &Entries, writes: &Entries) -> String {
        let house = &mut self.houses[home];
        let name = Name {
            home: home as u8,
            start: house.said.start,
            number: house.next,
        };
        house.next += 1;
        self.orders.push(Order {
            name,
            turn: self.turn,
            is_given_up: false,
        });
        submit_line(name, reads, writes)
    }

    /// Carries messages without loss until no house says anything more.
    pub fn deliver_all(&mut self) -> Result<(), String> {
        self.post.chances = Chances::default();
        self.post.deliver_delayed().map_err(|e| e.to_string())?;
        for _ in 0..MAX_ROUNDS {
            for house in &mut self.houses {
                house.ask(&[])?;
            }
            if self.post.turn().map_err(|e| e.to_string())? == 0 {
                return Ok(());
            }
        }
        Err("messages bring about messages without end".to_string())
    }

    /// Submits an order while nothing goes wrong: it must be ruled.
    pub fn rule_surely(&mut self, reads: &Entries, writes: &Entries) -> Result<(), String> {
        let line = self.new_order(0, reads, writes);
        self.houses[0].ask(&[line])?;
        self.deliver_all()?;
        let name = self.orders[self.orders.len() - 1].name;
        if self.houses[0].said.ruled.contains(&name) {
            return Ok(());
        }
        Err(format!("{name} isn't ruled, though nothing went wrong"))
    }

    /// Starts the houses, and stocks all shelves.
    pub fn stock(&mut self) -> Result<(), String> {
        for house in &mut self.houses {
            house.start()?;
        }
        for keys in self.keys().chunks(MAX_ENTRIES) {
            let stock: Entries = keys.iter().map(|key| (*key, STOCK)).collect();
            self.rule_surely(&Vec::new(), &stock)?;
            self.seen.extend(stock);
        }
        Ok(())
    }

    /// What a shelf has, by its house.
    pub fn amount(&mut self, key: u32) -> Result<u32, String> {
        let house = &mut self.houses[usize::from(house_of(key))];
        let answers = house.ask(&[format!("shelf {key}")])?;
        let amount = answers[0].parse();
        amount.map_err(|_| format!("shelf {key}: {}", answers[0]))
    }

    /// What a shelf has, or had when its house was up; sometimes what it had before.
    fn any_amount(&mut self, key: u32) -> Result<u32, String> {
        if self.houses[usize::from(house_of(key))].is_up() && self.random.chance(90) {
            let amount = self.amount(key)?;
            self.seen.insert(key, amount);
        }
        Ok(self.seen.get(&key).copied().unwrap_or(0))
    }

    /// The line of a random order of the house.
    fn any_order(&mut self, home: usize) -> Result<String, String> {
        let count = 2 + self.random.place(3);
        let mut seen = Vec::new();
        for key in pick(&self.keys(), count, &mut self.random) {
            seen.push((key, self.any_amount(key)?));
        }
        let (reads, writes) = a_move(&seen, &mut self.random);
        Ok(self.new_order(home, &reads, &writes))
    }

    /// Lines that give up orders of the house, the older the more likely.
    fn give_up_lines(&mut self, home: usize) -> Vec<String> {
        let house = &self.houses[home];
        let start = house.said.start;
        let mut lines = Vec::new();
        for order in &mut self.orders[self.open..] {
            let name = order.name;
            let age = self.turn - order.turn;
            let is_here = usize::from(name.home) == home && name.start == start;
            if !is_here || order.is_given_up || house.said.ruled.contains(&name) {
                continue;
            }
            if self.random.below(MAX_TURNS) < age {
                order.is_given_up = true;
                lines.push(format!("giveup {name}"));
            }
        }
        lines
    }

    /// Lines that ask the house for its orders that others hold back.
    pub fn answer_lines(&mut self, home: usize) -> Result<Vec<String>, String> {
        let mut lines = Vec::new();
        for house in &self.houses {
            let held_back = house.ledger()?;
            let names = held_back.held_back();
            let of_home = names.filter(|name| usize::from(name.home) == home);
            lines.extend(of_home.map(|name| format!("answer {name}")));
        }
        Ok(lines)
    }

    /// What the house is asked in this turn.
    fn any_lines(&mut self, home: usize) -> Result<Vec<String>, String> {
        let mut lines = self.give_up_lines(home);
        if self.random.chance(25) {
            lines.extend(self.answer_lines(home)?);
        }
        while self.random.chance(25) {
            lines.push(self.any_order(home)?);
        }
        Ok(lines)
    }

    fn house_turn(&mut self, home: usize) -> Result<(), String> {
        if !self.houses[home].is_up() {
            return match self.random.below(10) {
                0..5 => Ok(()),
                5 => self.houses[home].start_and_kill(&mut self.random),
                _ => self.houses[home].start(),
            };
        }
        let lines = self.any_lines(home)?;
        if self.random.chance(3) {
            return self.houses[home].kill(&lines, &mut self.random);
        }
        let answers = self.houses[home].ask(&lines)?;
        let refused =
            |(line, answer): &(&String, &String)| line.starts_with("submit") && *answer != "ok";
        self.refused += lines.iter().zip(&answers).filter(refused).count() as u64;
        Ok(())
    }

    /// Does business until that time, over a bad post and with houses that are killed.
    pub fn run(&mut self, until: Instant) -> Result<(), String> {
        self.post.chances = Chances {
            lose: 4,
            double: 5,
            delay: 10,
            astray: 2,
        };
        while Instant::now() < until {
            self.turn += 1;
            for home in 0..self.houses.len() {
                self.house_turn(home)?;
            }
            self.post.turn().map_err(|e| e.to_string())?;
            while self.open < self.orders.len()
                && self.orders[self.open].turn + MAX_TURNS < self.turn
            {
                self.open += 1;
            }
        }
        Ok(())
    }
}
