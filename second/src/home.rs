//! What a house does as the home of orders: submit, vote, rule, give up and answer.

use crate::history::History;
use crate::house::{Asked, House};
use crate::limits::MAX_ASKED;
use crate::name::Name;
use crate::order::Order;
use crate::record::{self, RULED};
use crate::refusal::Refusal;
use std::collections::BTreeSet;

impl House {
    /// The home begins to ask about an order.
    pub fn submit(&mut self, order: Order) -> Result<(), Refusal> {
        let name = order.name();
        if name.home != self.number || name.start != History::of(&self.bytes).starts {
            return Err(Refusal::OtherStart);
        }
        if self.memory.tried.contains(&name.number) {
            return Err(Refusal::Tried);
        }
        if self.memory.asked.len() >= MAX_ASKED {
            return Err(Refusal::AskedFull);
        }
        self.memory.tried.insert(name.number);
        self.memory.asked.push(Asked {
            order: order.bytes().to_vec(),
            yes: BTreeSet::new(),
        });
        Ok(())
    }

    /// The yes of the house `from` arrives.
    pub fn vote(&mut self, from: u32, name: Name) -> Result<(), Refusal> {
        let place = self.place_asked(name)?;
        self.memory.asked[place].yes.insert(from);
        Ok(())
    }

    /// The home rules an order. What is written is durable at once, since the home tells yes.
    pub fn rule(&mut self, name: Name) -> Result<(), Refusal> {
        let place = self.place_asked(name)?;
        let asked = &self.memory.asked[place];
        if !asked.all_said_yes() {
            return Err(Refusal::VoteMissing);
        }
        self.append(&record::encode_order(RULED, asked.order()))?;
        self.sync();
        self.memory.asked.remove(place);
        Ok(())
    }

    /// The home stops asking about an order.
    pub fn give_up(&mut self, name: Name) -> Result<(), Refusal> {
        let place = self.place_asked(name)?;
        self.memory.asked.remove(place);
        Ok(())
    }

    /// What the home tells of a name: yes, no, or nothing yet.
    pub fn answer(&self, name: Name) -> Result<bool, Refusal> {
        if name.home != self.number {
            return Err(Refusal::NothingToSay);
        }
        let history = History::of(&self.bytes);
        if history.ruled.contains(&name) {
            return Ok(true);
        }
        let tried = name.start == history.starts && self.memory.tried.contains(&name.number);
        let given_up = tried && self.place_asked(name).is_err();
        if name.start < history.starts || given_up {
            Ok(false)
        } else {
            Err(Refusal::NothingToSay)
        }
    }

    fn place_asked(&self, name: Name) -> Result<usize, Refusal> {
        let mut asked = self.memory.asked.iter();
        let place = asked.position(|asked| asked.order().name() == name);
        place.ok_or(Refusal::Unknown)
    }
}
