//! All houses and the post between them: a command is checked, then it is the house's own step.

use crate::command::{Command, Step};
use crate::house::House;
use crate::limits::{MAX_HOUSES, MAX_ITEM, MAX_NUMBER, MAX_STARTS};
use crate::name::Name;
use crate::order::{self, Entry, Order, item_of};
use crate::post::Post;
use crate::refusal::Refusal;

/// The answer to a command that is not refused.
#[derive(Clone, Copy, Debug, PartialEq, Eq)]
pub enum Answer {
    Ok,
    Yes,
    No,
}

/// The houses of a script, what they sent, and the rulings of all of them.
#[derive(Clone, Debug, Default)]
pub struct Play {
    /// Empty until a script has said how many there are.
    pub houses: Vec<House>,
    pub post: Post,
    /// The names ruled, in the order in which it happened.
    pub rulings: Vec<Name>,
}

impl Play {
    /// Does a command. A refused one changes nothing, except that a stop may leave a house down.
    pub fn perform(&mut self, command: &Command) -> Result<Answer, Refusal> {
        match command {
            Command::Houses(count) => self.set_houses(*count),
            _ if self.houses.is_empty() => Err(Refusal::Range),
            Command::Show => Ok(Answer::Ok),
            Command::Step { house, step } => {
                self.check_sent(step)?;
                self.check_range(*house, step)?;
                let place = *house as usize;
                match self.houses[place].down {
                    Some(refusal) => Err(refusal),
                    None => self.step(place, step),
                }
            }
        }
    }

    fn set_houses(&mut self, count: u32) -> Result<Answer, Refusal> {
        if !self.houses.is_empty() {
            return Err(Refusal::Form);
        }
        if !(1..=MAX_HOUSES).contains(&count) {
            return Err(Refusal::Range);
        }
        self.houses = (0..count).map(House::new).collect();
        Ok(Answer::Ok)
    }

    /// A message that arrives must have been sent.
    fn check_sent(&self, step: &Step) -> Result<(), Refusal> {
        let sent = match *step {
            Step::Hold(name) => self.post.holds.contains_key(&name),
            Step::Vote { from, name } => self.post.yes.contains(&(from, name)),
            Step::Learn { yes, name } => self.post.told.contains(&(yes, name)),
            _ => true,
        };
        sent.then_some(()).ok_or(Refusal::Form)
    }

    fn check_range(&self, house: u32, step: &Step) -> Result<(), Refusal> {
        let fits = match step {
            Step::Submit {
                name,
                reads,
                writes,
            } => {
                let mut entries = reads.iter().chain(writes);
                self.has_name(*name) && entries.all(|entry| self.has_key(*entry))
            }
            Step::Vote { from, name } => self.has_house(*from) && self.has_name(*name),
            Step::Hold(name) | Step::Rule(name) | Step::GiveUp(name) | Step::Answer(name) => {
                self.has_name(*name)
            }
            Step::Learn { name, .. } => self.has_name(*name),
            Step::Sync | Step::Stop { .. } => true,
        };
        let fits = fits && self.has_house(house);
        fits.then_some(()).ok_or(Refusal::Range)
    }

    fn has_house(&self, house: u32) -> bool {
        (house as usize) < self.houses.len()
    }

    fn has_name(&self, name: Name) -> bool {
        let start_fits = (1..=MAX_STARTS).contains(&name.start);
        self.has_house(name.home) && start_fits && name.number <= MAX_NUMBER
    }

    fn has_key(&self, entry: Entry) -> bool {
        self.has_house(entry.house()) && item_of(entry.key) <= MAX_ITEM
    }

    /// The step of a house that is up, and what it sends.
    fn step(&mut self, place: usize, step: &Step) -> Result<Answer, Refusal> {
        let house = &mut self.houses[place];
        match step {
            Step::Submit {
                name,
                reads,
                writes,
            } => {
                let order = order::encode(*name, reads, writes);
                house.submit(view(&order))?;
                self.post.holds.insert(*name, order);
            }
            Step::Hold(name) => {
                house.hold(view(&self.post.holds[name]))?;
                self.post.yes.insert((house.number, *name));
            }
            Step::Vote { from, name } => house.vote(*from, *name)?,
            Step::Rule(name) => {
                house.rule(*name)?;
                self.post.told.insert((true, *name));
                self.rulings.push(*name);
            }
            Step::GiveUp(name) => {
                house.give_up(*name)?;
                self.post.told.insert((false, *name));
            }
            Step::Answer(name) => {
                let yes = house.answer(*name)?;
                self.post.told.insert((yes, *name));
                return Ok(if yes { Answer::Yes } else { Answer::No });
            }
            Step::Learn { yes, name } => house.learn(*yes, *name)?,
            Step::Sync => house.sync(),
            Step::Stop { kept } => house.stop(*kept)?,
        }
        Ok(Answer::Ok)
    }
}

fn view(order: &[u8]) -> Order<'_> {
    Order::at_front(order).expect("an order that was sent is whole")
}
