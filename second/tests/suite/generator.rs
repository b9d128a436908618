//! What the generated scripts reach.

use second::command::Kind;
use second::generate::many_scripts;
use second::order::Order;
use second::player::{END, Player, lines};
use second::tally::Tally;
use std::io;

/// What was counted over many scripts.
#[derive(Default)]
struct Reached {
    tally: Tally,
    /// How many orders were ruled, by how many houses they have.
    ruled: [u32; 5],
}

impl Reached {
    fn by(seed: u64, count: u64) -> Reached {
        let mut reached = Reached::default();
        let mut player = Player::default();
        for line in lines(&many_scripts(seed, count)) {
            if line == END {
                reached.end_script(&player);
                player = Player::default();
            } else if let Some(outcome) = player.line(line, &mut io::sink()).unwrap() {
                reached.tally.add(outcome);
            }
        }
        reached
    }

    fn end_script(&mut self, player: &Player) {
        for name in &player.play.rulings {
            let order = &player.play.post.holds[name];
            let order = Order::at_front(order).unwrap();
            self.ruled[order.houses().len()] += 1;
        }
    }
}

/// The refusals that lines of a kind can get in generated scripts.
fn possible_refusals(kind: Kind) -> &'static [usize] {
    match kind {
        Kind::Submit => &[1, 2, 4, 5, 6],
        Kind::Hold => &[1, 2, 7, 8, 9, 10, 11],
        Kind::Vote | Kind::GiveUp | Kind::Learn => &[1, 2, 12],
        Kind::Rule => &[1, 2, 12, 13],
        Kind::Answer => &[1, 2, 14],
        Kind::Houses | Kind::Sync | Kind::Stop | Kind::Show => &[1, 2],
    }
}

#[test]
fn every_kind_of_line_gets_every_answer_that_it_can() {
    let reached = Reached::by(7, 2_000);
    println!("{}", reached.tally);
    for kind in Kind::ALL {
        assert!(reached.tally.accepted(kind) > 100, "{}", kind.word());
        for number in 1..=15 {
            let possible = possible_refusals(kind).contains(&number);
            let refused = reached.tally.refused(kind, number) > 0;
            assert_eq!(refused, possible, "{} by {number}", kind.word());
        }
    }
}

#[test]
fn orders_of_every_number_of_houses_are_ruled() {
    let reached = Reached::by(8, 2_000);
    println!("ruled {:?}", reached.ruled);
    assert!(reached.ruled.iter().all(|&count| count > 20));
    assert!(reached.ruled[2] > 1_000 && reached.ruled[3] > 500);
}

#[test]
fn a_seed_gives_the_same_scripts_again() {
    assert_eq!(many_scripts(3, 50), many_scripts(3, 50));
    assert_ne!(many_scripts(3, 50), many_scripts(4, 50));
}
