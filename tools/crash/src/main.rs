//! A crash test of the programs `house` and `audit`: houses do business over a bad post, are killed at any moment, and lose what
//! they hadn't synced; at the end all must be settled and right. The library libfaults.so stands beside this program.

mod disk;
mod house;
mod ledger;
mod orders;
mod process;
mod said;
mod settle;
mod world;

use settle::Outcome;
use std::env;
use std::fs;
use std::io::{self, ErrorKind};
use std::path::{Path, PathBuf};
use std::process::ExitCode;
use std::time::{Duration, Instant, SystemTime, UNIX_EPOCH};
use world::World;

const USAGE: &str = "usage: crash HOUSE_PROGRAM AUDIT_PROGRAM SECONDS [SEED]";

/// How long a world does business before it is settled.
const WORLD: Duration = Duration::from_secs(5);

struct Options {
    house: PathBuf,
    audit: PathBuf,
    time: Duration,
    seed: u64,
}

fn read_options() -> Option<Options> {
    let words: Vec<String> = env::args().skip(1).collect();
    let seed = match words.get(3) {
        Some(word) => word.parse().ok()?,
        None => SystemTime::now()
            .duration_since(UNIX_EPOCH)
            .ok()?
            .as_nanos() as u64,
    };
    if words.len() > 4 {
        return None;
    }
    Some(Options {
        house: fs::canonicalize(words.first()?).ok()?,
        audit: fs::canonicalize(words.get(1)?).ok()?,
        time: Duration::from_secs(words.get(2)?.parse().ok()?),
        seed,
    })
}

/// What happened in all worlds.
#[derive(Default)]
struct Figures {
    worlds: u64,
    orders: u64,
    outcome: Outcome,
    refused: u64,
    holds_refused: u64,
    kills: u64,
    cuts: u64,
    messages: post::Counts,
}

impl Figures {
    fn add(&mut self, world: &World, outcome: &Outcome) {
        self.worlds += 1;
        self.orders += world.orders.len() as u64;
        self.outcome.ruled += outcome.ruled;
        self.outcome.given_up += outcome.given_up;
        self.outcome.stopped += outcome.stopped;
        self.refused += world.refused;
        for house in &world.houses {
            self.holds_refused += house.refused;
            self.kills += house.kills;
            self.cuts += house.cuts;
        }
        self.messages.delivered += world.post.counts.delivered;
        self.messages.lost += world.post.counts.lost;
        self.messages.doubled += world.post.counts.doubled;
        self.messages.delayed += world.post.counts.delayed;
        self.messages.astray += world.post.counts.astray;
    }

    fn print(&self) {
        let Outcome {
            ruled,
            given_up,
            stopped,
        } = self.outcome;
        let post::Counts {
            delivered,
            lost,
            doubled,
            delayed,
            astray,
        } = self.messages;
        println!("worlds of 2 to 4 houses: {}", self.worlds);
        println!(
            "orders {}: ruled {ruled}, given up {given_up}, their home stopped {stopped}",
            self.orders
        );
        println!(
            "refused: submits {}, holds {}",
            self.refused, self.holds_refused
        );
        println!("kills {}, ledgers cut {}", self.kills, self.cuts);
        println!(
            "messages delivered {delivered}: lost {lost}, doubled {doubled}, delayed {delayed}, astray {astray}"
        );
    }
}

fn run_world(
    options: &Options,
    folder: &Path,
    seed: u64,
    until: Instant,
) -> Result<(World, Outcome), String> {
    let mut world = World::new(&options.house, folder, seed)?;
    world.stock()?;
    world.run(until.min(Instant::now() + WORLD))?;
    let outcome = settle::finish(&mut world, &options.audit)?;
    Ok((world, outcome))
}

fn run(options: &Options, folder: &Path) -> Result<(), String> {
    let until = Instant::now() + options.time;
    let mut figures = Figures::default();
    while figures.worlds == 0 || Instant::now() < until {
        let world = folder.join(format!("world-{}", figures.worlds));
        let seed = options.seed.wrapping_add(figures.worlds);
        let (ended, outcome) = run_world(options, &world, seed, until)?;
        figures.add(&ended, &outcome);
        fs::remove_dir_all(&world).map_err(|e| e.to_string())?;
    }
    figures.print();
    Ok(())
}

/// A folder for this run, that wasn't there before.
fn new_folder() -> io::Result<PathBuf> {
    let process = std::process::id();
    let mut turn = 0;
    loop {
        let folder = env::temp_dir().join(format!("crash.{process}.{turn}"));
        match fs::create_dir(&folder) {
            Ok(()) => return Ok(folder),
            Err(e) if e.kind() == ErrorKind::AlreadyExists => turn += 1,
            Err(e) => return Err(e),
        }
    }
}

fn main() -> ExitCode {
    let Some(options) = read_options() else {
        eprintln!("{USAGE}");
        return ExitCode::from(2);
    };
    println!("seed {}", options.seed);
    let folder = match new_folder() {
        Ok(folder) => folder,
        Err(why) => {
            eprintln!("crash: {why}");
            return ExitCode::FAILURE;
        }
    };
    if let Err(why) = run(&options, &folder) {
        println!("crash: {why}");
        println!("crash: the files are in {}", folder.display());
        return ExitCode::FAILURE;
    }
    let _ = fs::remove_dir_all(&folder);
    println!("crash: all right");
    ExitCode::SUCCESS
}
