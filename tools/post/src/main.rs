//! The post as a program: it carries messages between the folders of houses until it is interrupted, or once.

use post::{Chances, Post};
use std::env;
use std::io;
use std::path::PathBuf;
use std::process::ExitCode;
use std::thread;
use std::time::Duration;

const USAGE: &str = "usage: post [OPTION].. FOLDER..   the folder of house 0 first

Adds what each house writes to its file out to the file in of the house that it is for,
from the start of out on, until it is interrupted.

  --once       carry what is there, and end
  --lose P     lose P of a hundred messages
  --double P   deliver P of a hundred twice
  --delay P    deliver P of a hundred behind later ones
  --astray P   deliver P of a hundred at any house
  --seed S     which of them, 1 if not given";

const PAUSE: Duration = Duration::from_millis(20);

struct Options {
    once: bool,
    seed: u64,
    chances: Chances,
    folders: Vec<PathBuf>,
}

fn percent(word: Option<String>) -> Option<u32> {
    word?.parse().ok().filter(|p| *p <= 100)
}

fn read_options() -> Option<Options> {
    let mut options = Options {
        once: false,
        seed: 1,
        chances: Chances::default(),
        folders: Vec::new(),
    };
    let mut words = env::args().skip(1);
    while let Some(word) = words.next() {
        match word.as_str() {
            "--once" => options.once = true,
            "--seed" => options.seed = words.next()?.parse().ok()?,
            "--lose" => options.chances.lose = percent(words.next())?,
            "--double" => options.chances.double = percent(words.next())?,
            "--delay" => options.chances.delay = percent(words.next())?,
            "--astray" => options.chances.astray = percent(words.next())?,
            _ if word.starts_with("--") => return None,
            _ => options.folders.push(PathBuf::from(word)),
        }
    }
    let is_right = (1..=16).contains(&options.folders.len());
    is_right.then_some(options)
}

fn run(options: Options) -> io::Result<()> {
    let mut post = Post::new(options.folders, options.seed, options.chances);
    if options.once {
        post.turn()?;
        return post.deliver_delayed();
    }
    loop {
        post.turn()?;
        thread::sleep(PAUSE);
    }
}

fn main() -> ExitCode {
    if env::args().any(|word| word == "--help" || word == "-h") {
        println!("{USAGE}");
        return ExitCode::SUCCESS;
    }
    let Some(options) = read_options() else {
        eprintln!("{USAGE}");
        return ExitCode::from(2);
    };
    if let Some(folder) = options.folders.iter().find(|f| !f.is_dir()) {
        eprintln!("post: {}: not a folder", folder.display());
        return ExitCode::FAILURE;
    }
    match run(options) {
        Ok(()) => ExitCode::SUCCESS,
        Err(e) => {
            eprintln!("post: {e}");
            ExitCode::FAILURE
        }
    }
}
