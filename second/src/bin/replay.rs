//! Plays a script on standard input, or with `--many` many of them, and prints the answers.

use second::player::{play_many, play_one};
use std::env;
use std::io::{self, BufWriter, Read, Write};
use std::process::ExitCode;

fn main() -> ExitCode {
    let arguments: Vec<_> = env::args_os().skip(1).collect();
    let many = match arguments.as_slice() {
        [] => false,
        [option] if option == "--many" => true,
        _ => {
            eprintln!("usage: replay [--many]");
            return ExitCode::from(2);
        }
    };
    match run(many) {
        Ok(()) => ExitCode::SUCCESS,
        Err(error) => {
            eprintln!("replay: {error}");
            ExitCode::FAILURE
        }
    }
}

fn run(many: bool) -> io::Result<()> {
    let mut input = Vec::new();
    io::stdin().lock().read_to_end(&mut input)?;
    let mut out = BufWriter::new(io::stdout().lock());
    if many {
        play_many(&input, &mut out)?;
    } else {
        play_one(&input, &mut out)?;
    }
    out.flush()
}
