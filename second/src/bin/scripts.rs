//! Prints generated scripts, or one of the special ones.

use second::generate;
use second::special::SPECIALS;
use std::env;
use std::io::{self, Write};
use std::process::ExitCode;

fn main() -> ExitCode {
    let arguments: Vec<_> = env::args().skip(1).collect();
    let Some(text) = text(&arguments) else {
        let names = SPECIALS.map(|special| special.name).join("|");
        eprintln!("usage: scripts SEED COUNT, or scripts {names}");
        return ExitCode::from(2);
    };
    match io::stdout().lock().write_all(&text) {
        Ok(()) => ExitCode::SUCCESS,
        Err(error) => {
            eprintln!("scripts: {error}");
            ExitCode::FAILURE
        }
    }
}

fn text(arguments: &[String]) -> Option<Vec<u8>> {
    match arguments {
        [name] => {
            let mut specials = SPECIALS.into_iter();
            let special = specials.find(|special| special.name == name)?;
            Some((special.write)().into_bytes())
        }
        [seed, count] => {
            let (seed, count) = (seed.parse().ok()?, count.parse().ok()?);
            Some(generate::many_scripts(seed, count))
        }
        _ => None,
    }
}
