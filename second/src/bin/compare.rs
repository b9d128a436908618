//! Plays generated scripts by a given program and by this one, and compares line by line.

use second::compare::{Difference, Failure, compare};
use second::generate;
use second::special::SPECIALS;
use second::tally::Tally;
use std::env;
use std::ffi::OsStr;
use std::io::{self, BufReader, Write};
use std::process::{Child, Command, ExitCode, Stdio};
use std::thread;

fn main() -> ExitCode {
    let arguments: Vec<_> = env::args_os().skip(1).collect();
    let [program, seed, count] = arguments.as_slice() else {
        return usage();
    };
    let (Some(seed), Some(count)) = (number(seed), number(count)) else {
        return usage();
    };
    match compare_all(program, seed, count) {
        Ok(tally) => report(&tally),
        Err(error) => {
            println!("{error}");
            ExitCode::FAILURE
        }
    }
}

fn usage() -> ExitCode {
    eprintln!("usage: compare PROGRAM SEED COUNT");
    ExitCode::from(2)
}

fn number(word: &OsStr) -> Option<u64> {
    word.to_str()?.parse().ok()
}

fn report(tally: &Tally) -> ExitCode {
    println!("{} scripts, all answers alike", tally.scripts);
    println!("{tally}");
    let missing = tally.missing();
    for missing in &missing {
        println!("{missing}");
    }
    match missing.is_empty() {
        true => ExitCode::SUCCESS,
        false => ExitCode::FAILURE,
    }
}

/// Compares the generated scripts in one run, then each special one in a run of its own.
fn compare_all(program: &OsStr, seed: u64, count: u64) -> Result<Tally, String> {
    let input = generate::many_scripts(seed, count);
    let mut tally = compare_run(program, true, &input).map_err(|failure| {
        let described = describe(&failure, &format!("seed {seed}"));
        match failure {
            Failure::Difference(found) => format!("{described}\n{}", script(&found)),
            Failure::Unreadable(_) => described,
        }
    })?;
    for special in SPECIALS {
        let input = (special.write)().into_bytes();
        let compared = compare_run(program, false, &input);
        let more = compared.map_err(|failure| describe(&failure, special.name))?;
        tally.join(&more);
    }
    Ok(tally)
}

/// The place, the line and both answers.
fn describe(failure: &Failure, place: &str) -> String {
    let found = match failure {
        Failure::Difference(found) => found,
        Failure::Unreadable(error) => return format!("{place}: {error}"),
    };
    let line = found.lines.last().copied().unwrap_or_default();
    let texts = [line, &found.expected, &found.printed];
    let [line, expected, printed] = texts.map(|text| text.escape_ascii().to_string());
    let place = format!(
        "{place}, script {}, line {}",
        found.script,
        found.lines.len()
    );
    format!("{place}: {line}\nexpected: {expected}\nprinted:  {printed}")
}

fn script(found: &Difference) -> String {
    let script = found.lines.join(&b'\n');
    let script = String::from_utf8_lossy(&script);
    format!("the script up to this line:\n{script}")
}

/// Runs the program on this input and compares what it prints meanwhile.
fn compare_run<'a>(program: &OsStr, many: bool, input: &'a [u8]) -> Result<Tally, Failure<'a>> {
    let mut child = Command::new(program)
        .args(many.then_some("--many"))
        .stdin(Stdio::piped())
        .stdout(Stdio::piped())
        .spawn()?;
    let mut to_child = child.stdin.take().expect("the input is a pipe");
    let from_child = child.stdout.take().expect("the output is a pipe");
    thread::scope(|scope| {
        let writer = scope.spawn(move || to_child.write_all(input));
        let compared = compare(input, many, BufReader::new(from_child));
        if compared.is_err() {
            child.kill()?;
        }
        let written = writer.join().expect("the writer ends");
        let ended = end(&mut child);
        let tally = compared?;
        ended?;
        written?;
        Ok(tally)
    })
}

/// The program must end well.
fn end(child: &mut Child) -> io::Result<()> {
    let status = child.wait()?;
    match status.success() {
        true => Ok(()),
        false => Err(io::Error::other(format!("the program ended with {status}"))),
    }
}
