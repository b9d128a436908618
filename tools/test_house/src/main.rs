//! Tests of the program `house` from outside: `test_house PROGRAM`. The library libfaults.so stands beside this program.

mod bytes;
mod faults;
mod folder;
mod inputs;
mod ledgers;
mod locks;
mod orders;

use std::env;
use std::panic;
use std::process::ExitCode;

fn main() -> ExitCode {
    if env::args_os().count() != 2 {
        eprintln!("usage: test_house PROGRAM");
        return ExitCode::from(2);
    }
    let suites = [
        orders::TESTS,
        ledgers::TESTS,
        inputs::TESTS,
        locks::TESTS,
        faults::TESTS,
    ];
    let mut passed = 0;
    let mut failed = 0;
    for (name, test) in suites.into_iter().flatten() {
        match panic::catch_unwind(test) {
            Ok(()) => passed += 1,
            Err(_) => {
                failed += 1;
                println!("{name}: failed");
            }
        }
    }
    println!("house: {passed} tests passed, {failed} failed");
    if failed == 0 {
        ExitCode::SUCCESS
    } else {
        ExitCode::FAILURE
    }
}
