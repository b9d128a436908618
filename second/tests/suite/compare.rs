//! The comparison finds what another program prints otherwise.

use second::compare::{Difference, Failure, compare};
use second::player::play_many;

const INPUT: &[u8] = b"houses 1\nshow\n%\nhouses 2\n#\nsync 1\nshow\n%\n";

fn expected() -> String {
    let mut out = Vec::new();
    play_many(INPUT, &mut out).unwrap();
    String::from_utf8(out).unwrap()
}

/// The difference from what another program prints.
fn difference(printed: &str) -> Difference<'static> {
    match compare(INPUT, true, printed.as_bytes()) {
        Err(Failure::Difference(found)) => found,
        other => panic!("{other:?}"),
    }
}

#[test]
fn the_same_answers_are_counted() {
    let tally = compare(INPUT, true, expected().as_bytes()).unwrap();
    assert_eq!(tally.scripts, 2);
    assert_eq!(tally.missing().len(), 8 + 15);
}

#[test]
fn another_answer_is_found() {
    let found = difference(&expected().replace("3: ok", "3: 2"));
    assert_eq!(found.script, 2);
    assert_eq!(found.lines, [&b"houses 2"[..], b"#", b"sync 1"]);
    assert_eq!(found.expected, b"3: ok\n");
    assert_eq!(found.printed, b"3: 2\n");
}

#[test]
fn a_missing_line_and_one_too_many_are_found() {
    let expected = expected();
    let found = difference(expected.strip_suffix("%\n").unwrap());
    assert_eq!(found.expected, b"%\n");
    assert_eq!(found.printed, b"");
    let found = difference(&format!("{expected}%"));
    assert_eq!(found.expected, b"");
    assert_eq!(found.printed, b"%");
    let found = difference(expected.trim_end());
    assert_eq!(found.expected, b"%\n");
    assert_eq!(found.printed, b"%");
}
