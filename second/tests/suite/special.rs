//! A full file and a house that has begun as often as it may, with byte counts worked out by hand.

use crate::transcript::printed;
use second::special::SPECIALS;

/// A special script and what is printed for it.
struct Played {
    script: String,
    printed: String,
}

impl Played {
    fn of(name: &str) -> Played {
        let special = SPECIALS.iter().find(|special| special.name == name);
        let script = (special.unwrap().write)();
        let printed = printed(script.as_bytes());
        Played { script, printed }
    }

    /// What `show` says of house 1, each time, without the first word and number.
    fn shown(&self) -> Vec<&str> {
        let shown = self.printed.lines();
        shown
            .filter_map(|line| line.strip_prefix("house 1 "))
            .collect()
    }

    /// The lines that got this answer.
    fn answered(&self, answer: &str) -> Vec<&str> {
        let lines: Vec<&str> = self.script.lines().collect();
        let answers = self
            .printed
            .lines()
            .filter_map(|line| line.split_once(": "));
        let numbers = answers.filter(|(_, other)| *other == answer);
        numbers
            .map(|(number, _)| lines[number.parse::<usize>().unwrap() - 1])
            .collect()
    }
}

/// After 15,087 orders of 268 bytes, each dropped by 10 bytes, and 7 stops, 110 bytes are left;
/// four more orders of 20 bytes leave 30.
fn check_full(name: &str) -> Played {
    let played = Played::of(name);
    assert_eq!(
        played.shown(),
        [
            "start 8 file 4194194 safe 4194194",
            "start 8 file 4194274 safe 4194274",
            "start 8 file 4194304 safe 4194274",
            "start 9 file 4194275 safe 4194275",
            "start 9 file 4194285 safe 4194275",
            "start 10 file 4194276 safe 4194276",
            "start 10 file 4194304 safe 4194304",
            "start 10 file 4194304 safe 4194304",
            "start 10 file 4194304 safe 4194304 down 15",
            "start 10 file 4194304 safe 4194304 down 15",
        ]
    );
    let refused = played.answered("15");
    assert_eq!(
        refused[..11],
        [
            "hold 1 0 1 60003",
            "rule 1 1 8 3",
            "hold 1 0 1 61008",
            "rule 1 1 8 0",
            "learn 1 1 0 1 60013",
            "hold 1 0 1 60004",
            "rule 1 1 9 1",
            "hold 1 0 1 61010",
            "rule 1 1 10 0",
            "learn 1 1 0 1 60013",
            "stop 1 0",
        ]
    );
    played
}

#[test]
fn a_file_is_full_by_a_hold() {
    let played = check_full("full-by-hold");
    assert_eq!(played.answered("15").len(), 21);
}

#[test]
fn a_file_is_full_by_a_ruling() {
    let played = check_full("full-by-rule");
    assert!(played.printed.contains("ruled 1 10 9\n"));
}

#[test]
fn a_house_begins_65535_times() {
    let played = Played::of("all-starts");
    assert_eq!(
        played.shown(),
        [
            "start 16385 file 16385 safe 16385",
            "start 32769 file 32769 safe 32769",
            "start 49153 file 49153 safe 49153",
            "start 65535 file 65535 safe 65535",
            "start 65535 file 65649 safe 65639",
            "start 65535 file 65639 safe 65639 down 3",
            "start 65535 file 65639 safe 65639 down 3",
        ]
    );
    let refused = played.answered("3");
    let words = refused.iter().filter_map(|line| line.split(' ').next());
    let words: Vec<&str> = words.collect();
    assert_eq!(
        words,
        [
            "stop", "submit", "hold", "vote", "rule", "giveup", "answer", "sync", "stop", "stop",
            "learn"
        ]
    );
}
