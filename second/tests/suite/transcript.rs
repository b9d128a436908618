//! Scripts written down together with what must be printed.

use second::player::play_one;

/// Plays a transcript and compares. A row `LINE => ANSWER` is a line of the script with its answer;
/// a row `LINE =>` is a line that is passed over; other rows are printed after the line before.
pub fn check(transcript: &str) {
    let mut script = String::new();
    let mut expected = String::new();
    let mut number = 0;
    let rows = transcript.lines().map(str::trim);
    for row in rows.filter(|row| !row.is_empty()) {
        if let Some(line) = row.strip_suffix(" =>") {
            number += 1;
            script += &format!("{line}\n");
        } else if let Some((line, answer)) = row.split_once(" => ") {
            number += 1;
            script += &format!("{line}\n");
            expected += &format!("{number}: {answer}\n");
        } else {
            expected += &format!("{row}\n");
        }
    }
    assert_eq!(printed(script.as_bytes()), expected);
}

/// What is printed for a script.
pub fn printed(script: &[u8]) -> String {
    let mut out = Vec::new();
    play_one(script, &mut out).unwrap();
    String::from_utf8(out).unwrap()
}
