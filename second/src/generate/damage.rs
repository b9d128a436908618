//! Damaged lines, and lines that only look otherwise.

use crate::order::key_of;
use crate::random::Random;

/// A line in which something is wrong, in most cases; some of them are passed over.
pub fn damaged(random: &mut Random, line: &str, houses: u32) -> Vec<u8> {
    let mut words: Vec<Vec<u8>> = line.split(' ').map(|word| word.into()).collect();
    let place = random.place(words.len());
    match random.below(20) {
        0..2 => words[0] = unknown_word(random),
        2..4 => drop(words.remove(place)),
        4..6 => words.insert(place, words[place].clone()),
        6..12 => words[place] = out_of_range(random, &words[place], houses),
        12..14 => words[place] = not_a_number(random, &words[place]),
        14 => words[place].extend(odd_bytes(random)),
        15 => return too_many_entries(random, line),
        16 => return with_tab(random, line),
        17 => words[place] = very_long(random, &words[place]),
        18 => return passed_over(random),
        _ => words.push(odd_bytes(random)),
    }
    words.join(&b' ')
}

/// The same line to a reader of words and numbers.
pub fn respaced(random: &mut Random, line: &str) -> Vec<u8> {
    let mut text = vec![b' '; random.place(3)];
    for word in line.split(' ') {
        if word.as_bytes()[0].is_ascii_digit() && random.percent(20) {
            text.resize(text.len() + 1 + random.place(12), b'0');
        }
        text.extend(word.bytes());
        text.resize(text.len() + 1 + random.place(3), b' ');
    }
    if random.percent(50) {
        text.truncate(text.trim_ascii_end().len());
    }
    text
}

fn unknown_word(random: &mut Random) -> Vec<u8> {
    const WORDS: [&str; 14] = [
        "Submit",
        "holds",
        "hol",
        "commit",
        "SHOW",
        "show:",
        "ok",
        "1",
        " %",
        "%%",
        "\"show\"",
        "give",
        "houses2",
        "\u{feff}show",
    ];
    WORDS[random.place(WORDS.len())].into()
}

/// A number that is too high or too low for some place, often one that is the same modulo a power
/// of two.
fn out_of_range(random: &mut Random, word: &[u8], houses: u32) -> Vec<u8> {
    let value: u64 = String::from_utf8_lossy(word).parse().unwrap_or(0);
    let item = random.place(5);
    let changed = match random.below(14) {
        0 => 1 << 32,
        1 => value + (1 << 32),
        2 => u64::from(u32::MAX),
        3 => value + 256,
        4 => value + 65_536,
        5 => 65_536,
        6 => 0,
        7 => u64::from(houses),
        8 => u64::from(key_of(0, [4_095, 4_096, 4_097, 65_535, 8_192][item])),
        9 => u64::from(key_of(houses, item as u32)),
        10 => value + 1,
        11 => u64::MAX,
        12 => 17,
        _ => return b"99999999999999999999999999999999999999999".to_vec(),
    };
    changed.to_string().into_bytes()
}

fn not_a_number(random: &mut Random, word: &[u8]) -> Vec<u8> {
    const BEFORE: [&str; 6] = ["-", "+", "0x", "'", "\u{a0}", "."];
    const AFTER: [&str; 8] = [".", ",", "u", "e0", "_", "\r", "\t", "\u{ff11}"];
    match random.below(2) {
        0 => [BEFORE[random.place(BEFORE.len())].as_bytes(), word].concat(),
        _ => [word, AFTER[random.place(AFTER.len())].as_bytes()].concat(),
    }
}

/// Bytes of which some are not text; none of them ends a line.
fn odd_bytes(random: &mut Random) -> Vec<u8> {
    let count = random.between(1, 4);
    let bytes = (0..count).map(|_| random.below(256) as u8);
    bytes.filter(|&byte| byte != b'\n').collect()
}

/// An order with seventeen reads or writes; where the line submits one, in its place.
fn too_many_entries(random: &mut Random, line: &str) -> Vec<u8> {
    let words: Vec<&str> = line.split(' ').collect();
    let front = match words.as_slice() {
        ["submit", house, home, start, number, ..] => {
            format!("submit {house} {home} {start} {number}")
        }
        _ => "submit 0 0 1 0".to_string(),
    };
    let entries = " 1 0".repeat(17);
    match random.below(3) {
        0 => format!("{front} 17{entries} 0"),
        1 => format!("{front} 0 17{entries}"),
        _ => format!("{front} 273{entries} 0"),
    }
    .into_bytes()
}

/// One of the spaces is a tab, or the line begins or ends with one.
fn with_tab(random: &mut Random, line: &str) -> Vec<u8> {
    let mut bytes = line.as_bytes().to_vec();
    let spaces = bytes.iter().enumerate().filter(|(_, byte)| **byte == b' ');
    let spaces: Vec<usize> = spaces.map(|(place, _)| place).collect();
    match (random.below(3), random.pick(&spaces)) {
        (0, Some(place)) => bytes[place] = b'\t',
        (1, _) => bytes.insert(0, b'\t'),
        _ => bytes.push(b'\t'),
    }
    bytes
}

/// A very long word; a number with very many zeros before it is still that number.
fn very_long(random: &mut Random, word: &[u8]) -> Vec<u8> {
    let length = match random.below(100) {
        0 => 70_000,
        1..10 => 5_000,
        _ => 300,
    };
    match random.below(4) {
        0 => [vec![b'0'; length], word.to_vec()].concat(),
        1 => [word.to_vec(), vec![b' '; length]].concat(),
        2 => [word.to_vec(), b" 1".repeat(length / 2)].concat(),
        _ => vec![b'x'; length],
    }
}

/// A line that gets no answer, or one that nearly is such a line.
fn passed_over(random: &mut Random) -> Vec<u8> {
    const LINES: [&str; 9] = [
        "",
        " ",
        "     ",
        "#",
        "# show",
        "#show\t\r",
        " # show",
        "\t",
        "\r",
    ];
    LINES[random.place(LINES.len())].into()
}
