// Opens ledgers of 4 MiB and answers holds by the proved code and by the same algorithm in plain Rust, and prints the times and their ratios.
mod calls;
mod files;
mod plain;
mod plain_ledger;

use calls::{SHELVES, plain_holds, plain_open, proved_holds, proved_open};
use files::{DONE, DROPPED, ROOM, crowded, filled, order};
use plain::Name;
use plain_ledger::NamedOrder;
use std::hint::black_box;
use std::time::Instant;

// A name that no file has, and one of an order that is held back.
const FRESH: Name = Name {
    home: 1,
    start: 9,
    number: 0,
};
const HELD_BACK: Name = Name {
    home: 0,
    start: 1,
    number: 0,
};

// Both open the bytes to the same, and leave the same in the lent words.
fn compare_opening(file: &[u8]) {
    let (mut ours, mut theirs) = ([9; SHELVES], [9; SHELVES]);
    assert_eq!(proved_open(file, &mut ours), plain_open(file, &mut theirs));
    assert_eq!(ours, theirs);
}

// The same of a file, of its front cut anywhere, and of its front with any byte changed.
fn compare_openings(file: &[u8]) {
    compare_opening(file);
    let mut front = file[..3000].to_vec();
    for len in 0..front.len() {
        compare_opening(&front[..len]);
    }
    for at in 0..front.len() {
        for change in [1, 16, 255] {
            front[at] ^= change;
            compare_opening(&front);
            front[at] ^= change;
        }
    }
}

// Both answer holds alike; `refused` is the number of the answer to each of them.
fn compare_holds(file: &[u8], order: &NamedOrder, refused: u64) {
    assert_eq!(plain_holds(file, order, 10), 10 * refused);
    assert_eq!(proved_holds(file, order, 10), 10 * refused);
}

// The shortest of the rounds, in seconds.
fn shortest<T>(rounds: usize, mut work: impl FnMut() -> T) -> f64 {
    (0..rounds)
        .map(|_| {
            let start = Instant::now();
            black_box(work());
            start.elapsed().as_secs_f64()
        })
        .fold(f64::MAX, f64::min)
}

fn measure_opening(kind: &str, file: &[u8]) {
    compare_openings(file);
    // by turns, so that a slow moment of the machine meets both
    let (mut ours, mut theirs) = (f64::MAX, f64::MAX);
    let mut shelves = [0; SHELVES];
    for _ in 0..10 {
        ours = ours.min(shortest(2, || proved_open(black_box(file), &mut shelves)));
        theirs = theirs.min(shortest(2, || plain_open(black_box(file), &mut shelves)));
    }
    println!(
        "opening {} bytes, {kind}: proved {:.3} ms, plain {:.3} ms, ratio {:.2}",
        file.len(),
        ours * 1e3,
        theirs * 1e3,
        ours / theirs
    );
}

// The shortest times, in seconds, of calls without a hold and with so many.
struct Calls {
    without: f64,
    with: f64,
}

impl Calls {
    const TIMES: u32 = 4000;

    fn new() -> Calls {
        Calls {
            without: f64::MAX,
            with: f64::MAX,
        }
    }

    fn call(&mut self, holds: fn(&[u8], &NamedOrder, u32) -> u64, file: &[u8], order: &NamedOrder) {
        let time = |times| shortest(2, || holds(black_box(file), black_box(order), times));
        self.without = self.without.min(time(0));
        self.with = self.with.min(time(Calls::TIMES));
    }

    // Seconds of one answer: opening the ledger is in both.
    fn one(&self) -> f64 {
        (self.with - self.without) / f64::from(Calls::TIMES)
    }
}

// Microseconds of an answer to a hold against the orders that the file holds back.
fn measure_hold(kind: &str, file: &[u8], order: &NamedOrder) -> f64 {
    let (mut ours, mut theirs) = (Calls::new(), Calls::new());
    for _ in 0..10 {
        ours.call(proved_holds, file, order);
        theirs.call(plain_holds, file, order);
    }
    println!(
        "a hold against 63 of 32 entries, {kind} of {} bytes: proved {:.2} µs, plain {:.2} µs, ratio {:.2}",
        file.len(),
        ours.one() * 1e6,
        theirs.one() * 1e6,
        ours.one() / theirs.one()
    );
    ours.one()
}

fn main() {
    let asked = order(FRESH, 64 * 63, 16, 16, 0);
    let small = crowded(vec![1]);
    let full = crowded(filled(vec![1], 1, DROPPED, ROOM - 63 * 268));
    for file in [&small, &full] {
        compare_holds(file, &asked, 0);
        compare_holds(file, &order(HELD_BACK, 64 * 63, 16, 16, 0), 8);
        compare_holds(file, &order(FRESH, 64 * 62 + 17, 16, 16, 0), 9);
        compare_holds(file, &order(FRESH, 64 * 63, 16, 16, 1), 10);
        compare_holds(file, &order(FRESH, 65536, 16, 16, 0), 7);
    }
    measure_opening("orders of 1 entry", &full);
    measure_opening("orders of 32 entries", &filled(vec![1], 32, DONE, ROOM));
    measure_opening(
        "orders of 32 entries beside 63 that are held back",
        &filled(small.clone(), 32, DONE, ROOM),
    );
    let (at_small, at_full) = (
        measure_hold("in a file", &small, &asked),
        measure_hold("in a file", &full, &asked),
    );
    println!(
        "a hold at the full file took {:.2} of its time at the small one",
        at_full / at_small
    );
}
