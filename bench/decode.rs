// Decodes a ledger of 4 MiB by the proved reader and by the same algorithm in plain Rust, and prints the ratio of the times.
mod plain;
mod plain_checksum;

use std::hint::black_box;
use std::time::Instant;

#[link(name = "scan", kind = "static")]
unsafe extern "C" {
    fn scan_checksum(houses: u8, bytes: *const u8, len: usize) -> u64;
}

fn proved(houses: u8, bytes: &[u8]) -> u64 {
    // SAFETY: the pointer and the length are those of a live slice, which is only read.
    unsafe { scan_checksum(houses, bytes.as_ptr(), bytes.len()) }
}

// Numbers that look random and are the same in every run.
struct Numbers(u64);

impl Numbers {
    fn below(&mut self, limit: u64) -> u32 {
        self.0 ^= self.0 << 13;
        self.0 ^= self.0 >> 7;
        self.0 ^= self.0 << 17;
        (self.0 % limit) as u32
    }
}

// A file of almost 4 MiB for four houses, with at most `most` entries to a list, and its number of records.
fn ledger(most: u64) -> (Vec<u8>, usize) {
    let mut numbers = Numbers(12345);
    let mut file = vec![1];
    let mut records = 1;
    while file.len() < 4 * 1024 * 1024 - 300 {
        let kind = 2 + numbers.below(4) as u8;
        file.push(kind);
        file.push(numbers.below(4) as u8);
        file.extend((1 + numbers.below(65535)).to_be_bytes());
        file.extend(numbers.below(65536).to_be_bytes());
        if kind == 2 || kind == 5 {
            let (reads, writes) = (numbers.below(most + 1), numbers.below(most + 1));
            file.extend([reads as u8, writes as u8]);
            for _ in 0..reads + writes {
                let key = numbers.below(4) * 65536 + numbers.below(4096);
                file.extend(key.to_be_bytes());
                file.extend(numbers.below(1 << 32).to_be_bytes());
            }
        }
        records += 1;
    }
    (file, records)
}

// The shortest of the rounds, in seconds.
fn shortest(rounds: usize, decode: fn(u8, &[u8]) -> u64, file: &[u8]) -> f64 {
    (0..rounds)
        .map(|_| {
            let start = Instant::now();
            black_box(decode(4, black_box(file)));
            start.elapsed().as_secs_f64()
        })
        .fold(f64::MAX, f64::min)
}

// The two agree on whole files, on files cut anywhere, and on files with any byte changed.
fn compare(file: &[u8]) {
    assert_eq!(proved(4, file), plain_checksum::checksum(4, file));
    let mut front = file[..5000].to_vec();
    for len in 0..front.len() {
        assert_eq!(
            proved(4, &front[..len]),
            plain_checksum::checksum(4, &front[..len])
        );
    }
    for at in 0..front.len() {
        for change in [1, 16, 255] {
            front[at] ^= change;
            assert_eq!(proved(4, &front), plain_checksum::checksum(4, &front));
            front[at] ^= change;
        }
    }
}

fn main() {
    for most in [16, 2] {
        let (file, records) = ledger(most);
        compare(&file);
        // by turns, so that a slow moment of the machine meets both
        let (mut ours, mut theirs) = (f64::MAX, f64::MAX);
        for _ in 0..20 {
            ours = ours.min(shortest(5, proved, &file));
            theirs = theirs.min(shortest(5, plain_checksum::checksum, &file));
        }
        println!(
            "{} bytes, {records} records of at most {most} entries to a list: proved {:.3} ms, plain {:.3} ms, ratio {:.2}",
            file.len(),
            ours * 1e3,
            theirs * 1e3,
            ours / theirs
        );
    }
}
