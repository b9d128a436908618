// The calls that are measured: of the crate measure, and the same in plain Rust.
use crate::files::{HOLD, encoded};
use crate::plain_ledger::{Ledger, NamedOrder, Summary};

pub const SHELVES: usize = 4096;
const HOUSES: u8 = 4;

// As the crate measure has it.
#[repr(C)]
struct Answer {
    refused: u8,
    start: u32,
    held: usize,
    bytes: usize,
}

#[link(name = "measure", kind = "static")]
#[link(name = "libc_c", kind = "static")]
unsafe extern "C" {
    fn ledger_open(
        houses: u8,
        house: u8,
        bytes: *const u8,
        len: usize,
        shelves: *mut u32,
        count: usize,
    ) -> Answer;
    fn ledger_holds(
        houses: u8,
        house: u8,
        bytes: *const u8,
        len: usize,
        shelves: *mut u32,
        count: usize,
        message: *const u8,
        size: usize,
        times: u32,
    ) -> u64;
}

pub fn proved_open(bytes: &[u8], shelves: &mut [u32]) -> Summary {
    // SAFETY: the pointers and lengths are those of live slices, of which the second is lent for writing.
    let a = unsafe {
        ledger_open(
            HOUSES,
            0,
            bytes.as_ptr(),
            bytes.len(),
            shelves.as_mut_ptr(),
            shelves.len(),
        )
    };
    Summary {
        refused: a.refused,
        start: a.start,
        held: a.held,
        bytes: a.bytes,
    }
}

#[inline(never)]
pub fn plain_open(bytes: &[u8], shelves: &mut [u32]) -> Summary {
    match Ledger::open(HOUSES, 0, bytes, shelves) {
        Ok(ledger) => ledger.summary(),
        Err(refused) => Summary {
            refused,
            start: 0,
            held: 0,
            bytes: 0,
        },
    }
}

// The sum of the answers to holds of the order under the numbers below `times`.
pub fn proved_holds(bytes: &[u8], order: &NamedOrder, times: u32) -> u64 {
    let mut shelves = [0; SHELVES];
    let message = encoded(HOLD, order);
    // SAFETY: the pointers and lengths are those of live slices, of which the second is lent for writing.
    unsafe {
        ledger_holds(
            HOUSES,
            0,
            bytes.as_ptr(),
            bytes.len(),
            shelves.as_mut_ptr(),
            shelves.len(),
            message.as_ptr(),
            message.len(),
            times,
        )
    }
}

#[inline(never)]
pub fn plain_holds(bytes: &[u8], order: &NamedOrder, times: u32) -> u64 {
    let mut shelves = [0; SHELVES];
    let Ok(ledger) = Ledger::open(HOUSES, 0, bytes, &mut shelves) else {
        return u64::MAX;
    };
    (0..times)
        .map(|number| {
            let mut asked = *order;
            asked.name.number = number;
            u64::from(ledger.may_hold(&shelves, &asked))
        })
        .sum()
}
