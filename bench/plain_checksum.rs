// The checksum of the crate scan, written again in plain Rust.
use crate::plain::{Name, Order, Read, Record, record_at};

fn add_name(sum: u64, name: Name) -> u64 {
    sum.wrapping_add(u64::from(name.home))
        .wrapping_add(u64::from(name.start))
        .wrapping_add(u64::from(name.number))
}

fn add_order(sum: u64, name: Name, order: &Order) -> u64 {
    let mut total = add_name(sum, name);
    for list in [
        &order.reads[..order.read_count],
        &order.writes[..order.write_count],
    ] {
        for e in list {
            total = total
                .wrapping_add(u64::from(e.key))
                .wrapping_add(u64::from(e.amount));
        }
    }
    total
}

fn add_record(sum: u64, record: Record, order: &Order) -> u64 {
    match record {
        Record::Began => sum.wrapping_add(1),
        Record::Held(name) => add_order(sum.wrapping_add(2), name, order),
        Record::Done(name) => add_name(sum.wrapping_add(3), name),
        Record::Dropped(name) => add_name(sum.wrapping_add(4), name),
        Record::Ruled(name) => add_order(sum.wrapping_add(5), name, order),
    }
}

#[inline(never)]
pub fn checksum(houses: u8, bytes: &[u8]) -> u64 {
    let (mut at, mut sum) = (0, 0);
    while let Read::Whole(record, order, next) = record_at(houses, bytes, at) {
        sum = add_record(sum, record, &order);
        at = next;
    }
    sum
}
