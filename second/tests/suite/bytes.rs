//! The bytes of a file, one by one.

use second::house::House;
use second::name::Name;
use second::order::{Entry, Order, encode};
use second::record::{Record, records};

fn order() -> Vec<u8> {
    let read = Entry {
        key: 65_541,
        amount: 2,
    };
    let write = Entry {
        key: 65_542,
        amount: 0x0102_0304,
    };
    encode(Name::new(0, 258, 3), &[read], &[write])
}

const ORDER: [u8; 27] = [
    0, 0, 0, 1, 2, 0, 0, 0, 3, // the name: home 0, start 258, number 3
    1, 1, // one read, one write
    0, 1, 0, 5, 0, 0, 0, 2, // item 5 of house 1, seen at 2
    0, 1, 0, 6, 1, 2, 3, 4, // item 6 of house 1
];

#[test]
fn an_order_is_its_name_its_counts_and_its_entries() {
    assert_eq!(order(), ORDER);
    let shown = Order::at_front(&ORDER).unwrap().to_string();
    assert_eq!(shown, "0 258 3 1 65541 2 1 65542 16909060");
}

#[test]
fn a_file_is_its_records_one_after_the_other() {
    let mut house = House::new(1);
    let order = order();
    let order = Order::at_front(&order).unwrap();
    assert_eq!(house.bytes, [1]);
    assert_eq!(
        house.hold(order).map_err(|refusal| refusal.number()),
        Err(10)
    );
    let seen = encode(order.name(), &[], &order.writes().collect::<Vec<_>>());
    let seen = Order::at_front(&seen).unwrap();
    house.hold(seen).unwrap();
    house.learn(true, seen.name()).unwrap();
    house.stop(10).unwrap();
    let held = [&[1, 2], &ORDER[..9], &[0, 1], &ORDER[19..]].concat();
    let done = [&[3], &ORDER[..9], &[1]].concat();
    assert_eq!(house.bytes, [held, done].concat());
}

#[test]
fn a_record_that_is_not_all_there_ends_the_records() {
    let held = [&[1, 5][..], &ORDER, &[4], &ORDER[..9]].concat();
    for length in 0..=held.len() {
        let mut records = records(&held[..length]);
        let count = records.by_ref().count();
        let (whole, end) = match length {
            0 => (0, 0),
            1..29 => (1, 1),
            29..39 => (2, 29),
            _ => (3, 39),
        };
        assert_eq!((count, records.end()), (whole, end));
    }
    let order = Order::at_front(&ORDER).unwrap();
    let all: Vec<Record> = records(&held).collect();
    let dropped = Record::Dropped(order.name());
    assert_eq!(all, [Record::Began, Record::Ruled(order), dropped]);
}
