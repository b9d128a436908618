// The reader of the crate orders, written again in plain Rust.
#[derive(Clone, Copy, PartialEq, Eq, PartialOrd, Ord)]
pub struct Name {
    pub home: u8,
    pub start: u32,
    pub number: u32,
}

#[derive(Clone, Copy, PartialEq, Eq)]
pub struct Entry {
    pub key: u32,
    pub amount: u32,
}

#[derive(Clone, Copy)]
pub struct Order {
    pub reads: [Entry; 16],
    pub read_count: usize,
    pub writes: [Entry; 16],
    pub write_count: usize,
}

#[derive(Clone, Copy)]
pub enum Record {
    Began,
    Held(Name),
    Done(Name),
    Dropped(Name),
    Ruled(Name),
}

#[derive(Clone, Copy)]
pub enum Refusal {
    BadForm,
    OutOfRange,
}

// decode.rs doesn't look at the refusal.
#[allow(dead_code)]
#[derive(Clone, Copy)]
pub enum Read {
    Whole(Record, Order, usize),
    Cut,
    Refused(Refusal),
}

#[derive(Clone, Copy)]
enum OrderRead {
    Whole(Name, Order, usize),
    Cut,
    Refused(Refusal),
}

const NO_ENTRIES: Order = Order {
    reads: [Entry { key: 0, amount: 0 }; 16],
    read_count: 0,
    writes: [Entry { key: 0, amount: 0 }; 16],
    write_count: 0,
};

fn number_at(bytes: &[u8], at: usize) -> u32 {
    u32::from_be_bytes([bytes[at], bytes[at + 1], bytes[at + 2], bytes[at + 3]])
}

fn name_at(bytes: &[u8], at: usize) -> Name {
    Name {
        home: bytes[at],
        start: number_at(bytes, at + 1),
        number: number_at(bytes, at + 5),
    }
}

fn entries_at(bytes: &[u8], at: usize, count: usize) -> [Entry; 16] {
    let mut all = [Entry { key: 0, amount: 0 }; 16];
    for i in 0..count {
        all[i] = Entry {
            key: number_at(bytes, at + 8 * i),
            amount: number_at(bytes, at + 8 * i + 4),
        };
    }
    all
}

fn order_at(bytes: &[u8], at: usize) -> OrderRead {
    let rest = bytes.len() - at;
    if rest < 10 {
        return OrderRead::Cut;
    }
    let read_count = bytes[at + 9] as usize;
    if read_count > 16 {
        return OrderRead::Refused(Refusal::BadForm);
    }
    if rest < 11 {
        return OrderRead::Cut;
    }
    let write_count = bytes[at + 10] as usize;
    if write_count > 16 {
        return OrderRead::Refused(Refusal::BadForm);
    }
    let first = at + 11;
    if bytes.len() - first < 8 * (read_count + write_count) {
        return OrderRead::Cut;
    }
    let second = first + 8 * read_count;
    let order = Order {
        reads: entries_at(bytes, first, read_count),
        read_count,
        writes: entries_at(bytes, second, write_count),
        write_count,
    };
    OrderRead::Whole(name_at(bytes, at), order, second + 8 * write_count)
}

fn form_at(bytes: &[u8], at: usize) -> Read {
    if at >= bytes.len() {
        return Read::Cut;
    }
    let first = at + 1;
    match bytes[at] {
        1 => Read::Whole(Record::Began, NO_ENTRIES, first),
        2 => match order_at(bytes, first) {
            OrderRead::Whole(name, order, next) => Read::Whole(Record::Held(name), order, next),
            OrderRead::Cut => Read::Cut,
            OrderRead::Refused(why) => Read::Refused(why),
        },
        3 | 4 if bytes.len() - first < 9 => Read::Cut,
        3 => Read::Whole(Record::Done(name_at(bytes, first)), NO_ENTRIES, first + 9),
        4 => Read::Whole(
            Record::Dropped(name_at(bytes, first)),
            NO_ENTRIES,
            first + 9,
        ),
        5 => match order_at(bytes, first) {
            OrderRead::Whole(name, order, next) => Read::Whole(Record::Ruled(name), order, next),
            OrderRead::Cut => Read::Cut,
            OrderRead::Refused(why) => Read::Refused(why),
        },
        _ => Read::Refused(Refusal::BadForm),
    }
}

fn name_ok(houses: u8, name: Name) -> bool {
    name.home < houses && 1 <= name.start && name.start <= 65535 && name.number <= 65535
}

fn entries_ok(houses: u8, entries: &[Entry]) -> bool {
    entries
        .iter()
        .all(|e| e.key / 65536 < u32::from(houses) && e.key % 65536 <= 4095)
}

fn record_ok(houses: u8, record: Record, order: &Order) -> bool {
    if houses < 1 || houses > 16 {
        return false;
    }
    match record {
        Record::Began => true,
        Record::Held(name) | Record::Ruled(name) => {
            name_ok(houses, name)
                && entries_ok(houses, &order.reads[..order.read_count])
                && entries_ok(houses, &order.writes[..order.write_count])
        }
        Record::Done(name) | Record::Dropped(name) => name_ok(houses, name),
    }
}

pub fn record_at(houses: u8, bytes: &[u8], at: usize) -> Read {
    let read = form_at(bytes, at);
    let Read::Whole(record, order, _) = read else {
        return read;
    };
    if record_ok(houses, record, &order) {
        read
    } else {
        Read::Refused(Refusal::OutOfRange)
    }
}
