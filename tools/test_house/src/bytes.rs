//! Orders, records, messages and frames as bytes, written from the format alone.

/// An order's name: its home, the home's start, and a number.
#[derive(Clone, Copy)]
pub struct Name(pub u8, pub u32, pub u32);

pub fn name(name: Name) -> Vec<u8> {
    let mut bytes = vec![name.0];
    bytes.extend(name.1.to_be_bytes());
    bytes.extend(name.2.to_be_bytes());
    bytes
}

/// An order that reads nothing and writes these amounts.
pub fn order(named: Name, writes: &[(u32, u32)]) -> Vec<u8> {
    let mut bytes = name(named);
    bytes.push(0);
    bytes.push(writes.len() as u8);
    for (key, amount) in writes {
        bytes.extend(key.to_be_bytes());
        bytes.extend(amount.to_be_bytes());
    }
    bytes
}

pub fn held(named: Name, writes: &[(u32, u32)]) -> Vec<u8> {
    [vec![2], order(named, writes)].concat()
}

pub fn hold(named: Name, writes: &[(u32, u32)]) -> Vec<u8> {
    [vec![6], order(named, writes)].concat()
}

pub fn yes(house: u8, named: Name) -> Vec<u8> {
    [vec![7, house], name(named)].concat()
}

pub fn told(done: bool, named: Name) -> Vec<u8> {
    [vec![8, u8::from(done)], name(named)].concat()
}

pub fn frame(to: u8, message: &[u8]) -> Vec<u8> {
    let mut bytes = vec![to];
    bytes.extend((message.len() as u16).to_be_bytes());
    bytes.extend(message);
    bytes
}

/// The frames of a file, each with the house it is for; what is not all there is left out.
pub fn frames(bytes: &[u8]) -> Vec<(u8, Vec<u8>)> {
    let mut found = Vec::new();
    let mut rest = bytes;
    while rest.len() >= 3 {
        let len = usize::from(u16::from_be_bytes([rest[1], rest[2]]));
        if rest.len() < 3 + len {
            break;
        }
        found.push((rest[0], rest[3..3 + len].to_vec()));
        rest = &rest[3 + len..];
    }
    found
}
