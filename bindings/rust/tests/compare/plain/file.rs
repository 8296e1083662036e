//! 'The file'.
use super::book::Book;
use super::family::{base, empty, joined, top, Family};
use super::words::triple;

/// The file of a family.
pub fn file_of(f: &Family) -> Vec<u8> {
    if *f == empty() {
        return vec![0x00];
    }
    if *f == base() {
        return vec![0x02];
    }
    let mut local = Book::start();
    local.place(f);
    let mut bytes = vec![0x01];
    bytes.extend(local.count().to_le_bytes());
    let (mut item, mut number) = (0, 1);
    for part in local.nodes() {
        bytes.extend(record(triple(&local, part), item, number));
        item = top(part);
        number += 1;
    }
    bytes
}

// A bit map byte, then only the fields whose value differs from the else-value.
fn record([item, zero, one]: [u32; 3], last_item: u32, last_number: u32) -> Vec<u8> {
    let (i, z, o) = (item != last_item + 1, zero != 0, one != last_number);
    let mut bytes = vec![u8::from(i) + 2 * u8::from(z) + 4 * u8::from(o)];
    if i {
        bytes.extend(&item.to_le_bytes()[..2]);
    }
    if z {
        bytes.extend(zero.to_le_bytes());
    }
    if o {
        bytes.extend(one.to_le_bytes());
    }
    bytes
}

/// The family whose file the bytes are, where there is one: what the records name, if its file is these bytes.
pub fn family_of(bytes: &[u8]) -> Option<Family> {
    let f = match bytes {
        [0x00] => empty(),
        [0x02] => base(),
        [0x01, rest @ ..] => last_named(rest)?,
        _ => return None,
    };
    (file_of(&f) == bytes).then_some(f)
}

fn number(bytes: &mut &[u8], width: usize) -> Option<u32> {
    let (field, rest) = bytes.split_at_checked(width)?;
    *bytes = rest;
    Some(field.iter().rev().fold(0, |n, b| n * 256 + u32::from(*b)))
}

// The family of the last record. A record that no part of a family can have ends it early.
fn last_named(mut bytes: &[u8]) -> Option<Family> {
    let count = number(&mut bytes, 4)?;
    let mut local = vec![empty(), base()];
    let mut item = 0;
    for last in 1..=count {
        let bits = number(&mut bytes, 1)?;
        item = if bits & 1 != 0 { number(&mut bytes, 2)? } else { item + 1 };
        let zero = if bits & 2 != 0 { number(&mut bytes, 4)? } else { 0 };
        let one = if bits & 4 != 0 { number(&mut bytes, 4)? } else { last };
        let (zero, one) = (local.get(zero as usize)?, local.get(one as usize)?);
        if item > 512 || top(zero) >= item || top(one) >= item {
            return None;
        }
        local.push(joined(item, zero, one));
    }
    local.pop()
}
