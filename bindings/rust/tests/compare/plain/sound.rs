//! When a store is sound, read from its words.
use super::book::Book;
use super::family::{joined, named, Family};
use super::words::{capacity_of, entered};
use std::collections::BTreeSet;
use zdd::Record;

/// None of the four certain causes of 10.
pub fn fits(record: Record, nodes: &[u32], lookup: &[u32]) -> bool {
    record.capacity == capacity_of(nodes.len())
        && lookup.len() > record.capacity as usize
        && record.count <= record.capacity
        && (1..=512).contains(&record.limit)
}

fn node_obeys(nodes: &[u32], limit: u32, k: usize) -> bool {
    let top = |handle: u32| if handle < 2 { 0 } else { nodes[3 * (handle as usize - 2)] };
    let [item, zero, one] = [nodes[3 * k], nodes[3 * k + 1], nodes[3 * k + 2]];
    let before = |child: u32| (child as usize) < k + 2 && top(child) < item;
    (1..=limit).contains(&item) && one != 0 && before(zero) && before(one)
}

/// Whether the store is sound, its cache left aside.
pub fn is_sound(record: Record, nodes: &[u32], lookup: &[u32]) -> bool {
    if !fits(record, nodes, lookup) {
        return false;
    }
    let (held, room) = (3 * record.count as usize, 3 * record.capacity as usize);
    let all: BTreeSet<&[u32]> = nodes[..held].chunks_exact(3).collect();
    all.len() == record.count as usize
        && (0..record.count as usize).all(|k| node_obeys(nodes, record.limit, k))
        && nodes[held..room].iter().all(|word| *word == 0)
        && lookup == entered(&nodes[..held], lookup.len())
}

/// The book of the words of a sound store.
pub fn book_of(record: Record, nodes: &[u32]) -> Book {
    let mut book = Book::start();
    for words in nodes[..3 * record.count as usize].chunks_exact(3) {
        let side = |handle: u32| book.at(handle).expect("a child comes before").clone();
        let f = joined(words[0], &side(words[1]), &side(words[2]));
        book.add(f);
    }
    book
}

/// Whether every whole group is all zero, or true in the book of a store of this limit.
pub fn is_true(book: &Book, limit: u32, cache: &[u32]) -> bool {
    cache.chunks_exact(4).all(|group| group.iter().all(|word| *word == 0) || group_is_true(book, limit, group))
}

fn group_is_true(book: &Book, limit: u32, group: &[u32]) -> bool {
    let [op, p, q, result] = [group[0], group[1], group[2], group[3]];
    let (Some(first), Some(given)) = (book.at(p), book.at(result)) else { return false };
    match op {
        1..=3 => (1..=limit).contains(&q) && *given == named(op, first, q, &Family::new()),
        4..=6 => book.at(q).is_some_and(|second| *given == named(op, first, 0, second)),
        7..=8 => q == 0 && *given == named(op, first, 0, &Family::new()),
        _ => false,
    }
}
