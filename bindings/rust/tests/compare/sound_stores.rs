//! Calls on sound stores that no list of calls made: nodes in another order, a cache with true groups.
use crate::files::{any_family, damaged};
use crate::lists::{any_call, Makings};
use crate::observe::compare;
use crate::plain::book::Book;
use crate::plain::family::named;
use crate::plain::file::file_of;
use crate::plain::sound::{book_of, is_sound, is_true};
use crate::plain::words::entered;
use crate::random::{limit_of, Random};
use crate::shelf::Shelf;
use crate::tally::{Tally, OUTCOMES};
use zdd::Record;

/// Nodes with children before and below, no two equal, in any such order.
pub fn any_nodes(rng: &mut Random, count: usize, pool: &[u32]) -> Vec<u32> {
    let mut nodes: Vec<u32> = Vec::new();
    let mut tops = vec![0, 0];
    for _ in 0..20 * count {
        let (item, zero, one) = (rng.pick(pool), rng.below(tops.len()), 1 + rng.below(tops.len() - 1));
        let words = [item, zero as u32, one as u32];
        if tops[zero] < item
            && tops[one] < item
            && !nodes.chunks_exact(3).any(|other| other == words)
            && nodes.len() < 3 * count
        {
            nodes.extend(words);
            tops.push(item);
        }
    }
    nodes
}

// Groups that are zero or true, for operands whose result the book holds.
fn any_cache(rng: &mut Random, book: &Book, pool: &[u32], len: usize) -> Vec<u32> {
    let mut cache = rng.junk(len);
    for group in cache.chunks_exact_mut(4) {
        group.fill(0);
        let op = 1 + rng.below(8) as u32;
        let p = rng.below(book.count() as usize + 2) as u32;
        let q = match op {
            1..=3 => rng.pick(pool),
            4..=6 => rng.below(book.count() as usize + 2) as u32,
            _ => 0,
        };
        let (first, second) = (book.at(p).expect("held"), book.at(q).cloned().unwrap_or_default());
        if let Some(result) = book.number(&named(op, first, q, &second)) {
            group.copy_from_slice(&[op, p, q, result]);
        }
    }
    cache
}

/// A sound store of this limit, with its book.
pub fn any_sound(rng: &mut Random, limit: u32, pool: &[u32], most: usize) -> (Shelf, Book) {
    let count = rng.below(most + 1);
    let mut nodes = any_nodes(rng, count, pool);
    let count = nodes.len() / 3;
    let capacity = count + rng.below(12);
    let slots = capacity + 1 + rng.below(20);
    let lookup = entered(&nodes, slots);
    nodes.resize(3 * capacity, 0);
    let spare = rng.below(3);
    nodes.extend(rng.junk(spare));
    let record = Record { capacity: capacity as u32, count: count as u32, limit };
    let book = book_of(record, &nodes);
    let len = rng.pick(&[0, 4, 17, 64]);
    let cache = any_cache(rng, &book, pool, len);
    assert!(is_sound(record, &nodes, &lookup) && is_true(&book, limit, &cache));
    (Shelf::new(record, &nodes, &lookup, &cache), book)
}

#[test]
fn sound_stores_in_any_order() {
    let mut rng = Random::new(31);
    let mut tally = Tally::default();
    for k in 0..2500 {
        let len = 1 + rng.below(7);
        let limit = limit_of(k);
        let pool = rng.pool(len, limit);
        let (mut shelf, mut book) = any_sound(&mut rng, limit, &pool, 25);
        let foreign = rng.foreign_pool(len, limit);
        let file = file_of(&any_family(&mut rng, &foreign, 6));
        let makings = Makings { limit, pool, files: vec![file.clone(), damaged(&mut rng, file)] };
        for _ in 0..20 {
            let call = any_call(&mut rng, &book, &makings);
            let cache = shelf.cache.words().len();
            compare(&mut shelf, &mut book, &call, cache, &mut rng, &mut tally);
        }
    }
    tally.close("sound stores in any order", 20, OUTCOMES);
}

#[test]
fn stores_of_capacity_0() {
    let mut rng = Random::new(32);
    let mut tally = Tally::default();
    let files = vec![vec![0], vec![2], vec![1, 1, 0, 0, 0, 0], vec![1, 1, 0, 0, 0, 1, 65, 0], vec![]];
    for limit in [1, 64, 512] {
        let makings = Makings { limit, pool: vec![1, limit], files: files.clone() };
        for (nodes, lookup) in [(0, 1), (0, 3), (1, 1), (1, 2), (2, 1), (2, 3)] {
            let record = Record { limit, ..Record::default() };
            let mut shelf = Shelf::new(record, &rng.junk(nodes), &vec![0; lookup], &[0; 9]);
            let mut book = Book::start();
            for _ in 0..300 {
                let call = any_call(&mut rng, &book, &makings);
                compare(&mut shelf, &mut book, &call, 9, &mut rng, &mut tally);
            }
        }
    }
    tally.close("stores of capacity 0", 1, &[("Audit", &[0]), ("Change", &[0, 3, 4, 5]), ("Load", &[0, 5, 9, 13])]);
}
