//! Random lists of calls from Fresh: short and long, on small and larger stores.
use crate::observe::compare;
use crate::parity::parted;
use crate::plain::book::{different_parts, Book};
use crate::plain::call::Call;
use crate::plain::file::file_of;
use crate::random::{limit_of, Random};
use crate::shelf::Shelf;
use crate::tally::{Tally, OUTCOMES};

/// The item limit of a list, the items that it uses, and the files that it may load.
pub struct Makings {
    pub limit: u32,
    pub pool: Vec<u32>,
    pub files: Vec<Vec<u8>>,
}

fn handle(rng: &mut Random, count: u32) -> u32 {
    match rng.below(24) {
        0 => count + 2,
        1 => rng.pick(&[count + 3, u32::MAX, u32::MAX - 1, 1 << 31]),
        2..=9 => (count + 1).saturating_sub(rng.below(4) as u32),
        _ => rng.below(count as usize + 2) as u32,
    }
}

fn item(rng: &mut Random, makings: &Makings) -> u32 {
    let limit = makings.limit;
    if rng.once_in(12) {
        return rng.pick(&[0, 1, limit, limit + 1, limit + 1, limit + 2, 512, 513, limit + 65_536, u32::MAX]);
    }
    rng.pick(&makings.pool)
}

/// A call with handles, items, lengths and files that are good as a rule.
pub fn any_call(rng: &mut Random, book: &Book, makings: &Makings) -> Call {
    let count = book.count();
    let held = count as usize;
    let (p, q) = (handle(rng, count), handle(rng, count));
    match rng.below(20) {
        0..=4 => Call::Operation { op: rng.pick(&[1, 2, 3, 3, 3]), p, q: item(rng, makings) },
        5..=9 => Call::Operation { op: rng.pick(&[4, 4, 4, 5, 5, 6]), p, q },
        10..=11 => Call::Operation { op: rng.pick(&[7, 8]), p, q: 0 },
        12 if rng.once_in(2) => Call::Size { p, scratch: rng.about(held) },
        12 => {
            let need = 2 * book.at(p).map_or(1, different_parts);
            Call::SizeCompact { p, scratch: if rng.once_in(3) { rng.below(2 * held + 4) } else { rng.about(need) } }
        }
        13 => Call::Has { p, combination: asked(rng, book, p, makings) },
        14..=15 => {
            let length = book.at(p).map_or(5, |f| file_of(f).len());
            Call::Save { p, scratch: if rng.once_in(4) { rng.about(held) } else { held + 2 }, out: rng.about(length) }
        }
        16 => {
            let file = rng.pick(&makings.files);
            let scratch = if rng.once_in(4) { rng.about(6 * file.len()) } else { 6 * file.len() + rng.below(7) };
            Call::Load { file, scratch }
        }
        17 => Call::Audit,
        _ => Call::Weight { by_nodes: rng.once_in(2), p, weights: rng.weights(), scratch: rng.about(3 * held) },
    }
}

// A member, a member with one item changed, which may lie above the limit, or any combination.
fn asked(rng: &mut Random, book: &Book, p: u32, makings: &Makings) -> std::collections::BTreeSet<u32> {
    let members: Vec<_> = book.at(p).map_or(Vec::new(), |f| f.iter().collect());
    let mut c = if members.is_empty() || rng.once_in(4) {
        rng.combination(&makings.pool)
    } else {
        members[rng.below(members.len())].clone()
    };
    if rng.once_in(2) {
        let (any, above, near) = (1 + rng.below(512) as u32, 512.min(makings.limit + 1), rng.pick(&makings.pool));
        let v = rng.pick(&[any, above, near, near]);
        if !c.remove(&v) {
            c.insert(v);
        }
    }
    c
}

// A list of so many calls on a new store, whose added numbers sum to the count; where it has Even or Odd of a family, both
// parts are held to their laws. Files saved on the way, whole or damaged, are loaded later, in other lists too.
fn list(rng: &mut Random, capacity: usize, calls: usize, makings: &mut Makings, tally: &mut Tally) {
    let lookup = capacity + 1 + rng.below(2 * capacity);
    let cache = rng.pick(&[0, 3, 4, 16, 67, 256]);
    let nodes = 3 * capacity + rng.below(3);
    let mut shelf = Shelf::fresh(rng, nodes, lookup, cache, makings.limit);
    let mut book = Book::start();
    let mut added = 0;
    for _ in 0..calls {
        let call = any_call(rng, &book, makings);
        let lent = if rng.once_in(3) { rng.below(cache + 1) } else { cache };
        added += compare(&mut shelf, &mut book, &call, lent, rng, tally);
        assert_eq!(added, shelf.record.count, "the sum of the added numbers after {call:?}");
        if let Call::Operation { op: 7..=8, p, .. } = call {
            parted(rng, &shelf, p, lent);
        }
        let handle = rng.below(book.count() as usize + 2) as u32;
        if rng.once_in(12) {
            let file = file_of(book.at(handle).expect("held"));
            let file = if rng.once_in(2) { file } else { crate::files::damaged(rng, file) };
            let at = rng.below(makings.files.len());
            makings.files[at] = file;
        }
    }
}

fn lists(seed: u64, lists: usize, capacity: usize, calls: usize, items: usize) -> Tally {
    let mut rng = Random::new(seed);
    let mut tally = Tally::default();
    let files = vec![vec![0], vec![2], vec![], vec![1, 1, 0, 0, 0, 0]];
    let mut makings = Makings { limit: 1, pool: Vec::new(), files };
    makings.files.resize(24, vec![1, 1, 0, 0, 0, 1, 2, 0]);
    for k in 0..lists {
        let len = 1 + rng.below(items);
        makings.limit = limit_of(k);
        makings.pool = rng.pool(len, makings.limit);
        let room = 1 + rng.below(capacity);
        let steps = 1 + rng.below(calls);
        list(&mut rng, room, steps, &mut makings, &mut tally);
    }
    tally
}

#[test]
fn short_lists_on_small_stores() {
    lists(1, 5000, 40, 200, 8).close("short lists on small stores", 20, OUTCOMES);
}

#[test]
fn long_lists() {
    lists(2, 40, 300, 2000, 7).close("long lists", 5, OUTCOMES);
}

#[test]
fn stores_of_one_to_three_nodes() {
    lists(3, 2500, 3, 60, 3).close(
        "stores of one to three nodes",
        5,
        &[
            ("Change", &[0, 3, 4, 5]),
            ("Subset1", &[0, 5]),
            ("Union", &[0, 4, 5]),
            ("Even", &[0, 4]),
            ("Odd", &[0, 4]),
            ("Load", &[0, 5, 9, 13]),
        ],
    );
}
