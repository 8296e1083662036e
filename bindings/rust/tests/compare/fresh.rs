//! Fresh on words of every small length and at the largest capacity, with good and bad limits; Empty and Base.
use crate::plain::words::capacity_of;
use crate::random::Random;
use crate::shelf::Shelf;
use crate::tally::Tally;
use zdd::{calls, Record};

// The refusal's number, then the record.
fn expected(nodes: usize, lookup: usize, limit: u32) -> (u32, Record) {
    let capacity = capacity_of(nodes);
    if nodes < 3 {
        (1, Record::default())
    } else if lookup <= capacity as usize {
        (2, Record::default())
    } else if !(1..=512).contains(&limit) {
        (3, Record::default())
    } else {
        (0, Record { capacity, count: 0, limit })
    }
}

// The words after: so many of them zeroed at the front where the call is not refused.
fn zeroed(words: &[u32], refusal: u32, front: usize) -> Vec<u32> {
    let cut = if refusal == 0 { front } else { 0 };
    [&vec![0; cut][..], &words[cut..]].concat()
}

fn compare(rng: &mut Random, nodes: usize, lookup: usize, cache: usize, limit: u32, tally: &mut Tally) {
    let before = Shelf::new(Record::default(), &rng.junk(nodes), &rng.junk(lookup), &rng.junk(cache));
    let mut shelf = before.clone();
    let seen = calls::fresh(shelf.lend(cache), limit);
    let (refusal, record) = expected(nodes, lookup, limit);
    assert_eq!((seen.refusal, seen.store), (refusal, record), "Fresh of {nodes}, {lookup}, {cache}, {limit}");
    assert_eq!(shelf.nodes.words(), zeroed(before.nodes.words(), refusal, 3 * record.capacity as usize));
    assert_eq!(shelf.lookup.words(), zeroed(before.lookup.words(), refusal, lookup));
    assert_eq!(shelf.cache.words(), zeroed(before.cache.words(), refusal, cache / 4 * 4));
    assert!(shelf.nodes.is_whole() && shelf.lookup.is_whole() && shelf.cache.is_whole());
    tally.add("Fresh", refusal);
}

#[test]
fn fresh_on_every_small_length() {
    let mut rng = Random::new(21);
    let mut tally = Tally::default();
    for nodes in 0..26 {
        for lookup in 0..12 {
            for cache in 0..10 {
                for limit in [0, 1, 2, 64, 511, 512, 513, 65_537, u32::MAX] {
                    compare(&mut rng, nodes, lookup, cache, limit, &mut tally);
                }
            }
        }
    }
    tally.close("Fresh", 100, &[("Fresh", &[0, 1, 2, 3])]);
}

#[test]
fn fresh_at_the_largest_capacity() {
    let mut rng = Random::new(22);
    let mut tally = Tally::default();
    for (nodes, lookup, limit) in [
        (3_000_007, 1_000_000, 513),
        (3_000_007, 1_000_001, 512),
        (3_000_007, 1_000_001, 0),
        (2_999_999, 1_000_000, 64),
        (3_000_000, 1_000_002, 1),
    ] {
        compare(&mut rng, nodes, lookup, 5, limit, &mut tally);
    }
    tally.close("Fresh at the largest capacity", 1, &[("Fresh", &[0, 2, 3])]);
}

#[test]
fn empty_and_base() {
    assert_eq!((calls::empty(), calls::base()), (0, 1));
}
