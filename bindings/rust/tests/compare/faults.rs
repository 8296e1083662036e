//! Stores with faults: sound ones with words, record or lengths changed, and made-up ones.
use crate::plain::sound::fits;
use crate::plain::words::entered;
use crate::random::Random;
use crate::shelf::Shelf;
use crate::sound_stores::{any_nodes, any_sound};
use zdd::Record;

fn small(rng: &mut Random, record: &Record) -> u32 {
    let near = rng.below((record.count as usize).min(40) + 4) as u32;
    let any = rng.word();
    rng.pick(&[near, near, near, 0, 1, record.limit, record.limit.wrapping_add(1), 512, 513, any, u32::MAX])
}

// One fault in the words, the record or the lengths; some leave the store sound.
fn fault(rng: &mut Random, record: &mut Record, nodes: &mut Vec<u32>, lookup: &mut Vec<u32>, cache: &mut [u32]) {
    let held = (3 * record.count as usize).min(nodes.len());
    match rng.below(15) {
        0..=2 if held > 0 => {
            let at = rng.below(held);
            nodes[at] = if rng.once_in(2) {
                small(rng, record)
            } else {
                nodes[at].wrapping_add(1).wrapping_sub(2 * rng.below(2) as u32)
            };
        }
        3 if !nodes.is_empty() => {
            let at = rng.below(nodes.len());
            nodes[at] = small(rng, record);
        }
        4..=5 if !lookup.is_empty() => {
            let at = rng.below(lookup.len());
            lookup[at] = small(rng, record);
        }
        6 if !lookup.is_empty() => {
            let (a, b) = (rng.below(lookup.len()), rng.below(lookup.len()));
            lookup.swap(a, b);
        }
        7 if held >= 6 => {
            let (a, b) = (rng.below(held / 3), rng.below(held / 3));
            nodes.copy_within(3 * a..3 * a + 3, 3 * b);
        }
        8 => {
            record.count = rng.pick(&[
                record.count.wrapping_add(1),
                record.count.wrapping_sub(1),
                0,
                record.capacity,
                record.capacity.wrapping_add(1),
                u32::MAX,
            ])
        }
        9 => {
            record.capacity = rng.pick(&[
                record.capacity.wrapping_add(1),
                record.capacity.wrapping_sub(1),
                0,
                record.count,
                1_000_000,
                u32::MAX,
            ])
        }
        10 => {
            let (less, more, any) = (record.limit.wrapping_sub(1), record.limit.wrapping_add(1), rng.word());
            record.limit = rng.pick(&[less, less, more, 0, 1, 512, 513, any, u32::MAX])
        }
        11 if !cache.is_empty() => cache[rng.below(cache.len())] = small(rng, record),
        12 => {
            let len = rng.about(nodes.len());
            nodes.resize(len, 0);
        }
        13 => {
            let len = rng.about(lookup.len());
            lookup.resize(len, 0);
        }
        _ => lookup.fill(0),
    }
}

/// A sound store with one to three faults; at times the lookup is entered anew, so that only the nodes are at fault.
pub fn faulty(rng: &mut Random, limit: u32, pool: &[u32]) -> Shelf {
    let (shelf, _) = any_sound(rng, limit, pool, 12);
    let mut record = shelf.record;
    let (mut nodes, mut lookup, mut cache) =
        (shelf.nodes.words().to_vec(), shelf.lookup.words().to_vec(), shelf.cache.words().to_vec());
    for _ in 0..=rng.below(3) {
        fault(rng, &mut record, &mut nodes, &mut lookup, &mut cache);
    }
    if rng.once_in(3) && fits(record, &nodes, &lookup) {
        lookup = entered(&nodes[..3 * record.count as usize], lookup.len());
    }
    Shelf::new(record, &nodes, &lookup, &cache)
}

/// A store of random words that look like nodes, at times with an item above the limit, with the lookup of those.
pub fn made_up(rng: &mut Random, limit: u32, pool: &[u32]) -> Shelf {
    let pool = &if rng.once_in(4) { [pool, &[limit + 1]].concat() } else { pool.to_vec() };
    let capacity = 1 + rng.below(10);
    let count = rng.below(capacity + 1);
    let mut nodes = if rng.once_in(2) { any_nodes(rng, count, pool) } else { Vec::new() };
    while nodes.len() < 3 * count {
        let held = nodes.len() / 3;
        nodes.extend([rng.pick(pool), rng.below(held + 3) as u32, rng.below(held + 3) as u32]);
    }
    let lookup = entered(&nodes, capacity + 1 + rng.below(9));
    nodes.resize(3 * capacity, 0);
    Shelf::new(Record { capacity: capacity as u32, count: count as u32, limit }, &nodes, &lookup, &[0; 32])
}
