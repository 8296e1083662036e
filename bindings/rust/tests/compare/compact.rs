//! Size in two words for each part: on every scratch length from 0 to beyond the need, small families in crowded stores, a full store
//! of 1,000,000 nodes, the refusals in their order, any words. Where members cannot be listed, the plain side is arithmetic on 128
//! bits; `sizes` has the families about 2^64.
use crate::large::{built, eight_of_512};
use crate::plain::book::different_parts;
use crate::plain::call::{Answer, Call};
use crate::plain::family::Family;
use crate::plain::file::file_of;
use crate::plain::words::entered;
use crate::random::{limit_of, Random};
use crate::shelf::Shelf;
use crate::sizes::all_subsets;
use crate::sound_stores::any_sound;
use crate::tally::Tally;
use crate::weights::{any_words, shelf_of};
use zdd::{Record, Refusal, Store};

const MOST: u128 = u64::MAX as u128;

/// The call: the record stays, and after 4 and 10 the scratch does too.
pub fn asked(rng: &mut Random, shelf: &mut Shelf, p: u32, scratch: usize) -> Answer {
    let record = shelf.record;
    let seen = shelf.call(&Call::SizeCompact { p, scratch }, 0, rng);
    assert_eq!(shelf.record, record, "the record");
    if [4, 10].contains(&seen.answer.refusal) {
        assert_eq!(seen.scratch, seen.scratch_before, "the scratch after {}", seen.answer.refusal);
    }
    seen.answer
}

/// The store's words after these calls are those of before.
pub fn unchanged(before: &Shelf, after: &Shelf) {
    assert_eq!(after.nodes.words(), before.nodes.words(), "the node words");
    assert_eq!(after.lookup.words(), before.lookup.words(), "the lookup");
}

// The answer for a held handle of so many different parts and members.
fn expected(parts: usize, size: u128, scratch: usize) -> Answer {
    let refusal = match scratch {
        _ if scratch < 2 * parts => 7,
        _ if size > MOST => 6,
        _ => 0,
    };
    Answer { refusal, size: if refusal == 0 { size as u64 } else { 0 }, ..Answer::default() }
}

/// The answer on each of these lengths is by the parts and the members; the first entry's is the same where the need is met. Gives
/// the number of lengths.
pub fn expect(
    rng: &mut Random,
    shelf: &Shelf,
    p: u32,
    (parts, size): (usize, u128),
    lengths: impl Iterator<Item = usize>,
) -> usize {
    let mut after = shelf.clone();
    let mut calls = 0;
    for scratch in lengths {
        let answer = asked(rng, &mut after, p, scratch);
        assert_eq!(answer, expected(parts, size, scratch), "handle {p}, {parts} parts, size {size}, scratch {scratch}");
        calls += 1;
    }
    unchanged(shelf, &after);
    let first = after.call(&Call::Size { p, scratch: shelf.record.count as usize }, 0, rng);
    assert_eq!(first.answer, expected(0, size, 0), "the first entry, handle {p}");
    calls
}

// From 0 to beyond the need, and about two words for each node held.
fn lengths(shelf: &Shelf, parts: usize) -> impl Iterator<Item = usize> {
    let all = 2 * shelf.record.count as usize;
    (0..2 * parts + 4).chain([all, all + 1, all + 9])
}

/// The parts of a handle, by the node words.
pub fn parts_of(shelf: &Shelf, p: u32) -> usize {
    let nodes = shelf.nodes.words();
    let mut met = vec![false; shelf.record.count as usize];
    let (mut left, mut parts) = (vec![p], 0);
    while let Some(k) = left.pop().map(|q| q as usize) {
        if k >= 2 && !met[k - 2] {
            met[k - 2] = true;
            parts += 1;
            left.extend(&nodes[3 * (k - 2) + 1..3 * (k - 1)]);
        }
    }
    parts
}

/// The answer for a handle of this size on every scratch length.
pub fn every_length(rng: &mut Random, shelf: &Shelf, p: u32, size: u128) -> usize {
    let parts = parts_of(shelf, p);
    expect(rng, shelf, p, (parts, size), lengths(shelf, parts))
}

// The handle of a family that can be listed.
fn every_length_of(rng: &mut Random, shelf: &Shelf, p: u32, f: &Family) -> usize {
    let parts = different_parts(f);
    expect(rng, shelf, p, (parts, f.len() as u128), lengths(shelf, parts))
}

#[test]
fn every_handle_on_every_length() {
    let mut rng = Random::new(101);
    let mut calls = 0;
    for k in 0..3000 {
        let limit = limit_of(k);
        let len = 1 + rng.below(8);
        let pool = rng.pool(len, limit);
        let (shelf, book) = any_sound(&mut rng, limit, &pool, 40);
        for p in 0..book.count() + 2 {
            calls += every_length_of(&mut rng, &shelf, p, book.at(p).expect("held"));
        }
        let mut after = shelf.clone();
        for p in [book.count() + 2, book.count() + 3, 1 << 20, u32::MAX] {
            for scratch in 0..6 {
                assert_eq!(asked(&mut rng, &mut after, p, scratch), Answer { refusal: 4, ..Answer::default() });
            }
        }
        unchanged(&shelf, &after);
    }
    println!("Size compact of every handle on every length: {calls} calls compared");
}

#[test]
fn no_scratch_for_no_part() -> Result<(), Refusal> {
    let mut store = Store::new(1, 0, 512)?;
    assert_eq!((store.size_compact(Store::EMPTY, &mut []), store.size_compact(Store::BASE, &mut [])), (Ok(0), Ok(1)));
    let one = store.change(Store::BASE, 512)?;
    assert_eq!((store.size_compact(Store::EMPTY, &mut []), store.size_compact(Store::BASE, &mut [])), (Ok(0), Ok(1)));
    assert_eq!(store.size_compact(one, &mut []), Err(Refusal::Scratch));
    assert_eq!(store.size_compact(one, &mut [7]), Err(Refusal::Scratch));
    assert_eq!(store.size_compact(one, &mut [7; 2]), Ok(1));
    Ok(())
}

// Two families of 8 of 512 items in a store of more than 20,000 nodes, one grown among the others, one loaded behind them; and all the
// others as one family, on lengths about its need.
#[test]
fn small_families_in_a_crowded_store() -> Result<(), Refusal> {
    let (mut rng, mut calls) = (Random::new(103), 0);
    for _ in 0..4 {
        let mut store = Store::new(100_000, 4096, 512)?;
        let (mut crowd, mut p, mut grown) = (Store::EMPTY, Store::EMPTY, Family::new());
        for k in 0..600 {
            let one = eight_of_512(&mut rng);
            let other = built(&mut store, &Family::from([one.clone()]))?;
            crowd = store.union(crowd, other)?;
            if k % 60 == 0 {
                grown.insert(one);
                p = store.union(p, other)?;
            }
        }
        let loaded: Family = (0..10).map(|_| eight_of_512(&mut rng)).collect();
        let q = store.load(&file_of(&loaded))?;
        let shelf = shelf_of(&store);
        assert!(shelf.record.count > 20_000);
        calls += every_length_of(&mut rng, &shelf, p, &grown) + every_length_of(&mut rng, &shelf, q, &loaded);
        let parts = parts_of(&shelf, crowd);
        calls += expect(&mut rng, &shelf, crowd, (parts, 600), 2 * parts - 3..2 * parts + 4);
    }
    println!("Size compact in crowded stores: {calls} calls compared");
    Ok(())
}

// So many nodes of the items 1 to 512, about as many of each item: in the highest layers both sides are nodes of the layer below, in
// those under them the with-side is, and the without-side is {} as a rule.
fn full_words(rng: &mut Random, capacity: usize, branching: usize) -> Vec<u32> {
    let (mut nodes, mut below) = (vec![1, 0, 1, 1, 1, 1], vec![2, 3]);
    for item in 2..=512 {
        let first = nodes.len() / 3 + 2;
        let width = ((capacity + 2 - first) / (513 - item)).min(first * below.len());
        for k in 0..width {
            // two nodes with one with-side have other without-sides
            let (turn, one) = (k / below.len(), below[k % below.len()]);
            let zero = if turn == 0 && item + branching > 512 { rng.pick(&below) } else { turn as u32 };
            nodes.extend([item as u32, zero, one]);
        }
        below = (first as u32..(first + width) as u32).collect();
    }
    nodes
}

// The handles go up to 1,000,001, and the table has up to 1,000,000 places.
#[test]
fn full_store() {
    let (mut rng, capacity) = (Random::new(104), 1_000_000);
    let nodes = full_words(&mut rng, capacity, 70);
    assert_eq!(nodes.len(), 3 * capacity);
    let record = Record { capacity: capacity as u32, count: capacity as u32, limit: 512 };
    let shelf = Shelf::new(record, &nodes, &entered(&nodes, 2 * capacity + 1), &[]);
    let mut sizes = vec![0u128, 1];
    for words in nodes.chunks_exact(3) {
        sizes.push((sizes[words[1] as usize] + sizes[words[2] as usize]).min(1 << 100));
    }
    let mut refused = [0, 0];
    for layer in [0, 3, 6, 10, 40, 55, 58] {
        let p = (capacity + 1 - layer * (capacity / 512)) as u32;
        let (parts, size) = (parts_of(&shelf, p), sizes[p as usize]);
        assert!(parts > 400_000, "{parts} parts");
        refused[usize::from(size > MOST)] += 1;
        let need = 2 * parts;
        expect(&mut rng, &shelf, p, (parts, size), [need - 1, need, need + 1, 2 * capacity + 5].into_iter());
    }
    assert!(refused[0] > 1 && refused[1] > 1, "sizes within and above: {refused:?}");
}

// Everything that refuses the call, alone and with all others: 10, 4, 7, 6.
#[test]
fn refusals_in_their_order() -> Result<(), Refusal> {
    let mut rng = Random::new(105);
    let mut tally = Tally::default();
    let mut store = Store::new(300, 64, 70)?;
    let all = all_subsets(&mut store, 64);
    let good = store.record();
    let over = Record { count: good.capacity + 1, ..good };
    for record in [good, over, Record { limit: 513, ..good }, Record { capacity: good.capacity - 1, ..good }] {
        let shelf = Shelf::new(record, store.nodes(), store.lookup(), &[]);
        let mut after = shelf.clone();
        for (p, parts) in [(0, 0), (1, 0), (2, 1), (all[63], 63), (all[64], 64), (good.count + 2, 0), (u32::MAX, 0)] {
            for scratch in [0, 1, 2, 125, 126, 127, 128, 129, good.count as usize, 1000] {
                let refusal = match () {
                    _ if record != good => 10,
                    _ if p > good.count + 1 => 4,
                    _ if scratch < 2 * parts => 7,
                    _ if p == all[64] => 6,
                    _ => 0,
                };
                assert_eq!(asked(&mut rng, &mut after, p, scratch).refusal, refusal, "{record:?} {p} {scratch}");
                tally.add("Size compact", refusal);
            }
        }
        unchanged(&shelf, &after);
    }
    tally.close("Size compact, refused", 2, &[("Size compact", &[0, 4, 6, 7, 10])]);
    Ok(())
}

// Node words whose items rise with the numbers and whose children come shortly before, but for some words: ways down of hundreds of
// nodes, many of which end in a fault.
fn deep_words(rng: &mut Random) -> Shelf {
    let count = 1 + rng.below(700);
    let faults = rng.pick(&[100, 1000, 10_000]);
    let mut nodes = Vec::new();
    for k in 0..count {
        let item = 1 + (k * 511 / count) as u32;
        let child = |rng: &mut Random| (k + 1).saturating_sub(rng.below(4)) as u32;
        for word in [item, child(rng), child(rng)] {
            let (near, any) = (rng.below(count + 3) as u32, rng.word());
            nodes.push(if rng.once_in(faults) { rng.pick(&[near, near, 0, 512, 513, any, u32::MAX]) } else { word });
        }
    }
    let record = Record { capacity: count as u32, count: count as u32, limit: limit_of(count) };
    Shelf::new(record, &nodes, &rng.junk(count + 1), &[])
}

#[test]
fn calls_on_any_words() {
    let mut rng = Random::new(106);
    let mut tally = Tally::default();
    for k in 0..40_000 {
        let shelf = match k % 20 {
            0 => any_words(&mut rng, 400),
            1..=3 => deep_words(&mut rng),
            _ => any_words(&mut rng, 16),
        };
        let held = shelf.record.count as usize;
        let last = held as u32 + 1;
        let mut after = shelf.clone();
        for p in [rng.below(held + 3) as u32, last, last] {
            let scratch = if rng.once_in(2) { rng.below(2 * held + 4) } else { 2 * held };
            let answer = asked(&mut rng, &mut after, p, scratch);
            let refused = Answer { refusal: answer.refusal, ..Answer::default() };
            assert!(answer.refusal == 0 || answer == refused, "{p}, {scratch} words: {answer:?}");
            tally.add("Size compact", answer.refusal);
        }
        unchanged(&shelf, &after);
    }
    tally.close("Size compact on any words", 50, &[("Size compact", &[0, 4, 6, 7])]);
}
