//! Sums of weights, by members and by nodes: random families, sums about 2^64, the refusals in their order, any words. Where
//! members cannot be listed, the plain side is arithmetic on 128 bits.
use crate::added::{load, some_family, CACHE};
use crate::observe::compare;
use crate::plain::book::Book;
use crate::plain::call::{weighed, Answer, Call};
use crate::random::{limit_of, Random, LIMITS};
use crate::shelf::Shelf;
use crate::sizes::all_subsets;
use crate::tally::Tally;
use zdd::{Record, Refusal, Store};

const MOST: u128 = u64::MAX as u128;
// Stands for every number from it on: times a weight it is below 2^128.
const VAST: u128 = 1 << 90;
// By members, then by nodes.
const WAYS: [bool; 2] = [false, true];

/// The words and the record of a store.
pub fn shelf_of(store: &Store) -> Shelf {
    Shelf::new(store.record(), store.nodes(), store.lookup(), &[])
}

// The call: the store stays, and of the scratch all words but those that it may use.
fn asked(rng: &mut Random, shelf: &Shelf, call: &Call) -> Answer {
    let mut after = shelf.clone();
    let seen = after.call(call, 0, rng);
    assert_eq!(after.record, shelf.record, "the record");
    assert_eq!(after.nodes.words(), shelf.nodes.words(), "the node words");
    assert_eq!(after.lookup.words(), shelf.lookup.words(), "the lookup");
    let stays = [4, 7, 10, 11].contains(&seen.answer.refusal);
    let free = if stays { 0 } else { 3 * shelf.record.count as usize };
    assert_eq!(seen.scratch[free..], seen.scratch_before[free..], "the scratch after {}", seen.answer.refusal);
    seen.answer
}

// The answer for this handle is by the true sum.
fn expect(rng: &mut Random, shelf: &Shelf, by_nodes: bool, p: u32, weights: &[u32], sum: u128) {
    let scratch = 3 * shelf.record.count as usize + rng.below(3);
    let answer = asked(rng, shelf, &Call::Weight { by_nodes, p, weights: weights.to_vec(), scratch });
    assert_eq!(answer, weighed(sum), "by nodes {by_nodes}, handle {p}, sum {sum}");
}

// The sums of all handles, each at most VAST.
fn all_sums(shelf: &Shelf, weights: &[u32]) -> Vec<u128> {
    let (mut sizes, mut sums) = (vec![0, 1], vec![0, 0]);
    for words in shelf.nodes.words()[..3 * shelf.record.count as usize].chunks_exact(3) {
        let (zero, one) = (words[1] as usize, words[2] as usize);
        let weight = u128::from(weights[words[0] as usize - 1]);
        sums.push(VAST.min(sums[zero] + sums[one] + weight * sizes[one]));
        sizes.push(VAST.min(sizes[zero] + sizes[one]));
    }
    sums
}

// The sum by nodes of each handle, whatever its neighbours come to; gives how many of them are above 2^64 - 1.
fn expect_all(rng: &mut Random, shelf: &Shelf, weights: &[u32]) -> usize {
    let sums = all_sums(shelf, weights);
    for (p, sum) in sums.iter().enumerate() {
        expect(rng, shelf, true, p as u32, weights, *sum);
    }
    sums.into_iter().filter(|sum| *sum > MOST).count()
}

#[test]
fn random_families() {
    let mut rng = Random::new(91);
    let mut tally = Tally::default();
    for k in 0..1000 {
        let limit = limit_of(k);
        let len = 1 + rng.below(7);
        let pool = rng.pool(len, limit);
        let mut shelf = Shelf::fresh(&mut rng, 1200, 801, CACHE, limit);
        let mut book = Book::start();
        let f = some_family(&mut rng, &pool);
        let (p, _) = load(&mut rng, &mut shelf, &mut book, &f, &mut tally);
        for _ in 0..3 {
            let weights = rng.weights();
            for by_nodes in WAYS {
                let scratch = 3 * book.count() as usize + rng.below(2);
                let call = Call::Weight { by_nodes, p, weights: weights.clone(), scratch };
                compare(&mut shelf, &mut book, &call, CACHE, &mut rng, &mut tally);
            }
        }
    }
    tally.close("sums of weights", 400, &[("Weights by members", &[0, 11]), ("Weights by nodes", &[0, 11])]);
}

#[test]
fn all_subsets_by_the_formula() {
    let mut rng = Random::new(92);
    let mut store = Store::new(300, 1024, 512).expect("a store");
    let all = all_subsets(&mut store, 70);
    let shelf = shelf_of(&store);
    for weight in [0, 1, 2, u32::MAX - 1, u32::MAX] {
        let weights = vec![weight; 512];
        for (n, p) in (0u128..).zip(&all) {
            let sum = if n == 0 { 0 } else { u128::from(weight) * n << (n - 1) };
            expect(&mut rng, &shelf, true, *p, &weights, sum);
            if n <= 14 {
                expect(&mut rng, &shelf, false, *p, &weights, sum);
            }
        }
    }
    for p in [all[64], all[65], all[70]] {
        assert_eq!((store.size(p), store.weight_by_nodes(p, &[0; 512])), (Err(Refusal::Large), Ok(0)));
    }
}

// Families about 2^64 in number, and that number.
fn about_2_to_the_64(store: &mut Store) -> Result<Vec<(u32, u128)>, Refusal> {
    let all = all_subsets(store, 65);
    let mut some = vec![(all[63], 1 << 63), (all[64], 1 << 64), (all[65], 1 << 65)];
    for n in [63, 64] {
        let less_one = store.diff(all[n], Store::BASE)?;
        let one = store.change(Store::BASE, 1)?;
        some.push((less_one, (1 << n) - 1));
        some.push((store.diff(less_one, one)?, (1 << n) - 2));
        let high = store.change(all[1], 70)?;
        some.push((store.union(all[n], high)?, (1 << n) + 2));
    }
    Ok(some)
}

// So many weightless members under the item 100, one member {200} beside them, all of them under the item 300: the trap is that 2^64
// of them under a weight of 1 come to 2^64 and not to the largest number.
#[test]
fn weightless_members_under_an_item() -> Result<(), Refusal> {
    let mut rng = Random::new(93);
    let mut store = Store::new(3000, 1024, 512)?;
    let mut weights = rng.weights();
    weights.resize(512, 7);
    weights[..70].fill(0);
    for (family, size) in about_2_to_the_64(&mut store)? {
        let under = store.change(family, 100)?;
        let single = store.change(Store::BASE, 200)?;
        let beside = store.union(under, single)?;
        let above = store.change(beside, 300)?;
        let shelf = shelf_of(&store);
        for weight in [0, 1, 2, 3, u32::MAX] {
            for (single, over) in [(0, 0), (1, 0), (2, 0), (0, 1), (1, 1), (u32::MAX, 0)] {
                (weights[99], weights[199], weights[299]) = (weight, single, over);
                let sum = size * u128::from(weight);
                expect(&mut rng, &shelf, true, family, &weights, 0);
                expect(&mut rng, &shelf, true, under, &weights, sum);
                expect(&mut rng, &shelf, true, beside, &weights, sum + u128::from(single));
                let all = sum + u128::from(single) + u128::from(over) * (size + 1);
                expect(&mut rng, &shelf, true, above, &weights, all);
            }
        }
    }
    Ok(())
}

// The subsets of two numbers of items, those of one under the items 100 and 101, those of the other under 102 to 104: sums whose parts
// are far below 2^64, just below it or above.
#[test]
fn by_nodes_of_middling_sizes() -> Result<(), Refusal> {
    let mut rng = Random::new(99);
    let mut tally = Tally::default();
    let mut store = Store::new(2000, 1024, 512)?;
    let all = all_subsets(&mut store, 36);
    let numbers = [0, 27, 28, 29, 30, 31, 32, 33, 34, 36];
    let mut families = Vec::new();
    for (m, n) in numbers.into_iter().flat_map(|m| numbers.map(|n| (m, n))) {
        let mut sides = [all[m], all[n]];
        for (side, item) in [(0, 100), (0, 101), (1, 102), (1, 103), (1, 104)] {
            sides[side] = store.change(sides[side], item)?;
        }
        families.push((m, n, store.union(sides[0], sides[1])?));
    }
    let shelf = shelf_of(&store);
    for (m, n, p) in families {
        for _ in 0..100 {
            let mut weights = vec![0; 512];
            for weight in &mut weights[99..104] {
                let any = rng.word() | 1 << 31;
                *weight = rng.pick(&[any, any >> 1, u32::MAX, u32::MAX >> 1, 1 << 31, 1, 0]);
            }
            let under = |items: &[u32]| items.iter().map(|weight| u128::from(*weight)).sum::<u128>();
            let sum = (under(&weights[99..101]) << m) + (under(&weights[101..104]) << n);
            expect(&mut rng, &shelf, true, p, &weights, sum);
            tally.add("Weights by nodes", weighed(sum).refusal);
        }
    }
    tally.close("sums of weights of middling sizes", 1000, &[("Weights by nodes", &[0, 6])]);
    Ok(())
}

// All subsets of the first so many items, each with the item of the block's own, for every block.
fn blocks(store: &mut Store, items: &[u32], blocks: &[(usize, u32)]) -> Result<u32, Refusal> {
    let mut all = vec![Store::BASE];
    for (n, item) in items.iter().enumerate() {
        let with = store.change(all[n], *item)?;
        all.push(store.union(all[n], with)?);
    }
    let mut family = Store::EMPTY;
    for (n, item) in blocks {
        let block = store.change(all[*n], *item)?;
        family = store.union(family, block)?;
    }
    Ok(family)
}

// Gives the blocks' own items the weights that are left for them.
fn share(weights: &mut [u32], blocks: &[(usize, u32)], mut left: u128) {
    for (n, item) in blocks {
        let weight = (left >> n).min(u128::from(u32::MAX));
        weights[*item as usize - 1] = weight as u32;
        left -= weight << n;
    }
    assert_eq!(left, 0);
}

#[test]
fn by_nodes_about_2_to_the_64() -> Result<(), Refusal> {
    let mut rng = Random::new(94);
    let mut above = 0;
    for k in 0..400 {
        let items = rng.pool(65, 512);
        let own: Vec<_> = [60, 45, 30, 15, 0].into_iter().zip(items[60..].iter().copied()).collect();
        let mut store = Store::new(2000, 1024, 512)?;
        let p = blocks(&mut store, &items[..60], &own)?;
        let (shelf, near) = (shelf_of(&store), u128::from(rng.next() >> rng.below(53)));
        for sum in [MOST - 1, MOST, MOST + 1, MOST + 2, MOST - near, MOST + near] {
            let mut weights: Vec<u32> = (0..512).map(|_| rng.word()).collect();
            items[..60].iter().for_each(|item| weights[*item as usize - 1] = 0);
            let mut rest = sum;
            for _ in 0..rng.below(7) {
                // an item of the first fifteen is in half of every block but the last
                let item = rng.pick(&items[..15]);
                weights[item as usize - 1] += 1;
                rest -= (1 << 59) + (1 << 44) + (1 << 29) + (1 << 14);
            }
            share(&mut weights, &own, rest);
            expect(&mut rng, &shelf, true, p, &weights, sum);
            if k < 5 {
                above += expect_all(&mut rng, &shelf, &weights);
            }
        }
    }
    assert!(above > 10);
    Ok(())
}

// Weights of so many items that sum to this.
fn scattered(rng: &mut Random, items: usize, mut left: u64) -> Vec<u32> {
    let most = u64::from(u32::MAX);
    let mut some = Vec::new();
    for others in (0..items as u64).rev() {
        let (low, high) = (left.saturating_sub(others * most), left.min(most));
        let weight = low + rng.next() % (high - low + 1);
        some.push(weight as u32);
        left -= weight;
    }
    some
}

// 2^24 members of some 2^40 each, 2^12 of less and one more: both ways come to the same.
#[test]
fn by_members_about_2_to_the_64() -> Result<(), Refusal> {
    let mut rng = Random::new(95);
    let items = rng.pool(330, 512);
    let (light, heavy, own) = (&items[..24], &items[25..328], [(24, items[24]), (12, items[328]), (0, items[329])]);
    let mut store = Store::new(2000, 1024, 512)?;
    let mut p = blocks(&mut store, light, &own[..1])?;
    for item in heavy {
        p = store.change(p, *item)?;
    }
    let more = blocks(&mut store, light, &own[1..])?;
    p = store.union(p, more)?;
    let shelf = shelf_of(&store);
    for sum in [MOST - 1, MOST, MOST + 1, MOST + 2, MOST + (1 << 40)] {
        let mut weights: Vec<u32> = (0..512).map(|_| rng.word()).collect();
        light.iter().for_each(|item| weights[*item as usize - 1] = 0);
        let each = (1 << 40) - 1 - rng.next() % 1000;
        for (item, weight) in heavy.iter().zip(scattered(&mut rng, heavy.len(), each)) {
            weights[*item as usize - 1] = weight;
        }
        share(&mut weights, &own, sum - (u128::from(each) << 24));
        for by_nodes in WAYS {
            expect(&mut rng, &shelf, by_nodes, p, &weights, sum);
        }
    }
    Ok(())
}

// A family of 2^24 members, of 257 items and more each.
fn heavy_store(limit: u32) -> Result<(Store, u32), Refusal> {
    let mut store = Store::new(1000, 64, limit)?;
    let mut heavy = *all_subsets(&mut store, 24).last().expect("families");
    for item in 25..=281 {
        heavy = store.change(heavy, item)?;
    }
    Ok((store, heavy))
}

// Everything that refuses a call, alone and with all others: 10, 4, 11, 7, 6.
#[test]
fn refusals_in_their_order() -> Result<(), Refusal> {
    let mut rng = Random::new(96);
    let mut tally = Tally::default();
    let (store, heavy) = heavy_store(300)?;
    let (good, held) = (store.record(), 3 * store.record().count as usize);
    let over = Record { count: good.capacity + 1, ..good };
    for record in [good, over, Record { limit: 513, ..good }, Record { capacity: good.capacity - 1, ..good }] {
        let shelf = Shelf::new(record, store.nodes(), store.lookup(), &[]);
        for p in [0, 1, 2, heavy, good.count + 2, u32::MAX] {
            for len in [512, 0, 300, 511, 513, 1024] {
                for scratch in [held, held + 1, held - 1, 2 * good.count as usize, 0] {
                    let expected = match (p, len, scratch) {
                        _ if record != good => 10,
                        _ if p > good.count + 1 => 4,
                        _ if len != 512 => 11,
                        _ if scratch < held => 7,
                        _ if p == heavy => 6,
                        _ => 0,
                    };
                    for by_nodes in WAYS {
                        let call = Call::Weight { by_nodes, p, weights: vec![u32::MAX; len], scratch };
                        assert_eq!(asked(&mut rng, &shelf, &call).refusal, expected, "{record:?} {p} {len} {scratch}");
                        tally.add(call.name(), expected);
                    }
                }
            }
        }
    }
    let all: &[u32] = &[0, 4, 6, 7, 10, 11];
    tally.close("sums of weights, refused", 2, &[("Weights by members", all), ("Weights by nodes", all)]);
    Ok(())
}

// Both calls for a handle whose sum is this, with lists and scratch of these lengths and just about.
fn lengths_about(rng: &mut Random, shelf: &Shelf, p: u32, sum: u64) {
    let (held, limit) = (3 * shelf.record.count as usize, shelf.record.limit as usize);
    for len in [limit, 512, 513] {
        for scratch in held.saturating_sub(2)..held + 3 {
            let refusal = if len != 512 { 11 } else { 7 * u32::from(scratch < held) };
            let sum = if refusal == 0 { sum } else { 0 };
            for by_nodes in WAYS {
                let call = Call::Weight { by_nodes, p, weights: vec![9; len], scratch };
                let expected = Answer { refusal, sum, ..Answer::default() };
                assert_eq!(asked(rng, shelf, &call), expected, "limit {limit}, {call:?}");
            }
        }
    }
}

// A list is 512 long whatever the limit, and scratch is three words for each node held whatever the handle.
#[test]
fn lists_and_scratch_on_stores_of_every_limit() -> Result<(), Refusal> {
    let mut rng = Random::new(97);
    for limit in LIMITS {
        let mut store = Store::new(20, 4, limit)?;
        for count in 0..=limit.min(4) {
            if count > 0 {
                store.change(Store::BASE, limit + 1 - count)?;
            }
            for p in 0..count + 2 {
                lengths_about(&mut rng, &shelf_of(&store), p, if p < 2 { 0 } else { 9 });
            }
        }
    }
    Ok(())
}

/// Node words of items up to 9 or of any value, with children anywhere: ten different items on a way down at most, so that even by
/// members a call is short.
pub fn any_words(rng: &mut Random, most: usize) -> Shelf {
    let capacity = 1 + rng.below(most);
    let count = rng.below(capacity + 1);
    let mut nodes = Vec::new();
    for _ in 0..capacity {
        let item = if rng.once_in(9) { rng.word() | 1 << 9 } else { rng.below(10) as u32 };
        let (zero, one, any) = (rng.below(count + 3) as u32, rng.below(count + 3) as u32, rng.word());
        nodes.extend([item, rng.pick(&[zero, zero, 1, any]), rng.pick(&[one, one, 1, any, u32::MAX])]);
    }
    let record = Record { capacity: capacity as u32, count: count as u32, limit: limit_of(count) };
    Shelf::new(record, &nodes, &rng.junk(capacity + 1), &[])
}

#[test]
fn calls_on_any_words() {
    let mut rng = Random::new(98);
    let mut tally = Tally::default();
    for k in 0..40_000 {
        let shelf = any_words(&mut rng, if k % 20 == 0 { 400 } else { 16 });
        let held = shelf.record.count as usize;
        for by_nodes in WAYS {
            let p = rng.below(held + 3) as u32;
            let call = Call::Weight { by_nodes, p, weights: rng.weights(), scratch: rng.about(3 * held) };
            let answer = asked(&mut rng, &shelf, &call);
            let refused = Answer { refusal: answer.refusal, ..Answer::default() };
            assert!(answer.refusal == 0 || answer == refused, "{call:?} gave {answer:?}");
            tally.add(call.name(), answer.refusal);
        }
    }
    let all: &[u32] = &[0, 4, 7, 11];
    tally.close("sums of weights on any words", 50, &[("Weights by members", all), ("Weights by nodes", all)]);
}
