//! Sizes about 2^64, where members cannot be listed: the plain side is arithmetic on 128 bits.
use crate::compact::every_length;
use crate::random::Random;
use crate::weights::shelf_of;
use zdd::{calls, Combination, Refusal, Store};

const MOST: u128 = u64::MAX as u128;

/// All subsets of the items 1 to n, for n from 0 on, by Change and Union.
pub fn all_subsets(store: &mut Store, n: u32) -> Vec<u32> {
    let mut all = vec![Store::BASE];
    for item in 1..=n {
        let without = all[item as usize - 1];
        let with = store.change(without, item).expect("room");
        all.push(store.union(without, with).expect("room"));
    }
    all
}

// The size through the library is as given, and its scratch has every node's size, at most 2^64 - 1; the second entry gives the same.
fn expect(store: &Store, p: u32, size: u128) {
    let record = store.record();
    let mut scratch = vec![7; record.count as usize + 2];
    let seen = calls::size(record, store.nodes(), store.lookup(), p, &mut scratch);
    let refusal = if size > MOST { 6 } else { 0 };
    assert_eq!(
        (seen.store, seen.refusal, seen.size),
        (record, refusal, if refusal == 0 { size as u64 } else { 0 }),
        "size {size}"
    );
    if p >= 2 {
        assert_eq!(scratch[p as usize - 2], size.min(MOST) as u64);
    }
    assert_eq!(scratch[record.count as usize..], [7, 7]);
    let mut sums = vec![0u128, 1];
    for words in store.nodes()[..3 * record.count as usize].chunks_exact(3) {
        sums.push((sums[words[1] as usize] + sums[words[2] as usize]).min(1 << 100));
    }
    let told: Vec<u128> = scratch[..record.count as usize].iter().map(|word| u128::from(*word)).collect();
    assert_eq!(told, sums[2..].iter().map(|sum| *sum.min(&MOST)).collect::<Vec<_>>());
    every_length(&mut Random::new(u64::from(p)), &shelf_of(store), p, size);
}

#[test]
fn sizes_about_2_to_the_64() {
    let mut store = Store::new(3000, 1024, 512).expect("a store");
    let all = all_subsets(&mut store, 70);
    for (n, p) in all.iter().enumerate() {
        expect(&store, *p, 1 << n);
    }
    assert_eq!(store.size(all[63]), Ok(9_223_372_036_854_775_808));
    assert_eq!(store.size(all[64]), Err(Refusal::Large));
    for (n, size) in [(63, 1u128 << 63), (64, 1 << 64), (65, 1 << 65)] {
        let less_one = store.diff(all[n], Store::BASE).expect("room");
        expect(&store, less_one, size - 1);
        let one = store.change(Store::BASE, 1).expect("room");
        let less_two = store.diff(less_one, one).expect("room");
        expect(&store, less_two, size - 2);
        for item in [100, 511] {
            let high = store.change(less_one, item).expect("room");
            expect(&store, high, size - 1);
            let more = store.union(high, Store::BASE).expect("room");
            expect(&store, more, size);
            let twice = store.union(high, all[1]).expect("room");
            expect(&store, twice, size + 1);
            // few members with the item beside many without
            let few = store.change(all[1], item).expect("room");
            let beside = store.union(less_one, few).expect("room");
            expect(&store, beside, size + 1);
        }
    }
    assert!(store.audit());
}

#[test]
fn long_chain_of_with_sides() {
    let mut store = Store::new(3000, 1024, 512).expect("a store");
    let all = all_subsets(&mut store, 64);
    let mut p = store.diff(all[64], Store::BASE).expect("room");
    let mut q = all[64];
    for item in 65..=512 {
        p = store.change(p, item).expect("room");
        q = store.change(q, item).expect("room");
    }
    expect(&store, p, MOST);
    expect(&store, q, MOST + 1);
    let items = Combination::of(64..=512).expect("items");
    assert_eq!((store.has(p, items), store.has(q, items)), (Ok(true), Ok(true)));
    let none = Combination::of(65..=512).expect("items");
    assert_eq!((store.has(p, none), store.has(q, none)), (Ok(false), Ok(true)));
}
