//! The stack that the calls use: the number of the header, and calls 512 items deep on a thread that has no more for them.
use std::thread;
use zdd::{Refusal, Store, STACK_BYTES};

// What a thread of the standard library and the code here need for themselves.
const OWN: usize = 64 << 10;

#[test]
fn the_header_has_the_same_number() {
    let header = include_str!("../../../../include/zdd.h");
    assert!(header.contains(&format!("#define ZDD_STACK_BYTES {STACK_BYTES}u")));
}

// All subsets of the items 1 to 512, saved and loaded; the sets of the largest items, one of each length, weighed by members; both sized
// in two words for each part.
fn deep() -> Result<(), Refusal> {
    let mut store = Store::new(10_000, 4_096, 512)?;
    let mut subsets = Store::BASE;
    for item in 1..=512 {
        let with = store.change(subsets, item)?;
        subsets = store.union(subsets, with)?;
    }
    let filled = store.diff(subsets, Store::BASE)?;
    assert_eq!(store.union(filled, Store::BASE)?, subsets);
    assert_eq!(store.intsec(filled, Store::BASE)?, Store::EMPTY);
    let changed = store.change(subsets, 1)?;
    assert_eq!(changed, subsets);
    let (even, odd) = (store.even(subsets)?, store.odd(subsets)?);
    assert_eq!(store.union(even, odd)?, subsets);
    assert_eq!(store.weight_by_nodes(subsets, &[1; 512]), Err(Refusal::Large));
    let mut nested = Store::BASE;
    for item in 1..=512 {
        let with = store.change(nested, item)?;
        nested = store.union(with, Store::BASE)?;
    }
    assert_eq!(store.weight_by_members(nested, &[1; 512])?, 512 * 513 / 2);
    assert_eq!(store.size_compact(nested, &mut [0; 1024])?, 513);
    assert_eq!(store.size_compact(subsets, &mut [0; 1024]), Err(Refusal::Large));
    let file = store.save(subsets)?;
    assert_eq!(store.load(&file)?, subsets);
    Ok(())
}

#[test]
fn deep_calls_on_a_small_stack() {
    let thread = thread::Builder::new().stack_size(STACK_BYTES + OWN).spawn(deep);
    assert_eq!(thread.expect("a thread").join().expect("an end"), Ok(()));
}
