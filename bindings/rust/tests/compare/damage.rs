//! Unsound stores: what document 01 asks of a call there, and Audit's verdict against a plain reading of the words.
use crate::faults::{faulty, made_up};
use crate::lists::{any_call, Makings};
use crate::observe::compare;
use crate::plain::book::Book;
use crate::plain::call::{Answer, Call};
use crate::plain::sound::{book_of, fits, is_sound, is_true};
use crate::random::{limit_of, Random, LIMITS};
use crate::shelf::{Seen, Shelf};
use crate::sound_stores::any_sound;
use crate::tally::Tally;
use zdd::Record;

// How often Audit said yes and no, how often another call met a store of each kind, and how often an unsound one grew.
#[derive(Default)]
struct Tallies {
    sound: Tally,
    certain: Tally,
    unsound: Tally,
    grown: u64,
    audit_yes: u64,
    audit_no: u64,
}

fn zeroed(cache: &[u32]) -> Vec<u32> {
    let whole = cache.len() / 4 * 4;
    [&vec![0; whole][..], &cache[whole..]].concat()
}

// On every store Audit zeroes the whole groups, changes nothing else and says whether the rest is sound.
fn audit(rng: &mut Random, store: &Shelf, tallies: &mut Tallies) {
    let mut shelf = store.clone();
    let cache = store.cache.words();
    let seen = shelf.call(&Call::Audit, cache.len(), rng);
    let sound = is_sound(store.record, store.nodes.words(), store.lookup.words());
    assert_eq!(seen.answer, Answer { yes: sound, ..Answer::default() }, "Audit of {:?}", store.record);
    assert_eq!(shelf.record, store.record);
    assert_eq!(shelf.nodes.words(), store.nodes.words());
    assert_eq!(shelf.lookup.words(), store.lookup.words());
    assert_eq!(shelf.cache.words(), zeroed(cache));
    *(if sound { &mut tallies.audit_yes } else { &mut tallies.audit_no }) += 1;
}

// 10 is certain: nothing changes.
fn certain(before: &Shelf, after: &Shelf, call: &Call, seen: &Seen) {
    assert_eq!(seen.answer, Answer { refusal: 10, ..Answer::default() }, "{call:?} on {:?}", before.record);
    assert_eq!(after.record, before.record);
    assert_eq!(after.nodes.words(), before.nodes.words());
    assert_eq!(after.lookup.words(), before.lookup.words());
    assert_eq!(after.cache.words(), before.cache.words());
    assert_eq!(seen.scratch, seen.scratch_before);
    assert_eq!(seen.out, seen.out_before);
}

// Any answer will do, but a refusal gives nothing, and the record comes back as it was but for a count grown by the number
// added.
fn unsound(before: &Shelf, after: &Shelf, call: &Call, seen: &Seen) {
    let refusal = seen.answer.refusal;
    assert!((0..=11).chain([13]).any(|number| number == refusal), "{call:?} gave {refusal}");
    if refusal != 0 {
        assert_eq!(seen.answer, Answer { refusal, ..Answer::default() }, "{call:?} on {:?}", before.record);
    }
    let free = match call {
        Call::Weight { .. } => 3 * before.record.count as usize,
        Call::SizeCompact { p, .. } if *p > before.record.count + 1 => 0,
        _ => seen.scratch.len(),
    };
    assert_eq!(seen.scratch.get(free..), seen.scratch_before.get(free..), "the scratch after {call:?}");
    let count = before.record.count + seen.answer.added;
    assert_eq!(after.record, Record { count, ..before.record }, "{call:?}");
}

fn one(rng: &mut Random, store: &Shelf, call: &Call, tallies: &mut Tallies) {
    let (nodes, lookup, cache) = (store.nodes.words(), store.lookup.words(), store.cache.words());
    let mut shelf = store.clone();
    if is_sound(store.record, nodes, lookup) {
        let mut book = book_of(store.record, nodes);
        if is_true(&book, store.record.limit, cache) {
            compare(&mut shelf, &mut book, call, cache.len(), rng, &mut tallies.sound);
            return;
        }
    }
    let seen = shelf.call(call, cache.len(), rng);
    if fits(store.record, nodes, lookup) {
        unsound(store, &shelf, call, &seen);
        tallies.unsound.add(call.name(), seen.answer.refusal);
        tallies.grown += u64::from(seen.answer.added > 0);
    } else {
        certain(store, &shelf, call, &seen);
        tallies.certain.add(call.name(), seen.answer.refusal);
    }
}

// What the calls on these stores use: a limit, items up to it, and files of items up to 265.
fn any_makings(rng: &mut Random, limit: u32) -> Makings {
    let len = 1 + rng.below(6);
    let files = vec![
        vec![0],
        vec![2],
        vec![],
        vec![1, 1, 0, 0, 0, 0],
        vec![1, 2, 0, 0, 0, 0, 6, 2, 0, 0, 0, 1, 0, 0, 0],
        vec![1, 1, 0, 0, 0, 1, 9, 1],
    ];
    Makings { limit, pool: rng.pool(len, limit), files }
}

// Audit and twelve other calls, each on the store as it is.
fn calls_on(rng: &mut Random, store: &Shelf, makings: &Makings, tallies: &mut Tallies) {
    audit(rng, store, tallies);
    let book = Book::with_count(store.record.count.min(20));
    for _ in 0..12 {
        let call = any_call(rng, &book, makings);
        if !matches!(call, Call::Audit) {
            one(rng, store, &call, tallies);
        }
    }
}

fn stores(seed: u64, stores: usize, make: fn(&mut Random, u32, &[u32]) -> Shelf) -> Tallies {
    let mut rng = Random::new(seed);
    let mut tallies = Tallies::default();
    for k in 0..stores {
        let makings = any_makings(&mut rng, limit_of(k));
        let store = make(&mut rng, makings.limit, &makings.pool);
        calls_on(&mut rng, &store, &makings, &mut tallies);
    }
    tallies
}

// A 10 of each kind of call.
const CERTAIN: &[(&str, &[u32])] = &[
    ("Change", &[10]),
    ("Union", &[10]),
    ("Even", &[10]),
    ("Has", &[10]),
    ("Size", &[10]),
    ("Size compact", &[10]),
    ("Weights by members", &[10]),
    ("Weights by nodes", &[10]),
    ("Save", &[10]),
    ("Load", &[10]),
];

#[test]
fn stores_with_faults() {
    let tallies = stores(41, 25_000, faulty);
    println!(
        "stores with faults: Audit said yes {} and no {} times, as the words are",
        tallies.audit_yes, tallies.audit_no
    );
    assert!(tallies.audit_yes > 1000 && tallies.audit_no > 10_000 && tallies.grown > 1000);
    tallies.certain.close("stores with a certain 10", 500, CERTAIN);
    tallies.unsound.close(
        "unsound stores without a certain 10",
        50,
        &[
            ("Union", &[0, 4]),
            ("Change", &[0]),
            ("Even", &[0]),
            ("Odd", &[0]),
            ("Has", &[0]),
            ("Size compact", &[0, 4, 7]),
            ("Weights by members", &[0, 4, 7, 11]),
            ("Weights by nodes", &[0, 4, 7, 11]),
            ("Save", &[0]),
        ],
    );
    tallies.sound.close("stores that the faults left sound", 50, &[("Union", &[0]), ("Save", &[0]), ("Load", &[0])]);
}

#[test]
fn made_up_stores() {
    let tallies = stores(42, 25_000, made_up);
    println!(
        "made-up stores: Audit said yes {} and no {} times, as the words are",
        tallies.audit_yes, tallies.audit_no
    );
    assert!(tallies.audit_yes > 1000 && tallies.audit_no > 5000 && tallies.grown > 1000);
    tallies.unsound.close(
        "made-up unsound stores",
        50,
        &[("Union", &[0, 10]), ("Change", &[0]), ("Even", &[0, 10]), ("Odd", &[0, 10])],
    );
    tallies.sound.close("made-up sound stores", 50, &[("Union", &[0]), ("Save", &[0]), ("Load", &[0])]);
}

// A sound store but for a limit that is none.
#[test]
fn records_with_a_wrong_limit() {
    let mut rng = Random::new(43);
    let mut tallies = Tallies::default();
    for wrong in [0, 513, 514, 1024, 65_537, 1 << 31, u32::MAX - 1, u32::MAX] {
        for limit in LIMITS {
            for _ in 0..20 {
                let makings = any_makings(&mut rng, limit);
                let (mut store, _) = any_sound(&mut rng, limit, &makings.pool, 12);
                store.record.limit = wrong;
                calls_on(&mut rng, &store, &makings, &mut tallies);
            }
        }
    }
    assert_eq!(tallies.audit_yes, 0);
    tallies.certain.close("records with a wrong limit", 100, CERTAIN);
}

// A sound store whose record has the largest item for its limit stays sound; with one less it is not.
#[test]
fn limits_about_the_largest_item() {
    let mut rng = Random::new(44);
    let mut tallies = Tallies::default();
    for k in 0..800 {
        let makings = any_makings(&mut rng, limit_of(k));
        let (mut store, _) = any_sound(&mut rng, makings.limit, &makings.pool, 12);
        let held = 3 * store.record.count as usize;
        let Some(top) = store.nodes.words()[..held].iter().step_by(3).copied().max() else { continue };
        for (limit, sound) in [(top, true), (top - 1, false)] {
            store.record.limit = limit;
            assert_eq!(is_sound(store.record, store.nodes.words(), store.lookup.words()), sound);
            calls_on(&mut rng, &store, &makings, &mut tallies);
        }
    }
    assert!(tallies.audit_yes > 100 && tallies.audit_no > 100);
    tallies.sound.close("stores with an item at the limit", 20, &[("Change", &[0, 3]), ("Load", &[0, 13])]);
    tallies.unsound.close("stores with an item just above the limit", 0, &[]);
}
