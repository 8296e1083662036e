//! The store that owns its words, against the same plain implementation, and its refusals by name.
use crate::lists::{any_call, Makings};
use crate::plain::book::Book;
use crate::plain::call::{Answer, Call, Opening};
use crate::plain::file::file_of;
use crate::random::{Random, LIMITS};
use crate::shelf::record_of;
use crate::tally::Tally;
use zdd::{Combination, Record, Refusal, Store};

// The call through the store's own methods, which choose scratch and output themselves; Size compact is lent its scratch.
fn call(store: &mut Store, call: &Call) -> Result<Answer, Refusal> {
    let mut answer = Answer::default();
    match call {
        Call::Operation { op: 1, p, q } => answer.handle = store.subset1(*p, *q)?,
        Call::Operation { op: 2, p, q } => answer.handle = store.subset0(*p, *q)?,
        Call::Operation { op: 3, p, q } => answer.handle = store.change(*p, *q)?,
        Call::Operation { op: 4, p, q } => answer.handle = store.union(*p, *q)?,
        Call::Operation { op: 5, p, q } => answer.handle = store.intsec(*p, *q)?,
        Call::Operation { op: 6, p, q } => answer.handle = store.diff(*p, *q)?,
        Call::Operation { op: 7, p, .. } => answer.handle = store.even(*p)?,
        Call::Operation { p, .. } => answer.handle = store.odd(*p)?,
        Call::Size { p, .. } => answer.size = store.size(*p)?,
        Call::SizeCompact { p, scratch } => answer.size = store.size_compact(*p, &mut vec![5; *scratch])?,
        Call::Has { p, combination } => answer.yes = store.has(*p, record_of(combination))?,
        Call::Weight { by_nodes: false, p, weights, .. } => answer.sum = store.weight_by_members(*p, weights)?,
        Call::Weight { by_nodes: true, p, weights, .. } => answer.sum = store.weight_by_nodes(*p, weights)?,
        Call::Save { p, .. } => answer.file = store.save(*p)?,
        Call::Load { file, .. } => answer.handle = store.load(file)?,
        Call::Audit => answer.yes = store.audit(),
    }
    answer.length = answer.file.len();
    Ok(answer)
}

// Its answer, refused or not; a call that places leaves the number that it added in the store.
fn answer(store: &mut Store, each: &Call) -> Answer {
    let refused = |refusal: Refusal| Answer { refusal: refusal.number(), ..Answer::default() };
    let given = call(store, each).unwrap_or_else(refused);
    Answer { added: if each.places() { store.added() } else { 0 }, ..given }
}

// The same call with scratch and output long enough.
fn with_room(call: Call) -> Call {
    match call {
        Call::Size { p, .. } => Call::Size { p, scratch: 10_000 },
        Call::Weight { by_nodes, p, weights, .. } => Call::Weight { by_nodes, p, weights, scratch: 10_000 },
        Call::Save { p, .. } => Call::Save { p, scratch: 10_000, out: 100_000 },
        Call::Load { file, .. } => Call::Load { scratch: 6 * file.len(), file },
        other => other,
    }
}

#[test]
fn lists_on_an_owned_store() {
    let mut rng = Random::new(51);
    let mut tally = Tally::default();
    let mut files = vec![vec![0], vec![9], vec![0]];
    for _ in 0..400 {
        let len = 1 + rng.below(7);
        let limit = rng.pick(&LIMITS);
        let mut makings = Makings { limit, pool: rng.pool(len, limit), files };
        let capacity = 1 + rng.below(40) as u32;
        let mut store = Store::new(capacity, rng.below(20), limit).expect("a store");
        let mut book = Book::start();
        for _ in 0..60 {
            let each = with_room(any_call(&mut rng, &book, &makings));
            let expected = book.answer(Opening { capacity, limit }, &each);
            assert_eq!(answer(&mut store, &each), expected, "{each:?}");
            assert_eq!(store.record(), Record { capacity, count: book.count(), limit });
            tally.add(each.name(), expected.refusal);
            let handle = rng.below(book.count() as usize + 2) as u32;
            makings.files[0] = file_of(book.at(handle).expect("held"));
        }
        files = makings.files;
        files[2] = files[0].clone();
    }
    tally.close(
        "lists on an owned store",
        10,
        &[
            ("Union", &[0, 4, 5]),
            ("Change", &[0, 3, 4, 5]),
            ("Even", &[0, 4]),
            ("Odd", &[0, 4]),
            ("Size compact", &[0, 4, 7]),
            ("Weights by members", &[0, 4, 11]),
            ("Weights by nodes", &[0, 4, 11]),
            ("Load", &[0, 9, 13]),
            ("Save", &[0, 4]),
        ],
    );
}

#[test]
fn refusals_by_name() {
    assert_eq!(Store::with_lengths(2, 0, 0, 0).err(), Some(Refusal::Tiny));
    assert_eq!(Store::with_lengths(30, 10, 0, 513).err(), Some(Refusal::ShortLookup));
    assert_eq!(Store::with_lengths(30, 11, 0, 513).err(), Some(Refusal::Item));
    assert_eq!(Store::new(0, 1, 512).err(), Some(Refusal::Tiny));
    assert_eq!(Store::new(1, 1, 0).err(), Some(Refusal::Item));
    assert_eq!(Combination::of([513]), Err(Refusal::Item));
    assert_eq!(Combination::of([0]), Err(Refusal::Item));
    for number in 0..=16 {
        let known = (1..=11).contains(&number) || number == 13;
        assert_eq!(Refusal::of(number).map(Refusal::number), known.then_some(number));
    }
    assert_eq!(Refusal::Full.to_string(), "refused with 5: full");
    assert_eq!(Refusal::Weights.to_string(), "refused with 11: weights");
}

#[test]
fn added_is_of_the_last_call_that_places() -> Result<(), Refusal> {
    let mut store = Store::new(3, 4, 64)?;
    assert_eq!(store.added(), 0);
    let one = store.change(Store::BASE, 64)?;
    assert_eq!(store.added(), 1);
    assert_eq!((store.size(one)?, store.has(one, Combination::of([64])?)?, store.audit()), (1, true, true));
    let file = store.save(one)?;
    assert_eq!(store.added(), 1);
    store.change(one, 1)?;
    assert_eq!((store.added(), store.record().count), (2, 3));
    assert_eq!((store.change(one, 2), store.added()), (Err(Refusal::Full), 0));
    assert_eq!((store.load(&file)?, store.added()), (one, 0));
    Ok(())
}

#[test]
fn files_between_stores_of_other_sizes_and_limits() -> Result<(), Refusal> {
    let mut pocket = Store::new(40, 8, 64)?;
    let mut final_test = Store::new(4000, 0, 512)?;
    let mut p = Store::EMPTY;
    for item in [1, 2, 33, 64] {
        let one = pocket.change(Store::BASE, item)?;
        p = pocket.union(p, one)?;
    }
    let file = pocket.save(p)?;
    final_test.change(Store::BASE, 100)?;
    let q = final_test.load(&file)?;
    assert_eq!(final_test.save(q)?, file);
    assert_eq!((final_test.size(q)?, pocket.size(p)?), (4, 4));
    let less = final_test.subset0(q, 33)?;
    assert_eq!(pocket.load(&final_test.save(less)?)?, pocket.subset0(p, 33)?);
    let above = final_test.change(q, 65)?;
    let record = pocket.record();
    assert_eq!((pocket.load(&final_test.save(above)?), pocket.record()), (Err(Refusal::AboveLimit), record));
    assert_eq!(pocket.change(p, 65), Err(Refusal::Item));
    let both = Combination::of([1, 65])?;
    assert_eq!((final_test.has(above, both), pocket.has(p, both)), (Ok(true), Ok(false)));
    Ok(())
}
