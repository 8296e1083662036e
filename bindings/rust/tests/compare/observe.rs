//! A call on a sound store: the answer, the record and every lent word are those of the plain implementation.
use crate::plain::book::Book;
use crate::plain::call::{Call, Opening};
use crate::plain::sound::is_true;
use crate::plain::words::{entered, node_words};
use crate::random::Random;
use crate::shelf::{Seen, Shelf};
use crate::tally::Tally;
use zdd::Record;

/// Makes the call on both sides, with so much of the cache lent, and compares all that it gives and leaves. Gives the
/// number of nodes that it added.
pub fn compare(
    shelf: &mut Shelf,
    book: &mut Book,
    call: &Call,
    lent: usize,
    rng: &mut Random,
    tally: &mut Tally,
) -> u32 {
    let before = shelf.clone();
    let held = book.count() as usize;
    let opening = Opening { capacity: before.record.capacity, limit: before.record.limit };
    let expected = book.answer(opening, call);
    let seen = shelf.call(call, lent, rng);
    assert_eq!(seen.answer, expected, "the answer of {call:?}");
    let record = Record { count: book.count(), ..before.record };
    assert_eq!(shelf.record, record, "the record after {call:?}");
    store_words(&before, shelf, book, call);
    cache_words(&before, shelf, book, call, lent, expected.refusal);
    scratch_words(&seen, book, call, held, expected.refusal);
    tally.add(call.name(), expected.refusal);
    seen.answer.added
}

// Node words and lookup are those of the book; node words past the capacity's stay.
fn store_words(before: &Shelf, after: &Shelf, book: &Book, call: &Call) {
    let held = node_words(book);
    let room = 3 * before.record.capacity as usize;
    let (nodes, lookup) = (after.nodes.words(), after.lookup.words());
    assert_eq!(nodes[..held.len()], held, "the node words after {call:?}");
    assert!(nodes[held.len()..room].iter().all(|word| *word == 0), "node words past the count after {call:?}");
    assert_eq!(nodes[room..], before.nodes.words()[room..], "node words past the capacity's after {call:?}");
    assert_eq!(lookup, entered(&held, lookup.len()), "the lookup after {call:?}");
}

// The whole groups lent are true after a success that places, zero after 5 and after Audit, else as they were; all other words stay.
fn cache_words(before: &Shelf, after: &Shelf, book: &Book, call: &Call, lent: usize, refusal: u32) {
    let (old, new) = (before.cache.words(), after.cache.words());
    let whole = lent / 4 * 4;
    assert_eq!(new[whole..], old[whole..], "cache words past the whole groups lent after {call:?}");
    match (call, refusal) {
        (Call::Audit, _) | (_, 5) => assert!(new[..whole].iter().all(|word| *word == 0), "the cache after {call:?}"),
        (_, 0) if call.places() => {
            assert!(is_true(book, before.record.limit, &new[..whole]), "the cache after {call:?}")
        }
        _ => assert_eq!(new[..whole], old[..whole], "the cache after {call:?}"),
    }
}

// The needed scratch words have the sizes, or are free; later ones and all of a short scratch stay. All of Size compact's are free,
// but after 4. The output has the file.
fn scratch_words(seen: &Seen, book: &Book, call: &Call, held: usize, refusal: u32) {
    let needed = match call {
        Call::SizeCompact { scratch, .. } if refusal != 4 => *scratch,
        _ if [4, 7, 11].contains(&refusal) => 0,
        Call::Load { file, .. } => 6 * file.len(),
        Call::Size { .. } | Call::Save { .. } => held,
        Call::Weight { .. } => 3 * held,
        _ => 0,
    };
    assert_eq!(seen.scratch[needed..], seen.scratch_before[needed..], "the scratch after {call:?}");
    if let Call::Size { .. } = call {
        let sizes: Vec<u64> = book.nodes().iter().take(needed).map(|f| f.len() as u64).collect();
        assert_eq!(seen.scratch[..needed], sizes, "the sizes after {call:?}");
    }
    let written = seen.answer.length;
    assert_eq!(seen.out[written..], seen.out_before[written..], "the output after {call:?}");
}
