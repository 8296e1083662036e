//! A family of many combinations of all 512 items: built by Change and Union, saved, loaded, against the plain words and bytes.
use crate::plain::book::Book;
use crate::plain::family::{top, Combination, Family};
use crate::plain::file::file_of;
use crate::plain::words::{entered, node_words};
use crate::random::Random;
use crate::shelf::record_of;
use zdd::{Refusal, Store};

/// A combination of 8 of 512 items.
pub fn eight_of_512(rng: &mut Random) -> Combination {
    let mut c = Combination::new();
    while c.len() < 8 {
        c.insert(1 + rng.below(512) as u32);
    }
    c
}

/// The family, member by member.
pub fn built(store: &mut Store, family: &Family) -> Result<u32, Refusal> {
    let mut all = Store::EMPTY;
    for combination in family {
        let mut one = Store::BASE;
        for item in combination {
            one = store.change(one, *item)?;
        }
        all = store.union(all, one)?;
    }
    Ok(all)
}

#[test]
fn many_combinations() -> Result<(), Refusal> {
    let mut rng = Random::new(61);
    let family: Family = (0..1000).map(|_| eight_of_512(&mut rng)).collect();
    let mut book = Book::start();
    let last = book.place(&family);
    let file = file_of(&family);
    let count = book.count();
    assert_eq!(Store::new(count - 1, 64, top(&family))?.load(&file), Err(Refusal::Full));
    assert_eq!(Store::new(count - 1, 64, top(&family) - 1)?.load(&file), Err(Refusal::AboveLimit));
    let mut store = Store::new(count, 64, 512)?;
    assert_eq!((store.load(&file), store.added()), (Ok(last), count));
    let words = node_words(&book);
    assert_eq!(store.nodes(), words);
    assert_eq!(store.lookup(), entered(&words, store.lookup().len()));
    let mut other = Store::new(1_000_000, 4096, 512)?;
    let p = built(&mut other, &family)?;
    assert_eq!(other.save(p)?, file);
    assert_eq!((other.size(p)?, store.size(last)?), (1000, 1000));
    for combination in family.iter().take(200).cloned().chain((0..200).map(|_| eight_of_512(&mut rng))) {
        let yes = family.contains(&combination);
        assert_eq!((store.has(last, record_of(&combination))?, other.has(p, record_of(&combination))?), (yes, yes));
    }
    assert!(store.audit() && other.audit());
    println!(
        "a family of 1000 combinations: {count} nodes, a file of {} bytes, built in a store of {} nodes",
        file.len(),
        other.record().count
    );
    Ok(())
}
