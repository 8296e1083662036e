//! Load on files and on bytes that are no files.
use crate::observe::compare;
use crate::plain::book::Book;
use crate::plain::call::Call;
use crate::plain::family::{top, Family};
use crate::plain::file::{family_of, file_of};
use crate::random::{limit_of, Random, LIMITS};
use crate::shelf::Shelf;
use crate::tally::Tally;

/// The bytes with one to three faults.
pub fn damaged(rng: &mut Random, mut file: Vec<u8>) -> Vec<u8> {
    for _ in 0..=rng.below(3) {
        let at = rng.below(file.len());
        match rng.below(9) {
            0 => file.truncate(at),
            1 => file.insert(at.min(file.len()), rng.word() as u8),
            2 => file.push(rng.pick(&[0, 1, 2, 4, 255])),
            3 if at < file.len() => drop(file.remove(at)),
            4 if at < file.len() => file[at] ^= 1 << rng.below(8),
            5 if file.len() > 5 => file[1 + rng.below(4)] = rng.pick(&[0, 1, 2, 3, 255]),
            6 if at < file.len() => file[at] = rng.pick(&[0, 1, 2, 3, 4, 5, 6, 7, 8, 255]),
            7 if at + 1 < file.len() => file.swap(at, at + 1),
            _ if at < file.len() => file[at] = file[at].wrapping_add(1),
            _ => {}
        }
    }
    file
}

pub fn any_family(rng: &mut Random, pool: &[u32], members: usize) -> Family {
    (0..members).map(|_| rng.combination(pool)).collect()
}

fn load(rng: &mut Random, shelf: &Shelf, book: &Book, file: Vec<u8>, tally: &mut Tally) {
    let scratch = 6 * file.len() + rng.below(3);
    compare(&mut shelf.clone(), &mut book.clone(), &Call::Load { file, scratch }, 16, rng, tally);
}

#[test]
fn random_families_whole_and_damaged() {
    let mut rng = Random::new(11);
    let mut tally = Tally::default();
    let mut still = 0;
    for k in 0..1500 {
        let len = 1 + rng.below(8);
        let limit = limit_of(k);
        let pool = rng.pool(len, limit);
        let (nodes, lookup) = (3 * (1 + rng.below(60)), 70 + rng.below(60));
        let mut shelf = Shelf::fresh(&mut rng, nodes, lookup, 16, limit);
        let mut book = Book::start();
        let before = any_family(&mut rng, &pool, 2);
        let first = Call::Load { file: file_of(&before), scratch: 6 * file_of(&before).len() };
        compare(&mut shelf, &mut book, &first, 16, &mut rng, &mut tally);
        let members = 1 + rng.below(12);
        let foreign = rng.foreign_pool(len, limit);
        let file = file_of(&any_family(&mut rng, &foreign, members));
        load(&mut rng, &shelf, &book, file.clone(), &mut tally);
        for _ in 0..20 {
            let other = damaged(&mut rng, file.clone());
            still += u32::from(other != file && family_of(&other).is_some());
            load(&mut rng, &shelf, &book, other, &mut tally);
        }
    }
    println!("random files: {still} damaged files are the file of another family");
    assert!(still > 100);
    tally.close("random files, whole and damaged", 100, &[("Load", &[0, 5, 9, 13])]);
}

// Loads a file in a new store of this limit; gives the file that is saved there, none where the Load is refused.
fn passed_on(rng: &mut Random, limit: u32, file: &[u8], tally: &mut Tally) -> Option<Vec<u8>> {
    let mut shelf = Shelf::fresh(rng, 300, 150, 16, limit);
    let mut book = Book::start();
    let scratch = 6 * file.len();
    compare(&mut shelf, &mut book, &Call::Load { file: file.to_vec(), scratch }, 16, rng, tally);
    let p = book.number(&family_of(file)?)?;
    let save = Call::Save { p, scratch: book.count() as usize, out: 2000 };
    compare(&mut shelf, &mut book, &save, 16, rng, tally);
    Some(shelf.call(&save, 16, rng).answer.file)
}

#[test]
fn files_between_stores_of_all_limits() {
    let mut rng = Random::new(13);
    let mut tally = Tally::default();
    for (from, to) in LIMITS.into_iter().flat_map(|from| LIMITS.map(|to| (from, to))) {
        for _ in 0..20 {
            let pool = rng.pool(6, from);
            let family = any_family(&mut rng, &pool, 6);
            let file = passed_on(&mut rng, from, &file_of(&family), &mut tally).expect("a file within its own limit");
            let other = passed_on(&mut rng, to, &file, &mut tally);
            assert_eq!(other, (top(&family) <= to).then_some(file), "from limit {from} to {to}");
        }
    }
    tally.close("files between stores of all limits", 100, &[("Load", &[0, 13]), ("Save", &[0])]);
}

// Every string of these bytes up to the length, after the front.
fn every_string(front: &[u8], alphabet: &[u8], length: usize, each: &mut dyn FnMut(&[u8])) {
    each(front);
    if length > 0 {
        for byte in alphabet {
            every_string(&[front, &[*byte]].concat(), alphabet, length - 1, each);
        }
    }
}

#[test]
fn all_short_files() {
    let mut rng = Random::new(12);
    let mut tally = Tally::default();
    let shelves = [1, 511, 512].map(|limit| Shelf::fresh(&mut rng, 12, 7, 16, limit));
    let book = Book::start();
    let mut each = |file: &[u8]| {
        for shelf in &shelves {
            load(&mut rng, shelf, &book, file.to_vec(), &mut tally);
        }
    };
    let all: Vec<u8> = (0..=255).collect();
    every_string(&[], &all, 2, &mut each);
    let front = |parts: u8| [1, parts, 0, 0, 0];
    every_string(&front(0), &[0, 1, 2, 4, 7], 3, &mut each);
    every_string(&front(1), &[0, 1, 2, 3, 4, 5, 6, 7, 8, 9], 4, &mut each);
    every_string(&front(2), &[0, 1, 2, 3, 4, 5, 6], 5, &mut each);
    every_string(&front(3), &[0, 1, 2, 4], 6, &mut each);
    every_string(&[1, 255, 255, 255, 255], &[0, 1, 255], 4, &mut each);
    every_string(&[1, 1, 0, 0, 0, 1, 0], &[0, 1, 2, 3], 4, &mut each);
    every_string(&[1, 2, 0, 0, 0, 1, 255, 1], &[0, 1, 2, 3, 4], 5, &mut each);
    every_string(&[1, 2, 0, 0, 0, 1, 0, 2], &[0, 1, 2, 3, 4], 5, &mut each);
    every_string(&[1, 2, 0, 0, 0, 0, 2, 1, 0, 0, 0], &[0, 1, 2], 5, &mut each);
    every_string(&[1, 2, 0, 0, 0, 0, 2, 2, 0, 0, 0], &[0, 1, 2], 5, &mut each);
    every_string(&[1, 2, 0, 0, 0, 0, 6, 2, 0, 0, 0], &[0, 1, 2, 3], 4, &mut each);
    every_string(&[1, 3, 0, 0, 0, 0, 5, 2, 0, 1, 0, 0, 0], &[0, 2, 3, 4, 6], 6, &mut each);
    tally.close("all short files", 10, &[("Load", &[0, 9, 13])]);
}
