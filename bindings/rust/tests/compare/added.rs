//! Union, Intsec and Diff of random families add at most (a + 2) x (b + 2) nodes, where a and b are the numbers of different
//! parts of the two.
use crate::files::any_family;
use crate::observe::compare;
use crate::plain::book::{different_parts, Book};
use crate::plain::call::Call;
use crate::plain::family::Family;
use crate::plain::file::file_of;
use crate::random::{limit_of, Random};
use crate::shelf::Shelf;
use crate::tally::Tally;

/// The cache words that these calls are lent.
pub const CACHE: usize = 64;

/// Any family of these items: of few members, or of most combinations.
pub fn some_family(rng: &mut Random, pool: &[u32]) -> Family {
    let members = 1 + rng.below(2 << pool.len());
    any_family(rng, pool, members)
}

/// Loads a family; gives its handle and the number of its different parts.
pub fn load(rng: &mut Random, shelf: &mut Shelf, book: &mut Book, f: &Family, tally: &mut Tally) -> (u32, u32) {
    let file = file_of(f);
    let scratch = 6 * file.len();
    compare(shelf, book, &Call::Load { file, scratch }, CACHE, rng, tally);
    (book.number(f).expect("held"), different_parts(f) as u32)
}

#[test]
fn two_families_add_few_nodes() {
    let mut rng = Random::new(71);
    let mut tally = Tally::default();
    for k in 0..1000 {
        let limit = limit_of(k);
        let len = 1 + rng.below(7);
        let pool = rng.pool(len, limit);
        let mut shelf = Shelf::fresh(&mut rng, 1200, 801, CACHE, limit);
        let mut book = Book::start();
        let (f, g) = (some_family(&mut rng, &pool), some_family(&mut rng, &pool));
        let (p, a) = load(&mut rng, &mut shelf, &mut book, &f, &mut tally);
        let (q, b) = load(&mut rng, &mut shelf, &mut book, &g, &mut tally);
        for op in [4, 5, 6] {
            let call = Call::Operation { op, p, q };
            let added = compare(&mut shelf.clone(), &mut book.clone(), &call, CACHE, &mut rng, &mut tally);
            assert!(added <= (a + 2) * (b + 2), "{call:?} of {f:?} and {g:?} added {added}");
        }
    }
    tally.close(
        "Union, Intsec and Diff within their bound",
        1000,
        &[("Union", &[0]), ("Intsec", &[0]), ("Diff", &[0])],
    );
}
