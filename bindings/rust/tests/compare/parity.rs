//! Even and Odd of random families, and their laws: the two parts share no member, and their union is the family.
use crate::added::{load, some_family, CACHE};
use crate::observe::compare;
use crate::plain::book::Book;
use crate::plain::call::Call;
use crate::random::{limit_of, Random};
use crate::shelf::Shelf;
use crate::tally::Tally;

// The handle that an operation gives and the number of nodes that it adds; none where it is refused.
fn placed(rng: &mut Random, shelf: &mut Shelf, [op, p, q]: [u32; 3], lent: usize) -> Option<(u32, u32)> {
    let answer = shelf.call(&Call::Operation { op, p, q }, lent, rng).answer;
    (answer.refusal == 0).then_some((answer.handle, answer.added))
}

/// Places both parts of p on a copy of the store, as far as there is room. Intsec of the two is {} and Union is p, and
/// neither adds a node. Says whether there was room.
pub fn parted(rng: &mut Random, shelf: &Shelf, p: u32, lent: usize) -> bool {
    let mut shelf = shelf.clone();
    let Some((even, _)) = placed(rng, &mut shelf, [7, p, 0], lent) else { return false };
    let Some((odd, _)) = placed(rng, &mut shelf, [8, p, 0], lent) else { return false };
    for [first, second] in [[even, odd], [odd, even]] {
        assert_eq!(placed(rng, &mut shelf, [5, first, second], lent), Some((0, 0)), "Intsec of the parts of {p}");
        assert_eq!(placed(rng, &mut shelf, [4, first, second], lent), Some((p, 0)), "Union of the parts of {p}");
    }
    true
}

#[test]
fn two_parts_of_a_family() {
    let mut rng = Random::new(81);
    let mut tally = Tally::default();
    for k in 0..1000 {
        let limit = limit_of(k);
        let len = 1 + rng.below(7);
        let pool = rng.pool(len, limit);
        let mut shelf = Shelf::fresh(&mut rng, 1200, 801, CACHE, limit);
        let mut book = Book::start();
        let f = some_family(&mut rng, &pool);
        let (p, _) = load(&mut rng, &mut shelf, &mut book, &f, &mut tally);
        assert!(parted(&mut rng, &shelf, p, CACHE));
        for op in [7, 8] {
            compare(&mut shelf, &mut book, &Call::Operation { op, p, q: 0 }, CACHE, &mut rng, &mut tally);
        }
        assert!(parted(&mut rng, &shelf, p, CACHE));
    }
    tally.close("Even and Odd", 1000, &[("Even", &[0]), ("Odd", &[0])]);
}
