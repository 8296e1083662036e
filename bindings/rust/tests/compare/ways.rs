//! Size in two words for each part where the parts stand side by side. Families loaded behind others; ways and members whose product
//! is about 2^64; tables that fill; any words. The plain side is arithmetic on 128 bits.
use crate::compact::{asked, expect, parts_of, unchanged};
use crate::large::{built, eight_of_512};
use crate::plain::call::Answer;
use crate::plain::family::Family;
use crate::plain::file::file_of;
use crate::plain::sound::is_sound;
use crate::plain::words::entered;
use crate::random::Random;
use crate::shelf::Shelf;
use crate::sizes::all_subsets;
use crate::tally::Tally;
use crate::weights::shelf_of;
use std::collections::BTreeMap;
use zdd::{Record, Refusal, Store};

const MOST: u128 = u64::MAX as u128;
// Stands for every size from it on.
const VAST: u128 = 1 << 100;

// The words of a sound store in the making, with the size of every handle.
struct Making {
    nodes: Vec<u32>,
    sizes: Vec<u128>,
    known: BTreeMap<[u32; 3], u32>,
}

impl Making {
    fn start() -> Making {
        Making { nodes: vec![], sizes: vec![0, 1], known: BTreeMap::new() }
    }

    fn count(&self) -> usize {
        self.nodes.len() / 3
    }

    fn size(&self, p: u32) -> u128 {
        self.sizes[p as usize]
    }

    fn top(&self, p: u32) -> u32 {
        if p < 2 {
            0
        } else {
            self.nodes[3 * (p as usize - 2)]
        }
    }

    // The handle of a node, found or new.
    fn node(&mut self, item: u32, zero: u32, one: u32) -> u32 {
        let words = [item, zero, one];
        if let Some(p) = self.known.get(&words) {
            return *p;
        }
        let p = self.sizes.len() as u32;
        self.known.insert(words, p);
        self.nodes.extend(words);
        self.sizes.push((self.size(zero) + self.size(one)).min(VAST));
        p
    }

    // The next item above a handle.
    fn above(&mut self, p: u32, zero: u32, one: u32) -> u32 {
        self.node(self.top(p) + 1, zero, one)
    }

    // A handle with so many ways down to p: from the highest binary place on, all ways are doubled, and one is added for a 1.
    fn ways_to(&mut self, p: u32, ways: u128) -> u32 {
        let mut q = p;
        for place in (0..ways.ilog2()).rev() {
            q = self.above(q, q, q);
            if ways >> place & 1 == 1 {
                q = self.above(q, p, q);
            }
        }
        q
    }

    // So many nodes of other families.
    fn others(&mut self, rng: &mut Random, count: usize) {
        let enough = self.count() + count;
        while self.count() < enough {
            let item = 1 + rng.below(512) as u32;
            let [zero, one] = [0, 1].map(|none| {
                let p = rng.below(self.sizes.len()) as u32;
                if self.top(p) < item {
                    p.max(none)
                } else {
                    none
                }
            });
            self.node(item, zero, one);
        }
    }

    // So many layers on these handles, whose tops are at most `item`, each over all of the one below: a without-side is one of the layer
    // below or one of those far below in so many of four, else {}. Then layers of half as many, up to a single handle.
    fn layers(
        &mut self,
        rng: &mut Random,
        below: &[u32],
        mut item: u32,
        (layers, many): (usize, usize),
        far: &[u32],
    ) -> u32 {
        let mut below = below.to_vec();
        for _ in 0..layers {
            item += 1;
            let next = |k: usize| {
                let beside = [rng.pick(&below), rng.pick(far)];
                let zero = if rng.below(4) < many { rng.pick(&beside) } else { 0 };
                self.node(item, zero, below[k])
            };
            below = (0..below.len()).map(next).collect();
        }
        while below.len() > 1 {
            item += 1;
            let over = |two: &[u32]| self.node(item, two[0], *two.get(1).unwrap_or(&1));
            below = below.chunks(2).map(over).collect();
        }
        below[0]
    }

    fn shelf(&self, rng: &mut Random) -> Shelf {
        let count = self.count() as u32;
        let lookup = entered(&self.nodes, self.count() + 1 + rng.below(self.count() + 9));
        let record = Record { capacity: count, count, limit: 512 };
        assert!(is_sound(record, &self.nodes, &lookup));
        Shelf::new(record, &self.nodes, &lookup, &[])
    }
}

// About two words for each part, up to where the window has all of them, and some others.
fn lengths(rng: &mut Random, parts: usize) -> Vec<usize> {
    let need = 2 * parts;
    let about = (need.saturating_sub(3)..need + 4).chain([13 * parts / 8, 7 * parts / 4, need + need / 2]);
    let more = [4, 8, 16].map(|n| n * parts).into_iter().flat_map(|n| n.saturating_sub(1)..n + 2);
    let any: Vec<usize> = (0..12).map(|k| need * (k % 2) + rng.below(need + 9)).collect();
    about.chain(more).chain(any).collect()
}

// The answer for a handle of this size on these lengths. Gives the number of calls.
fn on_lengths(rng: &mut Random, shelf: &Shelf, p: u32, size: u128) -> usize {
    let parts = parts_of(shelf, p);
    let lengths = lengths(rng, parts);
    expect(rng, shelf, p, (parts, size), lengths.into_iter())
}

// A store with other families in it, and all subsets of so many items.
fn crowded(rng: &mut Random, items: u32) -> Result<Store, Refusal> {
    let mut store = Store::new(20_000, 4096, 512)?;
    all_subsets(&mut store, items);
    let crowd: Family = (0..rng.below(100)).map(|_| eight_of_512(rng)).collect();
    built(&mut store, &crowd)?;
    Ok(store)
}

// Families of 8 of 512 items, of some tens to some thousand parts.
#[test]
fn families_loaded_behind_others() -> Result<(), Refusal> {
    let (mut rng, mut calls) = (Random::new(111), 0);
    for members in [4, 5, 8, 13, 30, 80, 200, 500] {
        for _ in 0..3 {
            let family: Family = (0..members).map(|_| eight_of_512(&mut rng)).collect();
            let mut store = crowded(&mut rng, 0)?;
            let p = store.load(&file_of(&family))?;
            let shelf = shelf_of(&store);
            calls += on_lengths(&mut rng, &shelf, p, family.len() as u128);
            for _ in 0..4 {
                let part = p - rng.below(1 + store.added() as usize / 8) as u32;
                let size = store.size(part)?;
                calls += on_lengths(&mut rng, &shelf, part, u128::from(size));
            }
        }
    }
    println!("Size compact of families loaded behind others: {calls} calls compared");
    Ok(())
}

// All subsets of 60 to 66 items, without {}, with an item more: some of their parts may stand far below.
#[test]
fn subsets_loaded_behind_others() -> Result<(), Refusal> {
    let (mut rng, mut calls) = (Random::new(112), 0);
    for n in 60..=66 {
        for below in [0, 1, 20, 31, 50] {
            let mut other = Store::new(3000, 1024, 512)?;
            let all = all_subsets(&mut other, n)[n as usize];
            let less = other.diff(all, Store::BASE)?;
            let high = other.change(less, 400)?;
            let one = other.change(Store::BASE, 511)?;
            let more = other.union(high, one)?;
            for (p, size) in [(all, 1 << n), (less, (1 << n) - 1), (high, (1 << n) - 1), (more, 1 << n)] {
                let file = other.save(p)?;
                let mut store = crowded(&mut rng, below)?;
                let q = store.load(&file)?;
                calls += on_lengths(&mut rng, &shelf_of(&store), q, size);
            }
        }
    }
    println!("Size compact of subsets loaded behind others: {calls} calls compared");
    Ok(())
}

// So many ways to a family of so many members, and a family beside it: the sum is small, 2^64 - 1, 2^64, or above.
#[test]
fn ways_times_members() {
    let (mut rng, mut calls) = (Random::new(113), 0);
    let third = MOST / 3;
    let edges = [
        1,
        2,
        3,
        641,
        1 << 20,
        (1 << 32) - 1,
        1 << 32,
        (1 << 32) + 1,
        MOST / 641,
        third,
        third + 1,
        1 << 63,
        MOST,
        MOST + 1,
        MOST + 7,
    ];
    for ways in edges {
        for members in edges {
            let product = ways.saturating_mul(members);
            let rest = MOST.saturating_sub(product);
            for beside in [0, 1, rest, rest + 1] {
                let mut making = Making::start();
                let low = making.ways_to(1, members);
                let early = rng.once_in(2);
                let mut x = if early && beside > 0 { making.ways_to(1, beside) } else { 0 };
                let between = rng.pick(&[0, 1, 30, 300]);
                making.others(&mut rng, between);
                if !early && beside > 0 {
                    x = making.ways_to(1, beside);
                }
                let mut p = making.ways_to(low, ways);
                if beside > 0 {
                    let item = 1 + making.top(p).max(making.top(x));
                    p = if rng.once_in(2) { making.node(item, x, p) } else { making.node(item, p, x) };
                }
                assert_eq!(making.size(p), product.saturating_add(beside).min(VAST), "as made");
                if p >= 2 {
                    let shelf = making.shelf(&mut rng);
                    calls += on_lengths(&mut rng, &shelf, p, making.size(p));
                }
            }
        }
    }
    println!("Size compact of so many ways to so many members: {calls} calls compared");
}

// Layers side by side over parts far below, fewer and more than the table behind the window has places for.
#[test]
fn tables_that_fill() {
    let (mut rng, mut calls) = (Random::new(114), 0);
    for _ in 0..300 {
        let mut making = Making::start();
        let (wide, shape) = (1 + rng.below(12), (1 + rng.below(60), rng.below(4)));
        let sides: Vec<u32> = (1..=wide as u32).map(|item| making.node(item, 0, 1)).collect();
        let low = making.layers(&mut rng, &sides, wide as u32, shape, &[0, 1]);
        let far: Vec<u32> = (0..8).map(|_| 1 + rng.below(making.count() + 1) as u32).chain([low, low]).collect();
        let between = rng.pick(&[0, 1, 50, 500]);
        making.others(&mut rng, between);
        let under = making.count();
        let (wide, shape) = (1 + rng.below(20), (1 + rng.below(80), rng.below(4)));
        let sides: Vec<u32> = (0..wide).map(|_| rng.pick(&far)).collect();
        let p = making.layers(&mut rng, &sides, 100, shape, &far);
        let shelf = making.shelf(&mut rng);
        calls += on_lengths(&mut rng, &shelf, p, making.size(p));
        // about as many places as there are parts below
        let parts = parts_of(&shelf, p);
        let full = 8 * (parts + under).saturating_sub(making.count()) / 3;
        calls += expect(&mut rng, &shelf, p, (parts, making.size(p)), full.saturating_sub(5)..full + 6);
    }
    println!("Size compact with tables that fill: {calls} calls compared");
}

// The same shapes with some children that are any words: an answer or a refusal, and no word beyond the scratch is written.
#[test]
fn any_words_side_by_side() {
    let (mut rng, mut tally) = (Random::new(115), Tally::default());
    for _ in 0..4000 {
        let mut making = Making::start();
        let low = making.ways_to(1, 1 + u128::from(rng.next()));
        let between = rng.below(40);
        making.others(&mut rng, between);
        let ways = 1 + u128::from(rng.next() >> rng.below(50));
        let p = making.ways_to(low, ways);
        let (last, count) = (making.sizes.len() as u32 - 1, making.count());
        for _ in 0..rng.below(4) {
            let at = 3 * (count - 1 - rng.below(count.min(60))) + 1 + rng.below(2);
            let later = last - rng.below(count.min(60)) as u32;
            making.nodes[at] = rng.pick(&[later, later, later, 0, last + 1, u32::MAX]);
        }
        let record = Record { capacity: count as u32, count: count as u32, limit: 512 };
        let shelf = Shelf::new(record, &making.nodes, &rng.junk(count + 1), &[]);
        let mut after = shelf.clone();
        for scratch in [64 + rng.below(4 * count), 2 * count, 4 * count, 8 * count] {
            let answer = asked(&mut rng, &mut after, p, scratch);
            let refused = Answer { refusal: answer.refusal, ..Answer::default() };
            assert!(answer.refusal == 0 || answer == refused, "{p}, {scratch} words: {answer:?}");
            tally.add("Size compact", answer.refusal);
        }
        unchanged(&shelf, &after);
    }
    tally.close("Size compact on any words side by side", 50, &[("Size compact", &[0, 6, 7])]);
}
