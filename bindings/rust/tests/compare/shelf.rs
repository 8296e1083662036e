//! A store with its lent words, and a call on it through the library.
use crate::guarded::Guarded;
use crate::plain::call::{Answer, Call};
use crate::plain::family::Combination;
use crate::random::Random;
use zdd::calls::{self, Words};
use zdd::{Measured, Placed, Record};

const MARK: u32 = 0xA5A5_5A5A;

#[derive(Clone)]
pub struct Shelf {
    pub record: Record,
    pub nodes: Guarded<u32>,
    pub lookup: Guarded<u32>,
    pub cache: Guarded<u32>,
}

/// What a call on the library gave and left, with what its scratch and output were before.
pub struct Seen {
    pub answer: Answer,
    pub scratch: Vec<u64>,
    pub scratch_before: Vec<u64>,
    pub out: Vec<u8>,
    pub out_before: Vec<u8>,
}

pub fn record_of(c: &Combination) -> zdd::Combination {
    zdd::Combination::of(c.iter().copied()).expect("items from 1 to 512")
}

impl Shelf {
    pub fn new(record: Record, nodes: &[u32], lookup: &[u32], cache: &[u32]) -> Shelf {
        Shelf {
            record,
            nodes: Guarded::new(nodes, MARK),
            lookup: Guarded::new(lookup, MARK),
            cache: Guarded::new(cache, MARK),
        }
    }

    /// A store of this limit that Fresh makes of words of any value.
    pub fn fresh(rng: &mut Random, nodes: usize, lookup: usize, cache: usize, limit: u32) -> Shelf {
        let mut shelf = Shelf::new(Record::default(), &rng.junk(nodes), &rng.junk(lookup), &rng.junk(cache));
        let len = shelf.cache.words().len();
        shelf.record = calls::fresh(shelf.lend(len), limit).result().expect("Fresh");
        shelf
    }

    /// The words, with so much of the cache.
    pub fn lend(&mut self, cache: usize) -> Words<'_> {
        Words {
            nodes: self.nodes.words_mut(),
            lookup: self.lookup.words_mut(),
            cache: &mut self.cache.words_mut()[..cache],
        }
    }

    fn operation(&mut self, op: u32, p: u32, q: u32, cache: usize) -> Placed {
        let record = self.record;
        let words = self.lend(cache);
        match op {
            1 => calls::subset1(record, words, p, q),
            2 => calls::subset0(record, words, p, q),
            3 => calls::change(record, words, p, q),
            4 => calls::union(record, words, p, q),
            5 => calls::intsec(record, words, p, q),
            6 => calls::diff(record, words, p, q),
            7 => calls::even(record, words, p),
            _ => calls::odd(record, words, p),
        }
    }

    /// The call on the library, with so much of the cache lent. The record goes on; no margin is touched.
    pub fn call(&mut self, call: &Call, cache: usize, rng: &mut Random) -> Seen {
        let (wide, narrow, bytes) = lengths(call);
        let long: Vec<u64> = (0..wide).map(|_| rng.next()).collect();
        let (mut sizes, mut words) = (Guarded::new(&long, 1 << 40), Guarded::new(&rng.junk(narrow), MARK));
        let mut out = Guarded::new(&vec![0xEE; bytes], 0xDD);
        let scratch_before = scratch(&sizes, &words);
        let out_before = out.words().to_vec();
        let answer = self.asked(call, cache, &mut sizes, &mut words, &mut out);
        assert!(
            self.nodes.is_whole() && self.lookup.is_whole() && self.cache.is_whole(),
            "{call:?} wrote beyond the store"
        );
        assert!(sizes.is_whole() && words.is_whole() && out.is_whole(), "{call:?} wrote beyond its scratch or output");
        Seen { answer, scratch: scratch(&sizes, &words), scratch_before, out: out.words().to_vec(), out_before }
    }

    fn asked(
        &mut self,
        call: &Call,
        cache: usize,
        sizes: &mut Guarded<u64>,
        words: &mut Guarded<u32>,
        out: &mut Guarded<u8>,
    ) -> Answer {
        let (record, nodes, lookup) = (self.record, self.nodes.words(), self.lookup.words());
        let (store, answer) = match call {
            Call::Operation { op, p, q } => placed(self.operation(*op, *p, *q, cache)),
            Call::Load { file, .. } => placed(calls::load(record, self.lend(cache), file, words.words_mut())),
            Call::Size { p, .. } => measured(calls::size(record, nodes, lookup, *p, sizes.words_mut())),
            Call::SizeCompact { p, .. } => measured(calls::size_compact(record, nodes, lookup, *p, sizes.words_mut())),
            Call::Has { p, combination } => {
                let r = calls::has(record, nodes, lookup, *p, record_of(combination));
                (r.store, Answer { refusal: r.refusal, yes: r.member, ..Answer::default() })
            }
            Call::Weight { by_nodes, p, weights, .. } => {
                let call = if *by_nodes { calls::weight_by_nodes } else { calls::weight_by_members };
                let weights = Guarded::new(weights, MARK);
                let r = call(record, nodes, lookup, *p, weights.words(), sizes.words_mut());
                (r.store, Answer { refusal: r.refusal, sum: r.sum, ..Answer::default() })
            }
            Call::Save { p, .. } => {
                let r = calls::save(record, nodes, lookup, *p, words.words_mut(), out.words_mut());
                let file = out.words().get(..r.length).expect("a length within the output").to_vec();
                (r.store, Answer { refusal: r.refusal, length: r.length, file, ..Answer::default() })
            }
            Call::Audit => {
                let r = calls::audit(record, nodes, lookup, &mut self.cache.words_mut()[..cache]);
                (r.store, Answer { yes: r.sound, ..Answer::default() })
            }
        };
        self.record = store;
        answer
    }
}

fn placed(r: Placed) -> (Record, Answer) {
    (r.store, Answer { refusal: r.refusal, handle: r.handle, added: r.added, ..Answer::default() })
}

fn measured(r: Measured) -> (Record, Answer) {
    (r.store, Answer { refusal: r.refusal, size: r.size, ..Answer::default() })
}

fn lengths(call: &Call) -> (usize, usize, usize) {
    match call {
        Call::Size { scratch, .. } | Call::SizeCompact { scratch, .. } | Call::Weight { scratch, .. } => {
            (*scratch, 0, 0)
        }
        Call::Save { scratch, out, .. } => (0, *scratch, *out),
        Call::Load { scratch, .. } => (0, *scratch, 0),
        _ => (0, 0, 0),
    }
}

fn scratch(sizes: &Guarded<u64>, words: &Guarded<u32>) -> Vec<u64> {
    sizes.words().iter().copied().chain(words.words().iter().map(|word| u64::from(*word))).collect()
}
