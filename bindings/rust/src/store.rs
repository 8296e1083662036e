//! A store that owns its words.
use crate::calls::{self, Words};
use crate::{Combination, Placed, Record, Refusal};

/// A store of families. A handle names a family for as long as the store lives; equal families have equal handles.
#[derive(Clone, Debug)]
pub struct Store {
    record: Record,
    added: u32,
    nodes: Vec<u32>,
    lookup: Vec<u32>,
    cache: Vec<u32>,
}

impl Store {
    /// The handle of {}.
    pub const EMPTY: u32 = 0;
    /// The handle of {{}}.
    pub const BASE: u32 = 1;

    /// An empty store for so many nodes, with a cache of so many groups, for the items from 1 to the limit. A capacity
    /// above 1,000,000 counts as that; 0 is refused as `Tiny`, and a limit outside 1 to 512 as `Item`.
    pub fn new(capacity: u32, cache_groups: usize, limit: u32) -> Result<Store, Refusal> {
        let nodes = capacity.min(1_000_000) as usize;
        Store::with_lengths(3 * nodes, 2 * nodes + 1, cache_groups.saturating_mul(4), limit)
    }

    /// An empty store with so many node, lookup and cache words, for the items from 1 to the limit.
    pub fn with_lengths(nodes: usize, lookup: usize, cache: usize, limit: u32) -> Result<Store, Refusal> {
        let (nodes, lookup, cache) = (vec![0; nodes], vec![0; lookup], vec![0; cache]);
        let mut store = Store { record: Record::default(), added: 0, nodes, lookup, cache };
        let words = Words { nodes: &mut store.nodes, lookup: &mut store.lookup, cache: &mut store.cache };
        store.record = calls::fresh(words, limit).result()?;
        Ok(store)
    }

    /// The record: capacity, count and limit.
    pub fn record(&self) -> Record {
        self.record
    }

    /// How many nodes the last call that places a family added: 0 where it was refused, and on a new store. All these
    /// numbers since the store was new sum to the record's count.
    pub fn added(&self) -> u32 {
        self.added
    }

    /// The node words: item, zero child and one child of node k from word 3(k - 2) on.
    pub fn nodes(&self) -> &[u32] {
        &self.nodes
    }

    /// The lookup words.
    pub fn lookup(&self) -> &[u32] {
        &self.lookup
    }

    fn placing(&mut self, call: impl FnOnce(Record, Words<'_>) -> Placed) -> Result<u32, Refusal> {
        let words = Words { nodes: &mut self.nodes, lookup: &mut self.lookup, cache: &mut self.cache };
        let placed = call(self.record, words);
        self.record = placed.store;
        self.added = placed.added;
        placed.result()
    }

    /// The members of p with the item, the item taken out. Refusals: Handle, Item, Full.
    pub fn subset1(&mut self, p: u32, item: u32) -> Result<u32, Refusal> {
        self.placing(|record, words| calls::subset1(record, words, p, item))
    }

    /// The members of p without the item. Refusals: Handle, Item, Full.
    pub fn subset0(&mut self, p: u32, item: u32) -> Result<u32, Refusal> {
        self.placing(|record, words| calls::subset0(record, words, p, item))
    }

    /// The members of p with the item put in where absent and taken out where present. Refusals: Handle, Item, Full.
    pub fn change(&mut self, p: u32, item: u32) -> Result<u32, Refusal> {
        self.placing(|record, words| calls::change(record, words, p, item))
    }

    /// The combinations in p or in q. Refusals: Handle, Full.
    pub fn union(&mut self, p: u32, q: u32) -> Result<u32, Refusal> {
        self.placing(|record, words| calls::union(record, words, p, q))
    }

    /// The combinations in p and in q. Refusals: Handle, Full.
    pub fn intsec(&mut self, p: u32, q: u32) -> Result<u32, Refusal> {
        self.placing(|record, words| calls::intsec(record, words, p, q))
    }

    /// The combinations in p and not in q. Refusals: Handle, Full.
    pub fn diff(&mut self, p: u32, q: u32) -> Result<u32, Refusal> {
        self.placing(|record, words| calls::diff(record, words, p, q))
    }

    /// The members of p with an even number of items; the empty combination is even. Refusals: Handle, Full.
    pub fn even(&mut self, p: u32) -> Result<u32, Refusal> {
        self.placing(|record, words| calls::even(record, words, p))
    }

    /// The members of p with an odd number of items. Refusals: Handle, Full.
    pub fn odd(&mut self, p: u32) -> Result<u32, Refusal> {
        self.placing(|record, words| calls::odd(record, words, p))
    }

    /// The number of members of p. Refusals: Handle, Large.
    pub fn size(&self, p: u32) -> Result<u64, Refusal> {
        let mut scratch = vec![0; self.record.count as usize];
        calls::size(self.record, &self.nodes, &self.lookup, p, &mut scratch).result()
    }

    /// The same number, in lent scratch of two words for each different part of p, whatever else the store holds; {} and
    /// {{}} need none. For a small family in a crowded store: `size` takes a word for each node held. Refusals: Handle,
    /// Scratch, Large.
    ///
    /// ```
    /// # use zdd::{Refusal, Store};
    /// let mut store = Store::new(1000, 64, 512)?;
    /// for item in 1..=512 {
    ///     store.change(Store::BASE, item)?;
    /// }
    /// let one = store.change(Store::BASE, 7)?;
    /// let both = store.union(one, Store::BASE)?; // of one part, as {} and {{}} count as none
    /// assert_eq!(store.size_compact(both, &mut [0; 2]), Ok(2));
    /// assert_eq!(store.size_compact(both, &mut [0; 1]), Err(Refusal::Scratch));
    /// assert_eq!(store.size_compact(Store::BASE, &mut []), Ok(1));
    /// # Ok::<(), Refusal>(())
    /// ```
    pub fn size_compact(&self, p: u32, scratch: &mut [u64]) -> Result<u64, Refusal> {
        calls::size_compact(self.record, &self.nodes, &self.lookup, p, scratch).result()
    }

    /// Whether the combination is a member of p; one with an item above the limit never is. Refusal: Handle.
    pub fn has(&self, p: u32, combination: Combination) -> Result<bool, Refusal> {
        calls::has(self.record, &self.nodes, &self.lookup, p, combination).result()
    }

    /// The sum of item weights over the members of p, added member by member; the weight of item i is `weights[i - 1]`.
    /// It goes through every member: where they are many, add by nodes. Refusals: Handle, Weights, Large.
    pub fn weight_by_members(&self, p: u32, weights: &[u32]) -> Result<u64, Refusal> {
        let mut scratch = vec![0; 3 * self.record.count as usize];
        calls::weight_by_members(self.record, &self.nodes, &self.lookup, p, weights, &mut scratch).result()
    }

    /// The same sum, added node by node. Refusals: Handle, Weights, Large.
    pub fn weight_by_nodes(&self, p: u32, weights: &[u32]) -> Result<u64, Refusal> {
        let mut scratch = vec![0; 3 * self.record.count as usize];
        calls::weight_by_nodes(self.record, &self.nodes, &self.lookup, p, weights, &mut scratch).result()
    }

    /// The file of p. Refusal: Handle.
    pub fn save(&self, p: u32) -> Result<Vec<u8>, Refusal> {
        let count = self.record.count as usize;
        let mut scratch = vec![0; count];
        let mut file = vec![0; 5 + 11 * count];
        let length = calls::save(self.record, &self.nodes, &self.lookup, p, &mut scratch, &mut file).result()?;
        file.truncate(length);
        Ok(file)
    }

    /// Places the family of a file, from a store of any size and limit. Refusals: NoFile, AboveLimit, Full.
    pub fn load(&mut self, file: &[u8]) -> Result<u32, Refusal> {
        let mut scratch = vec![0; 6 * file.len()];
        self.placing(|record, words| calls::load(record, words, file, &mut scratch))
    }

    /// Zeroes the cache and says whether the store is sound.
    pub fn audit(&mut self) -> bool {
        calls::audit(self.record, &self.nodes, &self.lookup, &mut self.cache).sound
    }
}
