//! The functions of libzdd_c.a, as include/zdd.h has them.
use crate::{Asked, Audited, Combination, Freshened, Measured, Placed, Record, Saved, Weighed};

extern "C" {
    pub fn zdd_fresh(
        nodes: *mut u32,
        node_words: usize,
        lookup: *mut u32,
        lookup_words: usize,
        cache: *mut u32,
        cache_words: usize,
        limit: u32,
    ) -> Freshened;
    pub fn zdd_empty() -> u32;
    pub fn zdd_base() -> u32;
    pub fn zdd_has(
        store: Record,
        nodes: *const u32,
        node_words: usize,
        lookup: *const u32,
        lookup_words: usize,
        p: u32,
        combination: Combination,
    ) -> Asked;
    pub fn zdd_save(
        store: Record,
        nodes: *const u32,
        node_words: usize,
        lookup: *const u32,
        lookup_words: usize,
        p: u32,
        scratch: *mut u32,
        scratch_words: usize,
        out: *mut u8,
        out_bytes: usize,
    ) -> Saved;
    pub fn zdd_load(
        store: Record,
        nodes: *mut u32,
        node_words: usize,
        lookup: *mut u32,
        lookup_words: usize,
        cache: *mut u32,
        cache_words: usize,
        file: *const u8,
        file_bytes: usize,
        scratch: *mut u32,
        scratch_words: usize,
    ) -> Placed;
    pub fn zdd_audit(
        store: Record,
        nodes: *const u32,
        node_words: usize,
        lookup: *const u32,
        lookup_words: usize,
        cache: *mut u32,
        cache_words: usize,
    ) -> Audited;
}

/// The shape of the six operations: the record, the words, a family and an item, or two families.
pub type Operation =
    unsafe extern "C" fn(Record, *mut u32, usize, *mut u32, usize, *mut u32, usize, u32, u32) -> Placed;

/// The shape of Even and Odd: the record, the words and a family.
pub type Parity = unsafe extern "C" fn(Record, *mut u32, usize, *mut u32, usize, *mut u32, usize, u32) -> Placed;

/// The shape of both entries of Size: the record, the words, a family and the scratch.
pub type Measuring =
    unsafe extern "C" fn(Record, *const u32, usize, *const u32, usize, u32, *mut u64, usize) -> Measured;

macro_rules! measurings {
    ($($name:ident)*) => {
        extern "C" {
            $(pub fn $name(store: Record, nodes: *const u32, node_words: usize, lookup: *const u32, lookup_words: usize, p: u32, scratch: *mut u64, scratch_words: usize) -> Measured;)*
        }
    };
}

measurings! {
    zdd_size
    zdd_size_compact
}

/// The shape of the two sums of weights: the record, the words, a family, the weights and the scratch.
pub type Weighing = unsafe extern "C" fn(
    Record,
    *const u32,
    usize,
    *const u32,
    usize,
    u32,
    *const u32,
    usize,
    *mut u64,
    usize,
) -> Weighed;

macro_rules! weighings {
    ($($name:ident)*) => {
        extern "C" {
            $(pub fn $name(store: Record, nodes: *const u32, node_words: usize, lookup: *const u32, lookup_words: usize, p: u32, weights: *const u32, weight_count: usize, scratch: *mut u64, scratch_words: usize) -> Weighed;)*
        }
    };
}

weighings! {
    zdd_weight_by_members
    zdd_weight_by_nodes
}

macro_rules! operations {
    ($($name:ident($($operand:ident),*))*) => {
        extern "C" {
            $(pub fn $name(store: Record, nodes: *mut u32, node_words: usize, lookup: *mut u32, lookup_words: usize, cache: *mut u32, cache_words: usize, $($operand: u32),*) -> Placed;)*
        }
    };
}

operations! {
    zdd_subset1(p, item)
    zdd_subset0(p, item)
    zdd_change(p, item)
    zdd_union(p, q)
    zdd_intsec(p, q)
    zdd_diff(p, q)
    zdd_even(p)
    zdd_odd(p)
}
