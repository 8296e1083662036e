//! The calls over lent words, safe on any words: a call reads and writes nothing but what it is lent, and ends.
//!
//! Each answer has its `result()`. What a call needs, what it leaves and how it is refused stands in `include/zdd.h`.
use crate::raw;
use crate::{Asked, Audited, Combination, Freshened, Measured, Placed, Record, Saved, Weighed};

/// The words lent to a call that may place a family.
pub struct Words<'a> {
    /// Three words for each node.
    pub nodes: &'a mut [u32],
    /// The lookup, longer than the capacity.
    pub lookup: &'a mut [u32],
    /// The cache, in whole groups of four; any leading part, none included.
    pub cache: &'a mut [u32],
}

/// Makes an empty store of the lent words, for items up to the limit.
pub fn fresh(w: Words<'_>, limit: u32) -> Freshened {
    // Sound here and below: each pointer comes with its slice's own length, and `&mut` slices do not overlap.
    unsafe {
        raw::zdd_fresh(
            w.nodes.as_mut_ptr(),
            w.nodes.len(),
            w.lookup.as_mut_ptr(),
            w.lookup.len(),
            w.cache.as_mut_ptr(),
            w.cache.len(),
            limit,
        )
    }
}

/// The handle of {}.
pub fn empty() -> u32 {
    unsafe { raw::zdd_empty() }
}

/// The handle of {{}}.
pub fn base() -> u32 {
    unsafe { raw::zdd_base() }
}

fn operation(call: raw::Operation, store: Record, w: Words<'_>, p: u32, q: u32) -> Placed {
    unsafe {
        call(
            store,
            w.nodes.as_mut_ptr(),
            w.nodes.len(),
            w.lookup.as_mut_ptr(),
            w.lookup.len(),
            w.cache.as_mut_ptr(),
            w.cache.len(),
            p,
            q,
        )
    }
}

/// The members of p with the item, the item taken out.
pub fn subset1(store: Record, words: Words<'_>, p: u32, item: u32) -> Placed {
    operation(raw::zdd_subset1, store, words, p, item)
}

/// The members of p without the item.
pub fn subset0(store: Record, words: Words<'_>, p: u32, item: u32) -> Placed {
    operation(raw::zdd_subset0, store, words, p, item)
}

/// The members of p with the item put in where absent and taken out where present.
pub fn change(store: Record, words: Words<'_>, p: u32, item: u32) -> Placed {
    operation(raw::zdd_change, store, words, p, item)
}

/// The combinations in p or in q.
pub fn union(store: Record, words: Words<'_>, p: u32, q: u32) -> Placed {
    operation(raw::zdd_union, store, words, p, q)
}

/// The combinations in p and in q.
pub fn intsec(store: Record, words: Words<'_>, p: u32, q: u32) -> Placed {
    operation(raw::zdd_intsec, store, words, p, q)
}

/// The combinations in p and not in q.
pub fn diff(store: Record, words: Words<'_>, p: u32, q: u32) -> Placed {
    operation(raw::zdd_diff, store, words, p, q)
}

fn parity(call: raw::Parity, store: Record, w: Words<'_>, p: u32) -> Placed {
    unsafe {
        call(
            store,
            w.nodes.as_mut_ptr(),
            w.nodes.len(),
            w.lookup.as_mut_ptr(),
            w.lookup.len(),
            w.cache.as_mut_ptr(),
            w.cache.len(),
            p,
        )
    }
}

/// The members of p with an even number of items; the empty combination is even.
pub fn even(store: Record, words: Words<'_>, p: u32) -> Placed {
    parity(raw::zdd_even, store, words, p)
}

/// The members of p with an odd number of items.
pub fn odd(store: Record, words: Words<'_>, p: u32) -> Placed {
    parity(raw::zdd_odd, store, words, p)
}

fn measuring(
    call: raw::Measuring,
    store: Record,
    [nodes, lookup]: [&[u32]; 2],
    p: u32,
    scratch: &mut [u64],
) -> Measured {
    unsafe {
        call(store, nodes.as_ptr(), nodes.len(), lookup.as_ptr(), lookup.len(), p, scratch.as_mut_ptr(), scratch.len())
    }
}

/// The number of members of p, by way of every node held: the scratch, a word for each, then holds the sizes of all.
pub fn size(store: Record, nodes: &[u32], lookup: &[u32], p: u32, scratch: &mut [u64]) -> Measured {
    measuring(raw::zdd_size, store, [nodes, lookup], p, scratch)
}

/// The same number, by way of the parts of p alone, in scratch of two words for each different part of it, whatever else
/// the store holds. {} and {{}} need none.
pub fn size_compact(store: Record, nodes: &[u32], lookup: &[u32], p: u32, scratch: &mut [u64]) -> Measured {
    measuring(raw::zdd_size_compact, store, [nodes, lookup], p, scratch)
}

/// Whether the combination is a member of p.
pub fn has(store: Record, nodes: &[u32], lookup: &[u32], p: u32, combination: Combination) -> Asked {
    unsafe { raw::zdd_has(store, nodes.as_ptr(), nodes.len(), lookup.as_ptr(), lookup.len(), p, combination) }
}

fn weighing(
    call: raw::Weighing,
    store: Record,
    [nodes, lookup]: [&[u32]; 2],
    p: u32,
    weights: &[u32],
    scratch: &mut [u64],
) -> Weighed {
    unsafe {
        call(
            store,
            nodes.as_ptr(),
            nodes.len(),
            lookup.as_ptr(),
            lookup.len(),
            p,
            weights.as_ptr(),
            weights.len(),
            scratch.as_mut_ptr(),
            scratch.len(),
        )
    }
}

/// The sum of item weights over the members of p, added member by member; the weight of item i is `weights[i - 1]`. It
/// goes through every member.
pub fn weight_by_members(
    store: Record,
    nodes: &[u32],
    lookup: &[u32],
    p: u32,
    weights: &[u32],
    scratch: &mut [u64],
) -> Weighed {
    weighing(raw::zdd_weight_by_members, store, [nodes, lookup], p, weights, scratch)
}

/// The same sum, added node by node.
pub fn weight_by_nodes(
    store: Record,
    nodes: &[u32],
    lookup: &[u32],
    p: u32,
    weights: &[u32],
    scratch: &mut [u64],
) -> Weighed {
    weighing(raw::zdd_weight_by_nodes, store, [nodes, lookup], p, weights, scratch)
}

/// Writes the file of p to the front of the output, and gives its length.
pub fn save(store: Record, nodes: &[u32], lookup: &[u32], p: u32, scratch: &mut [u32], out: &mut [u8]) -> Saved {
    let (s, o) = (scratch.as_mut_ptr(), out.as_mut_ptr());
    unsafe {
        raw::zdd_save(
            store,
            nodes.as_ptr(),
            nodes.len(),
            lookup.as_ptr(),
            lookup.len(),
            p,
            s,
            scratch.len(),
            o,
            out.len(),
        )
    }
}

/// Reads a file and places its family.
pub fn load(store: Record, w: Words<'_>, file: &[u8], scratch: &mut [u32]) -> Placed {
    let (nodes, lookup, cache) = (w.nodes.as_mut_ptr(), w.lookup.as_mut_ptr(), w.cache.as_mut_ptr());
    let (f, s) = (file.as_ptr(), scratch.as_mut_ptr());
    unsafe {
        raw::zdd_load(
            store,
            nodes,
            w.nodes.len(),
            lookup,
            w.lookup.len(),
            cache,
            w.cache.len(),
            f,
            file.len(),
            s,
            scratch.len(),
        )
    }
}

/// Zeroes the whole cache groups and says whether the store is then sound.
pub fn audit(store: Record, nodes: &[u32], lookup: &[u32], cache: &mut [u32]) -> Audited {
    unsafe {
        raw::zdd_audit(
            store,
            nodes.as_ptr(),
            nodes.len(),
            lookup.as_ptr(),
            lookup.len(),
            cache.as_mut_ptr(),
            cache.len(),
        )
    }
}
