//! 'The store': the words of a book.
use super::book::Book;
use super::family::{subset0, subset1, top, Family};

/// Node words divided by 3, rounded down, and at most 1,000,000.
pub fn capacity_of(node_words: usize) -> u32 {
    (node_words / 3).min(1_000_000) as u32
}

/// Item, zero child and one child of a family whose sides are held.
pub fn triple(book: &Book, f: &Family) -> [u32; 3] {
    let item = top(f);
    let side = |g: Family| book.number(&g).expect("a side is held");
    [item, side(subset0(f, item)), side(subset1(f, item))]
}

/// The words of all families from number 2 on.
pub fn node_words(book: &Book) -> Vec<u32> {
    book.nodes().iter().flat_map(|f| triple(book, f)).collect()
}

fn start_slot(words: &[u32], slots: usize) -> usize {
    let mix = words[0].wrapping_mul(40_503) % 65_536;
    let inner = words[1].wrapping_add(65_599u32.wrapping_mul(words[2]));
    mix.wrapping_add(65_599u32.wrapping_mul(inner)) as usize % slots
}

/// What entering the nodes in rising number gives.
pub fn entered(nodes: &[u32], slots: usize) -> Vec<u32> {
    let mut lookup = vec![0; slots];
    for (k, words) in nodes.chunks_exact(3).enumerate() {
        let start = start_slot(words, slots);
        let free = (0..slots).map(|step| (start + step) % slots).find(|slot| lookup[*slot] == 0);
        lookup[free.expect("an empty slot")] = k as u32 + 2;
    }
    lookup
}
