//! A combination as sixteen words.
use crate::Refusal;

/// A set of items from 1 to 512: item i is bit (i - 1) modulo 32 of word (i - 1) / 32.
#[derive(Clone, Copy, PartialEq, Eq, Hash, Debug, Default)]
#[repr(C)]
pub struct Combination {
    /// The sixteen words.
    pub words: [u32; 16],
}

impl Combination {
    /// The combination of these items, in any order; `Item` where one is 0 or above 512.
    pub fn of(items: impl IntoIterator<Item = u32>) -> Result<Combination, Refusal> {
        let mut combination = Combination::default();
        for item in items {
            if !(1..=512).contains(&item) {
                return Err(Refusal::Item);
            }
            combination.words[(item as usize - 1) / 32] |= 1 << ((item - 1) % 32);
        }
        Ok(combination)
    }
}
