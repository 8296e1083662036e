//! The refusals, by the numbers of documents 01 and 02.
use std::error::Error;
use std::fmt;

/// Why a call is refused.
#[derive(Clone, Copy, PartialEq, Eq, PartialOrd, Ord, Hash, Debug)]
#[repr(u32)]
pub enum Refusal {
    /// Fresh: fewer than 3 node words.
    Tiny = 1,
    /// Fresh: lookup length at most the capacity.
    ShortLookup = 2,
    /// Item 0 or above the store's limit; Fresh: limit 0 or above 512.
    Item = 3,
    /// A handle above count + 1.
    Handle = 4,
    /// The result's parts not yet held outnumber capacity - count.
    Full = 5,
    /// Size or sum above 18,446,744,073,709,551,615.
    Large = 6,
    /// Scratch shorter than stated.
    Scratch = 7,
    /// Output shorter than the file.
    Output = 8,
    /// The bytes are the file of no family.
    NoFile = 9,
    /// The record does not fit the words, or the words are those of no sound store.
    Damaged = 10,
    /// A list of weights that is not 512 long.
    Weights = 11,
    /// Load: a good file holds an item above this store's limit.
    AboveLimit = 13,
}

impl Refusal {
    /// The number of the refusal.
    pub fn number(self) -> u32 {
        self as u32
    }

    /// The refusal of a number, where there is one.
    pub fn of(number: u32) -> Option<Refusal> {
        use Refusal::*;
        let all = [Tiny, ShortLookup, Item, Handle, Full, Large, Scratch, Output, NoFile, Damaged, Weights, AboveLimit];
        all.into_iter().find(|refusal| refusal.number() == number)
    }
}

impl fmt::Display for Refusal {
    fn fmt(&self, f: &mut fmt::Formatter<'_>) -> fmt::Result {
        let word = match self {
            Refusal::Tiny => "tiny",
            Refusal::ShortLookup => "short lookup",
            Refusal::Item => "item",
            Refusal::Handle => "handle",
            Refusal::Full => "full",
            Refusal::Large => "large",
            Refusal::Scratch => "scratch",
            Refusal::Output => "output",
            Refusal::NoFile => "no file",
            Refusal::Damaged => "damaged",
            Refusal::Weights => "weights",
            Refusal::AboveLimit => "above limit",
        };
        write!(f, "refused with {}: {word}", self.number())
    }
}

impl Error for Refusal {}
