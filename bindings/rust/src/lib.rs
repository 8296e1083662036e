//! Families of combinations of the items 1 to 512, kept as zero-suppressed decision diagrams by a proved library. Each
//! store has its own item limit.
//!
//! [`Store`] owns its words and is what most programs want. [`calls`] has the same calls over lent words, with the
//! record by value, as `include/zdd.h` has them for C.
//!
//! ```
//! use zdd::{Combination, Refusal, Store};
//!
//! let mut store = Store::new(100, 64, 512)?;
//! let one = store.change(Store::BASE, 1)?;
//! let two = store.change(Store::BASE, 512)?;
//! let both = store.union(one, two)?;
//! assert_eq!((store.size(both)?, store.added(), store.record().count), (2, 1, 3));
//! assert_eq!(store.size_compact(both, &mut [0; 4])?, 2); // two words for each of its two parts
//! assert!(store.has(both, Combination::of([512])?)?);
//! assert_eq!(store.change(both, 513), Err(Refusal::Item));
//! assert_eq!((store.even(both)?, store.odd(both)?), (Store::EMPTY, both));
//!
//! let mut minutes = [0; 512];
//! (minutes[0], minutes[511]) = (25, 90);
//! assert_eq!(store.weight_by_nodes(both, &minutes)?, 115);
//! assert_eq!(store.weight_by_members(both, &minutes)?, 115);
//!
//! let mut pocket = Store::new(100, 64, 64)?;
//! assert_eq!(pocket.load(&store.save(one)?)?, pocket.change(Store::BASE, 1)?);
//! assert_eq!(pocket.load(&store.save(both)?), Err(Refusal::AboveLimit));
//! # Ok::<(), Refusal>(())
//! ```
#![warn(missing_docs)]

mod answer;
pub mod calls;
mod combination;
mod raw;
mod refusal;
mod store;

pub use answer::{Asked, Audited, Freshened, Measured, Placed, Record, Saved, Weighed};
pub use combination::Combination;
pub use refusal::Refusal;
pub use store::Store;

/// So many bytes of stack below the caller are enough for any call on any words.
pub const STACK_BYTES: usize = 131_072;
