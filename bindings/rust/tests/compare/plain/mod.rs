//! Documents 01 and 02 once more, in plain Rust: sets of sets, a list of families, words and bytes worked out from them.
//! No diagram, no cache, no recursion on nodes. Only what they say; slow, and meant to be read beside them.
pub mod book;
pub mod call;
pub mod family;
pub mod file;
pub mod sound;
pub mod words;
