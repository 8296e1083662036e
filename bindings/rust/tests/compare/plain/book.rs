//! The book: a list of families numbered from 0, at first {} and {{}}.
use super::family::{base, empty, parts, Family};
use std::collections::{BTreeSet, HashMap};

/// The families in the order of their numbers, and the number of each.
#[derive(Clone)]
pub struct Book {
    families: Vec<Family>,
    numbers: HashMap<Family, u32>,
}

/// How many different parts a family has.
pub fn different_parts(f: &Family) -> usize {
    Book::start().missing(f) as usize
}

impl Book {
    /// {} and {{}}.
    pub fn start() -> Book {
        let mut book = Book { families: Vec::new(), numbers: HashMap::new() };
        book.add(empty());
        book.add(base());
        book
    }

    /// A book of so many families from number 2 on, for calls whose handles are to be about that number.
    pub fn with_count(count: u32) -> Book {
        let mut book = Book::start();
        (1..=count).for_each(|item| book.add(Family::from([[item].into()])));
        book
    }

    /// A family at the end.
    pub fn add(&mut self, f: Family) {
        self.numbers.insert(f.clone(), self.families.len() as u32);
        self.families.push(f);
    }

    /// Its length less 2.
    pub fn count(&self) -> u32 {
        self.families.len() as u32 - 2
    }

    /// The number of a family that is held.
    pub fn number(&self, f: &Family) -> Option<u32> {
        self.numbers.get(f).copied()
    }

    /// The family of a number, where there is one.
    pub fn at(&self, handle: u32) -> Option<&Family> {
        self.families.get(handle as usize)
    }

    /// The families from number 2 on.
    pub fn nodes(&self) -> &[Family] {
        &self.families[2..]
    }

    /// How many different parts are not yet held.
    pub fn missing(&self, f: &Family) -> u32 {
        parts(f).into_iter().filter(|part| self.number(part).is_none()).collect::<BTreeSet<_>>().len() as u32
    }

    /// Puts each part not yet held at the end, in visiting order; gives the family's number.
    pub fn place(&mut self, f: &Family) -> u32 {
        for part in parts(f) {
            if self.number(&part).is_none() {
                self.add(part);
            }
        }
        self.numbers[f]
    }
}
