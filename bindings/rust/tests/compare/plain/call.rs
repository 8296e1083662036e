//! 'Calls' and 'Numbers and trade words': the answer of each call, worked out from the book.
use super::book::{different_parts, Book};
use super::family::{named, sum_of_weights, top, Combination, Family};
use super::file::{family_of, file_of};

/// What Fresh made of its arguments: room for so many nodes, and the largest item.
#[derive(Clone, Copy)]
pub struct Opening {
    pub capacity: u32,
    pub limit: u32,
}

/// A call with its arguments; scratch and output by their lengths. An operation is as in the cache, by its number: q is an
/// item or a handle, and 0 for Even and Odd, which do not take it. Both sums of weights are one call, by nodes or by members.
#[derive(Clone, Debug)]
pub enum Call {
    Operation { op: u32, p: u32, q: u32 },
    Size { p: u32, scratch: usize },
    SizeCompact { p: u32, scratch: usize },
    Has { p: u32, combination: Combination },
    Weight { by_nodes: bool, p: u32, weights: Vec<u32>, scratch: usize },
    Save { p: u32, scratch: usize, out: usize },
    Load { file: Vec<u8>, scratch: usize },
    Audit,
}

/// All that a call gives but the record.
#[derive(Clone, PartialEq, Eq, Debug, Default)]
pub struct Answer {
    pub refusal: u32,
    pub handle: u32,
    pub added: u32,
    pub size: u64,
    pub sum: u64,
    pub yes: bool,
    pub length: usize,
    pub file: Vec<u8>,
}

// The operations by their numbers.
const NAMES: [&str; 9] = ["", "Subset1", "Subset0", "Change", "Union", "Intsec", "Diff", "Even", "Odd"];

fn refused(refusal: u32) -> Answer {
    Answer { refusal, ..Answer::default() }
}

impl Call {
    /// The name, for the tally.
    pub fn name(&self) -> &'static str {
        match self {
            Call::Operation { op, .. } => NAMES[*op as usize],
            Call::Size { .. } => "Size",
            Call::SizeCompact { .. } => "Size compact",
            Call::Has { .. } => "Has",
            Call::Weight { by_nodes: false, .. } => "Weights by members",
            Call::Weight { by_nodes: true, .. } => "Weights by nodes",
            Call::Save { .. } => "Save",
            Call::Load { .. } => "Load",
            Call::Audit => "Audit",
        }
    }

    /// Whether it places a family.
    pub fn places(&self) -> bool {
        matches!(self, Call::Operation { .. } | Call::Load { .. })
    }
}

impl Book {
    /// The answer to a call in a store so opened; the book then is the one after the call.
    pub fn answer(&mut self, opening: Opening, call: &Call) -> Answer {
        let held = self.count() as usize;
        match call {
            Call::Operation { op, p, q } => self.operation(opening, *op, *p, *q),
            Call::Load { file, scratch } => self.load(opening, file, *scratch),
            Call::Audit => Answer { yes: true, ..Answer::default() },
            Call::Has { p, combination } => match self.at(*p) {
                None => refused(4),
                Some(f) => Answer { yes: f.contains(combination), ..Answer::default() },
            },
            Call::Size { p, scratch } => match self.at(*p) {
                None => refused(4),
                Some(_) if *scratch < held => refused(7),
                Some(f) => measured(f),
            },
            Call::SizeCompact { p, scratch } => match self.at(*p) {
                None => refused(4),
                Some(f) if *scratch < 2 * different_parts(f) => refused(7),
                Some(f) => measured(f),
            },
            Call::Weight { p, weights, scratch, .. } => match self.at(*p) {
                None => refused(4),
                Some(_) if weights.len() != 512 => refused(11),
                Some(_) if *scratch < 3 * held => refused(7),
                Some(f) => weighed(sum_of_weights(f, weights)),
            },
            Call::Save { p, scratch, out } => match self.at(*p) {
                None => refused(4),
                Some(_) if *scratch < held => refused(7),
                Some(f) => saved(file_of(f), *out),
            },
        }
    }

    fn operation(&mut self, opening: Opening, op: u32, p: u32, q: u32) -> Answer {
        let Some(first) = self.at(p) else { return refused(4) };
        let f = match (op, self.at(q)) {
            (1..=3, _) if q == 0 || q > opening.limit => return refused(3),
            (4..=6, None) => return refused(4),
            (4..=6, Some(second)) => named(op, first, 0, second),
            _ => named(op, first, q, &Family::new()),
        };
        self.placed(opening.capacity, &f)
    }

    fn load(&mut self, opening: Opening, file: &[u8], scratch: usize) -> Answer {
        if scratch < 6 * file.len() {
            return refused(7);
        }
        match family_of(file) {
            None => refused(9),
            Some(f) if top(&f) > opening.limit => refused(13),
            Some(f) => self.placed(opening.capacity, &f),
        }
    }

    fn placed(&mut self, capacity: u32, f: &Family) -> Answer {
        let added = self.missing(f);
        if added > capacity - self.count() {
            return refused(5);
        }
        Answer { handle: self.place(f), added, ..Answer::default() }
    }
}

/// The answer of either entry of Size, where the members can be listed.
fn measured(f: &Family) -> Answer {
    Answer { size: f.len() as u64, ..Answer::default() }
}

/// The answer of either sum of weights, by the true sum.
pub fn weighed(sum: u128) -> Answer {
    u64::try_from(sum).map_or(refused(6), |sum| Answer { sum, ..Answer::default() })
}

fn saved(file: Vec<u8>, out: usize) -> Answer {
    if out < file.len() {
        return refused(8);
    }
    Answer { length: file.len(), file, ..Answer::default() }
}
