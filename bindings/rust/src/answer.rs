//! The record and the answers as the library gives them.
use crate::Refusal;

/// The record of a store: room for so many nodes, so many held, and the largest item that they may have.
#[derive(Clone, Copy, PartialEq, Eq, Debug, Default)]
#[repr(C)]
pub struct Record {
    /// How many nodes there is room for.
    pub capacity: u32,
    /// How many nodes are held.
    pub count: u32,
    /// The largest item that a family may have, from 1 to 512.
    pub limit: u32,
}

/// What Fresh gives.
#[derive(Clone, Copy, PartialEq, Eq, Debug)]
#[repr(C)]
pub struct Freshened {
    /// The record of the empty store; all 0 where it is refused.
    pub store: Record,
    /// 0, or the number of the refusal.
    pub refusal: u32,
}

/// What a call that places a family gives.
#[derive(Clone, Copy, PartialEq, Eq, Debug)]
#[repr(C)]
pub struct Placed {
    /// The record to go on with.
    pub store: Record,
    /// 0, or the number of the refusal.
    pub refusal: u32,
    /// The handle; 0 where it is refused.
    pub handle: u32,
    /// How many nodes were added, one for each different part not held before; 0 where it is refused.
    pub added: u32,
}

/// What Size gives.
#[derive(Clone, Copy, PartialEq, Eq, Debug)]
#[repr(C)]
pub struct Measured {
    /// The record as it came.
    pub store: Record,
    /// 0, or the number of the refusal.
    pub refusal: u32,
    /// The number of members; 0 where it is refused.
    pub size: u64,
}

/// What Has gives.
#[derive(Clone, Copy, PartialEq, Eq, Debug)]
#[repr(C)]
pub struct Asked {
    /// The record as it came.
    pub store: Record,
    /// 0, or the number of the refusal.
    pub refusal: u32,
    /// Whether the combination is a member; no where it is refused.
    pub member: bool,
}

/// What a sum of weights gives.
#[derive(Clone, Copy, PartialEq, Eq, Debug)]
#[repr(C)]
pub struct Weighed {
    /// The record as it came.
    pub store: Record,
    /// 0, or the number of the refusal.
    pub refusal: u32,
    /// The sum; 0 where it is refused.
    pub sum: u64,
}

/// What Save gives.
#[derive(Clone, Copy, PartialEq, Eq, Debug)]
#[repr(C)]
pub struct Saved {
    /// The record as it came.
    pub store: Record,
    /// 0, or the number of the refusal.
    pub refusal: u32,
    /// The length of the file; 0 where it is refused.
    pub length: usize,
}

/// What Audit gives.
#[derive(Clone, Copy, PartialEq, Eq, Debug)]
#[repr(C)]
pub struct Audited {
    /// The record as it came.
    pub store: Record,
    /// Whether the store is sound with its whole cache groups zeroed.
    pub sound: bool,
}

// The value, or the refusal. A number of no refusal, which the library never gives, counts as damage.
fn told<T>(refusal: u32, value: T) -> Result<T, Refusal> {
    match refusal {
        0 => Ok(value),
        number => Err(Refusal::of(number).unwrap_or(Refusal::Damaged)),
    }
}

impl Freshened {
    /// The record, or the refusal.
    pub fn result(self) -> Result<Record, Refusal> {
        told(self.refusal, self.store)
    }
}

impl Placed {
    /// The handle, or the refusal.
    pub fn result(self) -> Result<u32, Refusal> {
        told(self.refusal, self.handle)
    }
}

impl Measured {
    /// The size, or the refusal.
    pub fn result(self) -> Result<u64, Refusal> {
        told(self.refusal, self.size)
    }
}

impl Asked {
    /// Yes or no, or the refusal.
    pub fn result(self) -> Result<bool, Refusal> {
        told(self.refusal, self.member)
    }
}

impl Weighed {
    /// The sum, or the refusal.
    pub fn result(self) -> Result<u64, Refusal> {
        told(self.refusal, self.sum)
    }
}

impl Saved {
    /// The length, or the refusal.
    pub fn result(self) -> Result<usize, Refusal> {
        told(self.refusal, self.length)
    }
}
