//! 'Families and their parts', the six operations of 'Calls', Even and Odd, sums of weights.
use std::collections::BTreeSet;

/// A set of items.
pub type Combination = BTreeSet<u32>;
/// A set of combinations.
pub type Family = BTreeSet<Combination>;

/// {}
pub fn empty() -> Family {
    Family::new()
}

/// {{}}
pub fn base() -> Family {
    Family::from([Combination::new()])
}

/// The largest item in any of its members; 0 where there is none.
pub fn top(f: &Family) -> u32 {
    f.iter().filter_map(|c| c.last().copied()).max().unwrap_or(0)
}

fn without(c: &Combination, v: u32) -> Combination {
    c.iter().copied().filter(|i| *i != v).collect()
}

fn with(c: &Combination, v: u32) -> Combination {
    c.iter().copied().chain([v]).collect()
}

/// Members with v, v taken out.
pub fn subset1(f: &Family, v: u32) -> Family {
    f.iter().filter(|c| c.contains(&v)).map(|c| without(c, v)).collect()
}

/// Members without v.
pub fn subset0(f: &Family, v: u32) -> Family {
    f.iter().filter(|c| !c.contains(&v)).cloned().collect()
}

/// v is put in where absent and taken out where present.
pub fn change(f: &Family, v: u32) -> Family {
    f.iter().map(|c| if c.contains(&v) { without(c, v) } else { with(c, v) }).collect()
}

/// One side's members, together with the other's, each with the item added.
pub fn joined(item: u32, zero: &Family, one: &Family) -> Family {
    zero.iter().cloned().chain(one.iter().map(|c| with(c, item))).collect()
}

/// Members with an even number of items, or with an odd one.
pub fn of_parity(even: bool, f: &Family) -> Family {
    f.iter().filter(|c| (c.len() % 2 == 0) == even).cloned().collect()
}

/// The family that an operation names: 1 Subset1, 2 Subset0, 3 Change with an item; 4 Union, 5 Intsec, 6 Diff with a
/// second family; 7 Even, 8 Odd.
pub fn named(op: u32, p: &Family, item: u32, q: &Family) -> Family {
    match op {
        1 => subset1(p, item),
        2 => subset0(p, item),
        3 => change(p, item),
        4 => p.union(q).cloned().collect(),
        5 => p.intersection(q).cloned().collect(),
        6 => p.difference(q).cloned().collect(),
        _ => of_parity(op == 7, p),
    }
}

/// The sum of item weights over every member; the weight of item i stands at i - 1.
pub fn sum_of_weights(f: &Family, weights: &[u32]) -> u128 {
    f.iter().flatten().map(|item| u128::from(weights[*item as usize - 1])).sum()
}

/// The parts in visiting order: those of the without-side, those of the with-side, then the family itself.
pub fn parts(f: &Family) -> Vec<Family> {
    let t = top(f);
    if t == 0 {
        return Vec::new();
    }
    let mut all = parts(&subset0(f, t));
    all.extend(parts(&subset1(f, t)));
    all.push(f.clone());
    all
}
