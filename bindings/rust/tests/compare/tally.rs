//! How often each call was compared, by the refusal that it gave.
use std::collections::BTreeMap;

#[derive(Default)]
pub struct Tally {
    counts: BTreeMap<(&'static str, u32), u64>,
}

impl Tally {
    pub fn add(&mut self, call: &'static str, refusal: u32) {
        *self.counts.entry((call, refusal)).or_default() += 1;
    }

    pub fn of(&self, call: &'static str, refusal: u32) -> u64 {
        self.counts.get(&(call, refusal)).copied().unwrap_or(0)
    }

    /// Prints a line for each call, and sees that each of these outcomes came at least so often.
    pub fn close(&self, title: &str, least: u64, wanted: &[(&'static str, &[u32])]) {
        let mut lines: BTreeMap<&str, (u64, Vec<String>)> = BTreeMap::new();
        for ((call, refusal), n) in &self.counts {
            let line = lines.entry(call).or_default();
            line.0 += n;
            line.1.push(if *refusal == 0 { format!("not refused {n}") } else { format!("{refusal}: {n}") });
        }
        let all: u64 = self.counts.values().sum();
        let each = lines.into_iter().map(|(call, (n, by))| format!("\n    {call} {n} ({})", by.join(", ")));
        println!("{title}: {all} calls compared{}", each.collect::<String>());
        for (call, refusals) in wanted {
            for refusal in *refusals {
                assert!(
                    self.of(call, *refusal) >= least,
                    "{title}: {call} gave {refusal} only {} times",
                    self.of(call, *refusal)
                );
            }
        }
    }
}

/// Every outcome that a list of calls on a sound store can have, 6 aside.
pub const OUTCOMES: &[(&str, &[u32])] = &[
    ("Subset1", &[0, 3, 4, 5]),
    ("Subset0", &[0, 3, 4, 5]),
    ("Change", &[0, 3, 4, 5]),
    ("Union", &[0, 4, 5]),
    ("Intsec", &[0, 4, 5]),
    ("Diff", &[0, 4, 5]),
    ("Even", &[0, 4, 5]),
    ("Odd", &[0, 4, 5]),
    ("Size", &[0, 4, 7]),
    ("Size compact", &[0, 4, 7]),
    ("Has", &[0, 4]),
    ("Weights by members", &[0, 4, 7, 11]),
    ("Weights by nodes", &[0, 4, 7, 11]),
    ("Save", &[0, 4, 7, 8]),
    ("Load", &[0, 5, 7, 9, 13]),
    ("Audit", &[0]),
];
