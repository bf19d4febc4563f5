//! What came of the calls of one entry at one depth, and its line in the comparison.

use std::collections::BTreeMap;

/// What came of the calls of one entry at one depth.
pub struct Tally {
    pub name: &'static str,
    /// None for an entry that has no set of pixels.
    pub depth: Option<i32>,
    /// Does the answerer have the entry?
    pub there: bool,
    pub calls: u64,
    /// So many calls had an answer that differs.
    pub differences: u64,
    /// How often each number was due; 0 is done.
    pub numbers: BTreeMap<u32, u64>,
    /// How often each rare thing happened.
    pub rare: BTreeMap<&'static str, u64>,
    /// The first call that differs, in words.
    pub first: Option<String>,
    /// The numbers that the entry can give.
    pub possible: &'static [u32],
}

/// A depth as it is printed.
pub fn shown(depth: Option<i32>) -> String {
    depth.map_or("-".to_string(), |depth| depth.to_string())
}

/// Prints the heads of the columns.
pub fn print_heads() {
    println!(
        "{:<18} {:>5} {:>9} {:>9} {:>9} {:>11}  {:<18}  numbers",
        "name", "depth", "calls", "accepted", "refused", "differences", "C function"
    );
}

impl Tally {
    /// Counts one call: the number that was due, if it could be told, the rare things in it, and how its answers differ.
    pub fn count(&mut self, number: Option<u32>, rare: &[&'static str], differences: &[String], call: &str) {
        self.calls += 1;
        if let Some(number) = number {
            *self.numbers.entry(number).or_default() += 1;
        }
        for name in rare {
            *self.rare.entry(name).or_default() += 1;
        }
        if !differences.is_empty() {
            self.differences += 1;
            self.first.get_or_insert_with(|| format!("{call}\n    {}", differences.join("\n    ")));
        }
    }

    /// How many calls were accepted.
    pub fn accepted(&self) -> u64 {
        self.numbers.get(&0).copied().unwrap_or(0)
    }

    /// The numbers that were due though the entry can't give them, or never due though it can.
    pub fn astray(&self) -> Vec<u32> {
        let given = |number: &u32| self.numbers.contains_key(number);
        let never = self.possible.iter().filter(|number| self.calls >= 1000 && !given(number));
        let extra = self.numbers.keys().filter(|number| **number != 0 && !self.possible.contains(number));
        never.chain(extra).copied().collect()
    }

    /// One aligned line: name, depth, calls, accepted, refused, differences, then each number with its count.
    fn line(&self) -> String {
        let depth = shown(self.depth);
        let refusals = self.numbers.iter().filter(|(number, _)| **number != 0);
        let counts: Vec<String> = refusals.map(|(number, count)| format!("{number}:{count}")).collect();
        let (accepted, refused) = (self.accepted(), self.calls - self.accepted());
        let (name, calls, differences) = (self.name, self.calls, self.differences);
        let there = if self.there { "compared" } else { "not in the archive" };
        let counts = counts.join(" ");
        format!("{name:<18} {depth:>5} {calls:>9} {accepted:>9} {refused:>9} {differences:>11}  {there:<18}  {counts}")
    }

    /// Prints the line, the rare things, and what went wrong.
    pub fn print(&self) {
        println!("{}", self.line());
        for (name, count) in &self.rare {
            println!("  {name}: {count} calls");
        }
        if let Some(first) = &self.first {
            println!("  first difference: {first}");
        }
        for number in self.astray() {
            println!("  number {number}: due though it can't be, or never due");
        }
    }
}
