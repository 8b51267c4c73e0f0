//! Counts of outcomes, and disagreements.

use std::collections::BTreeMap;

/// Most disagreements that are printed.
const PRINTED: usize = 5;

/// How often each outcome came up: a kind, with a detail (which file or which walk; 0 if there is none).
pub struct Tally {
    name: &'static str,
    counts: BTreeMap<(u64, u64), usize>,
    most_count: u64,
    most_length: u64,
    disagreements: usize,
}

impl Tally {
    pub fn new(name: &'static str) -> Tally {
        Tally {
            name,
            counts: BTreeMap::new(),
            most_count: 0,
            most_length: 0,
            disagreements: 0,
        }
    }

    pub fn add(&mut self, kind: u64, detail: u64) {
        *self.counts.entry((kind, detail)).or_default() += 1;
    }

    /// Notes the count of a walk and the length of a word.
    pub fn extend(&mut self, count: u64, length: u64) {
        self.most_count = self.most_count.max(count);
        self.most_length = self.most_length.max(length);
    }

    pub fn total(&self) -> usize {
        self.counts.values().sum()
    }

    pub fn of(&self, kind: u64, detail: u64) -> usize {
        self.counts.get(&(kind, detail)).copied().unwrap_or(0)
    }

    pub fn disagreements(&self) -> usize {
        self.disagreements
    }

    /// Notes a disagreement. The first ones are printed with their inputs.
    pub fn disagree(&mut self, what: &str, inputs: &[(&str, &[u8])]) {
        self.disagreements += 1;
        if self.disagreements <= PRINTED {
            println!("{}: DISAGREEMENT: {what}", self.name);
            for (name, bytes) in inputs {
                println!("  {name} ({} bytes): {}", bytes.len(), hex(bytes));
            }
        }
    }

    /// Prints the counts. True if nothing disagreed and every required outcome came up.
    pub fn conclude(&self, required: &[(u64, u64)]) -> bool {
        println!(
            "{}: {} calls, {} disagreements",
            self.name,
            self.total(),
            self.disagreements
        );
        if self.most_count > 0 {
            println!("  largest count {}, longest word {}", self.most_count, self.most_length);
        }
        for (&(kind, detail), count) in &self.counts {
            match detail {
                0 => println!("  {kind}: {count}"),
                _ => println!("  {kind} ({detail}): {count}"),
            }
        }
        let mut complete = true;
        for &(kind, detail) in required {
            if self.of(kind, detail) == 0 {
                println!("  {kind} ({detail}) never came up: FAILED");
                complete = false;
            }
        }
        for key in self.counts.keys().filter(|key| !required.contains(key)) {
            println!("  {key:?} is no outcome of this call: FAILED");
            complete = false;
        }
        complete && self.disagreements == 0
    }
}

pub fn hex(bytes: &[u8]) -> String {
    bytes.iter().map(|byte| format!("{byte:02x}")).collect()
}
