//! What was found amiss: each sort once, with how often it came and its smallest case.

use std::collections::BTreeMap;

#[derive(Default)]
pub struct Findings {
    found: BTreeMap<String, Found>,
}

pub struct Found {
    pub count: u64,
    pub size: usize,
    pub example: String,
}

impl Findings {
    /// Notes a case of the sort `what`, whose size says how simple it is.
    pub fn note(&mut self, what: impl Into<String>, size: usize, example: impl FnOnce() -> String) {
        let found = self.found.entry(what.into()).or_insert(Found { count: 0, size: usize::MAX, example: String::new() });
        found.count += 1;
        if size < found.size {
            found.size = size;
            found.example = example();
        }
    }

    /// Notes a class of cases that never came, and so was not tried.
    pub fn need(&mut self, class: &str, count: u64) {
        if count == 0 {
            self.note(format!("never met: {class}"), 0, String::new);
        }
    }

    /// Takes in what was found elsewhere.
    pub fn add(&mut self, other: Findings) {
        for (what, found) in other.found {
            let own = self.found.entry(what).or_insert(Found { count: 0, size: usize::MAX, example: String::new() });
            own.count += found.count;
            if found.size < own.size {
                own.size = found.size;
                own.example = found.example;
            }
        }
    }

    pub fn is_empty(&self) -> bool {
        self.found.is_empty()
    }

    pub fn iter(&self) -> impl Iterator<Item = (&str, &Found)> {
        self.found.iter().map(|(what, found)| (what.as_str(), found))
    }

    /// Prints them as failures.
    pub fn print(&self) {
        for (what, found) in self.iter() {
            println!("- **{what}**: {} times, smallest: {}", found.count, found.example);
        }
    }
}
