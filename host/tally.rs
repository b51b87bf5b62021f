//! What a comparison has reached, in words, beside what it must reach: for causes.rs, turns.rs, picks.rs, losses.rs, formulas.rs,
//! move_reached.rs, bound_reached.rs, bounds.rs and held.rs.

use std::collections::BTreeMap;

/// Lines of words, and how often each was met.
#[derive(Default)]
pub struct Lines {
    counts: BTreeMap<String, u64>,
}

impl Lines {
    pub fn count(&mut self, line: String) {
        *self.counts.entry(line).or_default() += 1;
    }

    /// How often a line was met.
    #[allow(dead_code)] // causes.rs and bounds.rs tell some counts by name.
    pub fn times(&self, line: &str) -> u64 {
        self.counts.get(line).copied().unwrap_or_default()
    }

    /// How many kinds there were, and of which there was least.
    pub fn print(&self, name: &str, wanted: &[String]) {
        print!("{name}: {} of {} kinds", self.counts.len(), wanted.len());
        match self.counts.iter().min_by_key(|&(_, count)| count) {
            Some((line, count)) => println!("; least often, {count} times: {line}"),
            None => println!(),
        }
    }

    /// Prints, and answers whether no line but those that are wanted was met, and every one of them if it is asked for.
    pub fn are_right(&self, name: &str, wanted: &[String], all: impl FnOnce() -> bool) -> Result<(), String> {
        self.print(name, wanted);
        self.are_possible(wanted)?;
        if all() {
            self.are_all(wanted)?;
        }
        Ok(())
    }

    /// No line but those that are wanted.
    pub fn are_possible(&self, wanted: &[String]) -> Result<(), String> {
        match self.counts.keys().find(|line| !wanted.contains(line)) {
            Some(line) => Err(format!("IMPOSSIBLE, yet reached: {line}")),
            None => Ok(()),
        }
    }

    /// Every line that is wanted.
    pub fn are_all(&self, wanted: &[String]) -> Result<(), String> {
        match wanted.iter().find(|line| !self.counts.contains_key(*line)) {
            Some(line) => Err(format!("NOT REACHED: {line}")),
            None => Ok(()),
        }
    }
}

/// The lines that are so.
pub fn chosen(lines: &[(bool, &str)]) -> Vec<String> {
    lines.iter().filter(|&(is_so, _)| *is_so).map(|(_, line)| line.to_string()).collect()
}

/// Classes of sizes: the name and the largest number in it.
pub type Sizes<const N: usize> = [(&'static str, u64); N];

pub fn class(sizes: &[(&str, u64)], size: u64) -> usize {
    sizes.iter().position(|&(_, largest)| size <= largest).expect("no size is above the largest")
}
