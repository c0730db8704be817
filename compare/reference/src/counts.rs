//! What the questions of a run met: how each entry answered, with which place where it gave refusal 1, and what else is
//! counted by a name.

use crate::places::Places;
use std::collections::BTreeMap;
use std::fmt;

/// One more than the greatest number of a refusal.
const NUMBERS: usize = 22;

#[derive(Default)]
pub struct Counts {
    /// Of each entry how often it gave each refusal; at 0 how often it answered.
    entries: BTreeMap<&'static str, [u64; NUMBERS]>,
    places: Places,
    others: BTreeMap<String, u64>,
}

impl Counts {
    /// By a refusal's number, or 0, and by the value that came back.
    pub fn answered(&mut self, entry: &'static str, number: u64, value: u64) {
        self.entries.entry(entry).or_default()[number as usize] += 1;
        if number == 1 {
            self.places.add(entry, value);
        }
    }

    /// Fails unless each entry asked gave each of its places so often, and no other.
    pub fn check_places(&self, least: u64) {
        self.entries.keys().for_each(|entry| self.places.check(entry, least));
    }

    pub fn met(&mut self, what: &str) {
        self.met_times(what, 1);
    }

    pub fn met_times(&mut self, what: &str, times: u64) {
        *self.others.entry(what.to_string()).or_default() += times;
    }

    /// Those counted by a name.
    pub fn others(&self) -> impl Iterator<Item = (&str, u64)> {
        self.others.iter().map(|(what, count)| (what.as_str(), *count))
    }

    pub fn of(&self, entry: &'static str) -> [u64; NUMBERS] {
        self.entries.get(entry).copied().unwrap_or_default()
    }
}

impl fmt::Display for Counts {
    fn fmt(&self, out: &mut fmt::Formatter) -> fmt::Result {
        for (entry, counts) in &self.entries {
            let asked: u64 = counts.iter().sum();
            write!(out, "{entry}: {asked} asked, {} answered", counts[0])?;
            let refusals = counts.iter().enumerate().skip(1).filter(|(_, count)| **count > 0);
            for (number, count) in refusals {
                write!(out, ", refused {number}: {count}")?;
            }
            writeln!(out)?;
        }
        write!(out, "{}", self.places)?;
        self.others.iter().try_for_each(|(what, count)| writeln!(out, "{count:>10} {what}"))?;
        match self.others.iter().min_by_key(|(_, count)| **count) {
            Some((what, count)) => writeln!(out, "least: {count} {what}"),
            None => Ok(()),
        }
    }
}
