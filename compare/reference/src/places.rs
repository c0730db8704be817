//! The places of refusal 1 that each entry can give, by request E1: a run must meet each of them and no other.

use crate::fail;
use std::collections::BTreeMap;
use std::fmt;

const OF_SETS: &[u64] = &[0];
const OF_RECORDS: &[u64] = &[2, 3, 5, 6, 7, 8, 9, 11];
/// Also what does not fit its field.
const OF_WORDS: &[u64] = &[2, 3, 4, 5, 6, 7, 8, 9, 10, 11, 12, 13, 14];
const OF_LINES: &[u64] = &[0, 1, 2, 3, 4, 5, 6, 7, 8, 9, 10, 11, 12, 13, 14];
/// The stats, both div and mod; and of the built context targets, qualities, durability and points: factors and pool come
/// out inside.
const OF_BUILDER: &[u64] = &[1, 2, 10, 11, 12, 13, 27, 28, 29, 30, 31];

fn possible(entry: &str) -> &'static [u64] {
    match entry {
        "08 from_bits" | "10 contains" | "11 set" | "12 unset" | "13 len" | "14 is_empty"
        | "15 highest" | "16 members" | "17 keep" | "crafty_tree_new" | "crafty_tree_insert" => {
            OF_SETS
        }
        "states" | "replays" | "displays" | "CraftState::new" | "moves" | "result" | "score"
        | "step" | "replay" | "display" => OF_RECORDS,
        "crafty_replay" | "crafty_search" => OF_WORDS,
        "crafty_replay_text" => OF_LINES,
        "21 CraftContext::new" => OF_BUILDER,
        _ => &[],
    }
}

/// How often each entry gave each place.
#[derive(Default)]
pub struct Places(BTreeMap<&'static str, BTreeMap<u64, u64>>);

impl Places {
    pub fn add(&mut self, entry: &'static str, place: u64) {
        *self.0.entry(entry).or_default().entry(place).or_default() += 1;
    }

    /// Fails unless the entry gave each place that it can give so often, and no other.
    pub fn check(&self, entry: &str, least: u64) {
        let met = self.0.get(entry).cloned().unwrap_or_default();
        for place in possible(entry) {
            let times = met.get(place).copied().unwrap_or_default();
            if times < least {
                fail(format!("{entry} refused by 1 with place {place} only {times} times"));
            }
        }
        if let Some(place) = met.keys().find(|place| !possible(entry).contains(place)) {
            fail(format!("{entry} cannot refuse by 1 with place {place}, but did"));
        }
    }
}

impl fmt::Display for Places {
    fn fmt(&self, out: &mut fmt::Formatter) -> fmt::Result {
        for (entry, places) in &self.0 {
            write!(out, "{entry}, places of refusal 1:")?;
            places.iter().try_for_each(|(place, count)| write!(out, " {place} ({count})"))?;
            writeln!(out)?;
        }
        Ok(())
    }
}
