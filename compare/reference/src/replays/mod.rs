//! Replays of lists, kind 23: their line, the Rust's answers, fixed and random replays, and what a run met.

mod answer;
mod count;
mod fixed;
mod generate;
mod line;
mod random_list;
pub mod report;

pub use answer::{answer, PARTS};
pub use count::{count, events};
pub use fixed::replays as fixed;
pub use generate::{replay as random_one, replays as random};
pub use line::{write, Replay, LIST_MOST, UNKNOWN_MOST};
