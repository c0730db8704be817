//! Craft states, kind 22: their line, the Rust's answers, fixed and random states, and what a run met.

mod answer;
pub mod bench;
mod count;
pub mod fields;
pub mod fixed;
mod generate;
pub mod limits;
pub mod line;
pub mod mode;
mod out_of_range;
mod own_rules;
pub mod random_context;
pub mod random_state;
pub mod result;
mod rules;
pub mod tally;

pub use answer::{answer, part};
pub use count::{count, events};
pub use fixed::states as fixed;
pub use generate::{state as random_one, states as random};
pub use line::{write, Numbers};
