//! Display lines of states, kind 24: their line, the Rust's answers, fixed and random ones, and what a run met.

mod answer;
mod count;
mod fixed;
mod generate;
mod line;

pub use answer::answer;
pub use count::{count, events};
pub use fixed::displays as fixed;
pub use generate::displays as random;
pub use line::{with_room, write, ROOM_MOST};
