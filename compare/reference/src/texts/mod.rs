//! Whole crafts as text and numbers: what the functions of include/crafty.h answer, by the Rust and by a model of the
//! scope's paper, held to what a host of the archive says.

mod answer;
mod call;
mod damage;
mod fixed;
mod generate;
mod input;
mod lists;
mod output;
mod run;
mod timing;

pub use call::{Call, Function};
pub use damage::{damage as damage_text, EDGES};
pub use generate::{in_room, list_of, text_of, words_of, Case};
pub use input::context as checked_context;
pub use lists::INPUT_MOST;
pub use run::compare;
