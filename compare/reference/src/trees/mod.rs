//! Trees over lent records: what the functions of include/crafty.h on them answer, by the Rust's own arena and by a model
//! of the scope's paper, held to what a host of the archive says.

mod answer;
mod arena;
mod bounds;
mod call;
mod damage;
mod fixed;
mod floats;
mod generate;
mod record;
mod run;
mod sequence;
mod sound;
mod ways;

pub use call::{Call, Function, FUNCTIONS};
pub use damage::{no_counts, DAMAGES};
pub use floats::{any as any_float, BELOW_ONE, LEAST, NANS};
pub use generate::Case;
pub use record::{Record, WIDTH};
pub use run::compare;
pub use sequence::{any_record, made_up};
pub use sound::{is_sound, upward};
