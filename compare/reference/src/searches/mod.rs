//! Searches on lent draws and logarithms: what `crafty_search` answers, by the Rust's own search, whose draws are logged, and
//! by a model of request E7's refusals, held to what a host of the archive says.

mod answer;
mod call;
mod contexts;
mod early;
mod fixed;
mod generate;
mod later;
mod logarithms;
mod options;
mod run;
mod rust;

pub use run::compare;
