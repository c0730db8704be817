//! Bad input: random and damaged inputs to every public entry, most of which are refused. An answer is held to the same
//! as that of a good input, and every refusal that an entry can give must be met.

mod bytes;
mod cases;
mod crafts;
mod numbers;
mod possible;
mod texts;
mod trees;

pub use cases::compare as compare_cases;
pub use crafts::compare as compare_crafts;
pub use texts::compare as compare_texts;
pub use trees::compare as compare_trees;

use crate::random::Random;

/// Other runs of numbers than those of the good inputs, whose numbers stay below them.
const FIRST: u64 = 1 << 30;

/// Inputs by their number in a run; the kinds of input take turns.
fn inputs<K: Copy + Sync + 'static, T>(
    seed: u64,
    count: u64,
    kinds: &'static [K],
    input: fn(&mut Random, K) -> T,
) -> impl Iterator<Item = T> + Send {
    let numbers = FIRST..FIRST + count;
    let kinds = kinds.iter().copied().cycle();
    numbers.zip(kinds).map(move |(number, kind)| input(&mut Random::numbered(seed, number), kind))
}
