//! The search: a good list for a craft, by a tree that grows in records that the caller lends. Chance is lent too, as draws,
//! and so is the table of logarithms: the same call gives the same answer.
//!
//! ```
//! use brothlantern::search::{logarithms, search, SearchOptions};
//! use brothlantern::{replay, tree::Node, Context, Mode};
//!
//! let context = Context {
//!     player_job_level: 50,
//!     recipe_job_level: 50,
//!     base_progress_factor: 100,
//!     base_quality_factor: 100,
//!     step_max: 8,
//!     progress_target: 200,
//!     starting_quality: 0,
//!     quality_target: 0,
//!     durability_max: 40,
//!     cp_max: 100,
//!     is_expert: false,
//!     action_pool: 0b10_0001,
//!     player_is_specialist: false,
//!     use_manipulation: false,
//!     use_delineation: false,
//! };
//! let options = SearchOptions { iterations: 20, ..SearchOptions::default() };
//! // here no iteration tries more than step_max actions, with a draw and at most one record for each
//! let draws = [0; 20 * 8];
//! let mut nodes = [Node::default(); 1 + 20 * 8];
//! let mut actions = [0; 8];
//! let found = search(&context, &options, &logarithms(), &draws, &mut nodes, &mut actions).unwrap();
//!
//! let list = &actions[..found.path];
//! assert_eq!(list, [0, 0]);
//! assert_eq!(replay(&context, Mode::Plain, list).unwrap().state, found.state);
//! ```

use crate::archive;
use crate::report::State;
use crate::tree::Node;
use crate::{Context, Refusal};
use std::error::Error;
use std::fmt;

/// How many logarithms a search reads: as many as there may be visits.
pub const LOGARITHMS: usize = 4_096;

/// What is asked of a search. None of the floats is a NaN, and minus zero counts as 0.
#[derive(Clone, Copy, Debug, PartialEq)]
pub struct SearchOptions {
    /// At most 4,096.
    pub iterations: u32,
    /// From this score on the whole path of a finished rollout is stored, if it is also at least record 0's max_score, which
    /// starts at 0. No score reaches 1.
    pub score_storage_threshold: f32,
    /// What a record's greatest score counts beside its average, from 0 to 1.
    pub max_score_weighting_constant: f32,
    /// The higher, the more less promising records are explored; from 0 to 16.
    pub exploration_constant: f32,
}

/// As many iterations as there may be, and a threshold that keeps every finished rollout as good as the best so far.
impl Default for SearchOptions {
    fn default() -> SearchOptions {
        SearchOptions {
            iterations: LOGARITHMS as u32,
            score_storage_threshold: 0.0,
            max_score_weighting_constant: 0.1,
            exploration_constant: 1.5,
        }
    }
}

/// How far a search came.
#[derive(Clone, Copy, Debug, Default, PartialEq, Eq)]
pub struct Progress {
    pub iterations: u32,
    /// How many records the tree has: its count for the functions of [`tree`](crate::tree).
    pub records: usize,
    /// How many draws were used, from the first on.
    pub draws: usize,
}

/// What a search found.
#[derive(Clone, Copy, Debug, PartialEq, Eq)]
pub struct Found {
    pub progress: Progress,
    /// How many actions were written. A plain replay executes them all.
    pub path: usize,
    /// The last node.
    pub node: usize,
    /// The state there.
    pub state: State,
}

/// A search that was refused. The iterations that it did stand: the tree is theirs.
#[derive(Clone, Copy, Debug, PartialEq, Eq)]
pub struct Stopped {
    pub refusal: Refusal,
    pub progress: Progress,
}

impl fmt::Display for Stopped {
    fn fmt(&self, out: &mut fmt::Formatter) -> fmt::Result {
        write!(out, "{}, after {} iterations", self.refusal, self.progress.iterations)
    }
}

impl Error for Stopped {
    fn source(&self) -> Option<&(dyn Error + 'static)> {
        Some(&self.refusal)
    }
}

/// The table of logarithms: number v - 1 is that of v visits.
pub fn logarithms() -> [f32; LOGARITHMS] {
    std::array::from_fn(|place| (place as f32 + 1.0).ln())
}

/// Plants a new tree in `nodes`, grows it by so many iterations, and writes the actions of its
/// [`solution`](crate::tree::solution) into `out`.
///
/// A draw n picks, of the moves that are left, the one with n of them above it: 0 is the highest. It is below their number.
///
/// Refused by 1 (the place of the first field outside), 21 and 6 (1 record is needed), and then nothing is written. Then an
/// iteration is refused by 19, 20, and 6 where the records don't suffice for all that it stores: it stores nothing and its
/// draws are not used, but those before it stand. Last by 6 where the path has no room. A refusal writes no path.
pub fn search(
    context: &Context,
    options: &SearchOptions,
    logs: &[f32],
    draws: &[u8],
    nodes: &mut [Node],
    out: &mut [u8],
) -> Result<Found, Stopped> {
    let said = archive::search(nodes, logs, draws, out, context.fields(), options);
    let archive::Found { iterations, records, draws, path, node, .. } = said;
    let progress = Progress { iterations, records, draws };
    match said.refusal() {
        Some(refusal) => Err(Stopped { refusal, progress }),
        None => Ok(Found { progress, path, node, state: State::from_numbers(&said.state) }),
    }
}
