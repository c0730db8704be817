//! The Rust's own searches, with their draws.

use super::options::Options;
use crate::states::fields::{told_numbers, StateNumbers};
use crate::states::result;
use crate::trees::Record;
use crafty::tree::Arena;
use crafty::{Action, CraftContext, CraftState, Draw, Met, Simulator};
use std::collections::HashMap;

/// Where a search ended.
pub struct Grown {
    pub actions: Vec<u8>,
    pub node: usize,
    pub state: StateNumbers,
    pub records: Vec<Record>,
    pub draws: Vec<Draw>,
}

/// How many records and draws are used.
#[derive(Clone, Copy, PartialEq, Eq, Debug)]
pub struct Mark {
    pub records: usize,
    pub draws: usize,
}

/// What the iterations of a search met, in numbers of them.
#[derive(Default)]
pub struct Tally {
    pub iterations: u64,
    pub dead_ends: u64,
    /// Those that stored a whole path, of more than one record.
    pub stored: u64,
    /// How often on the way down more than one child had the greatest score.
    pub ties: u64,
    /// How rollouts ended.
    pub rolled_out: HashMap<&'static str, u64>,
}

/// A search, and what it used and met on its way.
pub struct Run {
    pub context: CraftContext,
    pub options: Options,
    seed: u32,
    pub grown: Grown,
    /// After so many iterations.
    pub marks: Vec<Mark>,
    pub tally: Tally,
}

impl Run {
    pub fn new(context: &CraftContext, options: Options, seed: u32) -> Run {
        let grown = search(context, &options, seed);
        let (marks, tally) = watch(context, &options, seed);
        assert_eq!(marks.last(), Some(&grown.mark()), "a watched search goes another way");
        let steps = usize::from(context.step_max);
        let is_longer = |marks: &[Mark]| marks[1].draws - marks[0].draws > steps;
        assert!(!marks.windows(2).any(is_longer), "an iteration has more draws than steps");
        assert!(grown.actions.len() <= steps, "a path has more actions than steps");
        Run { context: context.clone(), options, seed, grown, marks, tally }
    }

    /// With a threshold that just the greatest score reaches which is met before a path is stored.
    pub fn at_threshold(context: &CraftContext, options: Options, seed: u32) -> Run {
        let none_stored = Options { threshold: f32::INFINITY, ..options };
        let threshold = search(context, &none_stored, seed).records[0].max_score;
        Run::new(context, Options { threshold, ..options }, seed)
    }

    /// The same with fewer iterations.
    pub fn after(&self, iterations: usize) -> Grown {
        let options = Options { iterations: iterations as u32, ..self.options };
        search(&self.context, &options, self.seed)
    }
}

impl Grown {
    fn mark(&self) -> Mark {
        Mark { records: self.records.len(), draws: self.draws.len() }
    }
}

fn search(context: &CraftContext, options: &Options, seed: u32) -> Grown {
    let (actions, state, search) = Simulator::search_logged(context, options.rust(seed));
    let tree = search.tree();
    Grown {
        node: actions.iter().fold(0, |node, action| child(tree, node, *action)),
        actions: actions.iter().map(|action| *action as u8).collect(),
        state: told_numbers(&state),
        records: tree.nodes.iter().map(Record::of).collect(),
        draws: search.draws().to_vec(),
    }
}

/// The node after an action: a node has no two children of one action.
fn child(tree: &Arena<CraftState>, node: usize, action: Action) -> usize {
    let is_after = |child: &&usize| tree.get(**child).state.action == Some(action);
    let mut children = tree.get(node).children.iter().filter(is_after);
    let child = children.next().expect("a child on the path");
    assert!(children.next().is_none(), "two children of one action");
    *child
}

fn watch(context: &CraftContext, options: &Options, seed: u32) -> (Vec<Mark>, Tally) {
    let mut search = Simulator::from_context_logged(context, options.rust(seed));
    let mut before = Mark { records: 1, draws: 0 };
    let mut marks = vec![before];
    let mut tally = Tally::default();
    for _ in 0..options.iterations {
        let met = search.watch_iteration();
        let after = Mark { records: search.tree().nodes.len(), draws: search.draws().len() };
        tally.add(&met, after.records - before.records);
        marks.push(after);
        before = after;
    }
    (marks, tally)
}

impl Tally {
    /// An iteration that stored so many records.
    fn add(&mut self, met: &Met, records: usize) {
        self.iterations += 1;
        self.ties += met.ties;
        self.stored += u64::from(records > 1);
        match met.rolled_out {
            None => self.dead_ends += 1,
            Some(_) => *self.rolled_out.entry(result::name(&met.rolled_out)).or_default() += 1,
        }
    }
}
