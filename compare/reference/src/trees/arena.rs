//! The Rust's own tree with the nodes of given records, sound ones.

use super::record::Record;
use crate::states::bench::bench;
use crate::states::fields::set;
use crafty::{Action, CraftContext, Simulator};
use std::sync::LazyLock;

static CONTEXT: LazyLock<CraftContext> = LazyLock::new(bench);

pub struct Tree(Simulator<'static>);

impl Tree {
    /// Of a root alone, as the Rust starts one.
    pub fn new(unused: u32) -> Tree {
        Tree(Simulator::of_root(&CONTEXT, set(unused)))
    }

    pub fn of(records: &[Record]) -> Tree {
        let mut tree = Tree::new(records[0].unused);
        for (node, record) in records.iter().enumerate() {
            if node > 0 {
                tree.insert(record.parent as usize, record.action, record.unused);
            }
            let state = &mut tree.0.tree_mut().get_mut(node).state;
            state.visits = record.visits;
            state.score_sum = record.score_sum;
            state.max_score = record.max_score;
        }
        tree
    }

    pub fn records(&self) -> Vec<Record> {
        self.0.tree().nodes.iter().map(Record::of).collect()
    }

    pub fn insert(&mut self, parent: usize, action: u8, unused: u32) -> usize {
        self.0.insert_action(parent, Action::ACTIONS[usize::from(action)], set(unused))
    }

    pub fn children(&self, node: usize) -> Vec<usize> {
        self.0.tree().get(node).children.clone()
    }

    pub fn backpropagate(&mut self, start: usize, target: usize, score: f32) {
        self.0.backpropagate_score(start, target, score);
    }

    pub fn solution(&self) -> (Vec<u8>, usize) {
        let (actions, node) = self.0.solution_node();
        (actions.into_iter().map(|action| action as u8).collect(), node)
    }
}
