//! Stands in for the crate root that is not given: takes in the given files unchanged, from the
//! folder that CRAFTY_SRC names, and sets a probe beside a file where something private is read.

#[allow(warnings)]
pub mod action {
    include!(concat!(env!("CRAFTY_SRC"), "/crafty/src/action.rs"));
}

#[allow(warnings)]
pub mod action_set {
    include!(concat!(env!("CRAFTY_SRC"), "/crafty/src/action_set.rs"));

    impl ActionSet {
        pub fn bits(&self) -> u32 {
            self.0
        }
    }
}

#[allow(warnings)]
pub mod craft_context {
    include!(concat!(env!("CRAFTY_SRC"), "/crafty/src/craft_context.rs"));
}

#[allow(warnings)]
pub mod craft_state {
    include!(concat!(env!("CRAFTY_SRC"), "/crafty/src/craft_state.rs"));

    impl<'a> CraftState<'a> {
        /// The state with its moves in a mode worked out anew.
        pub fn with_moves(&self, strict: bool) -> Self {
            let mut state = Self { available_moves: ActionSet::new(), ..self.clone() };
            state.set_available_moves(strict);
            state
        }
    }
}

#[allow(warnings)]
pub mod player {
    include!(concat!(env!("CRAFTY_SRC"), "/crafty/src/player.rs"));
}

#[allow(warnings)]
pub mod recipe {
    include!(concat!(env!("CRAFTY_SRC"), "/crafty/recipe/src/lib.rs"));
}

#[allow(warnings)]
pub mod simulator {
    include!(concat!(env!("CRAFTY_SRC"), "/crafty/src/simulator.rs"));

    use crate::tree::Node;

    /// What one iteration of a search met.
    pub struct Met {
        /// How its rollout ended; at a dead end there is none.
        pub rolled_out: Option<CraftResult>,
        /// How often on the way down more than one child had the greatest score.
        pub ties: u64,
    }

    impl<'a> Simulator<'a> {
        /// What `simulate` leaves out: how many of the actions it executes.
        pub fn executed(context: &'a CraftContext, actions: Vec<Action>) -> usize {
            let mut sim = Self::from_context(context, SearchOptions::default());
            let (index, _) = sim.execute_actions(0, actions);
            sim.depth(index)
        }

        /// A strict replay from a strict start: where it stops, its result, and how many it executes.
        pub fn simulate_strict(
            context: &'a CraftContext,
            actions: Vec<Action>,
        ) -> (CraftState<'a>, Option<CraftResult>, usize) {
            let (sim, index, result) = Self::run_strict(context, actions);
            (sim.tree.get(index).state.clone(), result, sim.depth(index))
        }

        /// As `simulate` in strict mode, with nothing counted.
        pub fn replay_strict(
            context: &'a CraftContext,
            actions: Vec<Action>,
        ) -> (CraftState<'a>, Option<CraftResult>) {
            let (sim, index, result) = Self::run_strict(context, actions);
            (sim.tree.get(index).state.clone(), result)
        }

        fn run_strict(
            context: &'a CraftContext,
            actions: Vec<Action>,
        ) -> (Self, usize, Option<CraftResult>) {
            let start = CraftState::new_strict(context);
            let mut sim = Self::from_state(start, SearchOptions::default());
            let (index, result) = sim.execute_actions_strict(0, actions);
            (sim, index, result)
        }

        /// As `search_oneshot`, and its tree and draws.
        pub fn search_logged(
            context: &'a CraftContext,
            options: SearchOptions,
        ) -> (Vec<Action>, CraftState<'a>, Self) {
            let mut sim = Self::from_context_logged(context, options);
            let (actions, state) = sim.search(0).solution();
            (actions, state, sim)
        }

        /// A search that has not begun.
        pub fn from_context_logged(context: &'a CraftContext, options: SearchOptions) -> Self {
            let mut sim = Self::from_context(context, options);
            sim.rng.keep_log();
            sim
        }

        pub fn draws(&self) -> &[rand::Draw] {
            self.rng.log()
        }

        /// One iteration, as `search` has it, and what it met.
        pub fn watch_iteration(&mut self) -> Met {
            let (selected, ties) = self.select_counting(0);
            let (end, result) = self.expand_and_rollout(selected);
            let score = match result {
                CraftResult::Finished(score) => score,
                _ => 0.0,
            };
            self.backpropagate(end, 0, score);
            Met { rolled_out: (selected != end).then(|| result), ties }
        }

        /// As `select`, and how often more than one child had the greatest score.
        fn select_counting(&self, start: usize) -> (usize, u64) {
            let selected = self.select(start);
            let parents = std::iter::successors(Some(selected), |node| self.tree.get(*node).parent);
            let is_tie = |node: &usize| {
                let Node { state, children, .. } = self.tree.get(*node);
                let score = |child: &usize| self.ucb1(&self.tree.get(*child).state, state);
                let greatest = children.iter().map(score).fold(f32::NEG_INFINITY, f32::max);
                children.iter().filter(|child| score(child) == greatest).count() > 1
            };
            (selected, parents.skip(1).filter(is_tie).count() as u64)
        }

        fn depth(&self, index: usize) -> usize {
            let parent = |index: &usize| self.tree.get(*index).parent;
            std::iter::successors(Some(index), parent).skip(1).count()
        }

        /// A tree of its root alone, with these moves.
        pub fn of_root(context: &'a CraftContext, available_moves: crate::ActionSet) -> Self {
            let root = CraftState { available_moves, ..CraftState::new(context) };
            Self::from_state(root, SearchOptions::default())
        }

        /// A state holds its node's number as its progress, so that `solution_node` tells it.
        pub fn insert_action(
            &mut self,
            parent: usize,
            action: Action,
            available_moves: crate::ActionSet,
        ) -> usize {
            let progress = self.tree.nodes.len() as u32;
            let start = CraftState::new(self.tree.get(0).state.context);
            let action = Some(action);
            self.tree.insert(parent, CraftState { progress, action, available_moves, ..start })
        }

        pub fn tree(&self) -> &Arena<CraftState<'a>> {
            &self.tree
        }

        pub fn tree_mut(&mut self) -> &mut Arena<CraftState<'a>> {
            &mut self.tree
        }

        pub fn backpropagate_score(&mut self, start: usize, target: usize, score: f32) {
            self.backpropagate(start, target, score);
        }

        /// The actions of `solution`, and the number of its node.
        pub fn solution_node(&self) -> (Vec<Action>, usize) {
            let (actions, state) = self.solution();
            (actions, state.progress as usize)
        }
    }
}

#[allow(warnings)]
pub mod tree {
    include!(concat!(env!("CRAFTY_SRC"), "/crafty/src/tree.rs"));
}

pub use action::Action;
pub use action_set::ActionSet;
pub use craft_context::{CraftContext, CraftOptions};
pub use craft_state::{Buffs, CraftResult, CraftState};
pub use player::Player;
pub use rand::Draw;
pub use recipe::Recipe;
pub use simulator::{Met, SearchOptions, Simulator};
