//! The functions of include/crafty.h. A slice of Rust keeps all that a host owes of a pointer and a length, and every
//! function takes any numbers and bytes, so each call is safe.

use crate::report::STATE_NUMBERS;
use crate::search::SearchOptions;
use crate::tree::Node;
use crate::Refusal;

#[repr(C)]
pub struct Answer {
    number: u32,
    value: usize,
}

impl Answer {
    pub fn told(self) -> Result<usize, Refusal> {
        Refusal::of_number(self.number, self.value).map_or(Ok(self.value), Err)
    }
}

#[repr(C)]
pub struct Solution {
    number: u32,
    value: usize,
    node: usize,
}

impl Solution {
    /// The value, and the last node.
    pub fn told(self) -> Result<(usize, usize), Refusal> {
        let Solution { number, value, node } = self;
        Answer { number, value }.told().map(|value| (value, node))
    }
}

#[repr(C)]
pub struct Found {
    number: u32,
    pub iterations: u32,
    value: usize,
    pub records: usize,
    pub draws: usize,
    pub path: usize,
    pub node: usize,
    pub state: [u32; STATE_NUMBERS],
}

impl Found {
    /// None for success.
    pub fn refusal(&self) -> Option<Refusal> {
        Refusal::of_number(self.number, self.value)
    }
}

#[link(name = "crafty_c", kind = "static")]
extern "C" {
    fn crafty_replay(
        player_job_level: u32,
        recipe_job_level: u32,
        base_progress_factor: u32,
        base_quality_factor: u32,
        step_max: u32,
        progress_target: u32,
        starting_quality: u32,
        quality_target: u32,
        durability_max: u32,
        cp_max: u32,
        is_expert: u32,
        action_pool: u32,
        player_is_specialist: u32,
        use_manipulation: u32,
        use_delineation: u32,
        strict: bool,
        list: *const u8,
        list_length: usize,
        out: *mut u32,
        out_length: usize,
    ) -> Answer;
    fn crafty_replay_text(
        input: *const u8,
        input_length: usize,
        out: *mut u8,
        out_length: usize,
    ) -> Answer;
    fn crafty_print(
        input: *const u8,
        input_length: usize,
        out: *mut u8,
        out_length: usize,
    ) -> Answer;
    fn crafty_read_list(
        text: *const u8,
        text_length: usize,
        out: *mut u8,
        out_length: usize,
    ) -> Answer;
    fn crafty_write_list(
        list: *const u8,
        list_length: usize,
        out: *mut u8,
        out_length: usize,
    ) -> Answer;
    fn crafty_macro_time(list: *const u8, list_length: usize) -> Answer;
    fn crafty_tree_new(nodes: *mut Node, nodes_length: usize, unused: u32) -> Answer;
    fn crafty_tree_insert(
        nodes: *mut Node,
        nodes_length: usize,
        count: usize,
        parent: usize,
        action: u8,
        unused: u32,
    ) -> Answer;
    fn crafty_tree_backpropagate(
        nodes: *mut Node,
        nodes_length: usize,
        count: usize,
        start: usize,
        target: usize,
        score: f32,
    ) -> Answer;
    fn crafty_tree_children(
        nodes: *const Node,
        nodes_length: usize,
        out: *mut usize,
        out_length: usize,
        count: usize,
        node: usize,
    ) -> Answer;
    fn crafty_tree_solution(
        nodes: *const Node,
        nodes_length: usize,
        out: *mut u8,
        out_length: usize,
        count: usize,
    ) -> Solution;
    fn crafty_search(
        nodes: *mut Node,
        nodes_length: usize,
        logs: *const f32,
        logs_length: usize,
        draws: *const u8,
        draws_length: usize,
        out: *mut u8,
        out_length: usize,
        player_job_level: u32,
        recipe_job_level: u32,
        base_progress_factor: u32,
        base_quality_factor: u32,
        step_max: u32,
        progress_target: u32,
        starting_quality: u32,
        quality_target: u32,
        durability_max: u32,
        cp_max: u32,
        is_expert: u32,
        action_pool: u32,
        player_is_specialist: u32,
        use_manipulation: u32,
        use_delineation: u32,
        iterations: u32,
        score_storage_threshold: f32,
        max_score_weighting_constant: f32,
        exploration_constant: f32,
    ) -> Found;
}

pub fn replay(context: [u32; 15], strict: bool, list: &[u8], out: &mut [u32]) -> Answer {
    let [a, b, c, d, e, f, g, h, i, j, k, l, m, n, o] = context;
    let (list, length) = (list.as_ptr(), list.len());
    let (out, room) = (out.as_mut_ptr(), out.len());
    unsafe {
        crafty_replay(a, b, c, d, e, f, g, h, i, j, k, l, m, n, o, strict, list, length, out, room)
    }
}

pub fn replay_text(input: &[u8], out: &mut [u8]) -> Answer {
    unsafe { crafty_replay_text(input.as_ptr(), input.len(), out.as_mut_ptr(), out.len()) }
}

pub fn print(input: &[u8], out: &mut [u8]) -> Answer {
    unsafe { crafty_print(input.as_ptr(), input.len(), out.as_mut_ptr(), out.len()) }
}

pub fn read_list(text: &[u8], out: &mut [u8]) -> Answer {
    unsafe { crafty_read_list(text.as_ptr(), text.len(), out.as_mut_ptr(), out.len()) }
}

pub fn write_list(list: &[u8], out: &mut [u8]) -> Answer {
    unsafe { crafty_write_list(list.as_ptr(), list.len(), out.as_mut_ptr(), out.len()) }
}

pub fn macro_time(list: &[u8]) -> Answer {
    unsafe { crafty_macro_time(list.as_ptr(), list.len()) }
}

pub fn tree_new(nodes: &mut [Node], unused: u32) -> Answer {
    unsafe { crafty_tree_new(nodes.as_mut_ptr(), nodes.len(), unused) }
}

pub fn tree_insert(
    nodes: &mut [Node],
    count: usize,
    parent: usize,
    action: u8,
    unused: u32,
) -> Answer {
    let (nodes, length) = (nodes.as_mut_ptr(), nodes.len());
    unsafe { crafty_tree_insert(nodes, length, count, parent, action, unused) }
}

pub fn tree_backpropagate(
    nodes: &mut [Node],
    count: usize,
    start: usize,
    target: usize,
    score: f32,
) -> Answer {
    let (nodes, length) = (nodes.as_mut_ptr(), nodes.len());
    unsafe { crafty_tree_backpropagate(nodes, length, count, start, target, score) }
}

pub fn tree_children(nodes: &[Node], out: &mut [usize], count: usize, node: usize) -> Answer {
    let (nodes, length) = (nodes.as_ptr(), nodes.len());
    unsafe { crafty_tree_children(nodes, length, out.as_mut_ptr(), out.len(), count, node) }
}

pub fn tree_solution(nodes: &[Node], out: &mut [u8], count: usize) -> Solution {
    let (nodes, length) = (nodes.as_ptr(), nodes.len());
    unsafe { crafty_tree_solution(nodes, length, out.as_mut_ptr(), out.len(), count) }
}

pub fn search(
    nodes: &mut [Node],
    logs: &[f32],
    draws: &[u8],
    out: &mut [u8],
    context: [u32; 15],
    options: &SearchOptions,
) -> Found {
    let [a, b, c, d, e, f, g, h, i, j, k, l, m, n, o] = context;
    unsafe {
        crafty_search(
            nodes.as_mut_ptr(),
            nodes.len(),
            logs.as_ptr(),
            logs.len(),
            draws.as_ptr(),
            draws.len(),
            out.as_mut_ptr(),
            out.len(),
            a,
            b,
            c,
            d,
            e,
            f,
            g,
            h,
            i,
            j,
            k,
            l,
            m,
            n,
            o,
            options.iterations,
            options.score_storage_threshold,
            options.max_score_weighting_constant,
            options.exploration_constant,
        )
    }
}
