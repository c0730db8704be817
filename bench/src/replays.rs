//! Replays, plain and strict.

use crate::cases::{Case, Given};
use crate::crafts::ours;
use crate::lists::numbers;
use crate::measure::{compare, timed, Figure};
use brothlantern::{lent, Context, Mode};
use crafty::{Action, CraftContext, CraftResult, CraftState, Simulator};

/// Ours writes into lent room; the Rust, which takes its list over, gets it ready-made.
pub fn measure(case: &Case, mode: Mode, rounds: usize) -> Figure {
    let given = case.given();
    let our_given = our_given(&given);
    let mut room = [0; lent::NUMBERS];
    for ((context, list), (our_context, our_list)) in given.iter().zip(&our_given) {
        lent::replay(our_context, mode, our_list, &mut room).expect("inside the limits");
        let (state, result) = replay(context, list.clone(), mode);
        assert_eq!(room[..3], told(result, list.len()), "the results differ: {}", case.name());
        assert_eq!(room[3..9], state_numbers(&state), "the states differ: {}", case.name());
    }
    compare(
        case.name(),
        rounds,
        |calls| {
            timed(our_given.iter().cycle().take(calls).collect(), |(context, list)| {
                lent::replay(context, mode, list, &mut room).expect("inside the limits");
                sum(&room[3..9])
            })
        },
        |calls| {
            let ready = given.iter().map(|(context, list)| (context, list.clone()));
            timed(ready.cycle().take(calls).collect(), |(context, list)| {
                sum(&state_numbers(&replay(context, list, mode).0))
            })
        },
    )
}

pub fn call(case: &Case, mode: Mode, calls: usize) {
    let mut room = [0; lent::NUMBERS];
    for (context, list) in our_given(&case.given()).iter().cycle().take(calls) {
        lent::replay(context, mode, list, &mut room).expect("inside the limits");
    }
}

fn our_given(given: &[Given]) -> Vec<(Context, Vec<u8>)> {
    given.iter().map(|(context, list)| (ours(context), numbers(list))).collect()
}

fn replay(
    context: &CraftContext,
    list: Vec<Action>,
    mode: Mode,
) -> (CraftState<'_>, Option<CraftResult>) {
    match mode {
        Mode::Plain => Simulator::simulate(context, list),
        Mode::Strict => Simulator::replay_strict(context, list),
    }
}

/// The first three numbers of a report: the result, its score's bits, and how many actions were executed.
fn told(result: Option<CraftResult>, executed: usize) -> [u32; 3] {
    let (number, bits) = match result {
        Some(CraftResult::Finished(score)) => (0, score.to_bits()),
        Some(CraftResult::DurabilityFailure) => (1, 0),
        Some(CraftResult::MaxStepsFailure) => (2, 0),
        Some(CraftResult::InvalidActionFailure) => (3, 0),
        None => (4, 0),
    };
    [number, bits, executed as u32]
}

/// The next six: moves, step, progress, quality, durability and points.
fn state_numbers(state: &CraftState) -> [u32; 6] {
    [
        state.available_moves.bits(),
        u32::from(state.step),
        state.progress,
        state.quality,
        state.durability as u32,
        state.cp,
    ]
}

/// Of these six: what two different states hardly share.
fn sum(numbers: &[u32]) -> u64 {
    numbers.iter().copied().map(u64::from).sum()
}
