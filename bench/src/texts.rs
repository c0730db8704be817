//! From the replay program's input to what it prints.

use crate::cases::{Case, Given};
use crate::crafts::ours;
use crate::measure::{compare, timed, Figure};
use brothlantern::lent;
use crafty::{Action, ActionSet, CraftContext, CraftResult, CraftState};
use std::fmt::Write;

/// More than the text of 250 actions needs.
const ROOM: usize = 32_768;

pub fn measure(case: &Case, rounds: usize) -> Figure {
    let inputs = inputs(case);
    let mut room = [0; ROOM];
    for input in &inputs {
        let written = lent::replay_text(input.as_bytes(), &mut room).expect("inside the limits");
        assert_eq!(replay(input).as_bytes(), &room[..written], "the texts differ");
    }
    let given = |calls| inputs.iter().cycle().take(calls).collect();
    compare(
        case.name(),
        rounds,
        |calls| {
            timed(given(calls), |input: &String| {
                lent::replay_text(input.as_bytes(), &mut room).expect("inside the limits") as u64
            })
        },
        |calls| timed(given(calls), |input| replay(input).len() as u64),
    )
}

pub fn call(case: &Case, calls: usize) {
    let mut room = [0; ROOM];
    for input in inputs(case).iter().cycle().take(calls) {
        lent::replay_text(input.as_bytes(), &mut room).expect("inside the limits");
    }
}

fn inputs(case: &Case) -> Vec<String> {
    case.given().iter().map(input).collect()
}

fn input((context, list): &Given) -> String {
    let fields: Vec<String> = ours(context).fields().iter().map(u32::to_string).collect();
    let names: Vec<&str> = list.iter().map(Action::name).collect();
    format!("{}\n{}\n", fields.join(" "), names.join(" "))
}

/// What a host in Rust would write over the Rust's own parts; an input of the right shape is taken for granted.
fn replay(input: &str) -> String {
    let (line, words) = input.split_once('\n').expect("a first line");
    let context = context(line);
    let list: Vec<Action> =
        words.split_ascii_whitespace().map(|word| word.parse().expect("a name")).collect();
    let mut state = CraftState::new(&context);
    let mut text = format!("{state}\n");
    let mut executed = 0;
    let mut result = state.check_result();
    while result.is_none() && executed < list.len() {
        if !state.available_moves.contains(list[executed]) {
            result = Some(CraftResult::InvalidActionFailure);
            break;
        }
        state = state.execute(&list[executed]);
        writeln!(text, "{state}").expect("a string takes all");
        executed += 1;
        result = state.check_result();
    }
    writeln!(text, "{} executed {executed} of {}", words_of(result), list.len())
        .expect("a string takes all");
    text
}

fn context(line: &str) -> CraftContext {
    let numbers: Vec<u32> = line.split(' ').map(|word| word.parse().expect("a number")).collect();
    let mut action_pool = ActionSet::new();
    action_pool.set_bit(numbers[11]);
    CraftContext {
        player_job_level: numbers[0],
        recipe_job_level: numbers[1],
        base_progress_factor: numbers[2],
        base_quality_factor: numbers[3],
        step_max: numbers[4] as u8,
        progress_target: numbers[5],
        starting_quality: numbers[6],
        quality_target: numbers[7],
        durability_max: numbers[8] as i8,
        cp_max: numbers[9],
        is_expert: numbers[10] == 1,
        action_pool,
        player_is_specialist: numbers[12] == 1,
        use_manipulation: numbers[13] == 1,
        use_delineation: numbers[14] == 1,
    }
}

fn words_of(result: Option<CraftResult>) -> String {
    match result {
        Some(CraftResult::Finished(score)) => format!("finished {:08X}", score.to_bits()),
        Some(CraftResult::DurabilityFailure) => "durability".to_string(),
        Some(CraftResult::MaxStepsFailure) => "steps".to_string(),
        Some(CraftResult::InvalidActionFailure) => "invalid".to_string(),
        None => "continuing".to_string(),
    }
}
