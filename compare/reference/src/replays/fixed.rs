//! The fixed list of replays: the bench crafts, both sides of every limit of a context, unknown actions, lengths,
//! and some random ones.

use super::generate;
use super::line::{Replay, LIST_MOST, UNKNOWN_LEAST, UNKNOWN_MOST};
use crate::outside::{around, in_record};
use crate::states::bench::{bench, crafts, expert, with_cp, Craft};
use crate::states::fixed::CONTEXT_VALUES;
use crate::states::mode::Mode;
use crafty::Action::{self, *};
use crafty::CraftContext;

const SEED: u64 = 20_250_102;
const RANDOM: u64 = 64;
/// After it the craft still goes on.
const SHORT: [Action; 3] = [BasicTouch, StandardTouch, BasicSynthesis];

pub fn replays() -> Vec<Replay> {
    let lists = [bench_crafts(), limits(), fields(), unknown(), lengths(), refused_twice()];
    let random = generate::replays(SEED, RANDOM);
    lists.into_iter().flatten().chain(random).collect()
}

fn bench_crafts() -> Vec<Replay> {
    crafts().into_iter().chain(more_crafts()).map(of_craft).collect()
}

fn of_craft((context, mode, actions): Craft) -> Replay {
    Replay::new(&context, mode, actions)
}

/// What a list shows beyond the states on its way: where replay ends, and on what.
fn more_crafts() -> [Craft; 11] {
    let short = CraftContext { step_max: 1, ..bench() };
    let poor = CraftContext { progress_target: 100, ..with_cp(0) };
    let worthless = CraftContext { quality_target: 0, ..poor.clone() };
    let finished = CraftContext { progress_target: 0, ..bench() };
    let greatest = CraftContext { step_max: 255, starting_quality: 1_000, ..finished.clone() };
    let low = CraftContext { step_max: 3, durability_max: 1, cp_max: 7, ..poor.clone() };
    [
        (bench(), Mode::Plain, &[]),
        (bench(), Mode::Strict, &[]),
        (bench(), Mode::Strict, &[BasicTouch]),
        (expert(25), Mode::Strict, &[Observe, BasicSynthesis]),
        (short, Mode::Plain, &[BasicTouch]),
        (poor, Mode::Plain, &[BasicSynthesis, BasicSynthesis]),
        (worthless, Mode::Plain, &[BasicSynthesis]),
        (finished, Mode::Plain, &[BasicSynthesis]),
        (greatest, Mode::Plain, &[]),
        (low, Mode::Plain, &[Observe, BasicSynthesis]),
        (bench(), Mode::Plain, &[BasicTouch, Reflect, StandardTouch]),
    ]
}

fn limits() -> Vec<Replay> {
    let mut replays = Vec::new();
    for (place, values) in CONTEXT_VALUES.iter().enumerate() {
        replays.extend(values.iter().map(|value| {
            let mut replay = Replay::new(&bench(), Mode::Plain, &SHORT);
            replay.context[place] = *value;
            replay
        }));
    }
    replays
}

/// Each field of the context at its limits, and every two outside.
fn fields() -> Vec<Replay> {
    let replay = || Replay::new(&bench(), Mode::Plain, &SHORT);
    let contexts = around(&replay().context, &in_record());
    contexts.into_iter().map(|context| Replay { context, ..replay() }).collect()
}

/// At the first, a middle and the last place, twice, after an illegal action, and past the craft's end.
fn unknown() -> Vec<Replay> {
    let places: [&[usize]; 5] = [&[0], &[1], &[2], &[1, 2], &[0, 2]];
    let mut replays = Vec::new();
    for number in [UNKNOWN_LEAST, UNKNOWN_MOST] {
        replays.extend(places.map(|places| with_unknown(bench(), &SHORT, places, number)));
        replays.push(with_unknown(bench(), &[RefinedTouch, BasicTouch], &[1], number));
        let quick = CraftContext { progress_target: 100, ..bench() };
        replays.push(with_unknown(quick, &[BasicSynthesis; LIST_MOST], &[LIST_MOST - 1], number));
    }
    replays
}

fn with_unknown(
    context: CraftContext,
    actions: &[Action],
    places: &[usize],
    number: u32,
) -> Replay {
    let mut replay = Replay::new(&context, Mode::Plain, actions);
    places.iter().for_each(|place| replay.list[*place] = number);
    replay
}

/// Lists of one and of the most actions: as far as any craft goes, and stopped early.
fn lengths() -> Vec<Replay> {
    let rich = CraftContext {
        step_max: 255,
        progress_target: 1_000_000,
        quality_target: 1_000_000,
        ..expert(1_000_000)
    };
    let mended = [Observe, BasicSynthesis, BasicSynthesis, BasicSynthesis, MastersMend];
    let longest: Vec<Action> =
        [QuickInnovation].into_iter().chain(mended.into_iter().cycle()).take(LIST_MOST).collect();
    let same = |action| [action; LIST_MOST];
    vec![
        Replay::new(&rich, Mode::Plain, &longest),
        Replay::new(&rich, Mode::Plain, &longest[1..]),
        Replay::new(&rich, Mode::Plain, &longest[..255]),
        Replay::new(&rich, Mode::Plain, &same(TrainedPerfection)),
        Replay::new(&rich, Mode::Plain, &same(Veneration)),
        Replay::new(&rich, Mode::Strict, &same(BasicSynthesis)),
        Replay::new(&rich, Mode::Plain, &[BasicSynthesis]),
        Replay::new(&rich, Mode::Strict, &[BasicSynthesis]),
    ]
}

/// A context outside its limits is refused before an unknown action.
fn refused_twice() -> Vec<Replay> {
    let context = CraftContext { durability_max: 98, ..bench() };
    vec![with_unknown(context, &SHORT, &[0], UNKNOWN_LEAST)]
}
