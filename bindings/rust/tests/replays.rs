//! Bench crafts of document 01, by numbers and by text.

use brothlantern::{replay, replay_text, Combo, Context, Mode, Outcome, Perfection, Refusal};

const BASIC_TOUCH: u8 = 1;
const STANDARD_TOUCH: u8 = 6;
const BYREGOTS_BLESSING: u8 = 11;
const ADVANCED_TOUCH: u8 = 16;
const REFLECT: u8 = 17;
const PREPARATORY_TOUCH: u8 = 18;
const GROUNDWORK: u8 = 19;
const QUICK_INNOVATION: u8 = 28;
const TRAINED_PERFECTION: u8 = 30;

/// A field that has a limit, the most that it takes, and how it is set.
type Limited = (&'static str, u32, fn(&mut Context, u32));

const LIMITED: [Limited; 8] = [
    ("base_progress_factor", 200_070, |context, number| context.base_progress_factor = number),
    ("base_quality_factor", 200_070, |context, number| context.base_quality_factor = number),
    ("progress_target", 1_000_000, |context, number| context.progress_target = number),
    ("starting_quality", 1_000_000, |context, number| context.starting_quality = number),
    ("quality_target", 1_000_000, |context, number| context.quality_target = number),
    ("durability_max", 97, |context, number| context.durability_max = number as u8),
    ("cp_max", 1_000_000, |context, number| context.cp_max = number),
    ("action_pool", (1 << 31) - 1, |context, number| context.action_pool = number),
];

fn bench() -> Context {
    Context {
        player_job_level: 50,
        recipe_job_level: 50,
        base_progress_factor: 100,
        base_quality_factor: 100,
        step_max: 20,
        progress_target: 1000,
        starting_quality: 0,
        quality_target: 1000,
        durability_max: 40,
        cp_max: 200,
        is_expert: false,
        action_pool: (1 << 31) - 1,
        player_is_specialist: false,
        use_manipulation: true,
        use_delineation: true,
    }
}

#[test]
fn starts() {
    let report = replay(&bench(), Mode::Plain, &[]).unwrap();
    assert_eq!(report.outcome, Outcome::Continuing);
    assert_eq!((report.executed, report.state.step), (0, 1));
    assert_eq!((report.state.durability, report.state.cp), (40, 200));
    assert_eq!(report.state.last_action, None);
    assert!(report.state.quick_innovation_available);
}

#[test]
fn follows_a_combo() {
    let list = [BASIC_TOUCH, STANDARD_TOUCH, ADVANCED_TOUCH];
    let state = replay(&bench(), Mode::Plain, &list).unwrap().state;
    assert_eq!((state.quality, state.cp, state.durability), (417, 146, 10));
    let state = replay(&bench(), Mode::Plain, &list[..2]).unwrap().state;
    assert_eq!(state.combo, Combo::StandardTouch);
    assert_eq!(state.last_action, Some(STANDARD_TOUCH));
}

#[test]
fn pays_the_full_price_first() {
    let list = [BASIC_TOUCH, STANDARD_TOUCH];
    let poor = Context { cp_max: 49, ..bench() };
    let report = replay(&poor, Mode::Plain, &list).unwrap();
    assert_eq!((report.executed, report.outcome), (1, Outcome::InvalidActionFailure));
    let enough = Context { cp_max: 50, ..bench() };
    let report = replay(&enough, Mode::Plain, &list).unwrap();
    assert_eq!((report.executed, report.state.cp), (2, 14));
}

#[test]
fn innovates_quickly() {
    let state = replay(&bench(), Mode::Plain, &[QUICK_INNOVATION, REFLECT]).unwrap().state;
    assert_eq!((state.quality, state.step), (450, 2));
    assert_eq!((state.buffs.inner_quiet, state.buffs.innovation), (2, 0));
    assert!(!state.quick_innovation_available);
}

#[test]
fn is_strict() {
    let expert = Context { is_expert: true, ..bench() };
    let list = [BASIC_TOUCH, BYREGOTS_BLESSING];
    assert_eq!(replay(&expert, Mode::Plain, &list).unwrap().state.quality, 232);
    let strict = replay(&expert, Mode::Strict, &list).unwrap();
    assert_eq!((strict.executed, strict.outcome), (1, Outcome::InvalidActionFailure));
}

#[test]
fn goes_below_zero() {
    let brittle = Context { durability_max: 1, ..bench() };
    let report = replay(&brittle, Mode::Plain, &[PREPARATORY_TOUCH]).unwrap();
    assert_eq!((report.state.durability, report.outcome), (-19, Outcome::DurabilityFailure));
}

#[test]
fn finishes_with_a_score() {
    let quick = Context { durability_max: 20, progress_target: 300, ..bench() };
    let report = replay(&quick, Mode::Plain, &[GROUNDWORK]).unwrap();
    assert!(matches!(report.outcome, Outcome::Finished(score) if score > 0.2 && score < 0.4));
    assert_eq!((report.state.durability, report.moves), (0, 0));
}

#[test]
fn perfects_once() {
    let list = [TRAINED_PERFECTION, BASIC_TOUCH];
    let active = replay(&bench(), Mode::Plain, &list[..1]).unwrap().state;
    let spent = replay(&bench(), Mode::Plain, &list).unwrap().state;
    assert_eq!(active.trained_perfection, Perfection::Active);
    assert_eq!((spent.trained_perfection, spent.durability), (Perfection::Spent, 40));
}

#[test]
fn refuses() {
    let outside = Context { durability_max: 98, ..bench() };
    let refusal = replay(&outside, Mode::Plain, &[31]).unwrap_err();
    assert_eq!((refusal, refusal.number()), (Refusal::OutsideLimits { place: 8 }, 1));
    assert_eq!(refusal.to_string(), "field 8 of the context, or the set, is outside its limit");
    let unknown = Refusal::UnknownAction { place: 1 };
    assert_eq!(replay(&bench(), Mode::Plain, &[0, 31, 255]), Err(unknown));
}

/// The name of the field for which a context is refused by 1.
fn field_outside(context: &Context) -> Option<&'static str> {
    match replay(context, Mode::Plain, &[]) {
        Err(Refusal::OutsideLimits { place }) => Some(Context::FIELDS[place]),
        _ => None,
    }
}

#[test]
fn names_the_first_field_outside() {
    for (at, (name, most, set)) in LIMITED.into_iter().enumerate() {
        let mut context = bench();
        set(&mut context, most);
        assert_eq!(field_outside(&context), None, "{name}");
        set(&mut context, most + 1);
        assert_eq!(field_outside(&context), Some(name));
        for (_, later_most, set_later) in &LIMITED[at + 1..] {
            let mut both = context;
            set_later(&mut both, later_most + 1);
            assert_eq!(field_outside(&both), Some(name));
        }
    }
    let broken = Context { durability_max: 0, ..bench() };
    assert_eq!(field_outside(&broken), Some("durability_max"));
}

/// Names and places are those of the record, of the header for C, and of the page for editors.
#[test]
fn names_every_field() {
    let record = format!("{:?}", bench()).replace("Context { ", "");
    let declared = record.split(", ").map(|field| field.split(':').next().unwrap());
    assert!(declared.eq(Context::FIELDS));
    let header = include_str!("../../../include/crafty.h").lines();
    let places = header.filter_map(|line| line.trim().strip_prefix("CRAFTY_AT_"));
    let named = places.map(|place| place.split(',').next().unwrap().to_lowercase());
    assert!(named.eq(Context::FIELDS));
    let page = include_str!("../../../docs/REFUSALS.md");
    for (place, name) in Context::FIELDS.into_iter().enumerate() {
        let built = place + 22;
        assert!(page.contains(&format!("\n| {place} | {built} | `{name}` |")), "{name}");
    }
}

/// The text of a context's fields is the line that the program reads.
#[test]
fn tells_the_same_as_text() {
    let words: Vec<String> = bench().fields().iter().map(u32::to_string).collect();
    let input = words.join(" ") + "\nBasicTouch StandardTouch AdvancedTouch";
    let text = replay_text(input.as_bytes()).unwrap();
    assert_eq!(text.lines().count(), 5);
    assert!(text.ends_with("continuing executed 3 of 3\n"));
    assert!(text.contains("  417/ 1000 quality | 10/40 durability | 146/200 cp\n"));
}
