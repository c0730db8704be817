//! The rule that an action has of its own, as the conditions that it sets.

use super::mode::Mode;
use crafty::{Action, CraftState};

#[derive(Clone, Copy, Debug, PartialEq, Eq, Hash)]
pub enum Condition {
    FirstStep,
    NotExpert,
    SomeInnerQuiet,
    MoreInnerQuiet,
    FullInnerQuiet,
    PerfectionUnused,
    NoWasteNot,
    NoWasteNotII,
    NotObserving,
    PaysAdvancedTouch,
    OutlastsCost,
    AfterBasicTouch,
    WornByOver45,
    WornBy25,
    ManipulationAllowed,
    NoManipulation,
    NoGreatStrides,
    VenerationEnds,
    InnovationEnds,
    QuickInnovationLeft,
    NoInnovation,
    QualityAboveThird,
}

/// The conditions of an action's own rule, in source order.
pub fn own_rule(action: Action, mode: Mode) -> &'static [Condition] {
    use Action::*;
    use Condition::*;
    match (action, mode) {
        (MuscleMemory | Reflect, _) => &[FirstStep],
        (TrainedEye, _) => &[FirstStep, NotExpert],
        (ByregotsBlessing, Mode::Plain) => &[SomeInnerQuiet],
        (ByregotsBlessing, Mode::Strict) => &[MoreInnerQuiet],
        (TrainedFinesse, _) => &[FullInnerQuiet],
        (TrainedPerfection, _) => &[PerfectionUnused],
        (PrudentSynthesis | PrudentTouch, _) => &[NoWasteNot, NoWasteNotII],
        (WasteNot | WasteNotII, Mode::Strict) => &[NoWasteNot, NoWasteNotII],
        (Observe, Mode::Plain) => &[NotObserving],
        // Of an observing state a strict rule before this one has decided.
        (Observe, Mode::Strict) => &[PaysAdvancedTouch],
        (Groundwork | GroundworkTraited, _) => &[OutlastsCost],
        (RefinedTouch, _) => &[AfterBasicTouch],
        (ImmaculateMend, Mode::Strict) => &[WornByOver45, NoManipulation],
        (MastersMend, Mode::Strict) => &[WornBy25],
        (Manipulation, Mode::Plain) => &[ManipulationAllowed],
        (Manipulation, Mode::Strict) => &[ManipulationAllowed, NoManipulation],
        (GreatStrides, Mode::Strict) => &[NoGreatStrides],
        (Veneration | Innovation, Mode::Strict) => &[VenerationEnds, InnovationEnds],
        (QuickInnovation, Mode::Plain) => &[QuickInnovationLeft, NoInnovation],
        (QuickInnovation, Mode::Strict) => &[QuickInnovationLeft, NoInnovation, QualityAboveThird],
        _ => &[],
    }
}

impl Condition {
    pub fn holds(self, state: &CraftState, action: Action) -> bool {
        let (context, buffs) = (state.context, &state.buffs);
        let worn = i32::from(context.durability_max) - i32::from(state.durability);
        match self {
            Condition::FirstStep => state.step == 1,
            Condition::NotExpert => !context.is_expert,
            Condition::SomeInnerQuiet => buffs.inner_quiet > 0,
            Condition::MoreInnerQuiet => buffs.inner_quiet > 1,
            Condition::FullInnerQuiet => buffs.inner_quiet == 10,
            Condition::PerfectionUnused => state.trained_perfection_active.is_none(),
            Condition::NoWasteNot => buffs.waste_not == 0,
            Condition::NoWasteNotII => buffs.waste_not_ii == 0,
            Condition::NotObserving => !is_observing(state),
            Condition::PaysAdvancedTouch => state.cp >= 25,
            Condition::OutlastsCost => i32::from(state.durability) >= cost(state, action),
            Condition::AfterBasicTouch => state.previous_combo_action == Some(Action::BasicTouch),
            Condition::WornByOver45 => worn > 45,
            Condition::WornBy25 => worn >= 25,
            Condition::ManipulationAllowed => context.use_manipulation,
            Condition::NoManipulation => buffs.manipulation == 0,
            Condition::NoGreatStrides => buffs.great_strides == 0,
            Condition::VenerationEnds => buffs.veneration <= 1,
            Condition::InnovationEnds => buffs.innovation <= 1,
            Condition::QuickInnovationLeft => state.quick_innovation_available,
            Condition::NoInnovation => buffs.innovation == 0,
            Condition::QualityAboveThird => state.quality > context.quality_target / 3,
        }
    }
}

pub fn is_observing(state: &CraftState) -> bool {
    state.previous_combo_action == Some(Action::Observe)
}

fn cost(state: &CraftState, action: Action) -> i32 {
    let base = action.attributes().durability_cost.map_or(0, i32::from);
    let spares = state.buffs.waste_not > 0 || state.buffs.waste_not_ii > 0;
    match state.trained_perfection_active {
        Some(true) => 0,
        _ if spares => base / 2,
        _ => base,
    }
}
