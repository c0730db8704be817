//! Results and scores as an answer says them.

use crafty::CraftResult;

pub const RESULTS: [&str; 5] = ["finished", "durability", "steps", "invalid", "continuing"];

/// The Rust has no word for a craft that goes on.
pub fn name(result: &Option<CraftResult>) -> &'static str {
    match result {
        Some(CraftResult::Finished(_)) => RESULTS[0],
        Some(CraftResult::DurabilityFailure) => RESULTS[1],
        Some(CraftResult::MaxStepsFailure) => RESULTS[2],
        Some(CraftResult::InvalidActionFailure) => RESULTS[3],
        None => RESULTS[4],
    }
}

pub fn words(result: &Option<CraftResult>) -> String {
    match result {
        Some(CraftResult::Finished(score)) => format!("{} {}", name(result), hex(*score)),
        _ => name(result).to_string(),
    }
}

pub fn hex(float: f32) -> String {
    format!("{:08X}", float.to_bits())
}
