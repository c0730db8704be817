//! The ways that `solution` goes, by the count of records (crates/tree/src/few.rt). No answer shows which, so they are
//! counted.

use super::call::Function;
use super::generate::{Case, LAST_OF_EQUALS};
use crate::fail;
use std::fmt;
use std::ops::RangeInclusive;

/// So many records have a table of best children; with fewer or more the best is searched for at each step.
pub const TABLE: RangeInclusive<u64> = 12..=4096;

/// The solutions of a run that went one way.
#[derive(Default)]
struct Way {
    answered: u64,
    last_of_equals: u64,
}

/// From few records to many.
#[derive(Default)]
pub struct Ways([Way; 3]);

impl Ways {
    pub fn add(&mut self, case: &Case) {
        if case.call.function != Function::Solution || case.answer.number != 0 {
            return;
        }
        let way = &mut self.0[place(case.call.count)];
        way.answered += 1;
        way.last_of_equals += u64::from(case.met.as_deref() == Some(LAST_OF_EQUALS));
    }

    /// A way that was not met, or met no equals, was not compared.
    pub fn check(&self) {
        for (name, way) in names().iter().zip(&self.0) {
            if way.last_of_equals == 0 {
                fail(format!("of {} solutions {name} none takes the last of equals", way.answered));
            }
        }
    }
}

impl fmt::Display for Ways {
    fn fmt(&self, out: &mut fmt::Formatter) -> fmt::Result {
        for (name, Way { answered, last_of_equals }) in names().iter().zip(&self.0) {
            writeln!(out, "{answered:>10} solution {name}, {last_of_equals} the last of equals")?;
        }
        Ok(())
    }
}

fn place(count: u64) -> usize {
    usize::from(count >= *TABLE.start()) + usize::from(count > *TABLE.end())
}

fn names() -> [String; 3] {
    let (least, most) = (TABLE.start(), TABLE.end());
    [
        format!("by search below {least} records"),
        format!("by table from {least} to {most} records"),
        format!("by search above {most} records"),
    ]
}
