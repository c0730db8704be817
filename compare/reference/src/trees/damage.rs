//! Damages to a sound tree: each field of a record wrong in each way, and counts that no tree has. Each does but one thing
//! wrong, as far as that can be.

use super::floats::{ABOVE_ONE, LEAST, NANS};
use super::record::Record;
use super::sound::{LAST_ACTION, VISITS_MOST};

/// What is done to the record of a number.
type Damage = (&'static str, fn(u64, &mut Record));

pub const DAMAGES: [Damage; 41] = [
    ("parent its own number", |number, record| record.parent = number.max(1)),
    ("parent one above", |number, record| record.parent = number + 1),
    ("parent 2^32 above", |_, record| record.parent |= 1 << 32),
    ("parent the greatest", |_, record| record.parent = u64::MAX),
    ("action 30 at the root, or 31", |number, record| {
        record.action = if number == 0 { LAST_ACTION } else { 31 }
    }),
    ("action 0 at the root, or 127", |number, record| {
        record.action = if number == 0 { 0 } else { 127 }
    }),
    ("action 32", |_, record| record.action = 32),
    ("action with a higher bit", |number, record| {
        record.action |= if number == 0 { 1 << 5 } else { 1 << 7 }
    }),
    ("action 255", |_, record| record.action = 255),
    ("visits a half", |_, record| put_visits(record, 0.5)),
    ("visits below one", |_, record| put_visits(record, 1.0f32.next_down())),
    ("visits above one", |_, record| put_visits(record, ABOVE_ONE)),
    ("visits 8,388,607.5", |_, record| put_visits(record, 8_388_607.5)),
    ("visits the least above 0", |_, record| put_visits(record, LEAST)),
    ("visits the greatest below 0", |_, record| put_visits(record, -LEAST)),
    ("visits -1", |_, record| put_visits(record, -1.0)),
    ("visits minus infinity", |_, record| put_visits(record, f32::NEG_INFINITY)),
    ("visits 16,777,218", |_, record| put_visits(record, VISITS_MOST.next_up())),
    ("visits 2^32", |_, record| put_visits(record, 4_294_967_296.0)),
    ("visits 2^64", |_, record| put_visits(record, 18_446_744_073_709_551_616.0)),
    ("visits infinity", |_, record| put_visits(record, f32::INFINITY)),
    ("visits NaN", |_, record| put_visits(record, NANS[0])),
    ("visits signalling NaN", |_, record| put_visits(record, NANS[3])),
    ("score_sum just above", |_, record| record.score_sum = record.visits.abs().next_up()),
    ("score_sum just below", |_, record| record.score_sum = -record.visits.abs().next_up()),
    ("score_sum infinity", |_, record| record.score_sum = f32::INFINITY),
    ("score_sum minus infinity", |_, record| record.score_sum = f32::NEG_INFINITY),
    ("score_sum NaN", |_, record| record.score_sum = NANS[1]),
    ("score_sum signalling NaN", |_, record| record.score_sum = NANS[2]),
    ("max_score -0", |_, record| record.max_score = -0.0),
    ("max_score the greatest below 0", |_, record| record.max_score = -LEAST),
    ("max_score -1", |_, record| record.max_score = -1.0),
    ("max_score just above 1", |_, record| record.max_score = ABOVE_ONE),
    ("max_score 2", |_, record| record.max_score = 2.0),
    ("max_score infinity", |_, record| record.max_score = f32::INFINITY),
    ("max_score minus infinity", |_, record| record.max_score = f32::NEG_INFINITY),
    ("max_score NaN", |_, record| record.max_score = NANS[0]),
    ("max_score NaN below 0", |_, record| record.max_score = NANS[1]),
    ("max_score signalling NaN", |_, record| record.max_score = NANS[2]),
    ("unused bit 31", |_, record| record.unused |= 1 << 31),
    ("unused all bits", |_, record| record.unused = u32::MAX),
];

/// With a sum that would suit them.
fn put_visits(record: &mut Record, visits: f32) {
    record.visits = visits;
    record.score_sum = 0.0;
}

/// Counts that a tree over so many records cannot have.
pub fn no_counts(records: usize) -> [u64; 5] {
    let length = records as u64;
    [0, length + 1, length + (1 << 32), 1 << 63, u64::MAX]
}
