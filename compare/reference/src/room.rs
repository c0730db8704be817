//! Answers that are written into a lent room, which is full of dots before.

use crate::refusal::Refusal;

/// The line with the whole room at its end: a refusal leaves every dot in it.
pub fn line(room: u32, answer: Result<String, Refusal>) -> String {
    let room = room as usize;
    match answer.and_then(|text| fitting(room, text)) {
        Ok(text) => format!("{} {text:.<room$}", text.len()),
        Err(refusal) => format!("{refusal} {:.<room$}", ""),
    }
}

pub fn fitting(room: usize, text: String) -> Result<String, Refusal> {
    if text.len() > room {
        return Err(Refusal::RoomTooShort { needed: text.len() });
    }
    Ok(text)
}
