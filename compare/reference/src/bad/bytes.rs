//! Bytes of a text or of a list that may be anything, also in the place of good ones.

use crate::random::Random;
use crate::texts::INPUT_MOST;

const LENGTHS_MOST: [u32; 2] = [4, 300];
/// What a text is made of, and what it may be taken for.
const TYPED: &[u8] = b"0123456789    \n\n\t\rBasicTouch";
/// A long input is at most so much shorter or longer than the longest that is taken.
const AROUND: u32 = 4;

pub fn any(random: &mut Random) -> Vec<u8> {
    (0..length(random)).map(|_| random.bits() as u8).collect()
}

pub fn typed(random: &mut Random) -> Vec<u8> {
    (0..length(random)).map(|_| random.any(TYPED)).collect()
}

/// Often none or a few.
fn length(random: &mut Random) -> u32 {
    let most = random.any(&LENGTHS_MOST);
    random.between(0, most)
}

/// Cut at either end, doubled whole or in part, joined with others, one put in, or a bit changed.
pub fn damage(random: &mut Random, bytes: &mut Vec<u8>) {
    let place = random.place(bytes.len() + 1);
    match random.below(8) {
        0 => bytes.truncate(place),
        1 => drop(bytes.drain(..place)),
        2 => bytes.extend_from_within(..),
        3 => bytes.extend_from_within(place..),
        4 => bytes.extend(any(random)),
        5 => bytes.insert(place, random.bits() as u8),
        _ if place < bytes.len() => bytes[place] ^= 1 << random.below(8),
        _ => {}
    }
}

/// Repeated, or followed by one byte, up to about the longest that is taken.
pub fn lengthen(random: &mut Random, bytes: &mut Vec<u8>) {
    let size = INPUT_MOST - AROUND as usize + random.between(0, 2 * AROUND) as usize;
    let more = if bytes.is_empty() || random.one_in(2) {
        vec![random.any(b"\0 1\n")]
    } else {
        bytes.clone()
    };
    let missing = size.saturating_sub(bytes.len());
    bytes.extend(more.iter().cycle().take(missing));
}
