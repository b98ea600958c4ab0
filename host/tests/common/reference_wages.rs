//! Document 02's wages sheet, from its text alone: rule 17 for legs, and what is written of them.

use super::*;

/// A leg: two 16-bit place numbers.
pub const LEG: usize = 4;
/// The most legs.
pub const MOST_LEGS: usize = 1_000;

/// The legs of these places, in the order entered.
pub fn legs(pairs: &[(u32, u32)]) -> Vec<u8> {
    pairs.iter().flat_map(|&(s, t)| [bytes_16(s as usize), bytes_16(t as usize)].concat()).collect()
}

/// The whole legs. A part of a leg at the end is none.
pub fn whole_legs(legs: &[u8]) -> Vec<(u32, u32)> {
    legs.chunks_exact(LEG).map(|leg| (number_16(leg, 0), number_16(leg, 2))).collect()
}

/// Over 1,000 legs, or a part of one. A thousand and a part are both.
fn breaks_17(legs: &[u8]) -> bool {
    legs.len() / LEG > MOST_LEGS || !legs.len().is_multiple_of(LEG)
}

fn bytes_64(number: u64) -> Vec<u8> {
    [bytes_32((number % 4_294_967_296) as usize), bytes_32((number / 4_294_967_296) as usize)].concat()
}

/// What is written of these times, which are seconds: each marked as in the table, how many are 'no walk', and the total of the others.
pub fn wages_bytes(times: &[Option<u64>]) -> Vec<u8> {
    let none = times.iter().filter(|time| time.is_none()).count();
    let total = times.iter().flatten().sum();
    let marked = |time: &Option<u64>| bytes_32(time.unwrap_or(NO_WALK as u64) as usize);
    [times.iter().flat_map(marked).collect(), bytes_32(none).to_vec(), bytes_64(total)].concat()
}

/// What legs with these times do to so many working words and so much output: 15 where the result has no room. The value is its length in bytes.
pub fn wages_outcome(times: &[Option<u64>], zeroed: usize, room: usize) -> Outcome<usize> {
    let written = wages_bytes(times);
    if room < written.len() {
        return Outcome { result: Err(15), zeroed, written: Vec::new() };
    }
    Outcome { result: Ok(written.len()), zeroed, written }
}

impl Questions {
    /// The wages sheet: the oracle's rules, 12, 17, 14, 15. 12 looks at whole legs only, and at all of them.
    pub fn wages(&self, legs: &[u8], words: usize, room: usize) -> Outcome<usize> {
        let pairs = whole_legs(legs);
        let places: Vec<u32> = pairs.iter().flat_map(|&(s, t)| [s, t]).collect();
        let shaped = match self.asked(&places) {
            Ok(shaped) => shaped,
            Err(rule) => return Outcome::refused(rule),
        };
        if breaks_17(legs) {
            return Outcome::refused(17);
        }
        let needed = WORDS * shaped.map.size();
        if words < needed {
            return Outcome::refused(14);
        }
        let times: Vec<Option<u64>> = pairs.into_iter().map(|(s, t)| self.answer(shaped, s as usize, t as usize).seconds()).collect();
        wages_outcome(&times, needed, room)
    }
}
