//! The wages sheet held against the reference: the call that checks the oracle, and the one over an opened oracle. And legs to try them on.

use super::networks::pick;
use super::reference::wages::{LEG, MOST_LEGS};
use super::reference::Outcome;
use super::{output_record, same, Input, Lent, Memory, Opened, OracleCase};
use jukesogbi::core::raw;
use jukesogbi::sample::Random;

// ---- The calls. In all of them the pointers and lengths are those of memory that lives through the call. ----

/// Legs for a message.
fn shown(legs: &[u8]) -> String {
    let some = &legs[..legs.len().min(10 * LEG)];
    format!("{} bytes of legs, {some:?}{}", legs.len(), if some.len() < legs.len() { " and so on" } else { "" })
}

pub fn check_wages(input: &Input, legs: &[u8], words: usize, room: usize, expected: &Outcome<usize>) {
    let at = || format!("{}: wages of {} with {words} words and {room} bytes", (input.name)(), shown(legs));
    let (file, entered, mut memory) = (input.bytes(), Lent::holding(legs), Memory::lend(words, room));
    let (work, out) = (memory.words.part_mut().as_mut_ptr(), memory.out.part_mut().as_mut_ptr());
    let got = unsafe { raw::jukesogbi_wages(file.as_ptr(), file.len(), entered.part().as_ptr(), legs.len(), work, words, out, room) };
    same(got, output_record(expected.result), &at);
    memory.check(expected, &at);
    entered.check_kept(legs, &at);
}

impl OracleCase {
    pub fn wages(&self, legs: &[u8], words: usize, room: usize) -> Outcome<usize> {
        let expected = self.reference.wages(legs, words, room);
        check_wages(&self.input, legs, words, room, &expected);
        expected
    }
}

/// The question is put to the checking call, too.
impl Opened<'_> {
    pub fn wages(&mut self, legs: &[u8], room: usize) -> Result<usize, u32> {
        let at = self.at(format!("wages of {} with {room} bytes", shown(legs)));
        let (file, entered, mut out) = (self.case.input.bytes(), Lent::holding(legs), Lent::<u8>::new(room));
        let expected = self.case.wages(legs, self.case.words(), room);
        let out_after = expected.expected_out(out.part());
        let (work, words) = (self.words.part_mut().as_mut_ptr(), self.words.size);
        let (l, to) = (entered.part().as_ptr(), out.part_mut().as_mut_ptr());
        let got = unsafe { raw::jukesogbi_opened_wages(file.as_ptr(), file.len(), l, legs.len(), work, words, to, room) };
        same(got, output_record(expected.result), &at);
        self.check(&at);
        out.check_kept(&out_after, &at);
        entered.check_kept(legs, &at);
        expected.result
    }
}

// ---- Legs at random ----

/// The bytes of the result of so many legs.
pub fn result_size(legs: usize) -> usize {
    4 * legs + 12
}

/// So many legs between places of n.
pub fn random_legs(random: &mut Random, n: usize, count: usize) -> Vec<(u32, u32)> {
    let mut place = || random.below(n as u64) as u32;
    (0..count).map(|_| (place(), place())).collect()
}

/// From none to some, now and then about 1,000.
pub fn count(random: &mut Random) -> usize {
    match random.below(12) {
        0 => pick(random, &[MOST_LEGS - 1, MOST_LEGS, MOST_LEGS + 1, MOST_LEGS + 7]),
        1 => pick(random, &[0, 1]),
        _ => random.below(40) as usize,
    }
}
