//! The wages sheet: legs as bytes, and what the core writes of them. For handing over and showing only: which legs are answered, and how, is the core's to say.

use crate::core;
use crate::files;
use crate::form::*;

/// Legs as they are entered, however many these are, in the memory of 1,001.
///
/// More than 1,000 are refused: by rule 12 where any of them names no place, else by 17. So from the 1,001st on one leg stands for all, with the greatest
/// start and the greatest end of them: it names no place just when one of these does, and there are too many with it as there are without.
#[derive(Clone, Debug, Default, PartialEq, Eq)]
pub struct Legs(Vec<(u16, u16)>);

impl Legs {
    /// Puts a leg behind the others. A number beyond 16 bits names no place, and 65,535, which never does, stands for it.
    pub fn put(&mut self, s: u32, t: u32) {
        let place = |number: u32| u16::try_from(number).unwrap_or(u16::MAX);
        let leg = (place(s), place(t));
        match self.0.get_mut(MAX_LEGS) {
            Some(rest) => *rest = (rest.0.max(leg.0), rest.1.max(leg.1)),
            None => self.0.push(leg),
        }
    }

    /// As the core takes them.
    pub fn bytes(&self) -> Vec<u8> {
        legs(&self.0)
    }
}

/// The bytes of these legs, a start and an end each.
pub fn legs(pairs: &[(u16, u16)]) -> Vec<u8> {
    pairs.iter().flat_map(|(s, t)| [s.to_le_bytes(), t.to_le_bytes()].concat()).collect()
}

/// The bytes that the result of these legs takes.
pub fn size(legs: &[u8]) -> usize {
    SECONDS_SIZE * (legs.len() / LEG_SIZE) + NONE_SIZE + TOTAL_SIZE
}

/// A time for each leg in the order entered, in seconds, how many have none, and the total of the others.
#[derive(Clone, Debug, PartialEq, Eq)]
pub struct Wages {
    pub times: Vec<Option<u32>>,
    pub none: u32,
    pub total: u64,
}

impl Wages {
    /// From all that the core has written.
    pub fn of(written: &[u8]) -> Wages {
        let (times, end) = written.split_at(written.len() - NONE_SIZE - TOTAL_SIZE);
        let (low, high) = (files::read32(end, NONE_SIZE), files::read32(end, NONE_SIZE + TOTAL_SIZE / 2));
        Wages {
            times: times.chunks_exact(SECONDS_SIZE).map(|time| core::seconds(files::read32(time, 0))).collect(),
            none: files::read32(end, 0),
            total: (high as u64) << u32::BITS | low as u64,
        }
    }
}

#[cfg(test)]
mod tests {
    use super::*;

    #[test]
    fn legs_as_bytes() {
        assert_eq!(legs(&[]), []);
        assert_eq!(legs(&[(0, 258), (4_095, u16::MAX)]), [0, 0, 2, 1, 255, 15, 255, 255]);
        let mut some = Legs::default();
        assert_eq!(some.bytes(), []);
        for (s, t) in [(7, 65_535), (65_536, 3), (u32::MAX, 65_537)] {
            some.put(s, t);
        }
        assert_eq!(some.bytes(), [7, 0, 255, 255, 255, 255, 3, 0, 255, 255, 255, 255]);
    }

    /// Up to 1,000 they are all there; behind them one has the greatest numbers of all.
    #[test]
    fn many_legs() {
        let mut many = Legs::default();
        let pairs: Vec<(u16, u16)> = (0..1_000).map(|i| (i, 2_000 - i)).collect();
        pairs.iter().for_each(|&(s, t)| many.put(s as u32, t as u32));
        assert_eq!(many.bytes(), legs(&pairs));
        for ((s, t), rest) in [((3, 4), (3, 4)), ((1, 9), (3, 9)), ((5, 0), (5, 9)), ((2, 65_536), (5, u16::MAX)), ((1, 1), (5, u16::MAX))] {
            many.put(s, t);
            assert_eq!(many.bytes(), [legs(&pairs), legs(&[rest])].concat());
        }
    }

    #[test]
    fn what_is_written() {
        assert_eq!((size(&[]), size(&[0; 4]), size(&[0; 4_000])), (12, 16, 4_012));
        assert_eq!(Wages::of(&[0; 12]), Wages { times: vec![], none: 0, total: 0 });
        let written = [[1, 2, 0, 0], [255; 4], [0; 4], [1, 0, 0, 0], [2, 0, 0, 1], [3, 0, 0, 4]].concat();
        assert_eq!(Wages::of(&written), Wages { times: vec![Some(513), None, Some(0)], none: 1, total: 0x0400_0003_0100_0002 });
    }
}
