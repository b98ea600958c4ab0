//! Times and answers as they are printed.

use crate::core::{Answer, Time};

/// Seconds, or a number of roads; `-` for none.
pub fn number(number: Option<u32>) -> String {
    number.map_or("-".to_string(), |number| number.to_string())
}

/// Seconds and roads; `- -` for none.
pub fn time(time: Option<Time>) -> String {
    format!("{} {}", number(time.map(|time| time.seconds)), number(time.map(|time| time.roads)))
}

/// Seconds and roads, the kind, and the pairs tried.
pub fn answer(a: &Answer) -> String {
    format!("{} {} {}", time(a.time), a.kind, a.pairs)
}
