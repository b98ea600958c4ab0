//! Document 02's day sheets, from its text alone: rules 18 to 20, the roads as a sheet leaves them, and time and way under it.

use super::*;

const EDITION: u8 = 1;
/// The kind of the one entry.
const KIND: u8 = 8;
/// A line: a byte, a 16-bit road, 32-bit added seconds.
const LINE: usize = 7;
pub const CLOSED: u8 = 1;
pub const DELAYED: u8 = 2;
/// The most seconds of a road.
const MOST: u64 = 100_000;

/// The sheet of these lines: first byte, road, added seconds.
pub fn sheet(lines: &[(u8, u16, u32)]) -> Vec<u8> {
    let line = |&(first, road, added): &(u8, u16, u32)| [&[first][..], &bytes_16(road as usize), &bytes_32(added as usize)].concat();
    with_contents(lines.iter().flat_map(line).collect())
}

/// The file of this body, which may be no body of a sheet.
pub fn with_contents(body: Vec<u8>) -> Vec<u8> {
    let contents = [&[EDITION, 1, KIND][..], &bytes_32(entry_at(1)), &bytes_32(body.len())].concat();
    [contents, body].concat()
}

// ---- Rules 18 to 20. Each may count on the rules before it. ----

/// The contents-first form: edition, one entry, its kind; the body follows directly and ends the file.
fn breaks_form(f: &[u8]) -> bool {
    if f.len() < 2 || f[0] != EDITION || f[1] != 1 || f.len() < entry_at(1) {
        return true;
    }
    let entry = &f[entry_at(0)..entry_at(1)];
    let (kind, offset, length) = (entry[0], number_32(entry, 1) as u64, number_32(entry, 5) as u64);
    kind != KIND || offset != entry_at(1) as u64 || offset + length != f.len() as u64
}

pub fn breaks_18(f: &[u8]) -> bool {
    if breaks_form(f) || !(f.len() - entry_at(1)).is_multiple_of(LINE) {
        return true;
    }
    lines(f).any(|line| line.first != CLOSED && line.first != DELAYED || line.first == CLOSED && line.added != 0)
}

pub(super) struct Line {
    pub(super) first: u8,
    pub(super) road: usize,
    pub(super) added: u64,
}

pub(super) fn lines(f: &[u8]) -> impl Iterator<Item = Line> + '_ {
    f[entry_at(1)..].chunks(LINE).map(|l| Line { first: l[0], road: number_16(l, 1) as usize, added: number_32(l, 3) as u64 })
}

pub(super) fn breaks_19(f: &[u8], map: &Map) -> bool {
    lines(f).any(|line| line.road >= map.roads.len())
}

fn breaks_20(map: &Map, holding: &BTreeMap<usize, Line>) -> bool {
    let over = |(i, road): (usize, &Road)| holding.get(&i).is_some_and(|line| line.first == DELAYED && road.seconds + line.added > MOST);
    map.roads.iter().enumerate().filter(|(_, road)| road.open).any(over)
}

// ---- Which line holds ----

/// Whether a line holds over one before it that is about the same road.
type HoldsOver = fn(&Line, &Line) -> bool;

/// T-05: "any closure in a sheet holds over every delay for that road; among delays the last still holds".
fn holds_over(line: &Line, before: &Line) -> bool {
    line.first == CLOSED || before.first == DELAYED
}

/// T-03, until T-05: "the last line about a road holds".
fn held_over(_: &Line, _: &Line) -> bool {
    true
}

/// The line that holds for each road that is named.
fn holding(f: &[u8], holds_over: HoldsOver) -> BTreeMap<usize, Line> {
    let mut held = BTreeMap::new();
    for line in lines(f) {
        if held.get(&line.road).is_none_or(|before| holds_over(&line, before)) {
            held.insert(line.road, line);
        }
    }
    held
}

/// T-05: "sheets where a delay follows a closure of its road and no later line closes it". The lines as `sheet` takes them.
pub fn delay_after_closure(lines: &[(u8, u16, u32)]) -> bool {
    let closes = |lines: &[(u8, u16, u32)], road: u16| lines.iter().any(|line| line.0 == CLOSED && line.1 == road);
    let is_such = |(k, line): (usize, &(u8, u16, u32))| line.0 == DELAYED && closes(&lines[..k], line.1) && !closes(&lines[k + 1..], line.1);
    lines.iter().enumerate().any(is_such)
}

// ---- The roads as a sheet leaves them ----

/// A road closed in body 3 is closed under every sheet: so over an old network, and no other has one.
fn left(map: &Map, holding: &BTreeMap<usize, Line>) -> Map {
    let road = |(i, old): (usize, &Road)| {
        let line = holding.get(&i);
        Road {
            ends: old.ends,
            seconds: old.seconds + line.map_or(0, |line| line.added),
            open: old.open && line.is_none_or(|line| line.first != CLOSED),
        }
    };
    Map {
        places: map.places.clone(),
        roads: map.roads.iter().enumerate().map(road).collect(),
        rows: map.places.iter().map(|_| OnceCell::new()).collect(),
    }
}

/// The first of rules 18 to 20 that a sheet breaks over these roads, or the roads as it leaves them.
fn read(f: &[u8], map: &Map, holds_over: HoldsOver) -> Result<Map, u32> {
    if breaks_18(f) {
        return Err(18);
    }
    if breaks_19(f, map) {
        return Err(19);
    }
    let holding = holding(f, holds_over);
    if breaks_20(map, &holding) {
        return Err(20);
    }
    Ok(left(map, &holding))
}

/// Whether there is an old way and its every step can still be driven in its old time: by some road between the two places, open under the sheet, that
/// takes just that time. A step's old time is its old seconds, which the seconds left fall by.
fn old_way_stands(old: &Map, new: &Map, s: usize, t: usize) -> bool {
    let way = old.way(s, t);
    let still = |step: &[usize]| {
        let left = |place: usize| old.d(place, t).unwrap().seconds;
        let seconds = left(step[0]) - left(step[1]);
        new.steps().any(|road| road == (step[0], step[1], seconds))
    };
    !way.is_empty() && way.windows(2).all(still)
}

// ---- The calls ----

/// A sheet beside a file lent as an oracle.
pub struct Under<'a> {
    pub questions: &'a Questions,
    pub sheet: Vec<u8>,
    /// The first of the oracle's rules and 18 to 20 that the two break, or the roads as the sheet leaves them.
    read: Result<Map, u32>,
}

impl<'a> Under<'a> {
    pub fn of(questions: &'a Questions, sheet: Vec<u8>) -> Under<'a> {
        Under::by(questions, sheet, holds_over)
    }

    /// As it was until T-05, to see what that changed.
    pub fn former(questions: &'a Questions, sheet: Vec<u8>) -> Under<'a> {
        Under::by(questions, sheet, held_over)
    }

    fn by(questions: &'a Questions, sheet: Vec<u8>, holds_over: HoldsOver) -> Under<'a> {
        let read = questions.read.as_ref().map_err(|rule| *rule).and_then(|shaped| read(&sheet, &shaped.map, holds_over));
        Under { questions, sheet, read }
    }

    /// The roads as the sheet leaves them.
    pub fn map(&self) -> Option<&Map> {
        self.read.as_ref().ok()
    }

    /// The oracle's rules, 12, 18, 19, 20, 14.
    fn asked(&self, s: u32, t: u32, words: usize) -> Result<(&Shaped, &Map), u32> {
        let shaped = self.questions.asked(&[s, t])?;
        let new = self.read.as_ref().map_err(|rule| *rule)?;
        if words < WORDS * shaped.map.size() {
            return Err(14);
        }
        Ok((shaped, new))
    }

    /// The time under the sheet: the oracle's rules, 12, 18, 19, 20, 14.
    pub fn time(&self, s: u32, t: u32, words: usize) -> Outcome<Answer> {
        let (shaped, new) = match self.asked(s, t, words) {
            Ok(asked) => asked,
            Err(rule) => return Outcome::refused(rule),
        };
        let (s, t) = (s as usize, t as usize);
        let old = self.questions.answer(shaped, s, t);
        let stands = old.time.is_none() || old_way_stands(&shaped.map, new, s, t);
        let answer = if stands { old } else { Answer { far: false, time: new.d(s, t), pairs: 0 } };
        Outcome { result: Ok(answer), zeroed: WORDS * new.size(), written: Vec::new() }
    }

    /// The way under the sheet: the oracle's rules, 12, 18, 19, 20, 14, 15. It goes over the roads as the sheet leaves them.
    pub fn way(&self, s: u32, t: u32, words: usize, room: usize) -> Outcome<usize> {
        match self.asked(s, t, words) {
            Ok((_, new)) => way_outcome(new.way(s as usize, t as usize), WORDS * new.size(), room),
            Err(rule) => Outcome::refused(rule),
        }
    }
}
