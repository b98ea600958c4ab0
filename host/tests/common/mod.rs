//! What the tests share: lent memory with guards about it, and each call of the core held against the reference in everything it hands back and
//! leaves in lent memory.

// Each test file uses its own part of this.
#![allow(dead_code)]

pub mod built;
pub mod computed;
pub mod convert;
pub mod damaged;
pub mod networks;
pub mod no_time;
pub mod program;
pub mod random_sheets;
pub mod reference;
pub mod refusals;
pub mod roads;
pub mod sheets;
pub mod stored;
pub mod tables;
pub mod terminal;
pub mod wages;

use jukesogbi::core::raw;
use reference::{value, way_outcome, Answer, Block, Built, Map, Outcome, Pair, Part, SIDE, WORDS};
use std::cell::Cell;
use std::fmt::Debug;
use std::rc::Rc;

// ---- Lent memory ----

/// Elements before and after what is lent, which no call may change.
const GUARD: usize = 16;

/// Something to fill memory with that is never 0, so that a zeroed element shows.
pub trait Filler: Copy + PartialEq + Debug {
    fn filler(salt: u64, at: usize) -> Self;
}

fn mixed(salt: u64, at: usize) -> u64 {
    let z = (salt.wrapping_mul(0x9e37_79b9_7f4a_7c15) ^ at as u64).wrapping_mul(0xbf58_476d_1ce4_e5b9);
    z ^ (z >> 29)
}

impl Filler for u8 {
    fn filler(salt: u64, at: usize) -> u8 {
        (mixed(salt, at) >> 32) as u8 | 1
    }
}

impl Filler for u32 {
    fn filler(salt: u64, at: usize) -> u32 {
        (mixed(salt, at) >> 24) as u32 | 1
    }
}

thread_local! {
    /// Each lending gets another filling, so that nothing can hang on what lent memory held before.
    static SALT: Cell<u64> = const { Cell::new(0) };
}

/// Memory lent from the middle of a larger vector.
pub struct Lent<T> {
    whole: Vec<T>,
    size: usize,
    /// The guards as they were.
    before: Vec<T>,
    after: Vec<T>,
}

impl<T: Filler> Lent<T> {
    /// Filled all over.
    pub fn new(size: usize) -> Lent<T> {
        let salt = SALT.with(|s| s.replace(s.get() + 1));
        let whole: Vec<T> = (0..GUARD + size + GUARD).map(|at| T::filler(salt, at)).collect();
        Lent { before: whole[..GUARD].to_vec(), after: whole[GUARD + size..].to_vec(), whole, size }
    }

    pub fn holding(content: &[T]) -> Lent<T> {
        let Lent { before, after, .. } = Lent::new(0);
        Lent { whole: [&before, content, &after].concat(), size: content.len(), before, after }
    }

    pub fn part(&self) -> &[T] {
        &self.whole[GUARD..GUARD + self.size]
    }

    fn part_mut(&mut self) -> &mut [T] {
        &mut self.whole[GUARD..GUARD + self.size]
    }

    fn check_guards(&self, at: &dyn Fn() -> String) {
        assert!(self.whole[..GUARD] == self.before, "{}: memory before what was lent has changed", at());
        assert!(self.whole[GUARD + self.size..] == self.after, "{}: memory after what was lent has changed", at());
    }

    /// For what was lent to be read.
    fn check_kept(&self, content: &[T], at: &dyn Fn() -> String) {
        assert!(self.part() == content, "{}: what was lent to be read has changed", at());
        self.check_guards(at);
    }
}

/// Working words and output for one call.
struct Memory {
    words: Lent<u32>,
    out: Lent<u8>,
    words_before: Vec<u32>,
    out_before: Vec<u8>,
}

impl Memory {
    fn lend(words: usize, room: usize) -> Memory {
        let (words, out) = (Lent::<u32>::new(words), Lent::<u8>::new(room));
        Memory { words_before: words.part().to_vec(), out_before: out.part().to_vec(), words, out }
    }

    /// Compares all of it with what the outcome promises.
    fn check<V>(&self, expected: &Outcome<V>, at: &dyn Fn() -> String) {
        let (words, out) = (expected.expected_words(&self.words_before), expected.expected_out(&self.out_before));
        if let Some(i) = (0..words.len()).find(|&i| self.words.part()[i] != words[i]) {
            panic!("{}: working word {i} of {} is {}, not {}", at(), words.len(), self.words.part()[i], words[i]);
        }
        if let Some(i) = (0..out.len()).find(|&i| self.out.part()[i] != out[i]) {
            panic!("{}: byte {i} of {} of output is {}, not {}", at(), out.len(), self.out.part()[i], out[i]);
        }
        self.words.check_guards(at);
        self.out.check_guards(at);
    }
}

/// A file lent to be read, which no call may change.
pub struct Input {
    pub name: Rc<dyn Fn() -> String>,
    lent: Lent<u8>,
}

impl Input {
    pub fn new(name: impl Fn() -> String + 'static, bytes: &[u8]) -> Input {
        Input { name: Rc::new(name), lent: Lent::holding(bytes) }
    }

    fn check(&self, bytes: &[u8]) {
        self.lent.check_kept(bytes, &*self.name);
    }

    fn bytes(&self) -> &[u8] {
        self.lent.part()
    }
}

// ---- A call's record as the reference has it: all zeros beside a refusal ----

fn built_record(result: Result<Built, u32>) -> raw::Built {
    match result {
        Ok(b) => raw::Built { rule: 0, size: b.length as u32, transit: b.transit as u32 },
        Err(rule) => raw::Built { rule, size: 0, transit: 0 },
    }
}

fn answer_record(result: Result<Answer, u32>) -> raw::Answer {
    match result {
        Ok(a) => {
            let (seconds, roads) = value(a.time);
            raw::Answer { rule: 0, kind: if a.far { 1 } else { 2 }, seconds, roads, pairs: a.pairs as u32 }
        }
        Err(rule) => raw::Answer { rule, kind: 0, seconds: 0, roads: 0, pairs: 0 },
    }
}

/// The part, empty beside a refusal, and what the companion question says.
fn list_record(result: Result<Part, u32>) -> (raw::Part, u32) {
    match result {
        Ok(p) => (raw::Part { start: p.start, size: p.size }, 0),
        Err(rule) => (raw::Part { start: 0, size: 0 }, rule),
    }
}

fn route_record(result: Result<usize, u32>) -> raw::Route {
    match result {
        Ok(nodes) => raw::Route { rule: 0, nodes: nodes as u32 },
        Err(rule) => raw::Route { rule, nodes: 0 },
    }
}

fn times_record(result: Result<Block, u32>) -> raw::Times {
    match result {
        Ok(Block { times, roads }) => raw::Times { rule: 0, times, roads },
        Err(rule) => raw::Times { rule, times: [[0; SIDE]; SIDE], roads: [[0; SIDE]; SIDE] },
    }
}

fn output_record(result: Result<usize, u32>) -> raw::Output {
    match result {
        Ok(size) => raw::Output { rule: 0, size },
        Err(rule) => raw::Output { rule, size: 0 },
    }
}

fn same<T: PartialEq + Debug>(got: T, expected: T, at: &dyn Fn() -> String) {
    assert!(got == expected, "{}:\n  the core says      {got:?}\n  the reference says {expected:?}", at());
}

// ---- Each call against an outcome. In all of them the pointers and lengths are those of memory that lives through the call. ----

pub fn check_build(input: &Input, g: u32, words: usize, room: usize, expected: &Outcome<Built>) {
    let at = || format!("{}: build under {g} with {words} words and {room} bytes", (input.name)());
    let (file, mut memory) = (input.bytes(), Memory::lend(words, room));
    let (work, out) = (memory.words.part_mut().as_mut_ptr(), memory.out.part_mut().as_mut_ptr());
    let got = unsafe { raw::jukesogbi_build(file.as_ptr(), file.len(), g, work, words, out, room) };
    same(got, built_record(expected.result), &at);
    memory.check(expected, &at);
}

pub fn check_audit(input: &Input, words: usize, expected: &Outcome<()>) {
    let at = || format!("{}: audit with {words} words", (input.name)());
    let (file, mut memory) = (input.bytes(), Memory::lend(words, 0));
    let got = unsafe { raw::jukesogbi_audit(file.as_ptr(), file.len(), memory.words.part_mut().as_mut_ptr(), words) };
    same(got, expected.result.err().unwrap_or(0), &at);
    memory.check(expected, &at);
}

pub fn check_time(input: &Input, s: u32, t: u32, words: usize, expected: &Outcome<Answer>) {
    let at = || format!("{}: time {s} to {t} with {words} words", (input.name)());
    let (file, mut memory) = (input.bytes(), Memory::lend(words, 0));
    let got = unsafe { raw::jukesogbi_time(file.as_ptr(), file.len(), s, t, memory.words.part_mut().as_mut_ptr(), words) };
    same(got, answer_record(expected.result), &at);
    memory.check(expected, &at);
}

pub fn check_far(input: &Input, s: u32, t: u32, expected: &Outcome<Answer>) {
    let at = || format!("{}: far {s} to {t}", (input.name)());
    let file = input.bytes();
    let got = unsafe { raw::jukesogbi_far(file.as_ptr(), file.len(), s, t) };
    same(got, answer_record(expected.result), &at);
}

pub fn check_list(input: &Input, u: u32, expected: &Outcome<Part>) {
    let at = || format!("{}: list of {u}", (input.name)());
    let file = input.bytes();
    let got = unsafe { (raw::jukesogbi_list(file.as_ptr(), file.len(), u), raw::jukesogbi_list_rule(file.as_ptr(), file.len(), u)) };
    same(got, list_record(expected.result), &at);
}

pub fn check_way(input: &Input, s: u32, t: u32, words: usize, room: usize, expected: &Outcome<usize>) {
    let at = || format!("{}: way {s} to {t} with {words} words and {room} bytes", (input.name)());
    let (file, mut memory) = (input.bytes(), Memory::lend(words, room));
    let (work, out) = (memory.words.part_mut().as_mut_ptr(), memory.out.part_mut().as_mut_ptr());
    let got = unsafe { raw::jukesogbi_way(file.as_ptr(), file.len(), s, t, work, words, out, room) };
    same(got, route_record(expected.result), &at);
    memory.check(expected, &at);
}

pub fn check_block(input: &Input, starts: &[u32], ends: &[u32], words: usize, expected: &Outcome<Block>) {
    let at = || format!("{}: block from {starts:?} to {ends:?} with {words} words", (input.name)());
    let (file, mut memory) = (input.bytes(), Memory::lend(words, 0));
    let (from, to) = (Lent::holding(starts), Lent::holding(ends));
    let (s, t, work) = (from.part().as_ptr(), to.part().as_ptr(), memory.words.part_mut().as_mut_ptr());
    let got = unsafe { raw::jukesogbi_block(file.as_ptr(), file.len(), s, starts.len(), t, ends.len(), work, words) };
    same(got, times_record(expected.result), &at);
    memory.check(expected, &at);
    from.check_kept(starts, &at);
    to.check_kept(ends, &at);
}

// ---- Each call against the reference. They answer with the reference's outcome, for counting. ----

/// A file asked as a network.
pub struct NetworkCase {
    pub input: Input,
    pub reference: reference::Network,
}

impl NetworkCase {
    pub fn new(name: impl Fn() -> String + 'static, bytes: Vec<u8>) -> NetworkCase {
        NetworkCase { input: Input::new(name, &bytes), reference: reference::Network::of(bytes) }
    }

    /// The working words needed, by the reference.
    pub fn words(&self) -> usize {
        WORDS * self.reference.size()
    }

    pub fn build(&self, g: u32, words: usize, room: usize) -> Outcome<Built> {
        let expected = self.reference.build(g, words, room);
        check_build(&self.input, g, words, room, &expected);
        expected
    }
}

impl Drop for NetworkCase {
    /// Once for all calls: the file is as it was.
    fn drop(&mut self) {
        if !std::thread::panicking() {
            self.input.check(&self.reference.bytes);
        }
    }
}

/// A file asked as an oracle.
pub struct OracleCase {
    pub input: Input,
    pub reference: reference::Questions,
}

impl OracleCase {
    pub fn new(name: impl Fn() -> String + 'static, bytes: Vec<u8>) -> OracleCase {
        OracleCase { input: Input::new(name, &bytes), reference: reference::Questions::of(bytes) }
    }

    /// The working words needed, by the reference.
    pub fn words(&self) -> usize {
        WORDS * self.reference.size()
    }

    pub fn audit(&self, words: usize) -> Outcome<()> {
        let expected = self.reference.audit(words);
        check_audit(&self.input, words, &expected);
        expected
    }

    pub fn time(&self, s: u32, t: u32, words: usize) -> Outcome<Answer> {
        let expected = self.reference.time(s, t, words);
        check_time(&self.input, s, t, words, &expected);
        expected
    }

    pub fn far(&self, s: u32, t: u32) -> Outcome<Answer> {
        let expected = self.reference.far(s, t);
        check_far(&self.input, s, t, &expected);
        expected
    }

    pub fn list(&self, u: u32) -> Outcome<Part> {
        let expected = self.reference.list(u);
        check_list(&self.input, u, &expected);
        expected
    }

    pub fn way(&self, s: u32, t: u32, words: usize, room: usize) -> Outcome<usize> {
        let expected = self.reference.way(s, t, words, room);
        check_way(&self.input, s, t, words, room, &expected);
        expected
    }

    /// The way where it may have many places, by the reference's times from its end, since those are the times to it as well. The reference's own way
    /// asks for the times from each of its places. Both are places of the file.
    pub fn long_way(&self, s: u32, t: u32, room: usize) -> Outcome<usize> {
        let places = way_by_its_end(self.reference.map().unwrap(), s as usize, t as usize);
        let expected = way_outcome(places, self.words(), room);
        check_way(&self.input, s, t, self.words(), room, &expected);
        expected
    }

    pub fn block(&self, starts: &[u32], ends: &[u32], words: usize) -> Outcome<Block> {
        let expected = self.reference.block(starts, ends, words);
        check_block(&self.input, starts, ends, words, &expected);
        expected
    }

    /// Opens it in so many words. Where that is refused, nothing may be written.
    pub fn open(&self, words: usize) -> Result<Opened<'_>, u32> {
        let at = || format!("{}: open with {words} words", (self.input.name)());
        let (file, expected, mut lent) = (self.input.bytes(), self.reference.open(words), Lent::<u32>::new(words));
        let before = lent.part().to_vec();
        let got = unsafe { raw::jukesogbi_open(file.as_ptr(), file.len(), lent.part_mut().as_mut_ptr(), words) };
        same(got, expected.err().unwrap_or(0), &at);
        let opened = Opened { case: self, behind: before[if expected.is_ok() { self.words() } else { 0 }..].to_vec(), words: lent };
        opened.check(&at);
        expected.map(|()| opened)
    }
}

fn way_by_its_end(map: &Map, s: usize, t: usize) -> Vec<usize> {
    let Some(mut left) = map.d(t, s) else { return Vec::new() };
    let mut places = vec![s];
    while left != Pair::ZERO {
        let u = *places.last().unwrap();
        let on = map.steps().filter(|&(from, to, seconds)| from == u && map.d(t, to).is_some_and(|rest| Pair::road(seconds) + rest == left));
        let (_, next, _) = on.min_by_key(|&(_, to, _)| to).expect("a least walk begins with a road");
        places.push(next);
        left = map.d(t, next).unwrap();
    }
    places
}

impl Drop for OracleCase {
    /// Once for all calls: the file is as it was.
    fn drop(&mut self) {
        if !std::thread::panicking() {
            self.input.check(&self.reference.bytes);
        }
    }
}

// ---- An opened oracle ----

/// An oracle opened in lent words. Each question is put to the checking call, too, and that is held against the reference; what it answers is what the
/// question without a check must answer.
pub struct Opened<'a> {
    case: &'a OracleCase,
    /// Of the first 8 N, only the core knows what they hold.
    words: Lent<u32>,
    /// What stands behind those.
    behind: Vec<u32>,
}

impl Opened<'_> {
    fn check(&self, at: &dyn Fn() -> String) {
        let words = self.words.part();
        assert!(words.ends_with(&self.behind), "{}: a word that is not to be written has changed", at());
        self.words.check_guards(at);
    }

    fn at(&self, question: String) -> impl Fn() -> String {
        let name = self.case.input.name.clone();
        move || format!("{}: opened, {question}", name())
    }

    pub fn time(&mut self, s: u32, t: u32) -> Result<Answer, u32> {
        let (at, file) = (self.at(format!("time {s} to {t}")), self.case.input.bytes());
        let expected = self.case.time(s, t, self.case.words()).result;
        let (work, words) = (self.words.part_mut().as_mut_ptr(), self.words.size);
        let got = unsafe { raw::jukesogbi_opened_time(file.as_ptr(), file.len(), s, t, work, words) };
        same(got, answer_record(expected), &at);
        self.check(&at);
        expected
    }

    /// No word is written.
    pub fn far(&self, s: u32, t: u32) -> Result<Answer, u32> {
        let (at, file) = (self.at(format!("far {s} to {t}")), self.case.input.bytes());
        let expected = self.case.far(s, t).result;
        let (words, before) = (self.words.part(), self.words.part().to_vec());
        let got = unsafe { raw::jukesogbi_opened_far(file.as_ptr(), file.len(), s, t, words.as_ptr(), words.len()) };
        same(got, answer_record(expected), &at);
        self.words.check_kept(&before, &at);
        expected
    }

    pub fn way(&mut self, s: u32, t: u32, room: usize) -> Result<usize, u32> {
        let n = self.case.reference.size() as u32;
        let expected = if s < n && t < n { self.case.long_way(s, t, room) } else { self.case.way(s, t, self.case.words(), room) };
        let (at, file) = (self.at(format!("way {s} to {t} with {room} bytes")), self.case.input.bytes());
        let mut out = Lent::<u8>::new(room);
        let out_after = expected.expected_out(out.part());
        let (work, words) = (self.words.part_mut().as_mut_ptr(), self.words.size);
        let got = unsafe { raw::jukesogbi_opened_way(file.as_ptr(), file.len(), s, t, work, words, out.part_mut().as_mut_ptr(), room) };
        same(got, route_record(expected.result), &at);
        self.check(&at);
        assert!(out.part() == out_after, "{}: output is {:?}, not {out_after:?}", at(), out.part());
        out.check_guards(&at);
        expected.result
    }

    pub fn block(&mut self, starts: &[u32], ends: &[u32]) -> Result<Block, u32> {
        let (at, file) = (self.at(format!("block from {starts:?} to {ends:?}")), self.case.input.bytes());
        let expected = self.case.block(starts, ends, self.case.words()).result;
        let (from, to) = (Lent::holding(starts), Lent::holding(ends));
        let (s, t) = (from.part().as_ptr(), to.part().as_ptr());
        let (work, words) = (self.words.part_mut().as_mut_ptr(), self.words.size);
        let got = unsafe { raw::jukesogbi_opened_block(file.as_ptr(), file.len(), s, starts.len(), t, ends.len(), work, words) };
        same(got, times_record(expected), &at);
        self.check(&at);
        from.check_kept(starts, &at);
        to.check_kept(ends, &at);
        expected
    }
}

// ---- Counts ----

/// How many random networks: `JUKESOGBI_NETWORKS`, or the default.
pub fn networks_to_try(default: u64) -> u64 {
    std::env::var("JUKESOGBI_NETWORKS").ok().and_then(|v| v.parse().ok()).unwrap_or(default)
}
