//! Time and way under a sheet, held against the reference: the calls that check the oracle, and those over an opened one.

use super::reference::sheets::Under;
use super::reference::{Answer, Outcome};
use super::{answer_record, route_record, same, Input, Lent, Memory, Opened, OracleCase};
use jukesogbi::core::raw;

// ---- The calls. In all of them the pointers and lengths are those of memory that lives through the call. ----

pub fn check_time_under(input: &Input, sheet: &Input, s: u32, t: u32, words: usize, expected: &Outcome<Answer>) {
    let at = || format!("{}, {}: time {s} to {t} with {words} words", (input.name)(), (sheet.name)());
    let (file, lines, mut memory) = (input.bytes(), sheet.bytes(), Memory::lend(words, 0));
    let work = memory.words.part_mut().as_mut_ptr();
    let got = unsafe { raw::jukesogbi_time_under(file.as_ptr(), file.len(), lines.as_ptr(), lines.len(), s, t, work, words) };
    same(got, answer_record(expected.result), &at);
    memory.check(expected, &at);
}

pub fn check_way_under(input: &Input, sheet: &Input, s: u32, t: u32, words: usize, room: usize, expected: &Outcome<usize>) {
    let at = || format!("{}, {}: way {s} to {t} with {words} words and {room} bytes", (input.name)(), (sheet.name)());
    let (file, lines, mut memory) = (input.bytes(), sheet.bytes(), Memory::lend(words, room));
    let (work, out) = (memory.words.part_mut().as_mut_ptr(), memory.out.part_mut().as_mut_ptr());
    let got = unsafe { raw::jukesogbi_way_under(file.as_ptr(), file.len(), lines.as_ptr(), lines.len(), s, t, work, words, out, room) };
    same(got, route_record(expected.result), &at);
    memory.check(expected, &at);
}

/// A sheet beside a file asked as an oracle.
pub struct SheetCase<'a> {
    case: &'a OracleCase,
    sheet: Input,
    pub reference: Under<'a>,
}

impl<'a> SheetCase<'a> {
    pub fn new(case: &'a OracleCase, name: impl Fn() -> String + 'static, sheet: Vec<u8>) -> SheetCase<'a> {
        SheetCase { case, sheet: Input::new(name, &sheet), reference: Under::of(&case.reference, sheet) }
    }

    /// The working words needed, by the reference.
    pub fn words(&self) -> usize {
        self.case.words()
    }

    pub fn time(&self, s: u32, t: u32, words: usize) -> Outcome<Answer> {
        let expected = self.reference.time(s, t, words);
        check_time_under(&self.case.input, &self.sheet, s, t, words, &expected);
        expected
    }

    pub fn way(&self, s: u32, t: u32, words: usize, room: usize) -> Outcome<usize> {
        let expected = self.reference.way(s, t, words, room);
        check_way_under(&self.case.input, &self.sheet, s, t, words, room, &expected);
        expected
    }
}

impl Drop for SheetCase<'_> {
    /// Once for all calls: the sheet is as it was.
    fn drop(&mut self) {
        if !std::thread::panicking() {
            self.sheet.check(&self.reference.sheet);
        }
    }
}

/// The sheet's oracle is the one that was opened. Each question is put to the checking call, too.
impl Opened<'_> {
    pub fn time_under(&mut self, under: &SheetCase, s: u32, t: u32) -> Result<Answer, u32> {
        let at = self.at(format!("{}, time {s} to {t}", (under.sheet.name)()));
        let (file, lines) = (self.case.input.bytes(), under.sheet.bytes());
        let expected = under.time(s, t, under.words()).result;
        let (work, words) = (self.words.part_mut().as_mut_ptr(), self.words.size);
        let got = unsafe { raw::jukesogbi_opened_time_under(file.as_ptr(), file.len(), lines.as_ptr(), lines.len(), s, t, work, words) };
        same(got, answer_record(expected), &at);
        self.check(&at);
        expected
    }

    pub fn way_under(&mut self, under: &SheetCase, s: u32, t: u32, room: usize) -> Result<usize, u32> {
        let at = self.at(format!("{}, way {s} to {t} with {room} bytes", (under.sheet.name)()));
        let (file, lines) = (self.case.input.bytes(), under.sheet.bytes());
        let expected = under.way(s, t, under.words(), room);
        let mut out = Lent::<u8>::new(room);
        let out_after = expected.expected_out(out.part());
        let (work, words) = (self.words.part_mut().as_mut_ptr(), self.words.size);
        let to = out.part_mut().as_mut_ptr();
        let got = unsafe { raw::jukesogbi_opened_way_under(file.as_ptr(), file.len(), lines.as_ptr(), lines.len(), s, t, work, words, to, room) };
        same(got, route_record(expected.result), &at);
        self.check(&at);
        out.check_kept(&out_after, &at);
        expected.result
    }
}

/// First byte, road, added seconds.
pub type Line = (u8, u16, u32);
