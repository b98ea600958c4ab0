//! The converter's two calls held against the reference.

use super::reference::{convert, Outcome};
use super::{output_record, same, Input, Lent, Memory};
use jukesogbi::core::raw;

/// A file lent as an old network.
pub struct Converter {
    input: Input,
    pub bytes: Vec<u8>,
}

impl Converter {
    pub fn new(name: impl Fn() -> String + 'static, bytes: Vec<u8>) -> Converter {
        Converter { input: Input::new(name, &bytes), bytes }
    }

    /// The network's call. In both calls the pointers and lengths are those of memory that lives through the call.
    pub fn network(&self, room: usize) -> Outcome<usize> {
        let at = || format!("{}: convert with {room} bytes", (self.input.name)());
        let (file, mut memory) = (self.input.bytes(), Memory::lend(0, room));
        let got = unsafe { raw::jukesogbi_convert(file.as_ptr(), file.len(), memory.out.part_mut().as_mut_ptr(), room) };
        let expected = convert::convert(&self.bytes, room);
        same(got, output_record(expected.result), &at);
        memory.check(&expected, &at);
        expected
    }

    /// The network's call with room enough, which it does not refuse.
    pub fn converted(&self) -> Vec<u8> {
        let outcome = self.network(self.bytes.len());
        assert!(outcome.result.is_ok(), "{}: {:?}", (self.input.name)(), outcome.result);
        outcome.written
    }

    /// The sheet's call.
    pub fn sheet(&self, sheet: &[u8], room: usize) -> Outcome<usize> {
        let shown = &sheet[..sheet.len().min(60)];
        let at = || format!("{}: convert a sheet of {} bytes, {shown:?}.., with {room} bytes", (self.input.name)(), sheet.len());
        let (file, lines, mut memory) = (self.input.bytes(), Lent::holding(sheet), Memory::lend(0, room));
        let (lent, out) = (lines.part(), memory.out.part_mut().as_mut_ptr());
        let got = unsafe { raw::jukesogbi_convert_sheet(file.as_ptr(), file.len(), lent.as_ptr(), lent.len(), out, room) };
        let expected = convert::convert_sheet(&self.bytes, sheet, room);
        same(got, output_record(expected.result), &at);
        memory.check(&expected, &at);
        lines.check_kept(sheet, &at);
        expected
    }
}

impl Drop for Converter {
    /// Once for all calls: the file is as it was.
    fn drop(&mut self) {
        if !std::thread::panicking() {
            self.input.check(&self.bytes);
        }
    }
}
