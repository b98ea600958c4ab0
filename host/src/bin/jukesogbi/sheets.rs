//! The commands that make a day sheet of a text, and print one back.

use crate::args::Call;
use crate::input::{self, Input};
use crate::lines::{shown, Line, Lines, LONGEST};
use crate::output::complain;
use crate::stop::{fault, Done};
use jukesogbi::files::Kind;
use jukesogbi::sheet::{self, Sheet};
use std::io::{self, Read};

pub fn make(call: &mut Call) -> Done {
    let name = &call.words[0];
    let sheet = match input::read(name, |from, _| of_text(from))? {
        Ok(sheet) => sheet,
        Err(cause) => return fault(format!("{}, {cause}", input::title(name).display())),
    };
    let count = |is: fn(&sheet::Line) -> bool| sheet::lines(sheet.bytes()).filter(is).count();
    let (all, closed) = (count(|_| true), count(|line| matches!(line, sheet::Line::Closed(_))));
    call.deliver(1, sheet.bytes(), &format!("sheet of {all} lines, {closed} closed, {} delayed", all - closed))?;
    note(&sheet::closed_then_delayed(sheet::lines(sheet.bytes()))).into_iter().for_each(complain);
    Ok(())
}

/// A word on closures that a delay was perhaps meant to end.
fn note(roads: &[u16]) -> Option<String> {
    let (first, more) = roads.split_first()?;
    let others = match more.len() {
        0 => String::new(),
        1 => " (and 1 more road)".to_string(),
        count => format!(" (and {count} more roads)"),
    };
    Some(format!("road {first} stays closed{others}: a delay does not end a closure"))
}

/// The sheet of a text, or the number of a line and what is wrong with it.
fn of_text(from: &mut dyn Read) -> io::Result<Result<Sheet, String>> {
    let (mut lines, mut sheet) = (Lines::of(from), Sheet::default());
    while let Some(line) = lines.next()? {
        if let Err(cause) = put(&mut sheet, line) {
            return Ok(Err(format!("line {}: {cause}", lines.number)));
        }
    }
    Ok(Ok(sheet))
}

/// A blank line is passed over.
fn put(sheet: &mut Sheet, line: Line) -> Result<(), String> {
    let Line::Whole(bytes) = line else { return Err(format!("longer than {LONGEST} bytes")) };
    let wrong = |cause: &str| format!("`{}`: {cause}", shown(bytes));
    let text = std::str::from_utf8(bytes).map_err(|_| wrong("this is no text"))?;
    if text.trim().is_empty() {
        return Ok(());
    }
    if sheet.put(text.parse().map_err(wrong)?) { Ok(()) } else { Err("there is no room for so many lines".to_string()) }
}

/// The core says whether it is a sheet.
pub fn print(call: &mut Call) -> Done {
    let sheet = Input::read(&call.words[0], Kind::Sheet)?;
    sheet.judged(sheet::checked(&sheet))?;
    for line in sheet::lines(&sheet) {
        call.out.line(line)?;
    }
    Ok(())
}
