//! A trace of format 1 or 2, line by line: performs its entries, and compares each reply with that of
//! the board. The title of format 3 is wrong here.

use super::lines::{Lines, Next};
use super::open;
use super::script::entry_of;
use super::text::Text;
use super::{PAYLOAD, print};
use crate::board::events::{Event, Notices};
use std::fs::File;
use std::io;

/// Returns whether the text is a legal trace. Writes the verdict, with the number of entries or of
/// the first wrong line.
pub fn check(input: File, output: File) -> io::Result<bool> {
    let mut lines = Lines::new(input);
    let mut text = Text::new(output);
    let entries = count_entries(&mut lines, &mut text)?;
    match entries {
        Some(entries) => {
            text.put(b"legal ");
            text.put_decimal(entries);
        }
        None => {
            text.put(b"refused ");
            text.put_decimal(lines.number());
        }
    }
    text.put(b"\n");
    text.flush()?;
    Ok(entries.is_some())
}

/// The number of entries of a legal trace. Otherwise the last line read is wrong.
fn count_entries(lines: &mut Lines, text: &mut Text) -> io::Result<Option<u64>> {
    let is_second = match lines.next(text)? {
        Next::Line(b"trace 1") => false,
        Next::Line(b"trace 2") => true,
        _ => return Ok(None),
    };
    let Next::Line(line) = lines.next(text)? else {
        return Ok(None);
    };
    let Ok(mut board) = open(line) else {
        return Ok(None);
    };
    let mut notices = Notices::new();
    let mut payload = [0; PAYLOAD];
    let mut entries = 0;
    loop {
        let Next::Line(line) = lines.next(text)? else {
            return Ok(None);
        };
        if line.starts_with(b"end ") {
            text.put(b"end ");
            text.put_decimal(entries);
            if is_second {
                text.put(b" ");
                text.put_decimal(board.next_ticket());
            }
            let is_last = text.take() == line && matches!(lines.next(text)?, Next::End);
            return Ok(is_last.then_some(entries));
        }
        let Some(event) = entry_of(line, &mut payload) else {
            return Ok(None);
        };
        if !is_second && matches!(event, Event::Reset { .. }) {
            return Ok(None);
        }
        let reply = board.perform(&event, &mut notices);
        let Next::Line(line) = lines.next(text)? else {
            return Ok(None);
        };
        print::put_reply(text, &reply);
        if text.take().strip_suffix(b"\n") != Some(line) {
            return Ok(None);
        }
        entries += 1;
    }
}
