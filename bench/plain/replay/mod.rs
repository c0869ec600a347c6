//! Processes a script line by line: parses and performs each line, and writes its output. Checks a
//! trace in the same way.

mod fields;
mod lines;
mod print;
mod script;
mod text;
mod trace;

use crate::board::Board;
use crate::board::events::Notices;
use lines::{Lines, Next};
use script::{Item, event_of, opening_of};
use std::fs::File;
use std::io;
use text::Text;
pub use trace::check;

/// The greatest length of a payload.
pub const PAYLOAD: usize = 240;

enum Fault {
    Long,
    Cut,
    First,
    Size,
    Form,
}

impl Fault {
    fn word(&self) -> &'static str {
        match self {
            Fault::Long => "long",
            Fault::Cut => "cut",
            Fault::First => "first",
            Fault::Size => "size",
            Fault::Form => "form",
        }
    }
}

/// Returns whether the whole script was performed. A fault is the last line of the text.
pub fn replay(input: File, output: File) -> io::Result<bool> {
    let mut lines = Lines::new(input);
    let mut text = Text::new(output);
    let fault = perform_all(&mut lines, &mut text)?;
    if let Some(fault) = &fault {
        text.put(b"! ");
        text.put_decimal(lines.number());
        text.put(b" ");
        text.put_all(fault.word().as_bytes());
        text.put(b"\n");
    }
    text.flush()?;
    Ok(fault.is_none())
}

fn perform_all(lines: &mut Lines, text: &mut Text) -> io::Result<Option<Fault>> {
    let mut board = None;
    let mut notices = Notices::new();
    let mut payload = [0; PAYLOAD];
    loop {
        let line = match lines.next(text)? {
            Next::Line(line) => line,
            Next::Long => return Ok(Some(Fault::Long)),
            Next::Cut => return Ok(Some(Fault::Cut)),
            Next::End => return Ok(board.is_none().then_some(Fault::First)),
        };
        if matches!(line, [] | [b'#', ..]) {
            continue;
        }
        match &mut board {
            None => match open(line) {
                Ok(opened) => board = Some(opened),
                Err(fault) => return Ok(Some(fault)),
            },
            Some(board) => {
                if !perform(board, line, &mut payload, &mut notices, text) {
                    return Ok(Some(Fault::Form));
                }
            }
        }
        text.flush_full()?;
    }
}

fn open(line: &[u8]) -> Result<Board, Fault> {
    let (processors, pages, ticket) = opening_of(line).ok_or(Fault::First)?;
    if (1..=8).contains(&processors) && (1..=64).contains(&pages) {
        Ok(Board::open(processors, pages, ticket))
    } else {
        Err(Fault::Size)
    }
}

/// Returns whether the line is well formed.
fn perform(
    board: &mut Board,
    line: &[u8],
    payload: &mut [u8; PAYLOAD],
    notices: &mut Notices,
    text: &mut Text,
) -> bool {
    match event_of(line, payload) {
        Some(Item::Event(event)) => {
            let reply = board.perform(&event, notices);
            print::put_reply(text, &reply);
            for notice in notices.as_slice() {
                print::put_notice(text, notice);
            }
            true
        }
        Some(Item::Summary) => {
            print::put_summary(text, board);
            true
        }
        None => false,
    }
}
