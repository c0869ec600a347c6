//! Whole texts: scripts and traces, and the entries of a trace.

use crate::{beyond_the_header, sys, Event, Reply};
use core::error::Error;
use core::fmt;

/// How a replay ended.
#[must_use = "the output may not fit, or not be there"]
#[derive(Clone, Copy, PartialEq, Eq, Debug)]
pub enum End {
    /// No line is wrong.
    Done {
        /// The length of the whole text in bytes, even if it did not fit.
        length: usize,
    },
    /// A line is wrong, and no line after it was performed. The last line of the text is the fault.
    WrongLine {
        /// The line, counted from 1.
        line: u64,
        /// The length of the whole text in bytes, even if it did not fit.
        length: usize,
    },
    /// An allocation failed. The buffer is unchanged.
    NoMemory,
    /// The script has more than 1,073,741,824 bytes, and no line of these is wrong. The buffer is
    /// unchanged.
    TooLong,
}

/// Performs a script on a board of its own, and writes its output to a buffer, as much as fits.
///
/// Allocates a board and the whole output, and frees both.
///
/// ```
/// use synicboard::{replay, End};
///
/// let mut room = [0; 64];
/// let end = replay(b"board 1 1 0\nassert 0 60\ntake 0\n", &mut room);
/// let text = b"= done\n. requested 0 60\n= taken 60\n";
/// assert_eq!(end, End::Done { length: text.len() });
/// assert_eq!(room[..text.len()], *text);
/// ```
pub fn replay(script: &[u8], room: &mut [u8]) -> End {
    // SAFETY: both slices are valid for their lengths, and the address of an empty one is not null.
    let end = unsafe { sys::synicboard_replay(script.as_ptr(), script.len(), room.as_mut_ptr(), room.len()) };
    let (line, length) = (end.line, end.length);
    match end.kind {
        sys::SYNICBOARD_OK => End::Done { length },
        sys::SYNICBOARD_WRONG_LINE => End::WrongLine { line, length },
        sys::SYNICBOARD_NO_MEMORY => End::NoMemory,
        sys::SYNICBOARD_TOO_LONG => End::TooLong,
        _ => beyond_the_header(&end),
    }
}

/// The verdict on a trace.
#[must_use]
#[derive(Clone, Copy, PartialEq, Eq, Debug)]
pub enum Verdict {
    /// It is the trace of a legal history.
    Legal {
        /// The entries of the history.
        entries: u64,
    },
    /// It is not.
    Refused {
        /// The first wrong line, counted from 1.
        line: u64,
    },
    /// An allocation failed.
    NoMemory,
    /// The trace has more than 1,073,741,824 bytes, and no line of these is wrong.
    TooLong,
}

impl Verdict {
    /// Decodes the result of a check of a text that is not null.
    pub(crate) fn of(kind: u8, entries: u64, line: u64) -> Verdict {
        match kind {
            sys::SYNICBOARD_OK => Verdict::Legal { entries },
            sys::SYNICBOARD_WRONG_LINE => Verdict::Refused { line },
            sys::SYNICBOARD_NO_MEMORY => Verdict::NoMemory,
            sys::SYNICBOARD_TOO_LONG => Verdict::TooLong,
            _ => beyond_the_header(&kind),
        }
    }
}

/// Checks whether a text is the trace of a legal history, in one of the formats 1 to 3. A trace of format
/// 3 may begin with an image, as [`Board::save`](crate::Board::save) writes it.
///
/// Allocates a board, and frees it.
///
/// ```
/// use synicboard::{check, Verdict};
///
/// let trace = b"trace 1\nboard 1 1 0\n0 take 0\n= taken none\nend 1\n";
/// assert_eq!(check(trace), Verdict::Legal { entries: 1 });
/// assert_eq!(check(&trace[..20]), Verdict::Refused { line: 3 });
/// ```
pub fn check(trace: &[u8]) -> Verdict {
    // SAFETY: the slice is valid for its length, and the address of an empty one is not null.
    let verdict = unsafe { sys::synicboard_check(trace.as_ptr(), trace.len()) };
    Verdict::of(verdict.kind, verdict.entries, verdict.line)
}

/// Why no entry was written. The buffer is unchanged.
#[derive(Clone, Copy, PartialEq, Eq, Debug)]
#[non_exhaustive]
pub enum FormatFault {
    /// The reply is [`Reply::NoEvent`], so nothing was performed.
    NoEvent,
    /// An allocation failed.
    Memory,
}

impl fmt::Display for FormatFault {
    fn fmt(&self, formatter: &mut fmt::Formatter<'_>) -> fmt::Result {
        formatter.write_str(match self {
            FormatFault::NoEvent => "nothing was performed",
            FormatFault::Memory => "out of memory",
        })
    }
}

impl Error for FormatFault {}

/// Writes the two lines of a trace entry for an event and its reply to a buffer, as much as fits, and
/// returns their length: at most 76 bytes for any event except a post, and 535 for a post.
///
/// Threads that share a board with a lock of their own can record a trace this way, in the order in
/// which they hold the lock. `actor` is the number of the thread. Allocates the lines, and frees them.
///
/// # Errors
///
/// [`FormatFault::NoEvent`] if the reply is [`Reply::NoEvent`], [`FormatFault::Memory`] if an allocation fails.
///
/// ```
/// use synicboard::{Board, Event, Ticket, Vp, format_entry};
///
/// let mut board = Board::open(1, 1, Ticket::new(0)).unwrap();
/// let event = Event::Take { vp: Vp::ZERO };
/// let reply = board.perform(&event);
/// let mut room = [0; 535];
/// let length = format_entry(7, &event, &reply, &mut room).unwrap();
/// assert_eq!(room[..length], *b"7 take 0\n= taken none\n");
/// ```
pub fn format_entry(actor: u8, event: &Event, reply: &Reply, room: &mut [u8]) -> Result<usize, FormatFault> {
    let (event, reply) = (event.to_plain(), reply.to_plain());
    // SAFETY: both structs and the slice are valid, and the address of an empty slice is not null.
    let end = unsafe { sys::synicboard_format_entry(actor, &event, &reply, room.as_mut_ptr(), room.len()) };
    match (end.kind, end.line) {
        (sys::SYNICBOARD_OK, _) => Ok(end.length),
        (sys::SYNICBOARD_WRONG_LINE, 2) => Err(FormatFault::NoEvent),
        (sys::SYNICBOARD_NO_MEMORY, _) => Err(FormatFault::Memory),
        _ => beyond_the_header(&end),
    }
}
