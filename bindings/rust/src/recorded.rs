//! A board with a lock and a history, for several threads.

use crate::notice::Room;
use crate::queries::first_due;
use crate::{
    sys, Event, Line, Notices, OpenFault, Reply, Ticket, TimerId, Vector, Verdict, Vp, MOST_NOTICES,
};
use core::cell::UnsafeCell;
use core::error::Error;
use core::fmt;

/// The history cannot grow: an allocation failed. No event was performed.
#[derive(Clone, Copy, PartialEq, Eq, Hash, Debug)]
pub struct NoEntry;

impl fmt::Display for NoEntry {
    fn fmt(&self, formatter: &mut fmt::Formatter<'_>) -> fmt::Result {
        formatter.write_str("no memory for one more entry of the history")
    }
}

impl Error for NoEntry {}

/// A buffer for the notices of an event, which an actor reuses for all its calls.
pub struct NoticeRoom {
    room: Room,
    count: usize,
}

impl NoticeRoom {
    /// An empty buffer with capacity for the notices of any event, some 9 KB.
    pub fn new() -> NoticeRoom {
        NoticeRoom { room: Room::new(), count: 0 }
    }

    /// The notices of the last event that used this buffer.
    pub fn notices(&self) -> Notices<'_> {
        // SAFETY: the library wrote `count` notices, and the buffer is only in this value, which is
        // not `Sync`.
        unsafe { self.room.first(self.count) }
    }
}

impl Default for NoticeRoom {
    fn default() -> NoticeRoom {
        NoticeRoom::new()
    }
}

impl fmt::Debug for NoticeRoom {
    fn fmt(&self, formatter: &mut fmt::Formatter<'_>) -> fmt::Result {
        self.notices().fmt(formatter)
    }
}

/// The result of settling a history.
#[must_use = "the trace may not fit, or not be there"]
#[derive(Clone, Copy, PartialEq, Eq, Debug)]
pub struct Settled {
    /// Legal, with the number of its entries, unless an allocation failed.
    pub verdict: Verdict,
    /// The length of the whole trace in bytes, even if it did not fit; 0 if an allocation failed.
    pub length: usize,
}

/// A board with a lock and a history, for several threads. The history has an entry for each event, with
/// its actor and its reply, in the order in which the events were performed.
///
/// An actor is a number that the caller gives to each thread. Devices raise through a [`Line`], without
/// the lock. The methods block on the lock, and each history entry allocates memory.
/// [`settle`](RecordedBoard::settle) writes the history as a trace, which is legal.
///
/// ```
/// use std::thread;
/// use synicboard::{Event, NoticeRoom, RecordedBoard, Ticket, Verdict, Vp};
///
/// # fn main() -> Result<(), synicboard::OpenFault> {
/// let board = RecordedBoard::open(2, 1, Ticket::new(0))?;
/// thread::scope(|scope| {
///     for vp in Vp::below(2) {
///         let board = &board;
///         scope.spawn(move || board.act(vp.number(), &Event::Take { vp }, &mut NoticeRoom::new()));
///     }
/// });
/// let settled = board.settle(&mut []);
/// assert_eq!(settled.verdict, Verdict::Legal { entries: 2 });
/// # Ok(())
/// # }
/// ```
pub struct RecordedBoard {
    // Only opening and closing write the handle, and they own the value.
    handle: UnsafeCell<sys::synicboard_shared>,
}

// SAFETY: the header allows any number of threads in its calls at the same time, with one handle,
// except while it is opened or closed, and those own the value.
unsafe impl Send for RecordedBoard {}
// SAFETY: as above.
unsafe impl Sync for RecordedBoard {}

/// Makes a call of the library with the handle of a recorded board.
macro_rules! ask {
    ($board:expr, $call:ident $(, $argument:expr)*) => {{
        let handle = $board.handle.get();
        // SAFETY: the handle was closed or opened by the library, is in this value and has no copy.
        // The address of each slice or buffer is not null and valid for its length; a line's handle
        // has no copy and is borrowed for this call alone.
        unsafe { sys::$call(handle $(, $argument)*) }
    }};
}

impl RecordedBoard {
    /// Opens a board of 1 to 8 processors and 1 to 64 guest pages at time 0 with an empty history.
    /// The first message that it accepts gets the ticket `first_ticket`.
    ///
    /// # Errors
    ///
    /// [`OpenFault::BadSize`] if a size is out of range, [`OpenFault::Memory`] if an allocation
    /// fails.
    ///
    /// # Panics
    ///
    /// If the library that runs is older than this crate, or of another major version.
    pub fn open(processors: u8, pages: u8, first_ticket: Ticket) -> Result<RecordedBoard, OpenFault> {
        crate::same_library();
        let board = RecordedBoard { handle: UnsafeCell::new(sys::SYNICBOARD_SHARED_CLOSED) };
        OpenFault::judged(ask!(board, synicboard_open_recorded, processors, pages, first_ticket.number()))?;
        Ok(board)
    }

    /// Performs an event for an actor, and appends it with its reply to the history. Its notices
    /// are then in `room`.
    ///
    /// # Errors
    ///
    /// [`NoEntry`] if the history cannot grow. Then no event is performed, and `room` is empty.
    pub fn act(&self, actor: u8, event: &Event, room: &mut NoticeRoom) -> Result<Reply, NoEntry> {
        let event = event.to_plain();
        let plain = ask!(self, synicboard_act, actor, &event, room.room.start(), MOST_NOTICES);
        answered(plain, room)
    }

    /// Clears the bits of a part, 0 to 3, of processor `vp` in the words of a line, and has the
    /// board absorb them for an actor, as
    /// [`Board::absorb_line_bits`](crate::Board::absorb_line_bits) does.
    ///
    /// # Errors
    ///
    /// [`NoEntry`] if the history cannot grow. Then no bit is cleared, no event is performed, and
    /// `room` is empty.
    pub fn absorb(
        &self,
        actor: u8,
        line: &mut Line,
        vp: Vp,
        part: u8,
        room: &mut NoticeRoom,
    ) -> Result<(Reply, u64), NoEntry> {
        let (line, start) = (&mut line.handle, room.room.start());
        let plain = ask!(self, synicboard_act_absorb, actor, line, vp.number(), part, start, MOST_NOTICES);
        answered(plain, room).map(|reply| (reply, plain.value))
    }

    /// The next vector of a processor, if it has one.
    pub fn next(&self, vp: Vp) -> Option<Vector> {
        // SAFETY: the pointer is an open board whose lock is held.
        self.looked_at(|board| Vector::new(unsafe { sys::synicboard_next(board, vp.number()) }))
    }

    /// The timer with the earliest deadline, and the deadline.
    pub fn earliest(&self) -> Option<(u128, TimerId)> {
        // SAFETY: the pointer is an open board whose lock is held.
        first_due(&self.looked_at(|board| unsafe { sys::synicboard_earliest(board) }))
    }

    /// Runs a query with the lock held.
    fn looked_at<T>(&self, look: impl FnOnce(*mut sys::synicboard) -> T) -> T {
        let seen = look(ask!(self, synicboard_hold));
        ask!(self, synicboard_release);
        seen
    }

    /// Writes the history as a trace to a buffer, as much as fits. Changes nothing, so it may be
    /// called repeatedly.
    pub fn settle(&self, room: &mut [u8]) -> Settled {
        let settled = ask!(self, synicboard_settle, room.as_mut_ptr(), room.len());
        let verdict = Verdict::of(settled.kind, settled.entries, settled.line);
        Settled { verdict, length: settled.length }
    }
}

/// The reply of a call that wrote notices to `room`.
fn answered(plain: sys::synicboard_reply, room: &mut NoticeRoom) -> Result<Reply, NoEntry> {
    room.count = usize::from(plain.notices);
    if plain.fault == sys::SYNICBOARD_NO_MEMORY {
        return Err(NoEntry);
    }
    Ok(Reply::of(plain))
}

impl Drop for RecordedBoard {
    fn drop(&mut self) {
        ask!(self, synicboard_close_shared);
    }
}

impl fmt::Debug for RecordedBoard {
    fn fmt(&self, formatter: &mut fmt::Formatter<'_>) -> fmt::Result {
        formatter.debug_struct("RecordedBoard").finish_non_exhaustive()
    }
}
