//! An event at a time, and what the host has to do after it.

use crate::notice::LiveRoom;
use crate::{sys, Moment, Notices, Reply};
use core::fmt;

/// What became of an event, and all that the host must do next. The fields from `next` on say how the board is, not
/// what has changed, so nothing is lost if an answer is not looked at.
#[derive(Clone, Copy, PartialEq, Eq, Debug)]
#[must_use]
pub struct Answer {
    /// The reply to the event; `None` if there was none.
    pub reply: Option<Reply>,
    /// The processors of which the board performed an EOM after it moved the clock: bit p for processor p.
    pub clock_eoms: u64,
    /// The same after the event.
    pub eoms: u64,
    /// The processors that have a next vector: bit p for processor p. Their threads take it.
    pub next: u64,
    /// Of the processors in `assisted`, those of which an EOI is required.
    pub end_assist: u64,
    /// When the host must tick next; `None` if no tick makes a timer expire.
    pub alarm: Option<Moment>,
}

impl Answer {
    pub(crate) fn of(plain: &sys::synicboard_answer, is_event: bool) -> Answer {
        Answer {
            reply: is_event.then(|| Reply::of(plain.reply)),
            clock_eoms: plain.clock_eoms,
            eoms: plain.eoms,
            next: plain.next,
            end_assist: plain.end_assist,
            alarm: plain.alarm.is_set.then_some(plain.alarm.moment),
        }
    }
}

/// A buffer for the notices of a step, which a host reuses.
pub struct AnswerRoom {
    room: LiveRoom,
    count: usize,
}

impl AnswerRoom {
    /// An empty buffer with capacity for the notices of any step, on a board with live pages too (1.5 MB); `None` if
    /// an allocation fails.
    pub fn new() -> Option<AnswerRoom> {
        Some(AnswerRoom { room: LiveRoom::new()?, count: 0 })
    }

    /// The notices of the last step that used this buffer: of the clock and of the event, in order.
    pub fn notices(&self) -> Notices<'_> {
        // SAFETY: the library wrote `count` notices, or as many as fit, and the buffer is only in this value, which
        // is not `Sync`.
        unsafe { self.room.first(self.count) }
    }

    pub(crate) fn start(&self) -> *mut sys::synicboard_notice {
        self.room.start()
    }

    pub(crate) fn set(&mut self, count: usize) {
        self.count = count;
    }
}

impl fmt::Debug for AnswerRoom {
    fn fmt(&self, formatter: &mut fmt::Formatter<'_>) -> fmt::Result {
        self.notices().fmt(formatter)
    }
}
