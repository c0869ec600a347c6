//! Notices: what an event did, in addition to its reply.

use crate::{beyond_the_header, sys, Moment, Sint, Ticket, TimerId, Vector, Vp};
use alloc::vec::Vec;
use core::cell::UnsafeCell;
use core::fmt;
use core::iter::FusedIterator;
use core::marker::PhantomData;
use core::mem::MaybeUninit;
use core::ops::Range;

/// No event on a board without live pages emits more notices than this. Only a reset emits more than 192.
pub const MOST_NOTICES: usize = sys::SYNICBOARD_MOST_NOTICES;

/// Something that an event did, in addition to its reply.
#[derive(Clone, Copy, PartialEq, Eq, Hash, Debug)]
#[non_exhaustive]
pub enum Notice {
    /// A message was appended to its queue.
    Accepted {
        /// The ticket of the message.
        ticket: Ticket,
        /// The processor.
        vp: Vp,
        /// The source whose queue it is.
        sint: Sint,
    },
    /// The head of a queue was written into its slot.
    Placed {
        /// The ticket of the message.
        ticket: Ticket,
        /// The processor.
        vp: Vp,
        /// The source whose slot it is.
        sint: Sint,
    },
    /// A message was placed with MessagePending set, or a clear MessagePending was set in an
    /// occupied slot: the guest writes EOM when it has emptied the slot.
    Pending {
        /// The processor.
        vp: Vp,
        /// The source whose slot it is.
        sint: Sint,
    },
    /// A clear request bit of a local APIC was set. The processor has a vector to take, unless its
    /// priority blocks it or it is suspended.
    Requested {
        /// The processor.
        vp: Vp,
        /// The vector.
        vector: Vector,
    },
    /// A clear event flag was set.
    FlagSet {
        /// The processor.
        vp: Vp,
        /// The source.
        sint: Sint,
        /// The base of the port plus the number signalled, 0 to 2047.
        flag: u16,
    },
    /// A guest store emptied a slot that held a message.
    Consumed {
        /// The ticket of the message.
        ticket: Ticket,
        /// The processor.
        vp: Vp,
        /// The source whose slot it is.
        sint: Sint,
    },
    /// A queued message of a closed port, or a queued or placed one of a processor that was reset,
    /// was withdrawn.
    Withdrawn {
        /// The ticket of the message.
        ticket: Ticket,
        /// The processor.
        vp: Vp,
        /// The source whose queue or slot it is.
        sint: Sint,
    },
    /// A timer expired.
    Expired {
        /// The processor.
        vp: Vp,
        /// The timer, 0 to 3.
        index: u8,
        /// The deadline at which it was due, in units of 100 ns.
        due: Moment,
    },
    /// A timer skipped some of its deadlines.
    Skipped {
        /// The processor.
        vp: Vp,
        /// The timer, 0 to 3.
        index: u8,
        /// How many, at least one.
        count: u64,
    },
}

impl Notice {
    fn of(plain: &sys::synicboard_notice) -> Notice {
        Notice::meant(plain).unwrap_or_else(|| beyond_the_header(plain))
    }

    fn meant(plain: &sys::synicboard_notice) -> Option<Notice> {
        let vp = Vp::new(plain.vp)?;
        let sint = Sint::new(plain.sint)?;
        let index = TimerId::new(vp, plain.timer)?.index();
        let (ticket, flag, due, count) = (Ticket::new(plain.ticket), plain.flag, plain.due, plain.count);
        Some(match plain.kind {
            sys::SYNICBOARD_NOTICE_ACCEPTED => Notice::Accepted { ticket, vp, sint },
            sys::SYNICBOARD_NOTICE_PLACED => Notice::Placed { ticket, vp, sint },
            sys::SYNICBOARD_NOTICE_PENDING => Notice::Pending { vp, sint },
            sys::SYNICBOARD_NOTICE_REQUESTED => Notice::Requested { vp, vector: Vector::new(plain.vector)? },
            sys::SYNICBOARD_NOTICE_FLAG => Notice::FlagSet { vp, sint, flag },
            sys::SYNICBOARD_NOTICE_CONSUMED => Notice::Consumed { ticket, vp, sint },
            sys::SYNICBOARD_NOTICE_WITHDRAWN => Notice::Withdrawn { ticket, vp, sint },
            sys::SYNICBOARD_NOTICE_EXPIRED => Notice::Expired { vp, index, due },
            sys::SYNICBOARD_NOTICE_SKIPPED => Notice::Skipped { vp, index, count },
            _ => return None,
        })
    }
}

/// The capacity of a buffer.
pub(crate) const ROOM: usize = sys::SYNICBOARD_MOST_NOTICES;

/// A buffer for the notices of an event, which the library fills.
pub(crate) struct Room {
    notices: UnsafeCell<[MaybeUninit<sys::synicboard_notice>; ROOM]>,
}

impl Room {
    pub(crate) fn new() -> Room {
        Room { notices: UnsafeCell::new([MaybeUninit::uninit(); ROOM]) }
    }

    /// Its start. It has capacity for [`ROOM`].
    pub(crate) fn start(&self) -> *mut sys::synicboard_notice {
        self.notices.get().cast()
    }

    /// The first `count` notices of the buffer.
    ///
    /// # Safety
    ///
    /// That many were written, and no other thread writes to the buffer while the result is
    /// borrowed.
    pub(crate) unsafe fn first(&self, count: usize) -> Notices<'_> {
        Notices { start: self.start(), left: 0..count.min(ROOM), board: PhantomData }
    }
}

/// The capacity of a buffer for the notices of two events on a board with live pages.
pub(crate) const LIVE_ROOM: usize = 2 * sys::SYNICBOARD_MOST_LIVE_NOTICES;

/// A buffer for the notices of events on a board with live pages, of which there may be more.
pub(crate) struct LiveRoom {
    notices: UnsafeCell<Vec<sys::synicboard_notice>>,
}

impl LiveRoom {
    /// A buffer, unless its allocation fails.
    pub(crate) fn new() -> Option<LiveRoom> {
        let mut notices = Vec::new();
        notices.try_reserve_exact(LIVE_ROOM).ok()?;
        Some(LiveRoom { notices: UnsafeCell::new(notices) })
    }

    /// Its start. It has capacity for [`LIVE_ROOM`].
    pub(crate) fn start(&self) -> *mut sys::synicboard_notice {
        // SAFETY: no reference to the list is kept, and it is never resized.
        unsafe { (*self.notices.get()).as_mut_ptr() }
    }

    /// The first `count` notices of the buffer.
    ///
    /// # Safety
    ///
    /// As for [`Room::first`].
    pub(crate) unsafe fn first(&self, count: usize) -> Notices<'_> {
        let left = 0..count.min(LIVE_ROOM);
        Notices { start: self.start(), left, board: PhantomData }
    }
}

/// The notices of one event, in order. They borrow the board, so there is no other event while they
/// are held.
#[must_use = "notices are read from the board only here"]
#[derive(Clone)]
pub struct Notices<'board> {
    start: *const sys::synicboard_notice,
    left: Range<usize>,
    board: PhantomData<&'board Room>,
}

impl Iterator for Notices<'_> {
    type Item = Notice;

    fn next(&mut self) -> Option<Notice> {
        let at = self.left.next()?;
        // SAFETY: this element was written. It is copied, and no reference to it is kept: another
        // query for the notices of the same event writes the same value again.
        let plain = unsafe { self.start.add(at).read() };
        Some(Notice::of(&plain))
    }

    fn size_hint(&self) -> (usize, Option<usize>) {
        self.left.size_hint()
    }
}

impl ExactSizeIterator for Notices<'_> {}

impl FusedIterator for Notices<'_> {}

impl fmt::Debug for Notices<'_> {
    fn fmt(&self, formatter: &mut fmt::Formatter<'_>) -> fmt::Result {
        formatter.debug_list().entries(self.clone()).finish()
    }
}
