//! A board whose message and event flags pages a running guest loads and stores.

use crate::board::ask;
use crate::notice::{LiveRoom, LIVE_ROOM};
use crate::{
    beyond_the_header, sys, Answer, AnswerRoom, Board, Event, Forwarded, Line, Moment, Notices, Reply, Vp,
};
use core::fmt;
use core::ptr;

/// Two pages for each of 64 processors.
const MOST_PAGES: usize = 128;

/// The reply to an event on a board with live pages.
#[must_use = "an event that was refused has changed nothing"]
#[derive(Clone, Copy, PartialEq, Eq, Debug)]
pub struct LiveReply {
    /// The reply to the event itself.
    pub reply: Reply,
    /// The processors of which the board performed an EOM after the event, bit p for processor p: a message waited
    /// for each, whose slot its guest had emptied meanwhile, perhaps without a look at MessagePending. Only a tick
    /// and a write of a timer's register set bits.
    pub eoms: u64,
}

/// A board with live pages: for each processor a message page and an event flags page in memory, which the host maps
/// into the guest, readable and writable, where [`Board::owner`] says that the guest sees that page. The guest uses
/// them without an exit, and may store anything there at any time; the host must not store there. Each event accesses
/// the live pages by atomic accesses, and learns what the guest has stored: the board performs these stores, and
/// then the event.
///
/// ```
/// use synicboard::{Board, Event, Notice, PayloadBytes, Port, PortShape, Reply, Sint, Ticket, Vp};
///
/// let mut board = Board::open_sparse(1, Ticket::new(0)).unwrap().into_live().unwrap();
/// for (register, value) in [(0x4000_0080, 1), (0x4000_0083, 0x2001), (0x4000_0092, 0x50)] {
///     assert_eq!(board.perform(&Event::Write { vp: Vp::ZERO, register, value }).reply, Reply::Done);
/// }
/// let shape = PortShape::Messages { buffers: 2 };
/// let open = Event::OpenPort { port: Port::new(3), vp: Vp::ZERO, sint: Sint::SINT2, shape };
/// assert_eq!(board.perform(&open).reply, Reply::Done);
/// let payload = PayloadBytes::new(b"hello").unwrap();
/// let post = Event::Post { port: Port::new(3), kind: 1, payload };
/// assert_eq!(board.perform(&post).reply, Reply::Accepted(Ticket::new(0)));
///
/// // The guest, on another processor, reads the message and empties the slot.
/// let slot = board.message_page(Vp::ZERO).wrapping_add(0x200).cast::<u32>();
/// assert_eq!(unsafe { slot.read_volatile() }, 1);
/// unsafe { slot.write_volatile(0) };
///
/// assert_eq!(board.observe(Vp::ZERO), Reply::Done);
/// assert!(matches!(board.notices().next(), Some(Notice::Consumed { ticket, .. }) if ticket == Ticket::new(0)));
/// ```
pub struct LiveBoard {
    board: Board,
    pages: [*mut u8; MOST_PAGES],
    room: LiveRoom,
}

// SAFETY: that of the board, which is `Send`; the live pages are part of what its handle owns, and their addresses
// are only given out.
unsafe impl Send for LiveBoard {}

impl Board {
    /// Gives the board live pages, which have the bytes of its own pages. Allocates all memory that events need.
    ///
    /// # Errors
    ///
    /// The board itself, if an allocation fails.
    // The board is the error, so that it is not lost.
    #[allow(clippy::result_large_err)]
    pub fn into_live(self) -> Result<LiveBoard, Board> {
        let mut pages = [ptr::null_mut(); MOST_PAGES];
        let Some(room) = LiveRoom::new() else {
            return Err(self);
        };
        match ask!(self, synicboard_make_live, pages.as_mut_ptr()) {
            sys::SYNICBOARD_OK => Ok(LiveBoard { board: self, pages, room }),
            sys::SYNICBOARD_NO_MEMORY => Err(self),
            answer => beyond_the_header(&answer),
        }
    }
}

impl LiveBoard {
    /// Performs an event. A load or a store at a page where the guest sees a live page is refused with
    /// [`Elsewhere`](crate::Refusal::Elsewhere): the caller performs it in the live page.
    pub fn perform(&mut self, event: &Event) -> LiveReply {
        let reply = self.board.perform(event);
        LiveReply { reply, eoms: ask!(self.board, synicboard_eoms) }
    }

    /// [`Board::absorb_line`].
    pub fn absorb_line(&mut self, line: &mut Line, vp: Vp, part: u8) -> Reply {
        Reply::of(ask!(self.board, synicboard_absorb_line, &mut line.handle, vp.number(), part))
    }

    /// [`Board::forward`], which accesses no live page.
    pub fn forward(&mut self, vp: Vp) -> Forwarded {
        self.board.forward(vp)
    }

    /// Looks at the message slots of a processor, if the guest sees its message page: the notices are those of
    /// the messages that the guest has consumed.
    pub fn observe(&mut self, vp: Vp) -> Reply {
        Reply::of(ask!(self.board, synicboard_observe, vp.number()))
    }

    /// Looks at all words of both live pages of a processor that the guest sees, so that the board's own pages have
    /// what the guest has stored. [`save`](LiveBoard::save) does the same of each processor.
    pub fn observe_all(&mut self, vp: Vp) -> Reply {
        Reply::of(ask!(self.board, synicboard_observe_all, vp.number()))
    }

    /// [`Board::step`] on a board with live pages.
    pub fn step(
        &mut self,
        now: Moment,
        event: Option<&Event>,
        assisted: u64,
        room: &mut AnswerRoom,
    ) -> Answer {
        self.board.step(now, event, assisted, room)
    }

    /// [`Board::save`]. It looks at all words of the live pages that the guest sees first, so the image has what the
    /// guest stored before; the notices are those of these stores. Stop the guest first.
    #[must_use = "the image may not fit, or not be there"]
    pub fn save(&mut self, room: &mut [u8]) -> Option<usize> {
        self.board.save(room)
    }

    /// The notices of the last event or look: of the guest's stores that were found before the event, of the
    /// event, of the stores that were found after it, and of the EOMs.
    pub fn notices(&self) -> Notices<'_> {
        let count = ask!(self.board, synicboard_notices, self.room.start(), LIVE_ROOM);
        // SAFETY: the library wrote `count` notices, or as many as fit into the buffer, which is this
        // board's, and a live board is not `Sync`.
        unsafe { self.room.first(count) }
    }

    /// The board, for its queries. The pages that it returns are its own, as it knows them, and its notices are the
    /// first [`MOST_NOTICES`](crate::MOST_NOTICES) of [`LiveBoard::notices`].
    pub fn board(&self) -> &Board {
        &self.board
    }

    /// The live message page of a processor: 4096 bytes at a multiple of 4096, valid until the board is dropped.
    /// Null if the processor is not on the board.
    pub fn message_page(&self, vp: Vp) -> *mut u8 {
        self.pages[2 * usize::from(vp.number())]
    }

    /// The live event flags page of a processor, in the same way.
    pub fn flag_page(&self, vp: Vp) -> *mut u8 {
        self.pages[2 * usize::from(vp.number()) + 1]
    }
}

impl fmt::Debug for LiveBoard {
    fn fmt(&self, formatter: &mut fmt::Formatter<'_>) -> fmt::Result {
        formatter.debug_struct("LiveBoard").field("board", &self.board).finish_non_exhaustive()
    }
}
