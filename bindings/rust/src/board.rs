//! A board and its events.

use crate::notice::{Room, LIVE_ROOM};
use crate::queries::first_due;
use crate::{
    beyond_the_header, same_library, sys, Answer, AnswerRoom, Event, Line, Moment, OpenFault, Port,
    PortShape, Reply, RestoreFault, Sint, Ticket, TimerId, Vector, Vp,
};
use core::cell::UnsafeCell;
use core::fmt;
use core::ptr;

/// The bytes of a page.
pub const PAGE_BYTES: usize = 4096;

/// What a processor forwards to a local APIC outside the board. Bit i of word k is vector 64 * k + i.
#[must_use = "the board has these vectors no longer"]
#[derive(Clone, Copy, PartialEq, Eq, Debug, Default)]
pub struct Forwarded {
    /// All of them.
    pub vectors: [u64; 4],
    /// Those that are auto-EOI on the processor: no EOI ends them.
    pub auto_eoi: [u64; 4],
}

/// The interrupt side of a partition with 1 to 8 processors and 1 to 64 guest pages, or, if it is sparse, with 1 to 64
/// processors and with 2^52 guest pages that the caller holds.
///
/// Each method for an event returns a [`Reply`]; then [`notices`](Board::notices) returns the notices of the
/// event. An event that is refused or raises #GP changes nothing. The methods with `&self` are queries: they
/// change nothing. After [`open`](Board::open) or [`restore`](Board::restore) no method allocates, except
/// [`save`](Board::save) and [`into_live`](Board::into_live).
/// The value itself takes some 9 KB, with a buffer for the notices of an event.
///
/// ```
/// use synicboard::{Board, Notice, Port, Reply, Sint, Ticket, Vector, Vp};
///
/// # fn main() -> Result<(), synicboard::OpenFault> {
/// let mut board = Board::open(1, 4, Ticket::new(0))?;
///
/// // The guest enables its SynIC, maps its message page at page 2, and gives SINT2 vector 50.
/// for (register, value) in [(0x4000_0080, 1), (0x4000_0083, 0x2001), (0x4000_0092, 0x50)] {
///     assert_eq!(board.write(Vp::ZERO, register, value), Reply::Done);
/// }
///
/// // The host opens port 3 to SINT2, with two buffers, and posts a message of type 1.
/// assert_eq!(board.open_message_port(Port::new(3), Vp::ZERO, Sint::SINT2, 2), Reply::Done);
/// assert_eq!(board.post(Port::new(3), 1, b"hello"), Reply::Accepted(Ticket::new(0)));
/// let requested = |notice| matches!(notice, Notice::Requested { .. });
/// assert!(board.notices().any(requested));
///
/// // The processor takes the vector, and finds the message in the slot of SINT2.
/// assert_eq!(board.next(Vp::ZERO), Vector::new(0x50));
/// assert_eq!(board.take(Vp::ZERO), Reply::Taken(Vector::new(0x50)));
/// let page = board.message_page(Vp::ZERO).expect("the board has a processor 0");
/// assert_eq!(&page[0x210..0x215], b"hello");
///
/// // The guest empties the slot and ends the interrupt.
/// assert_eq!(board.store(0x2200, &[0; 4]), Reply::Done);
/// assert_eq!(board.write(Vp::ZERO, 0x4000_0070, 0), Reply::Done);
/// # Ok(())
/// # }
/// ```
///
/// # Threads
///
/// A board is `Send`, and threads that share one put it under a lock, as in `Mutex<Board>`. It is not
/// `Sync`, since the library allows one call at a time for a handle, including queries. It is proved
/// with the library that what a handle owns is `Send`. The bindings add, without proof, that the handle
/// is only in this value, and that no second thread makes a call at the same time. A device that raises
/// vectors without the lock uses a [`Line`].
///
/// ```compile_fail,E0277
/// # let board = synicboard::Board::open(1, 1, synicboard::Ticket::new(0)).unwrap();
/// std::thread::scope(|scope| {
///     scope.spawn(|| board.next(synicboard::Vp::ZERO)); // no other thread may use it
/// });
/// ```
///
/// # Pages
///
/// A page is returned by reference, not copied, and the borrow rules out events while it is held. Its
/// address is a multiple of 4096, so it can be mapped into a guest, read-only.
///
/// ```compile_fail,E0502
/// # let mut board = synicboard::Board::open(1, 1, synicboard::Ticket::new(0)).unwrap();
/// let page = board.guest_page(0).unwrap();
/// let _ = board.store(0, &[1]); // this would change the page
/// assert_eq!(page[0], 0);
/// ```
pub struct Board {
    // The library may be asked through a shared reference, and takes a mutable pointer for events.
    pub(crate) handle: UnsafeCell<sys::synicboard>,
    // Buffer for the notices of the last event. It costs nothing unless `notices` is called.
    pub(crate) room: Room,
    pub(crate) processors: u8,
    pub(crate) pages: u8,
}

// SAFETY: what the handle owns is `Send`, which is proved with the library: `BoardHandle` of its
// crate `c_handles`. The handle is only in this value, so the owner of the value makes all calls; the
// cell makes it not `Sync`, so no second thread makes any. The buffer holds plain numbers.
unsafe impl Send for Board {}

/// Makes a call of the library with a board's handle.
macro_rules! ask {
    ($board:expr, $call:ident $(, $argument:expr)*) => {{
        let handle = $board.handle.get();
        // SAFETY: the handle was closed or opened by the library, is in this value and has no copy.
        // No other call uses it: a board is not `Sync`, and the library calls nothing back. The
        // address of each slice argument is not null and valid for the slice's length; a line's
        // handle is open, has no copy, and is borrowed for this call alone.
        unsafe { sys::$call(handle $(, $argument)*) }
    }};
}

pub(crate) use ask;

/// Opening a board, and its events. The docs of each event list its replies. An event of a
/// processor is also refused with [`NoSuchProcessor`](crate::Refusal::NoSuchProcessor) if `vp` is
/// not on the board, except for opening a port.
impl Board {
    /// Opens a board of 1 to 8 processors and 1 to 64 guest pages at time 0. The first message that
    /// it accepts gets the ticket `first_ticket`. Allocates all memory that the board needs.
    ///
    /// # Errors
    ///
    /// [`OpenFault::BadSize`] if a size is out of range, [`OpenFault::Memory`] if an allocation
    /// fails.
    ///
    /// # Panics
    ///
    /// If the library that runs is older than this crate, or of another major version.
    pub fn open(processors: u8, pages: u8, first_ticket: Ticket) -> Result<Board, OpenFault> {
        same_library();
        let handle = UnsafeCell::new(sys::SYNICBOARD_CLOSED);
        let board = Board { handle, room: Room::new(), processors, pages };
        OpenFault::judged(ask!(board, synicboard_open, processors, pages, first_ticket.number()))?;
        Ok(board)
    }

    /// Opens a sparse board of 1 to 64 processors at time 0, for a guest with memory of any size: its page
    /// numbers are 0 to 2^52 - 1, and the caller has the pages. The board holds only the message and event
    /// flags pages, and decides where a guest sees them ([`next_overlay`](Board::next_overlay)). A load or a
    /// store of any other page is refused with [`Elsewhere`](crate::Refusal::Elsewhere): the caller performs
    /// it in the guest's memory. Everything else is as on a board with that many pages.
    ///
    /// ```
    /// use synicboard::{Board, Owner, Refusal, Reply, Ticket, Vp, msr};
    ///
    /// let mut board = Board::open_sparse(1, Ticket::new(0)).unwrap();
    /// assert_eq!(board.write(Vp::ZERO, msr::SIMP, 0x7_fff0_0001), Reply::Done);
    /// assert_eq!(board.next_overlay(0), Some((0x7_fff00, Owner::Sim(Vp::ZERO))));
    /// assert_eq!(board.store(0x7_fff0_0000, &[1; 4]), Reply::Done);
    /// assert_eq!(board.store(0x7_ffef_f000, &[1; 4]), Reply::Refused(Refusal::Elsewhere));
    /// ```
    ///
    /// # Errors
    ///
    /// [`OpenFault::BadSize`] if the size is out of range, [`OpenFault::Memory`] if an allocation fails.
    ///
    /// # Panics
    ///
    /// If the library that runs is older than this crate, or of another major version.
    pub fn open_sparse(processors: u8, first_ticket: Ticket) -> Result<Board, OpenFault> {
        same_library();
        let handle = UnsafeCell::new(sys::SYNICBOARD_CLOSED);
        let board = Board { handle, room: Room::new(), processors, pages: 0 };
        OpenFault::judged(ask!(board, synicboard_open_sparse, processors, first_ticket.number()))?;
        Ok(board)
    }

    /// Restores a board from an image, as [`save`](Board::save) writes it. Each line is checked against
    /// those before it. Allocates all memory that the board needs.
    ///
    /// ```
    /// use synicboard::{Board, Reply, Ticket, Vector, Vp};
    ///
    /// let mut board = Board::open(1, 1, Ticket::new(5)).unwrap();
    /// assert_eq!(board.assert(Vp::ZERO, Vector::new(0x60).unwrap()), Reply::Done);
    /// let mut room = [0; 80];
    /// let length = board.save(&mut room).unwrap();
    /// let restored = Board::restore(&room[..length]).unwrap();
    /// assert_eq!(restored.next(Vp::ZERO), Vector::new(0x60));
    /// ```
    ///
    /// # Errors
    ///
    /// [`RestoreFault::WrongLine`] if the text is no image, [`RestoreFault::Memory`] if an allocation
    /// fails, [`RestoreFault::TooLong`] for a text of more than 1 GiB.
    ///
    /// # Panics
    ///
    /// If the library that runs is older than this crate, or of another major version.
    pub fn restore(image: &[u8]) -> Result<Board, RestoreFault> {
        same_library();
        let handle = UnsafeCell::new(sys::SYNICBOARD_CLOSED);
        let mut board = Board { handle, room: Room::new(), processors: 0, pages: 0 };
        let end = ask!(board, synicboard_restore, image.as_ptr(), image.len());
        match end.kind {
            sys::SYNICBOARD_OK => {}
            sys::SYNICBOARD_WRONG_LINE => return Err(RestoreFault::WrongLine(end.line)),
            sys::SYNICBOARD_NO_MEMORY => return Err(RestoreFault::Memory),
            sys::SYNICBOARD_TOO_LONG => return Err(RestoreFault::TooLong),
            _ => beyond_the_header(&end.kind),
        }
        board.processors = Vp::below(64).take_while(|&vp| board.message_page(vp).is_some()).count() as u8;
        board.pages = (0..64).take_while(|&page| board.guest_page(page).is_some()).count() as u8;
        Ok(board)
    }

    /// Performs an event: the same as the method below with its name.
    pub fn perform(&mut self, event: &Event) -> Reply {
        match *event {
            Event::OpenPort { port, vp, sint, shape } => self.open_port(port, vp, sint, shape),
            Event::ClosePort { port } => self.close_port(port),
            Event::Write { vp, register, value } => self.write(vp, register, value),
            Event::Read { vp, register } => self.read(vp, register),
            Event::Post { port, kind, ref payload } => self.post(port, kind, payload),
            Event::Signal { port, flag } => self.signal(port, flag),
            Event::Assert { vp, vector } => self.assert(vp, vector),
            Event::Absorb { vp, part, bits } => self.absorb(vp, part, bits),
            Event::Store { address, ref bytes } => self.store(address, bytes),
            Event::Load { address, length } => self.load(address, length),
            Event::Tick { moment } => self.tick(moment),
            Event::Take { vp } => self.take(vp),
            Event::Suspend { vp } => self.suspend(vp),
            Event::Resume { vp } => self.resume(vp),
            Event::Reset { vp } => self.reset(vp),
            Event::Send { vector, mask } => self.send(vector, mask),
        }
    }

    fn open_port(&mut self, port: Port, vp: Vp, sint: Sint, shape: PortShape) -> Reply {
        match shape {
            PortShape::Messages { buffers } => self.open_message_port(port, vp, sint, buffers),
            PortShape::Flags { base, count } => self.open_event_port(port, vp, sint, base, count),
        }
    }

    /// Opens a port for messages to source `sint` of processor `vp`. At most `buffers` of its
    /// messages, 1 to 16, may be queued at once. A board has ports 0 to 15; a sparse board of more than
    /// four processors has four for each. All ports of a processor have at most 256 buffers.
    ///
    /// `Done`, or refused: `UnknownPort`, `PortOpen`, `BadTarget` (also if `vp` is not on the
    /// board, or has not as many buffers left).
    pub fn open_message_port(&mut self, port: Port, vp: Vp, sint: Sint, buffers: u8) -> Reply {
        Reply::of(ask!(
            self,
            synicboard_open_message_port,
            port.number(),
            vp.number(),
            sint.number(),
            buffers
        ))
    }

    /// Opens a port for the `count` event flags from `base` on, of source `sint` of processor `vp`. `count` is at
    /// least 1, and `base` + `count` at most 2048.
    ///
    /// `Done`, or refused: `UnknownPort`, `PortOpen`, `BadTarget` (also if `vp` is not on the
    /// board).
    pub fn open_event_port(&mut self, port: Port, vp: Vp, sint: Sint, base: u16, count: u16) -> Reply {
        Reply::of(ask!(
            self,
            synicboard_open_event_port,
            port.number(),
            vp.number(),
            sint.number(),
            base,
            count
        ))
    }

    /// Closes a port and withdraws its queued messages. Messages in slots stay.
    ///
    /// `Done`, or refused: `UnknownPort`.
    pub fn close_port(&mut self, port: Port) -> Reply {
        Reply::of(ask!(self, synicboard_close_port, port.number()))
    }

    /// A guest writes a register of processor `vp`.
    ///
    /// `Done`, or `GeneralProtection`.
    pub fn write(&mut self, vp: Vp, register: u32, value: u64) -> Reply {
        Reply::of(ask!(self, synicboard_write, vp.number(), register, value))
    }

    /// A guest reads a register of processor `vp`.
    ///
    /// `Value`, or `GeneralProtection`.
    pub fn read(&mut self, vp: Vp, register: u32) -> Reply {
        Reply::of(ask!(self, synicboard_read, vp.number(), register))
    }

    /// Posts a message with a payload of up to 240 bytes to a port. Its type must not be 0 and must
    /// have bit 31 clear.
    ///
    /// `Accepted`, or refused: `UnknownPort`, `WrongKind`, `BadType`, `SynicOff`, `NoBuffers`,
    /// `TicketsSpent`. `NoEvent` for a payload of more than 240 bytes.
    pub fn post(&mut self, port: Port, message_type: u32, payload: &[u8]) -> Reply {
        let (bytes, length) = (payload.as_ptr(), payload.len());
        Reply::of(ask!(self, synicboard_post, port.number(), message_type, bytes, length))
    }

    /// Signals an event flag of a port. The flags of a port are counted from 0.
    ///
    /// `FlagWasClear` or `FlagWasSet`, or refused: `UnknownPort`, `WrongKind`, `BadFlag`,
    /// `SynicOff`.
    pub fn signal(&mut self, port: Port, flag: u16) -> Reply {
        Reply::of(ask!(self, synicboard_signal, port.number(), flag))
    }

    /// A device requests a vector at the local APIC of processor `vp`.
    ///
    /// `Done`.
    pub fn assert(&mut self, vp: Vp, vector: Vector) -> Reply {
        Reply::of(ask!(self, synicboard_assert, vp.number(), vector.number()))
    }

    /// Requests posted vectors at the local APIC of processor `vp`: bit i of `bits` is vector 64 *
    /// `part` + i, for a part of 0 to 3. Vectors below 16 are ignored.
    ///
    /// `Done`, or refused: `BadTarget` for a part above 3.
    pub fn absorb(&mut self, vp: Vp, part: u8, bits: u64) -> Reply {
        Reply::of(ask!(self, synicboard_absorb, vp.number(), part, bits))
    }

    /// Clears the bits of a part, 0 to 3, of processor `vp` in the words of a line, and requests
    /// their vectors at the local APIC: the 64 vectors from 64 * `part` on. There are none if the
    /// words do not have the processor. A later raise of one of them is
    /// [`Fresh`](crate::Raised::Fresh) again.
    ///
    /// `Done`, or refused: `BadTarget` for a part above 3. If it is refused, no bit is cleared.
    pub fn absorb_line(&mut self, line: &mut Line, vp: Vp, part: u8) -> Reply {
        Reply::of(ask!(self, synicboard_absorb_line, &mut line.handle, vp.number(), part))
    }

    /// [`Board::absorb_line`], and the bits that it cleared, for a host that records a trace.
    pub fn absorb_line_bits(&mut self, line: &mut Line, vp: Vp, part: u8) -> (Reply, u64) {
        let plain = ask!(self, synicboard_absorb_line, &mut line.handle, vp.number(), part);
        (Reply::of(plain), plain.value)
    }

    /// A guest stores 1 to 8 bytes at a guest physical address, all in one page.
    ///
    /// `Done`, or refused: `BadLength` for no bytes, `OutsideSpace`, `CrossesPage`. `NoEvent` for
    /// more than 8 bytes.
    pub fn store(&mut self, address: u64, bytes: &[u8]) -> Reply {
        let (bytes, length) = (bytes.as_ptr(), bytes.len());
        Reply::of(ask!(self, synicboard_store, address, bytes, length))
    }

    /// A guest loads 1 to 8 bytes from a guest physical address, all in one page.
    ///
    /// `Bytes`, or refused: `BadLength`, `OutsideSpace`, `CrossesPage`.
    pub fn load(&mut self, address: u64, length: u8) -> Reply {
        Reply::of(ask!(self, synicboard_load, address, length))
    }

    /// Moves the clock to a time in units of 100 ns. If that is later than the present time, tries the
    /// timers that are due by then, by their deadlines, until 32 have expired: each that is tried expires,
    /// unless its message cannot be sent yet. On a board of more than eight processors some may be left: the
    /// next tick to a later time tries them, again until 32 have expired.
    ///
    /// `Done`, or refused: `ClockBack`.
    pub fn tick(&mut self, moment: Moment) -> Reply {
        Reply::of(ask!(self, synicboard_tick, moment))
    }

    /// [`tick`](Board::tick), and the earliest deadline afterwards, as [`earliest`](Board::earliest)
    /// returns it: arm the host's timer for it.
    ///
    /// ```
    /// use synicboard::{Board, Reply, Ticket};
    ///
    /// let mut board = Board::open(1, 1, Ticket::new(0)).unwrap();
    /// assert_eq!(board.tick_due(5), (Reply::Done, None));
    /// ```
    pub fn tick_due(&mut self, moment: Moment) -> (Reply, Option<(u128, TimerId)>) {
        let mut due = sys::synicboard_due { is_due: false, vp: 0, timer: 0, low: 0, high: 0 };
        let reply = Reply::of(ask!(self, synicboard_tick_due, moment, &mut due));
        (reply, first_due(&due))
    }

    /// Processor `vp` takes its next vector. Call this when it accepts interrupts.
    ///
    /// `Taken`.
    pub fn take(&mut self, vp: Vp) -> Reply {
        Reply::of(ask!(self, synicboard_take, vp.number()))
    }

    /// Forwards the vectors that are requested at processor `vp` to a local APIC outside the board (KVM's, say):
    /// each is taken and ended at once, and requested there by the caller. Call this after each event that has a
    /// [`Requested`](crate::Notice::Requested) notice for the processor, after it resumes, since a suspended
    /// processor forwards nothing, and once after the board is restored. A vector is held back while a TPR or a
    /// vector in service is of its class or a higher one. Nothing if `vp` is not on the board: then the notices
    /// stay, and otherwise there are none afterwards.
    ///
    /// ```
    /// use synicboard::{Board, Reply, Ticket, Vector, Vp};
    ///
    /// let mut board = Board::open(1, 1, Ticket::new(0)).unwrap();
    /// for vector in [0x41, 0x90] {
    ///     assert_eq!(board.assert(Vp::ZERO, Vector::new(vector).unwrap()), Reply::Done);
    /// }
    /// assert_eq!(board.forward(Vp::ZERO).vectors, [0, 1 << 1, 1 << 16, 0]);
    /// assert_eq!(board.next(Vp::ZERO), None);
    /// ```
    pub fn forward(&mut self, vp: Vp) -> Forwarded {
        let mut forwarded = sys::synicboard_forwarded { vectors: [0; 4], auto_eoi: [0; 4] };
        ask!(self, synicboard_forward, vp.number(), &mut forwarded);
        Forwarded { vectors: forwarded.vectors, auto_eoi: forwarded.auto_eoi }
    }

    /// Suspends processor `vp`: it takes no interrupt, and its timers are not tried, until it
    /// resumes.
    ///
    /// `Done`, or refused: `AlreadySuspended`.
    pub fn suspend(&mut self, vp: Vp) -> Reply {
        Reply::of(ask!(self, synicboard_suspend, vp.number()))
    }

    /// Resumes a suspended processor. This tries no timer: the next tick to a later time does.
    ///
    /// `Done`, or refused: `NotSuspended`.
    pub fn resume(&mut self, vp: Vp) -> Reply {
        Reply::of(ask!(self, synicboard_resume, vp.number()))
    }

    /// Resets processor `vp` to its state at the opening: withdraws its messages in slots and
    /// queues, and resets its registers, local APIC, timers and own two pages. Ports stay open.
    ///
    /// `Done`.
    pub fn reset(&mut self, vp: Vp) -> Reply {
        Reply::of(ask!(self, synicboard_reset, vp.number()))
    }

    /// Sends an interrupt to several processors: requests a vector at each processor of `mask`, lowest
    /// first, as [`Board::assert`] does at one. Bit p of `mask` is processor p.
    ///
    /// `Done`, also if `mask` is 0.
    pub fn send(&mut self, vector: Vector, mask: u64) -> Reply {
        Reply::of(ask!(self, synicboard_send, vector.number(), mask))
    }

    /// Asserts a source of a processor, as a message or a signal to it would: requests its vector, unless SINTx is
    /// masked or polling.
    ///
    /// `Done`.
    pub fn assert_source(&mut self, vp: Vp, sint: Sint) -> Reply {
        Reply::of(ask!(self, synicboard_assert_source, vp.number(), sint.number()))
    }

    /// Moves the clock to `now`, if that is later than the present time, and then performs the event, if there is one.
    /// The buffer has the notices of both, in order. So a host passes its clock with each exit of the guest, and a
    /// register write never comes before the expiries that are due by then.
    ///
    /// Bit p of `assisted` says that the host has set "No EOI required" in the assist page of processor p and has not
    /// found it clear; 0 if the host has no assist pages.
    ///
    /// ```
    /// use synicboard::{AnswerRoom, Board, Event, Reply, Ticket, Vp};
    ///
    /// let (mut board, mut room) = (Board::open(1, 1, Ticket::new(0)).unwrap(), AnswerRoom::new().unwrap());
    /// for (register, value) in [(0x4000_0080, 1), (0x4000_00b1, 10), (0x4000_00b0, 0x1401)] {
    ///     let answer = board.step(5, Some(&Event::Write { vp: Vp::ZERO, register, value }), 0, &mut room);
    ///     assert_eq!(answer.reply, Some(Reply::Done));
    /// }
    /// assert_eq!(board.alarm(), Some(10));
    /// let answer = board.step(10, None, 0, &mut room);
    /// assert_eq!((room.notices().len(), answer.next, answer.alarm), (2, 1, None));
    /// ```
    pub fn step(
        &mut self,
        now: Moment,
        event: Option<&Event>,
        assisted: u64,
        room: &mut AnswerRoom,
    ) -> Answer {
        let plain = event.map(|event| event.to_plain());
        let event = plain.as_ref().map_or(ptr::null(), ptr::from_ref);
        let answer = ask!(self, synicboard_step, now, event, assisted, room.start(), LIVE_ROOM);
        room.set(answer.notices);
        Answer::of(&answer, plain.is_some())
    }
}

impl Drop for Board {
    fn drop(&mut self) {
        ask!(self, synicboard_close);
    }
}

impl fmt::Debug for Board {
    fn fmt(&self, formatter: &mut fmt::Formatter<'_>) -> fmt::Result {
        formatter
            .debug_struct("Board")
            .field("processors", &self.processors)
            .field("pages", &self.pages)
            .field("moment", &self.moment())
            .field("next_ticket", &self.next_ticket())
            .finish_non_exhaustive()
    }
}
