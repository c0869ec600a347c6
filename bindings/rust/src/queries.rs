//! The queries of a board.

use crate::board::{ask, PAGE_BYTES};
use crate::notice::ROOM;
use crate::{
    beyond_the_header, sys, Board, Changes, Moment, Notices, Owner, Owners, Port, PortShape, Sint, Ticket,
    TimerId, Vector, View, Vp, WideChanges, WideView,
};
use core::ptr;

/// A local APIC. Bit i of word k is vector 64 * k + i.
#[derive(Clone, Copy, PartialEq, Eq, Debug)]
pub struct LocalApic {
    /// The requests (IRR).
    pub requested: [u64; 4],
    /// The vectors in service (ISR).
    pub in_service: [u64; 4],
    /// The task priority (TPR).
    pub task_priority: u8,
    /// The processor priority (PPR): TPR, or the class of the greatest vector in service if that is
    /// higher.
    pub processor_priority: u8,
    /// Whether the processor is suspended.
    pub is_suspended: bool,
}

/// A timer.
#[derive(Clone, Copy, PartialEq, Eq, Debug)]
pub struct Timer {
    /// STIMERn_CONFIG.
    pub config: u64,
    /// STIMERn_COUNT.
    pub count: u64,
    /// The deadline, in units of 100 ns.
    pub due: Option<u128>,
}

/// Returns a page for as long as the board is borrowed, if the library has one.
macro_rules! lent {
    ($board:expr, $call:ident, $number:expr) => {{
        let mut page = ptr::null();
        if ask!($board, $call, $number, &mut page) {
            // SAFETY: this is the address of a page of 4096 bytes, valid until the board is closed.
            // Only events change its bytes, and none can happen while the board is borrowed.
            Some(unsafe { &*page.cast::<[u8; PAGE_BYTES]>() })
        } else {
            None
        }
    }};
}

/// Queries, which change nothing.
impl Board {
    /// The processors that have a next vector: bit p for processor p.
    pub fn next_bits(&self) -> u64 {
        ask!(self, synicboard_next_bits)
    }

    /// A port, if it is open: its processor, its source and its shape.
    pub fn port(&self, port: Port) -> Option<(Vp, Sint, PortShape)> {
        let found = ask!(self, synicboard_port, port.number());
        let shape = match found.kind {
            sys::SYNICBOARD_PORT_MESSAGES => PortShape::Messages { buffers: found.buffers },
            sys::SYNICBOARD_PORT_FLAGS => PortShape::Flags { base: found.base, count: found.count },
            _ => return None,
        };
        Some((Vp::new(found.vp)?, Sint::new(found.sint)?, shape))
    }

    /// The notices of the last event, in order. There are none if it was refused or raised #GP, or
    /// before the first event. [`NoEvent`](crate::Reply::NoEvent) is no event: then these are still the notices of
    /// the event before.
    pub fn notices(&self) -> Notices<'_> {
        let count = ask!(self, synicboard_notices, self.room.start(), ROOM);
        // SAFETY: the library wrote `count` notices, or as many as fit into the buffer, which is
        // this board's, and a board is not `Sync`.
        unsafe { self.room.first(count) }
    }

    /// How many processors are on the board, 1 to 64.
    pub fn processors(&self) -> u8 {
        self.processors
    }

    /// The processors on the board, in order.
    pub fn vps(&self) -> impl DoubleEndedIterator<Item = Vp> + ExactSizeIterator + Clone + use<> {
        Vp::below(self.processors)
    }

    /// How many guest pages there are, 1 to 64; 0 if the board is sparse.
    pub fn pages(&self) -> u8 {
        self.pages
    }

    /// The vector that [`take`](Board::take) would take. `None` if there is none, or `vp` is not on
    /// the board.
    pub fn next(&self, vp: Vp) -> Option<Vector> {
        Vector::new(ask!(self, synicboard_next, vp.number()))
    }

    /// Whether a vector is auto-EOI on a processor. `false` if `vp` is not on the board.
    pub fn is_auto(&self, vp: Vp, vector: Vector) -> bool {
        ask!(self, synicboard_is_auto, vp.number(), vector.number())
    }

    /// How many messages are queued for a source of a processor. 0 if `vp` is not on the board.
    pub fn queued(&self, vp: Vp, sint: Sint) -> u16 {
        ask!(self, synicboard_queued, vp.number(), sint.number())
    }

    /// The local APIC of a processor. `None` if `vp` is not on the board.
    ///
    /// ```
    /// use synicboard::{Board, Reply, Ticket, Vector, Vp};
    ///
    /// let mut board = Board::open(1, 1, Ticket::new(0)).unwrap();
    /// let vector = Vector::new(0x41).unwrap();
    /// assert_eq!(board.assert(Vp::ZERO, vector), Reply::Done);
    /// assert_eq!(board.take(Vp::ZERO), Reply::Taken(Some(vector)));
    /// let lapic = board.lapic(Vp::ZERO).unwrap();
    /// assert_eq!((lapic.requested, lapic.in_service), ([0; 4], [0, 2, 0, 0]));
    /// assert_eq!((lapic.task_priority, lapic.processor_priority), (0, 0x40));
    /// ```
    pub fn lapic(&self, vp: Vp) -> Option<LocalApic> {
        if vp.number() >= self.processors {
            return None;
        }
        let lapic = ask!(self, synicboard_lapic, vp.number());
        Some(LocalApic {
            requested: lapic.requested,
            in_service: lapic.in_service,
            task_priority: lapic.task_priority,
            processor_priority: lapic.processor_priority,
            is_suspended: lapic.is_suspended,
        })
    }

    /// Whether no EOI is required of a processor (TLFS, "EOI Assist"): a vector is in service, and none is
    /// requested. Its end may wait until the host next asks which vector is next.
    ///
    /// ```
    /// use synicboard::{Board, Reply, Ticket, Vector, Vp};
    ///
    /// let mut board = Board::open(1, 1, Ticket::new(0)).unwrap();
    /// assert_eq!(board.assert(Vp::ZERO, Vector::new(0x41).unwrap()), Reply::Done);
    /// assert_eq!(board.take(Vp::ZERO), Reply::Taken(Vector::new(0x41)));
    /// assert!(board.no_eoi_required(Vp::ZERO));
    /// assert_eq!(board.assert(Vp::ZERO, Vector::new(0x31).unwrap()), Reply::Done);
    /// assert!(!board.no_eoi_required(Vp::ZERO));
    /// ```
    pub fn no_eoi_required(&self, vp: Vp) -> bool {
        ask!(self, synicboard_no_eoi_required, vp.number())
    }

    /// The registers and the deadline of a timer, even while its processor is suspended; `None` if the
    /// processor is not on the board or the index is above 3.
    ///
    /// ```
    /// use synicboard::{Board, Reply, Ticket, Vp, msr};
    ///
    /// let mut board = Board::open(1, 1, Ticket::new(0)).unwrap();
    /// assert_eq!(board.write(Vp::ZERO, msr::STIMER0_COUNT, 100), Reply::Done);
    /// assert_eq!(board.write(Vp::ZERO, msr::STIMER0_CONFIG, 0x1401), Reply::Done);
    /// let timer = board.timer(Vp::ZERO, 0).unwrap();
    /// assert_eq!((timer.config, timer.count, timer.due), (0x1401, 100, Some(100)));
    /// ```
    pub fn timer(&self, vp: Vp, index: u8) -> Option<Timer> {
        if vp.number() >= self.processors || index > 3 {
            return None;
        }
        let timer = ask!(self, synicboard_timer, vp.number(), index);
        let deadline = u128::from(timer.high) << 64 | u128::from(timer.low);
        Some(Timer { config: timer.config, count: timer.count, due: timer.is_due.then_some(deadline) })
    }

    /// The ticket of the message in the slot of a source; `None` if the slot holds none, as one that the
    /// guest filled itself, or if `vp` is not on the board.
    pub fn slot_ticket(&self, vp: Vp, sint: Sint) -> Option<Ticket> {
        let mut ticket = 0;
        ask!(self, synicboard_slot, vp.number(), sint.number(), &mut ticket).then_some(Ticket::new(ticket))
    }

    /// Writes the image of the board to a buffer, as much as fits, and returns the length of the whole.
    /// An image states how the board differs from a newly opened one, in lines (docs/FORMATS.md of the
    /// library), and [`restore`](Board::restore) reads it. `None` if an allocation failed; then the buffer
    /// is unchanged.
    ///
    /// ```
    /// let mut board = synicboard::Board::open(1, 1, synicboard::Ticket::new(5)).unwrap();
    /// let mut room = [0; 80];
    /// let length = board.save(&mut room).unwrap();
    /// assert_eq!(room[..length], *b"image 1\nboard 1 1 5\nlapic 0 0 0 0 0 0 0 0 0 0 running\nend\n");
    /// ```
    #[must_use = "the image may not fit, or not be there"]
    pub fn save(&mut self, room: &mut [u8]) -> Option<usize> {
        let end = ask!(self, synicboard_save, room.as_mut_ptr(), room.len());
        match end.kind {
            sys::SYNICBOARD_OK => Some(end.length),
            sys::SYNICBOARD_NO_MEMORY => None,
            _ => beyond_the_header(&end.kind),
        }
    }

    /// Which page a guest sees at a page number.
    pub fn owner(&self, page: u64) -> Owner {
        owner_of(&ask!(self, synicboard_owner, page))
    }

    /// The first page from `from` on at which a guest sees an overlay, with its owner; `None` if there is
    /// none. From 0 on, and then from the page after each answer, these are all of them, at most two for each
    /// processor, for a host to map. A write of SIMP or SIEFP, or a reset, may change them.
    pub fn next_overlay(&self, from: u64) -> Option<(u64, Owner)> {
        let next = ask!(self, synicboard_next_overlay, from);
        match owner_of(&next.owner) {
            Owner::Nothing => None,
            owner => Some((next.page, owner)),
        }
    }

    /// The timer with the earliest deadline, and the deadline in units of 100 ns, even if it is late or not
    /// ready to expire. `None` if no timer has a deadline. Timers of suspended processors do not count. A deadline
    /// above 2^64 - 1 is never reached by a tick.
    pub fn earliest(&self) -> Option<(u128, TimerId)> {
        first_due(&ask!(self, synicboard_earliest))
    }

    /// When to tick next: the least time after the present at which a tick makes a timer expire or skip
    /// periods, in units of 100 ns. A host arms its timer for it after each event. `None` if no tick does.
    pub fn alarm(&self) -> Option<Moment> {
        let next = ask!(self, synicboard_alarm);
        next.is_set.then_some(next.moment)
    }

    /// The timer with the earliest deadline that is later than `moment`, and the deadline. A timer that is late
    /// by more than a period is not among them: arm the host's timer for the [`alarm`](Board::alarm).
    pub fn earliest_after(&self, moment: Moment) -> Option<(u128, TimerId)> {
        first_due(&ask!(self, synicboard_earliest_after, moment))
    }

    /// Updates a view of the board, and returns what differs from before: which threads of
    /// processors to kick, and whether to arm the host's timer again.
    pub fn update(&self, view: &mut View) -> Changes {
        Changes(ask!(self, synicboard_update, &mut view.0))
    }

    /// The same for a board of up to 64 processors. It asks for each of 64; for a board of at most eight use
    /// [`update`](Board::update).
    pub fn update_wide(&self, view: &mut WideView) -> WideChanges {
        WideChanges(ask!(self, synicboard_update_wide, &mut view.0))
    }

    /// Updates the owners of pages 0 to 63, and returns those whose owner differs from before, for a
    /// host to map again: bit i for page i. A write of SIMP or SIEFP, or a reset, may change owners.
    /// An overlay of a sparse board may be at a page above 63: use
    /// [`next_overlay`](Board::next_overlay) there.
    #[must_use = "the host maps these pages again"]
    pub fn update_owners(&self, owners: &mut Owners) -> u64 {
        ask!(self, synicboard_update_owners, &mut owners.0)
    }

    /// The present time, in units of 100 ns.
    pub fn moment(&self) -> Moment {
        ask!(self, synicboard_moment)
    }

    /// The ticket that the next accepted message gets.
    pub fn next_ticket(&self) -> Ticket {
        Ticket::new(ask!(self, synicboard_next_ticket))
    }

    /// The message page of a processor, whether or not a guest sees it: the slot of source s is its
    /// bytes 256 s to 256 s + 255. `None` if `vp` is not on the board.
    pub fn message_page(&self, vp: Vp) -> Option<&[u8; PAGE_BYTES]> {
        lent!(self, synicboard_message_page, vp.number())
    }

    /// The event flags page of a processor, whether or not a guest sees it: the flags of source s
    /// are its bytes 256 s to 256 s + 255. `None` if `vp` is not on the board.
    pub fn flag_page(&self, vp: Vp) -> Option<&[u8; PAGE_BYTES]> {
        lent!(self, synicboard_flag_page, vp.number())
    }

    /// A guest page, without the overlays that obscure it. `None` if there is no such page.
    pub fn guest_page(&self, number: u64) -> Option<&[u8; PAGE_BYTES]> {
        lent!(self, synicboard_guest_page, number)
    }
}

/// The owner of a page.
pub(crate) fn owner_of(owner: &sys::synicboard_page_owner) -> Owner {
    let meant = match owner.kind {
        sys::SYNICBOARD_OWNER_NOTHING => Some(Owner::Nothing),
        sys::SYNICBOARD_OWNER_GUEST => Some(Owner::Guest),
        sys::SYNICBOARD_OWNER_MESSAGES => Vp::new(owner.vp).map(Owner::Sim),
        sys::SYNICBOARD_OWNER_FLAGS => Vp::new(owner.vp).map(Owner::Sief),
        _ => None,
    };
    meant.unwrap_or_else(|| beyond_the_header(owner))
}

/// The earliest deadline and its timer.
pub(crate) fn first_due(due: &sys::synicboard_due) -> Option<(u128, TimerId)> {
    if !due.is_due {
        return None;
    }
    let timer = Vp::new(due.vp).and_then(|vp| TimerId::new(vp, due.timer));
    let timer = timer.unwrap_or_else(|| beyond_the_header(due));
    Some((u128::from(due.high) << 64 | u128::from(due.low), timer))
}
