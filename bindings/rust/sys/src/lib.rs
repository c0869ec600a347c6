//! The declarations of `synicboard.h`, name for name, and how `libsynicboard.a` is linked. The crate `synicboard`
//! calls them safely, and has this crate as its module `sys`.
//!
//! A caller must meet the header's preconditions: a pointer is null or valid for its count; a handle is all zeros
//! or was opened, is not copied, and is used by one call at a time.
//!
//! Tests compare the declarations with the header's text, and the layouts with those of C.

#![no_std]
#![deny(missing_docs)]
#![allow(non_camel_case_types)]

use core::ffi::c_char;

mod layout;
mod types;

pub use types::*;

/// The first number of the version of the library.
pub const SYNICBOARD_VERSION_MAJOR: u32 = 3;
/// The second number of the version of the library.
pub const SYNICBOARD_VERSION_MINOR: u32 = 0;
/// The third number of the version of the library.
pub const SYNICBOARD_VERSION_PATCH: u32 = 0;

/// Outcome: all is well.
pub const SYNICBOARD_OK: u8 = 0;
/// Outcome: not 1 to 8 processors, or not 1 to 64 pages; on a sparse board, not 1 to 64 processors.
pub const SYNICBOARD_BAD_SIZE: u8 = 1;
/// Outcome: an allocation failed.
pub const SYNICBOARD_NO_MEMORY: u8 = 2;
/// Outcome: the handle to open is already open.
pub const SYNICBOARD_IS_OPEN: u8 = 3;
/// Outcome: the handle is closed.
pub const SYNICBOARD_IS_CLOSED: u8 = 4;
/// Outcome: the line has no lines left to split off.
pub const SYNICBOARD_NO_MORE_LINES: u8 = 5;
/// Outcome: the pointer to the handle to open is null.
pub const SYNICBOARD_NO_HANDLE: u8 = 6;
/// Outcome: the handle of the line is closed, and that of the board is not.
pub const SYNICBOARD_NO_LINE: u8 = 7;
/// Outcome: a vector below 16, too many bytes, or an unknown kind.
pub const SYNICBOARD_NO_EVENT: u8 = 8;
/// Outcome: one more reply, or `SYNICBOARD_MOST_NOTICES` more notices, might not fit.
pub const SYNICBOARD_NO_ROOM: u8 = 9;
/// Outcome: a line of the text is wrong; `line` is the first, from 1.
pub const SYNICBOARD_WRONG_LINE: u8 = 10;
/// Outcome: more than 1,073,741,824 bytes, and no line of these is wrong.
pub const SYNICBOARD_TOO_LONG: u8 = 11;
/// Outcome: the text is null, and its length is not 0.
pub const SYNICBOARD_NO_TEXT: u8 = 12;
/// Outcome: the shared board has no history.
pub const SYNICBOARD_NOT_RECORDED: u8 = 13;
/// Outcome: the board has live pages, and the call serves only others.
pub const SYNICBOARD_IS_LIVE: u8 = 14;
/// Outcome: the board has no live pages.
pub const SYNICBOARD_NOT_LIVE: u8 = 15;
/// Outcome: a page is null, not at a multiple of 4096, there twice, or another board's.
pub const SYNICBOARD_BAD_PAGE: u8 = 16;
/// Outcome: the thread holds the shared board already.
pub const SYNICBOARD_IS_HELD: u8 = 17;
/// Outcome: the thread does not hold the shared board.
pub const SYNICBOARD_NOT_HELD: u8 = 18;

/// A port is closed.
pub const SYNICBOARD_PORT_CLOSED: u8 = 0;
/// A port is for messages.
pub const SYNICBOARD_PORT_MESSAGES: u8 = 1;
/// A port is for event flags.
pub const SYNICBOARD_PORT_FLAGS: u8 = 2;

/// Reply: no event was performed, for the reason in `fault`; nothing changed.
pub const SYNICBOARD_NOT_PERFORMED: u8 = 0;
/// Reply: the event was performed.
pub const SYNICBOARD_DONE: u8 = 1;
/// Reply: `value`.
pub const SYNICBOARD_VALUE: u8 = 2;
/// Reply: the first `length` of `bytes`.
pub const SYNICBOARD_BYTES: u8 = 3;
/// Reply: `vector` was taken.
pub const SYNICBOARD_TAKEN: u8 = 4;
/// Reply: there was no vector to take.
pub const SYNICBOARD_NONE_TAKEN: u8 = 5;
/// Reply: the post was accepted with `ticket`.
pub const SYNICBOARD_ACCEPTED: u8 = 6;
/// Reply: the event flag was clear, and was set.
pub const SYNICBOARD_FLAG_WAS_CLEAR: u8 = 7;
/// Reply: the event flag was already set.
pub const SYNICBOARD_FLAG_WAS_SET: u8 = 8;
/// Reply: the access raises #GP; nothing changed.
pub const SYNICBOARD_GENERAL_PROTECTION: u8 = 9;
/// Reply: refused for the reason in `refusal`; nothing changed.
pub const SYNICBOARD_REFUSED: u8 = 10;

/// Refusal: the port is not open.
pub const SYNICBOARD_UNKNOWN_PORT: u8 = 1;
/// Refusal: the port is already open.
pub const SYNICBOARD_PORT_OPEN: u8 = 2;
/// Refusal: the port has the other shape.
pub const SYNICBOARD_WRONG_KIND: u8 = 3;
/// Refusal: the target or the shape is out of range.
pub const SYNICBOARD_BAD_TARGET: u8 = 4;
/// Refusal: the message type is 0 or has bit 31 set.
pub const SYNICBOARD_BAD_TYPE: u8 = 5;
/// Refusal: the flag is not one of the port's.
pub const SYNICBOARD_BAD_FLAG: u8 = 6;
/// Refusal: the SynIC of the target is disabled.
pub const SYNICBOARD_SYNIC_OFF: u8 = 7;
/// Refusal: the buffers of the port are in use.
pub const SYNICBOARD_NO_BUFFERS: u8 = 8;
/// Refusal: all tickets are spent.
pub const SYNICBOARD_TICKETS_SPENT: u8 = 9;
/// Refusal: the time is before the present one.
pub const SYNICBOARD_CLOCK_BACK: u8 = 10;
/// Refusal: the address is in no page.
pub const SYNICBOARD_OUTSIDE_SPACE: u8 = 11;
/// Refusal: the bytes are in two pages.
pub const SYNICBOARD_CROSSES_PAGE: u8 = 12;
/// Refusal: the length is 0 or above 8.
pub const SYNICBOARD_BAD_LENGTH: u8 = 13;
/// Refusal: there is no such processor.
pub const SYNICBOARD_NO_SUCH_PROCESSOR: u8 = 14;
/// Refusal: the processor is already suspended.
pub const SYNICBOARD_ALREADY_SUSPENDED: u8 = 15;
/// Refusal: the processor is not suspended.
pub const SYNICBOARD_NOT_SUSPENDED: u8 = 16;
/// Refusal: of a sparse board, the page is in the caller's memory.
pub const SYNICBOARD_ELSEWHERE: u8 = 17;

/// Event: port, vp, sint, buffers.
pub const SYNICBOARD_OPEN_MESSAGE_PORT: u8 = 1;
/// Event: port, vp, sint, flag (the base), count.
pub const SYNICBOARD_OPEN_EVENT_PORT: u8 = 2;
/// Event: port.
pub const SYNICBOARD_CLOSE_PORT: u8 = 3;
/// Event: vp, msr, value.
pub const SYNICBOARD_WRITE: u8 = 4;
/// Event: vp, msr.
pub const SYNICBOARD_READ: u8 = 5;
/// Event: port, message_type, bytes, length.
pub const SYNICBOARD_POST: u8 = 6;
/// Event: port, flag.
pub const SYNICBOARD_SIGNAL: u8 = 7;
/// Event: vp, vector.
pub const SYNICBOARD_ASSERT: u8 = 8;
/// Event: vp, part, value (the bits).
pub const SYNICBOARD_ABSORB: u8 = 9;
/// Event: address, bytes, length.
pub const SYNICBOARD_STORE: u8 = 10;
/// Event: address, length.
pub const SYNICBOARD_LOAD: u8 = 11;
/// Event: moment.
pub const SYNICBOARD_TICK: u8 = 12;
/// Event: vp.
pub const SYNICBOARD_TAKE: u8 = 13;
/// Event: vp.
pub const SYNICBOARD_SUSPEND: u8 = 14;
/// Event: vp.
pub const SYNICBOARD_RESUME: u8 = 15;
/// Event: vp.
pub const SYNICBOARD_RESET: u8 = 16;
/// Event: vector, value (the mask).
pub const SYNICBOARD_SEND: u8 = 17;

/// The partition reference counter, in units of 100 ns.
pub const SYNICBOARD_MSR_TIME_REF_COUNT: u32 = 0x40000020;
/// End of interrupt.
pub const SYNICBOARD_MSR_EOI: u32 = 0x40000070;
/// Task priority.
pub const SYNICBOARD_MSR_TPR: u32 = 0x40000072;
/// SynIC control.
pub const SYNICBOARD_MSR_SCONTROL: u32 = 0x40000080;
/// SynIC version.
pub const SYNICBOARD_MSR_SVERSION: u32 = 0x40000081;
/// Event flags page.
pub const SYNICBOARD_MSR_SIEFP: u32 = 0x40000082;
/// Message page.
pub const SYNICBOARD_MSR_SIMP: u32 = 0x40000083;
/// End of message.
pub const SYNICBOARD_MSR_EOM: u32 = 0x40000084;
/// The first synthetic interrupt source; SINT1 to SINT15 follow.
pub const SYNICBOARD_MSR_SINT0: u32 = 0x40000090;
/// The configuration of the first timer. Each next timer is two numbers higher.
pub const SYNICBOARD_MSR_STIMER0_CONFIG: u32 = 0x400000b0;
/// The count of the first timer. Each next timer is two numbers higher.
pub const SYNICBOARD_MSR_STIMER0_COUNT: u32 = 0x400000b1;

/// Notice: ticket, vp, sint.
pub const SYNICBOARD_NOTICE_ACCEPTED: u8 = 1;
/// Notice: ticket, vp, sint.
pub const SYNICBOARD_NOTICE_PLACED: u8 = 2;
/// Notice: vp, sint.
pub const SYNICBOARD_NOTICE_PENDING: u8 = 3;
/// Notice: vp, vector.
pub const SYNICBOARD_NOTICE_REQUESTED: u8 = 4;
/// Notice: vp, sint, flag.
pub const SYNICBOARD_NOTICE_FLAG: u8 = 5;
/// Notice: ticket, vp, sint.
pub const SYNICBOARD_NOTICE_CONSUMED: u8 = 6;
/// Notice: ticket, vp, sint.
pub const SYNICBOARD_NOTICE_WITHDRAWN: u8 = 7;
/// Notice: vp, timer, due.
pub const SYNICBOARD_NOTICE_EXPIRED: u8 = 8;
/// Notice: vp, timer, count.
pub const SYNICBOARD_NOTICE_SKIPPED: u8 = 9;

/// No event emits more notices.
pub const SYNICBOARD_MOST_NOTICES: usize = 276;

/// Raise: the handle is closed, no such processor, or a vector below 16.
pub const SYNICBOARD_NOT_RAISED: u8 = 0;
/// Raise: the bit was clear; kick the processor.
pub const SYNICBOARD_FRESH: u8 = 1;
/// Raise: the bit was already set.
pub const SYNICBOARD_ALREADY: u8 = 2;

/// Owner: no such page.
pub const SYNICBOARD_OWNER_NOTHING: u8 = 0;
/// Owner: the guest page.
pub const SYNICBOARD_OWNER_GUEST: u8 = 1;
/// Owner: the message page of `vp`.
pub const SYNICBOARD_OWNER_MESSAGES: u8 = 2;
/// Owner: the event flags page of `vp`.
pub const SYNICBOARD_OWNER_FLAGS: u8 = 3;

/// The bit of `synicboard_update` for the earliest deadline.
pub const SYNICBOARD_EARLIEST_CHANGED: u64 = 0x100;

/// No event, and no `synicboard_observe` or `synicboard_save`, emits more notices on a board with live pages.
pub const SYNICBOARD_MOST_LIVE_NOTICES: usize = 22720;

unsafe extern "C" {
    /// The version of the library that runs: 10000 * major + 100 * minor + patch.
    pub fn synicboard_version() -> u32;
    /// What an outcome means, in words; null if it is none.
    pub fn synicboard_outcome_text(outcome: u8) -> *const c_char;
    /// What a refusal means, in words; null if it is none.
    pub fn synicboard_refusal_text(refusal: u8) -> *const c_char;
    /// The name of a kind of notices; null if it is none.
    pub fn synicboard_notice_text(kind: u8) -> *const c_char;

    /// Opens a board at time 0. Its first accepted message gets the ticket `first_ticket`.
    pub fn synicboard_open(board: *mut synicboard, processors: u8, pages: u8, first_ticket: u64) -> u8;
    /// Opens a sparse board at time 0, whose guest's pages are in the caller's memory.
    pub fn synicboard_open_sparse(board: *mut synicboard, processors: u8, first_ticket: u64) -> u8;
    /// Frees the board and closes its handle.
    pub fn synicboard_close(board: *mut synicboard);

    /// Opens a port for messages.
    pub fn synicboard_open_message_port(
        board: *mut synicboard,
        port: u8,
        vp: u8,
        sint: u8,
        buffers: u8,
    ) -> synicboard_reply;
    /// Opens a port for event flags.
    pub fn synicboard_open_event_port(
        board: *mut synicboard,
        port: u8,
        vp: u8,
        sint: u8,
        base: u16,
        count: u16,
    ) -> synicboard_reply;
    /// Closes a port.
    pub fn synicboard_close_port(board: *mut synicboard, port: u8) -> synicboard_reply;
    /// A guest writes a register.
    pub fn synicboard_write(board: *mut synicboard, vp: u8, msr: u32, value: u64) -> synicboard_reply;
    /// Whether a register is a board's.
    pub fn synicboard_has_register(msr: u32) -> bool;
    /// A guest reads a register.
    pub fn synicboard_read(board: *mut synicboard, vp: u8, msr: u32) -> synicboard_reply;
    /// Posts a message of up to 240 bytes.
    pub fn synicboard_post(
        board: *mut synicboard,
        port: u8,
        message_type: u32,
        payload: *const u8,
        length: usize,
    ) -> synicboard_reply;
    /// Signals an event flag.
    pub fn synicboard_signal(board: *mut synicboard, port: u8, flag: u16) -> synicboard_reply;
    /// A device requests a vector, from 16 on.
    pub fn synicboard_assert(board: *mut synicboard, vp: u8, vector: u8) -> synicboard_reply;
    /// Asserts a source of a processor, as a message or a signal to it would.
    pub fn synicboard_assert_source(board: *mut synicboard, vp: u8, sint: u8) -> synicboard_reply;
    /// Requests posted vectors: bit i of `bits` is vector 64 * part + i.
    pub fn synicboard_absorb(board: *mut synicboard, vp: u8, part: u8, bits: u64) -> synicboard_reply;
    /// A guest stores up to 8 bytes.
    pub fn synicboard_store(
        board: *mut synicboard,
        address: u64,
        bytes: *const u8,
        length: usize,
    ) -> synicboard_reply;
    /// A guest loads bytes.
    pub fn synicboard_load(board: *mut synicboard, address: u64, length: u8) -> synicboard_reply;
    /// Moves the clock to a time in units of 100 ns.
    pub fn synicboard_tick(board: *mut synicboard, moment: u64) -> synicboard_reply;
    /// A processor takes its next vector.
    pub fn synicboard_take(board: *mut synicboard, vp: u8) -> synicboard_reply;
    /// Suspends a processor.
    pub fn synicboard_suspend(board: *mut synicboard, vp: u8) -> synicboard_reply;
    /// Resumes a suspended processor.
    pub fn synicboard_resume(board: *mut synicboard, vp: u8) -> synicboard_reply;
    /// Resets a processor.
    pub fn synicboard_reset(board: *mut synicboard, vp: u8) -> synicboard_reply;
    /// Requests a vector, from 16 on, at each processor of a mask.
    pub fn synicboard_send(board: *mut synicboard, vector: u8, mask: u64) -> synicboard_reply;
    /// Performs an event that is given as a struct.
    pub fn synicboard_perform(board: *mut synicboard, event: *const synicboard_event) -> synicboard_reply;

    /// Copies the notices of the last event, as many as fit, and returns how many there are.
    pub fn synicboard_notices(board: *const synicboard, room: *mut synicboard_notice, length: usize)
        -> usize;

    /// Performs events in order, as long as each is valid and its reply and notices fit.
    pub fn synicboard_perform_all(
        board: *mut synicboard,
        events: *const synicboard_event,
        count: usize,
        replies: *mut synicboard_reply,
        reply_room: usize,
        notices: *mut synicboard_notice,
        notice_room: usize,
    ) -> synicboard_batch;

    /// Moves the clock, if the time is later, performs an event, if there is one, and copies the notices of both.
    pub fn synicboard_step(
        board: *mut synicboard,
        now: u64,
        event: *const synicboard_event,
        assisted: u64,
        notices: *mut synicboard_notice,
        room: usize,
    ) -> synicboard_answer;
    /// The processors that have a next vector: bit p for processor p.
    pub fn synicboard_next_bits(board: *const synicboard) -> u64;
    /// Opens words for that many processors, with no vector raised, and their first line.
    pub fn synicboard_open_line(line: *mut synicboard_line, processors: u8) -> u8;
    /// Opens `other` as a line of the same words.
    pub fn synicboard_split_line(line: *mut synicboard_line, other: *mut synicboard_line) -> u8;
    /// Closes the line.
    pub fn synicboard_close_line(line: *mut synicboard_line);
    /// Raises a vector, from 16 on, of a processor.
    pub fn synicboard_raise(line: *mut synicboard_line, vp: u8, vector: u8) -> u8;
    /// Clears the bits of a part of a processor's words, and has the board absorb them; `value` of
    /// the reply is these bits.
    pub fn synicboard_absorb_line(
        board: *mut synicboard,
        line: *mut synicboard_line,
        vp: u8,
        part: u8,
    ) -> synicboard_reply;

    /// The next vector of a processor; 0 for none.
    pub fn synicboard_next(board: *const synicboard, vp: u8) -> u8;
    /// Whether a vector is auto-EOI on a processor.
    pub fn synicboard_is_auto(board: *const synicboard, vp: u8, vector: u8) -> bool;
    /// How many messages are queued for a source.
    pub fn synicboard_queued(board: *const synicboard, vp: u8, sint: u8) -> u16;
    /// The present time, in units of 100 ns.
    pub fn synicboard_moment(board: *const synicboard) -> u64;
    /// The ticket that the next accepted message gets.
    pub fn synicboard_next_ticket(board: *const synicboard) -> u64;
    /// A port; all 0 if it is closed.
    pub fn synicboard_port(board: *const synicboard, port: u8) -> synicboard_port_state;
    /// The local APIC of a processor; all 0 if there is no such processor.
    pub fn synicboard_lapic(board: *const synicboard, vp: u8) -> synicboard_local_apic;
    /// Whether no EOI is required of a processor: a vector is in service, and none is requested.
    pub fn synicboard_no_eoi_required(board: *const synicboard, vp: u8) -> bool;
    /// Forwards the requested vectors of a processor to a local APIC outside the board.
    pub fn synicboard_forward(
        board: *mut synicboard,
        vp: u8,
        forwarded: *mut synicboard_forwarded,
    ) -> synicboard_reply;
    /// The timer of a processor; all 0 if there is no such timer.
    pub fn synicboard_timer(board: *const synicboard, vp: u8, timer: u8) -> synicboard_timer_state;
    /// Stores the ticket in the slot of a source, if the slot holds one.
    pub fn synicboard_slot(board: *const synicboard, vp: u8, sint: u8, ticket: *mut u64) -> bool;
    /// Which page a guest sees at a page number.
    pub fn synicboard_owner(board: *const synicboard, page: u64) -> synicboard_page_owner;
    /// The first page from `from` on at which a guest sees an overlay.
    pub fn synicboard_next_overlay(board: *const synicboard, from: u64) -> synicboard_overlay;
    /// The timer with the earliest deadline.
    pub fn synicboard_earliest(board: *const synicboard) -> synicboard_due;
    /// The timer with the earliest deadline that is later than `moment`.
    pub fn synicboard_earliest_after(board: *const synicboard, moment: u64) -> synicboard_due;
    /// When a host must tick next.
    pub fn synicboard_alarm(board: *const synicboard) -> synicboard_next_tick;
    /// Moves the clock, and stores the earliest deadline afterwards.
    pub fn synicboard_tick_due(
        board: *mut synicboard,
        moment: u64,
        due: *mut synicboard_due,
    ) -> synicboard_reply;
    /// Updates a view, and returns a bit for each value that differs.
    pub fn synicboard_update(board: *const synicboard, view: *mut synicboard_view) -> u64;
    /// Updates a view of 64 processors, and returns what differs from before.
    pub fn synicboard_update_wide(
        board: *const synicboard,
        view: *mut synicboard_wide_view,
    ) -> synicboard_changes;
    /// Updates the owners, and returns a bit for each page whose owner differs.
    pub fn synicboard_update_owners(board: *const synicboard, owners: *mut synicboard_owners) -> u64;

    /// Stores the address of the message page of a processor, if there is one.
    pub fn synicboard_message_page(board: *const synicboard, vp: u8, page: *mut *const u8) -> bool;
    /// Stores the address of the event flags page of a processor, if there is one.
    pub fn synicboard_flag_page(board: *const synicboard, vp: u8, page: *mut *const u8) -> bool;
    /// Stores the address of a guest page, if there is one.
    pub fn synicboard_guest_page(board: *const synicboard, number: u64, page: *mut *const u8) -> bool;

    /// Gives the board live pages, and stores their addresses, two for each processor.
    pub fn synicboard_make_live(board: *mut synicboard, pages: *mut *mut u8) -> u8;
    /// Gives the board live pages in memory of the caller's, two for each processor.
    pub fn synicboard_make_live_in(board: *mut synicboard, pages: *const *mut u8) -> u8;
    /// Whether the board has live pages.
    pub fn synicboard_is_live(board: *const synicboard) -> bool;
    /// The processors of which the board performed an EOM after the last event: bit p for processor p.
    pub fn synicboard_eoms(board: *const synicboard) -> u64;
    /// Looks at the message slots of a processor.
    pub fn synicboard_observe(board: *mut synicboard, vp: u8) -> synicboard_reply;
    /// Looks at all words of both live pages of a processor.
    pub fn synicboard_observe_all(board: *mut synicboard, vp: u8) -> synicboard_reply;

    /// A reference TSC page for a TSC of `hz` ticks a second; all 0 if it is too slow.
    pub fn synicboard_tsc_page_at(hz: u64, tsc: u64, time: u64) -> synicboard_tsc_page;
    /// The same page with another offset.
    pub fn synicboard_tsc_page_moved(page: synicboard_tsc_page, tsc: u64, time: u64) -> synicboard_tsc_page;
    /// The reference time of a page when the TSC is `tsc`.
    pub fn synicboard_tsc_time(page: synicboard_tsc_page, tsc: u64) -> u64;
    /// The first TSC from which on the time is at least `time`.
    pub fn synicboard_tsc_until(page: synicboard_tsc_page, time: u64) -> u64;

    /// Performs a script on a board of its own, and writes its output to a buffer, as much as fits.
    pub fn synicboard_replay(
        script: *const u8,
        script_length: usize,
        room: *mut u8,
        length: usize,
    ) -> synicboard_end;
    /// Writes the image of a board to a buffer, as much as fits.
    pub fn synicboard_save(board: *mut synicboard, room: *mut u8, length: usize) -> synicboard_end;
    /// Restores a board from an image, in a closed handle.
    pub fn synicboard_restore(board: *mut synicboard, image: *const u8, length: usize) -> synicboard_end;
    /// Checks whether a text is the trace of a legal history.
    pub fn synicboard_check(trace: *const u8, length: usize) -> synicboard_verdict;
    /// Writes the two lines of a trace entry for an event and its reply to a buffer, as much as
    /// fits.
    pub fn synicboard_format_entry(
        actor: u8,
        event: *const synicboard_event,
        reply: *const synicboard_reply,
        room: *mut u8,
        length: usize,
    ) -> synicboard_end;

    /// Opens a shared board at time 0. Its first accepted message gets the ticket `first_ticket`.
    pub fn synicboard_open_shared(
        shared: *mut synicboard_shared,
        processors: u8,
        pages: u8,
        first_ticket: u64,
    ) -> u8;
    /// Puts an open board under a lock, and closes its handle.
    pub fn synicboard_share(shared: *mut synicboard_shared, board: *mut synicboard) -> u8;
    /// Takes the board back, and closes the handle of the shared board.
    pub fn synicboard_unshare(shared: *mut synicboard_shared, board: *mut synicboard) -> u8;
    /// Opens a shared board at time 0 that records each event.
    pub fn synicboard_open_recorded(
        shared: *mut synicboard_shared,
        processors: u8,
        pages: u8,
        first_ticket: u64,
    ) -> u8;
    /// Frees the shared board and closes its handle.
    pub fn synicboard_close_shared(shared: *mut synicboard_shared);
    /// Performs an event for an actor, and copies its notices; a recorded board appends it to its history.
    pub fn synicboard_act(
        shared: *mut synicboard_shared,
        actor: u8,
        event: *const synicboard_event,
        notices: *mut synicboard_notice,
        room: usize,
    ) -> synicboard_reply;
    /// The same for `synicboard_absorb_line`.
    pub fn synicboard_act_absorb(
        shared: *mut synicboard_shared,
        actor: u8,
        line: *mut synicboard_line,
        vp: u8,
        part: u8,
        notices: *mut synicboard_notice,
        room: usize,
    ) -> synicboard_reply;
    /// Acquires the lock and returns the board; null if the handle is closed.
    pub fn synicboard_hold(shared: *mut synicboard_shared) -> *mut synicboard;
    /// Releases the lock.
    pub fn synicboard_release(shared: *mut synicboard_shared) -> u8;
    /// Writes the history as a legal trace to a buffer, as much as fits.
    pub fn synicboard_settle(
        shared: *mut synicboard_shared,
        room: *mut u8,
        length: usize,
    ) -> synicboard_settled;
}
