//! Direct calls of the header: closed handles and null pointers, which no `Board` and no `Line`
//! has, handles that are opened twice, and events as structs.

use std::mem;
use std::ptr;
use synicboard_sys::*;

/// A handle that is closed when it is dropped.
struct Handle(synicboard);

impl Handle {
    fn open() -> Handle {
        let mut handle = Handle(SYNICBOARD_CLOSED);
        // SAFETY: the handle is closed, and has no copy.
        let answer = unsafe { synicboard_open(&mut handle.0, 1, 4, 0) };
        assert_eq!(answer, SYNICBOARD_OK);
        handle
    }

    fn perform(&mut self, event: &synicboard_event) -> synicboard_reply {
        // SAFETY: the handle is closed or opened, and has no copy.
        unsafe { synicboard_perform(&mut self.0, event) }
    }
}

impl Drop for Handle {
    fn drop(&mut self) {
        // SAFETY: the handle is closed or opened, and has no copy.
        unsafe { synicboard_close(&mut self.0) }
    }
}

/// A handle of a line that is closed when it is dropped.
struct Line(synicboard_line);

impl Line {
    fn open(processors: u8) -> Line {
        let mut line = Line(SYNICBOARD_LINE_CLOSED);
        // SAFETY: the handle is closed, and has no copy.
        let answer = unsafe { synicboard_open_line(&mut line.0, processors) };
        assert_eq!(answer, SYNICBOARD_OK);
        line
    }

    fn is_blank(&self) -> bool {
        self.0.at.is_null() && !self.0.is_open
    }
}

impl Drop for Line {
    fn drop(&mut self) {
        // SAFETY: the handle is closed or opened, and has no copy.
        unsafe { synicboard_close_line(&mut self.0) }
    }
}

fn event(kind: u8, fill: impl FnOnce(&mut synicboard_event)) -> synicboard_event {
    // SAFETY: all fields are integers, for which zero is valid.
    let mut event: synicboard_event = unsafe { mem::zeroed() };
    event.kind = kind;
    fill(&mut event);
    event
}

fn reply(kind: u8, fill: impl FnOnce(&mut synicboard_reply)) -> synicboard_reply {
    // SAFETY: all fields are integers, for which zero is valid.
    let mut reply: synicboard_reply = unsafe { mem::zeroed() };
    reply.kind = kind;
    fill(&mut reply);
    reply
}

/// `Done`, with that many notices.
fn told(notices: u16) -> synicboard_reply {
    reply(SYNICBOARD_DONE, |reply| reply.notices = notices)
}

/// The reply of an absorb of these bits.
fn absorbed(bits: u64) -> synicboard_reply {
    reply(SYNICBOARD_DONE, |reply| (reply.notices, reply.value) = (bits.count_ones() as u16, bits))
}

fn fault(fault: u8) -> synicboard_reply {
    reply(SYNICBOARD_NOT_PERFORMED, |reply| reply.fault = fault)
}

#[test]
fn a_closed_handle_has_no_board() {
    let mut handle = Handle(SYNICBOARD_CLOSED);
    let board: *mut synicboard = &mut handle.0;
    let byte = [0; 1];
    // SAFETY: the handle is closed, has no copy, and each slice is valid for the given length.
    let answers = unsafe {
        [
            synicboard_open_message_port(board, 3, 0, 2, 1),
            synicboard_open_event_port(board, 3, 0, 2, 0, 1),
            synicboard_close_port(board, 3),
            synicboard_write(board, 0, 0x4000_0080, 1),
            synicboard_read(board, 0, 0x4000_0080),
            synicboard_post(board, 3, 1, byte.as_ptr(), 1),
            synicboard_signal(board, 3, 0),
            synicboard_assert(board, 0, 0x50),
            synicboard_assert(board, 0, 3),
            synicboard_absorb(board, 0, 1, 1),
            synicboard_store(board, 0, byte.as_ptr(), 1),
            synicboard_load(board, 0, 1),
            synicboard_tick(board, 1),
            synicboard_take(board, 0),
            synicboard_suspend(board, 0),
            synicboard_resume(board, 0),
            synicboard_reset(board, 0),
            synicboard_send(board, 0x50, 1),
            synicboard_send(board, 3, 1),
            synicboard_perform(board, &event(SYNICBOARD_TICK, |_| ())),
            synicboard_perform(board, &event(0, |_| ())),
        ]
    };
    assert_eq!(answers, [fault(SYNICBOARD_IS_CLOSED); 21]);
}

#[test]
fn a_null_pointer_is_judged() {
    let mut handle = Handle::open();
    let (no_board, no_line) = (ptr::null_mut(), ptr::null_mut());
    // SAFETY: the handle has no copy, and all other pointers are null.
    unsafe {
        assert_eq!(synicboard_open(no_board, 1, 4, 0), SYNICBOARD_NO_HANDLE);
        assert_eq!(synicboard_open_line(no_line, 1), SYNICBOARD_NO_HANDLE);
        assert_eq!(synicboard_take(no_board, 0), fault(SYNICBOARD_IS_CLOSED));
        assert_eq!(synicboard_absorb_line(&mut handle.0, no_line, 0, 1), fault(SYNICBOARD_NO_LINE));
        assert_eq!(synicboard_perform(&mut handle.0, ptr::null()), fault(SYNICBOARD_NO_EVENT));
        assert_eq!(synicboard_post(&mut handle.0, 3, 1, ptr::null(), 1), fault(SYNICBOARD_NO_EVENT));
        assert_eq!(synicboard_next(no_board, 0), 0);
        assert_eq!(synicboard_check(ptr::null(), 1).kind, SYNICBOARD_NO_TEXT);
    }
}

#[test]
fn looks_at_a_closed_handle_find_nothing() {
    let mut handle = Handle(SYNICBOARD_CLOSED);
    let board: *mut synicboard = &mut handle.0;
    let mut room = [];
    let mut page = ptr::null();
    // SAFETY: the handle is closed, has no copy, and the buffer has length 0.
    unsafe {
        assert_eq!(synicboard_notices(board, room.as_mut_ptr(), 0), 0);
        assert_eq!(synicboard_next(board, 0), 0);
        assert!(!synicboard_is_auto(board, 0, 0x50));
        assert_eq!(synicboard_queued(board, 0, 2), 0);
        assert_eq!(synicboard_moment(board), 0);
        assert_eq!(synicboard_next_ticket(board), 0);
        assert_eq!(synicboard_owner(board, 0).kind, SYNICBOARD_OWNER_NOTHING);
        assert!(!synicboard_earliest(board).is_due);
        let mut view = synicboard_view { next: [0x50; 8], earliest: synicboard_earliest(board) };
        assert_eq!(synicboard_update(board, &mut view), 0xff);
        let mut wide = synicboard_wide_view { next: [0x50; 64], earliest: synicboard_earliest(board) };
        let changes = synicboard_update_wide(board, &mut wide);
        assert!(changes.next == u64::MAX && !changes.earliest && wide.next == [0; 64]);
        let mut owners = synicboard_owners { page: [synicboard_owner(board, 0); 64] };
        assert_eq!(synicboard_update_owners(board, &mut owners), 0);
        assert!(!synicboard_message_page(board, 0, &mut page));
        assert!(!synicboard_flag_page(board, 0, &mut page));
        assert!(!synicboard_guest_page(board, 0, &mut page));
    }
    assert!(page.is_null());
}

#[test]
fn a_handle_is_opened_once_and_closed_as_often_as_one_likes() {
    let mut handle = Handle::open();
    // SAFETY: the handle has no copy.
    unsafe {
        assert_eq!(synicboard_tick(&mut handle.0, 9).kind, SYNICBOARD_DONE);
        assert_eq!(synicboard_open(&mut handle.0, 1, 1, 0), SYNICBOARD_IS_OPEN);
        assert_eq!(synicboard_open(&mut handle.0, 9, 1, 0), SYNICBOARD_IS_OPEN);
        assert_eq!(synicboard_moment(&handle.0), 9);
        synicboard_close(&mut handle.0);
        synicboard_close(&mut handle.0);
        assert!(handle.0.at.is_null() && !handle.0.is_open);
        assert_eq!(synicboard_open(&mut handle.0, 9, 1, 0), SYNICBOARD_BAD_SIZE);
        assert!(handle.0.at.is_null() && !handle.0.is_open);
        assert_eq!(synicboard_open(&mut handle.0, 8, 64, 0), SYNICBOARD_OK);
        assert_eq!(synicboard_moment(&handle.0), 0);
    }
}

#[test]
fn a_closed_line_raises_and_gives_nothing() {
    let mut board = Handle::open();
    let (mut line, mut other) = (Line(SYNICBOARD_LINE_CLOSED), Line(SYNICBOARD_LINE_CLOSED));
    // SAFETY: the handles are closed or opened, and have no copy.
    unsafe {
        assert_eq!(synicboard_assert(&mut board.0, 0, 0x50), told(1));
        assert_eq!(synicboard_raise(&mut line.0, 0, 0x60), SYNICBOARD_NOT_RAISED);
        assert_eq!(synicboard_split_line(&mut line.0, &mut other.0), SYNICBOARD_IS_CLOSED);
        assert_eq!(synicboard_absorb_line(&mut board.0, &mut line.0, 0, 1), fault(SYNICBOARD_NO_LINE));
        assert_eq!(synicboard_absorb_line(&mut board.0, &mut line.0, 9, 9), fault(SYNICBOARD_NO_LINE));
        // The notices are still those of the event before.
        assert_eq!(synicboard_notices(&board.0, [].as_mut_ptr(), 0), 1);
        synicboard_close_line(&mut line.0);
    }
    assert!(line.is_blank() && other.is_blank());
}

/// A closed board is reported before the line is checked, and no bit of its words is cleared.
#[test]
fn a_closed_board_absorbs_nothing() {
    let (mut closed, mut board) = (Handle(SYNICBOARD_CLOSED), Handle::open());
    let (mut line, mut closed_line) = (Line::open(1), Line(SYNICBOARD_LINE_CLOSED));
    // SAFETY: the handles are closed or opened, and have no copy.
    unsafe {
        let answer = synicboard_absorb_line(&mut closed.0, &mut closed_line.0, 0, 1);
        assert_eq!(answer, fault(SYNICBOARD_IS_CLOSED));
        assert_eq!(synicboard_raise(&mut line.0, 0, 0x60), SYNICBOARD_FRESH);
        assert_eq!(synicboard_absorb_line(&mut closed.0, &mut line.0, 0, 1), fault(SYNICBOARD_IS_CLOSED));
        assert_eq!(synicboard_raise(&mut line.0, 0, 0x60), SYNICBOARD_ALREADY);
        assert_eq!(synicboard_absorb_line(&mut board.0, &mut line.0, 0, 1), absorbed(1 << (0x60 - 64)));
    }
}

#[test]
fn a_line_is_opened_once_and_closed_as_often_as_one_likes() {
    let (mut line, mut other) = (Line::open(1), Line::open(2));
    // SAFETY: the handles are closed or opened, and have no copy.
    unsafe {
        assert_eq!(synicboard_raise(&mut line.0, 0, 0x60), SYNICBOARD_FRESH);
        assert_eq!(synicboard_open_line(&mut line.0, 8), SYNICBOARD_IS_OPEN);
        assert_eq!(synicboard_open_line(&mut line.0, 9), SYNICBOARD_IS_OPEN);
        assert_eq!(synicboard_split_line(&mut other.0, &mut line.0), SYNICBOARD_IS_OPEN);
        // It is still a line of its own words, which are for one processor.
        assert_eq!(synicboard_raise(&mut line.0, 0, 0x60), SYNICBOARD_ALREADY);
        assert_eq!(synicboard_raise(&mut line.0, 1, 0x60), SYNICBOARD_NOT_RAISED);
        synicboard_close_line(&mut line.0);
        synicboard_close_line(&mut line.0);
        assert!(line.is_blank());
        assert_eq!(synicboard_open_line(&mut line.0, 65), SYNICBOARD_BAD_SIZE);
        assert!(line.is_blank());
        assert_eq!(synicboard_split_line(&mut other.0, &mut line.0), SYNICBOARD_OK);
        assert_eq!(synicboard_split_line(&mut line.0, &mut other.0), SYNICBOARD_IS_OPEN);
        assert_eq!(synicboard_raise(&mut line.0, 1, 0x60), SYNICBOARD_FRESH);
        assert_eq!(synicboard_raise(&mut other.0, 1, 0x60), SYNICBOARD_ALREADY);
    }
}

#[test]
fn vectors_below_16_are_not_raised() {
    let (mut board, mut line) = (Handle::open(), Line::open(1));
    for vector in 0..=u8::MAX {
        let expected = if vector < 16 { SYNICBOARD_NOT_RAISED } else { SYNICBOARD_FRESH };
        // SAFETY: the handle has no copy.
        assert_eq!(unsafe { synicboard_raise(&mut line.0, 0, vector) }, expected, "{vector}");
    }
    // SAFETY: the handles have no copies.
    let answer = unsafe { synicboard_absorb_line(&mut board.0, &mut line.0, 0, 0) };
    assert_eq!(answer, absorbed(u64::MAX << 16));
}

#[test]
fn a_room_for_some_notices_gets_the_first() {
    let mut handle = Handle::open();
    let absorb = event(SYNICBOARD_ABSORB, |event| (event.part, event.value) = (3, 7));
    assert_eq!(handle.perform(&absorb).kind, SYNICBOARD_DONE);
    // SAFETY: all fields are integers, for which zero is valid.
    let mut room: [synicboard_notice; 3] = unsafe { mem::zeroed() };
    // SAFETY: the handle has no copy, and the buffer is valid for two notices.
    let count = unsafe { synicboard_notices(&handle.0, room.as_mut_ptr(), 2) };
    assert_eq!(count, 3);
    assert_eq!(room.map(|notice| notice.vector), [192, 193, 0]);
    let requested = SYNICBOARD_NOTICE_REQUESTED;
    assert_eq!(room.map(|notice| notice.kind), [requested, requested, 0]);
}

#[test]
fn numbers_that_mean_no_event_change_nothing() {
    let mut handle = Handle::open();
    let meaningless = [
        event(0, |_| ()),
        event(SYNICBOARD_SEND + 1, |_| ()),
        event(255, |_| ()),
        event(SYNICBOARD_ASSERT, |event| event.vector = 15),
        event(SYNICBOARD_SEND, |event| (event.vector, event.value) = (15, 1)),
        event(SYNICBOARD_POST, |event| event.length = 241),
        event(SYNICBOARD_STORE, |event| event.length = 9),
    ];
    for event in meaningless {
        assert_eq!(handle.perform(&event), fault(SYNICBOARD_NO_EVENT));
    }
    // SAFETY: the handle has no copy.
    let answers = unsafe { [synicboard_assert(&mut handle.0, 0, 15), synicboard_send(&mut handle.0, 15, 1)] };
    assert_eq!(answers, [fault(SYNICBOARD_NO_EVENT); 2]);
}

/// A write of a register of processor 0.
fn write(msr: u32, value: u64) -> synicboard_event {
    event(SYNICBOARD_WRITE, |event| (event.msr, event.value) = (msr, value))
}

/// Events that only the host performs, with their replies.
fn of_the_host() -> Vec<(synicboard_event, synicboard_reply)> {
    let done = reply(SYNICBOARD_DONE, |_| ());
    let signal = event(SYNICBOARD_SIGNAL, |event| (event.port, event.flag) = (4, 8));
    vec![
        (
            event(SYNICBOARD_OPEN_MESSAGE_PORT, |event| (event.port, event.sint, event.buffers) = (3, 2, 1)),
            done,
        ),
        (
            event(SYNICBOARD_OPEN_EVENT_PORT, |event| {
                (event.port, event.sint, event.flag, event.count) = (4, 3, 258, 9)
            }),
            done,
        ),
        (event(SYNICBOARD_TICK, |event| event.moment = u64::MAX - 1), done),
        (
            event(SYNICBOARD_POST, |event| {
                (event.port, event.message_type, event.length, event.bytes) = (3, 0x7fff_ffff, 240, [7; 240])
            }),
            // accepted, placed, and its vector requested
            reply(SYNICBOARD_ACCEPTED, |reply| (reply.ticket, reply.notices) = (0, 3)),
        ),
        (
            event(SYNICBOARD_POST, |event| (event.port, event.message_type) = (3, 1)),
            // accepted, and MessagePending set in the slot before it
            reply(SYNICBOARD_ACCEPTED, |reply| (reply.ticket, reply.notices) = (1, 2)),
        ),
        (
            event(SYNICBOARD_POST, |event| (event.port, event.message_type) = (3, 1)),
            reply(SYNICBOARD_REFUSED, |reply| reply.refusal = SYNICBOARD_NO_BUFFERS),
        ),
        (signal, reply(SYNICBOARD_FLAG_WAS_CLEAR, |reply| reply.notices = 1)),
        (signal, reply(SYNICBOARD_FLAG_WAS_SET, |_| ())),
        (event(SYNICBOARD_CLOSE_PORT, |event| event.port = 4), done),
        (event(SYNICBOARD_ASSERT, |event| event.vector = 0xe0), told(1)),
        (event(SYNICBOARD_ABSORB, |event| (event.part, event.value) = (3, 1 << 63)), told(1)),
        // processor 0 has the request already
        (event(SYNICBOARD_SEND, |event| (event.vector, event.value) = (0xe0, 1)), done),
        (
            event(SYNICBOARD_SEND, |event| (event.vector, event.value) = (0xe0, 1 << 63 | 1)),
            reply(SYNICBOARD_REFUSED, |reply| reply.refusal = SYNICBOARD_NO_SUCH_PROCESSOR),
        ),
    ]
}

/// Events of processor 0 and its guest, after those of the host.
fn of_the_guest() -> Vec<(synicboard_event, synicboard_reply)> {
    let done = reply(SYNICBOARD_DONE, |_| ());
    let take = event(SYNICBOARD_TAKE, |_| ());
    let value = reply(SYNICBOARD_VALUE, |reply| reply.value = u64::MAX - 1);
    vec![
        (take, reply(SYNICBOARD_TAKEN, |reply| reply.vector = 0xff)),
        (event(SYNICBOARD_READ, |event| event.msr = 0x4000_0020), value),
        (
            event(SYNICBOARD_READ, |event| event.msr = 0x4000_0070),
            reply(SYNICBOARD_GENERAL_PROTECTION, |_| ()),
        ),
        (
            event(SYNICBOARD_LOAD, |event| (event.address, event.length) = (0x2200, 8)),
            reply(SYNICBOARD_BYTES, |reply| {
                (reply.length, reply.bytes) = (8, [0xff, 0xff, 0xff, 0x7f, 240, 1, 0, 0])
            }),
        ),
        (
            event(SYNICBOARD_STORE, |event| (event.address, event.length, event.bytes[0]) = (0x2203, 1, 5)),
            done,
        ),
        (
            event(SYNICBOARD_LOAD, |event| (event.address, event.length) = (0x2203, 1)),
            reply(SYNICBOARD_BYTES, |reply| (reply.length, reply.bytes[0]) = (1, 5)),
        ),
        (write(0x4000_0070, 0), done),
        (event(SYNICBOARD_SUSPEND, |_| ()), done),
        (take, reply(SYNICBOARD_NONE_TAKEN, |_| ())),
        (event(SYNICBOARD_RESUME, |_| ()), done),
        (take, reply(SYNICBOARD_TAKEN, |reply| reply.vector = 0xe0)),
        // the message in the slot and the one in the queue
        (event(SYNICBOARD_RESET, |_| ()), told(2)),
        (
            event(SYNICBOARD_TAKE, |event| event.vp = 1),
            reply(SYNICBOARD_REFUSED, |reply| reply.refusal = SYNICBOARD_NO_SUCH_PROCESSOR),
        ),
    ]
}

#[test]
fn events_in_plain_numbers_are_performed() {
    let mut handle = Handle::open();
    for (register, value) in [(0x80, 1), (0x83, 0x2001), (0x82, 0x3001), (0x92, 0x50)] {
        let done = handle.perform(&write(0x4000_0000 + register, value));
        assert_eq!(done, reply(SYNICBOARD_DONE, |_| ()));
    }
    for (event, reply) in [of_the_host(), of_the_guest()].concat() {
        assert_eq!(handle.perform(&event), reply, "{event:?}");
    }
}
