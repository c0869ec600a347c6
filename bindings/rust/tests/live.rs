//! Boards with live pages: what a guest reads and stores there, notices, images, pages that are freed, and
//! a guest in another thread, which uses its pages while the host posts and ticks.

use std::fs;
use std::sync::atomic::{fence, AtomicU64, Ordering};
use std::sync::Mutex;
use std::thread;
use std::time::{Duration, Instant};
use synicboard::msr::{EOM, SCONTROL, SIEFP, SIMP, SINT0, STIMER0_CONFIG, STIMER0_COUNT};
use synicboard::{
    Board, Bytes8, Event, Line, LiveBoard, LiveReply, Notice, Owner, PayloadBytes, Port, PortShape, Raised,
    Refusal, Reply, Sint, Ticket, TimerId, Vector, Vp, PAGE_BYTES,
};

const VP: Vp = Vp::ZERO;
const SINT: Sint = Sint::SINT2;
const VECTOR: Vector = Vector::new(0x50).unwrap();

/// Processor `number`.
const fn processor(number: u8) -> Vp {
    Vp::new(number).unwrap()
}

/// Where the slot of SINT2 is in a message page, and its flags in an event flags page.
const SLOT: usize = 0x200;
const PENDING_AT: usize = SLOT + 5;

/// Processor 0 has its SynIC enabled, its message page at page 2, its event flags page at page 3, and vector 50
/// at SINT2, auto-EOI. Port 3 is for messages to SINT2, with two buffers, and port 5 for its flags from 8 on.
fn booted(mut board: Board) -> Board {
    let registers = [(SCONTROL, 1), (SIMP, 0x2001), (SIEFP, 0x3001), (SINT0 + 2, 0x2_0050)];
    for (register, value) in registers {
        assert_eq!(board.write(VP, register, value), Reply::Done);
    }
    assert_eq!(board.open_message_port(Port::new(3), VP, SINT, 2), Reply::Done);
    assert_eq!(board.open_event_port(Port::new(5), VP, SINT, 8, 64), Reply::Done);
    board
}

fn live() -> LiveBoard {
    booted(Board::open(2, 4, Ticket::new(0)).unwrap()).into_live().unwrap()
}

fn post(payload: &[u8]) -> Event {
    Event::Post { port: Port::new(3), kind: 1, payload: PayloadBytes::new(payload).unwrap() }
}

const END_MESSAGE: Event = Event::Write { vp: VP, register: EOM, value: 0 };

/// Performs an event after which the board performs no EOM.
fn act(board: &mut LiveBoard, event: &Event) -> Reply {
    let live = board.perform(event);
    assert_eq!(live.eoms, 0, "{event:?}");
    live.reply
}

/// The bytes of a live page, while no guest runs.
fn bytes(page: *mut u8) -> [u8; PAGE_BYTES] {
    assert!(!page.is_null());
    // SAFETY: this is the address of a page of a board that is not dropped, and no other thread uses it.
    unsafe { page.cast::<[u8; PAGE_BYTES]>().read_volatile() }
}

/// Stores bytes in a live page, as its guest does, while the board makes no access.
fn store(page: *mut u8, at: usize, stored: &[u8]) {
    assert!(!page.is_null() && at + stored.len() <= PAGE_BYTES);
    for (number, &byte) in stored.iter().enumerate() {
        // SAFETY: the address is in a page of a board that is not dropped, and no other thread uses it.
        unsafe { page.add(at + number).write_volatile(byte) }
    }
}

/// The guest empties the slot of SINT2.
fn empty(board: &LiveBoard) {
    store(board.message_page(VP), SLOT, &[0; 4]);
}

#[track_caller]
fn assert_notices(board: &LiveBoard, notices: &[Notice]) {
    assert_eq!(board.notices().collect::<Vec<_>>(), notices);
}

fn consumed(ticket: u64) -> Notice {
    Notice::Consumed { ticket: Ticket::new(ticket), vp: VP, sint: SINT }
}

#[test]
fn live_pages_have_the_bytes_of_the_pages_of_the_board() {
    let mut board = booted(Board::open(2, 4, Ticket::new(7)).unwrap());
    assert_eq!(board.post(Port::new(3), 1, b"hello"), Reply::Accepted(Ticket::new(7)));
    assert_eq!(board.signal(Port::new(5), 63), Reply::FlagWasClear);
    assert_eq!(board.notices().len(), 1);
    let (messages, flags) = (*board.message_page(VP).unwrap(), *board.flag_page(VP).unwrap());
    let live = board.into_live().unwrap();
    assert_eq!(bytes(live.message_page(VP)), messages);
    assert_eq!(bytes(live.flag_page(VP)), flags);
    assert_eq!(messages[SLOT..SLOT + 5], [1, 0, 0, 0, 5]);
    assert_eq!(flags[SLOT + 8], 0x80);
    let other = Vp::new(1).unwrap();
    assert_eq!(bytes(live.message_page(other)), [0; PAGE_BYTES]);
    assert_eq!(bytes(live.flag_page(other)), [0; PAGE_BYTES]);
    let board = live.board();
    assert_eq!((board.processors(), board.pages(), board.next_ticket()), (2, 4, Ticket::new(8)));
    assert_eq!((board.slot_ticket(VP, SINT), board.next(VP)), (Some(Ticket::new(7)), Some(VECTOR)));
    assert_eq!((board.owner(2), board.owner(3)), (Owner::Sim(VP), Owner::Sief(VP)));
    assert_eq!(*board.message_page(VP).unwrap(), messages);
    assert_notices(&live, &[]);
    let shown =
        "LiveBoard { board: Board { processors: 2, pages: 4, moment: 0, next_ticket: Ticket(8), .. }, .. }";
    assert_eq!(format!("{live:?}"), shown);
}

#[test]
fn each_processor_has_two_pages_of_its_own() {
    let board = Board::open_sparse(8, Ticket::new(0)).unwrap().into_live().unwrap();
    let mut addresses: Vec<_> = Vp::below(8)
        .flat_map(|vp| [board.message_page(vp), board.flag_page(vp)])
        .map(|page| page as usize)
        .collect();
    assert!(addresses.iter().all(|&address| address != 0 && address % PAGE_BYTES == 0));
    addresses.sort();
    addresses.dedup();
    assert_eq!(addresses.len(), 16);
}

#[test]
fn each_processor_uses_its_own_pages() {
    let mut board = Board::open_sparse(8, Ticket::new(0)).unwrap().into_live().unwrap();
    for vp in Vp::below(8) {
        let number = vp.number();
        for (register, page) in [(SIMP, 16), (SIEFP, 32)] {
            let value = (page + u64::from(number)) << 12 | 1;
            assert_eq!(act(&mut board, &Event::Write { vp, register, value }), Reply::Done);
        }
        assert_eq!(act(&mut board, &Event::Write { vp, register: SCONTROL, value: 1 }), Reply::Done);
        let open = [
            (number, PortShape::Messages { buffers: 1 }),
            (8 + number, PortShape::Flags { base: 0, count: 2048 }),
        ];
        for (port, shape) in open {
            assert_eq!(
                act(&mut board, &Event::OpenPort { port: Port::new(port), vp, sint: Sint::SINT15, shape }),
                Reply::Done
            );
        }
        let payload = PayloadBytes::new(&[]).unwrap();
        let post = Event::Post { port: Port::new(number), kind: 100 + u32::from(number), payload };
        assert_eq!(act(&mut board, &post), Reply::Accepted(Ticket::new(u64::from(number))));
        assert_eq!(
            act(&mut board, &Event::Signal { port: Port::new(8 + number), flag: 2047 }),
            Reply::FlagWasClear
        );
    }
    for vp in Vp::below(8) {
        assert_eq!(bytes(board.message_page(vp))[0xf00], 100 + vp.number());
        assert_eq!(bytes(board.flag_page(vp))[0xfff], 0x80);
    }
}

#[test]
fn a_processor_that_is_not_on_the_board_has_no_pages() {
    let mut board = live();
    for vp in Vp::below(64).skip(2) {
        assert!(board.message_page(vp).is_null() && board.flag_page(vp).is_null());
    }
    for vp in [2, 8, 63].map(processor) {
        assert_eq!(board.observe(vp), Reply::Refused(Refusal::NoSuchProcessor));
        assert_eq!(board.observe_all(vp), Reply::Refused(Refusal::NoSuchProcessor));
    }
    assert_eq!(board.observe(processor(1)), Reply::Done);
    assert_eq!(board.observe_all(processor(1)), Reply::Done);
    assert_notices(&board, &[]);
}

#[test]
fn a_message_that_the_guest_has_emptied_is_consumed_at_the_next_look() {
    let mut board = live();
    assert_eq!(act(&mut board, &post(b"hello")), Reply::Accepted(Ticket::new(0)));
    let page = bytes(board.message_page(VP));
    assert_eq!(page[SLOT..SLOT + 6], [1, 0, 0, 0, 5, 0]);
    assert_eq!(page[SLOT + 16..SLOT + 21], *b"hello");
    empty(&board);
    assert_eq!(board.board().slot_ticket(VP, SINT), Some(Ticket::new(0)));
    assert_eq!(board.observe(VP), Reply::Done);
    assert_notices(&board, &[consumed(0)]);
    assert_eq!(board.board().slot_ticket(VP, SINT), None);
    assert_eq!(board.observe(VP), Reply::Done);
    assert_notices(&board, &[]);
}

#[test]
fn a_post_finds_the_slot_that_the_guest_has_emptied() {
    let mut board = live();
    assert_eq!(act(&mut board, &post(&[1])), Reply::Accepted(Ticket::new(0)));
    assert_eq!(act(&mut board, &Event::Take { vp: VP }), Reply::Taken(Some(VECTOR)));
    empty(&board);
    assert_eq!(act(&mut board, &post(&[2])), Reply::Accepted(Ticket::new(1)));
    let (ticket, vp, sint) = (Ticket::new(1), VP, SINT);
    let placed = [
        consumed(0),
        Notice::Accepted { ticket, vp, sint },
        Notice::Placed { ticket, vp, sint },
        Notice::Requested { vp, vector: VECTOR },
    ];
    assert_notices(&board, &placed);
    assert_eq!(bytes(board.message_page(VP))[SLOT + 16], 2);
}

#[test]
fn an_eom_places_the_message_that_waits() {
    let mut board = live();
    assert_eq!(act(&mut board, &post(&[1])), Reply::Accepted(Ticket::new(0)));
    assert_eq!(act(&mut board, &Event::Take { vp: VP }), Reply::Taken(Some(VECTOR)));
    assert_eq!(act(&mut board, &post(&[2])), Reply::Accepted(Ticket::new(1)));
    let (ticket, vp, sint) = (Ticket::new(1), VP, SINT);
    assert_notices(&board, &[Notice::Accepted { ticket, vp, sint }, Notice::Pending { vp, sint }]);
    assert_eq!(bytes(board.message_page(VP))[PENDING_AT], 1);
    empty(&board);
    assert_eq!(act(&mut board, &END_MESSAGE), Reply::Done);
    assert_notices(
        &board,
        &[consumed(0), Notice::Placed { ticket, vp, sint }, Notice::Requested { vp, vector: VECTOR }],
    );
    let page = bytes(board.message_page(VP));
    assert_eq!((page[SLOT], page[PENDING_AT], page[SLOT + 16]), (1, 0, 2));
}

#[test]
fn a_flag_that_the_guest_has_cleared_is_set_again() {
    let mut board = live();
    let signal = Event::Signal { port: Port::new(5), flag: 63 };
    assert_eq!(act(&mut board, &signal), Reply::FlagWasClear);
    assert_eq!(bytes(board.flag_page(VP))[SLOT + 8], 0x80);
    assert_eq!(act(&mut board, &signal), Reply::FlagWasSet);
    store(board.flag_page(VP), SLOT + 8, &[0]);
    assert_eq!(act(&mut board, &signal), Reply::FlagWasClear);
    assert_eq!(bytes(board.flag_page(VP))[SLOT + 8], 0x80);
}

#[test]
fn accesses_of_a_live_page_are_the_callers() {
    let mut board = live();
    let four = Bytes8::new(&[1; 4]).unwrap();
    for address in [0x2200, 0x3200] {
        let elsewhere = Reply::Refused(Refusal::Elsewhere);
        assert_eq!(act(&mut board, &Event::Store { address, bytes: four }), elsewhere);
        assert_eq!(act(&mut board, &Event::Load { address, length: 4 }), elsewhere);
    }
    assert_eq!(bytes(board.message_page(VP)), [0; PAGE_BYTES]);
    assert_eq!(act(&mut board, &Event::Store { address: 0x1200, bytes: four }), Reply::Done);
    assert_eq!(act(&mut board, &Event::Load { address: 0x1200, length: 4 }), Reply::Bytes(four));
}

#[test]
fn a_line_is_absorbed() {
    let mut board = live();
    let mut line = Line::open(2).unwrap();
    let vector = Vector::new(200).unwrap();
    assert_eq!(line.raise(processor(1), vector), Some(Raised::Fresh));
    assert_eq!(board.absorb_line(&mut line, processor(1), 3), Reply::Done);
    assert_notices(&board, &[Notice::Requested { vp: Vp::new(1).unwrap(), vector }]);
    assert_eq!(board.board().next(processor(1)), Some(vector));
    assert_eq!(line.raise(processor(1), vector), Some(Raised::Fresh));
    assert_eq!(board.absorb_line(&mut line, processor(2), 3), Reply::Refused(Refusal::NoSuchProcessor));
    assert_eq!(line.raise(processor(1), vector), Some(Raised::Already));
}

#[test]
fn a_timer_stores_its_message_in_the_live_page() {
    let mut board = live();
    for (register, value) in [(STIMER0_COUNT, 50), (STIMER0_CONFIG, 0x2_0001)] {
        assert_eq!(act(&mut board, &Event::Write { vp: VP, register, value }), Reply::Done);
    }
    let timer = TimerId::new(VP, 0).unwrap();
    assert_eq!(board.board().earliest(), Some((50, timer)));
    assert_eq!(act(&mut board, &Event::Tick { moment: 60 }), Reply::Done);
    assert!(board.notices().any(|notice| notice == Notice::Expired { vp: VP, index: 0, due: 50 }));
    let page = bytes(board.message_page(VP));
    assert_eq!(page[SLOT..SLOT + 5], [0x10, 0, 0, 0x80, 24]);
    assert_eq!((page[SLOT + 24], page[SLOT + 32]), (50, 60));
}

#[test]
fn a_reset_withdraws_what_the_guest_has_not_consumed() {
    let mut board = live();
    for ticket in 0..2 {
        assert_eq!(act(&mut board, &post(&[1])), Reply::Accepted(Ticket::new(ticket)));
    }
    empty(&board);
    store(board.flag_page(VP), 0, &[0xff; 8]);
    assert_eq!(act(&mut board, &Event::Reset { vp: VP }), Reply::Done);
    assert_notices(&board, &[consumed(0), Notice::Withdrawn { ticket: Ticket::new(1), vp: VP, sint: SINT }]);
    assert_eq!(bytes(board.message_page(VP)), [0; PAGE_BYTES]);
    assert_eq!(bytes(board.flag_page(VP)), [0; PAGE_BYTES]);
}

#[test]
fn an_image_has_what_the_guest_has_stored() {
    let mut board = live();
    assert_eq!(act(&mut board, &post(&[1])), Reply::Accepted(Ticket::new(0)));
    assert_eq!(act(&mut board, &Event::Signal { port: Port::new(5), flag: 0 }), Reply::FlagWasClear);
    empty(&board);
    store(board.message_page(VP), 0xfff, &[0xa5]);
    store(board.flag_page(VP), 0xfff, &[0x5a]);
    assert_ne!(board.board().message_page(VP), Some(&bytes(board.message_page(VP))));
    for vp in Vp::below(2) {
        assert_eq!(board.observe_all(vp), Reply::Done);
        let found = if vp == VP { vec![consumed(0)] } else { Vec::new() };
        assert_notices(&board, &found);
    }
    let pages = (bytes(board.message_page(VP)), bytes(board.flag_page(VP)));
    assert_eq!(board.board().message_page(VP), Some(&pages.0));
    assert_eq!(board.board().flag_page(VP), Some(&pages.1));
    let mut room = vec![0; 1 << 17];
    let length = board.save(&mut room).unwrap();
    drop(board);
    let restored = Board::restore(&room[..length]).unwrap().into_live().unwrap();
    assert_eq!((bytes(restored.message_page(VP)), bytes(restored.flag_page(VP))), pages);
    assert_eq!((pages.0[0xfff], pages.1[0xfff], pages.1[SLOT + 1]), (0xa5, 0x5a, 1));
    assert_eq!((restored.board().processors(), restored.board().pages()), (2, 4));
    assert_eq!(restored.board().next_ticket(), Ticket::new(1));
}

/// The memory of this process, in pages, if the system reports it.
fn held() -> Option<usize> {
    let said = fs::read_to_string("/proc/self/statm").ok()?;
    said.split(' ').nth(1)?.parse().ok()
}

/// The live pages of eight processors take 64 KB, so those of 3000 boards take some 190 MB.
#[test]
fn a_dropped_board_gives_its_live_pages_back() {
    let open = || Board::open_sparse(8, Ticket::new(0)).unwrap().into_live().unwrap();
    drop(open());
    let before = held();
    for _ in 0..3000 {
        drop(open());
    }
    let after = held();
    assert!(before.zip(after).is_none_or(|(before, after)| after < before + 20_000), "{before:?} {after:?}");
}

/// The board moves; its live pages do not.
#[test]
fn a_live_board_goes_to_other_threads() {
    let mut board = live();
    let page = board.message_page(VP) as usize;
    let used = thread::spawn(move || {
        assert_eq!(act(&mut board, &post(&[1])), Reply::Accepted(Ticket::new(0)));
        vec![Box::new(board)]
    });
    let mut boards = used.join().unwrap();
    assert_eq!(boards[0].message_page(VP) as usize, page);
    assert_eq!(bytes(boards[0].message_page(VP))[SLOT], 1);
    empty(&boards[0]);
    assert_eq!(boards[0].observe(VP), Reply::Done);
    assert_notices(&boards[0], &[consumed(0)]);
    thread::spawn(move || drop(boards)).join().unwrap();
}

const MESSAGES: u64 = 10_000;
const EXPIRATIONS: u64 = 2000;

/// The words of a slot. The library accesses words of 64 bits, and so does the guest here, since Rust defines
/// no conflicting atomic accesses of other sizes. tests/c/running.c has a guest whose accesses are smaller.
type Words = [AtomicU64; 32];
const TYPE_MASK: u64 = 0xffff_ffff;
const PENDING: u64 = 1 << 40;

fn slot_of(board: &LiveBoard) -> *const Words {
    board.message_page(VP).wrapping_add(SLOT).cast()
}

/// A time when a test fails that waits for a wake-up.
struct Limit(Instant);

impl Limit {
    fn new() -> Limit {
        Limit(Instant::now() + Duration::from_secs(60))
    }

    fn wait(&self) {
        assert!(Instant::now() < self.0, "a wake-up was missed");
        thread::yield_now();
    }
}

/// A board that the threads share, and what its notices reported. Messages are consumed in order.
struct Machine {
    board: LiveBoard,
    consumed: u64,
    expired: u64,
}

impl Machine {
    fn new() -> Machine {
        Machine { board: live(), consumed: 0, expired: 0 }
    }

    /// Performs an event and counts its notices.
    fn perform(&mut self, event: &Event) -> LiveReply {
        let live = self.board.perform(event);
        let is_tick = matches!(event, Event::Tick { .. });
        assert!(is_tick || live.eoms == 0, "{event:?}");
        self.count();
        live
    }

    fn count(&mut self) {
        for notice in self.board.notices() {
            match notice {
                Notice::Consumed { ticket, .. } => {
                    assert_eq!(ticket, Ticket::new(self.consumed));
                    self.consumed += 1;
                }
                Notice::Expired { .. } => self.expired += 1,
                _ => {}
            }
        }
    }
}

/// The guest takes its vector and then handles messages, until it has received `count` of them: it reads a
/// message, empties the slot, has a barrier, and writes EOM if it sees MessagePending. It looks at the slot
/// only after an interrupt or an EOM, so it stops if a wake-up is missed.
fn run_guest(machine: &Mutex<Machine>, slot: &Words, count: u64, mut receive: impl FnMut(u64, &Words)) {
    let limit = Limit::new();
    let mut received = 0;
    while received < count {
        if machine.lock().unwrap().perform(&Event::Take { vp: VP }).reply != Reply::Taken(Some(VECTOR)) {
            limit.wait();
            continue;
        }
        while slot[0].load(Ordering::Acquire) & TYPE_MASK != 0 {
            receive(received, slot);
            received += 1;
            slot[0].fetch_and(!TYPE_MASK, Ordering::Release);
            fence(Ordering::SeqCst);
            if slot[0].load(Ordering::Relaxed) & PENDING == 0 {
                break;
            }
            assert_eq!(machine.lock().unwrap().perform(&END_MESSAGE).reply, Reply::Done);
        }
    }
}

/// Runs a guest in one thread and a host in another, and then looks at what the guest has consumed last.
fn run(count: u64, receive: impl FnMut(u64, &Words) + Send, host: impl FnOnce(&Mutex<Machine>)) -> Machine {
    let machine = Mutex::new(Machine::new());
    let slot = slot_of(&machine.lock().unwrap().board);
    // SAFETY: the slot is aligned and in a page of the board, which is not dropped before the guest's thread
    // has ended. Until then the guest and the library access it only by atomic accesses to its words.
    let slot = unsafe { &*slot };
    thread::scope(|scope| {
        scope.spawn(|| run_guest(&machine, slot, count, receive));
        host(&machine);
    });
    let mut machine = machine.into_inner().unwrap();
    assert_eq!(machine.board.observe(VP), Reply::Done);
    machine.count();
    machine
}

#[test]
fn a_running_guest_receives_each_message_once_and_in_order() {
    let receive = |number, slot: &Words| assert_eq!(slot[2].load(Ordering::Relaxed), number);
    let machine = run(MESSAGES, receive, |machine| {
        let limit = Limit::new();
        for number in 0..MESSAGES {
            let post = post(&number.to_le_bytes());
            loop {
                let reply = machine.lock().unwrap().perform(&post).reply;
                if reply == Reply::Accepted(Ticket::new(number)) {
                    break;
                }
                assert_eq!(reply, Reply::Refused(Refusal::NoBuffers));
                limit.wait();
            }
        }
    });
    assert_eq!((machine.consumed, machine.board.board().queued(VP, SINT)), (MESSAGES, 0));
    assert_eq!(machine.board.board().next_ticket(), Ticket::new(MESSAGES));
}

/// A tick may owe the processor an EOM, if the guest empties the slot at the same time.
#[test]
fn a_running_guest_receives_each_message_of_a_timer() {
    let mut last = 0;
    let receive = |_, slot: &Words| {
        let due = slot[3].load(Ordering::Relaxed);
        assert!(due > last, "{due} after {last}");
        last = due;
    };
    let machine = run(EXPIRATIONS, receive, |machine| {
        let limit = Limit::new();
        for (register, value) in [(STIMER0_COUNT, 10), (STIMER0_CONFIG, 0x2_0003)] {
            let write = Event::Write { vp: VP, register, value };
            assert_eq!(machine.lock().unwrap().perform(&write).reply, Reply::Done);
        }
        for moment in (10..).step_by(10) {
            let mut machine = machine.lock().unwrap();
            let live = machine.perform(&Event::Tick { moment });
            assert_eq!((live.reply, live.eoms & !1), (Reply::Done, 0));
            if machine.expired == EXPIRATIONS {
                break;
            }
            drop(machine);
            limit.wait();
        }
    });
    assert_eq!((machine.consumed, machine.expired), (EXPIRATIONS, EXPIRATIONS));
}
