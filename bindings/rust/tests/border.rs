//! The safe calls at their limits: sizes, numbers, too many bytes, missing objects, pages, notices,
//! and boards in other threads.

use std::error::Error;
use std::sync::Mutex;
use std::thread;
use synicboard::msr::{EOI, SCONTROL, SIEFP, SIMP, SINT0, STIMER0_CONFIG, STIMER0_COUNT, SVERSION};
use synicboard::{
    check, format_entry, replay, AnswerRoom, Board, Bytes8, End, Event, EventFault, FormatFault, Notice,
    OpenFault, Owner, PayloadBytes, Port, PortShape, Refusal, Reply, RestoreFault, Sint, Ticket, TimerId,
    Vector, Verdict, Vp, MOST_NOTICES,
};

const VP: Vp = Vp::ZERO;
const SINT: Sint = Sint::SINT2;
const VECTOR: Vector = Vector::new(0x50).unwrap();

/// Processor `number`.
const fn processor(number: u8) -> Vp {
    Vp::new(number).unwrap()
}

/// A board whose processor 0 has its SynIC enabled, its message page at page 2, its event flags
/// page at page 3, and vector 50 at SINT2.
fn booted(processors: u8, pages: u8, first_ticket: u64) -> Board {
    let mut board = Board::open(processors, pages, Ticket::new(first_ticket)).unwrap();
    let registers = [(SCONTROL, 1), (SIMP, 0x2001), (SIEFP, 0x3001), (SINT0 + 2, 0x50)];
    for (register, value) in registers {
        assert_eq!(board.write(VP, register, value), Reply::Done);
    }
    board
}

#[test]
fn a_board_has_1_to_8_processors_and_1_to_64_pages() {
    for (processors, pages) in [(0, 1), (9, 1), (255, 1), (1, 0), (1, 65), (1, 255), (0, 0)] {
        let fault = Board::open(processors, pages, Ticket::new(0)).unwrap_err();
        assert_eq!(fault, OpenFault::BadSize);
        assert_eq!(fault.to_string(), "the sizes are outside the limits");
    }
    for (processors, pages) in [(1, 1), (8, 64)] {
        let board = Board::open(processors, pages, Ticket::new(7)).unwrap();
        assert_eq!((board.processors(), board.pages()), (processors, pages));
        assert_eq!((board.moment(), board.next_ticket()), (0, Ticket::new(7)));
        assert_eq!(board.notices().len(), 0);
    }
}

#[test]
fn a_sparse_board_has_1_to_64_processors_and_no_page() {
    for processors in [0, 65, 255] {
        assert_eq!(Board::open_sparse(processors, Ticket::new(0)).unwrap_err(), OpenFault::BadSize);
    }
    let mut board = Board::open_sparse(64, Ticket::new(7)).unwrap();
    assert_eq!((board.processors(), board.pages(), board.next_ticket()), (64, 0, Ticket::new(7)));
    assert_eq!(board.next_overlay(0), None);
    let last = (1 << 52) - 1;
    assert_eq!(board.write(processor(63), SIEFP, last << 12 | 1), Reply::Done);
    assert_eq!(board.write(VP, SIMP, 0x5001), Reply::Done);
    assert_eq!(board.next_overlay(0), Some((5, Owner::Sim(VP))));
    assert_eq!(board.next_overlay(6), Some((last, Owner::Sief(Vp::new(63).unwrap()))));
    assert_eq!(board.next_overlay(last + 1), None);
    assert_eq!((board.owner(6), board.owner(last + 1)), (Owner::Guest, Owner::Nothing));
    assert!(board.guest_page(0).is_none());
    let mut room = [0; 16384];
    let length = board.save(&mut room).unwrap();
    let restored = Board::restore(&room[..length]).unwrap();
    assert_eq!(
        (restored.processors(), restored.pages(), restored.next_overlay(6)),
        (64, 0, board.next_overlay(6))
    );
}

#[test]
fn the_earliest_after_a_time_is_later() {
    let mut board = Board::open(1, 1, Ticket::new(0)).unwrap();
    assert_eq!(board.earliest_after(0), None);
    assert_eq!(board.write(VP, STIMER0_COUNT, 5), Reply::Done);
    assert_eq!(board.write(VP, STIMER0_CONFIG, 0x2_0001), Reply::Done);
    assert_eq!(board.tick(9), Reply::Done);
    assert_eq!(board.earliest_after(4), board.earliest());
    assert_eq!(board.earliest_after(5), None);
}

#[test]
fn a_number_outside_its_range_is_none() {
    for number in 0..=u8::MAX {
        assert_eq!(Vp::new(number).map(Vp::number), (number < 64).then_some(number));
        assert_eq!(Sint::new(number).map(Sint::number), (number < 16).then_some(number));
        assert_eq!(Vector::new(number).map(Vector::number), (number >= 16).then_some(number));
        let index = TimerId::new(VP, number).map(TimerId::index);
        assert_eq!(index, (number < 4).then_some(number));
    }
    assert_eq!(TimerId::new(Vp::new(7).unwrap(), 3).unwrap().vp().number(), 7);
}

#[test]
fn bytes_are_equal_where_their_slices_are() {
    assert_eq!(Bytes8::new(&[1, 2]).unwrap().as_slice(), [1, 2]);
    assert_ne!(Bytes8::new(&[1]), Bytes8::new(&[1, 0]));
    assert_eq!(format!("{:?}", Bytes8::new(&[1, 2]).unwrap()), "[1, 2]");
    assert!(Bytes8::new(&[0; 8]).is_some() && Bytes8::new(&[0; 9]).is_none());
    assert!(PayloadBytes::new(&[0; 240]).is_some() && PayloadBytes::new(&[0; 241]).is_none());
}

#[test]
fn each_refusal_comes_and_has_its_number() {
    let mut board = booted(2, 4, 0);
    let ready = [
        board.open_message_port(Port::new(3), VP, SINT, 1),
        board.open_event_port(Port::new(5), VP, Sint::SINT3, 0, 8),
        board.open_message_port(Port::new(6), processor(1), SINT, 1),
        board.tick(10),
        board.suspend(processor(1)),
    ];
    assert_eq!(ready, [Reply::Done; 5]);
    assert_eq!(board.post(Port::new(3), 1, &[]), Reply::Accepted(Ticket::new(0)));
    assert_eq!(board.post(Port::new(3), 1, &[]), Reply::Accepted(Ticket::new(1)));
    let refused = [
        board.close_port(Port::new(16)),
        board.open_message_port(Port::new(3), VP, SINT, 1),
        board.signal(Port::new(3), 0),
        board.open_message_port(Port::new(4), processor(2), SINT, 1),
        board.post(Port::new(3), 0, &[]),
        board.signal(Port::new(5), 8),
        board.post(Port::new(6), 1, &[]),
        board.post(Port::new(3), 1, &[]),
        spent(),
        board.tick(9),
        board.load(0x4000, 1),
        board.load(0xfff, 2),
        board.store(0, &[]),
        board.take(processor(2)),
        board.suspend(processor(1)),
        board.resume(VP),
        Board::open_sparse(1, Ticket::new(0)).unwrap().load(0, 1),
    ];
    let refusals = Refusal::ALL.map(Reply::Refused);
    assert_eq!(refused, refusals);
    let numbers = refused.map(|reply| reply.refusal().unwrap().number());
    assert_eq!(numbers.to_vec(), (1..=17).collect::<Vec<u8>>());
}

fn spent() -> Reply {
    let mut board = booted(1, 1, u64::MAX);
    assert_eq!(board.open_message_port(Port::new(3), VP, SINT, 1), Reply::Done);
    board.post(Port::new(3), 1, &[])
}

#[test]
fn a_refusal_is_an_error_with_words() {
    let refusal: Box<dyn Error> = Box::new(Refusal::NoBuffers);
    assert_eq!(refusal.to_string(), "all buffers of the port are in use");
    let mut words = Refusal::ALL.map(|refusal| refusal.to_string()).to_vec();
    words.sort();
    words.dedup();
    assert_eq!(words.len(), 17);
    assert_eq!(Reply::GeneralProtection.refusal(), None);
}

#[test]
fn too_many_bytes_are_no_event() {
    let mut board = booted(1, 4, 0);
    assert_eq!(board.open_message_port(Port::new(3), VP, SINT, 2), Reply::Done);
    assert_eq!(board.post(Port::new(3), 1, &[7; 240]), Reply::Accepted(Ticket::new(0)));
    let told = board.notices().collect::<Vec<_>>();
    assert_eq!(told.len(), 3);
    for reply in [board.post(Port::new(3), 1, &[7; 241]), board.store(0, &[7; 9]), board.store(0, &[7; 4096])]
    {
        assert_eq!(reply, Reply::NoEvent);
    }
    assert_eq!(board.notices().collect::<Vec<_>>(), told);
    assert_eq!((board.next_ticket(), board.queued(VP, SINT)), (Ticket::new(1), 0));
    assert_eq!(board.guest_page(0).unwrap()[0], 0);
    assert_eq!(board.store(0, &[7; 8]), Reply::Done);
    assert_eq!(board.guest_page(0).unwrap()[..9], [7, 7, 7, 7, 7, 7, 7, 7, 0]);
}

#[test]
fn registers_answer_general_protection_and_values() {
    let mut board = booted(1, 4, 0);
    assert_eq!(board.read(VP, SVERSION), Reply::Value(1));
    assert_eq!(board.write(VP, SVERSION, 1), Reply::GeneralProtection);
    assert_eq!(board.read(VP, EOI), Reply::GeneralProtection);
    assert_eq!(board.write(VP, SCONTROL, u64::MAX), Reply::Done);
    assert_eq!(board.read(VP, SCONTROL), Reply::Value(u64::MAX));
    assert_eq!(board.read(processor(1), SVERSION), Reply::Refused(Refusal::NoSuchProcessor));
}

#[test]
fn looks_of_what_is_not_there_find_nothing() {
    let board = booted(1, 4, 0);
    assert_eq!((board.next(VP), board.next(processor(1)), board.next(processor(63))), (None, None, None));
    assert!(!board.is_auto(VP, VECTOR) && !board.is_auto(processor(63), VECTOR));
    assert_eq!(
        (
            board.queued(processor(1), Sint::SINT0),
            board.queued(VP, Sint::SINT15),
            board.queued(processor(63), SINT)
        ),
        (0, 0, 0)
    );
    assert_eq!(board.earliest(), None);
    let owners = [0, 2, 3, 4, u64::MAX].map(|page| board.owner(page));
    let (sim, sief) = (Owner::Sim(VP), Owner::Sief(VP));
    assert_eq!(owners, [Owner::Guest, sim, sief, Owner::Nothing, Owner::Nothing]);
    assert!(board.message_page(processor(1)).is_none() && board.flag_page(processor(63)).is_none());
    assert!(board.guest_page(4).is_none() && board.guest_page(u64::MAX).is_none());
}

#[test]
fn looks_find_what_is_there() {
    let mut board = booted(2, 4, 0);
    assert_eq!(board.write(VP, SINT0 + 3, 0x2_0060), Reply::Done);
    assert_eq!(board.assert(VP, Vector::new(255).unwrap()), Reply::Done);
    assert_eq!(board.next(VP), Vector::new(255));
    let auto = Vector::new(0x60).unwrap();
    assert!(board.is_auto(VP, auto) && !board.is_auto(VP, VECTOR) && !board.is_auto(processor(1), auto));
    // A period of 2^64 - 1 from time 2 on is due after the greatest 64-bit time.
    assert_eq!(board.tick(2), Reply::Done);
    assert_eq!(board.write(processor(1), STIMER0_COUNT + 6, u64::MAX), Reply::Done);
    assert_eq!(board.write(processor(1), STIMER0_CONFIG + 6, 0x1403), Reply::Done);
    let timer = TimerId::new(Vp::new(1).unwrap(), 3).unwrap();
    assert_eq!(board.earliest(), Some(((1 << 64) + 1, timer)));
    assert_eq!(board.moment(), 2);
    let shown = "Board { processors: 2, pages: 4, moment: 2, next_ticket: Ticket(0), .. }";
    assert_eq!(format!("{board:?}"), shown);
}

#[test]
fn pages_stay_where_they_lie_and_show_each_event() {
    let mut board = booted(2, 4, 0);
    let places = |board: &Board| {
        let own = [
            board.message_page(VP),
            board.flag_page(VP),
            board.message_page(processor(1)),
            board.flag_page(processor(1)),
        ];
        let guest = [0, 1, 2, 3].map(|number| board.guest_page(number));
        [own, guest].concat().into_iter().map(|page| page.unwrap().as_ptr()).collect::<Vec<_>>()
    };
    let before = places(&board);
    assert_eq!(board.open_message_port(Port::new(3), VP, SINT, 1), Reply::Done);
    assert_eq!(board.open_event_port(Port::new(4), VP, SINT, 2000, 48), Reply::Done);
    assert_eq!(board.post(Port::new(3), 1, &[0xab; 240]), Reply::Accepted(Ticket::new(0)));
    assert_eq!(board.signal(Port::new(4), 47), Reply::FlagWasClear);
    assert!(board.notices().eq([Notice::FlagSet { vp: VP, sint: SINT, flag: 2047 }]));
    assert_eq!(board.signal(Port::new(4), 47), Reply::FlagWasSet);
    let (messages, flags) = (board.message_page(VP).unwrap(), board.flag_page(VP).unwrap());
    assert_eq!(messages[0x200..0x208], [1, 0, 0, 0, 240, 0, 0, 0]);
    assert_eq!(messages[0x210..0x300], [0xab; 240]);
    assert_eq!((messages[0x300], flags[0x2ff]), (0, 0x80));
    assert_eq!(board.guest_page(2).unwrap(), &[0; 4096]);
    assert_eq!(board.load(0x32ff, 1), Reply::Bytes(Bytes8::new(&[0x80]).unwrap()));
    assert_eq!(board.reset(VP), Reply::Done);
    assert_eq!(board.message_page(VP).unwrap(), &[0; 4096]);
    assert_eq!(places(&board), before);
}

#[test]
fn a_guest_page_lies_below_its_overlay() {
    let mut board = Board::open(1, 4, Ticket::new(0)).unwrap();
    assert_eq!(board.store(0x2ff8, &[1, 2, 3, 4, 5, 6, 7, 8]), Reply::Done);
    assert_eq!(board.write(VP, SIMP, 0x2001), Reply::Done);
    assert_eq!(board.store(0x2ff8, &[9]), Reply::Done);
    assert_eq!(board.guest_page(2).unwrap()[0xff8..], [1, 2, 3, 4, 5, 6, 7, 8]);
    assert_eq!(board.message_page(VP).unwrap()[0xff8..0xffa], [9, 0]);
}

#[test]
fn notices_are_those_of_the_last_event() {
    let mut board = booted(1, 4, 5);
    assert_eq!(board.open_message_port(Port::new(3), VP, SINT, 2), Reply::Done);
    assert_eq!(board.notices().next(), None);
    assert_eq!(board.post(Port::new(3), 1, &[]), Reply::Accepted(Ticket::new(5)));
    let (ticket, vp, sint) = (Ticket::new(5), VP, SINT);
    let told = [
        Notice::Accepted { ticket, vp, sint },
        Notice::Placed { ticket, vp, sint },
        Notice::Requested { vp, vector: VECTOR },
    ];
    assert!(board.notices().eq(told));
    let mut notices = board.notices();
    assert_eq!(notices.nth(1), Some(told[1]));
    // Other queries are allowed while the notices are held, and so is another query for the
    // notices.
    assert_eq!((board.next(VP), board.notices().len()), (Some(VECTOR), 3));
    assert_eq!((notices.len(), notices.next(), notices.next()), (1, Some(told[2]), None));
    assert_eq!(board.take(VP), Reply::Taken(Some(VECTOR)));
    assert_eq!(board.notices().len(), 0);
    assert_eq!(board.store(0x2200, &[0; 4]), Reply::Done);
    assert!(board.notices().eq([Notice::Consumed { ticket, vp, sint }]));
    assert_eq!(board.take(processor(9)), Reply::Refused(Refusal::NoSuchProcessor));
    assert_eq!(format!("{:?}", board.notices()), "[]");
}

#[test]
fn posted_vectors_are_requested_the_smallest_first() {
    let mut board = Board::open(1, 1, Ticket::new(0)).unwrap();
    assert_eq!(board.absorb(VP, 3, 1 << 63 | 1), Reply::Done);
    let requested = |number| Notice::Requested { vp: VP, vector: Vector::new(number).unwrap() };
    assert!(board.notices().eq([requested(192), requested(255)]));
    assert_eq!(board.absorb(VP, 0, 0x1_ffff), Reply::Done);
    assert!(board.notices().eq([requested(16)]));
    assert_eq!(board.absorb(VP, 4, 0), Reply::Refused(Refusal::BadTarget));
}

#[test]
fn numbers_that_no_board_has_are_refused_as_events_too() {
    let mut board = booted(1, 4, 0);
    assert_eq!(board.open_message_port(Port::new(3), VP, SINT, 1), Reply::Done);
    let shape = PortShape::Flags { base: 2048, count: 1 };
    let payload = PayloadBytes::new(&[]).unwrap();
    let refused = [
        (Event::ClosePort { port: Port::new(19) }, Refusal::UnknownPort),
        (Event::OpenPort { port: Port::new(4), vp: VP, sint: SINT, shape }, Refusal::BadTarget),
        (Event::Post { port: Port::new(19), kind: 1, payload }, Refusal::UnknownPort),
        (Event::Post { port: Port::new(3), kind: 1 << 31, payload }, Refusal::BadType),
        (Event::Write { vp: processor(8), register: SCONTROL, value: 1 }, Refusal::NoSuchProcessor),
        (Event::Load { address: 0, length: 255 }, Refusal::BadLength),
        (Event::Load { address: u64::MAX, length: 8 }, Refusal::OutsideSpace),
        (Event::Reset { vp: processor(8) }, Refusal::NoSuchProcessor),
        (Event::Send { vector: Vector::new(255).unwrap(), mask: 1 << 63 }, Refusal::NoSuchProcessor),
    ];
    for (event, refusal) in refused {
        assert_eq!(board.perform(&event), Reply::Refused(refusal), "{event:?}");
    }
}

#[test]
fn a_late_timer_tells_when_it_was_due_and_what_it_skipped() {
    let mut board = Board::open(1, 1, Ticket::new(0)).unwrap();
    assert_eq!(board.tick(100), Reply::Done);
    assert_eq!(board.write(VP, STIMER0_COUNT, 10), Reply::Done);
    assert_eq!(board.write(VP, STIMER0_CONFIG, 0x1403), Reply::Done);
    assert_eq!(board.tick(235), Reply::Done);
    let (vp, index, vector) = (VP, 0, Vector::new(0x40).unwrap());
    let told = [
        Notice::Expired { vp, index, due: 110 },
        Notice::Skipped { vp, index, count: 4 },
        Notice::Requested { vp, vector },
    ];
    assert!(board.notices().eq(told));
    assert_eq!(board.earliest(), Some((160, TimerId::new(vp, 0).unwrap())));
}

/// Withdraws sixteen slots, sixteen buffers of sixteen ports, and one message of each timer.
#[test]
fn a_reset_gives_the_most_notices() {
    let mut board = booted(1, 4, 0);
    for (port, sint) in (0..16).zip(Sint::ALL) {
        assert_eq!(board.open_message_port(Port::new(port), VP, sint, 16), Reply::Done);
        for number in 0..17 {
            assert_eq!(
                board.post(Port::new(port), 1, &[]),
                Reply::Accepted(Ticket::new(17 * u64::from(port) + number))
            );
        }
    }
    for timer in 0..4 {
        assert_eq!(board.write(VP, STIMER0_COUNT + 2 * timer, 10), Reply::Done);
        assert_eq!(board.write(VP, STIMER0_CONFIG + 2 * timer, 0x1_0003), Reply::Done);
    }
    assert_eq!(board.tick(10), Reply::Done);
    assert_eq!((board.queued(VP, Sint::SINT0), board.queued(VP, Sint::SINT1)), (16, 20));
    assert_eq!(board.next_ticket(), Ticket::new(276));
    assert_eq!(board.reset(VP), Reply::Done);
    let notices = board.notices();
    assert_eq!(notices.len(), MOST_NOTICES);
    let mut tickets = notices.map(|notice| match notice {
        Notice::Withdrawn { ticket, .. } => ticket.number(),
        notice => panic!("{notice:?}"),
    });
    assert_eq!(tickets.next(), Some(0));
    let mut tickets = tickets.collect::<Vec<_>>();
    tickets.sort();
    assert!(tickets.into_iter().eq(1..276));
}

#[test]
fn two_boards_know_nothing_of_each_other() {
    let (mut one, mut other) = (booted(1, 4, 0), booted(2, 8, 100));
    assert_eq!(one.open_message_port(Port::new(3), VP, SINT, 2), Reply::Done);
    assert_eq!(other.post(Port::new(3), 1, &[1]), Reply::Refused(Refusal::UnknownPort));
    assert_eq!(one.post(Port::new(3), 1, &[1]), Reply::Accepted(Ticket::new(0)));
    assert_eq!((one.next(VP), other.next(VP)), (Some(VECTOR), None));
    assert_eq!((one.notices().len(), other.notices().len()), (3, 0));
    assert_eq!(other.tick(50), Reply::Done);
    assert_eq!((one.moment(), other.moment()), (0, 50));
    drop(one);
    assert_eq!(
        (other.next_ticket(), other.read(processor(1), SVERSION)),
        (Ticket::new(100), Reply::Value(1))
    );
}

/// A board is opened in one thread, used in another, and closed in a third. The board moves; its
/// pages do not.
#[test]
fn a_board_goes_to_other_threads() {
    let mut board = booted(1, 4, 0);
    let page = board.message_page(VP).unwrap().as_ptr() as usize;
    assert_eq!(board.open_message_port(Port::new(3), VP, SINT, 2), Reply::Done);
    let used = thread::spawn(move || {
        assert_eq!(board.post(Port::new(3), 1, &[1]), Reply::Accepted(Ticket::new(0)));
        vec![Box::new(board)]
    });
    let mut boards = used.join().unwrap();
    assert_eq!(boards[0].notices().len(), 3);
    assert_eq!(boards[0].take(VP), Reply::Taken(Some(VECTOR)));
    assert_eq!(boards[0].message_page(VP).unwrap().as_ptr() as usize, page);
    thread::spawn(move || drop(boards)).join().unwrap();
}

#[test]
fn threads_share_a_board_under_a_lock() {
    let board = Mutex::new(Board::open(8, 1, Ticket::new(0)).unwrap());
    let rounds = |vp| {
        for vector in (16..=u8::MAX).filter_map(Vector::new) {
            assert_eq!(board.lock().unwrap().assert(vp, vector), Reply::Done);
            let taken = board.lock().unwrap().take(vp);
            assert_eq!(taken, Reply::Taken(Some(vector)));
            assert_eq!(board.lock().unwrap().write(vp, EOI, 0), Reply::Done);
        }
    };
    thread::scope(|scope| {
        for vp in Vp::below(8) {
            scope.spawn(move || rounds(vp));
        }
    });
    assert_eq!(board.into_inner().unwrap().next(VP), None);
}

/// Boards share no state: each thread has its own, without any lock.
#[test]
fn boards_run_side_by_side() {
    let told = |first_ticket| {
        let mut board = booted(1, 4, first_ticket);
        assert_eq!(board.open_message_port(Port::new(3), VP, SINT, 2), Reply::Done);
        for number in 0..1000 {
            let payload = PayloadBytes::new(&[7; 240]).unwrap();
            let post = Event::Post { port: Port::new(3), kind: 1, payload };
            assert_eq!(board.perform(&post), Reply::Accepted(Ticket::new(first_ticket + number)));
            assert_eq!(board.take(VP), Reply::Taken(Some(VECTOR)));
            assert_eq!(board.store(0x2200, &[0; 4]), Reply::Done);
            assert_eq!(board.write(VP, EOI, 0), Reply::Done);
        }
        board.next_ticket()
    };
    let threads = [0, 5000, 10_000].map(|first| (first, thread::spawn(move || told(first))));
    for (first, thread) in threads {
        assert_eq!(thread.join().unwrap(), Ticket::new(first + 1000));
    }
}

#[test]
fn a_text_that_does_not_fit_is_cut_and_counted() {
    let (script, text) = (b"board 1 1 0\ntake 0\nsteal 0\n", b"= taken none\n! 3 form\n");
    for size in 0..=text.len() + 1 {
        let mut room = vec![b'.'; size];
        let (line, length) = (3, text.len());
        assert_eq!(replay(script, &mut room), End::WrongLine { line, length });
        let filled = size.min(length);
        assert_eq!(room[..filled], text[..filled]);
        assert!(room[filled..].iter().all(|&byte| byte == b'.'));
    }
    assert_eq!(replay(b"board 1 1 0\n", &mut []), End::Done { length: 0 });
    assert_eq!(replay(b"", &mut []), End::WrongLine { line: 1, length: 10 });
    assert_eq!(check(b""), Verdict::Refused { line: 1 });
}

#[test]
fn an_entry_that_does_not_fit_is_cut_and_counted() {
    let event = Event::Load { address: 0x1000, length: 8 };
    let reply = Reply::Bytes(Bytes8::new(&[1; 8]).unwrap());
    let text = b"255 load 1000 8\n= bytes 0101010101010101\n";
    for size in 0..=text.len() + 1 {
        let mut room = vec![b'.'; size];
        assert_eq!(format_entry(255, &event, &reply, &mut room), Ok(text.len()));
        let filled = size.min(text.len());
        assert_eq!(room[..filled], text[..filled]);
        assert!(room[filled..].iter().all(|&byte| byte == b'.'));
    }
}

#[test]
fn an_image_that_does_not_fit_is_cut_and_counted() {
    let mut board = Board::open(1, 1, Ticket::new(5)).unwrap();
    assert_eq!(board.tick(10), Reply::Done);
    let text = b"image 1\nboard 1 1 5\nmoment 10\nlapic 0 0 0 0 0 0 0 0 0 0 running\nend\n";
    for size in 0..=text.len() + 1 {
        let mut room = vec![b'.'; size];
        assert_eq!(board.save(&mut room), Some(text.len()));
        let filled = size.min(text.len());
        assert_eq!(room[..filled], text[..filled]);
        assert!(room[filled..].iter().all(|&byte| byte == b'.'));
    }
}

#[test]
fn an_image_is_restored() {
    let mut board = Board::open(2, 3, Ticket::new(5)).unwrap();
    for (register, value) in [(0x4000_0080, 1), (0x4000_0083, 0x2001), (0x4000_0092, 0x50)] {
        assert_eq!(board.write(processor(1), register, value), Reply::Done);
    }
    assert_eq!(board.open_message_port(Port::new(3), processor(1), SINT, 2), Reply::Done);
    assert_eq!(board.post(Port::new(3), 1, b"one"), Reply::Accepted(Ticket::new(5)));
    assert_eq!(board.post(Port::new(3), 1, b"two"), Reply::Accepted(Ticket::new(6)));
    let mut room = vec![0; 4096];
    let length = board.save(&mut room).unwrap();
    let mut restored = Board::restore(&room[..length]).unwrap();
    assert_eq!((restored.processors(), restored.pages()), (2, 3));
    assert_eq!(restored.post(Port::new(3), 1, b"three"), board.post(Port::new(3), 1, b"three"));
    let mut again = vec![0; 4096];
    assert_eq!(restored.save(&mut again), board.save(&mut room));
    assert_eq!(again, room);
}

#[test]
fn a_wrong_image_is_refused_at_its_first_wrong_line() {
    let refused = |image: &[u8]| Board::restore(image).err();
    assert_eq!(refused(b""), Some(RestoreFault::WrongLine(1)));
    assert_eq!(refused(b"image 1\nboard 1 1 5\nend\n"), Some(RestoreFault::WrongLine(3)));
    assert_eq!(RestoreFault::WrongLine(3).to_string(), "line 3 of the image is wrong");
}

#[test]
fn what_was_not_performed_has_no_entry() {
    let mut room = [b'.'; 8];
    assert_eq!(
        format_entry(0, &Event::Take { vp: VP }, &Reply::NoEvent, &mut room),
        Err(FormatFault::NoEvent)
    );
    assert_eq!(room, [b'.'; 8]);
}

#[test]
fn a_step_moves_the_clock_and_says_what_to_do() {
    let (mut board, mut room) = (Board::open(2, 1, Ticket::new(0)).unwrap(), AnswerRoom::new().unwrap());
    for (register, value) in [(0x4000_0080, 1), (0x4000_00b1, 10), (0x4000_00b0, 0x1403)] {
        assert_eq!(board.write(processor(1), register, value), Reply::Done);
    }
    let write = Event::Write { vp: processor(1), register: 0x4000_0070, value: 0 };
    let answer = board.step(9, Some(&write), 0, &mut room);
    assert_eq!(
        (answer.reply, answer.next, answer.alarm, room.notices().len()),
        (Some(Reply::Done), 0, Some(10), 0)
    );
    let answer = board.step(25, None, 3, &mut room);
    assert_eq!((answer.reply, answer.next, answer.end_assist, answer.alarm), (None, 2, 3, Some(26)));
    let vp = Vp::new(1).unwrap();
    assert_eq!(room.notices().next(), Some(Notice::Expired { vp, index: 0, due: 10 }));
    assert_eq!((room.notices().len(), board.next_bits(), answer.clock_eoms, answer.eoms), (2, 2, 0, 0));
    let answer = board.step(25, Some(&Event::Take { vp: processor(1) }), 2, &mut room);
    assert_eq!((answer.reply, answer.next, answer.end_assist), (Some(Reply::Taken(Vector::new(0x40))), 0, 0));
}

#[test]
fn ports_are_found_and_sources_asserted() {
    let mut board = Board::open(2, 1, Ticket::new(0)).unwrap();
    let (vp, sint) = (Vp::new(1).unwrap(), Sint::new(2).unwrap());
    assert_eq!(board.open_message_port(Port::new(3), processor(1), SINT, 5), Reply::Done);
    assert_eq!(board.open_event_port(Port::new(4), processor(1), SINT, 8, 64), Reply::Done);
    assert_eq!(board.port(Port::new(3)), Some((vp, sint, PortShape::Messages { buffers: 5 })));
    assert_eq!(board.port(Port::new(4)), Some((vp, sint, PortShape::Flags { base: 8, count: 64 })));
    assert_eq!((board.port(Port::new(5)), board.port(Port::new(255))), (None, None));
    assert_eq!(board.assert_source(processor(1), SINT), Reply::Done);
    assert_eq!(board.next_bits(), 0);
    assert_eq!(board.write(processor(1), 0x4000_0092, 0x50), Reply::Done);
    assert_eq!(board.assert_source(processor(1), SINT), Reply::Done);
    assert_eq!(board.next_bits(), 2);
    assert_eq!(board.assert_source(processor(2), SINT), Reply::Refused(Refusal::NoSuchProcessor));
}

#[test]
fn replies_are_results() {
    let mut board = Board::open(1, 1, Ticket::new(7)).unwrap();
    assert_eq!(board.read(VP, 0x4000_0081).value(), Ok(1));
    assert_eq!(board.read(VP, 0x4000_0000).value(), Err(EventFault::GeneralProtection));
    assert_eq!(board.load(0, 2).bytes().map(|bytes| bytes.as_ref().len()), Ok(2));
    assert_eq!(board.load(4096, 2).bytes(), Err(EventFault::Refused(Refusal::OutsideSpace)));
    assert_eq!(board.take(VP).vector(), Ok(None));
    assert_eq!(board.take(processor(1)).vector(), Err(EventFault::Refused(Refusal::NoSuchProcessor)));
    assert_eq!(board.post(Port::new(3), 1, &[0; 241]).ticket(), Err(EventFault::NoEvent));
    assert_eq!(board.signal(Port::new(4), 0).is_set(), Err(EventFault::Refused(Refusal::UnknownPort)));
    let fault = EventFault::Refused(Refusal::UnknownPort);
    assert_eq!(
        fault.to_string(),
        "the event was refused: the port is not open, or the board has none of that number"
    );
    assert!(fault.source().is_some() && EventFault::NoEvent.source().is_none());
    assert_eq!(
        (Vp::try_from(63).unwrap().to_string(), Vp::try_from(64).unwrap_err().to_string()),
        ("63".into(), "64 is out of range".into())
    );
    assert_eq!(
        (Sint::try_from(2).unwrap().to_string(), Vector::try_from(0x50).unwrap().to_string()),
        ("SINT2".into(), "50".into())
    );
    assert!(Sint::try_from(16).is_err() && Vector::try_from(15).is_err());
}

#[test]
#[should_panic(expected = "Done is no reply to a read")]
fn a_reply_to_another_event_has_no_value() {
    let _ = Board::open(1, 1, Ticket::new(0)).unwrap().write(VP, 0x4000_0080, 1).value();
}
