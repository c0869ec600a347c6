//! Shared boards through the safe calls: sizes, the notices of each event, the trace of a history,
//! queries, and threads that act at the same time.

use std::error::Error;
use std::thread;
use synicboard::msr::{EOI, SCONTROL};
use synicboard::{
    check, Event, Line, Notice, NoticeRoom, OpenFault, Raised, RecordedBoard, Refusal, Reply, Ticket,
    TimerId, Vector, Verdict, Vp,
};

const VECTOR: Vector = Vector::new(0x60).unwrap();
const PART: u8 = 1;
const VP: Vp = Vp::ZERO;
const SECOND: Vp = Vp::new(1).unwrap();
const THIRD: Vp = Vp::new(2).unwrap();

#[test]
fn sizes_outside_the_limits_are_refused() {
    for (processors, pages) in [(0, 1), (9, 1), (1, 0), (1, 65)] {
        assert_eq!(RecordedBoard::open(processors, pages, Ticket::new(0)).err(), Some(OpenFault::BadSize));
    }
    assert_eq!(format!("{:?}", RecordedBoard::open(8, 64, Ticket::new(0)).unwrap()), "RecordedBoard { .. }");
}

#[test]
fn a_room_has_the_notices_of_the_last_event() -> Result<(), Box<dyn Error>> {
    let board = RecordedBoard::open(1, 1, Ticket::new(0))?;
    let mut room = NoticeRoom::new();
    assert_eq!(room.notices().len(), 0);
    assert_eq!(board.act(0, &Event::Assert { vp: VP, vector: VECTOR }, &mut room)?, Reply::Done);
    let requested = Notice::Requested { vp: VP, vector: VECTOR };
    assert_eq!(room.notices().collect::<Vec<_>>(), [requested]);
    assert_eq!(board.next(VP), Some(VECTOR));
    assert_eq!(board.act(0, &Event::Take { vp: VP }, &mut room)?, Reply::Taken(Some(VECTOR)));
    assert_eq!(room.notices().len(), 0);
    assert_eq!(board.next(VP), None);
    assert_eq!(
        board.act(0, &Event::Take { vp: SECOND }, &mut room)?,
        Reply::Refused(Refusal::NoSuchProcessor)
    );
    assert_eq!(board.settle(&mut []).verdict, Verdict::Legal { entries: 3 });
    Ok(())
}

#[test]
fn the_first_timer_is_seen() -> Result<(), Box<dyn Error>> {
    let board = RecordedBoard::open(1, 1, Ticket::new(0))?;
    let mut room = NoticeRoom::new();
    assert_eq!(board.earliest(), None);
    // Timer 2 of the processor is a one-shot in direct mode, with vector 60, due at 100.
    for (register, value) in [(0x4000_00b4, 0x1609), (0x4000_00b5, 100)] {
        assert_eq!(board.act(0, &Event::Write { vp: VP, register, value }, &mut room)?, Reply::Done);
    }
    assert_eq!(board.earliest(), TimerId::new(VP, 2).map(|timer| (100, timer)));
    Ok(())
}

#[test]
fn the_trace_is_told_in_the_order_of_the_lock() -> Result<(), Box<dyn Error>> {
    let wanted = b"trace 2\nboard 2 4 7\n\
        200 write 0 40000080 1\n= done\n\
        0 absorb 1 1 100000000\n= done\n\
        0 absorb 2 1 0\n= refused 14\n\
        end 3 7\n";
    let board = RecordedBoard::open(2, 4, Ticket::new(7))?;
    let mut line = Line::open(2)?;
    let mut room = NoticeRoom::new();
    let write = Event::Write { vp: VP, register: SCONTROL, value: 1 };
    assert_eq!(board.act(200, &write, &mut room)?, Reply::Done);
    assert_eq!(line.raise(SECOND, VECTOR), Some(Raised::Fresh));
    assert_eq!(board.absorb(0, &mut line, SECOND, PART, &mut room)?, (Reply::Done, 1 << 32));
    assert_eq!(room.notices().len(), 1);
    let refused = Reply::Refused(Refusal::NoSuchProcessor);
    assert_eq!(board.absorb(0, &mut line, THIRD, PART, &mut room)?, (refused, 0));
    let mut trace = [0; 200];
    let settled = board.settle(&mut trace);
    assert_eq!(settled.verdict, Verdict::Legal { entries: 3 });
    assert_eq!(trace[..settled.length], *wanted);
    assert_eq!(check(wanted), settled.verdict);
    // Truncated to the buffer.
    let mut cut = [b'x'; 10];
    assert_eq!(board.settle(&mut cut[..9]), settled);
    assert_eq!(cut, *b"trace 2\nbx");
    Ok(())
}

const PROCESSORS: u8 = 3;
const TURNS: u64 = 300;

/// A processor absorbs, takes and ends, `TURNS` times. Returns how many vectors it absorbed.
fn run(board: &RecordedBoard, vp: Vp, line: &mut Line) -> u64 {
    let actor = vp.number();
    let mut room = NoticeRoom::new();
    let mut absorbed = 0;
    for _ in 0..TURNS {
        absorbed += u64::from(board.absorb(actor, line, vp, PART, &mut room).unwrap().1.count_ones());
        assert!(matches!(board.act(actor, &Event::Take { vp }, &mut room), Ok(Reply::Taken(_))));
        let end = Event::Write { vp, register: EOI, value: 0 };
        assert_eq!(board.act(actor, &end, &mut room), Ok(Reply::Done));
    }
    absorbed
}

#[test]
fn what_threads_did_is_legal_and_loses_nothing() -> Result<(), Box<dyn Error>> {
    let board = RecordedBoard::open(PROCESSORS, 1, Ticket::new(0))?;
    let mut of_device = Line::open(PROCESSORS)?;
    let mut lines = Vec::new();
    for _ in 0..PROCESSORS {
        lines.push(of_device.split()?);
    }
    let (fresh, mut absorbed) = thread::scope(|scope| {
        let board = &board;
        let threads = lines
            .iter_mut()
            .zip(Vp::below(PROCESSORS))
            .map(|(line, vp)| scope.spawn(move || run(board, vp, line)));
        let threads: Vec<_> = threads.collect();
        let raises = (0..3000_u32).map(|turn| {
            let vector = Vector::new(64 * PART + (turn % 64) as u8).expect("a vector of the part");
            of_device.raise(Vp::new((turn % u32::from(PROCESSORS)) as u8).unwrap(), vector)
        });
        let fresh = raises.filter(|&raised| raised == Some(Raised::Fresh)).count() as u64;
        (fresh, threads.into_iter().map(|thread| thread.join().unwrap()).sum::<u64>())
    });
    for vp in Vp::below(PROCESSORS) {
        let (_, bits) = board.absorb(0, &mut of_device, vp, PART, &mut NoticeRoom::new())?;
        absorbed += u64::from(bits.count_ones());
    }
    let entries = u64::from(PROCESSORS) * (3 * TURNS + 1);
    assert_eq!(board.settle(&mut []).verdict, Verdict::Legal { entries });
    assert!(fresh > 0);
    assert_eq!(absorbed, fresh);
    Ok(())
}
