//! Threads that share a board with a history. At the end, the program settles the history: its
//! trace is that of a legal history, whatever the schedule. Two processors have a thread each; a
//! device raises vectors at both, without the lock.

use std::error::Error;
use std::thread;
use synicboard::msr::EOI;
use synicboard::{Event, Line, NoEntry, NoticeRoom, Raised, RecordedBoard, Ticket, Vector, Vp};

const PROCESSORS: u8 = 2;
const TURNS: usize = 500;
const RAISES: usize = 2000;
const PART: u8 = 1;

/// A processor absorbs its raised vectors. Returns how many there were.
fn absorb(board: &RecordedBoard, line: &mut Line, vp: Vp) -> Result<u64, NoEntry> {
    let (_, bits) = board.absorb(vp.number(), line, vp, PART, &mut NoticeRoom::new())?;
    Ok(bits.count_ones().into())
}

/// The loop of a processor's thread, the actor of its own number. Returns how many vectors it
/// absorbed.
fn run_processor(board: &RecordedBoard, line: &mut Line, vp: Vp) -> Result<u64, NoEntry> {
    let end = Event::Write { vp, register: EOI, value: 0 };
    let mut room = NoticeRoom::new();
    let mut absorbed = 0;
    for _ in 0..TURNS {
        absorbed += absorb(board, line, vp)?;
        for event in [Event::Take { vp }, end] {
            let _ = board.act(vp.number(), &event, &mut room)?;
        }
    }
    Ok(absorbed)
}

/// The device never blocks. Returns how many of its raises were fresh.
fn run_device(line: &mut Line) -> u64 {
    let raises = (0..RAISES).map(|turn| {
        let bit = (turn / usize::from(PROCESSORS) % 64) as u8;
        let vector = Vector::new(64 * PART + bit).expect("a vector of the part");
        let vp = Vp::new((turn % usize::from(PROCESSORS)) as u8).expect("a processor below 64");
        line.raise(vp, vector)
    });
    raises.filter(|raised| *raised == Some(Raised::Fresh)).count() as u64
}

fn main() -> Result<(), Box<dyn Error>> {
    let board = RecordedBoard::open(PROCESSORS, 1, Ticket::new(0))?;
    let mut device_line = Line::open(PROCESSORS)?;
    let mut lines = [device_line.split()?, device_line.split()?];
    let (fresh, in_turns) = thread::scope(|scope| {
        let board = &board;
        let threads: Vec<_> = lines
            .iter_mut()
            .zip(Vp::below(PROCESSORS))
            .map(|(line, vp)| scope.spawn(move || run_processor(board, line, vp)))
            .collect();
        let fresh = run_device(&mut device_line);
        let absorbed = threads.into_iter().map(|thread| thread.join().expect("no thread panics"));
        (fresh, absorbed.sum::<Result<u64, NoEntry>>())
    });
    let mut absorbed = in_turns?;
    for vp in Vp::below(PROCESSORS) {
        absorbed += absorb(&board, &mut device_line, vp)?;
    }
    println!("{:?}", board.settle(&mut []).verdict);
    println!("fresh vectors were absorbed once: {}", fresh == absorbed);
    Ok(())
}
