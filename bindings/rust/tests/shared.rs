//! A board that threads share by a lock of the program: each vector that is requested is taken once.

use std::error::Error;
use std::sync::Mutex;
use std::thread;
use synicboard::msr::EOI;
use synicboard::{Board, Reply, Ticket, Vector, Vp};

const ROUNDS: u32 = 10_000;
const PROCESSORS: u8 = 4;
const VECTOR: Vector = Vector::new(0x60).unwrap();

/// Requests a vector and takes it, under two holds of the lock; how often it was taken.
fn run(board: &Mutex<Board>, vp: Vp) -> u32 {
    let mut taken = 0;
    for _ in 0..ROUNDS {
        assert_eq!(board.lock().unwrap().assert(vp, VECTOR), Reply::Done);
        let mut held = board.lock().unwrap();
        taken += u32::from(held.take(vp) == Reply::Taken(Some(VECTOR)));
        assert_eq!(held.write(vp, EOI, 0), Reply::Done);
    }
    taken
}

#[test]
fn threads_share_a_board_by_a_mutex() -> Result<(), Box<dyn Error>> {
    for board in
        [Board::open(PROCESSORS, 1, Ticket::new(0))?, Board::open_sparse(PROCESSORS, Ticket::new(0))?]
    {
        let board = Mutex::new(board);
        let taken: u32 = thread::scope(|scope| {
            let threads: Vec<_> = Vp::below(PROCESSORS)
                .map(|vp| {
                    scope.spawn({
                        let board = &board;
                        move || run(board, vp)
                    })
                })
                .collect();
            threads.into_iter().map(|thread| thread.join().unwrap()).sum()
        });
        assert_eq!(taken, ROUNDS * u32::from(PROCESSORS));
    }
    Ok(())
}
