//! What is dropped gives its memory back. In a program of its own, and one test at a time, since other tests
//! take memory meanwhile.

use std::fs;
use std::sync::{Mutex, MutexGuard, PoisonError};
use synicboard::{Board, Line, Ticket};

static TURN: Mutex<()> = Mutex::new(());

fn turn() -> MutexGuard<'static, ()> {
    TURN.lock().unwrap_or_else(PoisonError::into_inner)
}

/// The memory of this process, in pages, if the system reports it.
fn held() -> Option<usize> {
    let said = fs::read_to_string("/proc/self/statm").ok()?;
    said.split(' ').nth(1)?.parse().ok()
}

/// A board of the greatest size takes some 440 KB, so 1500 of them take more than half a gigabyte.
#[test]
fn a_dropped_board_gives_its_memory_back() {
    let open = || Board::open(8, 64, Ticket::new(0)).unwrap();
    let _turn = turn();
    drop(open());
    let before = held();
    for _ in 0..1500 {
        drop(open());
    }
    let after = held();
    assert!(before.zip(after).is_none_or(|(before, after)| after < before + 100_000), "{before:?} {after:?}");
}

/// A line and 31 that are split off it take more than a kilobyte, so 60,000 times as many take more
/// than 60 megabytes.
#[test]
fn dropped_lines_give_their_memory_back() {
    let open = || {
        let mut line = Line::open(8).unwrap();
        let others = [(); 31].map(|()| line.split().unwrap());
        (line, others)
    };
    let _turn = turn();
    drop(open());
    let before = held();
    for _ in 0..60_000 {
        drop(open());
    }
    let after = held();
    assert!(before.zip(after).is_none_or(|(before, after)| after < before + 10_000), "{before:?} {after:?}");
}
