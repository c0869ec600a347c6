//! A board in a `Mutex`, in plain Rust, as fast as its author would write it without proofs. It does what
//! bench_shared does, with the same standard output, so that times can be compared.

#[path = "../plain/board/mod.rs"]
#[allow(dead_code)]
mod board;

use board::Board;
use board::events::{EOI, Event, Notices, Reply};
use std::process::ExitCode;
use std::sync::Mutex;
use std::sync::atomic::{AtomicU64, Ordering};
use std::thread;
use std::time::Instant;

const FEW_CALLS: u32 = 40_000;

const USAGE_FAULT: u8 = 2;

const PROCESSORS: u8 = 8;

const PAGES: u8 = 4;

const ASSERTED: u8 = 0x60;

const WORDS: usize = PROCESSORS as usize + 1;

#[derive(Clone, Copy, PartialEq)]
enum Workload {
    Calls(u8),
    WatchedCalls,
    Polls,
}

const WORKLOADS: [(&str, Workload); 5] = [
    ("share-1", Workload::Calls(1)),
    ("share-2", Workload::Calls(2)),
    ("share-4", Workload::Calls(4)),
    ("watch-1", Workload::WatchedCalls),
    ("poll-1", Workload::Polls),
];

/// A published word, in a cache line of its own.
#[repr(align(64))]
struct Word(AtomicU64);

/// A board, and what its words hold.
struct Watched {
    board: Board,
    values: [u64; WORDS],
}

impl Watched {
    fn publish(&mut self, words: &[Word; WORDS]) {
        for vp in 0..PROCESSORS {
            self.store(words, vp.into(), self.board.next(vp).map_or(0, u64::from));
        }
        let due = self.board.earliest().map_or(u64::MAX, |timer| {
            u64::try_from(timer.0).unwrap_or(u64::MAX)
        });
        self.store(words, WORDS - 1, due);
    }

    fn store(&mut self, words: &[Word; WORDS], word: usize, value: u64) {
        if self.values[word] != value {
            words[word].0.store(value, Ordering::SeqCst);
            self.values[word] = value;
        }
    }
}

fn event_at(turn: u32) -> Event<'static> {
    let vp = (turn / 4 % 8) as u8;
    match turn % 4 {
        0 => Event::Assert {
            vp,
            vector: ASSERTED,
        },
        1 => Event::Take { vp },
        2 => Event::Write {
            vp,
            register: EOI,
            value: 0,
        },
        _ => Event::Tick {
            moment: turn.into(),
        },
    }
}

#[inline(never)]
fn perform_calls(board: &Mutex<Board>, calls: u32, notices: &mut Notices) -> u64 {
    let mut taken = 0;
    for turn in 0..calls {
        let reply = board
            .lock()
            .expect("no thread panics")
            .perform(&event_at(turn), notices);
        if let Reply::Taken(Some(_)) = reply {
            taken += 1;
        }
    }
    taken
}

#[inline(never)]
fn perform_watched(
    watched: &Mutex<Watched>,
    words: &[Word; WORDS],
    calls: u32,
    notices: &mut Notices,
) -> u64 {
    let mut taken = 0;
    for turn in 0..calls {
        let mut watched = watched.lock().expect("no thread panics");
        let reply = watched.board.perform(&event_at(turn), notices);
        watched.publish(words);
        if let Reply::Taken(Some(_)) = reply {
            taken += 1;
        }
    }
    taken
}

#[inline(never)]
fn poll(words: &[Word; WORDS], calls: u32) -> u64 {
    (0..calls)
        .filter(|_| words[0].0.load(Ordering::SeqCst) != 0)
        .count() as u64
}

fn show_watched(name: &str, polls: bool, calls: u32) {
    let mut board = Board::open(PROCESSORS, PAGES, 0);
    let mut notices = Notices::new();
    board.perform(&event_at(0), &mut notices);
    let mut watched = Watched {
        board,
        values: [0; WORDS],
    };
    let words = [const { Word(AtomicU64::new(0)) }; WORDS];
    watched.publish(&words);
    let watched = Mutex::new(watched);
    let start = Instant::now();
    let (counted, what) = if polls {
        (poll(&words, calls), "found")
    } else {
        (perform_watched(&watched, &words, calls, &mut notices), "taken")
    };
    let time = start.elapsed().as_nanos() as f64 / f64::from(calls);
    println!("{name} {calls} calls {calls} in all {counted} {what}");
    eprintln!("{name} {calls} calls {time:.1} ns a call");
}

fn show(name: &str, threads: u8, calls: u32) {
    let board = Mutex::new(Board::open(PROCESSORS, PAGES, 0));
    let start = Instant::now();
    let counted = thread::scope(|scope| {
        let others: Vec<_> = (1..threads)
            .map(|_| scope.spawn(|| perform_calls(&board, calls, &mut Notices::new())))
            .collect();
        let counted = perform_calls(&board, calls, &mut Notices::new());
        for other in others {
            other.join().expect("no thread panics");
        }
        counted
    });
    let time = start.elapsed().as_nanos() as f64 / f64::from(calls);
    let all = u64::from(calls) * u64::from(threads);
    if threads == 1 {
        println!("{name} {calls} calls {all} in all {counted} taken");
    } else {
        println!("{name} {calls} calls {all} in all");
    }
    eprintln!("{name} {calls} calls {time:.1} ns a call");
}

fn run_words(words: &[String]) -> Option<()> {
    let read_count = |word: &String| word.parse().ok().filter(|count| *count > 0);
    let named = |name: &String| WORKLOADS.into_iter().find(|workload| workload.0 == *name);
    let (chosen, calls) = match words {
        [] => (None, FEW_CALLS),
        [word] => match named(word) {
            Some(workload) => (Some(workload), FEW_CALLS),
            None => (None, read_count(word)?),
        },
        [name, count] => (Some(named(name)?), read_count(count)?),
        _ => return None,
    };
    for (name, workload) in WORKLOADS {
        if chosen.is_none_or(|chosen| chosen.0 == name) {
            match workload {
                Workload::Calls(threads) => show(name, threads, calls),
                Workload::WatchedCalls => show_watched(name, false, calls),
                Workload::Polls => show_watched(name, true, calls),
            }
        }
    }
    Some(())
}

fn main() -> ExitCode {
    let words: Vec<String> = std::env::args().skip(1).collect();
    match run_words(&words) {
        Some(()) => ExitCode::SUCCESS,
        None => {
            eprintln!("usage: plain_shared [WORKLOAD] [CALLS]");
            ExitCode::from(USAGE_FAULT)
        }
    }
}
