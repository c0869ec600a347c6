//! A shared board in plain Rust, as fast as its author would write it without proofs. It does what
//! bench_threads does, with the same standard output, so that times can be compared.

#[path = "../plain/board/mod.rs"]
#[allow(dead_code)]
mod board;
mod shared;

use board::events::{EOI, Event, Reply};
use shared::{Actor, SharedBoard};
use std::process::ExitCode;
use std::thread;
use std::time::{Duration, Instant};

const FEW_CALLS: u32 = 40_000;

const USAGE_FAULT: u8 = 2;

const PROCESSORS: u8 = 8;

const PAGES: u8 = 4;

const ASSERTED: u8 = 0x60;

/// A thread absorbs one word after this many raises.
const RAISES: u32 = 1024;

const MOST_EVENTS: u32 = 60_000;

const MOST_RAISES: u32 = 8_000_000;

#[derive(Clone, Copy)]
enum Job {
    Raise,
    Perform,
}

#[derive(Clone, Copy)]
struct Workload {
    name: &'static str,
    job: Job,
    threads: u8,
}

const WORKLOADS: [Workload; 4] = [
    workload("raise-1", Job::Raise, 1),
    workload("raise-4", Job::Raise, 4),
    workload("perform-1", Job::Perform, 1),
    workload("perform-4", Job::Perform, 4),
];

const fn workload(name: &'static str, job: Job, threads: u8) -> Workload {
    Workload { name, job, threads }
}

impl Workload {
    fn named(name: &str) -> Option<Workload> {
        WORKLOADS.into_iter().find(|workload| workload.name == name)
    }

    /// The greatest number of calls of each thread on one board.
    fn most(self) -> u32 {
        match self.job {
            Job::Raise => MOST_RAISES,
            Job::Perform => MOST_EVENTS / u32::from(self.threads),
        }
    }
}

#[inline(never)]
fn raise_all(board: &SharedBoard, calls: u32, actor: &mut Actor) -> u64 {
    let mut fresh = 0;
    for turn in 0..calls {
        let part = (turn / 8 % 4) as u8;
        let bit = 16 + (turn / 32 % 32) as u8;
        if board.raise((turn % 8) as u8, 64 * part + bit) {
            fresh += 1;
        }
        if turn % RAISES == 0 {
            let place = (turn / RAISES % 32) as u8;
            board.absorb(actor, place / 4, place % 4);
        }
    }
    fresh
}

#[inline(never)]
fn perform_all(board: &SharedBoard, calls: u32, actor: &mut Actor) -> u64 {
    let mut taken = 0;
    for turn in 0..calls {
        if let Some(Reply::Taken(Some(_))) = board.perform(actor, event_at(turn)) {
            taken += 1;
        }
    }
    taken
}

fn event_at(turn: u32) -> Event<'static> {
    let vp = (turn / 4 % 8) as u8;
    match turn % 4 {
        0 => Event::Assert {
            vp,
            vector: ASSERTED,
        },
        1 => Event::Take { vp },
        2 => Event::Write {
            vp,
            register: EOI,
            value: 0,
        },
        _ => Event::Tick {
            moment: turn.into(),
        },
    }
}

/// Runs the job of each actor in a thread of its own, started by halves.
fn run(board: &SharedBoard, job: Job, calls: u32, actors: &mut [Actor]) -> u64 {
    match actors {
        [] => 0,
        [actor] => match job {
            Job::Raise => raise_all(board, calls, actor),
            Job::Perform => perform_all(board, calls, actor),
        },
        _ => {
            let (first, second) = actors.split_at_mut(actors.len() / 2);
            thread::scope(|scope| {
                let other = scope.spawn(|| run(board, job, calls, second));
                run(board, job, calls, first) + other.join().expect("no thread panics")
            })
        }
    }
}

/// Each thread makes `calls` calls on one board. Only the threads' work is timed.
fn measure_board(workload: Workload, calls: u32) -> (u64, Duration) {
    let board = SharedBoard::open(PROCESSORS, PAGES);
    let mut actors: Vec<Actor> = (0..workload.threads).map(Actor::new).collect();
    let start = Instant::now();
    let counted = run(&board, workload.job, calls, &mut actors);
    let elapsed = start.elapsed();
    assert!(board.settle(&actors), "the board was not settled");
    (counted, elapsed)
}

fn show(workload: Workload, calls: u32) {
    let Workload { name, job, threads } = workload;
    let most = workload.most();
    let mut counted = 0;
    let mut time = Duration::ZERO;
    let whole = (0..calls / most).map(|_| most);
    for calls in whole.chain([calls % most]) {
        let (more, elapsed) = measure_board(workload, calls);
        counted += more;
        time += elapsed;
    }
    let all = u64::from(calls) * u64::from(threads);
    match (threads, job) {
        (1, Job::Raise) => println!("{name} {calls} calls {all} in all {counted} fresh"),
        (1, Job::Perform) => println!("{name} {calls} calls {all} in all {counted} taken"),
        _ => println!("{name} {calls} calls {all} in all"),
    }
    let time = time.as_nanos() as f64 / f64::from(calls);
    eprintln!("{name} {calls} calls {time:.1} ns a call");
}

fn show_all(calls: u32) {
    for workload in WORKLOADS {
        show(workload, calls);
    }
}

fn run_words(words: &[String]) -> Option<()> {
    let read_count = |word: &String| word.parse().ok().filter(|count| *count > 0);
    match words {
        [] => show_all(FEW_CALLS),
        [word] => match Workload::named(word) {
            Some(workload) => show(workload, FEW_CALLS),
            None => show_all(read_count(word)?),
        },
        [name, count] => show(Workload::named(name)?, read_count(count)?),
        _ => return None,
    }
    Some(())
}

fn main() -> ExitCode {
    let words: Vec<String> = std::env::args().skip(1).collect();
    match run_words(&words) {
        Some(()) => ExitCode::SUCCESS,
        None => {
            eprintln!("usage: plain_threads [WORKLOAD] [CALLS]");
            ExitCode::from(USAGE_FAULT)
        }
    }
}
