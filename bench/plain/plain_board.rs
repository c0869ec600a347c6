//! A board in plain Rust, as fast as its author would write it without proofs. It does what
//! bench_board does, with the same replies, notices and summary, so that times can be compared. It
//! has the events of the workloads, and suspends, resumes and resets.

#[allow(dead_code)]
mod board;
mod tally;
mod workloads;

use board::Board;
use board::events::{Event, Notices};
use std::process::ExitCode;
use std::time::Instant;
use tally::{Digest, Tally, Totals};
use workloads::{NAMES, Scene, Size};

const FEW_EVENTS: u32 = 10_000;

const USAGE_FAULT: u8 = 2;

/// How many events are in the digest, which is not timed.
const DIGESTED: u32 = 2000;

fn perform_all<T: Tally>(
    board: &mut Board,
    notices: &mut Notices,
    scene: &mut Scene,
    events: u32,
    tally: &mut T,
) {
    let length = scene.round.len();
    for _ in 0..events as usize / length {
        perform(board, notices, &mut scene.round, scene.span, tally);
    }
    perform(
        board,
        notices,
        &mut scene.round[..events as usize % length],
        scene.span,
        tally,
    );
}

fn perform<T: Tally>(
    board: &mut Board,
    notices: &mut Notices,
    events: &mut [Event],
    span: u64,
    tally: &mut T,
) {
    for event in events {
        let reply = board.perform(event, notices);
        tally.add(&reply, notices.as_slice());
        if let Event::Tick { moment } = event {
            *moment += span;
        }
    }
}

#[inline(never)]
fn total(board: &mut Board, notices: &mut Notices, scene: &mut Scene, events: u32) -> Totals {
    let mut totals = Totals::default();
    perform_all(board, notices, scene, events, &mut totals);
    totals
}

fn digest_of(name: &str, size: Size, events: u32, notices: &mut Notices) -> Option<u64> {
    let mut scene = Scene::of(name, size)?;
    let mut board = scene.open(notices);
    let mut digest = Digest::new();
    perform_all(&mut board, notices, &mut scene, events, &mut digest);
    digest.add_summary(&board);
    digest.add_owners(&board, scene.elsewhere());
    Some(digest.0)
}

fn show(name: &str, size: Size, events: u32) -> Option<()> {
    let mut notices = Notices::new();
    let digest = digest_of(name, size, events.min(DIGESTED), &mut notices)?;
    let mut scene = Scene::of(name, size)?;
    let mut board = scene.open(&mut notices);
    let start = Instant::now();
    let totals = total(&mut board, &mut notices, &mut scene, events);
    let nanoseconds = start.elapsed().as_nanos() as f64;
    let (notices, replies) = (totals.notices, totals.replies);
    println!("{name} {events} events {notices} notices {replies} replies {digest:016x} digest");
    eprintln!(
        "{name} {events} events {:.1} ns an event",
        nanoseconds / f64::from(events)
    );
    Some(())
}

fn run(words: &[String]) -> Option<()> {
    if let [option, count, rest @ ..] = words
        && option == "--processors"
    {
        return run_on(Size::of(count)?, rest);
    }
    run_on(Size::of("8")?, words)
}

fn run_on(size: Size, words: &[String]) -> Option<()> {
    let show_all = |events| NAMES.iter().try_for_each(|name| show(name, size, events));
    match words {
        [] => show_all(FEW_EVENTS),
        [name] if NAMES.contains(&name.as_str()) => show(name, size, FEW_EVENTS),
        [count] => show_all(count.parse().ok().filter(|count| *count > 0)?),
        [name, count] => show(name, size, count.parse().ok().filter(|count| *count > 0)?),
        _ => None,
    }
}

fn main() -> ExitCode {
    let words: Vec<String> = std::env::args().skip(1).collect();
    match run(&words) {
        Some(()) => ExitCode::SUCCESS,
        None => {
            eprintln!("usage: plain_board [--processors 1|8|64] [WORKLOAD] [EVENTS]");
            ExitCode::from(USAGE_FAULT)
        }
    }
}
