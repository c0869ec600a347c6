//! The plain board with live pages: it does what bench_live does, by the same accesses of the host to these pages. It
//! keeps what it knows of them in the frames of the plain board, as the proved board does.

#[allow(dead_code)]
mod board;

use board::Board;
use board::events::{EOM, Event, Notices, Reply, SCONTROL, SIEFP, SIMP, SINT0, STIMER0_CONFIG, Shape};
use std::process::ExitCode;
use std::sync::atomic::{AtomicU64, Ordering};
use std::time::Instant;

const FEW_EVENTS: u32 = 10_000;
const NAMES: [&str; 4] = ["live-signals", "live-eoms", "live-counts", "live-ticks"];
const WORDS: usize = 512;
const SLOTS: usize = 16;
const SLOT_WORDS: usize = 32;
const FLAGS: u16 = 64;
const SOURCE: u8 = 2;
const FAR: u64 = 1 << 62;
const STIMER0_COUNT: u32 = STIMER0_CONFIG + 1;

/// The pages of one processor, and the headers that the host knows.
struct Live {
    board: Board,
    messages: Box<[AtomicU64; WORDS]>,
    flags: Box<[AtomicU64; WORDS]>,
    headers: [u64; SLOTS],
    words: [u64; WORDS],
}

fn page() -> Box<[AtomicU64; WORDS]> {
    Box::new([const { AtomicU64::new(0) }; WORDS])
}

impl Live {
    /// A header that is not the known one would be a store of the guest, which stores nothing here.
    #[inline(always)]
    fn look(&mut self) {
        for slot in 0..SLOTS {
            let found = self.messages[SLOT_WORDS * slot].load(Ordering::SeqCst);
            assert!(found == self.headers[slot], "the guest stores nothing");
        }
    }

    #[inline(always)]
    fn perform(&mut self, event: &Event, notices: &mut Notices) -> Reply {
        match *event {
            Event::Signal { flag, .. } => {
                let word = SLOT_WORDS * SOURCE as usize + flag as usize / 64;
                let bit = 1 << (flag % 64);
                let found = self.flags[word].fetch_or(bit, Ordering::SeqCst);
                assert!(found == self.words[word], "the guest stores nothing");
                self.words[word] = found | bit;
            }
            Event::Write { register, .. } if register >= STIMER0_CONFIG => self.look(),
            Event::Tick { moment } if self.board.earliest().is_some_and(|(due, _)| due <= u128::from(moment)) => self.look(),
            _ => {}
        }
        self.board.perform(event, notices)
    }
}

fn write(register: u32, value: u64) -> Event<'static> {
    Event::Write { vp: 0, register, value }
}

fn event_at(workload: usize, turn: u32) -> Event<'static> {
    match workload {
        0 => Event::Signal { port: 0, flag: (turn % u32::from(FLAGS)) as u16 },
        1 => write(EOM, 0),
        2 => write(STIMER0_COUNT + 2, FAR + u64::from(turn % 1024)),
        _ => Event::Tick { moment: u64::from(turn) + 1 },
    }
}

fn open(notices: &mut Notices) -> Live {
    let mut live = Live { board: Board::open(1, 4, 0), messages: page(), flags: page(), headers: [0; SLOTS], words: [0; WORDS] };
    let setup = [
        write(SCONTROL, 1),
        write(SIMP, 0x2001),
        write(SIEFP, 0x3001),
        write(SINT0 + u32::from(SOURCE), 0x50),
        write(STIMER0_COUNT, 1),
        write(STIMER0_CONFIG, 0x1603),
        write(STIMER0_CONFIG + 2, 0x1701),
        Event::OpenPort { port: 0, vp: 0, sint: SOURCE, shape: Shape::Flags { base: 0, count: FLAGS } },
    ];
    for event in &setup {
        live.perform(event, notices);
    }
    live
}

#[inline(never)]
fn perform_all(live: &mut Live, notices: &mut Notices, workload: usize, events: u32) -> u64 {
    let mut done = 0;
    for turn in 0..events {
        let reply = live.perform(&event_at(workload, turn), notices);
        done += u64::from(!matches!(reply, Reply::Refused(_) | Reply::GeneralProtection));
    }
    done
}

fn show(workload: usize, events: u32) {
    let mut notices = Notices::new();
    let mut live = open(&mut notices);
    let start = Instant::now();
    let done = perform_all(&mut live, &mut notices, workload, events);
    let nanoseconds = start.elapsed().as_nanos() as f64;
    let name = NAMES[workload];
    println!("{name} {events} events {done} done");
    eprintln!("{name} {events} events {:.1} ns an event", nanoseconds / f64::from(events));
}

fn main() -> ExitCode {
    let words: Vec<String> = std::env::args().skip(1).collect();
    let chosen = words.first().and_then(|word| NAMES.iter().position(|name| name == word));
    let count = words.last().and_then(|word| word.parse().ok()).unwrap_or(FEW_EVENTS);
    for workload in 0..NAMES.len() {
        if chosen.is_none_or(|chosen| chosen == workload) {
            show(workload, count);
        }
    }
    ExitCode::SUCCESS
}
