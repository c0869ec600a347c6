//! A toy hypervisor of two processors, with a thread for each, over one board under a lock. One
//! device posts messages to processor 1. Another raises a vector at processor 0 without the lock;
//! this processor also has a periodic timer. The output does not depend on the schedule. The steps
//! are those of "The run loop" in docs/EMBEDDING.md.

use std::sync::atomic::{AtomicU64, Ordering};
use std::sync::{Condvar, Mutex};
use std::thread;
use synicboard::msr::{EOI, EOM, SCONTROL, SIMP, STIMER0_CONFIG, STIMER0_COUNT};
use synicboard::{Board, Line, Notice, Port, Raised, Refusal, Reply, Sint, Ticket, Vector, Vp};

const ZERO: Vp = Vp::ZERO;
const ONE: Vp = Vp::new(1).unwrap();

const SINT2: u32 = 0x4000_0092;
const TIMER_VECTOR: Vector = Vector::new(0x40).unwrap();
const WORK_VECTOR: Vector = Vector::new(0x60).unwrap();

/// Where the guest of processor 1 maps its message page, and the offset of the slot of SINT2.
const PAGE: u64 = 0x2000;
const SLOT: usize = 0x200;

const PORT: Port = Port::new(3);
const MESSAGES: u64 = 1000;
const EXPIRIES: u64 = 500;
const WORK: u64 = 2000;

/// What the threads share.
struct Host {
    board: Mutex<Board>,
    /// Signalled when there may be a vector to take, a free buffer, or a due timer.
    kick: Condvar,
    /// How many pieces of work the second device has done.
    work: AtomicU64,
}

/// What the guest of a processor has received.
#[derive(Default)]
struct Seen {
    expiries: u64,
    work: u64,
    messages: u64,
    sum: u64,
}

impl Seen {
    fn is_all(&self, vp: Vp) -> bool {
        match vp {
            ZERO => self.expiries == EXPIRIES && self.work == WORK,
            _ => self.messages == MESSAGES,
        }
    }
}

fn done(reply: Reply) {
    assert_eq!(reply, Reply::Done);
}

/// The thread of the first device.
fn post_messages(host: &Host) {
    let requested = |notice| matches!(notice, Notice::Requested { .. });
    let mut board = host.board.lock().unwrap();
    for number in 0..MESSAGES {
        while let Reply::Refused(refusal) = board.post(PORT, 1, &number.to_le_bytes()) {
            // A buffer is free again after the next message is placed.
            assert_eq!(refusal, Refusal::NoBuffers);
            board = host.kick.wait(board).unwrap();
        }
        if board.notices().any(requested) {
            host.kick.notify_all();
        }
    }
}

/// The thread of the second device. A vector that was already raised is on its way and needs no
/// kick.
fn do_work(host: &Host, mut line: Line) {
    for _ in 0..WORK {
        host.work.fetch_add(1, Ordering::SeqCst);
        let raised = line.raise(ZERO, WORK_VECTOR).expect("the words are for processor 0");
        if raised == Raised::Fresh {
            // Processor 0 absorbs and goes to sleep in one critical section, so it cannot miss this
            // kick.
            let _board = host.board.lock().unwrap();
            host.kick.notify_all();
        }
    }
}

/// The thread of a processor. Ends when its guest has received everything.
fn processor(host: &Host, vp: Vp, mut line: Line) -> Seen {
    let mut seen = Seen::default();
    while !seen.is_all(vp) {
        let mut board = host.board.lock().unwrap();
        done(board.absorb_line(&mut line, vp, WORK_VECTOR.number() / 64));
        let are_idle = board.next_bits() == 0;
        if let Some(next) = board.next(vp) {
            // The guest always accepts interrupts, and its handler runs here, with the lock held.
            assert_eq!(board.take(vp), Reply::Taken(Some(next)));
            handle(host, &mut board, vp, next, &mut seen);
            done(board.write(vp, EOI, 0));
        } else if let (true, Some((due, _))) = (are_idle, board.earliest()) {
            // A host arms its timer for this deadline. The toy has no clock, so it ticks at once.
            done(board.tick(due.try_into().expect("a moment that a clock reaches")));
        } else {
            drop(host.kick.wait(board));
            continue;
        }
        // After this, there may be a free buffer, a vector, or another timer.
        host.kick.notify_all();
    }
    seen
}

/// The handler of a guest.
fn handle(host: &Host, board: &mut Board, vp: Vp, vector: Vector, seen: &mut Seen) {
    match vector {
        WORK_VECTOR => seen.work = host.work.load(Ordering::SeqCst),
        TIMER_VECTOR => {
            seen.expiries += 1;
            if seen.expiries == EXPIRIES {
                done(board.write(vp, STIMER0_CONFIG, 0));
            }
        }
        _ => {
            seen.messages += 1;
            seen.sum += receive(board, vp);
        }
    }
}

/// The guest reads the message in the slot of SINT2, and gives the slot back.
fn receive(board: &mut Board, vp: Vp) -> u64 {
    let slot = &board.message_page(vp).expect("it is on the board")[SLOT..];
    let is_pending = slot[5] & 1 == 1;
    let number = u64::from_le_bytes(slot[16..24].try_into().expect("eight bytes"));
    // A type of zero empties the slot. The guest stores it at the address where it has mapped the
    // page.
    done(board.store(PAGE + SLOT as u64, &[0; 4]));
    if is_pending {
        done(board.write(vp, EOM, 0));
    }
    number
}

/// The guest of processor 1 enables its SynIC and its message page, and gives SINT2 vector 50. That
/// of processor 0 sets its timer: direct mode, vector 40, every 10 units of 100 ns.
fn set_up(board: &mut Board) {
    for (register, value) in [(SCONTROL, 1), (SIMP, PAGE | 1), (SINT2, 0x50)] {
        done(board.write(ONE, register, value));
    }
    done(board.open_message_port(PORT, ONE, Sint::SINT2, 4));
    done(board.write(ZERO, STIMER0_COUNT, 10));
    done(board.write(ZERO, STIMER0_CONFIG, 0x1403));
}

fn main() {
    let mut board = Board::open(2, 4, Ticket::new(0)).expect("memory for a board");
    set_up(&mut board);
    // One line for each thread that raises or absorbs.
    let mut first = Line::open(2).expect("memory for a line");
    let (second, third) = (first.split().expect("a second line"), first.split().expect("a third line"));
    let host = Host { board: Mutex::new(board), kick: Condvar::new(), work: AtomicU64::new(0) };
    let (zero, one) = thread::scope(|scope| {
        let zero = scope.spawn(|| processor(&host, ZERO, first));
        let one = scope.spawn(|| processor(&host, ONE, second));
        scope.spawn(|| do_work(&host, third));
        post_messages(&host);
        (zero.join().expect("processor 0"), one.join().expect("processor 1"))
    });
    println!("processor 0: {} interrupts of its timer, {} pieces of work", zero.expiries, zero.work);
    println!("processor 1: {} messages, their sum is {}", one.messages, one.sum);
    let board = host.board.into_inner().unwrap();
    let (ticket, moment) = (board.next_ticket(), board.moment());
    println!("board: the next ticket is {ticket}, the moment {moment}");
}
