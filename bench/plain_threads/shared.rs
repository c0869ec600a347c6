//! The plain board with a lock and a history, and the words of raised vectors, which need no lock.

use crate::board::Board;
use crate::board::events::{Event, Notices, Reply};
use std::sync::Mutex;
use std::sync::atomic::{AtomicU64, Ordering};

const MOST_ENTRIES: usize = 65_536;

/// The call of an actor: an event, or the absorb of the bits of a word.
#[derive(Clone, Copy, PartialEq)]
pub enum Call {
    Event(Event<'static>),
    Absorb { vp: u8, part: u8, bits: u64 },
}

struct Entry {
    actor: u8,
    call: Call,
    reply: Reply,
}

/// A call as an actor's list stores it. If lists are borrowed (`--cfg lending`), each call has
/// space for the longest payload, as the events of the proved board have.
#[derive(Clone, Copy)]
struct Kept {
    call: Call,
    #[cfg(lending)]
    _payload: std::mem::MaybeUninit<[u8; 240]>,
    reply: Reply,
}

impl Kept {
    fn new(call: Call, reply: Reply) -> Kept {
        Kept {
            call,
            #[cfg(lending)]
            _payload: std::mem::MaybeUninit::uninit(),
            reply,
        }
    }
}

pub struct Actor {
    number: u8,
    calls: Vec<Kept>,
}

impl Actor {
    pub fn new(number: u8) -> Actor {
        Actor {
            number,
            calls: Vec::new(),
        }
    }
}

struct Recorded {
    board: Board,
    history: Vec<Entry>,
    notices: Notices,
}

pub struct SharedBoard {
    words: [AtomicU64; 32],
    recorded: Mutex<Recorded>,
}

impl SharedBoard {
    pub fn open(processors: u8, pages: u8) -> SharedBoard {
        SharedBoard {
            words: [const { AtomicU64::new(0) }; 32],
            recorded: Mutex::new(Recorded {
                board: Board::open(processors, pages, 0),
                history: Vec::new(),
                notices: Notices::new(),
            }),
        }
    }

    /// Returns whether the vector was not pending.
    pub fn raise(&self, vp: u8, vector: u8) -> bool {
        let word = &self.words[(4 * vp + vector / 64) as usize];
        let bit = 1 << (vector % 64);
        word.fetch_or(bit, Ordering::SeqCst) & bit == 0
    }

    /// `None` if the history is full.
    pub fn perform(&self, actor: &mut Actor, event: Event<'static>) -> Option<Reply> {
        let mut guard = self.recorded.lock().expect("no thread panics");
        let recorded = &mut *guard;
        if recorded.history.len() >= MOST_ENTRIES {
            return None;
        }
        let reply = recorded.board.perform(&event, &mut recorded.notices);
        recorded.enter(actor, Call::Event(event), reply);
        Some(reply)
    }

    /// Takes the bits of a word and has the processor absorb them. `None` if the history is full.
    pub fn absorb(&self, actor: &mut Actor, vp: u8, part: u8) -> Option<Reply> {
        let mut guard = self.recorded.lock().expect("no thread panics");
        let recorded = &mut *guard;
        if recorded.history.len() >= MOST_ENTRIES {
            return None;
        }
        let bits = self.words[(4 * vp + part) as usize].swap(0, Ordering::SeqCst);
        let mut left = bits;
        while left != 0 {
            let vector = 64 * part + left.trailing_zeros() as u8;
            let event = Event::Assert { vp, vector };
            recorded.board.perform(&event, &mut recorded.notices);
            left &= left - 1;
        }
        recorded.enter(actor, Call::Absorb { vp, part, bits }, Reply::Done);
        Some(Reply::Done)
    }

    /// Returns whether the history consists of these actors' calls and nothing else.
    pub fn settle(&self, actors: &[Actor]) -> bool {
        let recorded = self.recorded.lock().expect("no thread panics");
        let history = &recorded.history;
        let count: usize = actors.iter().map(|actor| actor.calls.len()).sum();
        count == history.len()
            && actors.iter().all(|actor| {
                history
                    .iter()
                    .filter(|entry| entry.actor == actor.number)
                    .map(|entry| (entry.call, entry.reply))
                    .eq(actor.calls.iter().map(|kept| (kept.call, kept.reply)))
            })
    }
}

impl Recorded {
    /// Both lists grow by doubling.
    fn enter(&mut self, actor: &mut Actor, call: Call, reply: Reply) {
        self.history.push(Entry {
            actor: actor.number,
            call,
            reply,
        });
        actor.calls.push(Kept::new(call, reply));
    }
}
