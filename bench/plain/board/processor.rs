//! The registers of one processor, its interrupts, and its queues and tickets by sources.

use super::events::{Notice, Notices, Reply};
use super::lapic::{Lapic, VectorSet};
use super::queues::{Buffers, Chain};

const MASKED: u64 = 1 << 16;
const AUTO_EOI: u64 = 1 << 17;
const POLLING: u64 = 1 << 18;

/// No ticket has this number.
const NO_TICKET: u64 = u64::MAX;

#[repr(align(64))]
pub struct Processor {
    pub lapic: Lapic,
    pub control: u64,
    pub sief: u64,
    pub sim: u64,
    sints: [u64; 16],
    /// The vector that each source raises; 0 for none.
    raised: [u8; 16],
    /// Which sources have a queued message.
    pub queued: u16,
    pub chains: [Chain; 16],
    tickets: [u64; 16],
}

impl Processor {
    pub fn new() -> Processor {
        Processor {
            lapic: Lapic::new(),
            control: 0,
            sief: 0,
            sim: 0,
            sints: [MASKED; 16],
            raised: [0; 16],
            queued: 0,
            chains: [Chain::default(); 16],
            tickets: [NO_TICKET; 16],
        }
    }

    #[inline(always)]
    pub fn request(&mut self, vp: u8, vector: u8, notices: &mut Notices) {
        if self.lapic.request(vector) {
            notices.push(Notice::Requested { vp, vector });
        }
    }

    #[inline(always)]
    pub fn raise(&mut self, vp: u8, sint: u8, notices: &mut Notices) {
        let vector = self.raised[sint as usize];
        if vector != 0 {
            self.request(vp, vector, notices);
        }
    }

    #[inline(never)]
    pub fn write_source(&mut self, sint: u8, value: u64) -> Reply {
        if value as u8 <= 15 && value & MASKED == 0 {
            return Reply::GeneralProtection;
        }
        self.sints[sint as usize] = value;
        self.lapic.auto = VectorSet::default();
        for (raised, word) in self.raised.iter_mut().zip(self.sints) {
            let is_silent = word & (MASKED | POLLING) != 0;
            *raised = if is_silent { 0 } else { word as u8 };
            if !is_silent && word & AUTO_EOI != 0 {
                self.lapic.auto.insert(word as u8);
            }
        }
        Reply::Done
    }

    /// A message was placed in the slot.
    #[inline(always)]
    pub fn hold(&mut self, vp: u8, sint: u8, ticket: u64, notices: &mut Notices) {
        self.tickets[sint as usize] = ticket;
        notices.push(Notice::Placed { ticket, vp, sint });
    }

    /// Withdraws the ticket of a slot, and then those of its queue.
    pub fn withdraw(&mut self, vp: u8, sint: u8, buffers: &mut Buffers, notices: &mut Notices) {
        let ticket = self.tickets[sint as usize];
        if ticket != NO_TICKET {
            notices.push(Notice::Withdrawn { ticket, vp, sint });
        }
        let chain = &mut self.chains[sint as usize];
        while chain.length != 0 {
            let ticket = buffers.withdraw(chain);
            notices.push(Notice::Withdrawn { ticket, vp, sint });
        }
    }

    /// A slot is empty after a guest store.
    #[inline(always)]
    pub fn consume(&mut self, vp: u8, sint: u8, notices: &mut Notices) {
        let ticket = std::mem::replace(&mut self.tickets[sint as usize], NO_TICKET);
        if ticket != NO_TICKET {
            notices.push(Notice::Consumed { ticket, vp, sint });
        }
    }
}
