//! The plain board. It lacks what no workload uses: closing ports, reading registers, task
//! priorities, lazy timers and timers with AutoEnable.

mod elsewhere;
pub mod events;
mod lapic;
mod pages;
mod processor;
mod queues;
mod timers;

use events::{
    EOI, EOM, Event, LAST_SINT, LAST_TIMER, Notice, Notices, Owner, Refusal, Reply, SCONTROL,
    SIEFP, SIMP, SINT0, STIMER0_CONFIG, Shape,
};
use pages::{ENABLE, Pages};
use processor::Processor;
use queues::{Buffers, Expiration, Message, Post, is_empty, set_pending};
use timers::{DIRECT, Expiry, Timers, source_in, vector_in};

/// The fewest ports of a board, and how many a sparse one has for each processor.
const FEW_PORTS: usize = 16;
const EACH_PORTS: usize = 4;

/// The greatest number of timers that expire in one tick.
const MOST_EXPIRIES: u32 = 32;

#[derive(Clone, Copy)]
struct Port {
    vp: u8,
    sint: u8,
    shape: Shape,
}

pub struct Board {
    processors: Vec<Processor>,
    pages: Pages,
    ports: Box<[Option<Port>]>,
    buffers: Buffers,
    timers: Timers,
    moment: u64,
    next_ticket: u64,
}

impl Board {
    /// At most eight processors.
    pub fn open(processors: u8, pages: u8, next_ticket: u64) -> Board {
        Board::with(processors, Pages::new(pages), FEW_PORTS, next_ticket)
    }

    /// At most 64 processors; the guest's pages are in the caller's memory.
    pub fn open_sparse(processors: u8, next_ticket: u64) -> Board {
        let ports = FEW_PORTS.max(EACH_PORTS * processors as usize);
        Board::with(processors, Pages::sparse(processors), ports, next_ticket)
    }

    fn with(processors: u8, pages: Pages, ports: usize, next_ticket: u64) -> Board {
        Board {
            processors: (0..processors).map(|_| Processor::new()).collect(),
            pages,
            ports: vec![None; ports].into(),
            buffers: Buffers::new(ports, processors),
            timers: Timers::new(processors),
            moment: 0,
            next_ticket,
        }
    }

    pub fn processors(&self) -> u8 {
        self.processors.len() as u8
    }

    pub fn pages(&self) -> u8 {
        self.pages.count()
    }

    pub fn next(&self, vp: u8) -> Option<u8> {
        self.processors[vp as usize].lapic.next()
    }

    pub fn is_auto(&self, vp: u8, vector: u8) -> bool {
        self.processors[vp as usize].lapic.auto.contains(vector)
    }

    pub fn queued(&self, vp: u8, sint: u8) -> u16 {
        self.processors[vp as usize].chains[sint as usize].length
    }

    pub fn next_ticket(&self) -> u64 {
        self.next_ticket
    }

    pub fn owner(&self, page: u64) -> Owner {
        self.pages.owner(page)
    }

    pub fn earliest(&self) -> Option<(u128, u8)> {
        self.timers.earliest()
    }

    #[inline(always)]
    pub fn perform(&mut self, event: &Event, notices: &mut Notices) -> Reply {
        notices.clear();
        match *event {
            Event::OpenPort {
                port,
                vp,
                sint,
                shape,
            } => self.open_port(port, vp, sint, shape),
            Event::Write {
                vp,
                register,
                value,
            } => self.write(vp, register, value, notices),
            Event::Post {
                port,
                kind,
                payload,
            } => self.post(port, kind, payload, notices),
            Event::Signal { port, flag } => self.signal(port, flag, notices),
            Event::Assert { vp, vector } => self.request(vp, vector, notices),
            Event::Store {
                address,
                word,
                length,
            } => self.store(address, word, length, notices),
            Event::Load { address, length } => self.load(address, length),
            Event::Tick { moment } => self.tick(moment, notices),
            Event::Take { vp } => self.take(vp),
            Event::Suspend { vp } => self.suspend(vp),
            Event::Resume { vp } => self.resume(vp),
            Event::Reset { vp } => self.reset(vp, notices),
        }
    }

    fn request(&mut self, vp: u8, vector: u8, notices: &mut Notices) -> Reply {
        let Some(processor) = self.processors.get_mut(vp as usize) else {
            return Reply::Refused(Refusal::NoSuchProcessor);
        };
        processor.request(vp, vector, notices);
        Reply::Done
    }

    fn take(&mut self, vp: u8) -> Reply {
        match self.processors.get_mut(vp as usize) {
            Some(processor) => Reply::Taken(processor.lapic.take()),
            None => Reply::Refused(Refusal::NoSuchProcessor),
        }
    }

    #[inline(never)]
    fn open_port(&mut self, port: u8, vp: u8, sint: u8, shape: Shape) -> Reply {
        let fits = match shape {
            Shape::Messages { buffers } => (1..=16).contains(&buffers),
            Shape::Flags { base, count } => {
                count >= 1 && u32::from(base) + u32::from(count) <= 2048
            }
        };
        match self.ports.get_mut(port as usize) {
            None => Reply::Refused(Refusal::UnknownPort),
            Some(Some(_)) => Reply::Refused(Refusal::PortOpen),
            Some(_) if vp as usize >= self.processors.len() || sint > 15 || !fits => {
                Reply::Refused(Refusal::BadTarget)
            }
            Some(free) => {
                *free = Some(Port { vp, sint, shape });
                Reply::Done
            }
        }
    }

    #[inline(never)]
    fn write(&mut self, vp: u8, register: u32, value: u64, notices: &mut Notices) -> Reply {
        let Some(processor) = self.processors.get_mut(vp as usize) else {
            return Reply::Refused(Refusal::NoSuchProcessor);
        };
        match register {
            EOI => processor.lapic.end(),
            SCONTROL => processor.control = value,
            SIEFP => {
                processor.sief = value;
                if self.pages.is_sparse() {
                    return self.move_elsewhere(2 * vp + 1, value);
                }
                self.pages.move_sief(vp, value);
            }
            SIMP => {
                processor.sim = value;
                if self.pages.is_sparse() {
                    return self.move_elsewhere(2 * vp, value);
                }
                self.pages.move_sim(vp, value);
            }
            EOM => return self.try_sources(vp, notices),
            SINT0..=LAST_SINT => return processor.write_source((register - SINT0) as u8, value),
            STIMER0_CONFIG..=LAST_TIMER => {
                let place = (register - STIMER0_CONFIG) as u8;
                return self.write_timer(4 * vp + place / 2, place % 2 == 1, value, notices);
            }
            _ => return Reply::GeneralProtection,
        }
        Reply::Done
    }

    /// On a sparse board. Out of line, as its loads and stores are, so that other boards do not pay for
    /// them.
    #[inline(never)]
    fn move_elsewhere(&mut self, overlay: u8, register: u64) -> Reply {
        self.pages.move_elsewhere(overlay, register);
        Reply::Done
    }

    #[inline(never)]
    fn store(&mut self, address: u64, word: u64, length: u8, notices: &mut Notices) -> Reply {
        if self.pages.is_elsewhere(address) {
            return self.store_elsewhere(address, word, length, notices);
        }
        match self.pages.store(address, word, length) {
            Ok(None) => Reply::Done,
            Ok(Some((vp, sint))) => self.consume(vp, sint, notices),
            Err(refusal) => Reply::Refused(refusal),
        }
    }

    #[inline(never)]
    fn store_elsewhere(
        &mut self,
        address: u64,
        word: u64,
        length: u8,
        notices: &mut Notices,
    ) -> Reply {
        match self.pages.store_elsewhere(address, word, length) {
            Ok(None) => Reply::Done,
            Ok(Some((vp, sint))) => self.consume(vp, sint, notices),
            Err(refusal) => Reply::Refused(refusal),
        }
    }

    /// A store has written to the first four bytes of a slot.
    #[inline(always)]
    fn consume(&mut self, vp: u8, sint: u8, notices: &mut Notices) -> Reply {
        if is_empty(self.pages.slot(vp, sint)) {
            self.processors[vp as usize].consume(vp, sint, notices);
        }
        Reply::Done
    }

    fn load(&self, address: u64, length: u8) -> Reply {
        if self.pages.is_elsewhere(address) {
            return self.load_elsewhere(address, length);
        }
        match self.pages.load(address, length) {
            Ok(word) => Reply::Bytes { word, length },
            Err(refusal) => Reply::Refused(refusal),
        }
    }

    #[inline(never)]
    fn load_elsewhere(&self, address: u64, length: u8) -> Reply {
        match self.pages.load_elsewhere(address, length) {
            Ok(word) => Reply::Bytes { word, length },
            Err(refusal) => Reply::Refused(refusal),
        }
    }

    #[inline(never)]
    fn signal(&mut self, port: u8, flag: u16, notices: &mut Notices) -> Reply {
        let Some(&Some(Port { vp, sint, shape })) = self.ports.get(port as usize) else {
            return Reply::Refused(Refusal::UnknownPort);
        };
        let Shape::Flags { base, count } = shape else {
            return Reply::Refused(Refusal::WrongKind);
        };
        if flag >= count {
            return Reply::Refused(Refusal::BadFlag);
        }
        let processor = &mut self.processors[vp as usize];
        if processor.control & processor.sief & ENABLE == 0 {
            return Reply::Refused(Refusal::SynicOff);
        }
        let flag = base + flag;
        let byte = &mut self.pages.flags(vp, sint)[flag as usize / 8];
        let bit = 1 << (flag % 8);
        if *byte & bit != 0 {
            return Reply::FlagWasSet;
        }
        *byte |= bit;
        notices.push(Notice::FlagSet { vp, sint, flag });
        processor.raise(vp, sint, notices);
        Reply::FlagWasClear
    }

    #[inline(never)]
    fn post(&mut self, port: u8, kind: u32, payload: &[u8], notices: &mut Notices) -> Reply {
        let Some(&Some(Port { vp, sint, shape })) = self.ports.get(port as usize) else {
            return Reply::Refused(Refusal::UnknownPort);
        };
        let Shape::Messages { buffers } = shape else {
            return Reply::Refused(Refusal::WrongKind);
        };
        if kind == 0 || kind >= 1 << 31 {
            return Reply::Refused(Refusal::BadType);
        }
        if self.processors[vp as usize].control & ENABLE == 0 {
            return Reply::Refused(Refusal::SynicOff);
        }
        if self.buffers.used_by_port(port) >= buffers {
            return Reply::Refused(Refusal::NoBuffers);
        }
        if self.next_ticket == u64::MAX {
            return Reply::Refused(Refusal::TicketsSpent);
        }
        let message = Post {
            port,
            kind,
            payload,
        };
        Reply::Accepted(self.deliver(vp, sint, message, notices))
    }

    /// Places a message directly if the slot is empty and nothing is queued before it.
    #[inline(always)]
    fn deliver<M: Message>(&mut self, vp: u8, sint: u8, message: M, notices: &mut Notices) -> u64 {
        let ticket = self.next_ticket;
        self.next_ticket += 1;
        notices.push(Notice::Accepted { ticket, vp, sint });
        let processor = &mut self.processors[vp as usize];
        let slot = self.pages.slot(vp, sint);
        let is_queued = processor.queued >> sint & 1 == 1;
        if !is_queued && processor.control & processor.sim & ENABLE != 0 && is_empty(slot) {
            message.write(slot, self.moment);
            processor.hold(vp, sint, ticket, notices);
            processor.raise(vp, sint, notices);
        } else {
            processor.queued |= 1 << sint;
            let chain = &mut processor.chains[sint as usize];
            message.queue(&mut self.buffers, chain, ticket);
            self.try_source(vp, sint, notices);
        }
        ticket
    }

    fn try_sources(&mut self, vp: u8, notices: &mut Notices) -> Reply {
        let mut left = self.processors[vp as usize].queued;
        while left != 0 {
            self.try_source(vp, left.trailing_zeros() as u8, notices);
            left &= left - 1;
        }
        Reply::Done
    }

    /// Tries a source that has a queued message.
    fn try_source(&mut self, vp: u8, sint: u8, notices: &mut Notices) {
        let processor = &mut self.processors[vp as usize];
        if processor.control & processor.sim & ENABLE == 0 {
            return;
        }
        let slot = self.pages.slot(vp, sint);
        if !is_empty(slot) {
            if set_pending(slot) {
                notices.push(Notice::Pending { vp, sint });
            }
            return;
        }
        let chain = &mut processor.chains[sint as usize];
        let ticket = self.buffers.place(chain, slot, self.moment);
        let is_pending = chain.length != 0;
        processor.hold(vp, sint, ticket, notices);
        if is_pending {
            notices.push(Notice::Pending { vp, sint });
        } else {
            processor.queued &= !(1 << sint);
        }
        processor.raise(vp, sint, notices);
    }

    #[inline(never)]
    fn write_timer(
        &mut self,
        number: u8,
        is_count: bool,
        value: u64,
        notices: &mut Notices,
    ) -> Reply {
        if is_count {
            self.timers.write_count(number, value, self.moment);
        } else {
            self.timers.write_config(number, value, self.moment);
        }
        if self.timers.is_due(number, self.moment) {
            self.attempt(number, notices);
        }
        self.timers.update(number);
        Reply::Done
    }

    #[inline(never)]
    fn suspend(&mut self, vp: u8) -> Reply {
        let Some(processor) = self.processors.get_mut(vp as usize) else {
            return Reply::Refused(Refusal::NoSuchProcessor);
        };
        if !processor.lapic.suspend() {
            return Reply::Refused(Refusal::AlreadySuspended);
        }
        self.timers.hold(vp, true);
        Reply::Done
    }

    /// Tries no timer: one that became due during the suspension waits for the next tick.
    #[inline(never)]
    fn resume(&mut self, vp: u8) -> Reply {
        let Some(processor) = self.processors.get_mut(vp as usize) else {
            return Reply::Refused(Refusal::NoSuchProcessor);
        };
        if !processor.lapic.resume() {
            return Reply::Refused(Refusal::NotSuspended);
        }
        self.timers.hold(vp, false);
        Reply::Done
    }

    /// Withdraws the messages in slots and queues, and resets the processor.
    #[inline(never)]
    fn reset(&mut self, vp: u8, notices: &mut Notices) -> Reply {
        let Some(processor) = self.processors.get_mut(vp as usize) else {
            return Reply::Refused(Refusal::NoSuchProcessor);
        };
        for sint in 0..16 {
            processor.withdraw(vp, sint, &mut self.buffers, notices);
        }
        *processor = Processor::new();
        self.pages.clear(vp);
        self.timers.reset(vp);
        Reply::Done
    }

    /// Before the earliest deadline this does nothing. Each timer that is due is tried once, until 32
    /// have expired.
    #[inline(never)]
    fn tick(&mut self, moment: u64, notices: &mut Notices) -> Reply {
        if moment < self.moment {
            return Reply::Refused(Refusal::ClockBack);
        }
        if moment == self.moment {
            return Reply::Done;
        }
        self.moment = moment;
        let mut left = MOST_EXPIRIES;
        while let Some(number) = self.timers.first_due(moment) {
            left -= u32::from(self.attempt(number, notices));
            self.timers.settle(number, moment);
            if left == 0 {
                break;
            }
        }
        self.timers.bring_back();
        Reply::Done
    }

    /// A timer that is due expires, unless its last message is still queued. Returns whether it did.
    fn attempt(&mut self, number: u8, notices: &mut Notices) -> bool {
        let (vp, index) = (number / 4, number % 4);
        let config = self.timers.config(number);
        let is_direct = config & DIRECT != 0;
        let processor = &mut self.processors[vp as usize];
        if !is_direct
            && (processor.control & ENABLE == 0
                || self.buffers.timer_waits(number)
                || self.next_ticket == u64::MAX)
        {
            return false;
        }
        let Expiry { signal, skipped } = self.timers.expire(number, self.moment);
        let due = signal;
        notices.push(Notice::Expired { vp, index, due });
        if skipped > 0 {
            let count = skipped;
            notices.push(Notice::Skipped { vp, index, count });
        }
        if is_direct {
            processor.request(vp, vector_in(config), notices);
        } else {
            let message = Expiration {
                timer: number,
                moment: signal,
            };
            self.deliver(vp, source_in(config), message, notices);
        }
        true
    }
}
