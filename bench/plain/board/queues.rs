//! Messages: their images, the buffers, and the chains of buffers that form queues.

use super::pages::SLOT;

pub type Image = [u8; SLOT];

/// The type of a timer's message, and the length of its payload.
const TIMER_HEADER: u64 = 0x8000_0010 | 24 << 32;
const PAYLOAD: usize = 16;
const EXPIRATION: usize = 24;
const DELIVERY: usize = 32;
const MESSAGE_FLAGS: usize = 5;
const PENDING: u8 = 1;

/// The buffers of a port.
const PORT_BUFFERS: usize = 16;

pub fn is_empty(slot: &Image) -> bool {
    slot[..4] == [0; 4]
}

/// Returns whether MessagePending was clear.
pub fn set_pending(slot: &mut Image) -> bool {
    let was_clear = slot[MESSAGE_FLAGS] & PENDING == 0;
    slot[MESSAGE_FLAGS] |= PENDING;
    was_clear
}

/// A message to deliver to a source.
pub trait Message {
    /// Writes the image into an empty slot.
    fn write(self, slot: &mut Image, moment: u64);

    /// Writes the image into a buffer, and appends it to a queue.
    fn queue(self, buffers: &mut Buffers, chain: &mut Chain, ticket: u64);
}

pub struct Post<'a> {
    pub port: u8,
    pub kind: u32,
    pub payload: &'a [u8],
}

impl Message for Post<'_> {
    #[inline(always)]
    fn write(self, slot: &mut Image, _moment: u64) {
        let kind_and_length = u64::from(self.kind) | (self.payload.len() as u64) << 32;
        write_words(slot, [kind_and_length, self.port.into()]);
        slot[PAYLOAD..][..self.payload.len()].copy_from_slice(self.payload);
    }

    fn queue(self, buffers: &mut Buffers, chain: &mut Chain, ticket: u64) {
        let used = &mut buffers.used[self.port as usize];
        let free = used.trailing_ones() as usize;
        *used |= 1 << free;
        let number = buffers.first_of_ports + PORT_BUFFERS * self.port as usize + free;
        self.write(&mut buffers.buffers[number].image, 0);
        buffers.append(chain, number, ticket);
    }
}

pub struct Expiration {
    pub timer: u8,
    pub moment: u64,
}

impl Message for Expiration {
    #[inline(always)]
    fn write(self, slot: &mut Image, moment: u64) {
        let index = u64::from(self.timer % 4);
        write_words(slot, [TIMER_HEADER, 0, index, self.moment, moment]);
    }

    fn queue(self, buffers: &mut Buffers, chain: &mut Chain, ticket: u64) {
        let number = self.timer as usize;
        buffers.waits[number] = true;
        write_moment(&mut buffers.buffers[number].image, EXPIRATION, self.moment);
        buffers.append(chain, number, ticket);
    }
}

/// Writes the first words of an image and zeros after them.
#[inline(always)]
fn write_words<const N: usize>(image: &mut Image, words: [u64; N]) {
    let (front, back) = image.split_at_mut(8 * N);
    for (bytes, word) in front.as_chunks_mut().0.iter_mut().zip(words) {
        *bytes = word.to_le_bytes();
    }
    back.fill(0);
}

fn write_moment(image: &mut Image, at: usize, moment: u64) {
    image[at..at + 8].copy_from_slice(&moment.to_le_bytes());
}

/// A queue, by the numbers of its buffers.
#[derive(Clone, Copy, Default)]
pub struct Chain {
    head: u16,
    tail: u16,
    pub length: u16,
}

/// A queued message, without the delivery time and MessagePending.
#[derive(Clone)]
#[repr(align(64))]
struct Buffer {
    image: Image,
    ticket: u64,
    /// The next buffer in its queue.
    next: u16,
}

/// One buffer for each timer, then sixteen for each port.
pub struct Buffers {
    buffers: Box<[Buffer]>,
    first_of_ports: usize,
    /// Which timers' buffers are in use, and which of the sixteen of each port: for the most timers and
    /// ports, so that no index has to be checked.
    waits: [bool; 256],
    used: [u16; 256],
}

impl Buffers {
    /// A timer's buffer holds what is the same in each of its messages.
    pub fn new(ports: usize, processors: u8) -> Buffers {
        let first_of_ports = 4 * processors as usize;
        let buffer = Buffer {
            image: [0; SLOT],
            ticket: 0,
            next: 0,
        };
        let mut buffers = vec![buffer; first_of_ports + PORT_BUFFERS * ports];
        for (timer, buffer) in buffers[..first_of_ports].iter_mut().enumerate() {
            let timer = timer as u8;
            Expiration { timer, moment: 0 }.write(&mut buffer.image, 0);
        }
        Buffers {
            buffers: buffers.into(),
            first_of_ports,
            waits: [false; 256],
            used: [0; 256],
        }
    }

    pub fn used_by_port(&self, port: u8) -> u8 {
        self.used[port as usize].count_ones() as u8
    }

    pub fn timer_waits(&self, timer: u8) -> bool {
        self.waits[timer as usize]
    }

    fn append(&mut self, chain: &mut Chain, number: usize, ticket: u64) {
        self.buffers[number].ticket = ticket;
        if chain.length == 0 {
            chain.head = number as u16;
        } else {
            self.buffers[chain.tail as usize].next = number as u16;
        }
        chain.tail = number as u16;
        chain.length += 1;
    }

    fn release_of_port(&mut self, number: usize) {
        let number = number - self.first_of_ports;
        self.used[number / PORT_BUFFERS % 256] &= !(1 << (number % PORT_BUFFERS));
    }

    /// Removes the head of a queue that is not empty, and returns its ticket.
    pub fn withdraw(&mut self, chain: &mut Chain) -> u64 {
        let number = chain.head as usize;
        let buffer = &self.buffers[number];
        let ticket = buffer.ticket;
        chain.head = buffer.next;
        chain.length -= 1;
        if number < self.first_of_ports {
            self.waits[number % 256] = false;
        } else {
            self.release_of_port(number);
        }
        ticket
    }

    /// Moves the head of a queue that is not empty to an empty slot, and returns its ticket.
    pub fn place(&mut self, chain: &mut Chain, slot: &mut Image, moment: u64) -> u64 {
        let number = chain.head as usize;
        let buffer = &self.buffers[number];
        let ticket = buffer.ticket;
        chain.head = buffer.next;
        chain.length -= 1;
        *slot = buffer.image;
        slot[MESSAGE_FLAGS] = (chain.length != 0).into();
        if number < self.first_of_ports {
            write_moment(slot, DELIVERY, moment);
            self.waits[number % 256] = false;
        } else {
            self.release_of_port(number);
        }
        ticket
    }
}
