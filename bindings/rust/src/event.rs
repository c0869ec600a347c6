//! The events of a board.

use crate::{sys, Moment, Port, Sint, Vector, Vp};
use core::fmt;
use core::ops::Deref;

/// An event of a board, for [`Board::perform`](crate::Board::perform).
///
/// Numbers of registers, flags, buffers and parts are plain integers, and the board refuses those that are out of
/// range, as it does ports and processors that it has not.
#[derive(Clone, Copy, PartialEq, Eq, Debug)]
// A payload is stored in its event, so an event needs no allocation.
#[allow(clippy::large_enum_variant)]
#[non_exhaustive]
pub enum Event {
    /// Opens a port to a source of a processor.
    OpenPort {
        /// The port.
        port: Port,
        /// The processor.
        vp: Vp,
        /// The source.
        sint: Sint,
        /// Its shape.
        shape: PortShape,
    },
    /// Closes a port.
    ClosePort {
        /// The port.
        port: Port,
    },
    /// A guest writes a register.
    Write {
        /// The processor.
        vp: Vp,
        /// The number of the register.
        register: u32,
        /// The value.
        value: u64,
    },
    /// A guest reads a register.
    Read {
        /// The processor.
        vp: Vp,
        /// The number of the register.
        register: u32,
    },
    /// Posts a message to a port.
    Post {
        /// The port.
        port: Port,
        /// The type of the message: not 0, and bit 31 is clear.
        kind: u32,
        /// Its payload.
        payload: PayloadBytes,
    },
    /// Signals an event flag of a port.
    Signal {
        /// The port.
        port: Port,
        /// The number of the flag within the port, from 0 on.
        flag: u16,
    },
    /// A device requests a vector at the local APIC of a processor.
    Assert {
        /// The processor.
        vp: Vp,
        /// The vector.
        vector: Vector,
    },
    /// Requests posted vectors at the local APIC of a processor.
    Absorb {
        /// The processor.
        vp: Vp,
        /// Which group of 64 vectors, 0 to 3.
        part: u8,
        /// Bit i is vector 64 * `part` + i. Vectors below 16 are ignored.
        bits: u64,
    },
    /// A guest stores bytes.
    Store {
        /// The guest physical address of the first byte.
        address: u64,
        /// The bytes: at least one, and all in one page.
        bytes: Bytes8,
    },
    /// A guest loads bytes.
    Load {
        /// The guest physical address of the first byte.
        address: u64,
        /// How many bytes: 1 to 8, all in one page.
        length: u8,
    },
    /// Moves the clock.
    Tick {
        /// The new time, in units of 100 ns, not before the present one.
        moment: Moment,
    },
    /// A processor takes its next vector.
    Take {
        /// The processor.
        vp: Vp,
    },
    /// Suspends a processor.
    Suspend {
        /// The processor.
        vp: Vp,
    },
    /// Resumes a suspended processor.
    Resume {
        /// The processor.
        vp: Vp,
    },
    /// Resets a processor.
    Reset {
        /// The processor.
        vp: Vp,
    },
    /// Sends an interrupt to several processors.
    Send {
        /// The vector.
        vector: Vector,
        /// The processors: bit p is processor p.
        mask: u64,
    },
}

const NO_NUMBERS: sys::synicboard_event = sys::synicboard_event {
    kind: 0,
    vp: 0,
    sint: 0,
    port: 0,
    buffers: 0,
    vector: 0,
    part: 0,
    length: 0,
    flag: 0,
    count: 0,
    msr: 0,
    message_type: 0,
    value: 0,
    address: 0,
    moment: 0,
    bytes: [0; 240],
};

/// A C event of this kind, with these fields.
macro_rules! plain {
    ($kind:ident $(, $field:ident: $value:expr)*) => {
        sys::synicboard_event { kind: sys::$kind, $($field: $value,)* ..NO_NUMBERS }
    };
}

impl Event {
    /// The C struct that encodes this event.
    pub(crate) fn to_plain(self) -> sys::synicboard_event {
        match self {
            Event::OpenPort { port, vp, sint, shape } => {
                let (port, vp, sint) = (port.number(), vp.number(), sint.number());
                sys::synicboard_event { port, vp, sint, ..shape.to_plain() }
            }
            Event::ClosePort { port } => plain!(SYNICBOARD_CLOSE_PORT, port: port.number()),
            Event::Write { vp, register, value } => {
                plain!(SYNICBOARD_WRITE, vp: vp.number(), msr: register, value: value)
            }
            Event::Read { vp, register } => plain!(SYNICBOARD_READ, vp: vp.number(), msr: register),
            Event::Post { port, kind, payload } => {
                let (length, bytes) = payload.padded();
                plain!(SYNICBOARD_POST, port: port.number(), message_type: kind, length: length, bytes: bytes)
            }
            Event::Signal { port, flag } => plain!(SYNICBOARD_SIGNAL, port: port.number(), flag: flag),
            Event::Assert { vp, vector } => {
                plain!(SYNICBOARD_ASSERT, vp: vp.number(), vector: vector.number())
            }
            Event::Absorb { vp, part, bits } => {
                plain!(SYNICBOARD_ABSORB, vp: vp.number(), part: part, value: bits)
            }
            Event::Store { address, bytes } => {
                let (length, bytes) = bytes.padded();
                plain!(SYNICBOARD_STORE, address: address, length: length, bytes: bytes)
            }
            Event::Load { address, length } => plain!(SYNICBOARD_LOAD, address: address, length: length),
            Event::Tick { moment } => plain!(SYNICBOARD_TICK, moment: moment),
            Event::Take { vp } => plain!(SYNICBOARD_TAKE, vp: vp.number()),
            Event::Suspend { vp } => plain!(SYNICBOARD_SUSPEND, vp: vp.number()),
            Event::Resume { vp } => plain!(SYNICBOARD_RESUME, vp: vp.number()),
            Event::Reset { vp } => plain!(SYNICBOARD_RESET, vp: vp.number()),
            Event::Send { vector, mask } => plain!(SYNICBOARD_SEND, vector: vector.number(), value: mask),
        }
    }
}

/// The shape of a port.
#[derive(Clone, Copy, PartialEq, Eq, Hash, Debug)]
pub enum PortShape {
    /// Messages.
    Messages {
        /// How many may be queued at once, 1 to 16.
        buffers: u8,
    },
    /// Event flags.
    Flags {
        /// The first flag.
        base: u16,
        /// How many flags: at least one, and `base` + `count` is at most 2048.
        count: u16,
    },
}

impl PortShape {
    /// The C struct that encodes opening a port of this shape.
    fn to_plain(self) -> sys::synicboard_event {
        match self {
            PortShape::Messages { buffers } => plain!(SYNICBOARD_OPEN_MESSAGE_PORT, buffers: buffers),
            PortShape::Flags { base, count } => plain!(SYNICBOARD_OPEN_EVENT_PORT, flag: base, count: count),
        }
    }
}

/// The payload of a message, at most 240 bytes.
pub type PayloadBytes = Bytes<240>;

/// The bytes of a load or a store, at most 8.
pub type Bytes8 = Bytes<8>;

/// At most `MOST` bytes, stored inline. Dereferences to the slice of those that are used.
#[derive(Clone, Copy, PartialEq, Eq, Hash)]
pub struct Bytes<const MOST: usize> {
    length: usize,
    // Zeros after `length`, so that derived equality compares the bytes.
    room: [u8; MOST],
}

impl<const MOST: usize> Bytes<MOST> {
    /// A copy of these bytes; `None` if there are more than `MOST`.
    pub fn new(bytes: &[u8]) -> Option<Self> {
        let mut room = [0; MOST];
        room.get_mut(..bytes.len())?.copy_from_slice(bytes);
        Some(Bytes { length: bytes.len(), room })
    }

    /// The bytes.
    pub fn as_slice(&self) -> &[u8] {
        &self.room[..self.length]
    }

    /// The length, and the bytes padded with zeros to `ROOM`.
    pub(crate) fn padded<const ROOM: usize>(&self) -> (u8, [u8; ROOM]) {
        let mut room = [0; ROOM];
        room[..self.length].copy_from_slice(self);
        (self.length as u8, room)
    }
}

impl<const MOST: usize> Deref for Bytes<MOST> {
    type Target = [u8];

    fn deref(&self) -> &[u8] {
        self.as_slice()
    }
}

impl<const MOST: usize> fmt::Debug for Bytes<MOST> {
    fn fmt(&self, formatter: &mut fmt::Formatter<'_>) -> fmt::Result {
        self.as_slice().fmt(formatter)
    }
}
