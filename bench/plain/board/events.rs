//! Events, replies and notices.

pub const EOI: u32 = 0x4000_0070;
pub const SCONTROL: u32 = 0x4000_0080;
pub const SIEFP: u32 = 0x4000_0082;
pub const SIMP: u32 = 0x4000_0083;
pub const EOM: u32 = 0x4000_0084;
pub const SINT0: u32 = 0x4000_0090;
pub const STIMER0_CONFIG: u32 = 0x4000_00b0;
pub const LAST_SINT: u32 = SINT0 + 15;
pub const LAST_TIMER: u32 = STIMER0_CONFIG + 7;

/// An upper bound of the notices of one event.
const MOST_NOTICES: usize = 320;

#[derive(Clone, Copy, PartialEq)]
pub enum Shape {
    Messages { buffers: u8 },
    Flags { base: u16, count: u16 },
}

/// An event borrows its payload. The bytes of a store are one word, zero beyond its length.
#[derive(Clone, Copy, PartialEq)]
pub enum Event<'a> {
    OpenPort {
        port: u8,
        vp: u8,
        sint: u8,
        shape: Shape,
    },
    Write {
        vp: u8,
        register: u32,
        value: u64,
    },
    Post {
        port: u8,
        kind: u32,
        payload: &'a [u8],
    },
    Signal {
        port: u8,
        flag: u16,
    },
    Assert {
        vp: u8,
        vector: u8,
    },
    Store {
        address: u64,
        word: u64,
        length: u8,
    },
    Load {
        address: u64,
        length: u8,
    },
    Tick {
        moment: u64,
    },
    Take {
        vp: u8,
    },
    Suspend {
        vp: u8,
    },
    Resume {
        vp: u8,
    },
    Reset {
        vp: u8,
    },
}

#[derive(Clone, Copy, PartialEq)]
pub enum Refusal {
    UnknownPort = 1,
    PortOpen = 2,
    WrongKind = 3,
    BadTarget = 4,
    BadType = 5,
    BadFlag = 6,
    SynicOff = 7,
    NoBuffers = 8,
    TicketsSpent = 9,
    ClockBack = 10,
    OutsideSpace = 11,
    CrossesPage = 12,
    BadLength = 13,
    NoSuchProcessor = 14,
    AlreadySuspended = 15,
    NotSuspended = 16,
    Elsewhere = 17,
}

#[derive(Clone, Copy, PartialEq)]
pub enum Reply {
    Done,
    /// One word, zero beyond its length.
    Bytes {
        word: u64,
        length: u8,
    },
    Taken(Option<u8>),
    Accepted(u64),
    FlagWasClear,
    FlagWasSet,
    GeneralProtection,
    Refused(Refusal),
}

#[derive(Clone, Copy)]
pub enum Notice {
    Accepted { ticket: u64, vp: u8, sint: u8 },
    Placed { ticket: u64, vp: u8, sint: u8 },
    Pending { vp: u8, sint: u8 },
    Requested { vp: u8, vector: u8 },
    FlagSet { vp: u8, sint: u8, flag: u16 },
    Consumed { ticket: u64, vp: u8, sint: u8 },
    Withdrawn { ticket: u64, vp: u8, sint: u8 },
    Expired { vp: u8, index: u8, due: u64 },
    Skipped { vp: u8, index: u8, count: u64 },
}

/// Buffer for the notices of one event, allocated once.
pub struct Notices {
    room: [Notice; MOST_NOTICES],
    length: usize,
}

impl Notices {
    pub fn new() -> Notices {
        Notices {
            room: [Notice::Pending { vp: 0, sint: 0 }; MOST_NOTICES],
            length: 0,
        }
    }

    pub fn clear(&mut self) {
        self.length = 0;
    }

    pub fn push(&mut self, notice: Notice) {
        self.room[self.length] = notice;
        self.length += 1;
    }

    pub fn as_slice(&self) -> &[Notice] {
        &self.room[..self.length]
    }
}

#[derive(Clone, Copy)]
pub enum Owner {
    Guest,
    Sim(u8),
    Sief(u8),
}
