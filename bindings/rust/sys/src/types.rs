//! The structs of the header, and closed handles.

use core::ffi::c_void;
use core::ptr;

/// A handle of a board. It may be moved but not copied; its fields are private to the library.
#[repr(C)]
#[derive(Debug)]
pub struct synicboard {
    /// Address of the board.
    pub at: *mut c_void,
    /// Whether it is open.
    pub is_open: bool,
}

/// A closed handle of a board.
pub const SYNICBOARD_CLOSED: synicboard = synicboard { at: ptr::null_mut(), is_open: false };

/// A reply. Fields that its kind does not use are 0.
#[repr(C)]
#[derive(Clone, Copy, PartialEq, Eq, Debug, Default)]
pub struct synicboard_reply {
    /// The kind of reply.
    pub kind: u8,
    /// Why no event was performed.
    pub fault: u8,
    /// Why the event was refused.
    pub refusal: u8,
    /// The vector that was taken.
    pub vector: u8,
    /// How many of `bytes` were loaded.
    pub length: u8,
    /// How many notices the event emitted.
    pub notices: u16,
    /// The value of the register.
    pub value: u64,
    /// The ticket of the message.
    pub ticket: u64,
    /// The bytes of a load.
    pub bytes: [u8; 8],
}

/// An event. Fields that its kind does not use are ignored.
#[repr(C)]
#[derive(Clone, Copy, PartialEq, Eq, Debug)]
pub struct synicboard_event {
    /// The kind of event.
    pub kind: u8,
    /// The processor.
    pub vp: u8,
    /// The source of a port to open.
    pub sint: u8,
    /// The port.
    pub port: u8,
    /// The buffers of a message port.
    pub buffers: u8,
    /// The vector to assert or to send, from 16 on.
    pub vector: u8,
    /// Which group of 64 vectors to absorb.
    pub part: u8,
    /// How many of `bytes` are posted or stored, or how many bytes to load.
    pub length: u8,
    /// The flag to signal, or the base of a port.
    pub flag: u16,
    /// How many flags a port has.
    pub count: u16,
    /// The register.
    pub msr: u32,
    /// The type of a message.
    pub message_type: u32,
    /// The value to write, the bits to absorb, or the mask of the processors to send to.
    pub value: u64,
    /// The guest physical address of a store or a load.
    pub address: u64,
    /// The new time of a tick, in units of 100 ns.
    pub moment: u64,
    /// The payload of a message, or the bytes to store.
    pub bytes: [u8; 240],
}

/// A notice. Fields that its kind does not use are 0.
#[repr(C)]
#[derive(Clone, Copy, PartialEq, Eq, Debug)]
pub struct synicboard_notice {
    /// The kind of notice.
    pub kind: u8,
    /// The processor.
    pub vp: u8,
    /// The source.
    pub sint: u8,
    /// The vector that was requested.
    pub vector: u8,
    /// The timer of the processor, 0 to 3.
    pub timer: u8,
    /// The flag that was set.
    pub flag: u16,
    /// The ticket of the message.
    pub ticket: u64,
    /// The deadline at which the timer was due, in units of 100 ns.
    pub due: u64,
    /// How many deadlines the timer skipped.
    pub count: u64,
}

/// The result of a batch.
#[repr(C)]
#[derive(Clone, Copy, PartialEq, Eq, Debug)]
pub struct synicboard_batch {
    /// Why it stopped.
    pub end: u8,
    /// How many events it performed.
    pub done: usize,
    /// How many notices they emitted.
    pub emitted: usize,
}

/// When a host must tick next, if `is_set`.
#[repr(C)]
#[derive(Clone, Copy, PartialEq, Eq, Debug)]
pub struct synicboard_next_tick {
    /// Whether any later tick makes a timer expire.
    pub is_set: bool,
    /// The time of the first such tick, in units of 100 ns.
    pub moment: u64,
}

/// What became of an event, and what the host has to do next.
#[repr(C)]
#[derive(Clone, Copy, PartialEq, Eq, Debug)]
pub struct synicboard_answer {
    /// The reply to the event.
    pub reply: synicboard_reply,
    /// How many notices the clock and the event emitted.
    pub notices: usize,
    /// The processors of which the board performed an EOM after it moved the clock: bit p for processor p.
    pub clock_eoms: u64,
    /// The same after the event.
    pub eoms: u64,
    /// The processors that have a next vector.
    pub next: u64,
    /// Those in `assisted` of which an EOI is required.
    pub end_assist: u64,
    /// When the host must tick next.
    pub alarm: synicboard_next_tick,
}

/// A handle of a line. It may be moved but not copied; its fields are private to the library.
#[repr(C)]
#[derive(Debug)]
pub struct synicboard_line {
    /// Address of the line.
    pub at: *mut c_void,
    /// Whether it is open.
    pub is_open: bool,
}

/// A closed handle of a line.
pub const SYNICBOARD_LINE_CLOSED: synicboard_line = synicboard_line { at: ptr::null_mut(), is_open: false };

/// A port; all 0 if it is closed.
#[repr(C)]
#[derive(Clone, Copy, PartialEq, Eq, Debug)]
pub struct synicboard_port_state {
    /// `SYNICBOARD_PORT_..`.
    pub kind: u8,
    /// The processor.
    pub vp: u8,
    /// The source.
    pub sint: u8,
    /// The buffers of a port for messages.
    pub buffers: u8,
    /// The first event flag.
    pub base: u16,
    /// How many event flags there are.
    pub count: u16,
}

/// A local APIC. Bit i of word k is vector 64 * k + i.
#[repr(C)]
#[derive(Clone, Copy, PartialEq, Eq, Debug)]
pub struct synicboard_local_apic {
    /// The requests (IRR).
    pub requested: [u64; 4],
    /// The vectors in service (ISR).
    pub in_service: [u64; 4],
    /// The task priority (TPR).
    pub task_priority: u8,
    /// The processor priority (PPR).
    pub processor_priority: u8,
    /// Whether the processor is suspended.
    pub is_suspended: bool,
}

/// What a processor forwards to a local APIC outside the board. Bit i of word k is vector 64 * k + i.
#[repr(C)]
#[derive(Clone, Copy, PartialEq, Eq, Debug)]
pub struct synicboard_forwarded {
    /// All of them.
    pub vectors: [u64; 4],
    /// Those that are auto-EOI on the processor.
    pub auto_eoi: [u64; 4],
}

/// A timer: its registers and its deadline.
#[repr(C)]
#[derive(Clone, Copy, PartialEq, Eq, Debug)]
pub struct synicboard_timer_state {
    /// Whether the timer has a deadline.
    pub is_due: bool,
    /// STIMERn_CONFIG.
    pub config: u64,
    /// STIMERn_COUNT.
    pub count: u64,
    /// The deadline, modulo 2^64.
    pub low: u64,
    /// The deadline, divided by 2^64.
    pub high: u64,
}

/// Which page a guest sees.
#[repr(C)]
#[derive(Clone, Copy, PartialEq, Eq, Debug)]
pub struct synicboard_page_owner {
    /// The kind of owner.
    pub kind: u8,
    /// The processor of a message or event flags page.
    pub vp: u8,
}

/// A page at which a guest sees an overlay.
#[repr(C)]
#[derive(Clone, Copy, PartialEq, Eq, Debug)]
pub struct synicboard_overlay {
    /// The owner; of kind `SYNICBOARD_OWNER_NOTHING` if there is none.
    pub owner: synicboard_page_owner,
    /// The page number.
    pub page: u64,
}

/// The earliest deadline of a timer, if `is_due`: high * 2^64 + low.
#[repr(C)]
#[derive(Clone, Copy, PartialEq, Eq, Debug)]
pub struct synicboard_due {
    /// Whether any timer has a deadline.
    pub is_due: bool,
    /// The processor.
    pub vp: u8,
    /// Its timer, 0 to 3.
    pub timer: u8,
    /// The low 64 bits of the deadline, in units of 100 ns.
    pub low: u64,
    /// The high bits.
    pub high: u64,
}

/// The next vector of each processor, 0 if it has none, and the earliest deadline.
#[repr(C)]
#[derive(Clone, Copy, PartialEq, Eq, Debug)]
pub struct synicboard_view {
    /// The next vectors.
    pub next: [u8; 8],
    /// The earliest deadline.
    pub earliest: synicboard_due,
}

/// The next vector of each of up to 64 processors, 0 if it has none, and the earliest deadline.
#[repr(C)]
#[derive(Clone, Copy, PartialEq, Eq, Debug)]
pub struct synicboard_wide_view {
    /// The next vectors.
    pub next: [u8; 64],
    /// The earliest deadline.
    pub earliest: synicboard_due,
}

/// What differs in a wide view.
#[repr(C)]
#[derive(Clone, Copy, PartialEq, Eq, Debug)]
pub struct synicboard_changes {
    /// Bit p for the next vector of processor p.
    pub next: u64,
    /// Whether the earliest deadline differs.
    pub earliest: bool,
}

/// Which page a guest sees at each page number.
#[repr(C)]
#[derive(Clone, Copy, PartialEq, Eq, Debug)]
pub struct synicboard_owners {
    /// The owners.
    pub page: [synicboard_page_owner; 64],
}

/// A reference TSC page; all 0 if there is none.
#[repr(C)]
#[derive(Clone, Copy, PartialEq, Eq, Debug)]
pub struct synicboard_tsc_page {
    /// TscScale.
    pub scale: u64,
    /// TscOffset, in two's complement.
    pub offset: u64,
}

/// The result of a call that writes a text.
#[repr(C)]
#[derive(Clone, Copy, PartialEq, Eq, Debug)]
pub struct synicboard_end {
    /// How the call ended.
    pub kind: u8,
    /// The first wrong line, counted from 1.
    pub line: u64,
    /// The length of the whole text in bytes, even if it did not fit.
    pub length: usize,
}

/// The result of a check.
#[repr(C)]
#[derive(Clone, Copy, PartialEq, Eq, Debug)]
pub struct synicboard_verdict {
    /// How the check ended.
    pub kind: u8,
    /// The entries of the legal history.
    pub entries: u64,
    /// The first wrong line, counted from 1.
    pub line: u64,
}

/// A handle of a shared board. It may be moved but not copied; its fields are private to the
/// library.
#[repr(C)]
#[derive(Debug)]
pub struct synicboard_shared {
    /// Address of the shared board.
    pub at: *mut c_void,
    /// Whether it is open.
    pub is_open: bool,
}

/// A closed handle of a shared board.
pub const SYNICBOARD_SHARED_CLOSED: synicboard_shared =
    synicboard_shared { at: ptr::null_mut(), is_open: false };

/// The result of settling a history.
#[repr(C)]
#[derive(Clone, Copy, PartialEq, Eq, Debug)]
pub struct synicboard_settled {
    /// `SYNICBOARD_OK` if the trace was written.
    pub kind: u8,
    /// The entries of the legal history.
    pub entries: u64,
    /// 0: no line is wrong.
    pub line: u64,
    /// The length of the whole trace in bytes, even if it did not fit.
    pub length: usize,
}
