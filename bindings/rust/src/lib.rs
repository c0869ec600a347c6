//! The interrupt side of a Hyper-V-like partition: local APICs, the synthetic interrupt controller
//! with its message and event flags pages, ports, message queues and synthetic timers, for 1 to 64
//! processors.
//!
//! These are bindings for the C library `libsynicboard.a`, whose code is proved to meet the
//! specification that `docs/MACHINE.md` states in words. The host performs events on a [`Board`],
//! which returns a [`Reply`] and emits [`Notices`]. On a [`LiveBoard`] a running guest uses
//! its message and event flags pages at the same time. The board has no clock, no thread and no
//! callback. Threads that share a board put it in a `Mutex<Board>`; a [`RecordedBoard`] has a lock
//! and also records its history, for traces. Devices raise vectors without the lock through a [`Line`].
//! `docs/EMBEDDING.md` describes the run loop of a host, and `examples/rust/loop.rs` is one.
//!
//! Times are in units of 100 ns. A processor is a [`Vp`], a source a [`Sint`], a port a [`Port`], a ticket a
//! [`Ticket`] and a vector a [`Vector`], so none of them passes for another. Registers, flags and pages are plain
//! integers, which the board checks.
//!
//! The crate [`sys`] (`synicboard-sys`) has the declarations of the C header and links the library, from the folder
//! that the environment variable `SYNICBOARD_LIB_DIR` names when it is built, absolute or relative to the folder of
//! this crate; or else from `build` at the root of the repository; or else from where pkg-config finds it. If the
//! library has another version than the crate, and returns a value that the crate does not know, the call panics.

#![no_std]
#![deny(missing_docs)]
#![forbid(unsafe_op_in_unsafe_fn)]
#![deny(clippy::undocumented_unsafe_blocks)]

extern crate alloc;

mod answer;
mod board;
mod event;
mod faults;
mod line;
mod live;
pub mod msr;
mod notice;
mod queries;
mod recorded;
mod reply;
mod terms;
mod text;
mod tsc;
mod view;

pub use answer::{Answer, AnswerRoom};
pub use board::{Board, Forwarded, PAGE_BYTES};
pub use event::{Bytes, Bytes8, Event, PayloadBytes, PortShape};
pub use faults::{OpenFault, RestoreFault};
pub use line::{Line, Raised, SplitFault};
pub use live::{LiveBoard, LiveReply};
pub use notice::{Notice, Notices, MOST_NOTICES};
pub use queries::{LocalApic, Timer};
pub use recorded::{NoEntry, NoticeRoom, RecordedBoard, Settled};
pub use reply::{EventFault, Refusal, Reply};
pub use synicboard_sys as sys;
pub use terms::{Moment, NumberFault, OutOfRange, Owner, Port, Sint, Ticket, TimerId, Vector, Vp};
pub use text::{check, format_entry, replay, End, FormatFault, Verdict};
pub use tsc::TscPage;
pub use view::{Changes, Owners, View, WideChanges, WideView};

/// Panics if the library that runs is of another major version than this crate, or older: its structs may differ.
fn same_library() {
    let ours = 10_000 * sys::SYNICBOARD_VERSION_MAJOR
        + 100 * sys::SYNICBOARD_VERSION_MINOR
        + sys::SYNICBOARD_VERSION_PATCH;
    // SAFETY: it takes nothing and changes nothing.
    let theirs = unsafe { sys::synicboard_version() };
    let is_same = theirs / 10_000 == sys::SYNICBOARD_VERSION_MAJOR && theirs >= ours;
    assert!(is_same, "libsynicboard is of version {theirs}, and this crate is of version {ours}");
}

/// Panics: the library returned a value that its header does not have, so their versions differ.
#[cold]
fn beyond_the_header(answer: &dyn core::fmt::Debug) -> ! {
    panic!("libsynicboard is not the one of this crate: {answer:?}")
}
