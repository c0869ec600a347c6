//! The crate does not compile if a struct has another layout than in C on x86-64.

use crate::types::*;
use core::mem::offset_of;

/// For each struct its size, its alignment, and the offset of each field, in bytes.
macro_rules! layouts {
    ($($kind:ident: $size:literal, $alignment:literal { $($field:ident: $at:literal),+ $(,)? })+) => {
        $(
            const _: () = assert!(size_of::<$kind>() == $size && align_of::<$kind>() == $alignment);
            $(const _: () = assert!(offset_of!($kind, $field) == $at);)+
        )+
    };
}

layouts! {
    synicboard: 16, 8 { at: 0, is_open: 8 }
    synicboard_reply: 32, 8 {
        kind: 0, fault: 1, refusal: 2, vector: 3, length: 4, notices: 6, value: 8, ticket: 16, bytes:
        24,
    }
    synicboard_event: 288, 8 {
        kind: 0, vp: 1, sint: 2, port: 3, buffers: 4, vector: 5, part: 6, length: 7, flag: 8, count:
        10, msr: 12, message_type: 16, value: 24, address: 32, moment: 40, bytes: 48,
    }
    synicboard_notice: 32, 8 {
        kind: 0, vp: 1, sint: 2, vector: 3, timer: 4, flag: 6, ticket: 8, due: 16, count: 24,
    }
    synicboard_batch: 24, 8 { end: 0, done: 8, emitted: 16 }
    synicboard_next_tick: 16, 8 { is_set: 0, moment: 8 }
    synicboard_answer: 88, 8 {
        reply: 0, notices: 32, clock_eoms: 40, eoms: 48, next: 56, end_assist: 64, alarm: 72,
    }
    synicboard_line: 16, 8 { at: 0, is_open: 8 }
    synicboard_port_state: 8, 2 { kind: 0, vp: 1, sint: 2, buffers: 3, base: 4, count: 6 }
    synicboard_local_apic: 72, 8 {
        requested: 0, in_service: 32, task_priority: 64, processor_priority: 65, is_suspended: 66,
    }
    synicboard_forwarded: 64, 8 { vectors: 0, auto_eoi: 32 }
    synicboard_timer_state: 40, 8 { is_due: 0, config: 8, count: 16, low: 24, high: 32 }
    synicboard_page_owner: 2, 1 { kind: 0, vp: 1 }
    synicboard_overlay: 16, 8 { owner: 0, page: 8 }
    synicboard_due: 24, 8 { is_due: 0, vp: 1, timer: 2, low: 8, high: 16 }
    synicboard_view: 32, 8 { next: 0, earliest: 8 }
    synicboard_wide_view: 88, 8 { next: 0, earliest: 64 }
    synicboard_changes: 16, 8 { next: 0, earliest: 8 }
    synicboard_owners: 128, 1 { page: 0 }
    synicboard_tsc_page: 16, 8 { scale: 0, offset: 8 }
    synicboard_end: 24, 8 { kind: 0, line: 8, length: 16 }
    synicboard_verdict: 24, 8 { kind: 0, entries: 8, line: 16 }
    synicboard_shared: 16, 8 { at: 0, is_open: 8 }
    synicboard_settled: 32, 8 { kind: 0, entries: 8, line: 16, length: 24 }
}
