//! Register numbers, by their names in the TLFS (`HV_X64_MSR_..`).

use crate::sys;

/// The partition reference counter, in units of 100 ns.
pub const TIME_REF_COUNT: u32 = sys::SYNICBOARD_MSR_TIME_REF_COUNT;
/// End of interrupt.
pub const EOI: u32 = sys::SYNICBOARD_MSR_EOI;
/// Task priority.
pub const TPR: u32 = sys::SYNICBOARD_MSR_TPR;
/// SynIC control.
pub const SCONTROL: u32 = sys::SYNICBOARD_MSR_SCONTROL;
/// SynIC version.
pub const SVERSION: u32 = sys::SYNICBOARD_MSR_SVERSION;
/// Event flags page.
pub const SIEFP: u32 = sys::SYNICBOARD_MSR_SIEFP;
/// Message page.
pub const SIMP: u32 = sys::SYNICBOARD_MSR_SIMP;
/// End of message.
pub const EOM: u32 = sys::SYNICBOARD_MSR_EOM;
/// The first synthetic interrupt source; SINT1 to SINT15 follow.
pub const SINT0: u32 = sys::SYNICBOARD_MSR_SINT0;
/// The configuration of the first timer. Each next timer is two numbers higher.
pub const STIMER0_CONFIG: u32 = sys::SYNICBOARD_MSR_STIMER0_CONFIG;
/// The count of the first timer. Each next timer is two numbers higher.
pub const STIMER0_COUNT: u32 = sys::SYNICBOARD_MSR_STIMER0_COUNT;
