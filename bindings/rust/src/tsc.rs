//! The reference TSC page.

use crate::sys::{
    synicboard_tsc_page, synicboard_tsc_page_at, synicboard_tsc_page_moved, synicboard_tsc_time,
    synicboard_tsc_until,
};
use crate::terms::Moment;

/// What a guest computes the reference time with (TLFS, "Partition Reference Time Enlightenment"):
/// `((tsc * scale) >> 64) + offset`, in units of 100 ns. A host that takes its time from
/// [`time_at`](TscPage::time_at) passes the board, and the guest through the page, the same time.
#[derive(Clone, Copy, PartialEq, Eq, Debug)]
pub struct TscPage(synicboard_tsc_page);

impl TscPage {
    /// A page for a TSC of `hz` ticks a second, by which the time is `time` when the TSC is `tsc`. `None` if
    /// the TSC has no more than 10,000,000 ticks a second.
    pub fn new(hz: u64, tsc: u64, time: Moment) -> Option<TscPage> {
        // SAFETY: the call takes and returns numbers.
        let page = unsafe { synicboard_tsc_page_at(hz, tsc, time) };
        (page.scale != 0).then_some(TscPage(page))
    }

    /// The page of a guest that continues: the same scale, and the time is `time` when the TSC is `tsc`.
    #[must_use = "this page stays as it is"]
    pub fn moved(self, tsc: u64, time: Moment) -> TscPage {
        // SAFETY: as in `new`.
        TscPage(unsafe { synicboard_tsc_page_moved(self.0, tsc, time) })
    }

    /// The reference time when the TSC is `tsc`.
    pub fn time_at(self, tsc: u64) -> Moment {
        // SAFETY: as in `new`.
        unsafe { synicboard_tsc_time(self.0, tsc) }
    }

    /// The first TSC from which on the time is at least `time`, as long as it does not wrap: what a host sets a timer
    /// of its TSC to for an alarm. 0 if that was before the TSC was 0, and the greatest number if it never is.
    pub fn until(self, time: Moment) -> u64 {
        // SAFETY: as in `new`.
        unsafe { synicboard_tsc_until(self.0, time) }
    }

    /// TscScale: the units of each tick, times 2^64.
    pub fn scale(self) -> u64 {
        self.0.scale
    }

    /// TscOffset, in two's complement.
    pub fn offset(self) -> u64 {
        self.0.offset
    }
}
