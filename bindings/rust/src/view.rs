//! What a run loop acts on, and what has changed in it.

use crate::queries::{first_due, owner_of};
use crate::{sys, Owner, TimerId, Vector, Vp};
use core::fmt;

/// No deadline.
const NEVER: sys::synicboard_due = sys::synicboard_due { is_due: false, vp: 0, timer: 0, low: 0, high: 0 };

/// No page.
const NOTHING: sys::synicboard_page_owner =
    sys::synicboard_page_owner { kind: sys::SYNICBOARD_OWNER_NOTHING, vp: 0 };

/// The next vector of each processor, and the earliest deadline, as they were at the last
/// [`update`](crate::Board::update).
///
/// ```
/// use synicboard::{Board, Reply, Ticket, Vector, View, Vp};
///
/// # fn main() -> Result<(), synicboard::OpenFault> {
/// let mut board = Board::open(2, 4, Ticket::new(0))?;
/// let mut view = View::default();
/// assert!(!board.update(&mut view).any());
///
/// let vector = Vector::new(0x50).expect("a vector from 16 on");
/// let second = Vp::new(1).expect("a processor below 64");
/// assert_eq!(board.assert(second, vector), Reply::Done);
/// let changes = board.update(&mut view);
/// assert!(changes.next(second) && !changes.next(Vp::ZERO) && !changes.earliest());
/// assert_eq!(view.next(second), Some(vector));
/// # Ok(())
/// # }
/// ```
#[derive(Clone, PartialEq, Eq)]
pub struct View(pub(crate) sys::synicboard_view);

impl View {
    /// The next vector of a processor. `None` if there is none, or `vp` is not on the board.
    pub fn next(&self, vp: Vp) -> Option<Vector> {
        self.0.next.get(usize::from(vp.number())).and_then(|&vector| Vector::new(vector))
    }

    /// The timer with the earliest deadline, and the deadline in units of 100 ns.
    pub fn earliest(&self) -> Option<(u128, TimerId)> {
        first_due(&self.0.earliest)
    }
}

impl Default for View {
    /// The view of a newly opened board.
    fn default() -> View {
        View(sys::synicboard_view { next: [0; 8], earliest: NEVER })
    }
}

impl fmt::Debug for View {
    fn fmt(&self, formatter: &mut fmt::Formatter<'_>) -> fmt::Result {
        formatter
            .debug_struct("View")
            .field("next", &self.0.next)
            .field("earliest", &self.earliest())
            .finish()
    }
}

/// The same for a board of up to 64 processors, as of the last
/// [`update_wide`](crate::Board::update_wide).
///
/// ```
/// use synicboard::{Board, Reply, Ticket, Vector, Vp, WideView};
///
/// # fn main() -> Result<(), synicboard::OpenFault> {
/// let mut board = Board::open_sparse(64, Ticket::new(0))?;
/// let mut view = WideView::default();
/// let vector = Vector::new(0x50).expect("a vector from 16 on");
/// let last = Vp::new(63).expect("a processor below 64");
/// assert_eq!(board.assert(last, vector), Reply::Done);
/// let changes = board.update_wide(&mut view);
/// assert!(changes.nexts() == last.bit() && !changes.earliest());
/// assert_eq!(view.next(last), Some(vector));
/// # Ok(())
/// # }
/// ```
#[derive(Clone, PartialEq, Eq)]
pub struct WideView(pub(crate) sys::synicboard_wide_view);

impl WideView {
    /// The next vector of a processor. `None` if there is none, or `vp` is not on the board.
    pub fn next(&self, vp: Vp) -> Option<Vector> {
        self.0.next.get(usize::from(vp.number())).and_then(|&vector| Vector::new(vector))
    }

    /// The timer with the earliest deadline, and the deadline in units of 100 ns.
    pub fn earliest(&self) -> Option<(u128, TimerId)> {
        first_due(&self.0.earliest)
    }
}

impl Default for WideView {
    /// The view of a newly opened board.
    fn default() -> WideView {
        WideView(sys::synicboard_wide_view { next: [0; 64], earliest: NEVER })
    }
}

impl fmt::Debug for WideView {
    fn fmt(&self, formatter: &mut fmt::Formatter<'_>) -> fmt::Result {
        formatter
            .debug_struct("WideView")
            .field("next", &self.0.next)
            .field("earliest", &self.earliest())
            .finish()
    }
}

/// What differs between two updates of a wide view.
#[must_use = "the host kicks these processors, and arms its timer again"]
#[derive(Clone, Copy, PartialEq, Eq, Debug)]
pub struct WideChanges(pub(crate) sys::synicboard_changes);

impl WideChanges {
    /// The processors whose next vector differs: bit p for processor p.
    pub fn nexts(self) -> u64 {
        self.0.next
    }

    /// Whether the earliest deadline or its timer differs.
    pub fn earliest(self) -> bool {
        self.0.earliest
    }

    /// Whether anything differs.
    pub fn any(self) -> bool {
        self.0.next != 0 || self.0.earliest
    }
}

/// What differs between two updates of a view.
#[must_use = "the host kicks these processors, and arms its timer again"]
#[derive(Clone, Copy, PartialEq, Eq, Debug)]
pub struct Changes(pub(crate) u64);

impl Changes {
    /// Whether the next vector of a processor differs.
    pub fn next(self, vp: Vp) -> bool {
        vp.number() < 8 && self.0 & vp.bit() != 0
    }

    /// Whether the earliest deadline or its timer differs.
    pub fn earliest(self) -> bool {
        self.0 & sys::SYNICBOARD_EARLIEST_CHANGED != 0
    }

    /// Whether anything differs.
    pub fn any(self) -> bool {
        self.0 != 0
    }
}

/// Which page a guest sees at each page number, as it was at the last
/// [`update_owners`](crate::Board::update_owners).
#[derive(Clone, PartialEq, Eq)]
pub struct Owners(pub(crate) sys::synicboard_owners);

impl Owners {
    /// Which page a guest sees at a page number. [`Owner::Nothing`] from 64 on.
    pub fn owner(&self, page: u64) -> Owner {
        let at = usize::try_from(page).ok();
        at.and_then(|at| self.0.page.get(at)).map_or(Owner::Nothing, owner_of)
    }
}

impl Default for Owners {
    /// No page is there.
    fn default() -> Owners {
        Owners(sys::synicboard_owners { page: [NOTHING; 64] })
    }
}

impl fmt::Debug for Owners {
    fn fmt(&self, formatter: &mut fmt::Formatter<'_>) -> fmt::Result {
        formatter.debug_list().entries(self.0.page.iter().map(owner_of)).finish()
    }
}
