//! Lines, which raise vectors without the lock of a board.

use crate::{beyond_the_header, sys, OpenFault, Vector, Vp};
use core::error::Error;
use core::fmt;

/// Why no line was split off.
#[derive(Clone, Copy, PartialEq, Eq, Hash, Debug)]
#[non_exhaustive]
pub enum SplitFault {
    /// The line has none left: 319 were split off it, or it was itself split off.
    NoMore,
    /// An allocation failed.
    Memory,
}

impl fmt::Display for SplitFault {
    fn fmt(&self, formatter: &mut fmt::Formatter<'_>) -> fmt::Result {
        formatter.write_str(match self {
            SplitFault::NoMore => "no line is left to split off",
            SplitFault::Memory => "out of memory",
        })
    }
}

impl Error for SplitFault {}

/// The result of a raise.
#[derive(Clone, Copy, PartialEq, Eq, Hash, Debug)]
pub enum Raised {
    /// The bit was clear: the caller kicks the processor.
    Fresh,
    /// The bit was already set: no kick is needed.
    Already,
}

/// One thread's access to posted words: it raises vectors without the lock of a board, and absorbs
/// them under the lock.
///
/// Posted words have one bit for each vector of 1 to 64 processors, set from a raise to the next absorb.
/// [`open`](Line::open) opens words and their first line; [`split`](Line::split) returns other lines of
/// the same words, for other threads. The words are freed with the last of their lines; bits that are
/// still set then are lost.
///
/// The thread of a device [raises](Line::raise) a vector by one atomic step, without blocking. If the
/// result is [`Fresh`](Raised::Fresh), the device kicks the processor. If it is
/// [`Already`](Raised::Already), no kick is needed, since an absorb is still to come. The thread of the
/// processor absorbs the vectors by [`Board::absorb_line`](crate::Board::absorb_line), under the lock of
/// the board and before it queries its next vector. An absorb takes each vector of its part that was
/// raised before it; a raise after it is fresh again. `docs/THREADS.md` says which part of this is proved
/// and which is shown by tests.
///
/// ```
/// use std::sync::Mutex;
/// use std::thread;
/// use synicboard::{Board, Line, Raised, Reply, Ticket, Vector, Vp};
///
/// # fn main() -> Result<(), Box<dyn std::error::Error>> {
/// let board = Mutex::new(Board::open(1, 1, Ticket::new(0))?);
/// let mut line = Line::open(1)?;
/// let mut of_device = line.split()?;
/// let vector = Vector::new(0x60).expect("it is above 15");
///
/// thread::scope(|scope| {
///     let processor = thread::current();
///     // The device never waits for the lock of the board.
///     scope.spawn(move || {
///         if of_device.raise(Vp::ZERO, vector) == Some(Raised::Fresh) {
///             processor.unpark();
///         }
///     });
///     // This is the thread of processor 0. The vectors 40 to 7f are those of part 1.
///     loop {
///         let mut board = board.lock().unwrap();
///         assert_eq!(board.absorb_line(&mut line, Vp::ZERO, 1), Reply::Done);
///         if let Reply::Taken(Some(taken)) = board.take(Vp::ZERO) {
///             assert_eq!(taken, vector);
///             break;
///         }
///         drop(board);
///         thread::park();
///     }
/// });
/// # Ok(())
/// # }
/// ```
///
/// # Threads
///
/// A line is `Send`. It is proved with the library that what its handle owns is `Send`. The bindings add,
/// without proof, that the handle is only in this value, and that one call at a time uses it: each call
/// borrows the line mutably, and a line is not `Sync`. Lines of the same words may be used at the same
/// time, each by its own thread.
///
/// ```compile_fail,E0277
/// # let line = synicboard::Line::open(1).unwrap();
/// std::thread::scope(|scope| {
///     scope.spawn(|| line.processors()); // another thread needs its own line
/// });
/// ```
pub struct Line {
    pub(crate) handle: sys::synicboard_line,
    processors: u8,
}

// SAFETY: what the handle owns is `Send`, which is proved with the library: `LineHandle` of its
// crate `c_handles`. The handle is only in this value, so the owner of the value makes all calls, and
// each borrows it mutably, so there is one at a time.
unsafe impl Send for Line {}

/// Makes a call of the library with a line's handle.
macro_rules! ask {
    ($line:expr, $call:ident $(, $argument:expr)*) => {{
        let handle = &mut $line.handle;
        // SAFETY: the handle was closed or opened by the library, is in this value and has no copy.
        // It is borrowed for this call alone, and so is the handle of a second line.
        unsafe { sys::$call(handle $(, $argument)*) }
    }};
}

impl Line {
    /// Opens words for 1 to 64 processors, with no vector raised, and their first line.
    ///
    /// # Errors
    ///
    /// [`OpenFault::BadSize`] if the number is out of range, [`OpenFault::Memory`] if an allocation
    /// fails.
    ///
    /// # Panics
    ///
    /// If the library that runs is older than this crate, or of another major version.
    pub fn open(processors: u8) -> Result<Line, OpenFault> {
        crate::same_library();
        let mut line = Line::closed(processors);
        OpenFault::judged(ask!(line, synicboard_open_line, processors))?;
        Ok(line)
    }

    /// Splits off another line of the same words, for another thread. Only the first line of the
    /// words splits off others, 319 in all. Dropping one of them does not allow another.
    ///
    /// # Errors
    ///
    /// [`SplitFault::NoMore`] if the line has none left, [`SplitFault::Memory`] if an allocation
    /// fails. Then nothing changes.
    pub fn split(&mut self) -> Result<Line, SplitFault> {
        let mut other = Line::closed(self.processors);
        match ask!(self, synicboard_split_line, &mut other.handle) {
            sys::SYNICBOARD_OK => Ok(other),
            sys::SYNICBOARD_NO_MORE_LINES => Err(SplitFault::NoMore),
            sys::SYNICBOARD_NO_MEMORY => Err(SplitFault::Memory),
            answer => beyond_the_header(&answer),
        }
    }

    fn closed(processors: u8) -> Line {
        Line { handle: sys::SYNICBOARD_LINE_CLOSED, processors }
    }

    /// Raises a vector of processor `vp` by one atomic step, and returns whether its bit was clear.
    /// Never blocks and never allocates.
    ///
    /// `None`, and no effect, if the words do not have the processor.
    #[must_use = "if the vector is fresh, its processor is kicked"]
    pub fn raise(&mut self, vp: Vp, vector: Vector) -> Option<Raised> {
        match ask!(self, synicboard_raise, vp.number(), vector.number()) {
            sys::SYNICBOARD_NOT_RAISED => None,
            sys::SYNICBOARD_FRESH => Some(Raised::Fresh),
            sys::SYNICBOARD_ALREADY => Some(Raised::Already),
            answer => beyond_the_header(&answer),
        }
    }

    /// How many processors the words are for, 1 to 64.
    pub fn processors(&self) -> u8 {
        self.processors
    }
}

impl Drop for Line {
    fn drop(&mut self) {
        ask!(self, synicboard_close_line);
    }
}

impl fmt::Debug for Line {
    fn fmt(&self, formatter: &mut fmt::Formatter<'_>) -> fmt::Result {
        formatter.debug_struct("Line").field("processors", &self.processors).finish_non_exhaustive()
    }
}
