//! Why no board or no line was opened.

use crate::{beyond_the_header, sys};
use core::error::Error;
use core::fmt;

/// Why a board or a line was not opened.
#[derive(Clone, Copy, PartialEq, Eq, Hash, Debug)]
#[non_exhaustive]
pub enum OpenFault {
    /// Not 1 to 8 processors, or not 1 to 64 pages; of a sparse board or a line, not 1 to 64 processors.
    BadSize,
    /// An allocation failed.
    Memory,
}

impl OpenFault {
    /// The result of opening a closed handle.
    pub(crate) fn judged(answer: u8) -> Result<(), OpenFault> {
        match answer {
            sys::SYNICBOARD_OK => Ok(()),
            sys::SYNICBOARD_BAD_SIZE => Err(OpenFault::BadSize),
            sys::SYNICBOARD_NO_MEMORY => Err(OpenFault::Memory),
            _ => beyond_the_header(&answer),
        }
    }
}

impl fmt::Display for OpenFault {
    fn fmt(&self, formatter: &mut fmt::Formatter<'_>) -> fmt::Result {
        formatter.write_str(match self {
            OpenFault::BadSize => "the sizes are outside the limits",
            OpenFault::Memory => "out of memory",
        })
    }
}

impl Error for OpenFault {}

/// Why no board was restored from an image.
#[derive(Clone, Copy, PartialEq, Eq, Hash, Debug)]
#[non_exhaustive]
pub enum RestoreFault {
    /// The text is no image; this line is the first wrong one, counted from 1.
    WrongLine(u64),
    /// An allocation failed.
    Memory,
    /// The text has more than 1,073,741,824 bytes, and no line of these is wrong.
    TooLong,
}

impl fmt::Display for RestoreFault {
    fn fmt(&self, formatter: &mut fmt::Formatter<'_>) -> fmt::Result {
        match self {
            RestoreFault::WrongLine(line) => write!(formatter, "line {line} of the image is wrong"),
            RestoreFault::Memory => formatter.write_str("out of memory"),
            RestoreFault::TooLong => formatter.write_str("the image is too long"),
        }
    }
}

impl Error for RestoreFault {}
