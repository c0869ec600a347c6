//! Numbers with types of their own, so that none passes for another.

use core::error::Error;
use core::fmt;
use core::num::{NonZeroU8, ParseIntError};
use core::str::FromStr;

/// A time of the partition reference counter, in units of 100 ns.
pub type Moment = u64;

/// The ticket of an accepted message. No ticket is given twice. The greatest is 2^64 - 2; a board whose next
/// ticket is 2^64 - 1 accepts no message.
#[derive(Clone, Copy, PartialEq, Eq, PartialOrd, Ord, Hash, Debug, Default)]
pub struct Ticket(u64);

/// The number of a port: 0 to 15, or, on a sparse board of more than four processors, below four times their number.
/// The board refuses any other.
#[derive(Clone, Copy, PartialEq, Eq, PartialOrd, Ord, Hash, Debug, Default)]
pub struct Port(u8);

/// A number without a range of its own.
macro_rules! any_number {
    ($kind:ident, $plain:ident) => {
        impl $kind {
            #[doc = concat!("The ", stringify!($kind), " with this number.")]
            pub const fn new(number: $plain) -> $kind {
                $kind(number)
            }

            /// Its number.
            pub const fn number(self) -> $plain {
                self.0
            }
        }

        impl From<$plain> for $kind {
            fn from(number: $plain) -> $kind {
                $kind(number)
            }
        }

        impl From<$kind> for $plain {
            fn from(named: $kind) -> $plain {
                named.0
            }
        }

        impl FromStr for $kind {
            type Err = ParseIntError;

            fn from_str(text: &str) -> Result<$kind, ParseIntError> {
                text.parse().map($kind)
            }
        }

        impl fmt::Display for $kind {
            fn fmt(&self, formatter: &mut fmt::Formatter<'_>) -> fmt::Result {
                self.0.fmt(formatter)
            }
        }
    };
}

any_number!(Ticket, u64);
any_number!(Port, u8);

/// A virtual processor, 0 to 63. A board with fewer refuses the others, and its queries find nothing of them.
///
/// ```
/// use synicboard::{Board, Refusal, Reply, Ticket, Vp};
///
/// const SECOND: Vp = Vp::new(1).unwrap();
/// assert_eq!((Vp::new(64), "1".parse()), (None, Ok(SECOND)));
///
/// let mut board = Board::open(1, 1, Ticket::new(0)).unwrap();
/// for vp in board.vps() {
///     assert_eq!(board.next(vp), None);
/// }
/// assert_eq!(board.take(SECOND), Reply::Refused(Refusal::NoSuchProcessor));
/// ```
#[derive(Clone, Copy, PartialEq, Eq, PartialOrd, Ord, Hash, Debug, Default)]
pub struct Vp(u8);

impl Vp {
    /// Processor 0.
    pub const ZERO: Vp = Vp(0);

    /// The processors below `count`, in order; at most the 64 that there are.
    pub fn below(count: u8) -> impl DoubleEndedIterator<Item = Vp> + ExactSizeIterator + Clone {
        (0..count.min(64)).map(Vp)
    }

    /// The processor with this number; `None` above 63.
    pub const fn new(number: u8) -> Option<Vp> {
        if number < 64 {
            Some(Vp(number))
        } else {
            None
        }
    }

    /// Its number, 0 to 63.
    pub const fn number(self) -> u8 {
        self.0
    }

    /// Its bit in a number that has a bit for each processor.
    pub const fn bit(self) -> u64 {
        1 << self.0
    }
}

/// A synthetic interrupt source of a processor, SINT0 to SINT15.
///
/// ```
/// use synicboard::Sint;
///
/// assert_eq!((Sint::new(2), Sint::new(16)), (Some(Sint::SINT2), None));
/// assert_eq!(("2".parse(), "SINT2".parse()), (Ok(Sint::SINT2), Ok(Sint::SINT2)));
/// ```
///
/// A source is not accepted as a processor:
///
/// ```compile_fail,E0308
/// # use synicboard::{Board, Port, Sint, Ticket, Vp};
/// # let mut board = Board::open(1, 1, Ticket::new(0)).unwrap();
/// board.open_message_port(Port::new(3), Sint::SINT2, Vp::ZERO, 2).done(); // the processor comes first
/// ```
#[derive(Clone, Copy, PartialEq, Eq, PartialOrd, Ord, Hash, Debug)]
pub struct Sint(u8);

/// Names each source, and lists all.
macro_rules! sources {
    ($($name:ident $number:literal),+) => {
        $(#[doc = concat!("Source ", $number, ".")] pub const $name: Sint = Sint($number);)+

        /// All sources, in order.
        pub const ALL: [Sint; 16] = [$(Sint::$name),+];
    };
}

impl Sint {
    sources!(
        SINT0 0, SINT1 1, SINT2 2, SINT3 3, SINT4 4, SINT5 5, SINT6 6, SINT7 7,
        SINT8 8, SINT9 9, SINT10 10, SINT11 11, SINT12 12, SINT13 13, SINT14 14, SINT15 15
    );

    /// The source with this number; `None` above 15.
    pub const fn new(number: u8) -> Option<Sint> {
        if number < 16 {
            Some(Sint(number))
        } else {
            None
        }
    }

    /// Its number, 0 to 15.
    pub const fn number(self) -> u8 {
        self.0
    }
}

/// An interrupt vector, 16 to 255. Its text is in hexadecimal.
#[derive(Clone, Copy, PartialEq, Eq, PartialOrd, Ord, Hash, Debug)]
pub struct Vector(NonZeroU8);

impl Vector {
    /// The vector with this number; `None` below 16.
    pub const fn new(number: u8) -> Option<Vector> {
        match NonZeroU8::new(number) {
            Some(number) if number.get() >= 16 => Some(Vector(number)),
            _ => None,
        }
    }

    /// Its number, 16 to 255.
    pub const fn number(self) -> u8 {
        self.0.get()
    }
}

/// A synthetic timer: a processor and an index, STIMER0 to STIMER3.
#[derive(Clone, Copy, PartialEq, Eq, PartialOrd, Ord, Hash, Debug, Default)]
pub struct TimerId {
    vp: Vp,
    index: u8,
}

impl TimerId {
    /// The timer with this index on a processor; `None` above 3.
    pub const fn new(vp: Vp, index: u8) -> Option<TimerId> {
        if index < 4 {
            Some(TimerId { vp, index })
        } else {
            None
        }
    }

    /// Its processor.
    pub const fn vp(self) -> Vp {
        self.vp
    }

    /// Its index, 0 to 3.
    pub const fn index(self) -> u8 {
        self.index
    }
}

/// Which page a guest sees at a page number.
#[derive(Clone, Copy, PartialEq, Eq, Hash, Debug)]
pub enum Owner {
    /// The guest page.
    Guest,
    /// The message page of a processor, an overlay.
    Sim(Vp),
    /// The event flags page of a processor, an overlay.
    Sief(Vp),
    /// No page: the number is outside the guest's memory.
    Nothing,
}

/// A number that is out of the range of a processor, a source or a vector.
#[derive(Clone, Copy, PartialEq, Eq, Hash, Debug)]
pub struct OutOfRange(u8);

impl fmt::Display for OutOfRange {
    fn fmt(&self, formatter: &mut fmt::Formatter<'_>) -> fmt::Result {
        write!(formatter, "{} is out of range", self.0)
    }
}

impl Error for OutOfRange {}

/// Why a text is no processor, source or vector.
#[derive(Clone, PartialEq, Eq, Debug)]
#[non_exhaustive]
pub enum NumberFault {
    /// It is no number, or one of more than 8 bits.
    NoNumber(ParseIntError),
    /// The number is out of range.
    OutOfRange(OutOfRange),
}

impl fmt::Display for NumberFault {
    fn fmt(&self, formatter: &mut fmt::Formatter<'_>) -> fmt::Result {
        match self {
            NumberFault::NoNumber(fault) => fault.fmt(formatter),
            NumberFault::OutOfRange(fault) => fault.fmt(formatter),
        }
    }
}

impl Error for NumberFault {
    fn source(&self) -> Option<&(dyn Error + 'static)> {
        match self {
            NumberFault::NoNumber(fault) => Some(fault),
            NumberFault::OutOfRange(fault) => Some(fault),
        }
    }
}

/// How a number with a range is read and printed.
macro_rules! number {
    ($kind:ident, $form:literal, $read:expr) => {
        impl TryFrom<u8> for $kind {
            type Error = OutOfRange;

            fn try_from(number: u8) -> Result<$kind, OutOfRange> {
                $kind::new(number).ok_or(OutOfRange(number))
            }
        }

        impl From<$kind> for u8 {
            fn from(named: $kind) -> u8 {
                named.number()
            }
        }

        impl FromStr for $kind {
            type Err = NumberFault;

            fn from_str(text: &str) -> Result<$kind, NumberFault> {
                let read: fn(&str) -> Result<u8, ParseIntError> = $read;
                $kind::try_from(read(text).map_err(NumberFault::NoNumber)?).map_err(NumberFault::OutOfRange)
            }
        }

        impl fmt::Display for $kind {
            fn fmt(&self, formatter: &mut fmt::Formatter<'_>) -> fmt::Result {
                write!(formatter, $form, self.number())
            }
        }
    };
}

number!(Vp, "{}", str::parse);
// With or without the letters.
number!(Sint, "SINT{}", |text| text.strip_prefix("SINT").unwrap_or(text).parse());
number!(Vector, "{:02x}", |text| u8::from_str_radix(text, 16));
