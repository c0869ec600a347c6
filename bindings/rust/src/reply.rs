//! Replies.

use crate::{beyond_the_header, sys, Bytes8, OutOfRange, Ticket, Vector};
use core::error::Error;
use core::ffi::CStr;
use core::fmt;

/// The reply to an event.
#[derive(Clone, Copy, PartialEq, Eq, Debug)]
#[must_use = "an event that was refused has changed nothing"]
pub enum Reply {
    /// The event was performed.
    Done,
    /// The value of the register.
    Value(u64),
    /// The bytes that the guest loads.
    Bytes(Bytes8),
    /// The vector that was taken, or none.
    Taken(Option<Vector>),
    /// The post was accepted with this ticket.
    Accepted(Ticket),
    /// The event flag was clear, and was set.
    FlagWasClear,
    /// The event flag was already set.
    FlagWasSet,
    /// The access raises #GP; nothing changed.
    GeneralProtection,
    /// The event was refused; nothing changed.
    Refused(Refusal),
    /// There is no such event: a post of more than 240 bytes, or a store of more than 8. Nothing
    /// was performed, and nothing changed. [`Board::perform`](crate::Board::perform) never returns
    /// this, since an [`Event`](crate::Event) cannot hold more bytes.
    NoEvent,
}

impl Reply {
    /// The refusal, if the event was refused.
    pub fn refusal(self) -> Option<Refusal> {
        match self {
            Reply::Refused(refusal) => Some(refusal),
            _ => None,
        }
    }

    /// For `?`: whether the event was performed.
    ///
    /// ```
    /// use synicboard::{Board, EventFault, Port, Refusal, Sint, Ticket, Vp};
    ///
    /// fn set_up(board: &mut Board) -> Result<Ticket, EventFault> {
    ///     board.write(Vp::ZERO, 0x4000_0080, 1).done()?;
    ///     board.open_message_port(Port::new(3), Vp::ZERO, Sint::SINT2, 2).done()?;
    ///     board.post(Port::new(3), 1, b"hello").ticket()
    /// }
    ///
    /// let mut board = Board::open(1, 1, Ticket::new(7)).unwrap();
    /// assert_eq!(set_up(&mut board), Ok(Ticket::new(7)));
    /// assert_eq!(set_up(&mut board), Err(EventFault::Refused(Refusal::PortOpen)));
    /// ```
    ///
    /// # Errors
    ///
    /// Why it was not; then nothing changed.
    pub fn done(self) -> Result<(), EventFault> {
        match self {
            Reply::GeneralProtection => Err(EventFault::GeneralProtection),
            Reply::Refused(refusal) => Err(EventFault::Refused(refusal)),
            Reply::NoEvent => Err(EventFault::NoEvent),
            _ => Ok(()),
        }
    }

    /// The value that a register had.
    ///
    /// # Errors
    ///
    /// As for [`done`](Reply::done).
    ///
    /// # Panics
    ///
    /// If this is no reply to a read; in the same way for the methods below and their events.
    pub fn value(self) -> Result<u64, EventFault> {
        match self {
            Reply::Value(value) => Ok(value),
            other => other.failed("a read"),
        }
    }

    /// The bytes that a guest loads.
    ///
    /// # Errors
    ///
    /// As for [`done`](Reply::done).
    pub fn bytes(self) -> Result<Bytes8, EventFault> {
        match self {
            Reply::Bytes(bytes) => Ok(bytes),
            other => other.failed("a load"),
        }
    }

    /// The vector that a processor took, or none.
    ///
    /// # Errors
    ///
    /// As for [`done`](Reply::done).
    pub fn vector(self) -> Result<Option<Vector>, EventFault> {
        match self {
            Reply::Taken(vector) => Ok(vector),
            other => other.failed("a take"),
        }
    }

    /// The ticket of the message that was posted.
    ///
    /// # Errors
    ///
    /// As for [`done`](Reply::done).
    pub fn ticket(self) -> Result<Ticket, EventFault> {
        match self {
            Reply::Accepted(ticket) => Ok(ticket),
            other => other.failed("a post"),
        }
    }

    /// Whether a signal set its flag: `false` if the flag was set already.
    ///
    /// # Errors
    ///
    /// As for [`done`](Reply::done).
    pub fn is_set(self) -> Result<bool, EventFault> {
        match self {
            Reply::FlagWasClear => Ok(true),
            Reply::FlagWasSet => Ok(false),
            other => other.failed("a signal"),
        }
    }

    /// The fault of a reply that has no result of this event.
    fn failed<T>(self, event: &str) -> Result<T, EventFault> {
        match self.done() {
            Err(fault) => Err(fault),
            Ok(()) => panic!("{self:?} is no reply to {event}"),
        }
    }

    /// Decodes a C reply of an open board, with an open line if one was used.
    pub(crate) fn of(plain: sys::synicboard_reply) -> Reply {
        let meant = match plain.kind {
            sys::SYNICBOARD_NOT_PERFORMED if plain.fault == sys::SYNICBOARD_NO_EVENT => Some(Reply::NoEvent),
            sys::SYNICBOARD_DONE => Some(Reply::Done),
            sys::SYNICBOARD_VALUE => Some(Reply::Value(plain.value)),
            sys::SYNICBOARD_BYTES => first(&plain.bytes, plain.length).map(Reply::Bytes),
            sys::SYNICBOARD_TAKEN => Vector::new(plain.vector).map(|v| Reply::Taken(Some(v))),
            sys::SYNICBOARD_NONE_TAKEN => Some(Reply::Taken(None)),
            sys::SYNICBOARD_ACCEPTED => Some(Reply::Accepted(Ticket::new(plain.ticket))),
            sys::SYNICBOARD_FLAG_WAS_CLEAR => Some(Reply::FlagWasClear),
            sys::SYNICBOARD_FLAG_WAS_SET => Some(Reply::FlagWasSet),
            sys::SYNICBOARD_GENERAL_PROTECTION => Some(Reply::GeneralProtection),
            sys::SYNICBOARD_REFUSED => Refusal::of(plain.refusal).map(Reply::Refused),
            _ => None,
        };
        meant.unwrap_or_else(|| beyond_the_header(&plain))
    }

    /// The C struct that encodes this reply.
    pub(crate) fn to_plain(self) -> sys::synicboard_reply {
        let of_kind = |kind| sys::synicboard_reply { kind, ..sys::synicboard_reply::default() };
        match self {
            Reply::Done => of_kind(sys::SYNICBOARD_DONE),
            Reply::Value(value) => sys::synicboard_reply { value, ..of_kind(sys::SYNICBOARD_VALUE) },
            Reply::Bytes(bytes) => {
                let (length, bytes) = bytes.padded();
                sys::synicboard_reply { length, bytes, ..of_kind(sys::SYNICBOARD_BYTES) }
            }
            Reply::Taken(Some(vector)) => {
                sys::synicboard_reply { vector: vector.number(), ..of_kind(sys::SYNICBOARD_TAKEN) }
            }
            Reply::Taken(None) => of_kind(sys::SYNICBOARD_NONE_TAKEN),
            Reply::Accepted(ticket) => {
                sys::synicboard_reply { ticket: ticket.number(), ..of_kind(sys::SYNICBOARD_ACCEPTED) }
            }
            Reply::FlagWasClear => of_kind(sys::SYNICBOARD_FLAG_WAS_CLEAR),
            Reply::FlagWasSet => of_kind(sys::SYNICBOARD_FLAG_WAS_SET),
            Reply::GeneralProtection => of_kind(sys::SYNICBOARD_GENERAL_PROTECTION),
            Reply::Refused(refusal) => {
                sys::synicboard_reply { refusal: refusal.number(), ..of_kind(sys::SYNICBOARD_REFUSED) }
            }
            Reply::NoEvent => {
                sys::synicboard_reply { fault: sys::SYNICBOARD_NO_EVENT, ..sys::synicboard_reply::default() }
            }
        }
    }
}

fn first(bytes: &[u8; 8], length: u8) -> Option<Bytes8> {
    Bytes8::new(bytes.get(..usize::from(length))?)
}

/// Why an event was not performed. Nothing changed.
#[derive(Clone, Copy, PartialEq, Eq, Hash, Debug)]
#[non_exhaustive]
pub enum EventFault {
    /// The access raises #GP.
    GeneralProtection,
    /// The board refused it.
    Refused(Refusal),
    /// There is no such event: too many bytes, or a number out of range.
    NoEvent,
}

impl From<OutOfRange> for EventFault {
    /// A processor, a source or a vector out of range is in no event.
    fn from(_: OutOfRange) -> EventFault {
        EventFault::NoEvent
    }
}

impl fmt::Display for EventFault {
    fn fmt(&self, formatter: &mut fmt::Formatter<'_>) -> fmt::Result {
        match self {
            EventFault::GeneralProtection => formatter.write_str("the access raises #GP"),
            EventFault::Refused(refusal) => write!(formatter, "the event was refused: {refusal}"),
            EventFault::NoEvent => formatter.write_str("there is no such event"),
        }
    }
}

impl Error for EventFault {
    fn source(&self) -> Option<&(dyn Error + 'static)> {
        match self {
            EventFault::Refused(refusal) => Some(refusal),
            _ => None,
        }
    }
}

/// Why an event was refused. A refused event changes nothing and emits no notice.
#[derive(Clone, Copy, PartialEq, Eq, PartialOrd, Ord, Hash, Debug)]
#[repr(u8)]
#[non_exhaustive]
pub enum Refusal {
    /// The port is not open; to open one, the board has none of its number.
    UnknownPort = sys::SYNICBOARD_UNKNOWN_PORT,
    /// The port is already open.
    PortOpen = sys::SYNICBOARD_PORT_OPEN,
    /// A post to a port for event flags, or a signal to one for messages.
    WrongKind = sys::SYNICBOARD_WRONG_KIND,
    /// No such processor, or buffers, base or count out of range; for an absorb, a part above 3.
    BadTarget = sys::SYNICBOARD_BAD_TARGET,
    /// The message type is 0 or has bit 31 set.
    BadType = sys::SYNICBOARD_BAD_TYPE,
    /// The flag is not below the port's count.
    BadFlag = sys::SYNICBOARD_BAD_FLAG,
    /// The target's SynIC is disabled, or, for a signal, its event flags page is.
    SynicOff = sys::SYNICBOARD_SYNIC_OFF,
    /// All buffers of the port are in use. One is free again when a message of the port is placed.
    NoBuffers = sys::SYNICBOARD_NO_BUFFERS,
    /// No ticket is left.
    TicketsSpent = sys::SYNICBOARD_TICKETS_SPENT,
    /// The time is before the present one.
    ClockBack = sys::SYNICBOARD_CLOCK_BACK,
    /// The first byte is in no page.
    OutsideSpace = sys::SYNICBOARD_OUTSIDE_SPACE,
    /// The last byte is in another page than the first.
    CrossesPage = sys::SYNICBOARD_CROSSES_PAGE,
    /// The length is 0 or above 8.
    BadLength = sys::SYNICBOARD_BAD_LENGTH,
    /// The processor is not on the board.
    NoSuchProcessor = sys::SYNICBOARD_NO_SUCH_PROCESSOR,
    /// The processor is already suspended.
    AlreadySuspended = sys::SYNICBOARD_ALREADY_SUSPENDED,
    /// The processor is not suspended.
    NotSuspended = sys::SYNICBOARD_NOT_SUSPENDED,
    /// Of a sparse board: the page is in the caller's memory, where the caller performs the access.
    Elsewhere = sys::SYNICBOARD_ELSEWHERE,
}

impl Refusal {
    /// All refusals, in the order of their numbers.
    pub const ALL: [Refusal; 17] = [
        Refusal::UnknownPort,
        Refusal::PortOpen,
        Refusal::WrongKind,
        Refusal::BadTarget,
        Refusal::BadType,
        Refusal::BadFlag,
        Refusal::SynicOff,
        Refusal::NoBuffers,
        Refusal::TicketsSpent,
        Refusal::ClockBack,
        Refusal::OutsideSpace,
        Refusal::CrossesPage,
        Refusal::BadLength,
        Refusal::NoSuchProcessor,
        Refusal::AlreadySuspended,
        Refusal::NotSuspended,
        Refusal::Elsewhere,
    ];

    /// Its number, 1 to 17, as in the output of a script.
    pub const fn number(self) -> u8 {
        self as u8
    }

    fn of(number: u8) -> Option<Refusal> {
        Refusal::ALL.into_iter().find(|refusal| refusal.number() == number)
    }
}

impl fmt::Display for Refusal {
    fn fmt(&self, formatter: &mut fmt::Formatter<'_>) -> fmt::Result {
        // SAFETY: each refusal has a text, which ends with a zero and is never changed.
        let text = unsafe { CStr::from_ptr(sys::synicboard_refusal_text(self.number())) };
        formatter.write_str(text.to_str().unwrap_or_default())
    }
}

impl Error for Refusal {}
