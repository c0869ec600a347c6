//! Processors, sources and vectors as types: their ranges and texts, and what a board says of a processor that it
//! has not.

use std::collections::HashSet;
use std::error::Error;
use std::fmt::{Debug, Display};
use std::str::FromStr;
use synicboard::msr::{STIMER0_CONFIG, STIMER0_COUNT, SVERSION};
use synicboard::{
    Board, Event, EventFault, Forwarded, NumberFault, OutOfRange, Port, Refusal, Reply, Sint, Ticket, Vector,
    View, Vp, WideView,
};

const VECTOR: Vector = Vector::new(0x50).unwrap();

/// Each number of 8 bits is a `T` or out of its range, and a `T` is parsed from the text that it prints.
fn has_range<T>(range: impl Fn(u8) -> bool)
where
    T: TryFrom<u8, Error = OutOfRange> + FromStr<Err = NumberFault> + Display + Debug + Ord + Copy,
    u8: From<T>,
{
    let mut last = None;
    for number in 0..=u8::MAX {
        let Ok(named) = T::try_from(number) else {
            assert!(!range(number), "{number}");
            continue;
        };
        assert!(range(number), "{number}");
        assert_eq!((u8::from(named), named.to_string().parse()), (number, Ok(named)));
        assert!(last < Some(named));
        last = Some(named);
    }
}

#[test]
fn numbers_have_their_ranges_and_texts() {
    has_range::<Vp>(|number| number < 64);
    has_range::<Sint>(|number| number < 16);
    has_range::<Vector>(|number| number >= 16);
    let texts = (Vp::ZERO.to_string(), Sint::SINT2.to_string(), VECTOR.to_string());
    assert_eq!(texts, ("0".into(), "SINT2".into(), "50".into()));
}

#[test]
fn a_text_that_is_no_number_is_a_fault() {
    for text in ["", "-1", "256", "0x1", "SINT", "SINT1"] {
        assert!(matches!(Vp::from_str(text), Err(NumberFault::NoNumber(_))), "{text}");
    }
    for text in ["", "SINT", "SINT 1", "SINTSINT1", "sint1"] {
        assert!(matches!(Sint::from_str(text), Err(NumberFault::NoNumber(_))), "{text}");
    }
    assert_eq!("2".parse(), Ok(Sint::SINT2));
    let (fault, high) = ("64".parse::<Vp>().unwrap_err(), "SINT16".parse::<Sint>().unwrap_err());
    assert_eq!(
        (fault.to_string(), high.to_string()),
        ("64 is out of range".into(), "16 is out of range".into())
    );
    assert!(
        fault.source().is_some()
            && "0f".parse::<Vector>() == Vector::try_from(15).map_err(NumberFault::OutOfRange)
    );
}

#[test]
fn all_processors_and_sources_are_listed() {
    for count in 0..=u8::MAX {
        let numbers: Vec<u8> = Vp::below(count).map(Vp::number).collect();
        assert_eq!(numbers, (0..count.min(64)).collect::<Vec<_>>());
    }
    let bits: Vec<u64> = Vp::below(64).map(Vp::bit).collect();
    assert_eq!(bits, (0..64).map(|number| 1 << number).collect::<Vec<u64>>());
    assert_eq!(Vp::below(64).collect::<HashSet<_>>().len(), 64);
    assert_eq!(Sint::ALL.map(Sint::number).to_vec(), (0..16).collect::<Vec<u8>>());
    assert_eq!((Sint::SINT0, Sint::SINT15), (Sint::ALL[0], Sint::ALL[15]));
}

#[test]
fn a_board_lists_its_processors() {
    for processors in [1, 8] {
        assert!(Board::open(processors, 1, Ticket::new(0)).unwrap().vps().eq(Vp::below(processors)));
    }
    let mut board = Board::open_sparse(64, Ticket::new(0)).unwrap();
    assert_eq!((board.vps().len(), board.vps().next_back()), (64, Vp::new(63)));
    let mut vps = board.vps();
    // The list does not borrow the board.
    assert!(vps.all(|vp| board.take(vp) == Reply::Taken(None)));
}

/// Each event of a processor is refused, and each query finds nothing, of whatever number it is.
#[test]
fn a_board_refuses_the_processors_that_it_has_not() {
    let mut board = Board::open(8, 1, Ticket::new(0)).unwrap();
    let (mut view, mut wide) = (View::default(), WideView::default());
    // In the number of the library, the bit of the earliest deadline is that of processor 8.
    assert_eq!(board.write(Vp::ZERO, STIMER0_COUNT, 5), Reply::Done);
    assert_eq!(board.write(Vp::ZERO, STIMER0_CONFIG, 0x1401), Reply::Done);
    let changes = board.update(&mut view);
    assert!(changes.earliest() && Vp::below(64).all(|vp| !changes.next(vp)));
    for vp in Vp::below(64).skip(8) {
        let replies = [
            board.write(vp, SVERSION, 1),
            board.read(vp, SVERSION),
            board.assert(vp, VECTOR),
            board.assert_source(vp, Sint::SINT2),
            board.absorb(vp, 0, 1),
            board.take(vp),
            board.suspend(vp),
            board.resume(vp),
            board.reset(vp),
            board.send(VECTOR, vp.bit()),
            board.perform(&Event::Take { vp }),
        ];
        assert_eq!(replies, [Reply::Refused(Refusal::NoSuchProcessor); 11]);
        let opened = [
            board.open_message_port(Port::new(3), vp, Sint::SINT2, 1),
            board.open_event_port(Port::new(3), vp, Sint::SINT2, 0, 1),
        ];
        assert_eq!(opened, [Reply::Refused(Refusal::BadTarget); 2]);
        assert_eq!(board.forward(vp), Forwarded::default());
        assert!(board.message_page(vp).is_none() && board.flag_page(vp).is_none());
        assert!(board.next(vp).is_none() && !board.is_auto(vp, VECTOR) && !board.no_eoi_required(vp));
        assert_eq!((board.queued(vp, Sint::SINT2), board.slot_ticket(vp, Sint::SINT2)), (0, None));
        assert!(board.lapic(vp).is_none() && board.timer(vp, 0).is_none());
        assert_eq!((view.next(vp), wide.next(vp)), (None, None));
    }
    assert_eq!(board.update_wide(&mut wide).nexts(), 0);
}

#[test]
fn a_number_out_of_range_is_in_no_event() {
    fn take(board: &mut Board, number: u8) -> Result<Option<Vector>, EventFault> {
        board.take(Vp::try_from(number)?).vector()
    }
    let mut board = Board::open(1, 1, Ticket::new(0)).unwrap();
    assert_eq!(take(&mut board, 0), Ok(None));
    assert_eq!(take(&mut board, 1), Err(EventFault::Refused(Refusal::NoSuchProcessor)));
    assert_eq!(take(&mut board, 64), Err(EventFault::NoEvent));
}
