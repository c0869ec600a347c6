//! The compiler warns of each result that a host must not lose: this program is not compiled otherwise.

#![deny(unfulfilled_lint_expectations)]

use synicboard::{
    check, format_entry, replay, AnswerRoom, Board, Event, Line, NoticeRoom, Owners, RecordedBoard, Reply,
    Ticket, TscPage, Vector, View, Vp, WideView,
};

const VECTOR: Vector = Vector::new(0x50).unwrap();
const TAKE: Event = Event::Take { vp: Vp::ZERO };

/// Statements that lose what they are given.
macro_rules! lost {
    ($($call:expr;)+) => {
        $(
            #[expect(unused_must_use)]
            {
                $call;
            }
        )+
    };
}

#[test]
fn what_a_board_says_is_not_lost() {
    let mut board = Board::open(1, 1, Ticket::new(0)).unwrap();
    let mut line = Line::open(1).unwrap();
    let mut room = AnswerRoom::new().unwrap();
    lost! {
        board.assert(Vp::ZERO, VECTOR);
        board.take(Vp::ZERO);
        board.perform(&TAKE);
        board.tick_due(1);
        board.step(1, None, 0, &mut room);
        board.forward(Vp::ZERO);
        line.raise(Vp::ZERO, VECTOR);
        line.split();
        board.absorb_line_bits(&mut line, Vp::ZERO, 1);
        board.notices();
        room.notices();
        board.update(&mut View::default());
        board.update_wide(&mut WideView::default());
        board.update_owners(&mut Owners::default());
        board.save(&mut []);
        Board::restore(b"");
    }
}

#[test]
fn what_other_boards_and_texts_say_is_not_lost() {
    let mut board = Board::open(1, 1, Ticket::new(0)).unwrap().into_live().unwrap();
    let recorded = RecordedBoard::open(1, 1, Ticket::new(0)).unwrap();
    let mut room = NoticeRoom::new();
    let page = TscPage::new(2_700_000_000, 0, 0).unwrap();
    lost! {
        page.moved(0, 1);
        board.perform(&TAKE);
        board.observe(Vp::ZERO);
        board.forward(Vp::ZERO);
        board.notices();
        board.save(&mut []);
        recorded.act(0, &TAKE, &mut room);
        recorded.settle(&mut []);
        room.notices();
        replay(b"", &mut []);
        check(b"");
        format_entry(0, &TAKE, &Reply::Done, &mut []);
    }
}
