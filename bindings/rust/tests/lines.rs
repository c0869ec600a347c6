//! Lines through the safe calls: sizes, how many can be split off, the results of raises, which
//! bits an absorb clears and which it leaves, and threads that raise while another absorbs.

use std::error::Error;
use std::thread;
use synicboard::msr::EOI;
use synicboard::{Board, Line, Notice, OpenFault, Raised, Refusal, Reply, SplitFault, Ticket, Vector, Vp};

const PARTS: u8 = 4;
/// A vector of part 3 whose bit is not the first.
const VECTOR: Vector = Vector::new(0xc5).unwrap();
const PART: u8 = 3;
const VP: Vp = Vp::ZERO;

/// Processor `number`.
const fn processor(number: u8) -> Vp {
    Vp::new(number).unwrap()
}

const FRESH: Option<Raised> = Some(Raised::Fresh);
const ALREADY: Option<Raised> = Some(Raised::Already);

fn vectors() -> impl Iterator<Item = Vector> {
    (0..=u8::MAX).filter_map(Vector::new)
}

fn part_of(vector: Vector) -> u8 {
    vector.number() / 64
}

/// Absorbs a part, which requests these vectors of the processor in this order, and emits nothing
/// else.
#[track_caller]
fn absorbs(board: &mut Board, line: &mut Line, vp: Vp, part: u8, vectors: &[Vector]) {
    assert_eq!(board.absorb_line(line, vp, part), Reply::Done);
    let requested = |&vector| Notice::Requested { vp, vector };
    let expected: Vec<_> = vectors.iter().map(requested).collect();
    assert_eq!(board.notices().collect::<Vec<_>>(), expected);
}

/// A processor takes this vector and ends it.
#[track_caller]
fn takes(board: &mut Board, vp: Vp, vector: Vector) {
    assert_eq!(board.take(vp), Reply::Taken(Some(vector)));
    assert_eq!(board.write(vp, EOI, 0), Reply::Done);
}

#[test]
fn words_are_for_1_to_64_processors() {
    for processors in 0..=u8::MAX {
        let opened = Line::open(processors).map(|line| line.processors());
        let expected = if (1..=64).contains(&processors) { Ok(processors) } else { Err(OpenFault::BadSize) };
        assert_eq!(opened, expected);
    }
    assert_eq!(format!("{:?}", Line::open(2).unwrap()), "Line { processors: 2, .. }");
}

#[test]
fn a_processor_that_the_words_are_not_for_is_not_raised() {
    for processors in 1..=64 {
        let mut line = Line::open(processors).unwrap();
        let mut other = line.split().unwrap();
        assert_eq!(other.processors(), processors);
        for vp in Vp::below(64) {
            let (first, second) = if vp.number() < processors { (FRESH, ALREADY) } else { (None, None) };
            assert_eq!((line.raise(vp, VECTOR), other.raise(vp, VECTOR)), (first, second), "{vp}");
        }
    }
}

#[test]
fn a_first_line_gives_319_and_no_other_gives_any() {
    let mut line = Line::open(1).unwrap();
    let mut others = Vec::new();
    for _ in 0..319 {
        others.push(line.split().unwrap());
    }
    assert_eq!(line.split().unwrap_err(), SplitFault::NoMore);
    for other in &mut others {
        assert_eq!(other.split().unwrap_err(), SplitFault::NoMore);
    }
    // Dropping lines does not allow others.
    others.truncate(7);
    assert_eq!(line.split().unwrap_err(), SplitFault::NoMore);
    let fault: Box<dyn Error> = Box::new(SplitFault::NoMore);
    assert_eq!(fault.to_string(), "no line is left to split off");
    assert_eq!(SplitFault::Memory.to_string(), "out of memory");
}

/// All lines use the same words, even the last one after the first is dropped.
#[test]
fn the_words_stay_as_long_as_one_of_their_lines() {
    let mut board = Board::open(1, 1, Ticket::new(0)).unwrap();
    let mut line = Line::open(1).unwrap();
    let mut others: Vec<_> = (0..319).map(|_| line.split().unwrap()).collect();
    assert_eq!(line.raise(VP, VECTOR), FRESH);
    drop(line);
    for other in &mut others {
        assert_eq!(other.raise(VP, VECTOR), ALREADY);
    }
    let mut last = others.swap_remove(318);
    drop(others);
    assert_eq!(last.raise(VP, VECTOR), ALREADY);
    absorbs(&mut board, &mut last, VP, PART, &[VECTOR]);
    assert_eq!(last.raise(VP, VECTOR), FRESH);
}

#[test]
fn lines_of_other_words_do_not_see_each_other() {
    let mut board = Board::open(1, 1, Ticket::new(0)).unwrap();
    let (mut one, mut other) = (Line::open(1).unwrap(), Line::open(1).unwrap());
    assert_eq!((one.raise(VP, VECTOR), one.raise(VP, VECTOR)), (FRESH, ALREADY));
    absorbs(&mut board, &mut other, VP, PART, &[]);
    assert_eq!((other.raise(VP, VECTOR), one.raise(VP, VECTOR)), (FRESH, ALREADY));
    drop(other);
    absorbs(&mut board, &mut one, VP, PART, &[VECTOR]);
    absorbs(&mut board, &mut Line::open(1).unwrap(), VP, PART, &[]);
}

#[test]
fn a_vector_is_fresh_again_behind_an_absorb_of_its_part() {
    let mut board = Board::open(2, 1, Ticket::new(0)).unwrap();
    let mut line = Line::open(2).unwrap();
    for vector in vectors() {
        assert_eq!((line.raise(processor(1), vector), line.raise(processor(1), vector)), (FRESH, ALREADY));
        for part in 0..PARTS {
            absorbs(&mut board, &mut line, VP, part, &[]);
            assert_eq!(line.raise(processor(1), vector), ALREADY);
            if part != part_of(vector) {
                absorbs(&mut board, &mut line, processor(1), part, &[]);
                assert_eq!(line.raise(processor(1), vector), ALREADY);
            }
        }
        absorbs(&mut board, &mut line, processor(1), part_of(vector), &[vector]);
        assert_eq!(line.raise(processor(1), vector), FRESH);
        takes(&mut board, processor(1), vector);
        absorbs(&mut board, &mut line, processor(1), part_of(vector), &[vector]);
        takes(&mut board, processor(1), vector);
    }
}

/// An absorb requests the vectors raised in its part, the smallest first, and none of another part.
#[test]
fn an_absorb_requests_what_was_raised_in_its_part() {
    let numbers = [16, 17, 63, 64, 65, 127, 128, 190, 191, 192, 254, 255];
    let raised = numbers.map(|number| Vector::new(number).unwrap());
    let mut board = Board::open(8, 1, Ticket::new(0)).unwrap();
    let mut line = Line::open(8).unwrap();
    for vector in raised.into_iter().rev() {
        assert_eq!((line.raise(processor(2), vector), line.raise(processor(7), vector)), (FRESH, FRESH));
    }
    for (part, at) in [(2, 6..9), (0, 0..3), (3, 9..12), (1, 3..6)] {
        absorbs(&mut board, &mut line, processor(7), part, &raised[at.clone()]);
        absorbs(&mut board, &mut line, processor(7), part, &[]);
        absorbs(&mut board, &mut line, processor(2), part, &raised[at]);
    }
}

#[test]
fn all_vectors_of_a_part_are_absorbed_at_once() {
    let mut board = Board::open(8, 1, Ticket::new(0)).unwrap();
    let mut line = Line::open(8).unwrap();
    for vp in Vp::below(8) {
        for vector in vectors() {
            assert_eq!(line.raise(vp, vector), FRESH);
        }
    }
    for vp in Vp::below(8) {
        for part in 0..PARTS {
            let expected: Vec<_> = vectors().filter(|&vector| part_of(vector) == part).collect();
            absorbs(&mut board, &mut line, vp, part, &expected);
        }
    }
}

/// The bit of a vector that is already requested is cleared, without a notice.
#[test]
fn an_absorb_tells_which_bits_it_took() -> Result<(), Box<dyn Error>> {
    let (mut board, mut line) = (Board::open(1, 1, Ticket::new(0))?, Line::open(1)?);
    for vector in [0xc0, 0xc5, 0xff] {
        assert_eq!(line.raise(VP, Vector::new(vector).unwrap()), FRESH);
    }
    assert_eq!(board.absorb_line_bits(&mut line, VP, PART), (Reply::Done, 1 | 1 << 5 | 1 << 63));
    assert_eq!(board.absorb_line_bits(&mut line, VP, PART), (Reply::Done, 0));
    let no_processor = Reply::Refused(Refusal::NoSuchProcessor);
    assert_eq!(board.absorb_line_bits(&mut line, processor(1), PART), (no_processor, 0));
    Ok(())
}

#[test]
fn what_is_requested_already_is_not_told_again() {
    let mut board = Board::open(1, 1, Ticket::new(0)).unwrap();
    let mut line = Line::open(1).unwrap();
    assert_eq!(line.raise(VP, VECTOR), FRESH);
    absorbs(&mut board, &mut line, VP, PART, &[VECTOR]);
    assert_eq!(line.raise(VP, VECTOR), FRESH);
    absorbs(&mut board, &mut line, VP, PART, &[]);
    assert_eq!(line.raise(VP, VECTOR), FRESH);
    takes(&mut board, VP, VECTOR);
    assert_eq!(board.next(VP), None);
    absorbs(&mut board, &mut line, VP, PART, &[VECTOR]);
}

/// If the board has no such processor or part, the bits stay for the next absorb.
#[test]
fn an_absorb_that_is_refused_takes_nothing() {
    let (mut narrow, mut wide) =
        (Board::open(1, 1, Ticket::new(0)).unwrap(), Board::open(2, 1, Ticket::new(0)).unwrap());
    let mut line = Line::open(2).unwrap();
    assert_eq!((line.raise(processor(1), VECTOR), line.raise(VP, VECTOR)), (FRESH, FRESH));
    assert_eq!(narrow.assert(VP, VECTOR), Reply::Done);
    let no_processor = Reply::Refused(Refusal::NoSuchProcessor);
    let no_part = Reply::Refused(Refusal::BadTarget);
    assert_eq!(narrow.absorb_line(&mut line, processor(1), PART), no_processor);
    assert_eq!(narrow.notices().len(), 0);
    assert_eq!(narrow.absorb_line(&mut line, VP, 4), no_part);
    assert_eq!(wide.absorb_line(&mut line, processor(2), PART), no_processor);
    assert_eq!(wide.absorb_line(&mut line, processor(63), PART), no_processor);
    // The words of the next processor are four words further on.
    assert_eq!(wide.absorb_line(&mut line, VP, 4 + PART), no_part);
    assert_eq!(wide.absorb_line(&mut line, processor(1), 255), no_part);
    assert_eq!((line.raise(processor(1), VECTOR), line.raise(VP, VECTOR)), (ALREADY, ALREADY));
    absorbs(&mut wide, &mut line, processor(1), PART, &[VECTOR]);
    absorbs(&mut wide, &mut line, VP, PART, &[VECTOR]);
    assert_eq!((line.raise(processor(1), VECTOR), line.raise(VP, VECTOR)), (FRESH, FRESH));
}

/// Words of fewer processors than the board has yield nothing for the others.
#[test]
fn words_of_fewer_processors_give_nothing_for_the_others() {
    let mut board = Board::open(8, 1, Ticket::new(0)).unwrap();
    let mut line = Line::open(2).unwrap();
    assert_eq!(
        (line.raise(VP, VECTOR), line.raise(processor(1), VECTOR), line.raise(processor(2), VECTOR)),
        (FRESH, FRESH, None)
    );
    for vp in Vp::below(8).skip(2) {
        absorbs(&mut board, &mut line, vp, PART, &[]);
        assert_eq!(board.absorb_line(&mut line, vp, 4), Reply::Refused(Refusal::BadTarget));
    }
    assert_eq!((line.raise(VP, VECTOR), line.raise(processor(1), VECTOR)), (ALREADY, ALREADY));
}

/// Suspending and resetting affect only the board: raised bits stay set.
#[test]
fn a_suspension_and_a_reset_leave_what_was_raised() {
    let mut board = Board::open(1, 1, Ticket::new(0)).unwrap();
    let mut line = Line::open(1).unwrap();
    assert_eq!(board.suspend(VP), Reply::Done);
    assert_eq!(line.raise(VP, VECTOR), FRESH);
    absorbs(&mut board, &mut line, VP, PART, &[VECTOR]);
    assert_eq!(board.take(VP), Reply::Taken(None));
    assert_eq!(line.raise(VP, VECTOR), FRESH);
    assert_eq!(board.reset(VP), Reply::Done);
    assert_eq!((line.raise(VP, VECTOR), board.next(VP)), (ALREADY, None));
    absorbs(&mut board, &mut line, VP, PART, &[VECTOR]);
    assert_eq!(board.next(VP), Some(VECTOR));
}

/// A line is opened in one thread, used in another, and dropped in a third.
#[test]
fn a_line_goes_to_other_threads() {
    let mut board = Board::open(1, 1, Ticket::new(0)).unwrap();
    let mut line = Line::open(1).unwrap();
    let mut other = line.split().unwrap();
    let used = thread::spawn(move || {
        assert_eq!(line.raise(VP, VECTOR), FRESH);
        vec![Box::new(line)]
    });
    let lines = used.join().unwrap();
    assert_eq!(other.raise(VP, VECTOR), ALREADY);
    thread::spawn(move || drop(lines)).join().unwrap();
    absorbs(&mut board, &mut other, VP, PART, &[VECTOR]);
    assert_eq!(other.raise(VP, VECTOR), FRESH);
}

/// A count for each vector of each processor.
type Tally = [[u32; 256]; 8];

const DEVICES: u8 = 4;

/// Raises every vector of every processor `times` times, and counts the fresh raises. The devices
/// begin at different vectors, so that they collide everywhere.
fn raise_all(mut line: Line, device: u8, times: u32) -> Tally {
    let mut fresh = [[0; 256]; 8];
    let numbers = (0..=u8::MAX).map(|number| number.wrapping_add(device * (255 / DEVICES)));
    let vectors: Vec<_> = numbers.filter_map(Vector::new).collect();
    for _ in 0..times {
        for &vector in &vectors {
            for vp in Vp::below(8) {
                let raised = line.raise(vp, vector).unwrap();
                fresh[usize::from(vp.number())][usize::from(vector.number())] +=
                    u32::from(raised == Raised::Fresh);
            }
        }
    }
    fresh
}

/// Absorbs every part of every processor, and counts the requested vectors. The processor takes and
/// ends all of them, so that the next absorb emits a notice for each vector again.
fn absorb_all(board: &mut Board, line: &mut Line, absorbed: &mut Tally) {
    for (vp, absorbed) in Vp::below(8).zip(absorbed) {
        for part in 0..PARTS {
            assert_eq!(board.absorb_line(line, vp, part), Reply::Done);
            let requested = |notice| match notice {
                Notice::Requested { vp: of, vector } if of == vp => vector,
                notice => panic!("{notice:?}"),
            };
            let vectors: Vec<_> = board.notices().map(requested).collect();
            for vector in vectors.into_iter().rev() {
                assert_eq!(part_of(vector), part);
                takes(board, vp, vector);
                absorbed[usize::from(vector.number())] += 1;
            }
            assert_eq!(board.next(vp), None);
        }
    }
}

/// The sums of the devices' counts, for each vector of each processor.
fn sums(fresh: &[Tally]) -> Tally {
    let sum = |vp: usize, number: usize| fresh.iter().map(|tally| tally[vp][number]).sum();
    std::array::from_fn(|vp| std::array::from_fn(|number| sum(vp, number)))
}

/// The same count for each vector from 16 on, of each processor.
fn all_vectors(count: u32) -> Tally {
    [std::array::from_fn(|number| if number < 16 { 0 } else { count }); 8]
}

/// Without an absorb, one raise of each vector is fresh, in whichever thread.
#[test]
fn of_all_raises_one_is_fresh() {
    let mut line = Line::open(8).unwrap();
    let lines: Vec<_> = (0..DEVICES).map(|device| (device, line.split().unwrap())).collect();
    let spawned = lines.into_iter().map(|(device, line)| thread::spawn(move || raise_all(line, device, 5)));
    let devices: Vec<_> = spawned.collect();
    let fresh: Vec<_> = devices.into_iter().map(|device| device.join().unwrap()).collect();
    assert_eq!(sums(&fresh), all_vectors(1));
    let (mut board, mut absorbed) = (Board::open(8, 1, Ticket::new(0)).unwrap(), all_vectors(0));
    absorb_all(&mut board, &mut line, &mut absorbed);
    assert_eq!(absorbed, all_vectors(1));
}

/// While devices raise, this thread absorbs: one absorb takes each fresh raise, and none takes a
/// vector that was not raised.
#[test]
fn each_fresh_raise_is_absorbed_once() {
    let mut board = Board::open(8, 1, Ticket::new(0)).unwrap();
    let mut line = Line::open(8).unwrap();
    let mut absorbed = all_vectors(0);
    let lines: Vec<_> = (0..DEVICES).map(|device| (device, line.split().unwrap())).collect();
    let spawned = lines.into_iter().map(|(device, line)| thread::spawn(move || raise_all(line, device, 200)));
    let devices: Vec<_> = spawned.collect();
    while !devices.iter().all(|device| device.is_finished()) {
        absorb_all(&mut board, &mut line, &mut absorbed);
    }
    let fresh: Vec<_> = devices.into_iter().map(|device| device.join().unwrap()).collect();
    absorb_all(&mut board, &mut line, &mut absorbed);
    assert_eq!(absorbed, sums(&fresh));
    let never = absorbed.iter().flat_map(|absorbed| &absorbed[16..]).filter(|&&count| count == 0);
    assert_eq!(never.count(), 0);
    for vp in Vp::below(8) {
        for part in 0..PARTS {
            absorbs(&mut board, &mut line, vp, part, &[]);
        }
    }
}
