//! Every worked script of the repository, through the safe calls: the output equals the stored
//! text, byte for byte. `replay` and `check` are compared with the stored texts too.

#[path = "scripts/lines.rs"]
mod lines;
#[path = "scripts/told.rs"]
mod told;

use lines::{Lines, Step};
use std::fs;
use std::path::{Path, PathBuf};
use std::str;
use synicboard::{check, replay, Board, End, Event, OpenFault, Refusal, Reply, Verdict};

/// The files of a folder with this suffix that have a stored output: the path and both contents.
fn stored(folder: &str, ending: &str) -> Vec<(PathBuf, Vec<u8>, Vec<u8>)> {
    let folder = Path::new(env!("CARGO_MANIFEST_DIR")).join("../..").join(folder);
    let entries = fs::read_dir(&folder).unwrap_or_else(|fault| panic!("{folder:?}: {fault}"));
    let paths = entries.map(|entry| entry.expect("a folder can be read to its end").path());
    let given = paths.filter(|path| path.extension().is_some_and(|found| found == ending));
    let read = |path: PathBuf| {
        let stored = fs::read(path.with_extension("stdout")).ok()?;
        let text = fs::read(&path).expect("a file that is listed can be read");
        Some((path, text, stored))
    };
    given.filter_map(read).collect()
}

fn scripts() -> Vec<(PathBuf, Vec<u8>, Vec<u8>)> {
    let folders = ["cases/replay", "examples", "examples/differences"];
    let found: Vec<_> = folders.into_iter().flat_map(|folder| stored(folder, "script")).collect();
    assert!(found.len() > 100, "only {} scripts are stored", found.len());
    found
}

/// The output of a script, by a board of the safe calls.
fn performed(script: &[u8]) -> String {
    let mut text = String::new();
    if let Err((line, fault)) = perform(script, &mut text) {
        text += &format!("! {line} {fault}\n");
    }
    text
}

/// Performs a script up to its first fault, which is returned with its line.
fn perform(script: &[u8], text: &mut String) -> Result<(), (usize, &'static str)> {
    let mut board = None;
    let mut number = 0;
    for line in Lines::of(script) {
        number += 1;
        let line = line.map_err(|fault| (number, fault))?;
        if line.is_empty() || line.starts_with(b"#") {
            continue;
        }
        match &mut board {
            None => board = Some(open(line).map_err(|fault| (number, fault))?),
            Some(board) => *text += &tell(board, lines::step(line).ok_or((number, "form"))?),
        }
    }
    board.map(drop).ok_or((number + 1, "first"))
}

fn open(line: &[u8]) -> Result<Board, &'static str> {
    let (processors, pages, first_ticket) = lines::opening(line).ok_or("first")?;
    Board::open(processors, pages, first_ticket).map_err(|fault| match fault {
        OpenFault::BadSize => "size",
        other => panic!("{other}"),
    })
}

fn tell(board: &mut Board, step: Step) -> String {
    match step {
        Step::Summary => told::summary(board),
        Step::Event(event) => {
            let reply = told::reply(board.perform(&event));
            reply + &board.notices().map(told::notice).collect::<String>()
        }
        Step::Beyond(event) => told::reply(refused(board, &event)),
    }
}

/// The reply to an event with a processor or a source that no board has.
fn refused(board: &mut Board, event: &Event) -> Reply {
    match event {
        Event::OpenPort { .. } => board.perform(event),
        _ => Reply::Refused(Refusal::NoSuchProcessor),
    }
}

#[test]
fn each_script_is_told_as_it_is_stored() {
    for (path, script, stored) in scripts() {
        let stored = String::from_utf8(stored).expect("what is stored is ASCII");
        assert_eq!(performed(&script), stored, "{path:?}");
    }
}

/// The trace of a script up to its first fault, recorded event by event, and the number of its
/// entries. `None` if no board is opened.
fn traced(script: &[u8]) -> Option<(Vec<u8>, u64)> {
    let lines = Lines::of(script).map_while(Result::ok);
    let mut lines = lines.filter(|line| !line.is_empty() && !line.starts_with(b"#"));
    let opening = lines.next()?;
    let mut board = open(opening).ok()?;
    let mut trace = [b"trace 3\n", opening, b"\n"].concat();
    let mut entries = 0;
    for line in lines {
        match lines::step(line) {
            None => break,
            Some(Step::Summary) => {}
            Some(Step::Event(event)) => {
                let actor = entries as u8;
                let reply = board.perform(&event);
                let mut room = [0; 535];
                let length =
                    synicboard::format_entry(actor, &event, &reply, &mut room).expect("an event, and memory");
                let wanted = [actor.to_string().as_bytes(), b" ", line, b"\n= "].concat();
                assert!(room[..length].starts_with(&wanted), "{wanted:?}");
                trace.extend(&room[..length]);
                entries += 1;
            }
            Some(Step::Beyond(event)) => {
                trace.extend([(entries as u8).to_string().as_bytes(), b" ", line, b"\n"].concat());
                trace.extend(told::reply(refused(&mut board, &event)).bytes());
                entries += 1;
            }
        }
    }
    trace.extend(format!("end {entries} {}\n", board.next_ticket()).bytes());
    Some((trace, entries))
}

#[test]
fn what_is_told_of_a_script_is_a_legal_trace() {
    let traces: Vec<_> = scripts().iter().filter_map(|(_, script, _)| traced(script)).collect();
    assert!(traces.len() > 80, "only {} scripts open a board", traces.len());
    for (trace, entries) in traces {
        assert_eq!(check(&trace), Verdict::Legal { entries }, "{:?}", str::from_utf8(&trace));
    }
}

#[test]
fn a_replay_writes_the_stored_text() {
    for (path, script, stored) in scripts() {
        let mut room = vec![0; stored.len() + 1];
        let length = match replay(&script, &mut room) {
            End::Done { length } => length,
            End::WrongLine { line, length } => {
                let last = format!("! {line} ");
                let begins_so = |told: &[u8]| told.starts_with(last.as_bytes());
                assert!(stored.split(|&byte| byte == b'\n').any(begins_so), "{path:?}");
                length
            }
            end => panic!("{path:?}: {end:?}"),
        };
        assert_eq!(str::from_utf8(&room[..length]), str::from_utf8(&stored), "{path:?}");
    }
}

#[test]
fn a_check_says_the_stored_verdict() {
    let found = [stored("cases/check", "trace"), stored("examples", "trace")].concat();
    assert!(found.len() > 60, "only {} traces are stored", found.len());
    for (path, trace, stored) in found {
        let said = match check(&trace) {
            Verdict::Legal { entries } => format!("legal {entries}\n"),
            Verdict::Refused { line } => format!("refused {line}\n"),
            verdict => panic!("{path:?}: {verdict:?}"),
        };
        assert_eq!(said.as_bytes(), stored, "{path:?}");
    }
}
