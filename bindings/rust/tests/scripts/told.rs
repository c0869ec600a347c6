//! The output of a replay, as in `docs/FORMATS.md`: replies, notices and summaries.

use synicboard::{Board, Notice, Owner, Reply, Sint, Ticket, Vector, Vp};

/// The line of a reply.
pub fn reply(reply: Reply) -> String {
    match reply {
        Reply::Done => "= done\n".to_string(),
        Reply::Value(value) => format!("= value {value:x}\n"),
        Reply::Bytes(bytes) => {
            let digits: String = bytes.iter().map(|byte| format!("{byte:02x}")).collect();
            format!("= bytes {digits}\n")
        }
        Reply::Taken(Some(vector)) => format!("= taken {:02x}\n", vector.number()),
        Reply::Taken(None) => "= taken none\n".to_string(),
        Reply::Accepted(ticket) => format!("= accepted {ticket}\n"),
        Reply::FlagWasClear => "= clear\n".to_string(),
        Reply::FlagWasSet => "= set\n".to_string(),
        Reply::GeneralProtection => "= general protection\n".to_string(),
        Reply::Refused(refusal) => format!("= refused {}\n", refusal.number()),
        Reply::NoEvent => panic!("an event that was performed is none"),
    }
}

/// The line of a notice.
pub fn notice(notice: Notice) -> String {
    let (word, numbers) = match notice {
        Notice::Accepted { ticket, vp, sint } => ("accepted", place(ticket, vp.number(), sint.number())),
        Notice::Placed { ticket, vp, sint } => ("placed", place(ticket, vp.number(), sint.number())),
        Notice::Pending { vp, sint } => ("pending", format!("{} {}", vp.number(), sint.number())),
        Notice::Requested { vp, vector } => ("requested", format!("{} {:02x}", vp.number(), vector.number())),
        Notice::FlagSet { vp, sint, flag } => ("flag", format!("{} {} {flag}", vp.number(), sint.number())),
        Notice::Consumed { ticket, vp, sint } => ("consumed", place(ticket, vp.number(), sint.number())),
        Notice::Withdrawn { ticket, vp, sint } => ("withdrawn", place(ticket, vp.number(), sint.number())),
        Notice::Expired { vp, index, due } => ("expired", format!("{} {index} {due}", vp.number())),
        Notice::Skipped { vp, index, count } => ("skipped", format!("{} {index} {count}", vp.number())),
        other => panic!("{other:?}"),
    };
    format!(". {word} {numbers}\n")
}

fn place(ticket: Ticket, vp: u8, sint: u8) -> String {
    format!("{ticket} {vp} {sint}")
}

/// The lines of a summary, from queries.
pub fn summary(board: &Board) -> String {
    let parts = [nexts(board), autos(board), timer(board), pages(board), queues(board)];
    parts.concat()
}

fn nexts(board: &Board) -> String {
    let line = |vp| match board.next(vp) {
        Some(vector) => format!(": next {vp} {:02x}\n", vector.number()),
        None => format!(": next {vp} none\n"),
    };
    board.vps().map(line).collect()
}

fn autos(board: &Board) -> String {
    let line = |vp| {
        let vectors = (0..=u8::MAX).filter_map(Vector::new);
        let autos = vectors.filter(|&vector| board.is_auto(vp, vector));
        let words: String = autos.map(|vector| format!(" {:02x}", vector.number())).collect();
        (!words.is_empty()).then(|| format!(": auto {vp}{words}\n"))
    };
    board.vps().filter_map(line).collect()
}

fn timer(board: &Board) -> String {
    match board.earliest() {
        Some((due, timer)) => format!(": timer {due} {} {}\n", timer.vp().number(), timer.index()),
        None => ": timer none\n".to_string(),
    }
}

fn pages(board: &Board) -> String {
    let line = |page: u8| match board.owner(page.into()) {
        Owner::Guest => None,
        Owner::Sim(vp) => Some(format!(": page {page} sim {}\n", vp.number())),
        Owner::Sief(vp) => Some(format!(": page {page} sief {}\n", vp.number())),
        Owner::Nothing => panic!("page {page} of the board is none"),
    };
    (0..board.pages()).filter_map(line).collect()
}

fn queues(board: &Board) -> String {
    let sources = board.vps().flat_map(|vp| Sint::ALL.map(move |sint| (vp, sint)));
    let line = |(vp, sint): (Vp, Sint)| match board.queued(vp, sint) {
        0 => None,
        length => Some(format!(": queue {vp} {} {length}\n", sint.number())),
    };
    sources.filter_map(line).collect()
}
