//! The peer in Rust: answers the lines of a script (`docs/CONFORMANCE.md`). Implement [`Peer`] for
//! your own implementation; here it is implemented for [`Board`], as its own test.
//!
//! A call that is left out answers `= unsupported`, and the cases that need it are skipped.

use std::io::{self, BufRead, Write};
use synicboard::{Board, Notice, Port, Refusal, Reply, Sint, Ticket, Vector, Vp};

/// An answer: the reply, without `= `, and the notices, without `. `.
#[derive(Default)]
struct Answer {
    reply: String,
    notices: Vec<String>,
}

fn unsupported() -> Answer {
    Answer { reply: "unsupported".into(), notices: Vec::new() }
}

/// An implementation of the events. Numbers that it cannot have are its own to refuse.
trait Peer: Sized {
    fn open_board(processors: u8, pages: u8, ticket: u64) -> Option<Self>;

    /// A sparse board: up to 64 processors, and no pages of its own.
    fn open_sparse_board(_processors: u8, _ticket: u64) -> Option<Self> {
        None
    }

    fn open_message_port(&mut self, _port: u8, _vp: u8, _sint: u8, _buffers: u8) -> Answer {
        unsupported()
    }

    fn open_event_port(&mut self, _port: u8, _vp: u8, _sint: u8, _base: u16, _count: u16) -> Answer {
        unsupported()
    }

    fn close_port(&mut self, _port: u8) -> Answer {
        unsupported()
    }

    fn write_msr(&mut self, _vp: u8, _msr: u32, _value: u64) -> Answer {
        unsupported()
    }

    fn read_msr(&mut self, _vp: u8, _msr: u32) -> Answer {
        unsupported()
    }

    fn post_message(&mut self, _port: u8, _kind: u32, _payload: &[u8]) -> Answer {
        unsupported()
    }

    fn signal_event(&mut self, _port: u8, _flag: u16) -> Answer {
        unsupported()
    }

    fn assert_irq(&mut self, _vp: u8, _vector: u8) -> Answer {
        unsupported()
    }

    fn absorb_posted(&mut self, _vp: u8, _part: u8, _bits: u64) -> Answer {
        unsupported()
    }

    fn guest_store(&mut self, _address: u64, _bytes: &[u8]) -> Answer {
        unsupported()
    }

    fn guest_load(&mut self, _address: u64, _length: u8) -> Answer {
        unsupported()
    }

    fn advance_time(&mut self, _time: u64) -> Answer {
        unsupported()
    }

    fn take_interrupt(&mut self, _vp: u8) -> Answer {
        unsupported()
    }

    fn suspend(&mut self, _vp: u8) -> Answer {
        unsupported()
    }

    fn resume(&mut self, _vp: u8) -> Answer {
        unsupported()
    }

    fn reset(&mut self, _vp: u8) -> Answer {
        unsupported()
    }

    /// Bit p of the mask is processor p.
    fn send_interrupt(&mut self, _vector: u8, _mask: u64) -> Answer {
        unsupported()
    }
}

// ---- The lines ----

/// A number in hexadecimal, as far as it fits.
fn hexadecimal<T: TryFrom<u64>>(word: &str) -> Option<T> {
    T::try_from(u64::from_str_radix(word, 16).ok()?).ok()
}

/// Two digits for each byte, or `-` for none.
fn bytes(word: &str) -> Option<Vec<u8>> {
    if word == "-" {
        return Some(Vec::new());
    }
    (0..word.len() / 2).map(|at| hexadecimal(word.get(2 * at..2 * at + 2)?)).collect()
}

fn host_event<P: Peer>(peer: &mut P, words: &[&str]) -> Option<Answer> {
    Some(match *words {
        ["open", port, "message", vp, sint, buffers] => peer.open_message_port(
            port.parse().ok()?,
            vp.parse().ok()?,
            sint.parse().ok()?,
            buffers.parse().ok()?,
        ),
        ["open", port, "event", vp, sint, base, count] => {
            let (base, count) = (base.parse().ok()?, count.parse().ok()?);
            peer.open_event_port(port.parse().ok()?, vp.parse().ok()?, sint.parse().ok()?, base, count)
        }
        ["close", port] => peer.close_port(port.parse().ok()?),
        ["post", port, kind, payload] => {
            peer.post_message(port.parse().ok()?, hexadecimal(kind)?, &bytes(payload)?)
        }
        ["signal", port, flag] => peer.signal_event(port.parse().ok()?, flag.parse().ok()?),
        ["assert", vp, vector] => peer.assert_irq(vp.parse().ok()?, hexadecimal(vector)?),
        ["absorb", vp, part, bits] => {
            peer.absorb_posted(vp.parse().ok()?, part.parse().ok()?, hexadecimal(bits)?)
        }
        ["tick", time] => peer.advance_time(time.parse().ok()?),
        ["suspend", vp] => peer.suspend(vp.parse().ok()?),
        ["resume", vp] => peer.resume(vp.parse().ok()?),
        ["reset", vp] => peer.reset(vp.parse().ok()?),
        ["send", vector, mask] => peer.send_interrupt(hexadecimal(vector)?, hexadecimal(mask)?),
        _ => return None,
    })
}

fn guest_event<P: Peer>(peer: &mut P, words: &[&str]) -> Option<Answer> {
    Some(match *words {
        ["write", vp, msr, value] => peer.write_msr(vp.parse().ok()?, hexadecimal(msr)?, hexadecimal(value)?),
        ["read", vp, msr] => peer.read_msr(vp.parse().ok()?, hexadecimal(msr)?),
        ["store", address, stored] => peer.guest_store(hexadecimal(address)?, &bytes(stored)?),
        ["load", address, length] => peer.guest_load(hexadecimal(address)?, length.parse().ok()?),
        ["take", vp] => peer.take_interrupt(vp.parse().ok()?),
        _ => return None,
    })
}

/// The board of a board line, if there is one of its size.
fn opened<P: Peer>(processors: &str, pages: &str, ticket: &str) -> Option<P> {
    let (processors, ticket) = (processors.parse().ok()?, ticket.parse().ok()?);
    match pages {
        "sparse" => P::open_sparse_board(processors, ticket),
        _ => P::open_board(processors, pages.parse().ok()?, ticket),
    }
}

/// Answers one line. Without a board, each event is unsupported.
fn perform<P: Peer>(peer: &mut Option<P>, line: &str, output: &mut impl Write) -> io::Result<()> {
    let words: Vec<&str> = line.split(' ').collect();
    if line.is_empty() || line.starts_with('#') {
        return Ok(());
    }
    if let ["board", processors, pages, ticket] = *words {
        *peer = opened(processors, pages, ticket);
        return Ok(());
    }
    if line == "sync" {
        return writeln!(output, "= sync");
    }
    let answer =
        peer.as_mut().and_then(|peer| guest_event(peer, &words).or_else(|| host_event(peer, &words)));
    let answer = answer.unwrap_or_else(unsupported);
    let lines = answer.notices.iter().map(|notice| format!(". {notice}\n")).collect::<String>();
    write!(output, "= {}\n{lines}", answer.reply)
}

/// Answers the lines of standard input until its end.
fn answer_all<P: Peer>() -> io::Result<()> {
    let mut input = io::stdin().lock();
    let mut output = io::LineWriter::new(io::stdout().lock());
    let (mut peer, mut line): (Option<P>, String) = (None, String::new());
    while input.read_line(&mut line)? > 0 {
        perform(&mut peer, line.trim_end_matches('\n'), &mut output)?;
        line.clear();
    }
    output.flush()
}

// ---- The board as a peer ----

fn hex(bytes: &[u8]) -> String {
    bytes.iter().map(|byte| format!("{byte:02x}")).collect()
}

fn reply_text(reply: Reply) -> String {
    match reply {
        Reply::Done => "done".into(),
        Reply::Value(value) => format!("value {value:x}"),
        Reply::Bytes(bytes) => format!("bytes {}", hex(&bytes)),
        Reply::Taken(Some(vector)) => format!("taken {:02x}", vector.number()),
        Reply::Taken(None) => "taken none".into(),
        Reply::Accepted(ticket) => format!("accepted {ticket}"),
        Reply::FlagWasClear => "clear".into(),
        Reply::FlagWasSet => "set".into(),
        Reply::GeneralProtection => "general protection".into(),
        Reply::Refused(refusal) => format!("refused {}", refusal.number()),
        Reply::NoEvent => "unsupported".into(),
    }
}

fn notice_text(notice: Notice) -> String {
    match notice {
        Notice::Accepted { ticket, vp, sint } => {
            format!("accepted {ticket} {} {}", vp.number(), sint.number())
        }
        Notice::Placed { ticket, vp, sint } => {
            format!("placed {ticket} {} {}", vp.number(), sint.number())
        }
        Notice::Pending { vp, sint } => format!("pending {} {}", vp.number(), sint.number()),
        Notice::Requested { vp, vector } => {
            format!("requested {} {:02x}", vp.number(), vector.number())
        }
        Notice::FlagSet { vp, sint, flag } => {
            format!("flag {} {} {flag}", vp.number(), sint.number())
        }
        Notice::Consumed { ticket, vp, sint } => {
            format!("consumed {ticket} {} {}", vp.number(), sint.number())
        }
        Notice::Withdrawn { ticket, vp, sint } => {
            format!("withdrawn {ticket} {} {}", vp.number(), sint.number())
        }
        Notice::Expired { vp, index, due } => format!("expired {} {index} {due}", vp.number()),
        Notice::Skipped { vp, index, count } => format!("skipped {} {index} {count}", vp.number()),
        other => format!("unknown {other:?}"),
    }
}

fn told(board: &Board, reply: Reply) -> Answer {
    Answer { reply: reply_text(reply), notices: board.notices().map(notice_text).collect() }
}

/// Performs an event of a processor, which is refused if no board has it.
fn of_processor(board: &mut Board, vp: u8, perform: impl FnOnce(&mut Board, Vp) -> Reply) -> Answer {
    let Some(vp) = Vp::new(vp) else {
        let reply = reply_text(Reply::Refused(Refusal::NoSuchProcessor));
        return Answer { reply, notices: Vec::new() };
    };
    let reply = perform(board, vp);
    told(board, reply)
}

/// The target and the size of a port to open. If no board has the target, it is another one with the size 0, which
/// is refused in the same way.
fn target<T: Default>(vp: u8, sint: u8, size: T) -> (Vp, Sint, T) {
    let found = Vp::new(vp).zip(Sint::new(sint));
    found.map_or((Vp::ZERO, Sint::SINT0, T::default()), |(vp, sint)| (vp, sint, size))
}

impl Peer for Board {
    fn open_board(processors: u8, pages: u8, ticket: u64) -> Option<Board> {
        Board::open(processors, pages, Ticket::new(ticket)).ok()
    }

    fn open_sparse_board(processors: u8, ticket: u64) -> Option<Board> {
        Board::open_sparse(processors, Ticket::new(ticket)).ok()
    }

    fn open_message_port(&mut self, port: u8, vp: u8, sint: u8, buffers: u8) -> Answer {
        let (vp, sint, buffers) = target(vp, sint, buffers);
        let reply = Board::open_message_port(self, Port::new(port), vp, sint, buffers);
        told(self, reply)
    }

    fn open_event_port(&mut self, port: u8, vp: u8, sint: u8, base: u16, count: u16) -> Answer {
        let (vp, sint, count) = target(vp, sint, count);
        let reply = Board::open_event_port(self, Port::new(port), vp, sint, base, count);
        told(self, reply)
    }

    fn close_port(&mut self, port: u8) -> Answer {
        let reply = Board::close_port(self, Port::new(port));
        told(self, reply)
    }

    fn write_msr(&mut self, vp: u8, msr: u32, value: u64) -> Answer {
        of_processor(self, vp, |board, vp| board.write(vp, msr, value))
    }

    fn read_msr(&mut self, vp: u8, msr: u32) -> Answer {
        of_processor(self, vp, |board, vp| board.read(vp, msr))
    }

    fn post_message(&mut self, port: u8, kind: u32, payload: &[u8]) -> Answer {
        let reply = self.post(Port::new(port), kind, payload);
        told(self, reply)
    }

    fn signal_event(&mut self, port: u8, flag: u16) -> Answer {
        let reply = self.signal(Port::new(port), flag);
        told(self, reply)
    }

    fn assert_irq(&mut self, vp: u8, vector: u8) -> Answer {
        let Some(vector) = Vector::new(vector) else {
            return unsupported();
        };
        of_processor(self, vp, |board, vp| board.assert(vp, vector))
    }

    fn absorb_posted(&mut self, vp: u8, part: u8, bits: u64) -> Answer {
        of_processor(self, vp, |board, vp| board.absorb(vp, part, bits))
    }

    fn guest_store(&mut self, address: u64, bytes: &[u8]) -> Answer {
        let reply = self.store(address, bytes);
        told(self, reply)
    }

    fn guest_load(&mut self, address: u64, length: u8) -> Answer {
        let reply = self.load(address, length);
        told(self, reply)
    }

    fn advance_time(&mut self, time: u64) -> Answer {
        let reply = self.tick(time);
        told(self, reply)
    }

    fn take_interrupt(&mut self, vp: u8) -> Answer {
        of_processor(self, vp, Board::take)
    }

    fn suspend(&mut self, vp: u8) -> Answer {
        of_processor(self, vp, Board::suspend)
    }

    fn resume(&mut self, vp: u8) -> Answer {
        of_processor(self, vp, Board::resume)
    }

    fn reset(&mut self, vp: u8) -> Answer {
        of_processor(self, vp, Board::reset)
    }

    fn send_interrupt(&mut self, vector: u8, mask: u64) -> Answer {
        let Some(vector) = Vector::new(vector) else {
            return unsupported();
        };
        let reply = self.send(vector, mask);
        told(self, reply)
    }
}

fn main() -> io::Result<()> {
    answer_all::<Board>()
}
