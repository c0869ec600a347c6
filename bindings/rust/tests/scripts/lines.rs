//! A strict parser of script lines, as in `docs/FORMATS.md`: each event has exactly one line.

use std::str::{self, FromStr};
use synicboard::{Bytes, Event, PortShape, Ticket, Vector, Vp};

/// The greatest length of a line, without its line feed.
const MOST_BYTES: usize = 640;

/// The lines of a text without their line feeds, up to the first that is too long or has none.
pub struct Lines<'a> {
    rest: &'a [u8],
}

impl<'a> Lines<'a> {
    pub fn of(text: &'a [u8]) -> Lines<'a> {
        Lines { rest: text }
    }
}

impl<'a> Iterator for Lines<'a> {
    type Item = Result<&'a [u8], &'static str>;

    fn next(&mut self) -> Option<Self::Item> {
        let front = &self.rest[..self.rest.len().min(MOST_BYTES + 1)];
        match front.iter().position(|&byte| byte == b'\n') {
            Some(end) => {
                self.rest = &self.rest[end + 1..];
                Some(Ok(&front[..end]))
            }
            None if front.is_empty() => None,
            None if front.len() > MOST_BYTES => Some(Err("long")),
            None => Some(Err("cut")),
        }
    }
}

/// A parsed line after the board line.
pub enum Step {
    Event(Box<Event>),
    /// An event with a processor or a source that no board has and no type. This one has others in their place; if
    /// it opens a port, it is refused in the same way.
    Beyond(Box<Event>),
    Summary,
}

/// The processors, pages and first ticket of a board line.
pub fn opening(line: &[u8]) -> Option<(u8, u8, Ticket)> {
    match *fields(line)?.as_slice() {
        ["board", processors, pages, ticket] => {
            Some((decimal(processors)?, decimal(pages)?, decimal(ticket)?))
        }
        _ => None,
    }
}

/// Parses a line that is not skipped; `None` if it is malformed.
pub fn step(line: &[u8]) -> Option<Step> {
    let fields = fields(line)?;
    if fields == ["summary"] {
        return Some(Step::Summary);
    }
    let event = event(&fields).map(Box::new).map(Step::Event);
    event.or_else(|| beyond(&fields).map(Box::new).map(Step::Beyond))
}

fn event(fields: &[&str]) -> Option<Event> {
    let event = port_event(fields).or_else(|| guest_event(fields));
    event.or_else(|| host_event(fields)).or_else(|| processor_event(fields))
}

fn beyond(fields: &[&str]) -> Option<Event> {
    let numbers = if fields[0] == "open" { 3..5 } else { 1..2 };
    let mut fields = fields.to_vec();
    for field in fields.get_mut(numbers)? {
        decimal::<u8>(field)?;
        *field = "0";
    }
    match event(&fields)? {
        Event::OpenPort { port, vp, sint, .. } => {
            Some(Event::OpenPort { port, vp, sint, shape: PortShape::Messages { buffers: 0 } })
        }
        event => Some(event),
    }
}

fn fields(line: &[u8]) -> Option<Vec<&str>> {
    Some(str::from_utf8(line).ok()?.split(' ').collect())
}

fn port_event(fields: &[&str]) -> Option<Event> {
    Some(match *fields {
        ["open", port, "message", vp, sint, buffers] => Event::OpenPort {
            port: decimal(port)?,
            vp: decimal(vp)?,
            sint: decimal(sint)?,
            shape: PortShape::Messages { buffers: decimal(buffers)? },
        },
        ["open", port, "event", vp, sint, base, count] => Event::OpenPort {
            port: decimal(port)?,
            vp: decimal(vp)?,
            sint: decimal(sint)?,
            shape: PortShape::Flags { base: decimal(base)?, count: decimal(count)? },
        },
        ["close", port] => Event::ClosePort { port: decimal(port)? },
        ["post", port, kind, payload] => {
            Event::Post { port: decimal(port)?, kind: hexadecimal(kind)?, payload: bytes(payload)? }
        }
        ["signal", port, flag] => Event::Signal { port: decimal(port)?, flag: decimal(flag)? },
        _ => return None,
    })
}

fn guest_event(fields: &[&str]) -> Option<Event> {
    Some(match *fields {
        ["write", vp, register, value] => {
            Event::Write { vp: decimal(vp)?, register: hexadecimal(register)?, value: hexadecimal(value)? }
        }
        ["read", vp, register] => Event::Read { vp: decimal(vp)?, register: hexadecimal(register)? },
        ["store", address, stored] => Event::Store { address: hexadecimal(address)?, bytes: bytes(stored)? },
        ["load", address, length] => Event::Load { address: hexadecimal(address)?, length: decimal(length)? },
        _ => return None,
    })
}

fn host_event(fields: &[&str]) -> Option<Event> {
    Some(match *fields {
        ["assert", vp, asserted] => Event::Assert { vp: decimal(vp)?, vector: vector(asserted)? },
        ["absorb", vp, part, bits] => {
            Event::Absorb { vp: decimal(vp)?, part: decimal(part)?, bits: hexadecimal(bits)? }
        }
        ["tick", moment] => Event::Tick { moment: decimal(moment)? },
        ["send", sent, mask] => Event::Send { vector: vector(sent)?, mask: hexadecimal(mask)? },
        _ => return None,
    })
}

fn processor_event(fields: &[&str]) -> Option<Event> {
    let [word, vp] = *fields else { return None };
    let vp: Vp = decimal(vp)?;
    match word {
        "take" => Some(Event::Take { vp }),
        "suspend" => Some(Event::Suspend { vp }),
        "resume" => Some(Event::Resume { vp }),
        "reset" => Some(Event::Reset { vp }),
        _ => None,
    }
}

fn decimal<T: FromStr>(field: &str) -> Option<T> {
    let is_plain = field.bytes().all(|byte| byte.is_ascii_digit()) && has_plain_front(field);
    is_plain.then(|| field.parse().ok())?
}

fn hexadecimal<T: TryFrom<u64>>(field: &str) -> Option<T> {
    let is_plain = field.bytes().all(is_hexadecimal_digit) && has_plain_front(field);
    let value = is_plain.then(|| u64::from_str_radix(field, 16).ok())?;
    value?.try_into().ok()
}

/// No leading zero, except that zero is `0`.
fn has_plain_front(field: &str) -> bool {
    field == "0" || !field.starts_with('0')
}

fn is_hexadecimal_digit(byte: u8) -> bool {
    matches!(byte, b'0'..=b'9' | b'a'..=b'f')
}

fn two_digits(field: &str) -> Option<u8> {
    let is_plain = field.len() == 2 && field.bytes().all(is_hexadecimal_digit);
    is_plain.then(|| u8::from_str_radix(field, 16).ok())?
}

fn vector(field: &str) -> Option<Vector> {
    Vector::new(two_digits(field)?)
}

fn bytes<const MOST: usize>(field: &str) -> Option<Bytes<MOST>> {
    if field == "-" {
        return Bytes::new(&[]);
    }
    if field.is_empty() {
        return None;
    }
    let pairs = field.as_bytes().chunks(2);
    let read = pairs.map(|pair| two_digits(str::from_utf8(pair).ok()?));
    Bytes::new(&read.collect::<Option<Vec<u8>>>()?)
}
