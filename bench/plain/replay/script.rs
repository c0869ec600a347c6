//! Parses the lines of a script.

use super::PAYLOAD;
use super::fields::Fields;
use crate::board::events::{Event, Shape};

pub enum Item<'a> {
    Event(Event<'a>),
    Summary,
}

/// Processors, pages and the first ticket.
pub fn opening_of(line: &[u8]) -> Option<(u8, u8, u64)> {
    let mut fields = Fields(line.strip_prefix(b"board ")?);
    let processors = fields.small()?;
    fields.space()?;
    let pages = fields.small()?;
    fields.space()?;
    let ticket = fields.decimal()?;
    fields.end()?;
    Some((processors, pages, ticket))
}

/// Dispatches on the first bytes. A payload is decoded to the buffer that the event borrows.
#[inline(always)]
pub fn event_of<'a>(line: &[u8], payload: &'a mut [u8; PAYLOAD]) -> Option<Item<'a>> {
    let event = match line {
        [b'w', b'r', b'i', b't', b'e', b' ', rest @ ..] => write_of(Fields(rest)),
        [b's', b't', b'o', b'r', b'e', b' ', rest @ ..] => store_of(Fields(rest)),
        [b's', b'i', b'g', b'n', b'a', b'l', b' ', rest @ ..] => signal_of(Fields(rest)),
        b"summary" => return Some(Item::Summary),
        [b't', b'i', b'c', b'k', b' ', rest @ ..] => tick_of(Fields(rest)),
        [b't', b'a', b'k', b'e', b' ', rest @ ..] => take_of(Fields(rest)),
        [b'a', b's', b's', b'e', b'r', b't', b' ', rest @ ..] => assert_of(Fields(rest)),
        [b'l', b'o', b'a', b'd', b' ', rest @ ..] => load_of(Fields(rest)),
        [b'p', b'o', b's', b't', b' ', rest @ ..] => post_of(Fields(rest), payload),
        [b'o', b'p', b'e', b'n', b' ', rest @ ..] => open_of(Fields(rest)),
        _ => rare_of(line),
    };
    Some(Item::Event(event?))
}

/// An actor's number and its event.
pub fn entry_of<'a>(line: &[u8], payload: &'a mut [u8; PAYLOAD]) -> Option<Event<'a>> {
    let mut fields = Fields(line);
    fields.small()?;
    fields.space()?;
    match event_of(fields.0, payload)? {
        Item::Event(event) => Some(event),
        Item::Summary => None,
    }
}

fn write_of(mut fields: Fields) -> Option<Event<'static>> {
    let vp = fields.small()?;
    fields.space()?;
    let register = fields.word()?;
    fields.space()?;
    let value = fields.hexadecimal()?;
    fields.end()?;
    Some(Event::Write {
        vp,
        register,
        value,
    })
}

fn store_of(mut fields: Fields) -> Option<Event<'static>> {
    let address = fields.hexadecimal()?;
    fields.space()?;
    let mut bytes = [0; 8];
    let length = fields.data(&mut bytes)? as u8;
    let word = u64::from_le_bytes(bytes);
    Some(Event::Store {
        address,
        word,
        length,
    })
}

fn load_of(mut fields: Fields) -> Option<Event<'static>> {
    let address = fields.hexadecimal()?;
    fields.space()?;
    let length = fields.small()?;
    fields.end()?;
    Some(Event::Load { address, length })
}

fn signal_of(mut fields: Fields) -> Option<Event<'static>> {
    let port = fields.small()?;
    fields.space()?;
    let flag = fields.flag()?;
    fields.end()?;
    Some(Event::Signal { port, flag })
}

fn tick_of(mut fields: Fields) -> Option<Event<'static>> {
    let moment = fields.decimal()?;
    fields.end()?;
    Some(Event::Tick { moment })
}

/// Suspend, resume and reset are rare, so they are out of line.
#[inline(never)]
fn rare_of(line: &[u8]) -> Option<Event<'static>> {
    let place = line.iter().position(|byte| *byte == b' ')?;
    let vp = || processor_of(Fields(&line[place + 1..]));
    match &line[..place] {
        b"suspend" => vp().map(|vp| Event::Suspend { vp }),
        b"resume" => vp().map(|vp| Event::Resume { vp }),
        b"reset" => vp().map(|vp| Event::Reset { vp }),
        _ => None,
    }
}

#[inline(never)]
fn take_of(fields: Fields) -> Option<Event<'static>> {
    processor_of(fields).map(|vp| Event::Take { vp })
}

fn processor_of(mut fields: Fields) -> Option<u8> {
    let vp = fields.small()?;
    fields.end()?;
    Some(vp)
}

fn assert_of(mut fields: Fields) -> Option<Event<'static>> {
    let vp = fields.small()?;
    fields.space()?;
    let vector = fields.byte().filter(|vector| *vector >= 16)?;
    fields.end()?;
    Some(Event::Assert { vp, vector })
}

fn post_of<'a>(mut fields: Fields, payload: &'a mut [u8; PAYLOAD]) -> Option<Event<'a>> {
    let port = fields.small()?;
    fields.space()?;
    let kind = fields.word()?;
    fields.space()?;
    let length = fields.data(payload)?;
    Some(Event::Post {
        port,
        kind,
        payload: &payload[..length],
    })
}

fn open_of(mut fields: Fields) -> Option<Event<'static>> {
    let port = fields.small()?;
    fields.space()?;
    let is_message = fields.0.starts_with(b"message ");
    let word: &[u8] = if is_message { b"message " } else { b"event " };
    fields.0 = fields.0.strip_prefix(word)?;
    let vp = fields.small()?;
    fields.space()?;
    let sint = fields.small()?;
    fields.space()?;
    let shape = if is_message {
        let buffers = fields.small()?;
        Shape::Messages { buffers }
    } else {
        let base = fields.flag()?;
        fields.space()?;
        let count = fields.flag()?;
        Shape::Flags { base, count }
    };
    fields.end()?;
    Some(Event::OpenPort {
        port,
        vp,
        sint,
        shape,
    })
}
