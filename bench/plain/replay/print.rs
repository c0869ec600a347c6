//! The lines of replies, of notices and of a summary.

use super::text::Text;
use crate::board::Board;
use crate::board::events::{Notice, Owner, Reply};

pub fn put_reply(text: &mut Text, reply: &Reply) {
    match *reply {
        Reply::Done => text.put(b"= done\n"),
        Reply::Bytes { word, length } => {
            text.put(b"= bytes ");
            if length == 8 {
                text.put_word(word.swap_bytes());
            } else {
                for byte in &word.to_le_bytes()[..length as usize] {
                    text.put_byte(*byte);
                }
            }
            text.put(b"\n");
        }
        Reply::Taken(vector) => {
            text.put(b"= taken ");
            put_vector(text, vector);
            text.put(b"\n");
        }
        Reply::Accepted(ticket) => {
            text.put(b"= accepted ");
            text.put_decimal(ticket);
            text.put(b"\n");
        }
        Reply::FlagWasClear => text.put(b"= clear\n"),
        Reply::FlagWasSet => text.put(b"= set\n"),
        Reply::GeneralProtection => text.put(b"= general protection\n"),
        Reply::Refused(refusal) => {
            text.put(b"= refused ");
            text.put_small(refusal as u8);
            text.put(b"\n");
        }
    }
}

fn put_vector(text: &mut Text, vector: Option<u8>) {
    match vector {
        Some(vector) => text.put_byte(vector),
        None => text.put(b"none"),
    }
}

#[inline(always)]
pub fn put_notice(text: &mut Text, notice: &Notice) {
    match *notice {
        Notice::Accepted { ticket, vp, sint } => put_ticket(text, b". accepted ", ticket, vp, sint),
        Notice::Placed { ticket, vp, sint } => put_ticket(text, b". placed ", ticket, vp, sint),
        Notice::Consumed { ticket, vp, sint } => put_ticket(text, b". consumed ", ticket, vp, sint),
        Notice::Withdrawn { ticket, vp, sint } => put_withdrawn(text, ticket, vp, sint),
        Notice::Expired { vp, index, due } => put_numbers(text, b". expired ", vp, index, due),
        Notice::Skipped { vp, index, count } => put_numbers(text, b". skipped ", vp, index, count),
        Notice::FlagSet { vp, sint, flag } => put_numbers(text, b". flag ", vp, sint, flag.into()),
        Notice::Pending { vp, sint } => {
            text.put(b". pending ");
            text.put_pair(vp, sint);
            text.put(b"\n");
        }
        Notice::Requested { vp, vector } => {
            text.put(b". requested ");
            text.put_small(vp);
            text.put(b" ");
            text.put_byte(vector);
            text.put(b"\n");
        }
    }
}

/// Only resets emit these, so this is out of line.
#[cold]
#[inline(never)]
fn put_withdrawn(text: &mut Text, ticket: u64, vp: u8, sint: u8) {
    put_ticket(text, b". withdrawn ", ticket, vp, sint);
}

#[inline(always)]
fn put_ticket<const N: usize>(text: &mut Text, word: &[u8; N], ticket: u64, vp: u8, sint: u8) {
    text.put(word);
    text.put_decimal(ticket);
    text.put(b" ");
    text.put_pair(vp, sint);
    text.put(b"\n");
}

#[inline(always)]
fn put_numbers<const N: usize>(text: &mut Text, word: &[u8; N], former: u8, latter: u8, last: u64) {
    text.put(word);
    text.put_pair(former, latter);
    text.put(b" ");
    text.put_decimal(last);
    text.put(b"\n");
}

pub fn put_summary(text: &mut Text, board: &Board) {
    for vp in 0..board.processors() {
        text.put(b": next ");
        text.put_small(vp);
        text.put(b" ");
        put_vector(text, board.next(vp));
        text.put(b"\n");
    }
    for vp in 0..board.processors() {
        put_auto(text, vp, board);
    }
    text.put(b": timer ");
    match board.earliest() {
        Some((due, number)) => {
            text.put_long(due);
            text.put(b" ");
            text.put_pair(number / 4, number % 4);
        }
        None => text.put(b"none"),
    }
    text.put(b"\n");
    for page in 0..board.pages() {
        put_owner(text, page, board.owner(page.into()));
    }
    for vp in 0..board.processors() {
        put_queues(text, vp, board);
    }
}

fn put_auto(text: &mut Text, vp: u8, board: &Board) {
    if !(16..=255).any(|vector| board.is_auto(vp, vector)) {
        return;
    }
    text.put(b": auto ");
    text.put_small(vp);
    for vector in (16..=255).filter(|vector| board.is_auto(vp, *vector)) {
        text.put(b" ");
        text.put_byte(vector);
    }
    text.put(b"\n");
}

fn put_owner(text: &mut Text, page: u8, owner: Owner) {
    let (word, vp) = match owner {
        Owner::Guest => return,
        Owner::Sim(vp) => (&b" sim "[..], vp),
        Owner::Sief(vp) => (&b" sief "[..], vp),
    };
    text.put(b": page ");
    text.put_small(page);
    text.put_all(word);
    text.put_small(vp);
    text.put(b"\n");
}

fn put_queues(text: &mut Text, vp: u8, board: &Board) {
    for sint in 0..16 {
        let length = board.queued(vp, sint);
        if length != 0 {
            text.put(b": queue ");
            text.put_pair(vp, sint);
            text.put(b" ");
            text.put_decimal(length.into());
            text.put(b"\n");
        }
    }
}
