//! What a run accumulates: sums, which cost little next to an event, and a digest of everything.

use crate::board::Board;
use crate::board::events::{Notice, Owner, Reply};

const FACTOR: u64 = 0x0100_0000_01b3;

const START: u64 = 0xcbf2_9ce4_8422_2325;

pub trait Tally {
    fn add(&mut self, reply: &Reply, notices: &[Notice]);
}

#[derive(Default)]
pub struct Totals {
    pub notices: u64,
    pub replies: u64,
}

impl Tally for Totals {
    fn add(&mut self, reply: &Reply, notices: &[Notice]) {
        self.notices += notices.len() as u64;
        self.replies = self.replies.wrapping_add(value_of(reply));
    }
}

pub struct Digest(pub u64);

impl Tally for Digest {
    fn add(&mut self, reply: &Reply, notices: &[Notice]) {
        self.add_all(&[kind_of(reply), value_of(reply)]);
        for notice in notices {
            self.add_notice(notice);
        }
    }
}

impl Digest {
    pub fn new() -> Digest {
        Digest(START)
    }

    fn add_all(&mut self, values: &[u64]) {
        for value in values {
            self.0 = (self.0 ^ value).wrapping_mul(FACTOR);
        }
    }

    fn add_notice(&mut self, notice: &Notice) {
        match *notice {
            Notice::Accepted { ticket, vp, sint } => {
                self.add_all(&[1, ticket, vp.into(), sint.into()])
            }
            Notice::Placed { ticket, vp, sint } => {
                self.add_all(&[2, ticket, vp.into(), sint.into()])
            }
            Notice::Pending { vp, sint } => self.add_all(&[3, vp.into(), sint.into()]),
            Notice::Requested { vp, vector } => self.add_all(&[4, vp.into(), vector.into()]),
            Notice::FlagSet { vp, sint, flag } => {
                self.add_all(&[5, vp.into(), sint.into(), flag.into()]);
            }
            Notice::Consumed { ticket, vp, sint } => {
                self.add_all(&[6, ticket, vp.into(), sint.into()])
            }
            Notice::Withdrawn { ticket, vp, sint } => {
                self.add_all(&[7, ticket, vp.into(), sint.into()])
            }
            Notice::Expired { vp, index, due } => self.add_all(&[8, vp.into(), index.into(), due]),
            Notice::Skipped { vp, index, count } => {
                self.add_all(&[9, vp.into(), index.into(), count])
            }
        }
    }

    pub fn add_summary(&mut self, board: &Board) {
        for vp in 0..board.processors() {
            self.add_all(&[board.next(vp).unwrap_or(0).into()]);
            for sint in 0..16 {
                self.add_all(&[board.queued(vp, sint).into()]);
            }
        }
        for page in 0..board.pages() {
            self.add_owner(board.owner(page.into()));
        }
        if let Some((due, number)) = board.earliest() {
            for byte in due.to_le_bytes() {
                self.add_all(&[byte.into()]);
            }
            self.add_all(&[(number / 4).into(), (number % 4).into()]);
        }
    }

    /// Adds the owners of the first pages of a sparse board, of which the summary has none.
    pub fn add_owners(&mut self, board: &Board, pages: u16) {
        for page in 0..pages {
            self.add_owner(board.owner(page.into()));
        }
    }

    fn add_owner(&mut self, owner: Owner) {
        match owner {
            Owner::Guest => self.add_all(&[0]),
            Owner::Sim(vp) => self.add_all(&[1, vp.into()]),
            Owner::Sief(vp) => self.add_all(&[2, vp.into()]),
        }
    }
}

fn kind_of(reply: &Reply) -> u64 {
    match reply {
        Reply::Done => 1,
        Reply::Bytes { .. } => 3,
        Reply::Taken(_) => 4,
        Reply::Accepted(_) => 5,
        Reply::FlagWasClear => 6,
        Reply::FlagWasSet => 7,
        Reply::GeneralProtection => 8,
        Reply::Refused(_) => 9,
    }
}

fn value_of(reply: &Reply) -> u64 {
    match *reply {
        Reply::Accepted(ticket) => ticket,
        Reply::Bytes { word, .. } => word.to_le_bytes().into_iter().map(u64::from).sum(),
        Reply::Taken(Some(vector)) => vector.into(),
        Reply::FlagWasSet => 1,
        Reply::Refused(refusal) => refusal as u64,
        Reply::Done | Reply::Taken(None) | Reply::FlagWasClear | Reply::GeneralProtection => 0,
    }
}
