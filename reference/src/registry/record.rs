//! The reading of an event record.

use super::Pair;
use crate::sizes::{MAX_NODES, MAX_PAIRS};
use crate::wire::{self, ANSWER, ANSWER_HEAD, DELAY, NCE, NONE, RECORD_HEAD, RECORD_MARK, SHUTDOWN, START};

/// The address and the pairs that a unit announces.
pub struct Announcement<'a> {
    pub address: u16,
    bytes: &'a [u8],
}

impl Announcement<'_> {
    pub fn pairs(&self) -> impl Iterator<Item = Pair> + '_ {
        wire::pairs(self.bytes)
    }

    pub fn pair(&self, index: u8) -> Option<Pair> {
        let at = index as usize * 2;
        let pair = self.bytes.get(at..at + 2)?;
        Some(Pair { block: pair[0], number: pair[1] })
    }
}

/// A well-formed record.
pub enum Event<'a> {
    Start { nodes: u8 },
    NetworkChange { nodes: u8 },
    Shutdown,
    Answer { pass: u32, position: u8, announcement: Announcement<'a> },
    NoAnswer { pass: u32, position: u8 },
    Delay { pass: u32 },
}

impl<'a> Event<'a> {
    /// Nothing where the record is malformed.
    pub fn read(bytes: &'a [u8]) -> Option<Event<'a>> {
        let (&[m0, m1, kind, p0, p1, p2, p3, x], rest) = bytes.split_first_chunk::<RECORD_HEAD>()?;
        if [m0, m1] != RECORD_MARK {
            return None;
        }
        let pass = u32::from_be_bytes([p0, p1, p2, p3]);
        if kind == ANSWER {
            return Some(Event::Answer { pass, position: x, announcement: read_announcement(rest)? });
        }
        if !rest.is_empty() {
            return None;
        }
        let is_node_count = (1..=MAX_NODES).contains(&(x as usize));
        match kind {
            START if pass == 0 && is_node_count => Some(Event::Start { nodes: x }),
            NCE if pass == 0 && is_node_count => Some(Event::NetworkChange { nodes: x }),
            SHUTDOWN if pass == 0 && x == 0 => Some(Event::Shutdown),
            NONE => Some(Event::NoAnswer { pass, position: x }),
            DELAY if x == 0 => Some(Event::Delay { pass }),
            _ => None,
        }
    }
}

fn read_announcement(rest: &[u8]) -> Option<Announcement<'_>> {
    let (&[high, low, count], bytes) = rest.split_first_chunk::<{ ANSWER_HEAD - RECORD_HEAD }>()?;
    let fits = count as usize <= MAX_PAIRS && bytes.len() == 2 * count as usize;
    let blocks_are_good = bytes.chunks(2).all(|pair| !matches!(pair[0], 0x00 | 0x01 | 0xFF));
    (fits && blocks_are_good).then_some(Announcement { address: u16::from_be_bytes([high, low]), bytes })
}
