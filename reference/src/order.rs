//! The reading of an order.

use crate::registry::Pair;
use crate::wire::{self, ASK, INVALID, NEW, NOTOK, OK, ORDER_HEAD, ORDER_MARK, SET, WAIT_LONG, WAIT_SHORT};

/// A well-formed order.
#[derive(Clone, Copy, PartialEq, Eq, Debug)]
pub struct Order<'a> {
    pub pass: u32,
    pub content: Content<'a>,
}

/// What an order says.
#[derive(Clone, Copy, PartialEq, Eq, Debug)]
pub enum Content<'a> {
    Ask {
        position: u8,
    },
    /// The pair `old` becomes one with the number `new`.
    Set {
        position: u8,
        address: u16,
        old: Pair,
        new: u8,
    },
    Ok,
    NotOk,
    New(Pairs<'a>),
    Invalid(Pairs<'a>),
    WaitShort,
    WaitLong,
}

/// The pairs that an order names.
#[derive(Clone, Copy, PartialEq, Eq, Debug)]
pub struct Pairs<'a>(&'a [u8]);

impl<'a> Pairs<'a> {
    /// A count, and as many pairs.
    fn read(data: &'a [u8]) -> Option<Pairs<'a>> {
        let (&count, pairs) = data.split_first()?;
        (pairs.len() == 2 * count as usize).then_some(Pairs(pairs))
    }

    pub fn iter(self) -> impl Iterator<Item = Pair> + 'a {
        wire::pairs(self.0)
    }

    pub fn contain(self, pair: Pair) -> bool {
        self.iter().any(|named| named == pair)
    }
}

impl<'a> Order<'a> {
    /// Nothing where length, mark or kind is wrong.
    pub fn read(bytes: &'a [u8]) -> Option<Order<'a>> {
        let (&[m0, m1, kind, p0, p1, p2, p3], data) = bytes.split_first_chunk::<ORDER_HEAD>()?;
        if [m0, m1] != ORDER_MARK {
            return None;
        }
        let content = match (kind, data) {
            (ASK, &[position]) => Content::Ask { position },
            (SET, &[position, high, low, block, number, new]) => {
                let address = u16::from_be_bytes([high, low]);
                Content::Set { position, address, old: Pair { block, number }, new }
            }
            (OK, []) => Content::Ok,
            (NOTOK, []) => Content::NotOk,
            (NEW, data) => Content::New(Pairs::read(data)?),
            (INVALID, data) => Content::Invalid(Pairs::read(data)?),
            (WAIT_SHORT, []) => Content::WaitShort,
            (WAIT_LONG, []) => Content::WaitLong,
            _ => return None,
        };
        Some(Order { pass: u32::from_be_bytes([p0, p1, p2, p3]), content })
    }
}
