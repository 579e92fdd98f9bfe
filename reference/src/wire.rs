//! Records and orders as bytes: marks, kinds, the places of their fields.

use std::iter;
use std::ops::Range;

use crate::registry::Pair;

pub const RECORD_MARK: [u8; 2] = [0x4D, 0x45];
pub const ORDER_MARK: [u8; 2] = [0x4D, 0x4F];

// The kinds of records.
pub const START: u8 = 1;
pub const NCE: u8 = 2;
pub const SHUTDOWN: u8 = 3;
pub const ANSWER: u8 = 4;
pub const NONE: u8 = 5;
pub const DELAY: u8 = 6;

// The kinds of orders.
pub const ASK: u8 = 1;
pub const SET: u8 = 2;
pub const OK: u8 = 3;
pub const NOTOK: u8 = 4;
pub const NEW: u8 = 5;
pub const INVALID: u8 = 6;
pub const WAIT_SHORT: u8 = 7;
pub const WAIT_LONG: u8 = 8;

/// How many kinds of orders there are, with 0, which is none.
pub const ORDER_KINDS: u8 = WAIT_LONG + 1;

// Where the fields of records stand, and of orders as far as the pass.
pub const KIND: usize = 2;
pub const PASS: Range<usize> = 3..7;
pub const X: usize = 7;
pub const ADDRESS: Range<usize> = 8..10;
pub const COUNT: usize = 10;

/// Mark, kind, pass and x of a record.
pub const RECORD_HEAD: usize = X + 1;
/// An ANSWER in front of its pairs.
pub const ANSWER_HEAD: usize = COUNT + 1;
/// Mark, kind and pass of an order.
pub const ORDER_HEAD: usize = PASS.end;

/// A record without its rest.
pub fn event(kind: u8, pass: u32, x: u8) -> Vec<u8> {
    [&RECORD_MARK[..], &[kind], &pass.to_be_bytes(), &[x]].concat()
}

/// An ANSWER record.
pub fn answer(pass: u32, position: u8, address: u16, pairs: &[Pair]) -> Vec<u8> {
    let mut record = event(ANSWER, pass, position);
    record.extend_from_slice(&address.to_be_bytes());
    record.push(pairs.len() as u8);
    record.extend(pairs.iter().flat_map(|pair| [pair.block, pair.number]));
    record
}

/// An order.
pub fn order(kind: u8, pass: u32, data: &[u8]) -> Vec<u8> {
    [&ORDER_MARK[..], &[kind], &pass.to_be_bytes(), data].concat()
}

/// An order that names pairs, at most 255.
pub fn order_of_pairs(kind: u8, pass: u32, pairs: &[Pair]) -> Vec<u8> {
    let mut order = order(kind, pass, &[pairs.len() as u8]);
    order.extend(pairs.iter().flat_map(|pair| [pair.block, pair.number]));
    order
}

/// Pairs that stand one behind the other.
pub fn pairs(bytes: &[u8]) -> impl Iterator<Item = Pair> + '_ {
    bytes.chunks_exact(2).map(|pair| Pair { block: pair[0], number: pair[1] })
}

/// Orders that stand one behind the other, one by one.
pub fn orders(mut bytes: &[u8]) -> impl Iterator<Item = &[u8]> {
    iter::from_fn(move || {
        let (order, rest) = bytes.split_at_checked(order_length(bytes)?)?;
        bytes = rest;
        Some(order)
    })
}

/// The length of the first order.
fn order_length(orders: &[u8]) -> Option<usize> {
    let data = match *orders.get(KIND)? {
        ASK => 1,
        SET => 6,
        NEW | INVALID => 1 + 2 * *orders.get(ORDER_HEAD)? as usize,
        _ => 0,
    };
    Some(ORDER_HEAD + data)
}
