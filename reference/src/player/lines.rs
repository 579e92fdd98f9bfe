//! Records, orders and differences as lines.

use super::{put, put_hex};
use crate::compare::{Change, Difference};
use crate::order::{Content, Order, Pairs};
use crate::registry::Pair;
use crate::wire::{self, ANSWER, ASK, INVALID, NEW, SET, WAIT_LONG};

/// Writes fields of the given lengths with a blank before each, as far as the bytes go; gives what is left.
fn put_fields<'a>(out: &mut Vec<u8>, mut bytes: &'a [u8], lengths: &[usize]) -> &'a [u8] {
    for &length in lengths {
        if bytes.is_empty() {
            break;
        }
        let (field, rest) = bytes.split_at(length.min(bytes.len()));
        out.push(b' ');
        put_hex(out, field);
        bytes = rest;
    }
    bytes
}

/// Writes what is left in fields of two bytes, or in one.
fn put_rest(out: &mut Vec<u8>, bytes: &[u8], are_pairs: bool) {
    let length = if are_pairs { 2 } else { bytes.len().max(1) };
    for field in bytes.chunks(length) {
        put_fields(out, field, &[length]);
    }
}

/// Writes the normal form of a record.
pub fn put_record(out: &mut Vec<u8>, bytes: &[u8]) {
    out.push(b'>');
    let is_answer = bytes.get(wire::KIND) == Some(&ANSWER);
    let rest = put_fields(out, bytes, &[2, 1, 4, 1]);
    let rest = put_fields(out, rest, if is_answer { &[2, 1] } else { &[] });
    put_rest(out, rest, is_answer);
}

/// Writes the normal form of an order.
pub fn put_order(out: &mut Vec<u8>, bytes: &[u8]) {
    out.push(b'<');
    let kind = bytes.get(wire::KIND).copied().unwrap_or(0);
    let fields: &[usize] = match kind {
        SET => &[1, 2, 1, 1],
        ASK..=WAIT_LONG => &[1],
        _ => &[],
    };
    let rest = put_fields(out, bytes, &[2, 1, 4]);
    let rest = put_fields(out, rest, fields);
    put_rest(out, rest, matches!(kind, NEW | INVALID));
}

/// Writes the line of an order that the registry gives.
pub fn put_order_line(out: &mut Vec<u8>, bytes: &[u8]) {
    let order = Order::read(bytes).expect("the registry gives well-formed orders");
    put_order(out, bytes);
    out.extend_from_slice(b"  ");
    put_meaning(out, order.content);
    out.push(b'\n');
}

/// Writes an order in words.
fn put_meaning(out: &mut Vec<u8>, content: Content) {
    match content {
        Content::Ask { position } => put!(out, "ASK position {position}"),
        Content::Set { position, address, old: Pair { block, number }, new } => {
            put!(out, "SET position {position} ({address:04X}): {block:02X}.{number:02X} becomes {block:02X}.{new:02X}")
        }
        Content::Ok => put!(out, "OK: the registry stands"),
        Content::NotOk => put!(out, "NOTOK: the registry is made anew"),
        Content::New(pairs) => put_pairs(out, "NEW:", pairs),
        Content::Invalid(pairs) => put_pairs(out, "INVALID:", pairs),
        Content::WaitShort => put!(out, "WAIT SHORT: then DELAY asks the silent units"),
        Content::WaitLong => put!(out, "WAIT LONG: then DELAY asks the silent units"),
    }
}

fn put_pairs(out: &mut Vec<u8>, word: &str, pairs: Pairs) {
    put!(out, "{word}");
    pairs.iter().for_each(|pair| put_pair(out, pair));
}

/// Writes the line of a difference.
pub fn put_difference_line(out: &mut Vec<u8>, difference: &Difference) {
    let [kind, position, high, low, block, number] = difference.bytes();
    let address = u16::from_be_bytes([high, low]);
    put!(out, "= {kind} {position} {address:04X} {block:02X} {number:02X}  position {position}");
    match difference.change {
        Change::PositionGone => put!(out, " is gone\n"),
        Change::PositionNew { .. } => put!(out, " is new, with address {address:04X}\n"),
        Change::AddressChanged { .. } => put!(out, ": the address is now {address:04X}\n"),
        Change::PairGone(_) => put!(out, ": pair {block:02X}.{number:02X} is gone\n"),
        Change::PairNew(_) => put!(out, ": pair {block:02X}.{number:02X} is new\n"),
    }
}

/// Writes a pair with a blank before it.
pub fn put_pair(out: &mut Vec<u8>, pair: Pair) {
    put!(out, " {:02X}.{:02X}", pair.block, pair.number);
}
