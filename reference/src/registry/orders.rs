//! The writing of orders into lent room.

use super::Pair;
use crate::wire::{ASK, INVALID, NEW, NOTOK, OK, ORDER_MARK, SET, WAIT_LONG, WAIT_SHORT};

/// Order room and how much of it is written.
pub struct Orders<'a> {
    room: &'a mut [u8],
    length: usize,
}

impl<'a> Orders<'a> {
    pub fn new(room: &'a mut [u8]) -> Orders<'a> {
        Orders { room, length: 0 }
    }

    pub fn length(&self) -> usize {
        self.length
    }

    fn put<const K: usize>(&mut self, bytes: [u8; K]) {
        self.room[self.length..self.length + K].copy_from_slice(&bytes);
        self.length += K;
    }

    fn head(&mut self, kind: u8, pass: u32) {
        self.put(ORDER_MARK);
        self.put([kind]);
        self.put(pass.to_be_bytes());
    }

    pub fn ask(&mut self, pass: u32, position: u8) {
        self.head(ASK, pass);
        self.put([position]);
    }

    pub fn set(&mut self, pass: u32, position: u8, address: u16, pair: Pair, number: u8) {
        let [high, low] = address.to_be_bytes();
        self.head(SET, pass);
        self.put([position, high, low, pair.block, pair.number, number]);
    }

    pub fn ok(&mut self, pass: u32) {
        self.head(OK, pass);
    }

    pub fn not_ok(&mut self, pass: u32) {
        self.head(NOTOK, pass);
    }

    pub fn wait(&mut self, pass: u32, short: bool) {
        self.head(if short { WAIT_SHORT } else { WAIT_LONG }, pass);
    }

    /// INVALID for these pairs, at most `size` in an order.
    pub fn invalid<'p>(&mut self, pass: u32, size: usize, pairs: impl IntoIterator<Item = &'p Pair>) {
        self.pairs(INVALID, pass, size, pairs);
    }

    /// NEW for these pairs, at most `size` in an order.
    pub fn new_pairs<'p>(&mut self, pass: u32, size: usize, pairs: impl IntoIterator<Item = &'p Pair>) {
        self.pairs(NEW, pass, size, pairs);
    }

    fn pairs<'p>(&mut self, kind: u8, pass: u32, size: usize, pairs: impl IntoIterator<Item = &'p Pair>) {
        let mut count_at = 0;
        for (index, pair) in pairs.into_iter().enumerate() {
            if index % size == 0 {
                self.head(kind, pass);
                count_at = self.length;
                self.put([0]);
            }
            self.put([pair.block, pair.number]);
            self.room[count_at] += 1;
        }
    }
}
