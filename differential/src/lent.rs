//! Room that is lent to both boxes: a pattern stands in it and around it, and every byte is compared afterwards.

use std::rc::Rc;

use crate::script::{differ, differ_at, must, must_at, Difference};

const GUARD: usize = 64;
/// Lent room and the bytes of a call begin at this many places in turn, so that they have every alignment.
const STARTS: usize = 16;

/// What lent room is filled with, from any place on.
#[derive(Clone)]
pub struct Pattern(Rc<[u8]>);

impl Pattern {
    /// For room of at most `most` bytes, made from random words.
    pub fn new(most: usize, mut word: impl FnMut() -> u64) -> Pattern {
        let area = STARTS + most + 2 * GUARD;
        Pattern((0..2 * area / 8).flat_map(|_| word().to_le_bytes()).collect())
    }
}

/// How differences name the number that a call gives back, and the length of what it writes.
pub struct Names {
    pub number: &'static str,
    pub length: &'static str,
}

/// The room of both boxes.
pub struct Lent {
    names: Names,
    pattern: Pattern,
    rooms: [Vec<u8>; 2],
    start: usize,
}

impl Lent {
    pub fn new(names: Names, pattern: Pattern) -> Lent {
        Lent { names, pattern, rooms: [Vec::new(), Vec::new()], start: 0 }
    }

    /// Both take the bytes with as much room, filled with the pattern from place `fill` on; each gives a number and how many bytes it
    /// writes to the start of its room.
    pub fn offer(
        &mut self,
        bytes: &[u8],
        room: usize,
        fill: usize,
        proved: impl FnOnce(&[u8], &mut [u8]) -> (u8, usize),
        reference: impl FnOnce(&[u8], &mut [u8]) -> (u8, usize),
    ) -> Result<(u8, usize), Difference> {
        let shift = fill % STARTS;
        let bytes = &[&[0; STARTS][..shift], bytes].concat()[shift..];
        let start = GUARD + shift;
        let end = start + room;
        let from = fill % (self.pattern.0.len() / 2);
        let pattern = &self.pattern.0[from..from + end + GUARD];
        let [proved_room, reference_room] = &mut self.rooms;
        for room in [&mut *proved_room, reference_room] {
            room.clear();
            room.extend_from_slice(pattern);
        }
        self.start = start;

        let (proved_number, proved_length) = proved(bytes, &mut proved_room[start..end]);
        let (number, length) = reference(bytes, &mut reference_room[start..end]);

        differ(self.names.number, proved_number, number)?;
        differ(self.names.length, proved_length, length)?;
        differ_at("byte of the room", &proved_room[start..end], &reference_room[start..end])?;
        let written = start + length;
        must_at("proved: byte in front of the room", &proved_room[..start], &pattern[..start])?;
        must_at("proved: byte behind what is written", &proved_room[written..], &pattern[written..])?;
        must_at("reference: byte behind what is written", &reference_room[written..], &pattern[written..])?;
        if number != 0 {
            must("both: length beside a refusal", length, 0)?;
        }
        Ok((number, length))
    }

    /// What both wrote last, so many bytes, as the proved side has it.
    pub fn written(&self, length: usize) -> &[u8] {
        &self.rooms[0][self.start..self.start + length]
    }
}
