//! Records that do not go on with the scan: damaged, late, of another pass or position, with too little room.

use super::{Play, Played, Stage};
use crate::generate::Random;
use crate::registry::{Pair, State};
use crate::sizes::{MAX_NODES, MAX_PAIRS, MAX_UNITS, MIN_ROOM};
use crate::wire::{
    answer, event, ANSWER, ANSWER_HEAD, COUNT, DELAY, KIND, NCE, NONE, PASS, RECORD_MARK, SHUTDOWN, START, X,
};

const ROOMS: &[usize] = &[
    0,
    511,
    512,
    MIN_ROOM / 2,
    MIN_ROOM - 2,
    MIN_ROOM - 1,
    MIN_ROOM - 1,
    MIN_ROOM,
    MIN_ROOM,
    MIN_ROOM + 1,
    2 * MIN_ROOM,
];
const COUNTS: &[usize] = &[0, 1, MAX_PAIRS - 1, MAX_PAIRS, MAX_PAIRS + 1, MAX_PAIRS + 2, 2 * MAX_PAIRS, 255];
const BAD_NODES: &[usize] = &[0, MAX_NODES + 1, MAX_NODES + 2, 127, 128, 255];

impl<S: Stage> Play<'_, S> {
    /// One of them, or a unit that changes its place.
    pub fn noise(&mut self) -> Played<S> {
        let position = self.any_position();
        match self.random.below(50) {
            0..=8 => self.damaged_record(),
            9..=11 => self.wrong_pass(),
            12..=14 => self.late_record(),
            15..=17 => self.wrong_position(),
            18 | 19 => self.event(START, 0, 3),
            20 | 21 => self.event(DELAY, self.pass(), 0),
            22..=26 => self.event(NONE, self.pass(), position),
            27 => self.garbage(),
            28 => self.swap_units(),
            29..=33 => self.announce(position),
            34 | 35 => {
                let address = self.other_address();
                self.announce_address(position, address)
            }
            36 => self.replug(),
            37 => self.barred_unit(),
            38..=43 => self.lent_room(),
            44 => self.offer(&[]),
            45 | 46 => self.event(SHUTDOWN, 0, 0),
            _ => {
                let record = self.taken_record();
                self.offer(&record)
            }
        }
    }

    /// A record that was offered before.
    fn late_record(&mut self) -> Played<S> {
        match self.past.len() {
            0 => self.offer(&[]),
            length => {
                let late = self.random.pick(&[1, 1, 2, 3, 4, 9, 31, 64]).min(length);
                self.offer(&self.past[length - late].clone())
            }
        }
    }

    fn swap_units(&mut self) -> Played<S> {
        let nodes = self.nodes().max(2);
        let (one, other) = (self.random.below(nodes), self.random.below(nodes));
        self.units.swap(one, other);
        Ok(())
    }

    /// A unit announces an address that is barred, or one that a listed unit keeps.
    pub fn barred_unit(&mut self) -> Played<S> {
        let held = self.held_addresses();
        if held.is_empty() {
            return self.go_on();
        }
        let (position, address) = (self.any_position(), self.random.pick(&held));
        self.announce_address(position, address)
    }

    /// Order room near the edges.
    fn lent_room(&mut self) -> Played<S> {
        let room = self.random.pick(ROOMS).min(S::MOST_ROOM);
        let record = if self.random.chance(25) { self.damaged() } else { self.taken_record() };
        self.offer_with(&record, Some(room))
    }

    fn wrong_pass(&mut self) -> Played<S> {
        let pass = self.pass();
        let other = pass ^ 1 << self.random.below(32);
        let wrong = self.random.pick(&[pass.wrapping_sub(1), pass.wrapping_add(1), 0, other, other]);
        let position = self.any_position();
        let mut record = match self.random.below(3) {
            0 => event(NONE, pass, position),
            1 => event(DELAY, pass, 0),
            _ => self.announcement(position),
        };
        record[PASS].copy_from_slice(&wrong.to_be_bytes());
        self.offer(&record)
    }

    fn wrong_position(&mut self) -> Played<S> {
        let nodes = self.nodes();
        let edges = [0, nodes, nodes + 1, MAX_UNITS, MAX_NODES, MAX_NODES + 1, 128, 255];
        let position = self.random.pick(&edges) as u8;
        match self.random.chance(50) {
            true => self.event(NONE, self.pass(), position),
            false => self.announce(position),
        }
    }

    fn garbage(&mut self) -> Played<S> {
        let length = self.random.below(ANSWER_HEAD + 2 * MAX_PAIRS + 20);
        let mut record: Vec<u8> = (0..length).map(|_| self.random.byte()).collect();
        if length > KIND && self.random.chance(60) {
            record[..KIND].copy_from_slice(&RECORD_MARK);
            record[KIND] = self.random.below(9) as u8;
        }
        self.offer(&record)
    }

    /// A record that would be taken now.
    pub fn taken_record(&mut self) -> Vec<u8> {
        let (pass, nodes) = (self.pass(), self.ring_size() as u8);
        if self.ring().state() == State::Off {
            return event(START, 0, nodes);
        }
        let open = self.open_positions();
        let position = if open.is_empty() { self.any_position() } else { self.random.pick(&open) };
        match self.random.below(12) {
            0 => event(NCE, 0, nodes),
            1 => event(SHUTDOWN, 0, 0),
            2 | 3 => event(NONE, pass, position),
            4 if self.ring().delay_runs() => event(DELAY, pass, 0),
            _ => self.announcement(position),
        }
    }

    pub fn damaged_record(&mut self) -> Played<S> {
        let record = self.damaged();
        self.offer(&record)
    }

    /// A record with one thing wrong.
    fn damaged(&mut self) -> Vec<u8> {
        if self.random.chance(25) {
            return self.wrong_field();
        }
        let mut record = self.taken_record();
        damage(&mut record, &mut self.random);
        record
    }

    /// A record with an N, an x, a pass, a count or a block at the edge.
    fn wrong_field(&mut self) -> Vec<u8> {
        let pass = self.pass();
        let random = &mut self.random;
        match random.below(6) {
            0 => event(random.pick(&[START, NCE]), 0, random.pick(BAD_NODES) as u8),
            1 => event(random.pick(&[SHUTDOWN, DELAY]), random.pick(&[0, pass]), random.pick(&[1, 2, 64, 128, 255])),
            2 => {
                let kind = random.pick(&[START, NCE, SHUTDOWN]);
                event(kind, random.pick(&[1, 256, 65_536, 1 << 24, u32::MAX]), random.pick(&[0, 1, 3]))
            }
            3 | 4 => {
                let counts = [MAX_PAIRS, MAX_PAIRS + 1, MAX_PAIRS + 1, MAX_PAIRS + 2, 2 * MAX_PAIRS + 1];
                let count = random.pick(&counts);
                self.long_answer(count)
            }
            _ => {
                let mut record = self.long_answer(MAX_PAIRS);
                let places = [0, 1, MAX_PAIRS / 2, MAX_PAIRS - 2, MAX_PAIRS - 1, MAX_PAIRS - 1];
                let place = self.random.pick(&places);
                record[ANSWER_HEAD + 2 * place] = self.random.pick(&[0x00, 0x01, 0xFF]);
                record
            }
        }
    }

    /// An ANSWER of so many pairs of one block.
    fn long_answer(&mut self, count: usize) -> Vec<u8> {
        let (position, block) = (self.any_position(), self.taste.blocks[0]);
        let first = self.random.below(2);
        let pairs: Vec<Pair> = (first..first + count).map(|number| Pair { block, number: number as u8 }).collect();
        answer(self.pass(), position, self.units[position as usize].address, &pairs)
    }
}

/// Damages a record at one place.
fn damage(record: &mut Vec<u8>, random: &mut Random) {
    let length = record.len();
    let is_answer = record[KIND] == ANSWER;
    match random.below(16) {
        0 => record.truncate(random.below(length)),
        1 => record.truncate(length - 1),
        2 => record.push(0),
        3 => record.extend_from_slice(&[0x22, 0x05]),
        4 => record[0] = random.pick(&[0x4C, 0x4E, 0x00, 0xCD]),
        5 => record[1] = random.pick(&[0x4F, 0x44, 0x46, 0xC5]),
        6 => record[KIND] = random.pick(&[0, DELAY + 1, DELAY + 2, DELAY + 3, 128, 255, START + 128, ANSWER + 64]),
        7 => record[random.range(PASS.start, PASS.end - 1)] ^= 1 << random.below(8),
        8 if is_answer => record[COUNT] = random.pick(COUNTS) as u8,
        8 => record[X] = random.pick(&[0, 1, MAX_NODES, MAX_NODES + 1, MAX_NODES + 2, 128, 255]) as u8,
        9 | 10 if is_answer => record[COUNT] = record[COUNT].wrapping_add(random.pick(&[1, 255])),
        11..=13 if is_answer && length > ANSWER_HEAD => {
            let pair = random.below((length - ANSWER_HEAD) / 2);
            record[ANSWER_HEAD + 2 * pair] = random.pick(&[0x00, 0x01, 0xFF, 0xFE, 0x02]);
        }
        _ => record[random.below(length)] ^= 1 << random.below(8),
    }
}
