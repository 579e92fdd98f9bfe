//! The scenes: each begins with a fresh picture and new units, and leads the ring to one kind of trouble.

use super::steps::PASS_EDGES;
use super::units::Unit;
use super::{Habits, Play, Played, Stage};
use crate::registry::Pair;
use crate::sizes::{MAX_NODES, MAX_PAIRS};
use crate::wire::{answer, DELAY, NONE};

/// Addresses that many units share.
const SHARED: &[u16] = &[0x0101, 0x02FF, 0x0102, 0x0103, 0x0100, 0x0300, 0x02FE, 0x0200, 0x0000, 0x00FF, 0xFFFF];
const OUT_OF_RANGE: &[u16] = &[0x0100, 0x0300, 0xFFFF, 0x0000];

impl<S: Stage> Play<'_, S> {
    pub const SCENES: [fn(&mut Self) -> Played<S>; 21] = [
        Self::mixed,
        Self::silences,
        Self::mixed,
        Self::addresses,
        Self::replugs,
        Self::quarrel,
        Self::full_blocks,
        Self::mixed,
        Self::passes,
        Self::head_units,
        Self::stubborn,
        Self::great_replugs,
        Self::full_ring,
        Self::quarrel,
        Self::packing,
        Self::silences,
        Self::full_blocks,
        Self::damage,
        Self::quarrel,
        Self::replugs,
        Self::passes,
    ];

    /// All tempers, and much that does not belong.
    fn mixed(&mut self) -> Played<S> {
        let nodes = self.ring_size();
        let (noise, replug) = if nodes < 16 { (self.random.pick(&[100, 260]), 100) } else { (80, 40) };
        let chatter = self.random.pick(&[30, 60, 90]);
        let most_pairs = self.random.pick(&[1, 2, 3, 4, 8, MAX_PAIRS]);
        self.begin(Habits { nodes, noise, replug, chatter, ..Habits::default() }, most_pairs)?;
        let steps = self.length(40 + 5 * nodes, 150 + 5 * nodes);
        self.steps(steps)
    }

    /// Units that are silent up to and beyond twenty times.
    fn silences(&mut self) -> Played<S> {
        let nodes = self.random.pick(&[2, 3, 3, 4, 5, if S::PATIENT { MAX_NODES } else { 4 }]);
        self.begin(Habits { nodes, noise: 15, replug: 5, delay: 900, chatter: 30, ..Habits::default() }, 4)?;
        let shares: &[u8] = self.random.pick(&[&[100], &[100, 0], &[100, 0], &[100, 100, 97, 80, 0]]);
        for unit in &mut self.units {
            unit.silent = self.random.pick(shares);
            unit.lies = 0;
        }
        self.units[1].silent = 100;
        self.scan()?;
        for round in 0..self.random.range(22, 32) {
            self.reply_to_each()?;
            if round > 10 && self.random.chance(3) {
                self.bad_address()?;
            }
            self.event(DELAY, self.pass(), 0)?;
            self.steps(1)?;
        }
        self.reply_to_each()?;
        for _ in 0..3 {
            self.late_silence()?;
        }
        for unit in &mut self.units {
            unit.silent /= 2;
        }
        if self.random.chance(40) {
            self.plug()?;
        }
        self.steps(25)
    }

    /// A unit that is asked by a SET turns silent beside those that are silent for long.
    fn late_silence(&mut self) -> Played<S> {
        let position = self.nodes().saturating_sub(1).max(1) as u8;
        let pair = Pair { block: 0x22, number: 0 };
        let address = self.units[position as usize].address;
        self.offer(&answer(self.pass(), position, address, &[pair]))?;
        self.event(NONE, self.pass(), position)?;
        for _ in 0..2 {
            self.event(DELAY, self.pass(), 0)?;
            for open in self.open_positions() {
                self.event(NONE, self.pass(), open)?;
            }
        }
        Ok(())
    }

    /// One unit announces an address out of range.
    pub fn bad_address(&mut self) -> Played<S> {
        let (position, address) = (self.any_position(), self.random.pick(OUT_OF_RANGE));
        self.offer(&answer(self.pass(), position, address, &[]))
    }

    /// Units that share few addresses until they are ignored; others are barred.
    fn addresses(&mut self) -> Played<S> {
        let nodes = self.random.range(3, 9);
        self.begin(Habits { nodes, chatter: 60, ..Habits::default() }, 5)?;
        let random = &mut self.random;
        let pool: Vec<u16> = (0..random.range(2, 4)).map(|_| random.pick(SHARED)).collect();
        for (position, unit) in self.units.iter_mut().enumerate() {
            unit.address = if random.chance(60) { random.pick(&pool) } else { 0x0110 + position as u16 };
            unit.lies = random.pick(&[0, 0, 10]);
            unit.silent = random.pick(&[0, 0, 10]);
        }
        self.scan()?;
        self.reply_to_all(80)?;
        for _ in 0..self.length(4, 14) {
            let steps = self.length(2, 15);
            self.steps(steps)?;
            self.barred_unit()?;
            self.barred_unit()?;
            let (position, address) = (self.any_position(), self.random.pick(&pool));
            self.announce_address(position, address)?;
        }
        self.replug()?;
        self.reply_to_all(40)?;
        self.steps(10)
    }

    /// Two units with pairs come to OK, one of them counted up to twice; then one announces the other's address.
    fn quarrel(&mut self) -> Played<S> {
        let nodes = self.random.range(3, 5);
        self.begin(Habits { nodes, chatter: 60, ..Habits::default() }, 4)?;
        for (position, unit) in self.units.iter_mut().enumerate() {
            let own = |number| Pair { block: 0x30 + position as u8, number };
            let pairs = (1..=1 + (position % 7) as u8 * 2).map(own).collect();
            let silent = if position > 2 { self.random.pick(&[0, 0, 0, 100]) } else { 0 };
            *unit = Unit { obeys: 50, silent, ..Unit::honest(position, pairs) };
        }
        self.scan()?;
        let counted = self.random.range(1, 2) as u8;
        for _ in 0..self.random.pick(&[0, 1, 2, 2, 2]) {
            let address = self.random.pick(OUT_OF_RANGE);
            self.announce_address(counted, address)?;
        }
        self.reply_to_all(30)?;
        if self.random.chance(40) {
            self.open_a_question()?;
        }
        let (one, other) = self.random.pick(&[(1, 2), (2, 1)]);
        let address = self.random.pick(&[0x0100 + other, 0x0100 + other, 0x0200, 0x0300]);
        self.offer(&answer(self.pass(), one, address, &[]))?;
        self.stage.look_closely()?;
        for address in [address, 0x0100 + u16::from(one)] {
            let position = self.any_position();
            self.announce_address(position, address)?;
        }
        self.steps(20)
    }

    /// A unit announces a pair that must be renumbered.
    pub fn open_a_question(&mut self) -> Played<S> {
        let position = self.any_position();
        let number = self.random.pick(&[0, 255]);
        let pairs = &mut self.units[position as usize].pairs;
        pairs.truncate(MAX_PAIRS - 1);
        pairs.push(Pair { block: 0x22, number });
        self.announce(position)
    }

    /// Units with many bad pairs that refuse, shorten, lengthen or shuffle.
    fn stubborn(&mut self) -> Played<S> {
        let nodes = self.random.pick(&[2, 2, 3, 4, 5, 6]);
        self.begin(Habits { nodes, noise: 30, ..Habits::default() }, MAX_PAIRS)?;
        self.taste.blocks.truncate(2);
        self.taste.low_numbers = true;
        let random = &mut self.random;
        let most = random.pick(&[6, MAX_PAIRS]);
        for (position, unit) in self.units.iter_mut().enumerate() {
            let mut bad = || Pair { block: random.pick(&self.taste.blocks), number: random.pick(&[0, 1, 1, 2, 255]) };
            let count = if position == 1 { most } else { 1 + position * 7 % most };
            let pairs = (0..count).map(|_| bad()).collect();
            *unit = Unit {
                obeys: random.pick(&[0, 0, 0, 30, 70, 100]),
                fidgets: random.pick(&[0, 0, 15, 80]),
                silent: random.pick(&[0, 0, 3]),
                ..Unit::honest(0x80 + position, pairs)
            };
        }
        self.scan()?;
        let replies = self.length(60, 300);
        self.reply_to_all(replies)?;
        if self.random.chance(40) {
            self.scan()?;
            self.reply_to_all(replies / 2)?;
        }
        self.steps(25)
    }

    /// Every kind damaged in every state, and one record damaged at every byte.
    fn damage(&mut self) -> Played<S> {
        let nodes = self.random.range(2, 6);
        self.begin(Habits { nodes, ..Habits::default() }, 4)?;
        for _ in 0..12 {
            self.damaged_record()?;
        }
        let steps = self.length(1, 30);
        self.steps(steps)?;
        let record = self.taken_record();
        for place in 0..record.len() {
            let mut damaged = record.clone();
            damaged[place] ^= match self.random.chance(70) {
                true => 1 << self.random.below(8),
                false => self.random.range(1, 255) as u8,
            };
            self.offer(&damaged)?;
            if self.random.chance(20) {
                self.offer(&record[..place])?;
            }
        }
        self.habits.noise = 400;
        for _ in 0..self.length(50, 90) {
            self.damaged_record()?;
            let steps = self.random.below(3);
            self.steps(steps)?;
        }
        Ok(())
    }

    /// Pictures at the last pass and at other edges in every state; or many passes, where the stage cannot set one.
    fn passes(&mut self) -> Played<S> {
        let nodes = self.random.pick(&[1, 2, 3, 4, 5, 6, 9, MAX_NODES]);
        let pass = self.random.pick(&[10, 40, 100]);
        let most_pairs = self.random.pick(&[1, 2, 4, MAX_PAIRS]);
        self.begin(Habits { nodes, noise: 150, pass, replug: 150, ..Habits::default() }, most_pairs)?;
        for unit in &mut self.units {
            unit.lies = unit.lies.max(self.random.pick(&[0, 0, 5, 20]));
        }
        let first = self.random.pick(PASS_EDGES);
        if !self.stage.set_pass(first)? {
            let passes = match self.random.below(24) {
                0 => 260,
                1 => 520,
                2..=4 => 3,
                _ => 10,
            };
            self.climb(passes)?;
        } else if first == u32::MAX {
            self.go_on()?;
            self.stage.set_pass(first - 1)?;
        }
        let steps = self.length(40, 120) + nodes;
        self.steps(steps)
    }
}
