//! What a ring does by itself: units answer or are silent, delays end, somebody plugs.

use super::units::{Taste, Unit};
use super::{Play, Played, Stage};
use crate::registry::{State, ADDRESS_MAX, ADDRESS_MIN};
use crate::sizes::MAX_NODES;
use crate::wire::{answer, ADDRESS, DELAY, NCE, NONE, SHUTDOWN, START};

pub const ADDRESS_EDGES: &[u16] = &[
    0x0000, 0x0001, 0x0010, 0x00FF, 0x0100, 0x0101, 0x0102, 0x01FF, 0x0200, 0x02FE, 0x02FF, 0x0300, 0x0301, 0x0401,
    0x0501, 0x0FFD, 0x8101, 0xFF01, 0xFFFF,
];
pub const PASS_EDGES: &[u32] =
    &[u32::MAX, u32::MAX, u32::MAX, u32::MAX - 1, u32::MAX - 2, 0, 0xFF, 0xFFFF, 0xFF_FFFF, 0x7FFF_FFFF];

impl<S: Stage> Play<'_, S> {
    /// New units of mixed tempers. Those of a great ring seldom quarrel about addresses, so that it gets to OK.
    pub fn new_units(&mut self, most_pairs: usize) {
        let random = &mut self.random;
        self.taste = Taste::any(random);
        let temper = random.below(4);
        let is_great = self.habits.nodes > 12;
        let one = |position: usize| {
            let count = random.below(most_pairs + 1);
            let mut unit = Unit::honest(position, self.taste.pairs(count, random)).with_temper(temper, random);
            match random.below(22) {
                _ if is_great => unit.lies /= 10,
                0 => unit.address = random.pick(ADDRESS_EDGES),
                1 => unit.address = 0x0300 - position.max(1) as u16,
                _ => {}
            }
            unit
        };
        self.units = (0..MAX_NODES).map(one).collect();
    }

    /// So many steps: the ring goes on, with some noise.
    pub fn steps(&mut self, steps: usize) -> Played<S> {
        for _ in 0..steps {
            if self.random.below(1000) < self.habits.pass {
                let pass = self.random.pick(PASS_EDGES);
                self.stage.set_pass(pass)?;
            }
            if self.random.below(1000) < self.habits.noise {
                self.noise()?;
            } else {
                self.go_on()?;
            }
        }
        Ok(())
    }

    /// What a ring does by itself.
    pub fn go_on(&mut self) -> Played<S> {
        if self.ring().state() == State::Off {
            return if self.random.chance(10) { self.noise() } else { self.scan() };
        }
        let open = self.open_positions();
        if !open.is_empty() && (self.ring().state() != State::Ok || self.random.chance(85)) {
            let position = self.random.pick(&open);
            return self.reply(position);
        }
        if self.ring().delay_runs() && self.random.below(1000) < self.habits.delay {
            return self.event(DELAY, self.pass(), 0);
        }
        let replug = if self.nodes() == 1 { 500 } else { self.habits.replug };
        if self.random.below(1000) < replug {
            return self.replug();
        }
        let position = self.any_position();
        if self.random.chance(60) {
            self.fidget(position as usize);
        }
        self.announce(position)
    }

    /// START, or NCE where the ring runs.
    pub fn scan(&mut self) -> Played<S> {
        self.event(self.scan_kind(), 0, self.habits.nodes as u8)
    }

    pub fn scan_kind(&self) -> u8 {
        if self.ring().state() == State::Off {
            START
        } else {
            NCE
        }
    }

    /// NCE or SHUTDOWN.
    pub fn replug(&mut self) -> Played<S> {
        if self.random.chance(30) {
            return self.event(SHUTDOWN, 0, 0);
        }
        self.plug()
    }

    /// NCE, often with another ring size and with units at other positions, the one at position 0 among them or not.
    pub fn plug(&mut self) -> Played<S> {
        let nodes = match self.random.below(16) {
            0..=2 => self.nodes().max(1),
            3..=5 => self.nodes().saturating_sub(1).max(1),
            6..=8 => (self.nodes() + 1).min(MAX_NODES),
            9..=11 => self.habits.nodes,
            12 => 1,
            _ if self.habits.nodes > 12 => self.random.range(1, MAX_NODES),
            _ => self.ring_size(),
        };
        if self.random.chance(50) {
            let first = self.random.below(2);
            self.random.shuffle(&mut self.units[first..nodes.max(2)]);
        }
        self.event(NCE, 0, nodes as u8)
    }

    /// The unit at a position answers, or is silent.
    pub fn reply(&mut self, position: u8) -> Played<S> {
        if self.random.chance(self.units[position as usize].silent) {
            return self.event(NONE, self.pass(), position);
        }
        self.announce(position)
    }

    /// Each open question is answered once, ascending.
    pub fn reply_to_each(&mut self) -> Played<S> {
        self.open_positions().into_iter().try_for_each(|position| self.reply(position))
    }

    /// Questions are answered at random until none is open, at most so many.
    pub fn reply_to_all(&mut self, most: usize) -> Played<S> {
        for _ in 0..most {
            let open = self.open_positions();
            if open.is_empty() {
                break;
            }
            let position = self.random.pick(&open);
            self.reply(position)?;
        }
        Ok(())
    }

    pub fn announce(&mut self, position: u8) -> Played<S> {
        let record = self.announcement(position);
        self.offer(&record)
    }

    /// The unit at a position announces an address.
    pub fn announce_address(&mut self, position: u8, address: u16) -> Played<S> {
        let mut record = self.announcement(position);
        record[ADDRESS].copy_from_slice(&address.to_be_bytes());
        self.offer(&record)
    }

    /// What the unit at a position announces now.
    pub fn announcement(&mut self, position: u8) -> Vec<u8> {
        let index = position as usize % MAX_NODES;
        if self.random.chance(self.units[index].fidgets) {
            self.fidget(index);
        }
        let mut address = self.units[index].address;
        if self.random.chance(self.units[index].lies) {
            address = self.other_address();
            if self.random.chance(20) {
                self.units[index].address = address;
            }
        }
        answer(self.pass(), position, address, &self.units[index].pairs)
    }

    fn fidget(&mut self, index: usize) {
        let pair = self.taste.pair(&mut self.random);
        let stolen = self.units[self.random.below(MAX_NODES)].pairs.first().copied();
        self.units[index].fidget(pair, stolen, &mut self.random);
    }

    /// An address that is hardly the unit's own.
    pub fn other_address(&mut self) -> u16 {
        let held = self.held_addresses();
        let nodes = self.nodes().max(1);
        match self.random.below(10) {
            0..=2 => self.random.pick(ADDRESS_EDGES),
            3 => self.random.word() as u16,
            4 => self.random.range(ADDRESS_MIN as usize, ADDRESS_MAX as usize) as u16,
            5..=7 if !held.is_empty() => self.random.pick(&held),
            _ => self.units[self.random.below(nodes)].address,
        }
    }
}
