//! The scenes of many pairs: full blocks, head units, full rings, long lists.

use super::steps::ADDRESS_EDGES;
use super::units::{beggar, Unit};
use super::{Habits, Play, Played, Stage};
use crate::generate::Random;
use crate::registry::{Pair, State};
use crate::sizes::{MAX_LISTED, MAX_NODES, MAX_NUMBER, MAX_PAIRS, MIN_NUMBER, NUMBERS};

/// The most blocks that are full at once.
const MAX_FULL_BLOCKS: usize = MAX_LISTED / NUMBERS;
/// What most units have at most; head units have more.
const FEW_PAIRS: usize = 16;
/// How many layouts `full_pair` has.
pub const LAYOUTS: usize = 5;

/// Numbers at the ends of the words of a bit set.
const SPARE: &[u8] = &[1, 2, 62, 63, 64, 64, 65, 100, 126, 127, 128, 191, 192, 193, 253, 254, 254, 254];

impl<S: Stage> Play<'_, S> {
    /// Blocks of which all numbers are kept, or nearly all: one, or several at once.
    pub fn full_blocks(&mut self) -> Played<S> {
        let count = self.random.pick(&[1, 1, 2, 2, 3, MAX_FULL_BLOCKS]);
        let keepers = (NUMBERS * count).div_ceil(MAX_PAIRS);
        let takers = self.random.pick(&[0, 1, 2, 3, 7, MAX_NODES]);
        let nodes = (1 + keepers + takers).min(MAX_NODES);
        let chatter = if count == 1 { 20 } else { 8 };
        self.begin(Habits { nodes, noise: 20, replug: 2, chatter, ..Habits::default() }, 4)?;
        let random = &mut self.random;
        let blocks = different_blocks(count, random);
        let mut kept = Vec::new();
        for &block in &blocks {
            let spares: Vec<u8> = (0..random.pick(&[0, 0, 0, 1, 1, 2, 4])).map(|_| random.pick(SPARE)).collect();
            let numbers = (MIN_NUMBER..=MAX_NUMBER).filter(|number| !spares.contains(number));
            kept.extend(numbers.map(|number| Pair { block, number }));
        }
        if random.chance(60) {
            random.shuffle(&mut kept);
        }
        let mut chunks = kept.chunks(MAX_PAIRS);
        for (position, unit) in self.units.iter_mut().enumerate().skip(1) {
            let pairs = match chunks.next() {
                Some(chunk) => chunk.to_vec(),
                None => beggar(&blocks, 5, random),
            };
            *unit = Unit { obeys: random.pick(&[0, 100]), ..Unit::honest(position, pairs) };
        }
        self.taste.blocks = blocks;
        self.scan()?;
        self.reply_to_each()?;
        self.reply_to_all(60)?;
        self.stage.look_closely()?;
        for _ in 0..self.length(8, 30) {
            self.beg(keepers)?;
        }
        self.stage.look_closely()?;
        if self.random.chance(30) {
            self.scan()?;
            self.reply_to_all(30)?;
        }
        Ok(())
    }

    /// Some unit gives numbers of full blocks up, and another asks for more, mostly one behind the keepers.
    fn beg(&mut self, keepers: usize) -> Played<S> {
        if self.random.chance(30) {
            let giver = self.any_position();
            let pairs = &mut self.units[giver as usize].pairs;
            let given = self.random.pick(&[1, 1, 2, 3, MAX_PAIRS / 2]);
            pairs.truncate(pairs.len().saturating_sub(given));
            self.announce(giver)?;
        }
        let last = self.nodes().saturating_sub(1);
        let taker = match self.random.chance(80) && last > keepers {
            true => self.random.range(keepers + 1, last) as u8,
            false => self.any_position(),
        };
        let most = self.random.pick(&[4, MAX_PAIRS]);
        let pairs = beggar(&self.taste.blocks, most, &mut self.random);
        let kept = &mut self.units[taker as usize].pairs;
        if self.random.chance(40) {
            kept.clear();
        }
        kept.extend(pairs);
        kept.truncate(MAX_PAIRS);
        self.announce(taker)?;
        self.steps(4)
    }

    /// A small ring of units with many different blocks, of which others have some too: with other numbers, or with the same.
    pub fn head_units(&mut self) -> Played<S> {
        let nodes = self.random.range(2, 6);
        self.begin(Habits { nodes, noise: 30, replug: 100, chatter: 25, ..Habits::default() }, MAX_PAIRS)?;
        let random = &mut self.random;
        let all = random.pick(&[MAX_PAIRS, MAX_PAIRS + 6, 2 * MAX_PAIRS]);
        let mut blocks = different_blocks(all, random);
        for (position, unit) in self.units.iter_mut().enumerate() {
            random.shuffle(&mut blocks);
            let fewest = random.pick(&[2, MAX_PAIRS / 2, FEW_PAIRS + 1, FEW_PAIRS + 1, MAX_PAIRS]);
            let count = random.range(fewest, MAX_PAIRS);
            let mut number = || match random.below(20) {
                0 => random.pick(&[0, 255]),
                1..=4 => 1,
                _ => 1 + position as u8,
            };
            let pairs = blocks[..count].iter().map(|&block| Pair { block, number: number() }).collect();
            *unit = Unit {
                obeys: random.pick(&[0, 70, 100, 100]),
                fidgets: random.pick(&[0, 0, 15]),
                silent: random.pick(&[0, 0, 5]),
                ..Unit::honest(position, pairs)
            };
        }
        self.taste.blocks = blocks;
        self.taste.low_numbers = true;
        self.scan()?;
        self.reply_to_all(60)?;
        self.stage.look_closely()?;
        for _ in 0..self.length(3, 8) {
            self.plug()?;
            self.reply_to_all(40)?;
            let steps = self.length(4, 16);
            self.steps(steps)?;
        }
        Ok(())
    }

    /// The greatest ring with full rows, then changes of whole rows.
    pub fn full_ring(&mut self) -> Played<S> {
        let nodes = self.random.pick(&[MAX_NODES, MAX_NODES, MAX_NODES, MAX_NODES - 1]);
        self.begin(Habits { nodes, noise: 20, replug: 4, delay: 500, chatter: 8, ..Habits::default() }, MAX_PAIRS)?;
        let layout = self.random.below(LAYOUTS);
        for (position, unit) in self.units.iter_mut().enumerate().skip(1) {
            *unit = Unit::honest(position, (0..MAX_PAIRS).map(|index| full_pair(layout, position, index)).collect());
        }
        self.taste.blocks = first_blocks(layout);
        self.scan()?;
        self.reply_to_each()?;
        self.stage.look_closely()?;
        self.steps(20)?;
        for _ in 0..self.length(12, 24) {
            self.change_a_row()?;
        }
        self.stage.look_closely()?;
        let position = self.any_position();
        self.units[position as usize].address = self.random.pick(ADDRESS_EDGES);
        self.steps(20)?;
        if self.ring().state() == State::Ok {
            self.bad_address()?;
        }
        self.scan()?;
        self.steps(20)
    }

    /// A unit announces another full row, and sometimes its own again later.
    fn change_a_row(&mut self) -> Played<S> {
        let (position, other) = (self.any_position() as usize, self.any_position() as usize);
        let kept = self.units[position].pairs.clone();
        match self.random.below(4) {
            0 => self.units[position].pairs = self.taste.pairs(MAX_PAIRS, &mut self.random),
            1 => self.units[position].pairs = self.units[other].pairs.clone(),
            2 => self.units[position].pairs.reverse(),
            _ => {
                let pairs = self.units[position].pairs.iter_mut();
                let other = pairs.filter(|pair| !matches!(pair.block ^ 0x40, 0x00 | 0x01 | 0xFF));
                other.for_each(|pair| pair.block ^= 0x40);
            }
        }
        self.announce(position as u8)?;
        self.steps(3)?;
        if self.random.chance(60) {
            self.units[position].pairs = kept;
        }
        Ok(())
    }

    /// Long lists that change in OK, told in orders of (L - 1) / 2 pairs.
    pub fn packing(&mut self) -> Played<S> {
        for _ in 0..4 {
            let nodes = self.random.range(2, 4);
            self.begin(Habits { nodes, noise: 10, replug: 5, delay: 300, chatter: 20, ..Habits::default() }, 4)?;
            for (position, unit) in self.units.iter_mut().enumerate() {
                *unit = Unit { fidgets: 10, silent: 3, ..Unit::honest(position, Vec::new()) };
            }
            self.scan()?;
            self.reply_to_each()?;
            for _ in 0..self.length(16, 32) {
                self.repack()?;
            }
        }
        Ok(())
    }

    /// A unit announces a run of numbers of one block, or of blocks, alone or with pairs that it had; many runs fill their orders
    /// just so, or need one more.
    fn repack(&mut self) -> Played<S> {
        let position = self.any_position();
        let size = (self.ring().payload_size() as usize - 1) / 2;
        let random = &mut self.random;
        let any = random.range(0, MAX_PAIRS);
        let edges = [0, 1, size, size + 1, 2 * size, 2 * size + 1, MAX_PAIRS - 1, MAX_PAIRS, MAX_PAIRS, any, any, any];
        let count = random.pick(&edges).min(MAX_PAIRS) as u8;
        let (first, block) = (random.range(1, NUMBERS - MAX_PAIRS) as u8, random.pick(&[0x22, 0x23]));
        let by_block = random.chance(30);
        let fresh = (0..count).map(|step| match by_block {
            true => Pair { block: block + step, number: first },
            false => Pair { block, number: first + step },
        });
        let pairs = &mut self.units[position as usize].pairs;
        match random.below(4) {
            0 | 1 => *pairs = fresh.collect(),
            2 => drop(pairs.splice(..pairs.len().min(MAX_PAIRS / 2), fresh)),
            _ => pairs.extend(fresh),
        }
        pairs.truncate(MAX_PAIRS);
        self.announce(position)?;
        self.steps(1)
    }
}

/// A pair of a full ring. All stand in few blocks, with numbers 00 and FF or without them, so that blocks are full; or each index
/// has its block; or each position has its own, with its numbers far apart; or many blocks that others have too.
pub fn full_pair(layout: usize, position: usize, index: usize) -> Pair {
    let place = (position - 1) * MAX_PAIRS + index;
    let (block, number) = match layout {
        0 => (0x22 + place / 256, place % 256),
        1 => (0x22 + place / NUMBERS, MIN_NUMBER as usize + place % NUMBERS),
        2 => (0x10 + index, position),
        3 => (0x20 + position, MIN_NUMBER as usize + index * (NUMBERS - 1) / (MAX_PAIRS - 1)),
        _ => (0x02 + place % 0xFD, MAX_NUMBER as usize - position),
    };
    Pair { block: block as u8, number: number as u8 }
}

/// The block of each position's first pair in a full ring.
pub fn first_blocks(layout: usize) -> Vec<u8> {
    (1..MAX_NODES).map(|position| full_pair(layout, position, 0).block).collect()
}

/// So many blocks, no two the same, sometimes with the least or the greatest of all.
fn different_blocks(count: usize, random: &mut Random) -> Vec<u8> {
    let mut blocks: Vec<u8> = (0x02..=0xFE).collect();
    random.shuffle(&mut blocks);
    if random.chance(20) {
        let edge = random.pick(&[0x02, 0xFE]);
        let at = blocks.iter().position(|&block| block == edge);
        blocks.swap(0, at.unwrap_or(0));
    }
    blocks.truncate(count);
    blocks
}
