//! Lists of rows that are compared: nearly equal ones, wholly different ones, and ones that are refused.

mod changes;
mod scenes;

use super::Random;
use crate::compare::{compare, ListRow};
use crate::registry::Pair;
use crate::sizes::{BENCH_DIFFERENCE_ROOM, BENCH_PAIRS, BENCH_ROWS, DIFFERENCE, MAX_PAIRS, MAX_UNITS};

/// What lists are compared on.
pub trait Stage {
    /// Why the play ends.
    type Stop;

    /// Whether lists are often great, and compared often.
    const PATIENT: bool;

    /// The most rows of a list and the most pairs of a row that the stage takes, more than are good; and the most room that it lends.
    const MOST_ROWS: usize = BENCH_ROWS;
    const MOST_PAIRS: usize = BENCH_PAIRS;
    const MOST_ROOM: usize = BENCH_DIFFERENCE_ROOM;

    /// Compares two lists with room of so many bytes.
    fn compare(&mut self, first: &[ListRow], second: &[ListRow], room: usize) -> Result<(), Self::Stop>;
}

type Played<S> = Result<(), <S as Stage>::Stop>;

/// More differences than these are seldom shown by a stage that is not patient.
pub const MANY_DIFFERENCES: usize = 60;

const ADDRESSES: &[u16] = &[0x0000, 0x0001, 0x00FF, 0x0100, 0x0101, 0x0201, 0x02FF, 0x0300, 0x8101, 0xFF00, 0xFFFF];

/// Lists on their stage.
pub struct Play<'a, S> {
    stage: &'a mut S,
    random: Random,
    /// The blocks that rows like.
    blocks: Vec<u8>,
    scene: usize,
}

impl<'a, S: Stage> Play<'a, S> {
    pub fn new(stage: &'a mut S, seed: u64) -> Play<'a, S> {
        let scene = seed as usize % Self::SCENES.len();
        Play { stage, random: Random::new(seed), blocks: vec![0x22], scene }
    }

    /// Plays scene after scene, from the seed's first on, until the stage says stop.
    pub fn run(&mut self) -> S::Stop {
        loop {
            if let Err(stop) = self.play_scene() {
                return stop;
            }
        }
    }

    /// Plays the next scene.
    pub fn play_scene(&mut self) -> Played<S> {
        let count = self.random.pick(&[1, 1, 2, 3, 6, MAX_PAIRS]);
        self.blocks = (0..count).map(|_| self.random.byte()).collect();
        let scene = Self::SCENES[self.scene];
        self.scene = (self.scene + 1) % Self::SCENES.len();
        scene(self)
    }

    /// Compares two lists with rooms near the one that they need. A stage that is not patient mostly lends too little where there
    /// are many differences.
    fn compare(&mut self, first: &[ListRow], second: &[ListRow]) -> Played<S> {
        let needed = needed_room(first, second);
        let most = self.random.pick(if S::PATIENT { &[1, 2, 3, 4] } else { &[1, 1, 1, 2] });
        for _ in 0..most {
            let mut room = room_near(needed, S::MOST_ROOM, &mut self.random);
            if !S::PATIENT && needed > MANY_DIFFERENCES * DIFFERENCE && self.random.chance(80) {
                room = room.min(needed - 1);
            }
            self.stage.compare(first, second, room)?;
        }
        Ok(())
    }

    /// Compares two lists, or the one that was first as the second.
    fn compare_either_way(&mut self, first: &[ListRow], second: &[ListRow]) -> Played<S> {
        match self.random.chance(50) {
            true => self.compare(first, second),
            false => self.compare(second, first),
        }
    }

    /// How many rows a list has: mostly few, seldom none, and often as many as there are units where the stage is patient.
    fn size(&mut self) -> usize {
        let random = &mut self.random;
        match (S::PATIENT, random.below(200)) {
            (_, 0..=9) => 0,
            (_, 10..=129) => random.range(1, 5),
            (true, 130..=159) => random.range(6, 20),
            (true, 160..=179) => random.range(21, MAX_UNITS - 1),
            (true, _) | (false, 199) => MAX_UNITS,
            (false, 190..=198) => random.range(6, 20),
            _ => random.range(1, 3),
        }
    }

    /// A number of rounds, or a third of it where the stage is not patient.
    fn length(&mut self, low: usize, high: usize) -> usize {
        self.random.range(low, high) / if S::PATIENT { 1 } else { 3 }
    }

    /// A list of so many rows, which is not refused.
    fn list(&mut self, size: usize) -> Vec<ListRow> {
        let most_pairs = self.random.pick(&[0, 1, 2, 3, 5, 8, MAX_PAIRS, MAX_PAIRS]);
        let positions = self.positions(size);
        positions.into_iter().map(|position| self.row(position, most_pairs)).collect()
    }

    /// So many positions, rising: the first ones, or any, the least and the greatest often among them.
    fn positions(&mut self, size: usize) -> Vec<u8> {
        let mut positions: Vec<u8> = (1..=MAX_UNITS as u8).collect();
        if self.random.chance(70) {
            self.random.shuffle(&mut positions);
        }
        positions.truncate(size);
        positions.sort_unstable();
        if let [.., last] = &mut positions[..] {
            *last = if self.random.chance(30) { MAX_UNITS as u8 } else { *last };
        }
        if let [first, ..] = &mut positions[..] {
            *first = if self.random.chance(30) { 1 } else { *first };
        }
        positions
    }

    /// A row of at most so many pairs.
    fn row(&mut self, position: u8, most_pairs: usize) -> ListRow {
        let count = if self.random.chance(40) { most_pairs } else { self.random.range(0, most_pairs) };
        let address = match self.random.chance(80) {
            true => 0x0100 + u16::from(position),
            false => self.random.pick(ADDRESSES),
        };
        ListRow { position, address, pairs: self.pairs(count) }
    }

    /// So many pairs, no two the same.
    fn pairs(&mut self, count: usize) -> Vec<Pair> {
        let mut pairs = Vec::new();
        while pairs.len() < count {
            let pair = self.pair();
            if !pairs.contains(&pair) {
                pairs.push(pair);
            }
        }
        pairs
    }

    fn pair(&mut self) -> Pair {
        let random = &mut self.random;
        let block = if random.chance(90) { random.pick(&self.blocks) } else { random.byte() };
        let number = if random.chance(60) { random.range(0, 4) as u8 } else { random.byte() };
        Pair { block, number }
    }
}

/// The room that all differences need; none where the lists are refused.
pub fn needed_room(first: &[ListRow], second: &[ListRow]) -> usize {
    compare(first, second, usize::MAX).map_or(0, |differences| differences.len() * DIFFERENCE)
}

/// Room near the needed one, none, or as much as there is.
pub fn room_near(needed: usize, most: usize, random: &mut Random) -> usize {
    let room = match random.below(12) {
        0 => 0,
        1 | 2 => most,
        3 => random.range(0, most),
        4 | 5 => needed.saturating_sub(1),
        6 | 7 => needed,
        _ => (needed + random.below(15)).saturating_sub(7),
    };
    room.min(most)
}
