//! Rings that are played: models of units answer, and scenes lead the ring into every corner.

mod many_pairs;
mod noise;
mod replugs;
mod scenes;
mod steps;
pub(super) mod units;

use super::{Random, BAD_SIZES};
use crate::order::{Content, Order};
use crate::registry::{Pair, Ring, Status};
use crate::sizes::{BENCH_ROOM, MAX_NODES, MAX_SIZE, MIN_SIZE};
use crate::wire::{self, event};
use units::{Taste, Unit};

/// What a ring is played on: it takes the records, and shows the ring that they make.
pub trait Stage {
    /// Why the play ends.
    type Stop;

    /// Whether scenes may be long, up to thousands of records.
    const PATIENT: bool;

    /// The most order room that the stage lends.
    const MOST_ROOM: usize = BENCH_ROOM;

    /// The ring as it stands.
    fn ring(&self) -> &Ring;

    /// A fresh picture for L, or the one that comes back where L is bad.
    fn fresh(&mut self, l: usize) -> Result<(), Self::Stop>;

    /// Offers a record with so much order room, or as much as the stage likes; gives the orders.
    fn offer(&mut self, record: &[u8], room: Option<usize>) -> Result<Vec<u8>, Self::Stop>;

    /// Sets the pass; says whether the stage can.
    fn set_pass(&mut self, pass: u32) -> Result<bool, Self::Stop>;

    /// Looks at the ring now and then; `chatter` is the share of looks in percent, `blocks` are those that the units like.
    fn look_around(&mut self, chatter: u8, blocks: &[u8]) -> Result<(), Self::Stop>;

    /// Looks at all that the ring shows.
    fn look_closely(&mut self) -> Result<(), Self::Stop>;
}

type Played<S> = Result<(), <S as Stage>::Stop>;

/// How the steps of a scene are chosen; the shares are in a thousand but for `chatter`.
struct Habits {
    nodes: usize,
    /// Records that do not go on with the scan.
    noise: usize,
    /// Pictures whose pass is set.
    pass: usize,
    /// In OK without open question: re-plugs and shutdowns, the end of the delay.
    replug: usize,
    delay: usize,
    chatter: u8,
}

impl Default for Habits {
    fn default() -> Habits {
        Habits { nodes: 2, noise: 100, pass: 0, replug: 60, delay: 400, chatter: 40 }
    }
}

/// A ring on its stage, with its units by position.
pub struct Play<'a, S> {
    stage: &'a mut S,
    random: Random,
    units: Vec<Unit>,
    taste: Taste,
    habits: Habits,
    scene: usize,
    /// The last L of those that come in turn.
    size: usize,
    /// The last records.
    past: Vec<Vec<u8>>,
}

impl<'a, S: Stage> Play<'a, S> {
    pub fn new(stage: &'a mut S, seed: u64) -> Play<'a, S> {
        let mut random = Random::new(seed);
        let scene = seed as usize % Self::SCENES.len();
        let (size, taste) = (random.range(MIN_SIZE, MAX_SIZE), Taste::any(&mut random));
        Play { stage, random, units: Vec::new(), taste, habits: Habits::default(), scene, size, past: Vec::new() }
    }

    /// Plays scene after scene, from the seed's first on, until the stage says stop.
    pub fn run(&mut self) -> S::Stop {
        loop {
            if let Err(stop) = self.play_scene() {
                return stop;
            }
        }
    }

    /// Plays the next scene.
    pub fn play_scene(&mut self) -> Played<S> {
        let scene = Self::SCENES[self.scene];
        self.scene = (self.scene + 1) % Self::SCENES.len();
        scene(self)
    }

    /// So many passes of a ring without units.
    pub fn climb(&mut self, passes: usize) -> Played<S> {
        for _ in 0..passes {
            self.stage.offer(&event(self.scan_kind(), 0, 1), None)?;
        }
        Ok(())
    }

    /// A fresh picture for each L in turn, sometimes after a bad L; and new units of at most so many pairs.
    fn begin(&mut self, habits: Habits, most_pairs: usize) -> Played<S> {
        self.habits = habits;
        self.past.clear();
        self.new_units(most_pairs);
        if self.random.chance(8) {
            let bad = self.random.pick(BAD_SIZES);
            self.stage.fresh(bad)?;
            if self.random.chance(40) {
                return Ok(());
            }
        }
        self.size = if self.size == MAX_SIZE { MIN_SIZE } else { self.size + 1 };
        self.stage.fresh(self.size)
    }

    fn offer(&mut self, record: &[u8]) -> Played<S> {
        self.offer_with(record, None)
    }

    /// Offers a record; the units obey its SETs.
    fn offer_with(&mut self, record: &[u8], room: Option<usize>) -> Played<S> {
        let orders = self.stage.offer(record, room)?;
        for order in wire::orders(&orders) {
            if let Some(Order { content: Content::Set { position, old, new, .. }, .. }) = Order::read(order) {
                self.units[position as usize].renumber(old, new, &mut self.random);
            }
        }
        if self.past.len() == 64 {
            self.past.remove(0);
        }
        self.past.push(record.to_vec());
        self.stage.look_around(self.habits.chatter, &self.taste.blocks)
    }

    fn event(&mut self, kind: u8, pass: u32, x: u8) -> Played<S> {
        self.offer(&event(kind, pass, x))
    }

    fn ring(&self) -> &Ring {
        self.stage.ring()
    }

    fn pass(&self) -> u32 {
        self.ring().pass()
    }

    fn nodes(&self) -> usize {
        self.ring().nodes() as usize
    }

    fn open_positions(&self) -> Vec<u8> {
        let open = |status| matches!(status, Status::Waiting | Status::Setting { .. });
        self.ring().rows().filter(|(_, row)| open(row.status())).map(|(position, _)| position).collect()
    }

    /// The addresses that rows keep, the barred ones among them.
    fn held_addresses(&self) -> Vec<u16> {
        self.ring().rows().filter_map(|(_, row)| row.address()).collect()
    }

    /// A number of steps, or half of it where the stage is not patient.
    fn length(&mut self, low: usize, high: usize) -> usize {
        self.random.range(low, high) / if S::PATIENT { 1 } else { 2 }
    }

    /// A position with a row, where there is one.
    fn any_position(&mut self) -> u8 {
        let nodes = self.nodes().max(2);
        self.random.range(1, nodes - 1) as u8
    }

    /// A ring size: mostly small.
    fn ring_size(&mut self) -> usize {
        match self.random.below(100) {
            0..=3 => 1,
            4..=69 => self.random.range(2, 6),
            70..=87 => self.random.range(7, 14),
            88..=94 => self.random.range(15, 40),
            95..=97 => MAX_NODES,
            _ => self.random.range(41, MAX_NODES),
        }
    }
}

/// A pair to look up: mostly a listed one or a neighbour of it.
pub fn pair_near(ring: &Ring, blocks: &[u8], random: &mut Random) -> Pair {
    let listing = ring.listing();
    if listing.is_empty() || random.chance(30) {
        return match random.chance(70) {
            true => Pair { block: random.pick(blocks), number: random.pick(&[0, 1, 2, 3, 4, 64, 254, 255]) },
            false => Pair { block: random.byte(), number: random.byte() },
        };
    }
    let entry = match random.below(4) {
        0 => listing[0],
        1 => listing[listing.len() - 1],
        _ => random.pick(&listing),
    };
    let (block, number) = (entry.block, entry.number);
    match random.below(10) {
        0 => Pair { block: block.wrapping_add(1), number },
        1 => Pair { block: block.wrapping_sub(1), number },
        2 => Pair { block, number: number.wrapping_add(1) },
        3 => Pair { block: number, number: block },
        _ => Pair { block, number },
    }
}
