//! Units that are played: alone, with orders of every kind, and on benches, with the orders of a NetworkMaster.

mod bench;
mod orders;
mod singles;
mod workshop;

use super::rings::units::Taste;
use super::Random;
use crate::registry::{Pair, Ring};
use crate::sizes::{BENCH_PAIRS, BENCH_ROOM};
use crate::unit::Unit;

/// What a unit is played on: it takes orders and look-up answers, and shows the unit that they make. For benches it has a ring
/// too, which takes records; whoever plays hands its orders on to the unit.
pub trait Stage {
    /// Why the play ends.
    type Stop;

    /// Whether scenes may be long, up to thousands of orders.
    const PATIENT: bool;

    /// The most room that the stage lends to a unit.
    const MOST_ROOM: usize = BENCH_ROOM;

    /// The most pairs that the stage makes a unit with.
    const MOST_PAIRS: usize = BENCH_PAIRS;

    /// The unit as it stands.
    fn unit(&self) -> &Unit;

    /// A new unit, or the one that comes back where there are too many pairs.
    fn make(&mut self, position: u8, address: u16, pairs: &[Pair]) -> Result<(), Self::Stop>;

    /// The unit reads an order with so much room, or with as much as the stage likes but enough; gives the ANSWER, no bytes
    /// where there is none.
    fn read(&mut self, order: &[u8], room: Option<usize>) -> Result<Vec<u8>, Self::Stop>;

    /// Tells the unit that a look-up found this pair at this address.
    fn learn(&mut self, pair: Pair, address: u16) -> Result<(), Self::Stop>;

    /// Looks at the unit now and then; `chatter` is the share of looks in percent.
    fn look_around(&mut self, chatter: u8) -> Result<(), Self::Stop>;

    /// Looks at all that the unit shows.
    fn look_closely(&mut self) -> Result<(), Self::Stop>;

    /// The ring as it stands.
    fn ring(&self) -> &Ring;

    /// A fresh picture for L, or the one that comes back where L is bad. A new unit is made next.
    fn fresh(&mut self, l: usize) -> Result<(), Self::Stop>;

    /// Offers a record to the ring with so much order room, or with as much as the stage likes but enough; gives the orders. Each
    /// of them is read by the unit next, in this order.
    fn offer(&mut self, record: &[u8], room: Option<usize>) -> Result<Vec<u8>, Self::Stop>;

    /// Looks a pair up in the ring; gives the address where it is listed. The unit is told next.
    fn look_up(&mut self, pair: Pair) -> Result<Option<u16>, Self::Stop>;

    /// The unit has read all orders of the ring so far, and knows what its look-ups found: while the ring is OK, each answer that
    /// it keeps is listed with that address.
    fn at_rest(&mut self) -> Result<(), Self::Stop>;
}

type Played<S> = Result<(), <S as Stage>::Stop>;

/// How the steps of a scene are chosen; the shares are in a thousand but for `chatter`.
struct Habits {
    /// Orders of another pass.
    new_pass: usize,
    /// Look-up answers.
    learns: usize,
    /// Orders that are damaged, and orders with room at the edge.
    damaged: usize,
    rooms: usize,
    chatter: u8,
}

impl Default for Habits {
    fn default() -> Habits {
        Habits { new_pass: 60, learns: 350, damaged: 80, rooms: 40, chatter: 30 }
    }
}

/// A unit on its stage.
pub struct Play<'a, S> {
    stage: &'a mut S,
    random: Random,
    taste: Taste,
    habits: Habits,
    scene: usize,
}

impl<'a, S: Stage> Play<'a, S> {
    const SCENES: [fn(&mut Self) -> Played<S>; 14] = [
        Self::mixed,
        Self::ring_scene,
        Self::full,
        Self::workshop,
        Self::renumberings,
        Self::ring_scene,
        Self::makes,
        Self::workshop,
        Self::damage,
        Self::ring_scene,
        Self::full,
        Self::workshop,
        Self::passes,
        Self::ring_scene,
    ];

    pub fn new(stage: &'a mut S, seed: u64) -> Play<'a, S> {
        let mut random = Random::new(seed);
        let taste = Taste::any(&mut random);
        Play { stage, random, taste, habits: Habits::default(), scene: seed as usize % Self::SCENES.len() }
    }

    /// Plays scene after scene, from the seed's first on, until the stage says stop.
    pub fn run(&mut self) -> S::Stop {
        loop {
            let scene = Self::SCENES[self.scene];
            self.scene = (self.scene + 1) % Self::SCENES.len();
            if let Err(stop) = scene(self) {
                return stop;
            }
        }
    }

    fn unit(&self) -> &Unit {
        self.stage.unit()
    }

    /// A number of steps, or a third of it where the stage is not patient.
    fn length(&mut self, low: usize, high: usize) -> usize {
        self.random.range(low, high) / if S::PATIENT { 1 } else { 3 }
    }
}
