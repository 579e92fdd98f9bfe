//! A unit in the two boxes behind one face: the proved library and the reference.

use lathepetal::{LookUpOutcome, Slave, MAX_ANSWERS, MAX_PAIRS};
use reference::registry::Pair;
use reference::unit::{Known, Unit};
use reference::wire;

/// What a unit shows.
#[derive(PartialEq)]
pub struct ShownUnit {
    pub position: u8,
    pub address: u16,
    pub pass: u32,
    /// How many pairs and answers the unit says that it has.
    pub counts: [usize; 2],
    /// Those pairs and answers that there is a place for.
    pub pairs: Vec<Pair>,
    pub known: Vec<Known>,
}

/// A box that plays a unit. A number 0 means that there is no refusal.
pub trait UnitBox: Clone + PartialEq {
    /// A unit with the pairs that stand in these bytes, and the number given back.
    fn make(position: u8, address: u16, pairs: &[u8]) -> (u8, Self);

    /// Reads an order; gives the number and the length of the ANSWER.
    fn read(&mut self, order: &[u8], out: &mut [u8]) -> (u8, usize);

    /// Learns what a look-up of the pair gave.
    fn learn(&mut self, pair: Pair, answer: LookUpOutcome);

    fn show(&self) -> ShownUnit;
}

/// The unit of the proved library.
#[derive(Clone, PartialEq)]
pub struct ProvedUnit(pub Slave);

impl UnitBox for ProvedUnit {
    fn make(position: u8, address: u16, pairs: &[u8]) -> (u8, ProvedUnit) {
        let outcome = lathepetal::unit(position, address, pairs);
        (outcome.number, ProvedUnit(outcome.unit))
    }

    fn read(&mut self, order: &[u8], out: &mut [u8]) -> (u8, usize) {
        let outcome = lathepetal::unit_read(self.0, order, out);
        self.0 = outcome.unit;
        (outcome.number, outcome.length)
    }

    fn learn(&mut self, pair: Pair, answer: LookUpOutcome) {
        self.0 = lathepetal::unit_learn(self.0, pair.block, pair.number, answer);
    }

    fn show(&self) -> ShownUnit {
        let Slave { pass, address, position, pairs, known } = &self.0;
        let pair = |(&block, &number): (&u8, &u8)| Pair { block, number };
        let list = pairs.blocks.iter().zip(&pairs.numbers).map(pair);
        let answers = known.blocks.iter().zip(&known.numbers).map(pair).zip(&known.addresses);
        ShownUnit {
            position: *position,
            address: *address,
            pass: *pass,
            counts: [pairs.count, known.count],
            pairs: list.take(pairs.count.min(MAX_PAIRS)).collect(),
            known: answers.map(|(pair, &address)| Known { pair, address }).take(known.count.min(MAX_ANSWERS)).collect(),
        }
    }
}

/// The unit of the reference.
#[derive(Clone, PartialEq)]
pub struct ReferenceUnit(pub Unit);

impl UnitBox for ReferenceUnit {
    /// The bytes are whole pairs: the reference is made with pairs.
    fn make(position: u8, address: u16, pairs: &[u8]) -> (u8, ReferenceUnit) {
        let pairs: Vec<Pair> = wire::pairs(pairs).collect();
        let (made, unit) = Unit::new(position, address, &pairs);
        (made.err().unwrap_or(0), ReferenceUnit(unit))
    }

    fn read(&mut self, order: &[u8], out: &mut [u8]) -> (u8, usize) {
        match self.0.read(order, out) {
            Ok(length) => (0, length),
            Err(number) => (number, 0),
        }
    }

    /// The reference hears of look-ups that found something.
    fn learn(&mut self, pair: Pair, answer: LookUpOutcome) {
        if answer.number == lathepetal::DONE {
            self.0.learn(pair, answer.address);
        }
    }

    fn show(&self) -> ShownUnit {
        let (pairs, known) = (self.0.pairs().to_vec(), self.0.known().to_vec());
        ShownUnit {
            position: self.0.position(),
            address: self.0.address(),
            pass: self.0.pass(),
            counts: [pairs.len(), known.len()],
            pairs,
            known,
        }
    }
}
