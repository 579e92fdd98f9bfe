//! A bench in both boxes: a master, and a unit that reads its orders and learns what look-ups give. The claim: while the master is OK,
//! every answer that the unit keeps is in the listing with that address.

use lathepetal::{FlatListing, LookUpOutcome};
use reference::registry::Pair;
use reference::sizes::MIN_ANSWER_ROOM;
use reference::unit::Known;
use reference::wire::{self, KIND};

use crate::boxes::RingBox;
use crate::lent::Pattern;
use crate::minimize::{minimize, Simpler};
use crate::ring::{self, hex_of_record};
use crate::script::{Difference, Found};
use crate::units;
use crate::units_boxes::UnitBox;

/// One step on a bench.
#[derive(Clone)]
pub enum Step {
    /// A new unit.
    Make(units::Step),
    /// A record; the unit reads its orders.
    Record(ring::Step),
    /// A look-up; the unit learns what it gives.
    LookUp(Pair),
}

impl Simpler for Step {
    fn simpler(&self) -> Vec<Step> {
        match self {
            Step::Make(step) => step.simpler().into_iter().map(Step::Make).collect(),
            Step::Record(step) => step.simpler().into_iter().map(Step::Record).collect(),
            Step::LookUp(_) => Vec::new(),
        }
    }
}

/// A master and a unit.
pub struct Bench<R, U> {
    pub ring: ring::Player<R>,
    pub unit: units::Player<U>,
}

impl<R: RingBox, U: UnitBox> Bench<R, U> {
    /// What the unit is told in a step of the master.
    fn told(&mut self, step: &Step) -> Result<Vec<units::Step>, Difference> {
        match step {
            Step::Make(step) => Ok(vec![step.clone()]),
            Step::Record(step) => {
                let (_, orders) = self.ring.play(step)?;
                let read = |order: &[u8]| units::Step::Read { order: order.to_vec(), room: MIN_ANSWER_ROOM, fill: 0 };
                Ok(wire::orders(orders).map(read).collect())
            }
            Step::LookUp(pair) => Ok(vec![units::Step::Learn { pair: *pair, answer: self.look_up(*pair)? }]),
        }
    }

    pub fn look_up(&self, pair: Pair) -> Result<LookUpOutcome, Difference> {
        let (number, position, address) = self.ring.compare_look_up(pair.block, pair.number)?;
        Ok(LookUpOutcome { number, position, address })
    }

    /// Checks the claim on the proved side: how many answers the unit keeps while the master is OK.
    pub fn claim(&self) -> Result<Option<usize>, Difference> {
        let master = self.ring.proved();
        if master.show().state != lathepetal::OK {
            return Ok(None);
        }
        let known = self.unit.proved().known;
        if !known.is_empty() {
            let listing = master.listing();
            known.iter().try_for_each(|kept| is_listed(&listing, kept))?;
        }
        Ok(Some(known.len()))
    }
}

fn is_listed(listing: &FlatListing, kept: &Known) -> Result<(), Difference> {
    let Known { pair: Pair { block, number }, address } = *kept;
    let place = (0..listing.count).find(|&place| (listing.blocks[place], listing.numbers[place]) == (block, number));
    let listed = place.map(|place| listing.addresses[place]);
    if listed == Some(address) {
        return Ok(());
    }
    let listed = listed.map_or("does not have it".to_string(), |listed| format!("has it with {listed:04X}"));
    let what = format!("claim: {block:02X}.{number:02X} is kept with {address:04X} in OK, and the listing {listed}");
    Err(Difference { what, line: None })
}

/// A bench as far as it is played.
pub struct Session {
    pub l: usize,
    pub pattern: Pattern,
    pub steps: Vec<Step>,
    /// The kinds of orders that do not reach the unit: none, but where that is the fault that is planted.
    pub missed: &'static [u8],
}

impl Session {
    pub fn reaches(&self, order: &[u8]) -> bool {
        order.get(KIND).is_none_or(|kind| !self.missed.contains(kind))
    }

    fn hears(&self, step: &units::Step) -> bool {
        match step {
            units::Step::Read { order, .. } => self.reaches(order),
            _ => true,
        }
    }

    /// The bench at the start.
    pub fn bench<R: RingBox, U: UnitBox>(&self) -> Result<Bench<R, U>, Difference> {
        Ok(Bench { ring: ring::Player::fresh(self.l, self.pattern.clone())?, unit: units::Player::new(self.pattern.clone()) })
    }

    /// The master's part.
    pub fn ring(&self) -> ring::Session {
        let record = |step: &Step| match step {
            Step::Record(step) => Some(step.clone()),
            _ => None,
        };
        ring::Session { l: self.l, pattern: self.pattern.clone(), steps: self.steps.iter().filter_map(record).collect() }
    }

    /// Plays a step; gives what the unit is told.
    fn play<R: RingBox, U: UnitBox>(&self, bench: &mut Bench<R, U>, step: &Step) -> Result<Vec<units::Step>, Difference> {
        let told = bench.told(step)?;
        for step in told.iter().filter(|step| self.hears(step)) {
            bench.unit.play(step)?;
        }
        Ok(told)
    }

    /// Plays steps anew and checks the claim after each: the difference that shows, if any.
    fn replay<R: RingBox, U: UnitBox>(&self, steps: &[Step]) -> Option<Difference> {
        let run = || {
            let mut bench = self.bench::<R, U>()?;
            for step in steps {
                self.play(&mut bench, step)?;
                bench.claim()?;
            }
            Ok(())
        };
        run().err()
    }

    /// The shortest bench that breaks the claim, as `found` in the run.
    pub fn explain<R: RingBox, U: UnitBox>(&self, found: Difference) -> Found {
        let differs = |steps: &[Step]| self.replay::<R, U>(steps).is_some();
        let steps = match differs(&self.steps) {
            true => minimize(self.steps.clone(), differs),
            false => self.steps.clone(),
        };
        let difference = self.replay::<R, U>(&steps).unwrap_or(found);
        Found { difference, program: "unit", script: self.script::<R, U>(&steps) }
    }

    /// Steps as a script for `unit`, with the master's lines as comments.
    fn script<R: RingBox, U: UnitBox>(&self, steps: &[Step]) -> String {
        let mut text = format!("# What stands behind # is for ringbox, the master.\n# fresh {}\n", self.l);
        let mut bench = self.bench::<R, U>().ok();
        let mut lent = MIN_ANSWER_ROOM;
        for step in steps {
            let Some(bench) = &mut bench else { break };
            text += &match step {
                Step::Make(_) => String::new(),
                Step::Record(step) => format!("# > {}\n", hex_of_record(&bench.ring.bytes_of(step))),
                Step::LookUp(pair) => format!("# lookup {:02X} {:02X}\n", pair.block, pair.number),
            };
            for told in self.play(bench, step).unwrap_or_default() {
                let mark = if self.hears(&told) { "" } else { "# missed: " };
                text += &format!("{mark}{}", told.lines(&mut lent));
            }
        }
        text + "# state\n# listing\nknown\n"
    }
}
