//! Units played in both boxes: each step is taken by both, and everything that comes back is compared.

use std::collections::BTreeSet;

use lathepetal::LookUpOutcome;
use reference::order::{Content, Order};
use reference::player::{first_unit, Bench, UnitBench, MAX_LINE};
use reference::refusal::TOO_MANY_PAIRS;
use reference::registry::Pair;
use reference::sizes::{BENCH_PAIRS, BENCH_ROOM, MAX_KNOWN, MAX_PAIRS, MIN_ANSWER_ROOM};
use reference::unit::Unit;
use reference::wire::{order_of_pairs, KIND, PASS};

use crate::lent::{Lent, Names, Pattern};
use crate::minimize::{minimize, Simpler};
use crate::script::{beyond, differ, differ_at, must, Difference, Found};
use crate::units_boxes::{ReferenceUnit, ShownUnit, UnitBox};

/// The most room that is lent to a unit; a script can lend less.
pub const MOST_ROOM: usize = 65_536;
const NAMES: Names = Names { number: "number of the order", length: "length of the ANSWER" };

const HALF_A_PAIR: &str = "# there is half a pair more, which no script can say";

type Command = <UnitBench as Bench>::Command;

/// One step.
#[derive(Clone)]
pub enum Step {
    /// A new unit.
    Make { position: u8, address: u16, pairs: Vec<Pair> },
    /// An order with `room` bytes of room, filled with the pattern from place `fill` on.
    Read { order: Vec<u8>, room: usize, fill: usize },
    /// What a look-up of the pair gave.
    Learn { pair: Pair, answer: LookUpOutcome },
}

impl Step {
    /// The step as lines of a script that lends so much room so far.
    pub fn lines(&self, lent: &mut usize) -> String {
        match self {
            Step::Make { position, address, pairs } => {
                let said = pairs[..pairs.len().min(BENCH_PAIRS)].to_vec();
                beyond(pairs.len(), BENCH_PAIRS) + &line(Command::Unit { position: *position, address: *address, pairs: said })
            }
            Step::Read { order, room, .. } => lend(*room, lent) + &order_line(order),
            Step::Learn { pair, answer } if answer.number == lathepetal::DONE => {
                line(Command::Found { pair: *pair, address: answer.address })
            }
            Step::Learn { pair: Pair { block, number }, answer } => {
                format!("# here a look-up of {block:02X}.{number:02X} is refused {}, which no script can say\n", answer.number)
            }
        }
    }

    /// The pass of an order that is long enough to have one.
    fn pass(&self) -> Option<[u8; 4]> {
        match self {
            Step::Read { order, .. } => order.get(PASS)?.try_into().ok(),
            _ => None,
        }
    }

    /// Pass 0 in the place of this one.
    fn without_pass(&self, pass: [u8; 4]) -> Step {
        let mut step = self.clone();
        if let Step::Read { order, .. } = &mut step {
            if self.pass() == Some(pass) {
                order[PASS].fill(0);
            }
        }
        step
    }
}

fn line(command: Command) -> String {
    let mut text = Vec::new();
    UnitBench::normal_form(&command, &mut text);
    String::from_utf8(text).expect("a normal form is text") + "\n"
}

fn lend(room: usize, lent: &mut usize) -> String {
    if room == *lent {
        return String::new();
    }
    *lent = room;
    beyond(room, BENCH_ROOM) + &line(Command::Room(room.min(BENCH_ROOM)))
}

fn order_line(order: &[u8]) -> String {
    let text = line(Command::Order(order.to_vec()));
    match text.len() > MAX_LINE {
        true => format!("# here the unit reads an order of {} bytes, which no script can say\n", order.len()),
        false => text,
    }
}

impl Simpler for Step {
    fn simpler(&self) -> Vec<Step> {
        match self {
            Step::Make { position, address, pairs } => {
                let with = |pairs| Step::Make { position: *position, address: *address, pairs };
                fewer(pairs).into_iter().map(with).collect()
            }
            Step::Read { order, room, fill } => {
                let with = |order: Vec<u8>, room: usize| Step::Read { order, room, fill: *fill };
                let roomy = (*room != MIN_ANSWER_ROOM).then(|| with(order.clone(), MIN_ANSWER_ROOM));
                roomy.into_iter().chain(simpler_orders(order).into_iter().map(|order| with(order, *room))).collect()
            }
            Step::Learn { .. } => Vec::new(),
        }
    }

    /// Lists in which pass 0 stands in the place of another one.
    fn rewritten(steps: &[Step]) -> Vec<Vec<Step>> {
        let passes: BTreeSet<[u8; 4]> = steps.iter().filter_map(Step::pass).filter(|&pass| pass != [0; 4]).collect();
        passes.into_iter().map(|pass| steps.iter().map(|step| step.without_pass(pass)).collect()).collect()
    }
}

/// One half of the pairs, the other half, and all but one.
pub fn fewer(pairs: &[Pair]) -> Vec<Vec<Pair>> {
    let (one, other) = pairs.split_at(pairs.len() / 2);
    let halves = [one, other].into_iter().filter(|half| half.len() < pairs.len()).map(<[Pair]>::to_vec);
    halves.chain((0..pairs.len()).map(|place| [&pairs[..place], &pairs[place + 1..]].concat())).collect()
}

/// Orders that name fewer pairs; shorter ones in the place of a malformed one.
fn simpler_orders(order: &[u8]) -> Vec<Vec<u8>> {
    match Order::read(order) {
        Some(Order { pass, content: Content::New(pairs) | Content::Invalid(pairs) }) => {
            let pairs: Vec<Pair> = pairs.iter().collect();
            fewer(&pairs).iter().map(|pairs| order_of_pairs(order[KIND], pass, pairs)).collect()
        }
        Some(_) => Vec::new(),
        None => [order.len() / 2, order.len().saturating_sub(1)]
            .into_iter()
            .filter(|&length| length < order.len())
            .map(|length| order[..length].to_vec())
            .collect(),
    }
}

/// One unit in both boxes.
pub struct Player<P> {
    proved: P,
    reference: ReferenceUnit,
    lent: Lent,
}

impl<P: UnitBox> Player<P> {
    /// The unit that a script begins with.
    pub fn new(pattern: Pattern) -> Player<P> {
        let first = first_unit();
        let (_, proved) = P::make(first.position(), first.address(), &[]);
        Player { proved, reference: ReferenceUnit(first), lent: Lent::new(NAMES, pattern) }
    }

    /// The reference's unit.
    pub fn unit(&self) -> &Unit {
        &self.reference.0
    }

    /// What the unit of the proved side shows.
    pub fn proved(&self) -> ShownUnit {
        self.proved.show()
    }

    /// Plays one step in both boxes and compares; gives the number and the ANSWER.
    pub fn play(&mut self, step: &Step) -> Result<(u8, &[u8]), Difference> {
        let (number, length) = match step {
            Step::Make { position, address, pairs } => (self.make(*position, *address, pairs)?, 0),
            Step::Read { order, room, fill } => self.read(order, *room, *fill)?,
            Step::Learn { pair, answer } => {
                self.learn(*pair, *answer)?;
                (answer.number, 0)
            }
        };
        self.compare_shown()?;
        Ok((number, self.lent.written(length)))
    }

    fn make(&mut self, position: u8, address: u16, pairs: &[Pair]) -> Result<u8, Difference> {
        let mut bytes: Vec<u8> = pairs.iter().flat_map(|pair| [pair.block, pair.number]).collect();
        let (proved_number, proved) = P::make(position, address, &bytes);
        let (number, reference) = ReferenceUnit::make(position, address, &bytes);
        differ("number of the new unit", proved_number, number)?;
        self.proved = proved;
        self.reference = reference;

        bytes.push(position);
        Self::half_a_pair(position, address, &bytes).map_err(|difference| difference.shown_by(HALF_A_PAIR.to_string()))?;
        Ok(number)
    }

    /// Bytes that end with half a pair are refused, and the unit has none; the reference has no such call.
    fn half_a_pair(position: u8, address: u16, bytes: &[u8]) -> Result<(), Difference> {
        let (number, unit) = P::make(position, address, bytes);
        must("proved: number of a unit with half a pair", number, TOO_MANY_PAIRS)?;
        let (_, none) = ReferenceUnit::make(position, address, &[]);
        compare(&unit.show(), &none.show())
    }

    fn read(&mut self, order: &[u8], room: usize, fill: usize) -> Result<(u8, usize), Difference> {
        let Player { proved, reference, lent } = self;
        let before = (proved.clone(), reference.clone());
        let read = lent.offer(order, room, fill, |order, out| proved.read(order, out), |order, out| reference.read(order, out))?;
        if read.0 != 0 {
            must("proved: unit unchanged by a refusal", *proved == before.0, true)?;
            must("reference: unit unchanged by a refusal", *reference == before.1, true)?;
        }
        Ok(read)
    }

    fn learn(&mut self, pair: Pair, answer: LookUpOutcome) -> Result<(), Difference> {
        let before = self.proved.clone();
        self.proved.learn(pair, answer);
        self.reference.learn(pair, answer);
        match answer.number {
            lathepetal::DONE => Ok(()),
            _ => must("proved: unit unchanged by a refused look-up", self.proved == before, true),
        }
    }

    fn compare_shown(&self) -> Result<(), Difference> {
        compare(&self.proved.show(), &self.reference.show())
    }
}

/// Nothing where both units show the same, and no more than a unit has.
fn compare(proved: &ShownUnit, reference: &ShownUnit) -> Result<(), Difference> {
    must("proved: count of the list within the most pairs", proved.counts[0] <= MAX_PAIRS, true)?;
    must("proved: count of the kept answers within the most", proved.counts[1] <= MAX_KNOWN, true)?;
    if proved == reference {
        return Ok(());
    }
    differ("position", proved.position, reference.position)?;
    differ("address", proved.address, reference.address)?;
    differ("pass", proved.pass, reference.pass)?;
    differ("counts of the list and of the kept answers", proved.counts, reference.counts)?;
    differ_at("pair of the list at place", &proved.pairs, &reference.pairs)?;
    differ_at("kept answer at place", &proved.known, &reference.known)
}

fn replay<P: UnitBox>(pattern: &Pattern, steps: &[Step]) -> Option<Difference> {
    let mut player = Player::<P>::new(pattern.clone());
    steps.iter().find_map(|step| player.play(step).err())
}

/// The shortest script for `unit` that shows a difference, as `found` in the run.
pub fn explain<P: UnitBox>(pattern: &Pattern, steps: &[Step], found: Difference) -> Found {
    let differs = |steps: &[Step]| replay::<P>(pattern, steps).is_some();
    let steps = match differs(steps) {
        true => minimize(steps.to_vec(), differs),
        false => steps.to_vec(),
    };
    let difference = replay::<P>(pattern, &steps).unwrap_or(found);
    let mut lent = MIN_ANSWER_ROOM;
    let mut script: String = steps.iter().map(|step| step.lines(&mut lent)).collect();
    if let Some(line) = &difference.line {
        script += &format!("{line}\n");
    }
    Found { difference, program: "unit", script: script + "self\nlist\nknown\n" }
}
