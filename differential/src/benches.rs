//! Generated units in both boxes, alone and on benches: the stage that they are played on, and what they came across.

use lathepetal::LookUpOutcome;
use reference::generate::benches::{Play, Stage};
use reference::generate::Random;
use reference::order::{Content, Order};
use reference::refusal::{NOT_LISTED, NOT_OK, ORDER_MALFORMED, TOO_MANY_PAIRS};
use reference::registry::{Pair, Ring};
use reference::sizes::{MAX_KNOWN, MAX_PAIRS, MIN_ANSWER_ROOM, MIN_ROOM, MIN_SIZE};
use reference::unit::Unit;
use reference::wire::{order, ASK, KIND, ORDER_KINDS};

use crate::boxes::RingBox;
use crate::claim::{Bench, Session, Step};
use crate::lent::Pattern;
use crate::ring;
use crate::script::{Difference, Found};
use crate::units::{self, MOST_ROOM};
use crate::units_boxes::UnitBox;

/// What was played, for the end of the run.
#[derive(Default)]
pub struct Tally {
    /// Orders that were read, and look-ups that units heard of.
    pub orders: usize,
    /// Orders by number given back, and those that were read by kind.
    pub numbers: [usize; ORDER_MALFORMED as usize + 1],
    pub kinds: [usize; ORDER_KINDS as usize],
    /// New units by number given back.
    pub units: [usize; TOO_MANY_PAIRS as usize + 1],
    pub look_ups: LookUps,
    pub losses: Losses,
    pub sets: Sets,
    pub claims: Claims,
}

/// Look-ups that units heard of.
#[derive(Default)]
pub struct LookUps {
    pub learned: usize,
    /// Those of a pair that was kept, and those after which as many are kept as can be.
    pub renewed: usize,
    pub full: usize,
    pub refused: usize,
}

/// Answers that INVALID dropped, and units that were emptied of some.
#[derive(Default)]
pub struct Losses {
    pub dropped: usize,
    pub by_notok: usize,
    pub by_pass: usize,
}

/// SETs for the unit that renumbered a pair and that did not, and SETs for others.
#[derive(Default)]
pub struct Sets {
    pub obeyed: usize,
    pub not_obeyed: usize,
    pub others: usize,
}

/// How often the claim was checked in OK, how often with something kept, and how many answers were kept in all.
#[derive(Default)]
pub struct Claims {
    pub checked: usize,
    pub keeping: usize,
    pub answers: usize,
}

impl Tally {
    /// Counts an order that was read, by the unit before and after it.
    fn count_order(&mut self, before: &Unit, unit: &Unit, order: &[u8], is_answered: bool) {
        let Some(Order { pass, content }) = Order::read(order) else { return };
        self.kinds[order[KIND] as usize] += 1;
        let had = before.known().len();
        let in_pass = pass == before.pass();
        self.losses.by_pass += usize::from(!in_pass && had > 0);
        match content {
            Content::NotOk => self.losses.by_notok += usize::from(in_pass && had > 0),
            Content::Invalid(_) if in_pass => self.losses.dropped += had - unit.known().len(),
            Content::Set { .. } if !is_answered => self.sets.others += 1,
            Content::Set { .. } if unit.pairs() == before.pairs() => self.sets.not_obeyed += 1,
            Content::Set { .. } => self.sets.obeyed += 1,
            _ => {}
        }
    }
}

/// Why a run ends.
enum Stop {
    /// All is played.
    Full,
    /// What differs in the master, in the unit; what breaks the claim.
    Master(Difference),
    Unit(Difference),
    Claim(Difference),
}

/// Plays units until they have read and heard of so many orders and look-ups: the first difference, if there is one. The kinds that are
/// `missed` do not reach them.
pub fn run<R: RingBox, U: UnitBox>(
    seed: u64,
    orders: usize,
    missed: &'static [u8],
    tally: &mut Tally,
    progress: impl FnMut(usize),
) -> Option<Found> {
    let mut random = Random::new(!seed);
    let pattern = Pattern::new(MOST_ROOM, || random.word());
    let session = Session { l: MIN_SIZE, pattern, steps: Vec::new(), missed };
    let bench = match session.bench::<R, U>() {
        Ok(bench) => bench,
        Err(difference) => return Some(session.ring().explain::<R>(difference)),
    };
    let mut both = Both { random, bench, session, steps: Vec::new(), tally, orders, progress };
    match Play::new(&mut both, seed).run() {
        Stop::Full => None,
        Stop::Master(difference) => Some(both.session.ring().explain::<R>(difference)),
        Stop::Unit(difference) => Some(units::explain::<U>(&both.session.pattern, &both.steps, difference)),
        Stop::Claim(difference) => Some(both.session.explain::<R, U>(difference)),
    }
}

/// A bench in both boxes, its session so far, and the steps of its unit since it is new.
struct Both<'a, R, U, F> {
    random: Random,
    bench: Bench<R, U>,
    session: Session,
    steps: Vec<units::Step>,
    tally: &'a mut Tally,
    orders: usize,
    progress: F,
}

impl<R: RingBox, U: UnitBox, F: FnMut(usize)> Both<'_, R, U, F> {
    /// Plays a step of the unit; gives the number and the ANSWER.
    fn play(&mut self, step: units::Step) -> Result<(u8, Vec<u8>), Stop> {
        self.steps.push(step);
        let (number, answer) = self.bench.unit.play(&self.steps[self.steps.len() - 1]).map_err(Stop::Unit)?;
        Ok((number, answer.to_vec()))
    }

    /// Counts an order or a look-up, where it is not the last one already.
    fn count(&mut self) -> Result<(), Stop> {
        if self.tally.orders >= self.orders {
            return Err(Stop::Full);
        }
        self.tally.orders += 1;
        Ok(())
    }

    /// Enough room, mostly no more than that.
    fn room(&mut self) -> usize {
        match self.random.below(100) {
            0..=59 => MIN_ANSWER_ROOM,
            60..=79 => MIN_ANSWER_ROOM + 1,
            80..=97 => self.random.range(MIN_ANSWER_ROOM, 4 * MIN_ANSWER_ROOM),
            98 => self.random.range(MIN_ANSWER_ROOM, MOST_ROOM),
            _ => MOST_ROOM,
        }
    }

    /// A new unit, which the steps begin with.
    fn put(&mut self, step: units::Step) -> Result<(), Stop> {
        self.steps.clear();
        let (number, _) = self.play(step)?;
        self.tally.units[number as usize] += 1;
        Ok(())
    }

    /// A unit that is any bytes, blocks at the edges among them, and an ASK that it answers.
    fn put_any(&mut self) -> Result<(), Stop> {
        let count = self.random.below(MAX_PAIRS + 3);
        let random = &mut self.random;
        let (position, address, pass) = (random.byte(), random.word() as u16, random.word() as u32);
        let mut block = || if random.chance(30) { random.pick(&[0x00, 0x01, 0xFF]) } else { random.byte() };
        let pairs = (0..count).map(|_| Pair { block: block(), number: block() }).collect();
        self.put(units::Step::Make { position, address, pairs })?;
        self.read(&order(ASK, pass, &[position]), None)?;
        Ok(())
    }

    /// The unit hears of a refused look-up.
    fn refuse(&mut self, pair: Pair, answer: LookUpOutcome) -> Result<(), Stop> {
        self.count()?;
        self.tally.look_ups.refused += 1;
        self.play(units::Step::Learn { pair, answer })?;
        Ok(())
    }

    /// A pair that is kept, or any.
    fn any_pair(&mut self) -> Pair {
        let known = self.bench.unit.unit().known();
        match known.is_empty() || self.random.chance(30) {
            true => Pair { block: self.random.byte(), number: self.random.byte() },
            false => known[self.random.below(known.len())].pair,
        }
    }
}

impl<R: RingBox, U: UnitBox, F: FnMut(usize)> Stage for Both<'_, R, U, F> {
    type Stop = Stop;

    const PATIENT: bool = true;
    const MOST_ROOM: usize = MOST_ROOM;
    /// More than a byte counts.
    const MOST_PAIRS: usize = 512;

    fn unit(&self) -> &Unit {
        self.bench.unit.unit()
    }

    /// Now and then there is another one first, such as the scenes do not make.
    fn make(&mut self, position: u8, address: u16, pairs: &[Pair]) -> Result<(), Stop> {
        if self.random.chance(20) {
            self.put_any()?;
        }
        let step = units::Step::Make { position, address, pairs: pairs.to_vec() };
        self.session.steps.push(Step::Make(step.clone()));
        self.put(step)
    }

    fn read(&mut self, order: &[u8], room: Option<usize>) -> Result<Vec<u8>, Stop> {
        self.count()?;
        if !self.session.reaches(order) {
            return Ok(Vec::new());
        }
        let room = room.unwrap_or_else(|| self.room());
        let fill = self.random.word() as usize;
        let before = self.unit().clone();
        let (number, answer) = self.play(units::Step::Read { order: order.to_vec(), room, fill })?;
        self.tally.numbers[number as usize] += 1;
        if number == lathepetal::DONE {
            self.tally.count_order(&before, self.bench.unit.unit(), order, !answer.is_empty());
        }
        Ok(answer)
    }

    /// The position that a look-up gives means nothing to the unit.
    fn learn(&mut self, pair: Pair, address: u16) -> Result<(), Stop> {
        self.count()?;
        let is_kept = self.unit().place_of(pair).is_some();
        let answer = LookUpOutcome { number: lathepetal::DONE, position: self.random.byte(), address };
        self.play(units::Step::Learn { pair, answer })?;
        let is_full = self.unit().known().len() == MAX_KNOWN;
        self.tally.look_ups.learned += 1;
        self.tally.look_ups.renewed += usize::from(is_kept);
        self.tally.look_ups.full += usize::from(is_full);
        Ok(())
    }

    /// All that the unit shows is compared after each step. Now and then it hears of a look-up that was refused, with any number,
    /// position and address.
    fn look_around(&mut self, chatter: u8) -> Result<(), Stop> {
        if !self.random.chance(chatter / 4) {
            return Ok(());
        }
        let number = match self.random.below(4) {
            0 => NOT_LISTED,
            1 => NOT_OK,
            _ => self.random.range(1, 255) as u8,
        };
        let answer = match self.random.chance(50) {
            true => LookUpOutcome { number, position: 0, address: 0 },
            false => LookUpOutcome { number, position: self.random.byte(), address: self.random.word() as u16 },
        };
        let pair = self.any_pair();
        self.refuse(pair, answer)
    }

    fn look_closely(&mut self) -> Result<(), Stop> {
        Ok(())
    }

    fn ring(&self) -> &Ring {
        self.bench.ring.ring()
    }

    /// A session of its own.
    fn fresh(&mut self, l: usize) -> Result<(), Stop> {
        (self.progress)(self.tally.orders);
        self.session.l = l;
        self.session.steps.clear();
        self.steps.clear();
        self.bench = self.session.bench().map_err(Stop::Master)?;
        Ok(())
    }

    fn offer(&mut self, record: &[u8], room: Option<usize>) -> Result<Vec<u8>, Stop> {
        let room = room.unwrap_or_else(|| self.random.pick(&[MIN_ROOM, MIN_ROOM, MIN_ROOM + 1, ring::MOST_ROOM]));
        let step = ring::Step::record(record, self.ring().pass(), room, self.random.word() as usize);
        self.session.steps.push(Step::Record(step.clone()));
        let (_, orders) = self.bench.ring.play(&step).map_err(Stop::Master)?;
        Ok(orders.to_vec())
    }

    fn look_up(&mut self, pair: Pair) -> Result<Option<u16>, Stop> {
        self.session.steps.push(Step::LookUp(pair));
        let answer = self.bench.look_up(pair).map_err(Stop::Master)?;
        if answer.number != lathepetal::DONE {
            self.refuse(pair, answer)?;
            return Ok(None);
        }
        Ok(Some(answer.address))
    }

    fn at_rest(&mut self) -> Result<(), Stop> {
        if let Some(kept) = self.bench.claim().map_err(Stop::Claim)? {
            self.tally.claims.checked += 1;
            self.tally.claims.keeping += usize::from(kept > 0);
            self.tally.claims.answers += kept;
        }
        Ok(())
    }
}
