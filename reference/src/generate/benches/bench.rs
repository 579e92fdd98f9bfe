//! A bench: a NetworkMaster, and a unit that reads every order; look-ups are asked and answered between events. The scenes of rings
//! are played on it.

use super::orders::damage;
use super::{Play, Played, Stage};
use crate::generate::rings::{self, pair_near};
use crate::generate::Random;
use crate::order::Order;
use crate::registry::{Entry, Pair, Ring};
use crate::sizes::{MAX_KNOWN, MAX_PAIRS, MIN_ANSWER_ROOM};
use crate::wire;

/// Why a scene on a bench ends.
pub enum End<T> {
    /// It has had its share.
    Enough,
    Stop(T),
}

impl<T> From<T> for End<T> {
    fn from(stop: T) -> End<T> {
        End::Stop(stop)
    }
}

/// The unit's ring, and how the unit takes part in it.
pub struct Bench<'b, S> {
    pub stage: &'b mut S,
    pub random: Random,
    /// How many more orders and look-ups there are.
    left: usize,
    /// The share of the unit's ANSWERs that go to the ring at once, in percent.
    prompt: u8,
    /// ANSWERs of the unit that are under way.
    answers: Vec<Vec<u8>>,
}

pub type Shared<S, T> = Result<T, End<<S as Stage>::Stop>>;

impl<S: Stage> Play<'_, S> {
    /// A scene of rings: the unit reads along, and sometimes speaks for the unit at its position.
    pub fn ring_scene(&mut self) -> Played<S> {
        let left = if S::PATIENT { self.random.range(200, 5_000) } else { self.random.range(40, 320) };
        let seed = self.random.word();
        let mut bench = Bench::new(self.stage, Random::new(!seed), left);
        match rings::Play::new(&mut bench, seed).play_scene() {
            Err(End::Stop(stop)) => Err(stop),
            _ => self.stage.look_closely(),
        }
    }
}

impl<'b, S: Stage> Bench<'b, S> {
    pub fn new(stage: &'b mut S, mut random: Random, left: usize) -> Bench<'b, S> {
        let prompt = random.pick(&[0, 40, 90, 100]);
        Bench { stage, random, left, prompt, answers: Vec::new() }
    }

    fn count_down(&mut self) -> Shared<S, ()> {
        self.left = self.left.checked_sub(1).ok_or(End::Enough)?;
        Ok(())
    }

    /// Offers a record, and the unit reads each order that it brings; gives the orders and the unit's ANSWERs.
    pub fn event(&mut self, record: &[u8], room: Option<usize>) -> Shared<S, (Vec<u8>, Vec<Vec<u8>>)> {
        let orders = self.stage.offer(record, room)?;
        let mut answers = Vec::new();
        for order in wire::orders(&orders) {
            if self.random.chance(2) {
                self.refused_order(order)?;
            }
            let answer = self.stage.read(order, None)?;
            if !answer.is_empty() {
                answers.push(answer);
            }
        }
        self.stage.at_rest()?;
        for _ in wire::orders(&orders) {
            self.count_down()?;
        }
        Ok((orders, answers))
    }

    /// The order comes with too little room, or damaged so that it is malformed; then it comes again.
    fn refused_order(&mut self, order: &[u8]) -> Shared<S, ()> {
        let mut bytes = order.to_vec();
        damage(&mut bytes, &mut self.random);
        if Order::read(&bytes).is_none() {
            self.stage.read(&bytes, None)?;
        }
        let room = self.random.pick(&[0, MIN_ANSWER_ROOM - 5, MIN_ANSWER_ROOM - 1]);
        self.stage.read(order, Some(room))?;
        Ok(())
    }

    /// Asks for a pair, and tells the unit what is found.
    pub fn look_up(&mut self, pair: Pair) -> Shared<S, ()> {
        self.count_down()?;
        if let Some(address) = self.stage.look_up(pair)? {
            self.stage.learn(pair, address)?;
        }
        Ok(())
    }

    /// Some look-ups of pairs that are listed, or nearly.
    pub fn look_ups(&mut self, count: usize, blocks: &[u8]) -> Shared<S, ()> {
        for _ in 0..count {
            let known = self.stage.unit().known();
            let pair = match self.random.below(10) {
                0 if !known.is_empty() => known[self.random.below(known.len())].pair,
                _ => pair_near(self.stage.ring(), blocks, &mut self.random),
            };
            self.look_up(pair)?;
        }
        self.stage.at_rest()?;
        Ok(())
    }

    /// Look-ups of all that is listed, or of more than the unit keeps.
    pub fn look_up_all(&mut self) -> Shared<S, ()> {
        let most = MAX_KNOWN + self.random.below(MAX_KNOWN / 2);
        let mut entries = self.stage.ring().listing();
        let first = self.random.below(entries.len().saturating_sub(most) + 1);
        entries.drain(..first);
        entries.truncate(most);
        if self.random.chance(50) {
            self.random.shuffle(&mut entries);
        }
        for Entry { block, number, .. } in entries {
            self.look_up(Pair { block, number })?;
        }
        self.stage.at_rest()?;
        Ok(())
    }

    /// The ANSWERs that came last go to the ring now, or are under way for a while; those that they bring follow. Gives all orders.
    fn pass_on(&mut self, mut answers: Vec<Vec<u8>>) -> Shared<S, Vec<u8>> {
        let mut orders = Vec::new();
        if !self.answers.is_empty() && self.random.chance(10) {
            let late = self.random.below(self.answers.len());
            answers.push(self.answers.swap_remove(late));
        }
        while let Some(answer) = answers.pop() {
            if self.random.chance(self.prompt) && (self.fits() || self.random.chance(3)) {
                let (more, next) = self.event(&answer, None)?;
                orders.extend(more);
                answers.extend(next);
            } else {
                self.answers.truncate(8);
                self.answers.push(answer);
            }
        }
        Ok(orders)
    }

    /// Nobody else keeps the unit's address, and the ring keeps no other one for its position.
    fn fits(&self) -> bool {
        let unit = self.stage.unit();
        let fits = |position, kept| (position == unit.position()) == (kept == unit.address());
        self.stage.ring().rows().all(|(position, row)| row.address().is_none_or(|kept| fits(position, kept)))
    }

    /// A new unit at one of the first positions, with the address that most units have there.
    fn new_unit(&mut self) -> Shared<S, ()> {
        let position = self.random.pick(&[1, 1, 1, 2, 2, 3, 5, 63]);
        let address = 0x0100 + u16::from(position) + self.random.pick(&[0, 0, 0, 1, 0x80]);
        let count = self.random.pick(&[0, 1, 2, 4, 8, MAX_PAIRS]);
        let block = self.random.pick(&[0x22, 0x30, 0x31, 0x23]);
        let one =
            |_| Pair { block: block + self.random.below(3) as u8, number: self.random.pick(&[1, 1, 2, 3, 0, 255, 9]) };
        let pairs: Vec<Pair> = (0..count).map(one).collect();
        self.answers.clear();
        Ok(self.stage.make(position, address, &pairs)?)
    }
}

impl<S: Stage> rings::Stage for Bench<'_, S> {
    type Stop = End<S::Stop>;

    const PATIENT: bool = S::PATIENT;

    fn ring(&self) -> &Ring {
        self.stage.ring()
    }

    fn fresh(&mut self, l: usize) -> Shared<S, ()> {
        self.stage.fresh(l)?;
        self.new_unit()
    }

    fn offer(&mut self, record: &[u8], room: Option<usize>) -> Shared<S, Vec<u8>> {
        let (mut orders, answers) = self.event(record, room)?;
        orders.extend(self.pass_on(answers)?);
        Ok(orders)
    }

    /// A ring that is fresh at first has no other pass than its own.
    fn set_pass(&mut self, _: u32) -> Shared<S, bool> {
        Ok(false)
    }

    fn look_around(&mut self, chatter: u8, blocks: &[u8]) -> Shared<S, ()> {
        if self.random.chance(chatter) {
            let count = self.random.pick(&[1, 1, 2, 3, 6]);
            self.look_ups(count, blocks)?;
        }
        if self.random.chance(3) {
            self.look_up_all()?;
        }
        Ok(self.stage.look_around(chatter / 4)?)
    }

    fn look_closely(&mut self) -> Shared<S, ()> {
        self.look_up_all()?;
        Ok(self.stage.look_closely()?)
    }
}
