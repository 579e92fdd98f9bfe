//! The scenes of a single unit: each makes a unit, and leads it to one kind of trouble.

use super::orders::{damage, MOST_NAMED, PASS_EDGES};
use super::{Habits, Play, Played, Stage};
use crate::generate::rings::units::Taste;
use crate::registry::Pair;
use crate::sizes::{BENCH_ROOM, MAX_KNOWN, MAX_PAIRS, MIN_ANSWER_ROOM};
use crate::wire::{order, order_of_pairs, ASK, INVALID, NEW, NOTOK, OK, ORDER_HEAD, SET, WAIT_LONG, WAIT_SHORT};

const ADDRESSES: &[u16] = &[0x0000, 0x0001, 0x00FF, 0x0100, 0x0101, 0x02FF, 0x0300, 0x0201, 0x8101, 0xFFFE, 0xFFFF];
const POSITIONS: &[u8] = &[0, 1, 2, 62, 63, 64, 65, 127, 128, 254, 255];
const COUNTS: &[usize] = &[
    0,
    1,
    2,
    16,
    17,
    MAX_PAIRS - 1,
    MAX_PAIRS,
    MAX_PAIRS,
    MAX_PAIRS + 1,
    MAX_PAIRS + 1,
    MAX_PAIRS + 2,
    2 * MAX_PAIRS,
    254,
    255,
    256,
    257,
    256 + MAX_PAIRS,
    512,
];
const ROOMS: &[usize] = &[
    0,
    1,
    8,
    11,
    MIN_ANSWER_ROOM / 2,
    MIN_ANSWER_ROOM - 6,
    MIN_ANSWER_ROOM - 5,
    MIN_ANSWER_ROOM - 1,
    MIN_ANSWER_ROOM - 1,
    MIN_ANSWER_ROOM - 1,
    MIN_ANSWER_ROOM,
    MIN_ANSWER_ROOM,
    MIN_ANSWER_ROOM + 1,
    2 * MIN_ANSWER_ROOM,
    BENCH_ROOM - 1,
    BENCH_ROOM,
    65_536,
];

impl<S: Stage> Play<'_, S> {
    /// Another taste and other habits, and a unit of at most so many pairs.
    fn begin(&mut self, habits: Habits, most_pairs: usize) -> Played<S> {
        self.habits = habits;
        self.taste = Taste::any(&mut self.random);
        let position = match self.random.chance(80) {
            true => self.random.range(1, 6) as u8,
            false => self.random.pick(POSITIONS),
        };
        let address = match self.random.chance(80) {
            true => 0x0100 + u16::from(position),
            false => self.random.pick(ADDRESSES),
        };
        let count = self.random.range(0, most_pairs);
        let pairs = self.taste.pairs(count, &mut self.random);
        self.stage.make(position, address, &pairs)
    }

    fn read(&mut self, order: &[u8]) -> Played<S> {
        self.stage.read(order, None)?;
        self.stage.look_around(self.habits.chatter)
    }

    /// So many steps: orders, damaged ones among them, look-up answers, room at the edges.
    fn steps(&mut self, steps: usize) -> Played<S> {
        for _ in 0..steps {
            let habits = &self.habits;
            let (learns, damaged, rooms) = (habits.learns, habits.damaged, habits.rooms);
            match self.random.below(1000) {
                step if step < learns => self.learn()?,
                step if step < learns + damaged => {
                    let order = self.damaged_order();
                    self.read(&order)?;
                }
                step if step < learns + damaged + rooms => self.lent_room()?,
                _ => {
                    let order = self.order();
                    self.read(&order)?;
                }
            }
        }
        Ok(())
    }

    /// A look-up answer: a new one, or one that is kept already, the oldest, the newest or any.
    fn learn(&mut self) -> Played<S> {
        let known = self.stage.unit().known();
        let address = self.random.pick(&[0x0101, 0x0102, 0x0103, 0x02FF, 0x0000, 0xFFFF]);
        let last = known.len().saturating_sub(1);
        let place = match self.random.below(12) {
            0 => 0,
            1 => last,
            2 => self.random.range(0, last),
            _ => usize::MAX,
        };
        let (pair, address) = match known.get(place) {
            Some(&kept) if self.random.chance(30) => (kept.pair, kept.address),
            Some(&kept) => (kept.pair, address),
            None => (self.any_pair(), address),
        };
        self.stage.learn(pair, address)?;
        self.stage.look_around(self.habits.chatter)
    }

    /// An order, often one that would be answered, with room at the edge.
    fn lent_room(&mut self) -> Played<S> {
        let room = self.random.pick(ROOMS).min(S::MOST_ROOM);
        let (pass, position) = (self.unit().pass(), self.unit().position());
        let bytes = match self.random.below(8) {
            0..=2 => order(ASK, pass, &[position]),
            3 => order(OK, pass.wrapping_add(1), &[]),
            4 | 5 => self.damaged_order(),
            _ => self.order(),
        };
        self.stage.read(&bytes, Some(room))?;
        self.stage.look_around(self.habits.chatter)
    }

    /// A bit of everything.
    pub fn mixed(&mut self) -> Played<S> {
        let most_pairs = self.random.pick(&[0, 2, 4, 8, MAX_PAIRS, MAX_PAIRS, MAX_PAIRS + 2]);
        let new_pass = self.random.pick(&[10, 60, 200]);
        let damaged = self.random.pick(&[30, 150]);
        self.begin(Habits { new_pass, damaged, ..Habits::default() }, most_pairs)?;
        let steps = self.length(60, 240);
        self.steps(steps)?;
        self.stage.look_closely()
    }

    /// As many answers as are kept, and more; INVALIDs make room.
    pub fn full(&mut self) -> Played<S> {
        let most_pairs = self.random.pick(&[0, 4, MAX_PAIRS]);
        let learns = self.random.pick(&[500, 750, 900]);
        self.begin(Habits { new_pass: 2, learns, damaged: 20, rooms: 10, chatter: 6 }, most_pairs)?;
        self.taste.low_numbers = false;
        self.taste.blocks = (0..self.random.range(4, 12)).map(|_| self.random.byte()).collect();
        let first = self.random.below(100);
        for place in first..first + self.random.range(MAX_KNOWN - 2, MAX_KNOWN + 3) {
            let block = self.taste.blocks[place % self.taste.blocks.len()];
            self.stage.learn(Pair { block, number: place as u8 }, 0x0100 + place as u16)?;
        }
        self.stage.look_closely()?;
        for _ in 0..self.length(4, 9) {
            let steps = self.random.range(8, 40);
            self.steps(steps)?;
            self.stage.look_closely()?;
            if self.random.chance(40) {
                self.drop_many()?;
            }
        }
        if self.random.chance(50) {
            let (kind, pass) = (self.random.pick(&[NOTOK, OK, ASK]), self.unit().pass());
            let data: &[u8] = if kind == ASK { &[1] } else { &[] };
            let next = if kind == NOTOK { pass } else { pass.wrapping_add(1) };
            self.read(&order(kind, next, data))?;
        }
        self.stage.look_closely()
    }

    /// An INVALID that names many kept pairs: the oldest, the newest, every second one, all of them, some of them twice, all behind
    /// many others.
    fn drop_many(&mut self) -> Played<S> {
        let pass = self.unit().pass();
        let known: Vec<Pair> = self.unit().known().iter().map(|known| known.pair).collect();
        let count = self.random.range(0, known.len());
        let stranger = Pair { block: !self.taste.blocks[0], number: 0 };
        let mut pairs: Vec<Pair> = match self.random.below(8) {
            0 => known[..count].to_vec(),
            1 => known[count..].to_vec(),
            2 => known.iter().copied().step_by(2).collect(),
            3 => known.iter().copied().skip(1).step_by(2).collect(),
            4 => known.clone(),
            5 => known.iter().chain(&known[..count]).copied().collect(),
            _ => [&vec![stranger; MOST_NAMED - known.len()], &known[..]].concat(),
        };
        if self.random.chance(40) {
            self.random.shuffle(&mut pairs);
        }
        pairs.truncate(MOST_NAMED);
        self.read(&order_of_pairs(INVALID, pass, &pairs))?;
        self.stage.look_closely()
    }

    /// Units with equal pairs and few blocks, and SETs for them.
    pub fn renumberings(&mut self) -> Played<S> {
        for _ in 0..self.length(3, 9) {
            self.begin(Habits { new_pass: 10, chatter: 40, ..Habits::default() }, MAX_PAIRS)?;
            self.taste.blocks.truncate(2);
            self.taste.low_numbers = self.random.chance(70);
            let count = self.random.pick(&[1, 2, 3, 5, MAX_PAIRS]);
            let pairs = self.taste.pairs(count, &mut self.random);
            let (position, address) = (self.unit().position(), self.unit().address());
            self.stage.make(position, address, &pairs)?;
            for _ in 0..self.random.range(6, 24) {
                let pass = self.unit().pass();
                let order = self.set(pass);
                self.read(&order)?;
            }
            self.stage.look_closely()?;
        }
        Ok(())
    }

    /// New units with many pairs, positions and addresses, in the place of units that know something.
    pub fn makes(&mut self) -> Played<S> {
        self.begin(Habits::default(), 4)?;
        for _ in 0..self.length(12, 36) {
            self.steps(3)?;
            let (position, address) = (self.random.pick(POSITIONS), self.random.pick(ADDRESSES));
            let count = self.random.pick(COUNTS).min(S::MOST_PAIRS);
            let pairs = self.taste.pairs(count, &mut self.random);
            self.stage.make(position, address, &pairs)?;
            self.stage.look_closely()?;
            let pass = self.random.pick(&[0, 1]);
            self.read(&order(ASK, pass, &[position]))?;
        }
        Ok(())
    }

    /// Each kind with each length, counts that fit and that do not, one order damaged at every byte.
    pub fn damage(&mut self) -> Played<S> {
        self.begin(Habits { new_pass: 20, chatter: 10, ..Habits::default() }, 4)?;
        self.steps(10)?;
        let pass = self.unit().pass();
        let position = self.unit().position();
        let [high, low] = self.unit().address().to_be_bytes();
        let data = [position, high, low, 0x22, 0x01, 0x02, 0x22, 0x03];
        for kind in 0..=WAIT_LONG + 1 {
            let bytes = order(kind, pass ^ self.random.below(2) as u32, &data);
            let first = if self.random.chance(20) { 0 } else { ORDER_HEAD - 1 };
            for length in first..=bytes.len() {
                if S::PATIENT || self.random.chance(40) {
                    self.read(&bytes[..length])?;
                }
            }
        }
        for _ in 0..self.length(10, 40) {
            self.wrong_count()?;
        }
        self.long_order()?;
        let good = self.order();
        for place in 0..good.len().min(24) {
            let mut bytes = good.clone();
            bytes[place] ^= match self.random.chance(70) {
                true => 1 << self.random.below(8),
                false => self.random.range(1, 255) as u8,
            };
            self.read(&bytes)?;
        }
        for _ in 0..self.length(30, 90) {
            let mut bytes = self.order();
            damage(&mut bytes, &mut self.random);
            self.read(&bytes)?;
        }
        self.stage.look_closely()
    }

    /// NEW or INVALID whose count is nearly that of its pairs.
    fn wrong_count(&mut self) -> Played<S> {
        let kind = self.random.pick(&[NEW, INVALID, INVALID]);
        let pairs = self.random.pick(&[0, 1, 2, 3, 22, 63, 64, 65, 127, 128, 254, MOST_NAMED]);
        let known: Vec<Pair> = self.unit().known().iter().map(|known| known.pair).collect();
        let named: Vec<Pair> = known.into_iter().cycle().take(pairs).collect();
        let pass = self.unit().pass();
        let mut bytes = order_of_pairs(kind, pass, &named);
        match self.random.below(6) {
            0 => bytes[ORDER_HEAD] = bytes[ORDER_HEAD].wrapping_add(1),
            1 => bytes[ORDER_HEAD] = bytes[ORDER_HEAD].wrapping_sub(1),
            2 => bytes[ORDER_HEAD] = bytes[ORDER_HEAD].wrapping_add(128),
            3 => drop(bytes.pop()),
            4 => bytes.push(0x22),
            _ => {}
        }
        self.read(&bytes)?;
        self.learn()
    }

    /// A good order with so many bytes more that a short count of its length does not see them.
    fn long_order(&mut self) -> Played<S> {
        let mut bytes = self.order();
        let more = if S::PATIENT && self.random.chance(20) { 65_536 } else { 256 };
        bytes.resize(bytes.len() + more, 0);
        self.read(&bytes)
    }

    /// Passes that are near to each other, with an answer kept in each.
    pub fn passes(&mut self) -> Played<S> {
        self.begin(Habits { new_pass: 300, learns: 450, chatter: 60, ..Habits::default() }, 3)?;
        for _ in 0..self.length(20, 60) {
            self.learn()?;
            let last = self.unit().pass();
            let pass = match self.random.below(6) {
                0 => last,
                1 => last ^ 1 << self.random.below(32),
                2 => last.rotate_left(8),
                3 => last.wrapping_sub(1),
                _ => self.random.pick(PASS_EDGES),
            };
            let [high, low] = self.unit().address().to_be_bytes();
            let position = self.unit().position();
            let bytes = match self.random.below(9) {
                0 => order(ASK, pass, &[position]),
                1 => order(SET, pass, &[position, high, low, 0x22, 1, 2]),
                2 => order(NEW, pass, &[0]),
                3 => order(INVALID, pass, &[0]),
                4 => order(ASK, pass, &[position ^ 1]),
                _ => order(self.random.pick(&[OK, NOTOK, WAIT_SHORT, WAIT_LONG]), pass, &[]),
            };
            self.read(&bytes)?;
        }
        let steps = self.length(10, 40);
        self.steps(steps)
    }
}
