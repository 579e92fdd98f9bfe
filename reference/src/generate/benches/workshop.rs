//! Benches on which each unit reads the orders and answers them, the one on the stage among them.

use super::bench::{Bench, End, Shared};
use super::{Play, Played, Stage};
use crate::generate::rings::units::Taste;
use crate::generate::Random;
use crate::registry::{Pair, Ring, State, Status};
use crate::sizes::{MAX_NODES, MAX_PAIRS, MAX_SIZE, MIN_ANSWER_ROOM, MIN_SIZE};
use crate::unit::Unit;
use crate::wire::{self, answer, event, DELAY, NCE, NONE, PASS, SHUTDOWN, START, X};

/// A bench with all its units.
struct Workshop<'w, S> {
    bench: Bench<'w, S>,
    /// By position; the one at the position of the stage's unit is out of play.
    others: Vec<Unit>,
    /// ANSWERs that are under way.
    answers: Vec<Vec<u8>>,
    nodes: usize,
    taste: Taste,
}

impl<S: Stage> Play<'_, S> {
    /// A bench that gets to OK, and then from one trouble to the next.
    pub fn workshop(&mut self) -> Played<S> {
        let left = if S::PATIENT { self.random.range(300, 6_000) } else { self.random.range(60, 340) };
        let mut random = Random::new(self.random.word());
        let taste = Taste::any(&mut random);
        let bench = Bench::new(&mut *self.stage, random, left);
        let mut workshop = Workshop { bench, others: Vec::new(), answers: Vec::new(), nodes: 0, taste };
        match workshop.play() {
            Err(End::Stop(stop)) => Err(stop),
            _ => self.stage.look_closely(),
        }
    }
}

impl<S: Stage> Workshop<'_, S> {
    fn play(&mut self) -> Shared<S, ()> {
        self.begin()?;
        self.event(&event(START, 0, self.nodes as u8))?;
        self.reply_to_all()?;
        for _ in 0..self.bench.random.range(3, if S::PATIENT { 24 } else { 8 }) {
            self.look_up()?;
            self.trouble()?;
            self.look_up()?;
            if self.ring().state() == State::Off {
                self.event(&event(START, 0, self.nodes as u8))?;
            }
            self.reply_to_all()?;
            self.bench.stage.look_around(30)?;
        }
        self.look_up()
    }

    /// A fresh ring and new units.
    fn begin(&mut self) -> Shared<S, ()> {
        let random = &mut self.bench.random;
        let great = if S::PATIENT { MAX_NODES } else { 12 };
        self.nodes = random.pick(&[2, 3, 3, 4, 4, 5, 6, 8, great]);
        let own = random.range(1, self.nodes - 1);
        let l = random.pick(&[MIN_SIZE, MIN_SIZE, MAX_SIZE, 24]);
        let style = random.below(5);
        let count = random.pick(&[1, 2, 5, MAX_PAIRS]);
        let twins = self.taste.pairs(count, random);
        let list = |position: usize| match style {
            0 => twins.clone(),
            1 | 2 => (0..MAX_PAIRS).map(|index| Pair { block: (0x10 + index) as u8, number: position as u8 }).collect(),
            3 => self.taste.pairs(random.range(0, count), random),
            _ => (0..count).map(|index| Pair { block: 0x22, number: [0, 255, 1, index as u8][index % 4] }).collect(),
        };
        let lists: Vec<Vec<Pair>> = (0..MAX_NODES).map(list).collect();
        let unit = |position: usize| Unit::new(position as u8, home(position), &lists[position]).1;
        self.others = (0..MAX_NODES).map(unit).collect();
        self.bench.stage.fresh(l)?;
        self.make(own, &lists[own])
    }

    /// A new unit on the stage.
    fn make(&mut self, position: usize, pairs: &[Pair]) -> Shared<S, ()> {
        Ok(self.bench.stage.make(position as u8, home(position), pairs)?)
    }

    fn ring(&self) -> &Ring {
        self.bench.stage.ring()
    }

    fn own(&self) -> usize {
        self.bench.stage.unit().position() as usize
    }

    fn is_ok(&self) -> bool {
        self.ring().state() == State::Ok
    }

    /// Offers a record; all units read its orders.
    fn event(&mut self, record: &[u8]) -> Shared<S, ()> {
        let (orders, own) = self.bench.event(record, None)?;
        let pass = self.ring().pass().to_be_bytes();
        self.answers.retain(|answer| answer[PASS] == pass);
        self.answers.extend(own);
        let out_of_play = self.own();
        let mut room = [0; MIN_ANSWER_ROOM];
        for order in wire::orders(&orders) {
            for unit in self.others[1..self.nodes].iter_mut().filter(|unit| usize::from(unit.position()) != out_of_play)
            {
                let length = unit.read(order, &mut room).unwrap_or(0);
                if length > 0 {
                    self.answers.push(room[..length].to_vec());
                }
            }
        }
        Ok(())
    }

    fn open_positions(&self) -> Vec<u8> {
        let open = |status| matches!(status, Status::Waiting | Status::Setting { .. });
        self.ring().rows().filter(|(_, row)| open(row.status())).map(|(position, _)| position).collect()
    }

    /// An open question is answered, or seldom left without answer; a look-up may come between.
    fn reply(&mut self, position: u8) -> Shared<S, ()> {
        let waits = self.answers.iter().rposition(|answer| answer[X] == position);
        let record = match waits {
            Some(place) if !self.bench.random.chance(3) => self.answers.remove(place),
            _ => event(NONE, self.ring().pass(), position),
        };
        self.event(&record)?;
        if self.bench.random.chance(25) {
            self.bench.look_ups(1, &self.taste.blocks)?;
        }
        Ok(())
    }

    fn reply_to_all(&mut self) -> Shared<S, ()> {
        loop {
            let open = self.open_positions();
            if open.is_empty() {
                return Ok(());
            }
            let position = self.bench.random.pick(&open);
            self.reply(position)?;
        }
    }

    fn look_up(&mut self) -> Shared<S, ()> {
        match self.bench.random.below(4) {
            0 => Ok(()),
            1 => self.bench.look_up_all(),
            _ => {
                let count = self.bench.random.pick(&[1, 2, 5, 20]);
                self.bench.look_ups(count, &self.taste.blocks)
            }
        }
    }

    /// Another unit, where there is one in the ring.
    fn another(&mut self) -> Option<usize> {
        let own = self.own();
        let others: Vec<usize> = (1..self.nodes).filter(|&position| position != own).collect();
        (!others.is_empty()).then(|| self.bench.random.pick(&others))
    }

    fn trouble(&mut self) -> Shared<S, ()> {
        let other = self.another();
        match (self.bench.random.below(18), other) {
            (0, _) => self.plug(self.nodes),
            (1 | 2, _) => self.exchange_places(),
            (3, _) => {
                let nodes = self.bench.random.range(2, MAX_NODES.min(self.nodes + 2));
                self.plug(nodes)
            }
            (4, _) => self.unplug_all(),
            (5, _) => self.move_own(),
            (6, _) => self.shut_down(),
            (7, _) => self.announce_own(),
            (8, Some(other)) => self.lie(other, 0x0300),
            (9, Some(other)) => {
                let address = self.bench.stage.unit().address();
                self.lie(other, address)
            }
            (10, Some(other)) => self.fall_silent(other),
            (11 | 12, Some(other)) => self.take_from_own(other),
            (13, Some(other)) => self.hand_over(other),
            (_, Some(other)) => self.change_list(other),
            (_, None) => self.announce_own(),
        }
    }

    /// NCE.
    fn plug(&mut self, nodes: usize) -> Shared<S, ()> {
        self.nodes = nodes;
        self.event(&event(NCE, 0, nodes as u8))
    }

    /// Two other units change their places before a re-plug.
    fn exchange_places(&mut self) -> Shared<S, ()> {
        if let (Some(one), Some(other)) = (self.another(), self.another()) {
            let (first, second) = (self.others[one].clone(), self.others[other].clone());
            self.others[one] = Unit::new(one as u8, second.address(), second.pairs()).1;
            self.others[other] = Unit::new(other as u8, first.address(), first.pairs()).1;
        }
        self.plug(self.nodes)
    }

    /// Everyone is unplugged, so that nothing is listed; passes go by without an order.
    fn unplug_all(&mut self) -> Shared<S, ()> {
        let nodes = self.nodes;
        for _ in 0..self.bench.random.range(1, 3) {
            self.plug(1)?;
            self.look_up()?;
        }
        self.plug(nodes)
    }

    /// The unit on the stage comes to another place as a new one, and another unit to its place.
    fn move_own(&mut self) -> Shared<S, ()> {
        let Some(place) = self.another() else {
            return self.plug(self.nodes);
        };
        let old = self.own();
        let pairs = self.bench.stage.unit().pairs().to_vec();
        self.others[old] = Unit::new(old as u8, home(old), self.others[place].pairs()).1;
        self.make(place, &pairs)?;
        self.plug(self.nodes)
    }

    fn shut_down(&mut self) -> Shared<S, ()> {
        self.event(&event(SHUTDOWN, 0, 0))?;
        self.look_up()?;
        self.nodes = if self.bench.random.chance(30) { 1 } else { self.nodes.max(2) };
        self.event(&event(START, 0, self.nodes as u8))?;
        self.nodes = self.nodes.max(3);
        if self.ring().nodes() == 1 {
            self.look_up()?;
            self.plug(self.nodes)?;
        }
        Ok(())
    }

    /// The unit on the stage announces its list though nobody asks.
    fn announce_own(&mut self) -> Shared<S, ()> {
        let unit = self.bench.stage.unit();
        let record = answer(self.ring().pass(), unit.position(), unit.address(), unit.pairs());
        self.event(&record)
    }

    fn announce(&mut self, position: usize, pairs: &[Pair]) -> Shared<S, ()> {
        let address = self.others[position].address();
        self.others[position] = Unit::new(position as u8, address, pairs).1;
        self.event(&answer(self.ring().pass(), position as u8, address, pairs))
    }

    /// Another unit announces a wrong address, up to three times.
    fn lie(&mut self, position: usize, address: u16) -> Shared<S, ()> {
        for _ in 0..self.bench.random.range(1, 3) {
            let pairs = self.others[position].pairs().to_vec();
            self.event(&answer(self.ring().pass(), position as u8, address, &pairs))?;
            self.look_up()?;
            if self.bench.random.chance(70) {
                self.reply_to_all()?;
            }
        }
        Ok(())
    }

    /// Another unit is asked by a SET and does not answer; the delay ends, and it answers or not.
    fn fall_silent(&mut self, position: usize) -> Shared<S, ()> {
        let mut pairs = self.others[position].pairs().to_vec();
        pairs.truncate(MAX_PAIRS - 1);
        pairs.push(Pair { block: 0x22, number: 0 });
        self.announce(position, &pairs)?;
        self.look_up()?;
        self.event(&event(NONE, self.ring().pass(), position as u8))?;
        self.look_up()?;
        self.event(&event(DELAY, self.ring().pass(), 0))
    }

    /// Another unit announces pairs that the unit on the stage has: it is renumbered; or it has them now, and the one on the stage
    /// is renumbered at the next re-plug.
    fn take_from_own(&mut self, position: usize) -> Shared<S, ()> {
        let mut pairs = self.bench.stage.unit().pairs().to_vec();
        if self.bench.random.chance(50) {
            pairs.extend(self.others[position].pairs());
            pairs.truncate(MAX_PAIRS);
        }
        self.announce(position, &pairs)?;
        if self.bench.random.chance(50) {
            self.plug(self.nodes)?;
            self.reply_first(position as u8)?;
        }
        Ok(())
    }

    /// A unit answers before the others.
    fn reply_first(&mut self, position: u8) -> Shared<S, ()> {
        for _ in 0..MAX_PAIRS {
            if self.open_positions().contains(&position) {
                self.reply(position)?;
            }
        }
        Ok(())
    }

    /// Another unit gives its list up, and a third one has it; its pairs are found at another address.
    fn hand_over(&mut self, giver: usize) -> Shared<S, ()> {
        let pairs = self.others[giver].pairs().to_vec();
        self.bench.look_up_all()?;
        self.announce(giver, &[])?;
        self.look_up()?;
        match self.another() {
            Some(taker) if self.is_ok() => self.announce(taker, &pairs),
            _ => Ok(()),
        }
    }

    /// The list of another unit becomes a part of it, none, another one, or the same in another order.
    fn change_list(&mut self, position: usize) -> Shared<S, ()> {
        let mut pairs = self.others[position].pairs().to_vec();
        let random = &mut self.bench.random;
        let place = random.range(0, pairs.len());
        match random.below(6) {
            0 => pairs.clear(),
            1 => pairs.truncate(place),
            2 => drop(pairs.drain(..place)),
            3 => random.shuffle(&mut pairs),
            4 => {
                let count = random.range(0, MAX_PAIRS);
                pairs = self.taste.pairs(count, random);
            }
            _ => pairs.iter_mut().take(place).for_each(|pair| pair.number = pair.number.wrapping_add(0x40)),
        }
        self.bench.look_up_all()?;
        self.announce(position, &pairs)
    }
}

/// The address of a unit that has come to no other place.
fn home(position: usize) -> u16 {
    0x0100 + position as u16
}
