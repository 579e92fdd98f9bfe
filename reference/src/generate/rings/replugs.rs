//! The scenes of re-plugs: an NCE comes in OK, and the ring is asked anew while look-ups go on.

use super::many_pairs::{first_blocks, full_pair, LAYOUTS};
use super::units::Unit;
use super::{Habits, Play, Played, Stage};
use crate::registry::{State, Status};
use crate::sizes::{MAX_NODES, MAX_PAIRS, MIN_SIZE};
use crate::wire::{DELAY, NONE, SHUTDOWN};

impl<S: Stage> Play<'_, S> {
    /// A small ring that is plugged again and again.
    pub fn replugs(&mut self) -> Played<S> {
        let nodes = self.random.range(2, 8);
        let chatter = self.random.pick(&[20, 50]);
        let most_pairs = self.random.pick(&[1, 3, 6, MAX_PAIRS]);
        self.begin(Habits { nodes, noise: 40, replug: 200, chatter, ..Habits::default() }, most_pairs)?;
        if self.random.chance(60) {
            self.fill_rows();
        }
        self.give_vices();
        for _ in 0..self.length(14, 28) {
            if self.ring().state() == State::Off {
                self.scan()?;
                self.reply_to_all(40)?;
            }
            self.before_replug()?;
            self.plug()?;
            if self.random.chance(20) {
                self.plug()?;
            }
            self.rescan()?;
        }
        self.steps(10)
    }

    /// A great ring, full or half full, that is plugged before all units have answered, or after.
    pub fn great_replugs(&mut self) -> Played<S> {
        let nodes = self.random.pick(&[MAX_NODES, MAX_NODES, MAX_NODES - 1, 40, 24]);
        self.begin(Habits { nodes, noise: 15, replug: 10, chatter: 6, ..Habits::default() }, MAX_PAIRS)?;
        if self.random.chance(40) {
            self.stage.fresh(MIN_SIZE)?;
        }
        self.fill_rows();
        self.scan()?;
        self.reply_to_each()?;
        for round in 0..self.length(4, 7) {
            if round > 0 {
                self.before_replug()?;
            }
            self.plug()?;
            let replies = self.random.pick(&[0, 2, nodes / 2, nodes, nodes]);
            self.reply_to_all(replies)?;
            self.steps(2)?;
        }
        self.stage.look_closely()
    }

    /// Honest units whose pairs are all different: full rows, or half full ones among them.
    fn fill_rows(&mut self) {
        let fewest = self.random.pick(&[0, MAX_PAIRS / 2, MAX_PAIRS, MAX_PAIRS]);
        let layout = self.random.below(LAYOUTS);
        for (position, unit) in self.units.iter_mut().enumerate().skip(1) {
            let count = self.random.range(fewest, MAX_PAIRS);
            *unit = Unit::honest(position, (0..count).map(|index| full_pair(layout, position, index)).collect());
        }
        self.taste.blocks = first_blocks(layout);
    }

    /// Some units refuse SETs, lie, fidget or are silent, but few of them lie.
    fn give_vices(&mut self) {
        let random = &mut self.random;
        for (position, unit) in self.units.iter_mut().enumerate() {
            unit.address = 0x0101 + position as u16;
            unit.obeys = random.pick(&[0, 50, 100, 100]);
            unit.lies = random.pick(&[0, 0, 0, 0, 0, 5, 20]);
            unit.fidgets = random.pick(&[0, 0, 20]);
            unit.silent = random.pick(&[0, 0, 10, 40]);
        }
    }

    /// What stands as the NCE comes: a SETTING row, a running delay, both, a changed row, or nothing of the kind.
    fn before_replug(&mut self) -> Played<S> {
        match self.random.below(8) {
            0 | 1 => self.open_a_question(),
            2 => self.turn_silent(),
            3 => {
                self.turn_silent()?;
                self.open_a_question()
            }
            4 => {
                let position = self.any_position();
                self.announce(position)
            }
            _ => Ok(()),
        }
    }

    /// A unit is asked by a SET, and no open question finds an answer.
    fn turn_silent(&mut self) -> Played<S> {
        self.open_a_question()?;
        self.open_positions().into_iter().try_for_each(|position| self.event(NONE, self.pass(), position))
    }

    /// What comes while the ring is asked anew, mostly until no question is open: replies and silences, liars, announcements
    /// that nobody asked for, the end of a delay that does not run, another NCE, sometimes SHUTDOWN.
    fn rescan(&mut self) -> Played<S> {
        for _ in 0..self.random.below(2 * self.nodes() + 2) {
            let open = self.open_positions();
            let position = self.any_position();
            match self.random.below(40) {
                0..=4 if !open.is_empty() => {
                    let silent = self.random.pick(&open);
                    self.event(NONE, self.pass(), silent)?;
                }
                5..=11 => self.announce(position)?,
                12 => self.bad_address()?,
                13 => self.barred_unit()?,
                14 => self.changed_address()?,
                15 | 16 => self.open_a_question()?,
                17 => self.event(DELAY, self.pass(), 0)?,
                18 => self.plug()?,
                19 => self.noise()?,
                20 => self.stage.look_closely()?,
                21 if self.random.chance(30) => self.event(SHUTDOWN, 0, 0)?,
                _ => self.reply_to_all(1)?,
            }
        }
        if self.random.chance(80) {
            self.reply_to_all(60)?;
        }
        Ok(())
    }

    /// A unit that keeps an address announces one that nobody has.
    fn changed_address(&mut self) -> Played<S> {
        let keeps = |status| matches!(status, Status::Listed { .. } | Status::Setting { .. });
        let kept: Vec<u8> =
            self.ring().rows().filter(|(_, row)| keeps(row.status())).map(|(position, _)| position).collect();
        if kept.is_empty() {
            return self.go_on();
        }
        let (position, address) = (self.random.pick(&kept), self.random.range(0x0150, 0x0250) as u16);
        self.announce_address(position, address)
    }
}
