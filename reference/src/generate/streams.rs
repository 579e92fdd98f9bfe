//! Messages that are cut and joined, with all that can go wrong on the way.

mod cuts;
mod joins;

use super::{Random, BAD_SIZES};
use crate::sizes::{BENCH_PAYLOAD, MAX_PAYLOAD, MAX_SIZE, MAX_TELEGRAM, MIN_SIZE};
use crate::telegrams::{count, cut};

const MSG_ID: u32 = 0x0102_000C;
/// The ways in which a join of the greatest length ends.
pub const ENDS: usize = 5;

/// What messages are played on: a payload that stands, and a join buffer. Where it cannot take a number as great as one that it
/// is given, it takes the greatest that it can.
pub trait Stage {
    /// Why the play ends.
    type Stop;

    /// Whether messages may take thousands of telegrams.
    const PATIENT: bool;

    /// No message is open, and the buffer is as it was at first.
    fn begin(&mut self) -> Result<(), Self::Stop>;

    /// The payload that stands.
    fn payload(&self) -> &[u8];

    fn set_payload(&mut self, bytes: Vec<u8>) -> Result<(), Self::Stop>;

    /// Sets a payload that is made from its length and a seed.
    fn fill(&mut self, length: usize, seed: u32) -> Result<(), Self::Stop>;

    fn count(&mut self, l: usize) -> Result<(), Self::Stop>;

    fn cut(&mut self, l: usize, msg_id: u32, number: usize, room: usize) -> Result<(), Self::Stop>;

    /// Cuts all telegrams of the payload.
    fn cut_all(&mut self, l: usize, msg_id: u32) -> Result<(), Self::Stop>;

    fn rejoin(&mut self) -> Result<(), Self::Stop>;

    fn join(&mut self, l: usize, room: usize, telegram: &[u8]) -> Result<(), Self::Stop>;

    /// All telegrams of the payload were just joined: it came back as it was.
    fn came_back(&mut self) -> Result<(), Self::Stop>;

    /// What the stage does between two messages.
    fn pause(&mut self) -> Result<(), Self::Stop>;
}

type Played<S> = Result<(), <S as Stage>::Stop>;

/// Messages on their stage.
pub struct Play<'a, S> {
    stage: &'a mut S,
    random: Random,
}

impl<'a, S: Stage> Play<'a, S> {
    pub fn new(stage: &'a mut S, seed: u64) -> Play<'a, S> {
        Play { stage, random: Random::new(seed) }
    }

    /// Plays until the stage says stop.
    pub fn run(&mut self) -> S::Stop {
        loop {
            if let Err(stop) = self.messages() {
                return stop;
            }
        }
    }

    /// Messages in one join buffer.
    fn messages(&mut self) -> Played<S> {
        self.stage.begin()?;
        for _ in 0..40 {
            match self.random.below(100) {
                0..=25 => self.cuts()?,
                26 | 27 => self.sizes()?,
                28..=59 => self.joins()?,
                60..=74 => self.whole_message()?,
                75..=84 => self.interleaved()?,
                85..=89 => self.wrap()?,
                90..=97 => self.odd_telegrams()?,
                98 if S::PATIENT && self.random.chance(20) => {
                    let end = self.random.below(ENDS);
                    self.long_join(end)?;
                }
                _ => self.stage.rejoin()?,
            }
            self.stage.pause()?;
        }
        Ok(())
    }

    fn good_l(&mut self) -> usize {
        match self.random.below(5) {
            0 => MIN_SIZE,
            1 => MAX_SIZE,
            _ => self.random.range(MIN_SIZE, MAX_SIZE),
        }
    }

    fn any_l(&mut self) -> usize {
        match self.random.chance(50) {
            true => self.good_l(),
            false => self.random.pick(BAD_SIZES),
        }
    }

    fn msg_id(&mut self) -> u32 {
        let any = self.random.word() as u32;
        self.random.pick(&[MSG_ID, 0, u32::MAX, 1, 0x8000_0000, any, any])
    }

    /// A payload length near the edges for `l`.
    fn length(&mut self, l: usize) -> usize {
        let random = &mut self.random;
        match random.below(10) {
            0 => random.below(4),
            1..=3 => random.range(l - 2, l + 2),
            4..=6 => random.range(1, 14) * (l - 1) + random.below(3) - 1,
            7 => random.range(2, 4) * l + random.below(3) - 1,
            _ => random.below(400),
        }
    }

    fn great_length(&mut self, l: usize) -> usize {
        let random = &mut self.random;
        match random.below(4) {
            0 | 1 => random.pick(&[
                MAX_PAYLOAD - 11,
                MAX_PAYLOAD - 1,
                MAX_PAYLOAD,
                MAX_PAYLOAD + 1,
                MAX_PAYLOAD + 2,
                BENCH_PAYLOAD - 1,
                BENCH_PAYLOAD,
            ]),
            2 => random.pick(&[254, 255, 256, 257, 258, 512]) * (l - 1) + random.below(3) - 1,
            _ => random.below(BENCH_PAYLOAD + 1),
        }
    }

    fn bytes(&mut self, length: usize) -> Vec<u8> {
        (0..length).map(|_| self.random.byte()).collect()
    }

    fn new_payload(&mut self, length: usize) -> Played<S> {
        if length < 300 && self.random.chance(40) {
            let bytes = self.bytes(length);
            return self.stage.set_payload(bytes);
        }
        let any = self.random.word() as u32;
        let seed = self.random.pick(&[0, 1, 255, 256, u32::MAX, any, any % 256, any % 512]);
        self.stage.fill(length, seed)
    }

    /// A payload of any length; gives the L that it is made for.
    fn any_payload(&mut self) -> Result<usize, S::Stop> {
        let l = self.good_l();
        let length = if self.random.chance(30) { self.great_length(l) } else { self.length(l) };
        self.new_payload(length)?;
        Ok(l)
    }

    /// How many telegrams the payload has, where it has some.
    fn telegrams(&self, l: usize) -> Option<usize> {
        count(u32::try_from(l).ok()?, self.stage.payload()).ok().map(|count| count as usize)
    }

    /// One telegram of the payload, where there is such a one.
    fn telegram(&self, l: usize, msg_id: u32, number: usize) -> Option<Vec<u8>> {
        let (l, number) = (u32::try_from(l).ok()?, u32::try_from(number).ok()?);
        let mut room = [0; MAX_TELEGRAM];
        let length = cut(l, msg_id, self.stage.payload(), number, &mut room).ok()?;
        Some(room[..length].to_vec())
    }
}
