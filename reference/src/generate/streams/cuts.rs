//! Cuts: telegrams of one payload, with numbers and rooms at the edges.

use super::{Play, Played, Stage, MSG_ID};
use crate::sizes::{BENCH_PAYLOAD, MAX_SIZE, MAX_TELEGRAM, MIN_SIZE, TELEGRAM_HEAD};

impl<S: Stage> Play<'_, S> {
    pub fn cuts(&mut self) -> Played<S> {
        let l = self.any_payload()?;
        for _ in 0..self.random.range(1, if S::PATIENT { 16 } else { 6 }) {
            let asked = if self.random.chance(85) { l } else { self.any_l() };
            let telegrams = self.telegrams(asked).unwrap_or(0);
            match self.random.below(8) {
                0 | 1 => self.stage.count(asked)?,
                2 if telegrams < 60 || telegrams < 270 && self.random.chance(4) => {
                    let msg_id = self.msg_id();
                    self.stage.cut_all(asked, msg_id)?;
                }
                _ => self.cut(asked)?,
            }
        }
        Ok(())
    }

    /// One telegram, or a number or room at the edge.
    fn cut(&mut self, l: usize) -> Played<S> {
        let count = self.telegrams(l).unwrap_or(3);
        let random = &mut self.random;
        let inner = random.range(1, count);
        let far = [count + 2, count + 256, count + 65_536, (1 << 32) + inner, u32::MAX as usize, usize::MAX, 1 << 63];
        let number = match random.below(16) {
            0 => 0,
            1 => count + 1,
            2 => random.pick(&far),
            3 | 4 => 1,
            5 | 6 => count,
            7 => count.max(2) - 1,
            8 => random.pick(&[2, 255, 256, 257]),
            _ => inner,
        };
        let exact = self.telegram(l, 0, number).map_or(18, |telegram| telegram.len());
        let room = match self.random.below(14) {
            0..=4 => exact,
            5..=7 => exact - 1,
            8 => exact + 1,
            9 => TELEGRAM_HEAD + l.min(50),
            _ => self.random.pick(&[
                0,
                TELEGRAM_HEAD - 1,
                TELEGRAM_HEAD,
                TELEGRAM_HEAD,
                64,
                MAX_TELEGRAM,
                1000,
                BENCH_PAYLOAD,
            ]),
        };
        let msg_id = self.msg_id();
        self.stage.cut(l, msg_id, number, room)
    }

    /// The first and the last telegrams of one size for many L.
    pub fn sizes(&mut self) -> Played<S> {
        self.any_payload()?;
        let first = self.random.range(MIN_SIZE - 2, MAX_SIZE - 5);
        for l in first..first + 8 {
            self.stage.count(l)?;
            let count = self.telegrams(l).unwrap_or(1);
            for number in [1, count, count + 1] {
                self.stage.cut(l, MSG_ID, number, MAX_TELEGRAM)?;
            }
        }
        Ok(())
    }
}
