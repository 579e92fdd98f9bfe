//! Joins: whole messages, and telegrams that are damaged, doubled, dropped or out of order.

use super::{Play, Played, Stage, ENDS, MSG_ID};
use crate::generate::Random;
use crate::sizes::{BENCH_PAYLOAD, MAX_PAYLOAD, MAX_SIZE, MIN_SIZE, TELEGRAM_HEAD};
use crate::telegrams::{FINAL, FIRST, NEXT, SINGLE};

impl<S: Stage> Play<'_, S> {
    /// Sets a payload of so many bytes; gives its telegrams.
    fn message(&mut self, l: usize, length: usize) -> Result<Vec<Vec<u8>>, S::Stop> {
        self.new_payload(length)?;
        let msg_id = self.msg_id();
        if S::PATIENT || self.random.chance(20) {
            self.stage.cut_all(l, msg_id)?;
        }
        let count = self.telegrams(l).unwrap_or(0);
        Ok((1..=count).filter_map(|number| self.telegram(l, msg_id, number)).collect())
    }

    /// A message cut at will: each telegram carries 0 to 3 bytes.
    fn thin_message(&mut self, telegrams: usize) -> Vec<Vec<u8>> {
        let msg_id = self.msg_id();
        let one = |number: usize| {
            let mut data = vec![number as u8];
            data.extend((0..self.random.below(4)).map(|_| self.random.byte()));
            let tel_id = match number {
                0 => FIRST,
                _ if number + 1 == telegrams => FINAL,
                _ => NEXT,
            };
            telegram(msg_id, tel_id, &data)
        };
        (0..telegrams).map(one).collect()
    }

    fn small_message(&mut self, l: usize) -> Result<Vec<Vec<u8>>, S::Stop> {
        if self.random.chance(30) {
            let telegrams = self.random.range(2, 6);
            return Ok(self.thin_message(telegrams));
        }
        let length = self.length(l).min(200);
        self.message(l, length)
    }

    fn join(&mut self, l: usize, telegram: &[u8]) -> Played<S> {
        let room = match self.random.chance(90) {
            true => MAX_PAYLOAD,
            false => self.random.range(MAX_PAYLOAD, BENCH_PAYLOAD),
        };
        self.stage.join(l, room, telegram)
    }

    fn join_all(&mut self, l: usize, telegrams: &[Vec<u8>]) -> Played<S> {
        telegrams.iter().try_for_each(|telegram| self.join(l, telegram))
    }

    /// A message that is cut and joined comes back as it was.
    pub fn whole_message(&mut self) -> Played<S> {
        let l = self.good_l();
        let length = match self.random.below(300) {
            0 if S::PATIENT => self.great_length(l).min(MAX_PAYLOAD),
            _ => self.length(l),
        };
        let telegrams = self.message(l, length)?;
        self.join_all(l, &telegrams)?;
        self.stage.came_back()
    }

    pub fn joins(&mut self) -> Played<S> {
        let l = self.good_l();
        let telegrams = self.small_message(l)?;
        if self.random.chance(10) {
            self.stage.rejoin()?;
        }
        let trouble = self.random.pick(&[0, 25, 50]);
        for telegram in &telegrams {
            if self.random.chance(trouble) {
                self.trouble(l, telegram)?;
            } else {
                self.join(l, telegram)?;
            }
        }
        if self.random.chance(20) {
            self.join(l, &telegrams[telegrams.len() - 1])?;
        }
        Ok(())
    }

    /// Something goes wrong with one telegram; often the right one follows.
    fn trouble(&mut self, l: usize, good: &[u8]) -> Played<S> {
        match self.random.below(10) {
            0 => return Ok(()),
            1 => self.join(l, good)?,
            2 => {
                let other = self.any_l();
                self.join(other, good)?;
            }
            3 => {
                let room = self.random.pick(&[0, 1, 32_768, MAX_PAYLOAD - 1]);
                self.stage.join(l, room, good)?;
            }
            4 if self.random.chance(50) => self.stage.rejoin()?,
            _ => {
                let bad = damaged(l, good, &mut self.random);
                self.join(l, &bad)?;
            }
        }
        if self.random.chance(75) {
            self.join(l, good)?;
        }
        Ok(())
    }

    /// Two messages with telegrams between each other, swapped, doubled or dropped.
    pub fn interleaved(&mut self) -> Played<S> {
        let l = self.good_l();
        let mut all = self.small_message(l)?;
        let others = self.small_message(l)?;
        let place = self.random.below(all.len());
        match self.random.below(5) {
            0 => drop(all.splice(place..place, others)),
            1 => {
                all.extend(others);
                all.swap(place, place + 1);
            }
            2 => drop(all.remove(place)),
            3 => all.insert(place, all[place].clone()),
            _ => {
                all.extend(others);
                self.random.shuffle(&mut all);
            }
        }
        self.join_all(l, &all)
    }

    /// A message whose counter passes 255, sometimes wrongly.
    pub fn wrap(&mut self) -> Played<S> {
        if !self.random.chance(15) {
            return Ok(());
        }
        let l = self.good_l();
        let number = self.random.pick(&[255, 256, 257, 258, 300, 514]);
        let mut telegrams = self.thin_message(number);
        if self.random.chance(25) {
            telegrams[254][TELEGRAM_HEAD] = 0;
        } else if self.random.chance(20) && number > 257 {
            telegrams[256][TELEGRAM_HEAD] = 1;
        }
        self.join_all(l, &telegrams)
    }

    /// Random bytes, and telegrams of which TelLen takes more than eight bits.
    pub fn odd_telegrams(&mut self) -> Played<S> {
        let l = self.good_l();
        let data = self.bytes(600);
        let length = self.random.below(60);
        self.join(l, &data[..length])?;
        let tel_id = self.random.below(6) as u8;
        let low = self.random.range(0, MAX_SIZE);
        let high = self.random.pick(&[256, 512]);
        let mut bytes = telegram(MSG_ID, tel_id, &data[..low + high]);
        self.join(l, &bytes)?;
        bytes[4] = tel_id << 4;
        self.join(l, &bytes)?;
        let mut short = telegram(MSG_ID, tel_id, &data[..low]);
        short[4] |= self.random.pick(&[1, 2, 4, 8]);
        self.join(l, &short)
    }

    /// A join of as many whole parts as fit, and one of its ends.
    pub fn long_join(&mut self, end: usize) -> Played<S> {
        const PART: usize = MAX_SIZE - 1;
        const PARTS: usize = MAX_PAYLOAD / PART;
        const LEFT: usize = MAX_PAYLOAD % PART;
        let msg_id = self.msg_id();
        let part = self.bytes(PART);
        let tel = |tel_id: u8, number: usize, length: usize| {
            let mut data = vec![number as u8];
            data.extend(part[..length].iter().map(|byte| byte.wrapping_add((number / 7) as u8)));
            telegram(msg_id, tel_id, &data)
        };
        self.stage.rejoin()?;
        for number in 0..PARTS {
            self.join(MAX_SIZE, &tel(if number == 0 { FIRST } else { NEXT }, number, PART))?;
        }
        let ends: &[(u8, usize)] = match end % ENDS {
            0 => &[(FINAL, LEFT), (FINAL, 0)],
            1 => &[(FINAL, LEFT + 1), (FINAL, 1)],
            2 => &[(NEXT, LEFT + 1), (FINAL, LEFT)],
            3 => &[(FINAL, PART), (FINAL, 1)],
            _ => &[(NEXT, LEFT), (NEXT, 0), (FINAL, 1), (FINAL, 0)],
        };
        for (index, &(tel_id, length)) in ends.iter().enumerate() {
            self.join(MAX_SIZE, &tel(tel_id, PARTS + index, length))?;
        }
        Ok(())
    }
}

/// A telegram with one thing wrong, or another one in its place.
fn damaged(l: usize, good: &[u8], random: &mut Random) -> Vec<u8> {
    let mut bad = good.to_vec();
    let data: Vec<u8> = (0..60).map(|_| random.byte()).collect();
    let msg_id = u32::from_be_bytes([good[0], good[1], good[2], good[3]]);
    match random.below(22) {
        0..=3 => bad[random.below(4)] ^= 1 << random.below(8),
        4 => bad[4] = bad[4] & 0x0F | (random.below(16) as u8) << 4,
        5 => bad[4] ^= 1 << random.below(4),
        6 => bad[5] = bad[5].wrapping_add(random.pick(&[1, 255, 128])),
        7 if bad.len() > TELEGRAM_HEAD => bad[6] = bad[6].wrapping_add(random.pick(&[1, 255, 128, 2])),
        8 => bad.truncate(random.below(TELEGRAM_HEAD)),
        9 => bad.truncate(random.range(TELEGRAM_HEAD.min(good.len()), good.len())),
        10 => bad.push(0),
        11 => return telegram(msg_id, random.below(6) as u8, &data[..l + 1]),
        12 => return telegram(msg_id, random.below(6) as u8, &data[..l]),
        13 => return telegram(msg_id, random.below(16) as u8, &[]),
        14 => return telegram(msg_id, random.range(1, 4) as u8, &[]),
        15 => return telegram(msg_id, random.range(1, 3) as u8, &data[..1]),
        16 => return telegram(msg_id, SINGLE, &data[..random.range(0, MIN_SIZE)]),
        17 => {
            let counter = random.pick(&[0, 0, 1, 255]);
            return telegram(msg_id, FIRST, &[&[counter][..], &data[..random.below(MIN_SIZE)]].concat());
        }
        18..=20 => return telegram(msg_id, random.range(4, 15) as u8, &data[..random.range(0, 14)]),
        _ => return telegram(msg_id ^ 1, random.range(0, 3) as u8, &[&[0][..], &data[..5]].concat()),
    }
    bad
}

/// The bytes of a telegram.
fn telegram(msg_id: u32, tel_id: u8, data: &[u8]) -> Vec<u8> {
    let mut bytes = msg_id.to_be_bytes().to_vec();
    bytes.extend_from_slice(&(u16::from(tel_id) << 12 | data.len() as u16).to_be_bytes());
    bytes.extend_from_slice(data);
    bytes
}
