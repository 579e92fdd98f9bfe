//! Models of units: what they announce, and what they make of a SET.

use crate::generate::Random;
use crate::registry::Pair;
use crate::sizes::MAX_PAIRS;

/// A model of a unit; the shares are in percent.
#[derive(Clone)]
pub struct Unit {
    pub address: u16,
    pub pairs: Vec<Pair>,
    /// SETs that it obeys.
    pub obeys: u8,
    /// Announcements of another address.
    pub lies: u8,
    /// Announcements with a changed list.
    pub fidgets: u8,
    /// Questions that it leaves without answer.
    pub silent: u8,
}

impl Unit {
    /// A unit that answers, and does what it is told.
    pub fn honest(position: usize, pairs: Vec<Pair>) -> Unit {
        Unit { address: 0x0100 + position as u16, pairs, obeys: 100, lies: 0, fidgets: 0, silent: 0 }
    }

    /// The unit with one of four tempers.
    pub fn with_temper(self, temper: usize, random: &mut Random) -> Unit {
        match temper {
            0 => self,
            1 => Unit {
                obeys: random.pick(&[0, 50, 90, 100]),
                fidgets: random.pick(&[0, 0, 10, 30]),
                silent: random.pick(&[0, 0, 10]),
                ..self
            },
            2 => Unit {
                obeys: 80,
                lies: random.pick(&[0, 0, 0, 10, 40]),
                fidgets: 5,
                silent: random.pick(&[0, 0, 5, 60]),
                ..self
            },
            _ => Unit {
                obeys: random.pick(&[0, 60, 100]),
                lies: random.pick(&[0, 2, 5]),
                fidgets: random.pick(&[0, 20, 60]),
                silent: 5,
                ..self
            },
        }
    }

    /// A SET names a pair: the unit obeys, refuses, or takes a number of its own.
    pub fn renumber(&mut self, old: Pair, new: u8, random: &mut Random) {
        let found = match random.chance(70) {
            true => self.pairs.iter().rposition(|&pair| pair == old),
            false => self.pairs.iter().position(|&pair| pair == old),
        };
        let Some(index) = found else { return };
        if random.chance(self.obeys) {
            self.pairs[index].number = new;
        } else if random.chance(10) {
            self.pairs[index].number = random.byte();
        }
    }

    /// The unit changes its list, perhaps with a pair of its own taste or with one of another unit.
    pub fn fidget(&mut self, pair: Pair, stolen: Option<Pair>, random: &mut Random) {
        let pairs = &mut self.pairs;
        let place = random.below(pairs.len().max(1));
        match random.below(12) {
            0 | 1 => random.shuffle(pairs),
            2 => pairs.truncate(place),
            3 | 4 => pairs.insert(place.min(pairs.len()), pair),
            5 => pairs.push(pair),
            6 => pairs.extend(pairs.get(place).copied()),
            7 => pairs.clear(),
            8 => pairs.reverse(),
            9 => pairs.extend(stolen),
            _ => pairs.iter_mut().skip(place).take(1).for_each(|kept| *kept = pair),
        }
        pairs.truncate(MAX_PAIRS);
    }
}

/// How units choose their pairs.
pub struct Taste {
    pub blocks: Vec<u8>,
    pub low_numbers: bool,
}

impl Taste {
    pub fn any(random: &mut Random) -> Taste {
        let count = random.pick(&[1, 1, 2, 3, 6, MAX_PAIRS, 2 * MAX_PAIRS]);
        let mut blocks: Vec<u8> = (0..count).map(|_| random.range(0x02, 0xFE) as u8).collect();
        if random.chance(20) {
            blocks[0] = random.pick(&[0x02, 0xFE]);
        }
        Taste { blocks, low_numbers: random.chance(70) }
    }

    pub fn pair(&self, random: &mut Random) -> Pair {
        let block = random.pick(&self.blocks);
        let number = match random.below(20) {
            0 => 0x00,
            1 => 0xFF,
            2 => 0xFE,
            3 => random.byte(),
            _ if self.low_numbers => random.range(1, 4) as u8,
            _ => random.pick(&[1, 2, 3, 62, 63, 64, 65, 127, 128, 129, 191, 192, 193, 252, 253, 254]),
        };
        Pair { block, number }
    }

    pub fn pairs(&self, count: usize, random: &mut Random) -> Vec<Pair> {
        (0..count).map(|_| self.pair(random)).collect()
    }
}

/// Pairs of full blocks, and of one that is not full, that need other numbers.
pub fn beggar(blocks: &[u8], most: usize, random: &mut Random) -> Vec<Pair> {
    let count = random.range(1, most);
    let mut one = || Pair {
        block: if random.chance(80) { random.pick(blocks) } else { 0x77 },
        number: random.pick(&[0, 255, 1, 2, 128, 254, 60, 64, 192]),
    };
    (0..count).map(|_| one()).collect()
}
