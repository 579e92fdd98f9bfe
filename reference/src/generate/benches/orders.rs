//! Orders for a unit: such as a NetworkMaster gives, and such as none gives.

use super::{Play, Stage};
use crate::generate::Random;
use crate::registry::Pair;
use crate::wire::{
    order, order_of_pairs, ASK, INVALID, KIND, NEW, NOTOK, OK, ORDER_HEAD, ORDER_KINDS, ORDER_MARK, PASS, SET,
    WAIT_LONG, WAIT_SHORT,
};

pub const PASS_EDGES: &[u32] =
    &[0, 1, 2, 0xFF, 0x100, 0xFFFF, 0xFF_FFFF, 0x7FFF_FFFF, 0x8000_0000, u32::MAX - 1, u32::MAX];
/// The most pairs that an order names.
pub const MOST_NAMED: usize = u8::MAX as usize;

impl<S: Stage> Play<'_, S> {
    /// The unit's pass, or another one.
    fn order_pass(&mut self) -> u32 {
        let pass = self.unit().pass();
        if self.random.below(1000) >= self.habits.new_pass {
            return pass;
        }
        match self.random.below(6) {
            0 | 1 => pass.wrapping_add(1),
            2 => pass.wrapping_sub(1),
            3 => pass ^ 1 << self.random.below(32),
            _ => self.random.pick(PASS_EDGES),
        }
    }

    /// A well-formed order.
    pub fn order(&mut self) -> Vec<u8> {
        let pass = self.order_pass();
        match self.random.below(100) {
            0..=17 => order(ASK, pass, &[self.own_position()]),
            18..=49 => self.set(pass),
            50..=71 => {
                let pairs = self.invalid_pairs();
                order_of_pairs(INVALID, pass, &pairs)
            }
            72..=83 => {
                let pairs = self.invalid_pairs();
                order_of_pairs(NEW, pass, &pairs)
            }
            84..=86 => order(NOTOK, pass, &[]),
            _ => order(self.random.pick(&[OK, WAIT_SHORT, WAIT_LONG]), pass, &[]),
        }
    }

    /// The unit's position, or another one.
    fn own_position(&mut self) -> u8 {
        let position = self.unit().position();
        match self.random.below(20) {
            0 => position.wrapping_add(1),
            1 => position.wrapping_sub(1),
            2 => position ^ 1 << self.random.below(8),
            3 => self.unit().address() as u8,
            4 => self.random.byte(),
            _ => position,
        }
    }

    fn own_address(&mut self) -> u16 {
        let address = self.unit().address();
        match self.random.below(24) {
            0 => address.wrapping_add(1),
            1 => address.wrapping_sub(1),
            2 => address ^ 1 << self.random.below(16),
            3 => address.swap_bytes(),
            4 => u16::from(self.unit().position()),
            _ => address,
        }
    }

    /// A SET: mostly of a pair that the unit has, often to a number that another of its pairs has.
    pub fn set(&mut self, pass: u32) -> Vec<u8> {
        let (position, address) = (self.own_position(), self.own_address());
        let pairs = self.stage.unit().pairs();
        let old = match self.random.below(10) {
            _ if pairs.is_empty() => self.taste.pair(&mut self.random),
            0 => self.taste.pair(&mut self.random),
            1 => Pair { number: self.random.byte(), ..self.random.pick(pairs) },
            _ => self.random.pick(pairs),
        };
        let held: Vec<u8> = pairs.iter().filter(|pair| pair.block == old.block).map(|pair| pair.number).collect();
        let new = match self.random.below(10) {
            0 => old.number,
            1 => self.random.pick(&[0x00, 0xFF]),
            2..=4 if !held.is_empty() => self.random.pick(&held),
            5 if !pairs.is_empty() => self.random.pick(pairs).number,
            _ => (1..=u8::MAX).find(|number| !held.contains(number)).unwrap_or(0),
        };
        let [high, low] = address.to_be_bytes();
        order(SET, pass, &[position, high, low, old.block, old.number, new])
    }

    /// Pairs that the unit knows, neighbours of them, its own and others, as many as an order may name.
    fn invalid_pairs(&mut self) -> Vec<Pair> {
        let known: Vec<Pair> = self.unit().known().iter().map(|known| known.pair).collect();
        let most = self.random.pick(&[0, 1, 1, 1, 2, 3, 5, 22, 64, MOST_NAMED]);
        let count = if self.random.chance(50) { most } else { self.random.range(0, most) };
        let share = self.random.pick(&[30, 70, 100]);
        (0..count).map(|_| if self.random.chance(share) { self.near(&known) } else { self.any_pair() }).collect()
    }

    /// One of these pairs, or seldom one that is nearly the same.
    fn near(&mut self, pairs: &[Pair]) -> Pair {
        if pairs.is_empty() {
            return self.any_pair();
        }
        let Pair { block, number } = self.random.pick(pairs);
        match self.random.below(20) {
            0 => Pair { block: block ^ 1 << self.random.below(8), number },
            1 => Pair { block, number: number ^ 1 << self.random.below(8) },
            2 => Pair { block: number, number: block },
            _ => Pair { block, number },
        }
    }

    /// A pair of the unit's taste, of its list, or any at all.
    pub fn any_pair(&mut self) -> Pair {
        let pairs = self.stage.unit().pairs();
        match self.random.below(8) {
            0 if !pairs.is_empty() => self.random.pick(pairs),
            1 => Pair { block: self.random.byte(), number: self.random.byte() },
            _ => self.taste.pair(&mut self.random),
        }
    }

    /// An order with one thing wrong, often of another pass, or a random one; some are well-formed still.
    pub fn damaged_order(&mut self) -> Vec<u8> {
        if self.random.chance(12) {
            return garbage(&mut self.random);
        }
        let mut order = self.order();
        damage(&mut order, &mut self.random);
        if order.len() >= ORDER_HEAD && self.random.chance(40) {
            order[PASS.end - 1] ^= 1;
        }
        order
    }
}

/// Damages an order at one place.
pub fn damage(order: &mut Vec<u8>, random: &mut Random) {
    let length = order.len();
    let names_pairs = matches!(order[KIND], NEW | INVALID);
    match random.below(16) {
        0 => order.truncate(random.below(length)),
        1 => order.truncate(length - 1),
        2 => order.push(random.byte()),
        3 => order.extend_from_slice(&[0x22, 0x05]),
        4 => order[0] = random.pick(&[0x4C, 0x4E, 0x00, 0xCD, 0x4F]),
        5 => order[1] = random.pick(&[0x45, 0x4D, 0x4E, 0xCF, 0x00]),
        6 | 7 => order[KIND] = random.pick(&[0, ORDER_KINDS, ORDER_KINDS + 1, 16, 64 + ASK, 128 + NOTOK, 255]),
        8 | 9 => order[KIND] = random.below(usize::from(ORDER_KINDS)) as u8,
        10 => order[random.range(PASS.start, PASS.end - 1)] ^= 1 << random.below(8),
        11 | 12 if names_pairs => order[ORDER_HEAD] = order[ORDER_HEAD].wrapping_add(random.pick(&[1, 255, 128])),
        13 if names_pairs => order[ORDER_HEAD] = random.byte(),
        _ => order[random.below(length)] ^= 1 << random.below(8),
    }
}

fn garbage(random: &mut Random) -> Vec<u8> {
    let length = random.below(40);
    let mut bytes: Vec<u8> = (0..length).map(|_| random.byte()).collect();
    if length > KIND && random.chance(70) {
        bytes[..KIND].copy_from_slice(&ORDER_MARK);
        bytes[KIND] = random.below(usize::from(ORDER_KINDS) + 2) as u8;
    }
    bytes
}
