//! A unit on the bench, a NetworkSlave: it reads orders, answers with its list, and keeps look-up answers.

use crate::order::{Content, Order};
use crate::refusal;
use crate::registry::Pair;
use crate::sizes::{MAX_KNOWN, MAX_PAIRS, MIN_ANSWER_ROOM};
use crate::wire;

/// A look-up answer: the address of a pair.
#[derive(Clone, Copy, PartialEq, Eq, Debug)]
pub struct Known {
    pub pair: Pair,
    pub address: u16,
}

/// A unit.
#[derive(Clone, PartialEq, Eq, Debug)]
pub struct Unit {
    position: u8,
    address: u16,
    pairs: Vec<Pair>,
    pass: u32,
    /// No pair stands twice.
    known: Vec<Known>,
}

impl Unit {
    /// A fresh unit; where it would have too many pairs, it has none, and number 2 stands beside it.
    pub fn new(position: u8, address: u16, pairs: &[Pair]) -> (Result<(), u8>, Unit) {
        let (made, pairs) = match pairs.len() {
            0..=MAX_PAIRS => (Ok(()), pairs.to_vec()),
            _ => (Err(refusal::TOO_MANY_PAIRS), Vec::new()),
        };
        (made, Unit { position, address, pairs, pass: 0, known: Vec::new() })
    }

    pub fn position(&self) -> u8 {
        self.position
    }

    pub fn address(&self) -> u16 {
        self.address
    }

    /// The unit's own list.
    pub fn pairs(&self) -> &[Pair] {
        &self.pairs
    }

    /// The pass of the last order, 0 at first.
    pub fn pass(&self) -> u32 {
        self.pass
    }

    /// The kept look-up answers, the oldest first.
    pub fn known(&self) -> &[Known] {
        &self.known
    }

    /// Where the answer for a pair stands among the kept ones.
    pub fn place_of(&self, pair: Pair) -> Option<usize> {
        self.known.iter().position(|known| known.pair == pair)
    }

    /// Keeps a look-up answer as the newest; an earlier one for the pair goes, or else the oldest where there is no room.
    pub fn learn(&mut self, pair: Pair, address: u16) {
        if let Some(place) = self.place_of(pair) {
            self.known.remove(place);
        } else if self.known.len() == MAX_KNOWN {
            self.known.remove(0);
        }
        self.known.push(Known { pair, address });
    }

    /// Reads an order: the ANSWER stands at the start of `out`, its length comes back, 0 where there is none; or numbers 1, 2.
    pub fn read(&mut self, order: &[u8], out: &mut [u8]) -> Result<usize, u8> {
        if out.len() < MIN_ANSWER_ROOM {
            return Err(refusal::ANSWER_ROOM_TOO_SHORT);
        }
        let Order { pass, content } = Order::read(order).ok_or(refusal::ORDER_MALFORMED)?;
        if pass != self.pass {
            self.known.clear();
            self.pass = pass;
        }
        match content {
            Content::Ask { position } if position == self.position => return Ok(self.answer(out)),
            Content::Set { position, address, old, new } if (position, address) == (self.position, self.address) => {
                self.renumber(old, new);
                return Ok(self.answer(out));
            }
            Content::NotOk => self.known.clear(),
            Content::Invalid(pairs) => self.known.retain(|known| !pairs.contain(known.pair)),
            _ => {}
        }
        Ok(0)
    }

    /// The first pair that is `old` gets the number `new`, unless there is none or another pair of that block has it.
    fn renumber(&mut self, old: Pair, new: u8) {
        let Some(place) = self.pairs.iter().position(|&pair| pair == old) else {
            return;
        };
        let wanted = Pair { block: old.block, number: new };
        let is_held = self.pairs.iter().enumerate().any(|(other, &pair)| other != place && pair == wanted);
        if !is_held {
            self.pairs[place] = wanted;
        }
    }

    /// Writes the ANSWER to the order read last.
    fn answer(&self, out: &mut [u8]) -> usize {
        let record = wire::answer(self.pass, self.position, self.address, &self.pairs);
        out[..record.len()].copy_from_slice(&record);
        record.len()
    }
}
