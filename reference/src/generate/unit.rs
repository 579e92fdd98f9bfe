//! The writer of scripts for a unit: it plays each order in a unit of its own, and the records of a bench in a ring of its own, and
//! writes what the unit sees.

use super::benches::Stage;
use super::oddities::{odd_line, UNIT};
use super::script::{Full, Script};
use crate::player::first_unit;
use crate::registry::{Pair, Ring};
use crate::sizes::{BENCH_ROOM, MIN_ANSWER_ROOM};
use crate::unit::Unit;

/// A script, the unit at its end, the room that it lends, and the ring whose orders the unit reads.
pub struct Writer {
    script: Script,
    unit: Unit,
    room: usize,
    ring: Ring,
    buffer: Vec<u8>,
}

impl Writer {
    pub fn new(script: Script) -> Writer {
        Writer { script, unit: first_unit(), room: MIN_ANSWER_ROOM, ring: Ring::default(), buffer: vec![0; BENCH_ROOM] }
    }

    pub fn into_text(self) -> Vec<u8> {
        self.script.into_text()
    }

    fn lend(&mut self, room: usize) {
        if room != self.room {
            self.room = room;
            let text = self.script.decimal(room);
            self.script.command(&format!("room {text}"));
        }
    }
}

impl Stage for Writer {
    type Stop = Full;

    const PATIENT: bool = false;

    fn unit(&self) -> &Unit {
        &self.unit
    }

    fn make(&mut self, position: u8, address: u16, pairs: &[Pair]) -> Result<(), Full> {
        self.script.go_on()?;
        let position_text = self.script.decimal(position);
        let pairs_text: String = pairs.iter().map(|pair| format!(" {:02X}.{:02X}", pair.block, pair.number)).collect();
        self.script.command(&format!("unit {position_text} {address:04X}{pairs_text}"));
        (_, self.unit) = Unit::new(position, address, pairs);
        Ok(())
    }

    fn read(&mut self, order: &[u8], room: Option<usize>) -> Result<Vec<u8>, Full> {
        self.script.go_on()?;
        match room {
            Some(room) => self.lend(room),
            None if self.room < MIN_ANSWER_ROOM => self.lend(MIN_ANSWER_ROOM),
            None => {}
        }
        self.script.order(order);
        let length = self.unit.read(order, &mut self.buffer[..self.room]).unwrap_or(0);
        Ok(self.buffer[..length].to_vec())
    }

    fn learn(&mut self, pair: Pair, address: u16) -> Result<(), Full> {
        self.script.go_on()?;
        self.script.command(&format!("found {:02X} {:02X} {address:04X}", pair.block, pair.number));
        self.unit.learn(pair, address);
        Ok(())
    }

    fn look_around(&mut self, chatter: u8) -> Result<(), Full> {
        if self.script.random.chance(chatter) {
            let look = self.script.random.pick(&["known", "known", "list", "self"]);
            self.script.command(look);
        }
        if self.script.random.chance(3) {
            odd_line(&mut self.script, UNIT);
        }
        self.script.go_on()
    }

    fn look_closely(&mut self) -> Result<(), Full> {
        for look in ["known", "list", "self"] {
            self.script.command(look);
        }
        self.script.go_on()
    }

    fn ring(&self) -> &Ring {
        &self.ring
    }

    fn fresh(&mut self, l: usize) -> Result<(), Full> {
        self.ring = u32::try_from(l).ok().and_then(|l| Ring::fresh(l).ok()).unwrap_or_default();
        Ok(())
    }

    fn offer(&mut self, record: &[u8], room: Option<usize>) -> Result<Vec<u8>, Full> {
        let room = room.unwrap_or(BENCH_ROOM).min(BENCH_ROOM);
        let length = self.ring.record(record, &mut self.buffer[..room]).unwrap_or(0);
        Ok(self.buffer[..length].to_vec())
    }

    fn look_up(&mut self, pair: Pair) -> Result<Option<u16>, Full> {
        Ok(self.ring.look_up(pair.block, pair.number).ok().map(|(_, address)| address))
    }

    fn at_rest(&mut self) -> Result<(), Full> {
        Ok(())
    }
}
