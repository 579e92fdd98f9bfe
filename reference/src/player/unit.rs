//! The bench of a unit.

use super::lines::{put_order, put_pair, put_record};
use super::{put, put_refusal_in_words, Bench, Reason, Words};
use crate::refusal;
use crate::registry::Pair;
use crate::sizes::{BENCH_ROOM, MAX_PAIRS, MIN_ANSWER_ROOM};
use crate::unit::Unit;

/// The unit at the start of a script.
pub fn first_unit() -> Unit {
    let (_, unit) = Unit::new(1, 0x0101, &[]);
    unit
}

/// A unit and the room that is lent to it.
pub struct UnitBench {
    unit: Unit,
    room: usize,
    buffer: Box<[u8; BENCH_ROOM]>,
}

pub enum Command {
    Unit { position: u8, address: u16, pairs: Vec<Pair> },
    Room(usize),
    Order(Vec<u8>),
    Found { pair: Pair, address: u16 },
    Known,
    List,
    Itself,
}

impl UnitBench {
    pub fn new() -> UnitBench {
        UnitBench { unit: first_unit(), room: MIN_ANSWER_ROOM, buffer: Box::new([0; BENCH_ROOM]) }
    }

    fn make(&mut self, position: u8, address: u16, pairs: &[Pair], out: &mut Vec<u8>) {
        let (made, unit) = Unit::new(position, address, pairs);
        match made {
            Ok(()) => put!(out, "= unit {position} {address:04X} {}\n", pairs.len()),
            Err(number) => put_refusal_in_words(out, number, &format!("more than {MAX_PAIRS} pairs")),
        }
        self.unit = unit;
    }

    fn order(&mut self, bytes: &[u8], out: &mut Vec<u8>) {
        match self.unit.read(bytes, &mut self.buffer[..self.room]) {
            Ok(length) => {
                out.extend_from_slice(b"= read\n");
                if length > 0 {
                    put_record(out, &self.buffer[..length]);
                    out.push(b'\n');
                }
            }
            Err(number) => put_refusal_in_words(out, number, &meaning(number)),
        }
    }

    fn known(&self, out: &mut Vec<u8>) {
        let known = self.unit.known();
        put!(out, "= known {}\n", known.len());
        for one in known {
            put!(out, "= {:02X} {:02X} {:04X}\n", one.pair.block, one.pair.number, one.address);
        }
    }

    fn list(&self, out: &mut Vec<u8>) {
        let pairs = self.unit.pairs();
        put!(out, "= list {}\n", pairs.len());
        for pair in pairs {
            put!(out, "= {:02X} {:02X}\n", pair.block, pair.number);
        }
    }

    fn itself(&self, out: &mut Vec<u8>) {
        let unit = &self.unit;
        put!(out, "= {} {:04X} pass {}\n", unit.position(), unit.address(), unit.pass());
    }
}

impl Default for UnitBench {
    fn default() -> UnitBench {
        UnitBench::new()
    }
}

impl Bench for UnitBench {
    type Command = Command;

    const EARLIER: [u8; 3] = *b"=>!";

    fn read(&self, line: &[u8]) -> Result<Command, Reason> {
        let mut words = Words::new(line);
        let command = match words.command() {
            b"unit" => Command::Unit {
                position: words.decimal(u8::MAX.into())? as u8,
                address: words.hex_word(4)? as u16,
                pairs: words.pairs()?,
            },
            b"room" => Command::Room(words.decimal(BENCH_ROOM as u32)? as usize),
            b"<" => Command::Order(words.hex_bytes_before_words()?),
            b"found" => Command::Found {
                pair: Pair { block: words.hex_word(2)? as u8, number: words.hex_word(2)? as u8 },
                address: words.hex_word(4)? as u16,
            },
            b"known" => Command::Known,
            b"list" => Command::List,
            b"self" => Command::Itself,
            _ => return Err("unknown word"),
        };
        words.end()?;
        Ok(command)
    }

    fn normal_form(command: &Command, out: &mut Vec<u8>) {
        match command {
            Command::Unit { position, address, pairs } => {
                put!(out, "unit {position} {address:04X}");
                pairs.iter().for_each(|&pair| put_pair(out, pair));
            }
            Command::Room(room) => put!(out, "room {room}"),
            Command::Order(bytes) => put_order(out, bytes),
            Command::Found { pair, address } => put!(out, "found {:02X} {:02X} {address:04X}", pair.block, pair.number),
            Command::Known => out.extend_from_slice(b"known"),
            Command::List => out.extend_from_slice(b"list"),
            Command::Itself => out.extend_from_slice(b"self"),
        }
    }

    fn answer(&mut self, command: Command, out: &mut Vec<u8>) {
        match command {
            Command::Unit { position, address, pairs } => self.make(position, address, &pairs, out),
            Command::Room(room) => self.room = room,
            Command::Order(bytes) => self.order(&bytes, out),
            Command::Found { pair, address } => self.unit.learn(pair, address),
            Command::Known => self.known(out),
            Command::List => self.list(out),
            Command::Itself => self.itself(out),
        }
    }
}

/// The number of a refused order in words.
fn meaning(number: u8) -> String {
    match number {
        refusal::ANSWER_ROOM_TOO_SHORT => format!("room below {MIN_ANSWER_ROOM} bytes"),
        refusal::ORDER_MALFORMED => "order malformed".to_string(),
        _ => panic!("number {number} is no order's"),
    }
}
