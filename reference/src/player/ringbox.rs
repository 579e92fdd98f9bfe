//! The bench of the registry.

use super::lines::{put_difference_line, put_order_line, put_pair, put_record};
use super::{put, put_refusal, put_refusal_in_words, Bench, Reason, Words};
use crate::compare::{compare, ListRow};
use crate::refusal;
use crate::registry::{Ring, State, Status};
use crate::sizes::{BENCH_DIFFERENCE_ROOM, BENCH_ROOM, BENCH_ROWS, MAX_PAIRS, MAX_UNITS};
use crate::wire;

/// A ring picture, the order room that is lent, and two lists of rows.
pub struct Ringbox {
    ring: Ring,
    room: usize,
    buffer: Box<[u8; BENCH_ROOM]>,
    /// By the numbers of `List`.
    lists: [Vec<ListRow>; 2],
}

/// One of the two lists.
#[derive(Clone, Copy, PartialEq, Eq, Debug)]
pub enum List {
    First,
    Second,
}

impl List {
    /// The word of its commands.
    pub fn word(self) -> &'static str {
        match self {
            List::First => "first",
            List::Second => "second",
        }
    }
}

pub enum Command {
    Fresh(u32),
    Room(usize),
    Record(Vec<u8>),
    State,
    Listing,
    LookUp(u8, u8),
    Rows,
    /// The list is the picture's listed rows.
    TakeRows(List),
    AddRow(List, ListRow),
    NoRows(List),
    Compare {
        room: usize,
    },
}

impl Ringbox {
    pub fn new() -> Ringbox {
        Ringbox {
            ring: Ring::default(),
            room: BENCH_ROOM,
            buffer: Box::new([0; BENCH_ROOM]),
            lists: [Vec::new(), Vec::new()],
        }
    }

    /// What stands behind the word of a list.
    fn read_rows(&self, list: List, words: &mut Words) -> Result<Command, Reason> {
        match words.peek() {
            None => return Ok(Command::TakeRows(list)),
            Some(b"none") => {
                words.next();
                words.end()?;
                return Ok(Command::NoRows(list));
            }
            Some(_) => {}
        }
        let position = words.decimal(u8::MAX.into())? as u8;
        let address = words.hex_word(4)? as u16;
        let pairs = words.pairs()?;
        if self.lists[list as usize].len() == BENCH_ROWS {
            return Err("too many");
        }
        Ok(Command::AddRow(list, ListRow { position, address, pairs }))
    }

    fn fresh(&mut self, l: u32, out: &mut Vec<u8>) {
        let fresh = Ring::fresh(l);
        match &fresh {
            Ok(_) => put!(out, "= fresh {l}\n"),
            Err(number) => put_refusal(out, *number),
        }
        self.ring = fresh.unwrap_or_default();
    }

    fn record(&mut self, bytes: &[u8], out: &mut Vec<u8>) {
        match self.ring.record(bytes, &mut self.buffer[..self.room]) {
            Ok(length) => {
                out.extend_from_slice(b"= taken\n");
                wire::orders(&self.buffer[..length]).for_each(|order| put_order_line(out, order));
            }
            Err(number) => put_refusal(out, number),
        }
    }

    fn state(&self, out: &mut Vec<u8>) {
        let ring = &self.ring;
        let state = match ring.state() {
            State::Off => "OFF",
            State::NotOk => "NOTOK",
            State::Ok => "OK",
        };
        let delay = if ring.delay_runs() { "yes" } else { "no" };
        let (pass, nodes, open) = (ring.pass(), ring.nodes(), ring.open_questions());
        put!(out, "= {state} pass {pass} nodes {nodes} open {open} delay {delay}\n");
    }

    fn listing(&self, out: &mut Vec<u8>) {
        let entries = self.ring.listing();
        put!(out, "= listing {}\n", entries.len());
        for entry in entries {
            put!(out, "= {} {:04X} {:02X} {:02X}\n", entry.position, entry.address, entry.block, entry.number);
        }
    }

    fn look_up(&self, block: u8, number: u8, out: &mut Vec<u8>) {
        match self.ring.look_up(block, number) {
            Ok((position, address)) => put!(out, "= at {position} {address:04X}\n"),
            Err(number) => put_refusal(out, number),
        }
    }

    fn rows(&self, out: &mut Vec<u8>) {
        for (position, row) in self.ring.rows() {
            let status = match row.status() {
                Status::Waiting => "WAITING",
                Status::Setting { .. } => "SETTING",
                Status::Listed { .. } => "LISTED",
                Status::Silent => "SILENT",
                Status::Ignored { .. } => "IGNORED",
            };
            put!(out, "= {position} {status} ");
            match row.address() {
                Some(address) => put!(out, "{address:04X}"),
                None => put!(out, "----"),
            }
            put!(out, " bad {} silent {}", row.bad(), row.silences());
            row.pairs().iter().for_each(|&pair| put_pair(out, pair));
            out.push(b'\n');
        }
    }

    fn compare(&self, room: usize, out: &mut Vec<u8>) {
        let [first, second] = &self.lists;
        match compare(first, second, room) {
            Ok(differences) => {
                put!(out, "= differences {}\n", differences.len());
                differences.iter().for_each(|difference| put_difference_line(out, difference));
            }
            Err(number @ refusal::ROW_MALFORMED) => {
                let words = format!("position not 1 to {MAX_UNITS}, more than {MAX_PAIRS} pairs, or a pair twice");
                put_refusal_in_words(out, number, &words);
            }
            Err(number) => put_refusal(out, number),
        }
    }
}

impl Default for Ringbox {
    fn default() -> Ringbox {
        Ringbox::new()
    }
}

impl Bench for Ringbox {
    type Command = Command;

    fn read(&self, line: &[u8]) -> Result<Command, Reason> {
        let mut words = Words::new(line);
        let command = match words.command() {
            b"fresh" => Command::Fresh(words.decimal(u32::MAX)?),
            b"room" => Command::Room(words.decimal(BENCH_ROOM as u32)? as usize),
            b">" => Command::Record(words.hex_bytes()?),
            b"state" => Command::State,
            b"listing" => Command::Listing,
            b"lookup" => Command::LookUp(words.hex_word(2)? as u8, words.hex_word(2)? as u8),
            b"rows" => Command::Rows,
            b"first" => self.read_rows(List::First, &mut words)?,
            b"second" => self.read_rows(List::Second, &mut words)?,
            b"compare" => Command::Compare { room: words.decimal(BENCH_DIFFERENCE_ROOM as u32)? as usize },
            _ => return Err("unknown word"),
        };
        words.end()?;
        Ok(command)
    }

    fn normal_form(command: &Command, out: &mut Vec<u8>) {
        match command {
            Command::Fresh(l) => put!(out, "fresh {l}"),
            Command::Room(room) => put!(out, "room {room}"),
            Command::Record(bytes) => put_record(out, bytes),
            Command::State => out.extend_from_slice(b"state"),
            Command::Listing => out.extend_from_slice(b"listing"),
            Command::LookUp(block, number) => put!(out, "lookup {block:02X} {number:02X}"),
            Command::Rows => out.extend_from_slice(b"rows"),
            Command::TakeRows(list) => put!(out, "{}", list.word()),
            Command::AddRow(list, row) => {
                put!(out, "{} {} {:04X}", list.word(), row.position, row.address);
                row.pairs.iter().for_each(|&pair| put_pair(out, pair));
            }
            Command::NoRows(list) => put!(out, "{} none", list.word()),
            Command::Compare { room } => put!(out, "compare {room}"),
        }
    }

    fn answer(&mut self, command: Command, out: &mut Vec<u8>) {
        match command {
            Command::Fresh(l) => self.fresh(l, out),
            Command::Room(room) => self.room = room,
            Command::Record(bytes) => self.record(&bytes, out),
            Command::State => self.state(out),
            Command::Listing => self.listing(out),
            Command::LookUp(block, number) => self.look_up(block, number, out),
            Command::Rows => self.rows(out),
            Command::TakeRows(list) => self.lists[list as usize] = self.ring.listed_rows(),
            Command::AddRow(list, row) => self.lists[list as usize].push(row),
            Command::NoRows(list) => self.lists[list as usize].clear(),
            Command::Compare { room } => self.compare(room, out),
        }
    }
}
