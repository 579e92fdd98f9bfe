//! The bench of the telegrams.

use super::{put, put_hex, put_refusal, Bench, Reason, Words};
use crate::sizes::{BENCH_PAYLOAD, MAX_PAYLOAD};
use crate::telegrams::{count, cut, Joining};

const LINE_BYTES: usize = 32;

/// The payload that the command `fill` makes.
pub fn fill(length: usize, seed: u32) -> Vec<u8> {
    (0..length).map(|i| (i * 31 + i / 256 * 7 + seed as usize) as u8).collect()
}

/// A payload, a join buffer and a join state.
pub struct Telegrams {
    payload: Vec<u8>,
    room: Vec<u8>,
    buffer: Vec<u8>,
    joining: Joining,
}

pub enum Command {
    Payload(Vec<u8>),
    Fill { length: usize, seed: u32 },
    Count { l: u32 },
    Cut { l: u32, msg_id: u32, number: u32, room: u32 },
    CutAll { l: u32, msg_id: u32 },
    Rejoin,
    Join { l: u32, room: u32, telegram: Vec<u8> },
}

impl Telegrams {
    pub fn new() -> Telegrams {
        Telegrams {
            payload: Vec::new(),
            room: vec![0; BENCH_PAYLOAD],
            buffer: vec![0; MAX_PAYLOAD],
            joining: Joining::fresh(),
        }
    }

    fn count(&self, l: u32, out: &mut Vec<u8>) {
        match count(l, &self.payload) {
            Ok(count) => put!(out, "= count {count}\n"),
            Err(number) => put_refusal(out, number),
        }
    }

    fn cut(&mut self, l: u32, msg_id: u32, number: u32, room: u32, out: &mut Vec<u8>) {
        let room = &mut self.room[..room as usize];
        match cut(l, msg_id, &self.payload, number, room) {
            Ok(length) => {
                out.extend_from_slice(b"= telegram");
                put_telegram(out, &room[..length]);
                out.push(b'\n');
            }
            Err(number) => put_refusal(out, number),
        }
    }

    fn cut_all(&mut self, l: u32, msg_id: u32, out: &mut Vec<u8>) {
        self.count(l, out);
        for number in 1..=count(l, &self.payload).unwrap_or(0) {
            self.cut(l, msg_id, number, BENCH_PAYLOAD as u32, out);
        }
    }

    fn join(&mut self, l: u32, room: u32, telegram: &[u8], out: &mut Vec<u8>) {
        match self.joining.join(l, &mut self.buffer[..room as usize], telegram) {
            Ok(None) => out.extend_from_slice(b"= open\n"),
            Ok(Some((msg_id, length))) => {
                put!(out, "= message {msg_id:08X} {length}\n");
                for bytes in self.buffer[..length].chunks(LINE_BYTES) {
                    out.extend_from_slice(b"= ");
                    put_hex(out, bytes);
                    out.push(b'\n');
                }
            }
            Err(number) => put_refusal(out, number),
        }
    }
}

impl Default for Telegrams {
    fn default() -> Telegrams {
        Telegrams::new()
    }
}

impl Bench for Telegrams {
    type Command = Command;

    fn read(&self, line: &[u8]) -> Result<Command, Reason> {
        let mut words = Words::new(line);
        let any = u32::MAX;
        let command = match words.command() {
            b"payload" => Command::Payload(words.hex_bytes()?),
            b"fill" => {
                Command::Fill { length: words.decimal(BENCH_PAYLOAD as u32)? as usize, seed: words.decimal(any)? }
            }
            b"count" => Command::Count { l: words.decimal(any)? },
            b"cut" => Command::Cut {
                l: words.decimal(any)?,
                msg_id: words.hex_word(8)?,
                number: words.decimal(any)?,
                room: words.decimal(BENCH_PAYLOAD as u32)?,
            },
            b"cutall" => Command::CutAll { l: words.decimal(any)?, msg_id: words.hex_word(8)? },
            b"rejoin" => Command::Rejoin,
            b"join" => Command::Join {
                l: words.decimal(any)?,
                room: words.decimal(MAX_PAYLOAD as u32)?,
                telegram: words.hex_bytes()?,
            },
            _ => return Err("unknown word"),
        };
        words.end()?;
        Ok(command)
    }

    fn normal_form(command: &Command, out: &mut Vec<u8>) {
        match command {
            Command::Payload(bytes) if bytes.is_empty() => put!(out, "payload"),
            Command::Payload(bytes) => {
                put!(out, "payload ");
                put_hex(out, bytes);
            }
            Command::Fill { length, seed } => put!(out, "fill {length} {seed}"),
            Command::Count { l } => put!(out, "count {l}"),
            Command::Cut { l, msg_id, number, room } => put!(out, "cut {l} {msg_id:08X} {number} {room}"),
            Command::CutAll { l, msg_id } => put!(out, "cutall {l} {msg_id:08X}"),
            Command::Rejoin => put!(out, "rejoin"),
            Command::Join { l, room, telegram } => {
                put!(out, "join {l} {room}");
                put_telegram(out, telegram);
            }
        }
    }

    fn answer(&mut self, command: Command, out: &mut Vec<u8>) {
        match command {
            Command::Payload(bytes) => self.payload = bytes,
            Command::Fill { length, seed } => self.payload = fill(length, seed),
            Command::Count { l } => self.count(l, out),
            Command::Cut { l, msg_id, number, room } => self.cut(l, msg_id, number, room, out),
            Command::CutAll { l, msg_id } => self.cut_all(l, msg_id, out),
            Command::Rejoin => self.joining = Joining::fresh(),
            Command::Join { l, room, telegram } => self.join(l, room, &telegram, out),
        }
    }
}

/// Writes a telegram with a blank before it and after its bytes 4 and 6, as far as its bytes go.
fn put_telegram(out: &mut Vec<u8>, telegram: &[u8]) {
    for (index, &byte) in telegram.iter().enumerate() {
        if matches!(index, 0 | 4 | 6) {
            out.push(b' ');
        }
        put_hex(out, &[byte]);
    }
}
