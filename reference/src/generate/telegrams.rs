//! The writer of scripts for the telegrams.

use super::oddities::{odd_line, TELEGRAMS};
use super::script::{Full, Script};
use super::streams::Stage;
use crate::player::fill;
use crate::sizes::MAX_PAYLOAD;

/// A script, and the payload at its end.
pub struct Writer {
    script: Script,
    payload: Vec<u8>,
}

impl Writer {
    pub fn new(script: Script) -> Writer {
        Writer { script, payload: Vec::new() }
    }

    pub fn into_text(self) -> Vec<u8> {
        self.script.into_text()
    }

    fn say(&mut self, command: &str) -> Result<(), Full> {
        self.script.command(command);
        self.script.go_on()
    }

    /// A number as a script can say it.
    fn number(&mut self, value: usize) -> String {
        self.script.decimal(u32::try_from(value).unwrap_or(u32::MAX))
    }
}

impl Stage for Writer {
    type Stop = Full;

    const PATIENT: bool = false;

    fn begin(&mut self) -> Result<(), Full> {
        self.script.go_on()
    }

    fn payload(&self) -> &[u8] {
        &self.payload
    }

    fn set_payload(&mut self, bytes: Vec<u8>) -> Result<(), Full> {
        self.script.command_with_hex("payload", &bytes);
        self.payload = bytes;
        self.script.go_on()
    }

    fn fill(&mut self, length: usize, seed: u32) -> Result<(), Full> {
        self.payload = fill(length, seed);
        let (length, seed) = (self.number(length), self.number(seed as usize));
        self.say(&format!("fill {length} {seed}"))
    }

    fn count(&mut self, l: usize) -> Result<(), Full> {
        let l = self.number(l);
        self.say(&format!("count {l}"))
    }

    fn cut(&mut self, l: usize, msg_id: u32, number: usize, room: usize) -> Result<(), Full> {
        let (l, number, room) = (self.number(l), self.number(number), self.number(room));
        self.say(&format!("cut {l} {msg_id:08X} {number} {room}"))
    }

    fn cut_all(&mut self, l: usize, msg_id: u32) -> Result<(), Full> {
        let l = self.number(l);
        self.say(&format!("cutall {l} {msg_id:08X}"))
    }

    fn rejoin(&mut self) -> Result<(), Full> {
        self.say("rejoin")
    }

    fn join(&mut self, l: usize, room: usize, telegram: &[u8]) -> Result<(), Full> {
        let (l, room) = (self.number(l), self.number(room.min(MAX_PAYLOAD)));
        self.script.command_with_hex(&format!("join {l} {room}"), telegram);
        self.script.go_on()
    }

    fn came_back(&mut self) -> Result<(), Full> {
        Ok(())
    }

    fn pause(&mut self) -> Result<(), Full> {
        if self.script.random.chance(12) {
            odd_line(&mut self.script, TELEGRAMS);
        }
        self.script.go_on()
    }
}
