//! The text of a generated script, with its varied forms.

use super::Random;
use crate::order::Order;
use crate::player::{put_order, put_order_line};

/// The script has all its lines.
pub struct Full;

/// A script as far as it is written.
pub struct Script {
    pub random: Random,
    text: Vec<u8>,
    lines: usize,
    limit: usize,
}

impl Script {
    pub fn new(seed: u64, limit: usize) -> Script {
        Script { random: Random::new(seed), text: Vec::new(), lines: 0, limit }
    }

    /// Says whether there is room for more lines.
    pub fn go_on(&self) -> Result<(), Full> {
        if self.lines < self.limit {
            Ok(())
        } else {
            Err(Full)
        }
    }

    pub fn into_text(self) -> Vec<u8> {
        self.text
    }

    /// Writes a line as it is.
    pub fn line(&mut self, line: &[u8]) {
        self.text.extend_from_slice(line);
        self.text.push(b'\n');
        self.lines += 1;
    }

    /// Writes a command, sometimes with other blanks, other case or a CR.
    pub fn command(&mut self, command: &str) {
        if !self.random.chance(6) {
            return self.line(command.as_bytes());
        }
        let mut line = match self.random.below(3) {
            0 => command.to_lowercase(),
            _ => command.to_string(),
        };
        match self.random.below(5) {
            0 => line = line.replace(' ', "  "),
            1 => line = line.replace(' ', "\t"),
            2 => line.insert_str(0, " \t "),
            3 => line.push_str("\r \t\r"),
            _ => line = line.replace(' ', " \t "),
        }
        self.line(line.as_bytes());
    }

    /// A decimal number, sometimes with leading zeros.
    pub fn decimal(&mut self, value: impl std::fmt::Display) -> String {
        match self.random.below(40) {
            0 => format!("0{value}"),
            1 => format!("00000000000000000000{value}"),
            _ => value.to_string(),
        }
    }

    /// Bytes as hexadecimal groups with a blank before them, sometimes grouped oddly.
    pub fn hex(&mut self, bytes: &[u8]) -> String {
        let size = match self.random.below(12) {
            0 => bytes.len().max(1),
            1 => 1,
            2 => self.random.range(1, 9),
            _ => 4,
        };
        let mut text = String::new();
        for group in bytes.chunks(size) {
            text.push(' ');
            for byte in group {
                text.push_str(&format!("{byte:02X}"));
            }
        }
        text
    }

    /// Writes bytes after a command's first words.
    pub fn command_with_hex(&mut self, words: &str, bytes: &[u8]) {
        let mut hex = self.hex(bytes);
        if words == ">" && self.random.chance(4) {
            hex = hex.trim_start().to_string();
        }
        self.command(&format!("{words}{hex}"));
    }

    /// Writes an order for a unit: in its normal form, as ringbox writes it, or otherwise; its bytes stay the same.
    pub fn order(&mut self, bytes: &[u8]) {
        let mut line = Vec::new();
        match self.random.below(10) {
            0..=4 => put_order(&mut line, bytes),
            5 | 6 if Order::read(bytes).is_some() => {
                put_order_line(&mut line, bytes);
                line.pop();
            }
            _ => line = self.odd_order(bytes).into_bytes(),
        }
        self.line(&line);
    }

    /// An order with other groups, blanks, case or words. Words stand behind two blanks and behind bytes.
    fn odd_order(&mut self, bytes: &[u8]) -> String {
        let mut hex = self.hex(bytes).trim_start().to_string();
        if self.random.chance(20) {
            hex = hex.to_lowercase();
        }
        if self.random.chance(20) {
            hex = hex.replace(' ', "\t");
        }
        if !bytes.is_empty() && self.random.chance(30) {
            hex.push_str(self.random.pick(&["  ", "\t\t", " \t", "\t ", "     "]));
            hex.push_str(self.random.pick(&[
                "OK",
                "x  y",
                "0",
                "4D4F 04 00000000",
                "< 4D4F",
                "#",
                "\r x",
                "\u{0}",
                "ASK position 1",
            ]));
        }
        let before = self.random.pick(&["", "", "", "", " ", "\t", " \t  "]);
        let behind = self.random.pick(&["", " ", " ", " ", "\t", "  ", " \t\t "]);
        let end = self.random.pick(&["", "", "", "", " ", "\r", "\t \r"]);
        format!("{before}<{behind}{hex}{end}")
    }
}
