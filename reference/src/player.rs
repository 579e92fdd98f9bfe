//! The player of bench scripts: reads lines, answers each command.

mod lines;
mod ringbox;
mod telegrams;
mod unit;
mod words;

use std::borrow::Cow;
use std::io::{self, BufRead, Write};

use crate::refusal;
use crate::sizes::{MAX_PAYLOAD, MAX_SIZE, MIN_ROOM, MIN_SIZE};
pub(crate) use lines::{put_order, put_order_line};
pub use ringbox::{List, Ringbox};
pub use telegrams::{fill, Telegrams};
pub use unit::{first_unit, UnitBench};
use words::Words;

/// The most bytes of a line.
pub const MAX_LINE: usize = 16_384;
const TOO_LONG: &str = "line of more than 16384 bytes";
const PREFIX: usize = 64;

/// Why a line is no command.
type Reason = &'static str;

/// A bench that answers commands.
pub trait Bench {
    type Command;

    /// The first characters of earlier answers.
    const EARLIER: [u8; 3] = *b"=<!";

    /// Reads a command that the bench, as it stands, can carry out.
    fn read(&self, line: &[u8]) -> Result<Self::Command, Reason>;

    /// Writes the normal form, without the line's end.
    fn normal_form(command: &Self::Command, out: &mut Vec<u8>);

    /// Carries the command out and writes its answer, whole lines.
    fn answer(&mut self, command: Self::Command, out: &mut Vec<u8>);
}

/// Plays a whole script.
pub fn play<B: Bench>(bench: &mut B, input: &mut impl BufRead, output: &mut impl Write) -> io::Result<()> {
    let mut line = Line::default();
    let mut out = Vec::new();
    while line.read(input)? {
        out.clear();
        match line.content() {
            Some(content) => play_line(bench, content, &mut out),
            None => not_understood(line.prefix(), TOO_LONG, &mut out),
        }
        output.write_all(&out)?;
    }
    output.flush()
}

/// Plays a script that is at hand as a whole.
pub fn play_bytes<B: Bench>(bench: &mut B, mut script: &[u8]) -> Vec<u8> {
    let mut output = Vec::new();
    play(bench, &mut script, &mut output).expect("a vector takes all bytes");
    output
}

fn play_line<B: Bench>(bench: &mut B, line: &[u8], out: &mut Vec<u8>) {
    match line.first() {
        None | Some(b'#') => {
            out.extend_from_slice(line);
            out.push(b'\n');
        }
        Some(mark) if B::EARLIER.contains(mark) => {}
        Some(_) => play_command(bench, line, out),
    }
}

fn play_command<B: Bench>(bench: &mut B, line: &[u8], out: &mut Vec<u8>) {
    match bench.read(line) {
        Ok(command) => {
            B::normal_form(&command, out);
            if out.len() > MAX_LINE {
                out.clear();
                return not_understood(&line[..line.len().min(PREFIX)], TOO_LONG, out);
            }
            out.push(b'\n');
            bench.answer(command, out);
        }
        Err(_) if line.len() + 2 > MAX_LINE => not_understood(&line[..PREFIX], TOO_LONG, out),
        Err(reason) => not_understood(line, reason, out),
    }
}

/// Writes a line back as a comment, and the reason.
fn not_understood(line: &[u8], reason: Reason, out: &mut Vec<u8>) {
    out.extend_from_slice(b"# ");
    out.extend_from_slice(line);
    while out.last().is_some_and(|&byte| is_dropped(byte)) {
        out.pop();
    }
    out.extend_from_slice(b"\n# not understood: ");
    out.extend_from_slice(reason.as_bytes());
    out.push(b'\n');
}

/// Bytes that are dropped at the end of a line.
fn is_dropped(byte: u8) -> bool {
    matches!(byte, b' ' | b'\t' | b'\r')
}

/// One line of the input, of which no more than `MAX_LINE` bytes are stored.
#[derive(Default)]
struct Line {
    stored: Vec<u8>,
    raw: usize,
    trimmed: usize,
}

impl Line {
    /// Reads the next line; says whether there is one.
    fn read(&mut self, input: &mut impl BufRead) -> io::Result<bool> {
        self.stored.clear();
        self.raw = 0;
        self.trimmed = 0;
        loop {
            let chunk = match input.fill_buf() {
                Ok(chunk) => chunk,
                Err(error) if error.kind() == io::ErrorKind::Interrupted => continue,
                Err(error) => return Err(error),
            };
            if chunk.is_empty() {
                return Ok(self.raw > 0);
            }
            let end = chunk.iter().position(|&byte| byte == b'\n');
            let part = &chunk[..end.unwrap_or(chunk.len())];
            self.add(part);
            let used = part.len() + usize::from(end.is_some());
            input.consume(used);
            if end.is_some() {
                return Ok(true);
            }
        }
    }

    fn add(&mut self, part: &[u8]) {
        if let Some(last) = part.iter().rposition(|&byte| !is_dropped(byte)) {
            self.trimmed = self.raw + last + 1;
        }
        let room = MAX_LINE - self.stored.len();
        self.stored.extend_from_slice(&part[..part.len().min(room)]);
        self.raw += part.len();
    }

    /// What remains of the line, unless it is too long.
    fn content(&self) -> Option<&[u8]> {
        (self.trimmed <= MAX_LINE).then(|| &self.stored[..self.trimmed])
    }

    /// The first bytes of a line that is too long.
    fn prefix(&self) -> &[u8] {
        &self.stored[..PREFIX]
    }
}

/// Writes bytes as hexadecimal digits.
fn put_hex(out: &mut Vec<u8>, bytes: &[u8]) {
    const DIGITS: &[u8; 16] = b"0123456789ABCDEF";
    for &byte in bytes {
        out.push(DIGITS[byte as usize >> 4]);
        out.push(DIGITS[byte as usize & 15]);
    }
}

/// Writes text.
macro_rules! put {
    ($out:expr, $($words:tt)*) => {
        std::io::Write::write_fmt($out, format_args!($($words)*)).expect("a vector takes all bytes")
    };
}
use put;

/// Writes a refusal.
fn put_refusal(out: &mut Vec<u8>, number: u8) {
    put_refusal_in_words(out, number, &meaning(number));
}

fn put_refusal_in_words(out: &mut Vec<u8>, number: u8, words: &str) {
    put!(out, "! {number}  {words}\n");
}

/// A number in words; a comparison and a unit have words of their own for some.
fn meaning(number: u8) -> Cow<'static, str> {
    let words = match number {
        refusal::ORDER_ROOM_TOO_SHORT => return format!("order room below {MIN_ROOM} bytes").into(),
        refusal::RECORD_MALFORMED => "record malformed",
        refusal::NOT_RUNNING => "the ring does not run",
        refusal::ALREADY_RUNNING => "the ring runs already",
        refusal::WRONG_PASS => "not the current pass",
        refusal::NO_SUCH_POSITION => "no unit at this position",
        refusal::POSITION_IGNORED => "the position is ignored",
        refusal::NOT_ASKED => "no open question, or no running delay",
        refusal::NO_PASS_LEFT => "no pass is left",
        refusal::ILLEGAL_SIZE => return format!("L is not {MIN_SIZE} to {MAX_SIZE}").into(),
        refusal::PAYLOAD_TOO_LONG => return format!("payload above {MAX_PAYLOAD} bytes").into(),
        refusal::NO_SUCH_TELEGRAM => "no telegram of this number",
        refusal::ROOM_TOO_SHORT => "lent room too short",
        refusal::TELEGRAM_MALFORMED => "telegram malformed",
        refusal::TEL_ID_PASSED_OVER => "TelID above 3: passed over",
        refusal::OUT_OF_SEQUENCE => "out of sequence: an open message is dropped",
        refusal::NOT_LISTED => "not listed",
        refusal::NOT_OK => "the state is not OK",
        refusal::ROWS_NOT_RISING => "rows not in rising position order",
        refusal::NO_ROOM_FOR_DIFFERENCES => "no room for all differences",
        _ => panic!("number {number} has no words"),
    };
    words.into()
}
