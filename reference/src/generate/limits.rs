//! Lines on both sides of the limit of 16,384 bytes, as they are read and in their normal form; and each byte in the place of a digit.

use crate::player::MAX_LINE;
use crate::sizes::{BENCH_DIFFERENCE_ROOM, BENCH_PAIRS, BENCH_ROOM, BENCH_ROWS, MAX_SIZE, MIN_ANSWER_ROOM};
use crate::wire::{self, ANSWER, ASK, INVALID, NEW, NONE, ORDER_MARK, RECORD_MARK, SET, WAIT_LONG};

/// A line that is longer than all that a program keeps in memory.
const FAR_TOO_LONG: usize = 400_000;

/// Lines that are no command, of each length around the limit of a line and of a comment, one that is far too long, empty ones behind
/// earlier answers, and a too long one whose shown start ends in blanks.
fn words(script: &mut Vec<u8>, answer_mark: char) {
    for length in MAX_LINE - 3..=MAX_LINE + 1 {
        line(script, &vec![b'x'; length]);
    }
    line(script, &vec![b'y'; FAR_TOO_LONG]);
    for earlier in ['=', answer_mark, '!'] {
        line(script, format!("{earlier} an earlier answer, and an empty line").as_bytes());
        line(script, b"");
    }
    let mut blanks = vec![b'x'; MAX_LINE + 1];
    blanks[40..70].fill(b' ');
    line(script, &blanks);
}

fn line(script: &mut Vec<u8>, line: &[u8]) {
    script.extend_from_slice(line);
    script.push(b'\n');
}

/// Each byte behind these words, in the place of their last digit.
fn digits(script: &mut Vec<u8>, words: &str) {
    for byte in (0..=u8::MAX).filter(|&byte| byte != b'\n') {
        line(script, &[words.as_bytes(), &[byte]].concat());
    }
}

/// A command: its words, and so many bytes as hexadecimal without blanks.
fn command(script: &mut Vec<u8>, words: &str, bytes: impl Iterator<Item = u8>) {
    let digits: String = bytes.map(|byte| format!("{byte:02X}")).collect();
    line(script, format!("{words}{digits}").as_bytes());
}

/// Records whose normal form is as long as a line may be, or longer by little or much: an ANSWER, and one with fewer blanks.
pub fn ringbox() -> Vec<u8> {
    let mut script = Vec::new();
    words(&mut script, '<');
    digits(&mut script, "lookup 01 2");
    digits(&mut script, "room 1");
    line(&mut script, format!("room {BENCH_ROOM}").as_bytes());
    let record =
        |kind: u8, length: usize| RECORD_MARK.into_iter().chain([kind]).chain((3..length).map(|place| place as u8));
    for length in (6_549..=6_554).chain([8_000]) {
        command(&mut script, "> ", record(ANSWER, length));
    }
    for length in 8_188..=8_190 {
        command(&mut script, ">", record(NONE, length));
    }
    script
}

/// Rows of lists and comparisons with blanks and zeros between their words, up to the limit of a line; and lists of as many rows as
/// there may be.
pub fn lists() -> Vec<u8> {
    let mut script = Vec::new();
    for words in LIST_DIGITS {
        digits(&mut script, words);
        line(&mut script, b"first none");
    }
    filled_lines(&mut script, &FILLED_LISTS);
    line(&mut script, format!("compare {BENCH_DIFFERENCE_ROOM}").as_bytes());
    for word in ["first", "second"] {
        for count in [BENCH_PAIRS, BENCH_PAIRS + 1] {
            line(&mut script, format!("{word} 1 0101{}", wide_pairs(count)).as_bytes());
        }
        line(&mut script, format!("compare {BENCH_DIFFERENCE_ROOM}").as_bytes());
        line(&mut script, format!("{word} none").as_bytes());
    }
    for position in 1..=BENCH_ROWS + 2 {
        line(&mut script, format!("second {position} 01{position:02X}").as_bytes());
    }
    // A row too many, in lines whose comment fits and does not fit.
    for length in MAX_LINE - 3..=MAX_LINE + 1 {
        line(&mut script, format!("{:<width$}1 0101", "second", width = length - "1 0101".len()).as_bytes());
    }
    line(&mut script, format!("compare {BENCH_DIFFERENCE_ROOM}").as_bytes());
    line(&mut script, b"second none");
    line(&mut script, b"compare 0");
    script
}

/// So many pairs far apart: as many as a row may have and one more stand in a line of less than the limit, and its normal form is short.
fn wide_pairs(count: usize) -> String {
    (0..count).map(|pair| format!("{:58}22.{:02X}", "", pair % 256)).collect()
}

/// Lines of these starts, filled up to the limit of a line and beyond it.
fn filled_lines(script: &mut Vec<u8>, filled: &[(&str, u8, &str)]) {
    for length in [MAX_LINE, MAX_LINE + 1] {
        for (start, filler, end) in filled {
            let mut bytes = start.as_bytes().to_vec();
            bytes.resize(length - end.len(), *filler);
            line(script, &[&bytes, end.as_bytes()].concat());
        }
    }
}

/// Joins whose normal form is as long as a line may be, or two bytes longer, with numbers of one to five digits; and payloads.
pub fn telegrams() -> Vec<u8> {
    let mut script = Vec::new();
    words(&mut script, '<');
    digits(&mut script, "payload 0");
    digits(&mut script, "count 1");
    for words in ["join 9 9 ", "join 10 99 ", "join 12 100 ", "join 99 1000 ", "join 100 65535 "] {
        let most = (MAX_LINE - 2 - words.len()) / 2;
        for length in [most, most + 1] {
            command(&mut script, words, (0..length).map(|place| place as u8));
        }
    }
    let most = (MAX_LINE - "payload ".len()) / 2;
    for length in [most, most + 1] {
        command(&mut script, "payload ", (0..length).map(|place| place as u8));
    }
    line(&mut script, format!("count {MAX_SIZE}").as_bytes());
    script
}

/// Orders whose normal form is as long as a line may be, or longer by little or much; words behind an order and blanks or zeros between
/// words, up to the limit of a line; lines with CRs and other bytes that no text has; and INVALIDs of many counts.
pub fn unit() -> Vec<u8> {
    let mut script = Vec::new();
    words(&mut script, '>');
    for words in UNIT_DIGITS {
        digits(&mut script, words);
    }
    line(&mut script, format!("room {MIN_ANSWER_ROOM}").as_bytes());
    let order =
        |kind: u8, length: usize| ORDER_MARK.into_iter().chain([kind]).chain((3..length).map(|place| place as u8));
    for (kind, most) in LONGEST_ORDERS {
        for length in [most, most + 1] {
            command(&mut script, "<", order(kind, length));
        }
    }
    command(&mut script, "< ", order(INVALID, 8_000));
    filled_lines(&mut script, &FILLED);
    for count in [BENCH_PAIRS, BENCH_PAIRS + 1] {
        line(&mut script, format!("unit 1 0101{}", wide_pairs(count)).as_bytes());
    }
    for odd in ODD_BYTES {
        line(&mut script, odd.as_bytes());
    }
    line(&mut script, b"unit 1 0101 22.01");
    for count in (0..=32).chain(63..=65).chain(127..=129).chain([254, 255]) {
        counted(&mut script, count);
    }
    line(&mut script, b"self");
    line(&mut script, b"list");
    script
}

/// INVALIDs of a count with a byte too few, a pair too many, and as many pairs; of two kept answers it drops that of the last pair.
fn counted(script: &mut Vec<u8>, count: u8) {
    let pairs = (0..=count).flat_map(|number| [0x31, number]);
    let bytes: Vec<u8> = wire::order(INVALID, 0, &[count]).into_iter().chain(pairs).collect();
    for number in [count.wrapping_sub(1), count] {
        line(script, format!("found 31 {number:02X} 0102").as_bytes());
    }
    for length in [bytes.len() - 3, bytes.len(), bytes.len() - 2] {
        command(script, "< ", bytes[..length].iter().copied());
    }
    line(script, b"known");
}

/// No more rows are typed than a list takes.
const LIST_DIGITS: [&str; 7] =
    ["firs", "first non", "first 1", "first 3 010", "first 3 0103 22.0", "compare 1", "compare 2000"];

/// Starts of lines about lists that are filled up to their ends.
const FILLED_LISTS: [(&str, u8, &str); 8] = [
    ("first", b' ', "none"),
    ("second", b'\t', "2 0102 22.01"),
    ("first", b' ', "1 0101"),
    ("first ", b'0', "2 0102"),
    ("second 3 0103", b' ', "22.01"),
    ("compare", b' ', "20000"),
    ("compare ", b'0', "18"),
    ("compare ", b'0', "17"),
];

const UNIT_DIGITS: [&str; 7] = [
    "< 4D4F 03 0000000",
    "< 4D4F 01 00000000 01  x",
    "found 22 0",
    "unit 2 010",
    "unit 2 0102 22.01 22.0",
    "unit 1",
    "room 6",
];

/// Kinds of orders, and the most bytes whose normal form fits a line.
const LONGEST_ORDERS: [(u8, usize); 7] = [
    (ASK, 8_189),
    (SET, 8_187),
    (NEW, 6_553),
    (INVALID, 6_553),
    (WAIT_LONG, 8_189),
    (0, 8_189),
    (WAIT_LONG + 1, 8_189),
];

/// Starts of lines that are filled up to their ends.
const FILLED: [(&str, u8, &str); 6] = [
    ("< 4D4F 01 00000001 01  ", b'x', ""),
    ("< 4D4F 01 00000001 01\t ", b'0', ""),
    ("<", b' ', "4D4F"),
    ("unit", b' ', "1 0101"),
    ("unit 1 0101", b'\t', "22.01"),
    ("unit ", b'0', "7 0107"),
];

const ODD_BYTES: &[&str] = &[
    "unit 1 0101 22.01\r",
    "unit 1 0101 22.01\r31.01",
    "unit 1 0101 \r 22.01",
    "< 4D4F 01 00000001 01\r",
    "< 4D4F 01 00000001 01 \r\t ",
    "< 4D4F 01 00000001 01 \r x",
    "< 4D4F 01 00000001 01  \r x",
    "< 4D4F 01 00000001 01\r  x",
    "< 4D4F\r01 00000001 01",
    "<\r4D4F 01 00000001 01",
    "<\r",
    "< 4D4F 01 00000001 01  \u{0}\u{7F}",
    "< 4D4F 01 00000001 01\u{0}",
    "\u{0}",
    "\u{7F}\u{0}x",
    "self\r\r",
    "self \r x",
    ">\r",
    "=\u{0}",
    "!\u{7F}",
];
