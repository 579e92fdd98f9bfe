//! The words of a command line.

use super::Reason;
use crate::registry::Pair;
use crate::sizes::BENCH_PAIRS;

/// What is left of a line.
pub struct Words<'a>(&'a [u8]);

impl<'a> Words<'a> {
    pub fn new(line: &'a [u8]) -> Words<'a> {
        Words(line)
    }

    /// The first word; of a word that begins with `>` or `<` this is the mark alone.
    pub fn command(&mut self) -> &'a [u8] {
        self.skip_blanks();
        match self.0.split_first_chunk::<1>() {
            Some((mark @ (b">" | b"<"), rest)) => {
                self.0 = rest;
                mark
            }
            _ => self.next().unwrap_or_default(),
        }
    }

    /// The next word, which is left where it is.
    pub fn peek(&self) -> Option<&'a [u8]> {
        Words(self.0).next()
    }

    fn skip_blanks(&mut self) {
        let blanks = self.0.iter().take_while(|&&byte| is_blank(byte)).count();
        self.0 = &self.0[blanks..];
    }

    /// A decimal number up to `limit`.
    pub fn decimal(&mut self, limit: u32) -> Result<u32, Reason> {
        let word = self.next().ok_or("a word is missing")?;
        if !word.iter().all(u8::is_ascii_digit) {
            return Err("not a decimal number");
        }
        let mut value = 0u64;
        for digit in word {
            value = (value * 10 + u64::from(digit - b'0')).min(u64::from(u32::MAX) + 1);
        }
        if value > u64::from(limit) {
            return Err("number does not fit");
        }
        Ok(value as u32)
    }

    /// A word of exactly `digits` hexadecimal digits.
    pub fn hex_word(&mut self, digits: usize) -> Result<u32, Reason> {
        let word = self.next().ok_or("a word is missing")?;
        if !word.iter().all(u8::is_ascii_hexdigit) {
            return Err("not hexadecimal");
        }
        if word.len() != digits {
            return Err("wrong number of hex digits");
        }
        Ok(word.iter().fold(0, |value, &digit| value << 4 | u32::from(digit_value(digit))))
    }

    /// The bytes of all groups that are left.
    pub fn hex_bytes(&mut self) -> Result<Vec<u8>, Reason> {
        let mut bytes = Vec::new();
        for group in self {
            if !group.iter().all(u8::is_ascii_hexdigit) {
                return Err("not hexadecimal");
            }
            if group.len() % 2 == 1 {
                return Err("odd number of hex digits");
            }
            bytes.extend(group.chunks_exact(2).map(|byte| digit_value(byte[0]) << 4 | digit_value(byte[1])));
        }
        Ok(bytes)
    }

    /// The bytes of the groups up to two blanks in a row; what stands behind these is not read.
    pub fn hex_bytes_before_words(&mut self) -> Result<Vec<u8>, Reason> {
        self.skip_blanks();
        let end = self.0.windows(2).position(|two| is_blank(two[0]) && is_blank(two[1]));
        let groups = &self.0[..end.unwrap_or(self.0.len())];
        self.0 = &[];
        Words(groups).hex_bytes()
    }

    /// The pairs that are left.
    pub fn pairs(&mut self) -> Result<Vec<Pair>, Reason> {
        let mut pairs = Vec::new();
        for word in self {
            let pair = read_pair(word).ok_or("not a pair")?;
            if pairs.len() == BENCH_PAIRS {
                return Err("too many");
            }
            pairs.push(pair);
        }
        Ok(pairs)
    }

    /// No word may be left.
    pub fn end(&mut self) -> Result<(), Reason> {
        match self.next() {
            None => Ok(()),
            Some(_) => Err("a word too many"),
        }
    }
}

impl<'a> Iterator for Words<'a> {
    type Item = &'a [u8];

    fn next(&mut self) -> Option<&'a [u8]> {
        self.skip_blanks();
        let length = self.0.iter().take_while(|&&byte| !is_blank(byte)).count();
        let (word, rest) = self.0.split_at(length);
        self.0 = rest;
        (length > 0).then_some(word)
    }
}

fn is_blank(byte: u8) -> bool {
    matches!(byte, b' ' | b'\t')
}

/// Two hexadecimal digits, a dot, and two more.
fn read_pair(word: &[u8]) -> Option<Pair> {
    let &[b0, b1, b'.', n0, n1] = word else {
        return None;
    };
    let digits = [b0, b1, n0, n1];
    let byte = |high, low| digit_value(high) << 4 | digit_value(low);
    digits.iter().all(u8::is_ascii_hexdigit).then(|| Pair { block: byte(b0, b1), number: byte(n0, n1) })
}

/// The byte must be a hexadecimal digit.
fn digit_value(digit: u8) -> u8 {
    match digit {
        b'0'..=b'9' => digit - b'0',
        _ => (digit | 0x20) - b'a' + 10,
    }
}
