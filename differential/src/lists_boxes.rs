//! The comparison of two lists of rows in the two boxes behind one face: the proved library and the reference.

use lathepetal::{Entry, Row, LINE_SIZE, MAX_LINES, MAX_PAIRS};
use reference::compare::{compare, Difference, ListRow};
use reference::generate::Random;
use reference::registry::Pair;
use reference::sizes;

// Both sides have the same sizes.
const _: () = assert!(LINE_SIZE == sizes::DIFFERENCE && MAX_LINES == sizes::MAX_DIFFERENCES);

const NO_ENTRY: Entry =
    Entry { address: 0, status: 0, bad: 0, silences: 0, place: 0, tries: 0, count: 0, blocks: [0; MAX_PAIRS], numbers: [0; MAX_PAIRS] };
/// A row of zeros: its position is no unit's.
pub const NO_ROW: Row = Row { position: 0, entry: NO_ENTRY };

/// A row as it is handed in, with the pairs that it counts and has no places for.
#[derive(Clone)]
pub struct Given {
    pub row: Row,
    more: Vec<Pair>,
}

impl From<Row> for Given {
    fn from(row: Row) -> Given {
        Given { row, more: Vec::new() }
    }
}

impl Given {
    /// A row with zeros in its marks and behind its pairs.
    pub fn plain(row: &ListRow) -> Given {
        Given::over(NO_ENTRY, row)
    }

    /// A row with any marks, and with any pairs behind its own, which may be its own ones again.
    pub fn noisy(row: &ListRow, random: &mut Random) -> Given {
        let mut entry = NO_ENTRY;
        entry.status = if random.chance(70) { random.below(5) as u8 } else { random.byte() };
        [entry.bad, entry.silences, entry.place, entry.tries] = (random.word() as u32).to_be_bytes();
        for place in row.pairs.len()..MAX_PAIRS {
            [entry.blocks[place], entry.numbers[place]] = match row.pairs.is_empty() || random.chance(50) {
                true => (random.word() as u16).to_be_bytes(),
                false => [row.pairs[place % row.pairs.len()].block, row.pairs[place % row.pairs.len()].number],
            };
        }
        Given::over(entry, row)
    }

    /// What the row has to say written over an entry.
    fn over(mut entry: Entry, row: &ListRow) -> Given {
        entry.address = row.address;
        entry.count = u8::try_from(row.pairs.len()).expect("a byte counts the pairs");
        let (kept, more) = row.pairs.split_at(row.pairs.len().min(MAX_PAIRS));
        for (place, pair) in kept.iter().enumerate() {
            entry.blocks[place] = pair.block;
            entry.numbers[place] = pair.number;
        }
        Given { row: Row { position: row.position, entry }, more: more.to_vec() }
    }

    /// What a comparison looks at.
    pub fn seen(&self) -> ListRow {
        let Row { position, entry } = &self.row;
        let places = entry.blocks.iter().zip(&entry.numbers).map(|(&block, &number)| Pair { block, number });
        let pairs = places.take(entry.count.into()).chain(self.more.iter().copied()).collect();
        ListRow { position: *position, address: entry.address, pairs }
    }

    /// This row with other things to say.
    pub fn with(&self, row: &ListRow) -> Given {
        match self.is_plain() {
            true => Given::plain(row),
            false => Given::over(self.row.entry, row),
        }
    }

    /// Whether all that a comparison does not look at is zero.
    pub fn is_plain(&self) -> bool {
        self.row == Given::plain(&self.seen()).row
    }
}

/// What a comparison looks at in a list.
pub fn seen(list: &[Given]) -> Vec<ListRow> {
    list.iter().map(Given::seen).collect()
}

/// A box that compares two lists of rows.
pub trait ListsBox {
    /// Writes the lines to the start of `out`; gives the number and how many bytes they have.
    fn compare(first: &[Given], second: &[Given], out: &mut [u8]) -> (u8, usize);
}

/// The comparison of the proved library.
pub struct ProvedLists;

/// Lists begin behind so many rows in turn, so that they have every alignment of a row.
const STARTS: usize = 8;

impl ListsBox for ProvedLists {
    /// In front of each list and behind it stand rows that would be refused.
    fn compare(first: &[Given], second: &[Given], out: &mut [u8]) -> (u8, usize) {
        let start = 1 + out.len() % STARTS;
        let rows = |list: &[Given]| {
            let mut rows = vec![NO_ROW; start];
            rows.extend(list.iter().map(|given| given.row));
            rows.push(NO_ROW);
            rows
        };
        let (before, after) = (rows(first), rows(second));
        let outcome = lathepetal::compare(&before[start..start + first.len()], &after[start..start + second.len()], out);
        (outcome.number, outcome.length)
    }
}

/// The comparison of the reference.
pub struct ReferenceLists;

impl ListsBox for ReferenceLists {
    fn compare(first: &[Given], second: &[Given], out: &mut [u8]) -> (u8, usize) {
        write(compare(&seen(first), &seen(second), out.len()), out)
    }
}

/// Writes differences to the start of `out`; gives the number and how many bytes they have.
pub fn write(differences: Result<Vec<Difference>, u8>, out: &mut [u8]) -> (u8, usize) {
    match differences {
        Ok(differences) => {
            let lines = differences.iter().map(Difference::bytes).collect::<Vec<_>>().concat();
            out[..lines.len()].copy_from_slice(&lines);
            (0, lines.len())
        }
        Err(number) => (number, 0),
    }
}
