//! What happens to a list: changes that leave it good, and such that it is refused.

use super::{Play, Stage, ADDRESSES};
use crate::compare::ListRow;
use crate::registry::Pair;
use crate::sizes::{MAX_PAIRS, MAX_UNITS};

/// Positions that no unit has.
const NO_POSITIONS: &[u8] = &[0, 0, 0, 64, 64, 64, 65, 127, 128, 129, 191, 254, 255];

impl<S: Stage> Play<'_, S> {
    /// One change; the list stays good.
    pub fn change(&mut self, rows: &mut Vec<ListRow>) {
        if rows.is_empty() {
            return self.add_row(rows);
        }
        let at = self.random.below(rows.len());
        match self.random.below(12) {
            0 => drop(rows.remove(at)),
            1 => self.add_row(rows),
            2 | 3 => rows[at].address = self.other_address(rows[at].address),
            4 => drop(self.remove_pair(&mut rows[at])),
            5 | 6 => {
                let pair = self.pair();
                self.add_pair(&mut rows[at], pair);
            }
            7 | 8 => self.replace_pair(&mut rows[at]),
            9 => self.random.shuffle(&mut rows[at].pairs),
            10 => {
                let other = self.random.below(rows.len());
                let pairs = rows[at].pairs.clone();
                rows[at].pairs = std::mem::replace(&mut rows[other].pairs, pairs);
            }
            _ => {
                let count = self.random.range(0, MAX_PAIRS);
                rows[at].pairs = self.pairs(count);
            }
        }
    }

    /// A row at a position that is free, where there is one.
    pub fn add_row(&mut self, rows: &mut Vec<ListRow>) {
        let is_free = |position: &u8| rows.iter().all(|row| row.position != *position);
        let free: Vec<u8> = (1..=MAX_UNITS as u8).filter(is_free).collect();
        if free.is_empty() {
            return;
        }
        let position = self.random.pick(&free);
        let most_pairs = self.random.pick(&[0, 1, 3, MAX_PAIRS]);
        let row = self.row(position, most_pairs);
        rows.insert(rows.partition_point(|kept| kept.position < position), row);
    }

    /// Another address: one that differs in one bit, or in its bytes' order, or any.
    pub fn other_address(&mut self, address: u16) -> u16 {
        let other = match self.random.below(3) {
            0 => self.random.pick(ADDRESSES),
            1 => address.swap_bytes(),
            _ => address ^ 1 << self.random.below(16),
        };
        if other == address {
            !address
        } else {
            other
        }
    }

    fn remove_pair(&mut self, row: &mut ListRow) -> Option<Pair> {
        let at = self.random.below(row.pairs.len().max(1));
        (at < row.pairs.len()).then(|| row.pairs.remove(at))
    }

    /// A pair more at any place, unless the row has it or is full.
    fn add_pair(&mut self, row: &mut ListRow, pair: Pair) {
        if row.pairs.len() < MAX_PAIRS && !row.pairs.contains(&pair) {
            let at = self.random.range(0, row.pairs.len());
            row.pairs.insert(at, pair);
        }
    }

    /// A pair in the place of another one, nearly the same or any.
    fn replace_pair(&mut self, row: &mut ListRow) {
        let Some(Pair { block, number }) = self.remove_pair(row) else {
            return;
        };
        let pair = match self.random.below(4) {
            0 => Pair { block: block ^ 1 << self.random.below(8), number },
            1 => Pair { block, number: number ^ 1 << self.random.below(8) },
            2 => Pair { block: number, number: block },
            _ => self.pair(),
        };
        self.add_pair(row, pair);
    }

    /// One row gets a position that no unit has, too many pairs, or a pair twice. Where the position goes to its end of the list,
    /// the rows stay in order.
    pub fn make_malformed(&mut self, rows: &mut Vec<ListRow>) {
        if rows.is_empty() {
            self.add_row(rows);
        }
        let mut at = self.random.below(rows.len());
        match self.random.below(6) {
            0 | 1 => {
                let position = self.random.pick(NO_POSITIONS);
                if self.random.chance(70) {
                    at = if position == 0 { 0 } else { rows.len() - 1 };
                }
                rows[at].position = position;
            }
            2 | 3 => {
                let more = self.random.range(MAX_PAIRS + 1, S::MOST_PAIRS);
                let count = self.random.pick(&[MAX_PAIRS + 1, MAX_PAIRS + 1, MAX_PAIRS + 2, S::MOST_PAIRS, more]);
                rows[at].pairs = self.pairs(count.min(S::MOST_PAIRS));
            }
            _ => self.repeat_a_pair(&mut rows[at]),
        }
    }

    /// A pair stands twice, at the ends of the row, side by side, or anywhere; in a row that holds up to as many pairs as it may.
    fn repeat_a_pair(&mut self, row: &mut ListRow) {
        let count = self.random.pick(&[2, 3, MAX_PAIRS - 1, MAX_PAIRS, MAX_PAIRS]);
        let more = self.pairs(MAX_PAIRS);
        row.pairs.extend(more);
        row.pairs.truncate(count);
        let any = self.random.below(count);
        let (from, to) = self.random.pick(&[(0, count - 1), (0, 1), (count - 2, count - 1), (any, (any + 1) % count)]);
        row.pairs[to] = row.pairs[from];
    }

    /// Two rows have one position, or stand in falling order, somewhere in the list.
    pub fn make_disordered(&mut self, rows: &mut Vec<ListRow>) {
        while rows.len() < 2 {
            self.add_row(rows);
        }
        let any = self.random.below(rows.len() - 1);
        let at = self.random.pick(&[0, rows.len() - 2, any]);
        match self.random.below(7) {
            0 => rows[at + 1].position = rows[at].position,
            1 => rows[at].position = rows[at + 1].position,
            2 if rows.len() < S::MOST_ROWS => rows.insert(at, rows[at].clone()),
            3 => rows.reverse(),
            4 => rows.rotate_left(1),
            5 => {
                let last = rows.len() - 1;
                rows.swap(0, last);
            }
            _ => rows.swap(at, at + 1),
        }
    }
}
