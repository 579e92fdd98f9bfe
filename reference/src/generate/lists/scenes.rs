//! The scenes: each draws two lists of one kind and compares them.

use super::{Play, Played, Stage};
use crate::compare::ListRow;
use crate::registry::Pair;
use crate::sizes::{MAX_PAIRS, MAX_UNITS};

/// Whether the first list is spoilt, and whether the second.
const SIDES: &[(bool, bool)] = &[(true, false), (true, false), (false, true), (false, true), (true, true)];

impl<S: Stage> Play<'_, S> {
    pub const SCENES: [fn(&mut Self) -> Played<S>; 12] = [
        Self::repairs,
        Self::malformed,
        Self::shuffled,
        Self::disordered,
        Self::repairs,
        Self::single_rows,
        Self::strangers,
        Self::malformed_and_disordered,
        Self::repairs,
        Self::shifted,
        Self::greatest,
        Self::long,
    ];

    /// A list that differs from the first by few changes, and by more.
    fn repairs(&mut self) -> Played<S> {
        let size = self.size();
        let mut first = self.list(size);
        let mut second = first.clone();
        for _ in 0..1 + self.length(1, 8) {
            for _ in 0..self.random.pick(&[1, 1, 2, 4]) {
                self.change(&mut second);
            }
            self.compare(&first, &second)?;
            if self.random.chance(20) {
                std::mem::swap(&mut first, &mut second);
            }
        }
        Ok(())
    }

    /// The same positions, addresses and sets of pairs, the pairs in another order.
    fn shuffled(&mut self) -> Played<S> {
        let size = self.size();
        let first = self.list(size);
        let mut second = first.clone();
        for row in &mut second {
            match self.random.below(3) {
                0 => row.pairs.reverse(),
                _ => self.random.shuffle(&mut row.pairs),
            }
        }
        self.compare(&first, &second)?;
        self.change(&mut second);
        self.compare_either_way(&first, &second)
    }

    /// Two lists that have nothing to do with each other, and each against none.
    fn strangers(&mut self) -> Played<S> {
        let (size, other_size) = (self.size(), self.size());
        let (first, second) = (self.list(size), self.list(other_size));
        self.compare(&first, &second)?;
        self.compare_either_way(&first, &[])?;
        self.compare_either_way(&[], &second)
    }

    /// Lists of one row: at the same position or not, with the same address or not, with few pairs or many, shared or not.
    fn single_rows(&mut self) -> Played<S> {
        for _ in 0..2 + self.length(1, 12) {
            let position = self.random.pick(&[1, 1, 2, 62, 63, 63]);
            let most_pairs = self.random.pick(&[0, 1, 2, MAX_PAIRS]);
            let first = self.row(position, most_pairs);
            let mut second = first.clone();
            if self.random.chance(30) {
                second.position = self.random.pick(&[1, 2, 3, 61, 62, 63]);
            }
            if self.random.chance(30) {
                second.address = self.other_address(first.address);
            }
            match self.random.below(5) {
                0 => second.pairs.clear(),
                1 => second.pairs = self.row(position, most_pairs).pairs,
                2 => second.pairs.truncate(most_pairs / 2),
                3 => self.random.shuffle(&mut second.pairs),
                _ => {}
            }
            self.compare_either_way(&[first], &[second])?;
        }
        Ok(())
    }

    /// A unit is put into the ring or taken out of it: those behind it sit one position further, or nearer.
    fn shifted(&mut self) -> Played<S> {
        let size = self.size().clamp(1, MAX_UNITS - 1);
        let first = self.list(size);
        let at = first[self.random.below(first.len())].position;
        let mut second = first.clone();
        second.iter_mut().filter(|row| row.position >= at).for_each(|row| row.position += 1);
        second.retain(|row| usize::from(row.position) <= MAX_UNITS);
        if self.random.chance(60) {
            let row = self.row(at, 4);
            second.insert(second.partition_point(|kept| kept.position < at), row);
        }
        self.compare_either_way(&first, &second)
    }

    /// Full lists with no address and no pair in common, but for few; small ones mostly where the stage is not patient.
    fn greatest(&mut self) -> Played<S> {
        let (size, count) = match S::PATIENT || self.random.chance(20) {
            true => (MAX_UNITS, MAX_PAIRS),
            false => (3, self.random.pick(&[1, 4])),
        };
        let full = |block: u8, address: u16, position: u8| ListRow {
            position,
            address: address + u16::from(position),
            pairs: (0..count as u8).map(|number| Pair { block, number }).collect(),
        };
        let positions = self.positions(size);
        let (one, other) = (self.random.byte(), self.random.range(1, 255) as u8);
        let first: Vec<ListRow> = positions.iter().map(|&position| full(one, 0x0100, position)).collect();
        let mut second: Vec<ListRow> = positions.iter().map(|&position| full(one ^ other, 0x0200, position)).collect();
        for _ in 0..self.random.pick(&[0, 0, 1, 3]) {
            let at = self.random.below(size);
            match self.random.below(3) {
                0 => second[at].address = first[at].address,
                1 => second[at].pairs = first[at].pairs.clone(),
                _ => second[at].pairs[0] = first[at].pairs[count - 1],
            }
        }
        self.compare(&first, &second)
    }

    /// A malformed row in one list or in both.
    fn malformed(&mut self) -> Played<S> {
        for _ in 0..1 + self.length(1, 6) {
            let (mut first, mut second) = self.nearly_equal();
            let (in_first, in_second) = self.random.pick(SIDES);
            if in_first {
                self.make_malformed(&mut first);
            }
            if in_second {
                self.make_malformed(&mut second);
            }
            self.compare(&first, &second)?;
        }
        Ok(())
    }

    /// One list or both not in rising order.
    fn disordered(&mut self) -> Played<S> {
        for _ in 0..1 + self.length(1, 6) {
            let (mut first, mut second) = self.nearly_equal();
            let (in_first, in_second) = self.random.pick(SIDES);
            if in_first {
                self.make_disordered(&mut first);
            }
            if in_second {
                self.make_disordered(&mut second);
            }
            self.compare(&first, &second)?;
        }
        Ok(())
    }

    /// A malformed row and rows out of order, in one list or one in each.
    fn malformed_and_disordered(&mut self) -> Played<S> {
        for _ in 0..1 + self.length(1, 6) {
            let (mut first, mut second) = self.nearly_equal();
            match self.random.chance(50) {
                true => self.make_disordered(&mut first),
                false => self.make_disordered(&mut second),
            }
            match self.random.chance(50) {
                true => self.make_malformed(&mut first),
                false => self.make_malformed(&mut second),
            }
            self.compare(&first, &second)?;
        }
        Ok(())
    }

    /// A list and one that hardly differs from it.
    fn nearly_equal(&mut self) -> (Vec<ListRow>, Vec<ListRow>) {
        let size = self.size();
        let first = self.list(size);
        let mut second = first.clone();
        for _ in 0..self.random.below(3) {
            self.change(&mut second);
        }
        (first, second)
    }

    /// A list of more rows than there are units, against a full one or itself; few rows mostly where the stage is not patient.
    fn long(&mut self) -> Played<S> {
        if !S::PATIENT && !self.random.chance(12) {
            return self.disordered();
        }
        let full: Vec<ListRow> = (1..=MAX_UNITS as u8).map(|position| self.row(position, 1)).collect();
        let mut long = full.clone();
        let size = self.random.pick(&[MAX_UNITS + 1, MAX_UNITS + 1, S::MOST_ROWS]);
        while long.len() < size {
            let position = self.random.pick(&[0, 1, 63, 63, 64, 64, 65, 255]);
            let row = self.row(position, 2);
            let at = self.random.pick(&[0, long.len(), long.len()]);
            long.insert(at, row);
        }
        match self.random.below(3) {
            0 => self.compare(&full, &long),
            1 => self.compare(&long, &full),
            _ => self.compare(&long, &long),
        }
    }
}
