//! Two lists of rows compared: the exact differences from the first to the second.

use std::collections::HashSet;

use crate::refusal;
use crate::registry::Pair;
use crate::sizes::{DIFFERENCE, MAX_PAIRS, MAX_UNITS};

/// A row of a list: a listed position with its address and its pairs as announced.
#[derive(Clone, PartialEq, Eq, Debug)]
pub struct ListRow {
    pub position: u8,
    pub address: u16,
    pub pairs: Vec<Pair>,
}

impl ListRow {
    /// The position is a unit's, and there are not too many pairs, none of them twice.
    fn is_well_formed(&self) -> bool {
        let is_unit = (1..=MAX_UNITS).contains(&usize::from(self.position));
        is_unit && self.pairs.len() <= MAX_PAIRS && self.pair_set().len() == self.pairs.len()
    }

    fn pair_set(&self) -> HashSet<Pair> {
        self.pairs.iter().copied().collect()
    }
}

/// What is other at a position; an address is the second list's.
#[derive(Clone, Copy, PartialEq, Eq, Debug)]
pub enum Change {
    PositionGone,
    PositionNew { address: u16 },
    AddressChanged { address: u16 },
    PairGone(Pair),
    PairNew(Pair),
}

/// One difference between two lists.
#[derive(Clone, Copy, PartialEq, Eq, Debug)]
pub struct Difference {
    pub position: u8,
    pub change: Change,
}

impl Difference {
    pub fn kind(&self) -> u8 {
        match self.change {
            Change::PositionGone => 1,
            Change::PositionNew { .. } => 2,
            Change::AddressChanged { .. } => 3,
            Change::PairGone(_) => 4,
            Change::PairNew(_) => 5,
        }
    }

    /// Kind, position, address, block and number; what the kind does not use is 0.
    pub fn bytes(&self) -> [u8; DIFFERENCE] {
        let (address, block, number) = match self.change {
            Change::PositionGone => (0, 0, 0),
            Change::PositionNew { address } | Change::AddressChanged { address } => (address, 0, 0),
            Change::PairGone(pair) | Change::PairNew(pair) => (0, pair.block, pair.number),
        };
        let [high, low] = address.to_be_bytes();
        [self.kind(), self.position, high, low, block, number]
    }
}

/// The differences from the first list to the second, by position, then by kind, then as announced; or numbers 2, 20, and 21 where
/// they do not fit into `room` bytes.
pub fn compare(first: &[ListRow], second: &[ListRow], room: usize) -> Result<Vec<Difference>, u8> {
    if !first.iter().chain(second).all(ListRow::is_well_formed) {
        return Err(refusal::ROW_MALFORMED);
    }
    if ![first, second].into_iter().all(is_rising) {
        return Err(refusal::ROWS_NOT_RISING);
    }
    let differences = differences(first, second);
    if differences.len() * DIFFERENCE > room {
        return Err(refusal::NO_ROOM_FOR_DIFFERENCES);
    }
    Ok(differences)
}

fn is_rising(list: &[ListRow]) -> bool {
    list.windows(2).all(|rows| rows[0].position < rows[1].position)
}

/// Goes through two rising lists side by side.
fn differences(first: &[ListRow], second: &[ListRow]) -> Vec<Difference> {
    let (mut first, mut second) = (first.iter().peekable(), second.iter().peekable());
    let mut differences = Vec::new();
    while let Some(position) = [first.peek(), second.peek()].into_iter().flatten().map(|row| row.position).min() {
        let before = first.next_if(|row| row.position == position);
        let after = second.next_if(|row| row.position == position);
        differences.extend(changes(before, after).into_iter().map(|change| Difference { position, change }));
    }
    differences
}

/// What is other at a position that at least one list has.
fn changes(before: Option<&ListRow>, after: Option<&ListRow>) -> Vec<Change> {
    let Some(after) = after else {
        return vec![Change::PositionGone];
    };
    let address = after.address;
    let mut changes = Vec::new();
    let mut had = HashSet::new();
    match before {
        None => changes.push(Change::PositionNew { address }),
        Some(before) => {
            if before.address != address {
                changes.push(Change::AddressChanged { address });
            }
            had = before.pair_set();
            let has = after.pair_set();
            changes.extend(before.pairs.iter().filter(|pair| !has.contains(pair)).map(|&pair| Change::PairGone(pair)));
        }
    }
    changes.extend(after.pairs.iter().filter(|pair| !had.contains(pair)).map(|&pair| Change::PairNew(pair)));
    changes
}
