//! The records that the benchmark plays: each list is made once, by playing it in the reference.

use reference::registry::Pair;
use reference::sizes::{BENCH_ROOM, MAX_LISTED, MAX_NODES, MAX_PAIRS, MAX_UNITS, MIN_SIZE};
use reference::wire::{answer, event, DELAY, NCE, NONE, SHUTDOWN, START};

use crate::boxes::{ReferenceRing, RingBox};

const NODES: u8 = MAX_NODES as u8;
const LAST: u8 = MAX_UNITS as u8;
const PAIRS: u8 = MAX_PAIRS as u8;
/// A block of which the full rows at the first positions hold all numbers.
const FULL_BLOCK: u8 = 0x22;
const NUMBERS: u8 = 254;
const FULL_ROWS: u8 = NUMBERS.div_ceil(PAIRS);

type Pairs = Vec<(u8, u8)>;

/// Records: the first ones lead to the picture at which the others, which are measured, begin.
#[derive(Clone)]
pub struct Records {
    pub before: Vec<Vec<u8>>,
    pub measured: Vec<Vec<u8>>,
}

/// Makes a list of records by playing them.
struct Maker {
    ring: ReferenceRing,
    records: Vec<Vec<u8>>,
}

impl Maker {
    fn new() -> Maker {
        Maker { ring: ReferenceRing::fresh(MIN_SIZE).1, records: Vec::new() }
    }

    fn pass(&self) -> u32 {
        self.ring.0.pass()
    }

    fn offer(&mut self, record: Vec<u8>) -> u8 {
        let (number, _) = self.ring.record(&record, &mut [0; BENCH_ROOM]);
        self.records.push(record);
        number
    }

    fn taken(&mut self, record: Vec<u8>) {
        assert_eq!(self.offer(record), 0, "each record is taken");
    }

    fn start(&mut self, nodes: u8) {
        self.taken(event(START, 0, nodes));
    }

    fn replug(&mut self, nodes: u8) {
        self.taken(event(NCE, 0, nodes));
    }

    fn none(&mut self, position: u8) {
        self.taken(event(NONE, self.pass(), position));
    }

    fn delay(&mut self) {
        self.taken(event(DELAY, self.pass(), 0));
    }

    fn answer(&mut self, position: u8, pairs: &[(u8, u8)]) {
        self.taken(announcement(self.pass(), position, position, pairs));
    }

    /// The records so far lead to the picture at which the measured ones begin.
    fn before(&mut self) -> Vec<Vec<u8>> {
        std::mem::take(&mut self.records)
    }
}

/// The ANSWER of a position with the address of the unit at `whose`.
fn announcement(pass: u32, position: u8, whose: u8, pairs: &[(u8, u8)]) -> Vec<u8> {
    let pairs: Vec<Pair> = pairs.iter().map(|&(block, number)| Pair { block, number }).collect();
    answer(pass, position, 0x0100 + u16::from(whose), &pairs)
}

/// Ordinary bench days of a ring of eight: answers of one to six pairs, two amplifiers with one number, a unit that is silent for some
/// rounds, unasked announcements, a re-plug, a shutdown.
pub fn days(days: usize) -> Records {
    let mut maker = Maker::new();
    for _ in 0..days {
        maker.start(8);
        scan_of_day(&mut maker);
        maker.none(7);
        for _ in 0..3 {
            maker.delay();
            maker.none(7);
        }
        unasked_of_day(&mut maker);
        maker.delay();
        maker.answer(7, &[(0x60, 1), (0x61, 1)]);
        unasked_of_day(&mut maker);
        maker.replug(8);
        scan_of_day(&mut maker);
        maker.answer(7, &[(0x60, 1), (0x61, 1)]);
        unasked_of_day(&mut maker);
        maker.taken(event(SHUTDOWN, 0, 0));
    }
    Records { before: Vec::new(), measured: maker.records }
}

/// Units 1 to 6 answer; the second amplifier is renumbered.
fn scan_of_day(maker: &mut Maker) {
    maker.answer(1, &[(0x22, 1)]);
    maker.answer(2, &[(0x22, 1)]);
    maker.answer(2, &[(0x22, 2)]);
    maker.answer(3, &[(0x31, 1), (0x24, 1)]);
    maker.answer(4, &[(0x40, 1), (0x41, 1), (0x42, 1)]);
    maker.answer(5, &[(0x50, 1), (0x51, 1), (0x52, 1), (0x53, 1)]);
    maker.answer(6, &[(0x30, 1), (0x32, 1), (0x33, 1), (0x34, 1), (0x35, 1), (0x36, 1)]);
}

/// Two units announce another list, and then the first one again.
fn unasked_of_day(maker: &mut Maker) {
    maker.answer(3, &[(0x31, 1), (0x24, 1), (0x26, 1)]);
    maker.answer(5, &[(0x50, 1), (0x51, 1), (0x53, 1)]);
    maker.answer(3, &[(0x31, 1), (0x24, 1)]);
    maker.answer(5, &[(0x50, 1), (0x51, 1), (0x52, 1), (0x53, 1)]);
}

/// As many pairs of each position as a row keeps. Those of the first positions hold all numbers of one block.
fn full_row(position: u8) -> Pairs {
    let own = |index: u8| match MAX_PAIRS * (position as usize - 1) + index as usize {
        place if place < NUMBERS as usize => (FULL_BLOCK, place as u8 + 1),
        _ => (0x80 + index, position),
    };
    (0..PAIRS).map(own).collect()
}

/// The greatest ring with full rows, in OK.
fn full_ring() -> Maker {
    let mut maker = Maker::new();
    maker.start(NODES);
    (1..=LAST).for_each(|position| maker.answer(position, &full_row(position)));
    assert_eq!(maker.ring.0.listing().len(), MAX_LISTED);
    maker
}

/// Units of the full ring announce a full row of other pairs, and then their own again.
pub fn full_answers() -> Records {
    let mut maker = full_ring();
    let before = maker.before();
    for position in FULL_ROWS + 1..=LAST {
        let own = full_row(position);
        let other: Pairs = own.iter().map(|&(block, number)| (block + 0x40, number)).collect();
        maker.answer(position, &other);
        maker.answer(position, &own);
    }
    Records { before, measured: maker.records }
}

/// Units of the full ring announce a full row of the full block's pairs, all bad and with no free number, and then their own again.
pub fn bad_answers() -> Records {
    let mut maker = full_ring();
    let before = maker.before();
    for position in FULL_ROWS + 1..=LAST {
        let bad: Pairs = (0..PAIRS).map(|index| (FULL_BLOCK, NUMBERS - index)).collect();
        maker.answer(position, &bad);
        maker.answer(position, &full_row(position));
    }
    Records { before, measured: maker.records }
}

/// All units of the greatest ring are silent, round after round.
pub fn silences() -> Records {
    let mut maker = Maker::new();
    maker.start(NODES);
    let before = maker.before();
    for _ in 0..25 {
        (1..=LAST).for_each(|position| maker.none(position));
        maker.delay();
    }
    Records { before, measured: maker.records }
}

/// The greatest ring is plugged anew, again and again, and no unit answers: NCEs in NOTOK.
pub fn replugs_in_notok() -> Records {
    let mut maker = Maker::new();
    maker.start(NODES);
    let before = maker.before();
    (0..200).for_each(|_| maker.replug(NODES));
    Records { before, measured: maker.records }
}

/// The full ring is plugged anew once: an NCE in OK that tells all its pairs.
pub fn replug_in_ok() -> Records {
    let mut maker = full_ring();
    let before = maker.before();
    maker.replug(NODES);
    Records { before, measured: maker.records }
}

/// The full ring is plugged anew, and all units answer as before.
pub fn rescans() -> Records {
    let mut maker = full_ring();
    let before = maker.before();
    for _ in 0..3 {
        maker.replug(NODES);
        (1..=LAST).for_each(|position| maker.answer(position, &full_row(position)));
    }
    Records { before, measured: maker.records }
}

/// Records that the full ring refuses, from 2 to 8.
pub fn refusals() -> Records {
    let mut maker = full_ring();
    let before = maker.before();
    let pass = maker.pass();
    let mut bad_block = full_row(LAST);
    bad_block[MAX_PAIRS - 1].0 = 0xFF;
    for position in 1..=LAST {
        let pairs = full_row(position);
        for record in [
            announcement(pass, position, position, &bad_block),
            event(START, 0, NODES),
            announcement(pass + 1, position, position, &pairs),
            announcement(pass, NODES, position, &pairs),
            event(NONE, pass, position),
            event(DELAY, pass, 0),
            event(0, pass, 0),
            Vec::new(),
        ] {
            assert_ne!(maker.offer(record), 0, "each record is refused");
        }
    }
    Records { before, measured: maker.records }
}

/// Restarts of a full ring and units that are ignored: with the others, all ways through a record.
pub fn conflicts() -> Records {
    let mut maker = full_ring();
    for _ in 0..2 {
        maker.taken(announcement(maker.pass(), 2, 1, &full_row(2)));
        (1..=LAST).for_each(|position| maker.answer(position, &full_row(position)));
    }
    maker.taken(announcement(maker.pass(), 2, 1, &full_row(2)));
    maker.taken(announcement(maker.pass(), 3, 1, &full_row(3)));
    Records { before: Vec::new(), measured: maker.records }
}

/// The full ring's records, and those of a ring with another address and other pairs at each position.
pub fn two_full_pictures() -> [Vec<Vec<u8>>; 2] {
    let mut maker = Maker::new();
    maker.start(NODES);
    for position in 1..=LAST {
        let other: Pairs = full_row(position).iter().map(|&(block, number)| (block + 0x40, number)).collect();
        maker.taken(announcement(maker.pass(), position, position % LAST + 1, &other));
    }
    assert_eq!(maker.ring.0.listing().len(), MAX_LISTED);
    [full_ring().records, maker.records]
}

/// The full ring's records, and the pair that is listed last.
pub fn full_picture() -> (Vec<Vec<u8>>, (u8, u8)) {
    (full_ring().records, full_row(LAST)[MAX_PAIRS - 1])
}
