//! Holds the unit to ticket 7 of paper 02, with the 24 pairs of ticket 8, and to its readings.

use reference::order::{Content, Order};
use reference::registry::{Entry, Pair, Ring, State};
use reference::sizes::{MAX_KNOWN, MAX_PAIRS, MIN_ANSWER_ROOM, MIN_ROOM};
use reference::unit::{Known, Unit};
use reference::wire::{self, event, DELAY, NCE, NONE, SHUTDOWN, START};

const ASK: u8 = 1;
const SET: u8 = 2;
const OK: u8 = 3;
const NOTOK: u8 = 4;
const NEW: u8 = 5;
const INVALID: u8 = 6;
const WAIT_SHORT: u8 = 7;
const WAIT_LONG: u8 = 8;

fn pair(block: u8, number: u8) -> Pair {
    Pair { block, number }
}

fn pairs(pairs: &[[u8; 2]]) -> Vec<Pair> {
    pairs.iter().map(|&[block, number]| pair(block, number)).collect()
}

/// A unit at position 2, address 0102.
fn unit(list: &[[u8; 2]]) -> Unit {
    let (made, unit) = Unit::new(2, 0x0102, &pairs(list));
    assert_eq!(made, Ok(()));
    unit
}

fn order(kind: u8, pass: u32, data: &[u8]) -> Vec<u8> {
    [&[0x4D, 0x4F, kind][..], &pass.to_be_bytes(), data].concat()
}

/// Reads an order with the least room: the ANSWER, or a number.
fn read(unit: &mut Unit, order: &[u8]) -> Result<Vec<u8>, u8> {
    let mut out = [0xAA; MIN_ANSWER_ROOM];
    let before = unit.clone();
    let read = unit.read(order, &mut out);
    let length = read.unwrap_or(0);
    assert!(out[length..].iter().all(|&byte| byte == 0xAA));
    assert!(read.is_ok() || *unit == before);
    read.map(|length| out[..length].to_vec())
}

fn taken(unit: &mut Unit, order: &[u8]) -> Vec<u8> {
    read(unit, order).expect("the order is read")
}

/// A SET of pass 1 for the position and the address of `unit`; gives the list that is announced.
fn set(unit: &mut Unit, block: u8, old: u8, new: u8) -> Vec<[u8; 2]> {
    let answer = taken(unit, &order(SET, 1, &[2, 1, 2, block, old, new]));
    assert_eq!(answer[..11], [0x4D, 0x45, 4, 0, 0, 0, 1, 2, 1, 2, unit.pairs().len() as u8]);
    answer[11..].chunks(2).map(|pair| [pair[0], pair[1]]).collect()
}

fn known(unit: &Unit) -> Vec<(u8, u8, u16)> {
    unit.known().iter().map(|known| (known.pair.block, known.pair.number, known.address)).collect()
}

#[test]
fn a_fresh_unit() {
    let unit = unit(&[[0x31, 1], [0x22, 1]]);
    assert_eq!((unit.position(), unit.address(), unit.pass()), (2, 0x0102, 0));
    assert_eq!(unit.pairs(), pairs(&[[0x31, 1], [0x22, 1]]));
    assert!(unit.known().is_empty());
}

/// Reading 133: position and address stay, and are never refused.
#[test]
fn more_than_24_pairs_are_refused() {
    for count in 0..=300 {
        let list: Vec<Pair> = (0..count).map(|number| pair(0x40, number as u8)).collect();
        let (position, address) = (count as u8, count as u16 * 257);
        let (made, mut unit) = Unit::new(position, address, &list);
        let kept = if count <= 24 { list } else { Vec::new() };
        assert_eq!(made, if count <= 24 { Ok(()) } else { Err(2) });
        assert_eq!((unit.position(), unit.address(), unit.pass()), (position, address, 0));
        assert!(unit.pairs() == kept && unit.known().is_empty());
        let answer = taken(&mut unit, &order(ASK, 1, &[position]));
        assert_eq!(answer.len(), 11 + 2 * kept.len());
    }
}

#[test]
fn room_63_is_refused_first_and_64_is_enough() {
    let (_, mut unit) = Unit::new(1, 0x0101, &[pair(0x22, 1); MAX_PAIRS]);
    unit.learn(pair(0x31, 1), 0x0102);
    let before = unit.clone();
    let orders =
        [order(ASK, 1, &[1]), order(ASK, 1, &[2]), order(OK, 1, &[]), order(NOTOK, 0, &[]), order(9, 0, &[]), vec![]];
    for room in 0..64 {
        for order in &orders {
            let mut out = vec![0xAA; room];
            assert_eq!(unit.read(order, &mut out), Err(1));
            assert!(unit == before && out.iter().all(|&byte| byte == 0xAA));
        }
    }
    for room in [64, 65, 1000] {
        let mut out = vec![0xAA; room];
        assert_eq!(unit.read(&order(9, 0, &[]), &mut out), Err(2));
        assert_eq!(unit.read(&order(ASK, 1, &[1]), &mut out), Ok(59));
        assert!(out[59..].iter().all(|&byte| byte == 0xAA));
    }
}

#[test]
fn an_ask_for_the_own_position_is_answered_with_the_list() {
    let mut unit = unit(&[[0x31, 1], [0x22, 0xFF]]);
    for pass in [0, 1, 0x0102_0304, u32::MAX] {
        let [p0, p1, p2, p3] = pass.to_be_bytes();
        let wanted = [0x4D, 0x45, 4, p0, p1, p2, p3, 2, 1, 2, 2, 0x31, 1, 0x22, 0xFF];
        assert_eq!(taken(&mut unit, &order(ASK, pass, &[2])), wanted);
        for other in (0..=255).filter(|&position| position != 2) {
            assert_eq!(taken(&mut unit, &order(ASK, pass, &[other])), []);
        }
        assert_eq!(unit.pass(), pass);
    }
}

#[test]
fn a_set_renumbers_the_first_pair() {
    let mut unit = unit(&[[0x31, 1], [0x22, 1], [0x22, 1]]);
    assert_eq!(set(&mut unit, 0x22, 1, 2), [[0x31, 1], [0x22, 2], [0x22, 1]]);
    assert_eq!(set(&mut unit, 0x22, 1, 3), [[0x31, 1], [0x22, 2], [0x22, 3]]);
    assert_eq!(set(&mut unit, 0x22, 1, 4), [[0x31, 1], [0x22, 2], [0x22, 3]]);
    assert_eq!(unit.pairs(), pairs(&[[0x31, 1], [0x22, 2], [0x22, 3]]));
}

#[test]
fn a_set_to_a_number_of_another_pair_of_that_block_leaves_the_list() {
    let mut unit = unit(&[[0x22, 1], [0x22, 2], [0x31, 3], [0x22, 4]]);
    let list = [[0x22, 1], [0x22, 2], [0x31, 3], [0x22, 4]];
    for (old, new) in [(1, 2), (2, 1), (1, 4), (4, 1), (2, 4), (1, 1), (2, 2)] {
        assert_eq!(set(&mut unit, 0x22, old, new), list);
    }
    assert_eq!(set(&mut unit, 0x22, 2, 3), [[0x22, 1], [0x22, 3], [0x31, 3], [0x22, 4]]);
}

/// Reading 131.
#[test]
fn a_set_to_00_ff_or_the_old_number_is_obeyed() {
    let mut unit = unit(&[[0x22, 1], [0x22, 1]]);
    assert_eq!(set(&mut unit, 0x22, 1, 1), [[0x22, 1], [0x22, 1]]);
    assert_eq!(set(&mut unit, 0x22, 1, 0), [[0x22, 0], [0x22, 1]]);
    assert_eq!(set(&mut unit, 0x22, 1, 0xFF), [[0x22, 0], [0x22, 0xFF]]);
    assert_eq!(set(&mut unit, 0x22, 0xFF, 0), [[0x22, 0], [0x22, 0xFF]]);
    assert_eq!(set(&mut unit, 0x22, 0, 9), [[0x22, 9], [0x22, 0xFF]]);
}

#[test]
fn a_set_for_a_pair_that_is_not_there_is_answered_with_the_list() {
    let mut unit = unit(&[[0x22, 1], [0x31, 2]]);
    for (block, old) in [(0x22, 2), (0x31, 1), (0x40, 1), (0x01, 0x22)] {
        assert_eq!(set(&mut unit, block, old, 9), [[0x22, 1], [0x31, 2]]);
    }
    let (_, mut empty) = Unit::new(2, 0x0102, &[]);
    assert!(set(&mut empty, 0x22, 1, 2).is_empty());
}

/// Reading 130.
#[test]
fn a_set_for_another_position_or_address_is_not_answered() {
    let mut unit = unit(&[[0x22, 1]]);
    for data in [
        [1, 1, 2, 0x22, 1, 2],
        [3, 1, 2, 0x22, 1, 2],
        [2, 1, 3, 0x22, 1, 2],
        [2, 0, 2, 0x22, 1, 2],
        [2, 2, 1, 0x22, 1, 2],
        [1, 1, 1, 0x22, 1, 2],
    ] {
        assert_eq!(taken(&mut unit, &order(SET, 1, &data)), []);
    }
    assert_eq!(unit.pairs(), pairs(&[[0x22, 1]]));
}

/// Each kind with each length: exactly one is good, or for NEW and INVALID the one of the count.
#[test]
fn orders_of_wrong_length_mark_or_kind_are_refused() {
    let bytes = [2, 1, 2, 0x22, 1, 2, 3, 4, 5, 6];
    for kind in 0..=255 {
        for length in 0..=17 {
            let whole = order(kind, 0, &bytes);
            let good = match kind {
                ASK => length == 8,
                SET => length == 13,
                OK | NOTOK | WAIT_SHORT | WAIT_LONG => length == 7,
                NEW | INVALID => length == 8 + 2 * usize::from(bytes[0]),
                _ => false,
            };
            let mut unit = unit(&[[0x22, 1]]);
            unit.learn(pair(0x31, 1), 0x0101);
            assert_eq!(read(&mut unit, &whole[..length]).is_ok(), good, "kind {kind}, length {length}");
            for (place, bit) in (0..16).map(|bit| (bit / 8, bit % 8)).filter(|&(place, _)| place < length) {
                let mut marked = whole[..length].to_vec();
                marked[place] ^= 1 << bit;
                assert_eq!(read(&mut unit, &marked), Err(2));
            }
        }
    }
}

/// Reading 132.
#[test]
fn each_count_is_read_where_the_length_fits() {
    for kind in [NEW, INVALID] {
        for count in 0..=255u8 {
            let named: Vec<u8> = (0..=count).flat_map(|number| [0x31, number]).collect();
            let mut unit = unit(&[]);
            unit.learn(pair(0x31, 0), 0x0101);
            for length in 0..=named.len() {
                let data = [&[count], &named[..length]].concat();
                let fits = length == 2 * usize::from(count);
                let bytes = order(kind, 0, &data);
                assert_eq!(read(&mut unit, &bytes), if fits { Ok(vec![]) } else { Err(2) });
            }
            assert_eq!(unit.known().is_empty(), kind == INVALID && count > 0);
        }
    }
}

/// Reading 123.
#[test]
fn each_pair_is_kept_once_and_its_newest_answer_is_the_newest() {
    let mut unit = unit(&[]);
    unit.learn(pair(0x22, 1), 0x0101);
    unit.learn(pair(0x22, 2), 0x0102);
    unit.learn(pair(0x23, 1), 0x0103);
    unit.learn(pair(0x22, 1), 0x0109);
    assert_eq!(known(&unit), [(0x22, 2, 0x0102), (0x23, 1, 0x0103), (0x22, 1, 0x0109)]);
    assert_eq!(unit.place_of(pair(0x23, 1)), Some(1));
    assert_eq!(unit.place_of(pair(0x23, 2)), None);
    assert_eq!(unit.known()[2], Known { pair: pair(0x22, 1), address: 0x0109 });
}

#[test]
fn the_65th_answer_forgets_the_oldest() {
    let mut unit = unit(&[]);
    let one = |number: u8| (0x40, number, 0x0100 + u16::from(number));
    for number in 1..=200 {
        unit.learn(pair(0x40, number), 0x0100 + u16::from(number));
        let first = number.saturating_sub(64) + 1;
        assert_eq!(known(&unit), (first..=number).map(one).collect::<Vec<_>>());
    }
    unit.learn(pair(0x40, 137), 0x0000);
    assert_eq!(unit.known().len(), MAX_KNOWN);
    unit.learn(pair(0x41, 1), 0x0101);
    assert_eq!(unit.place_of(pair(0x40, 138)), None);
    assert_eq!(unit.place_of(pair(0x40, 139)), Some(0));
    assert_eq!(unit.place_of(pair(0x40, 137)), Some(62));
    assert_eq!(unit.place_of(pair(0x41, 1)), Some(63));
    taken(&mut unit, &order(INVALID, 0, &[2, 0x40, 139, 0x40, 200]));
    unit.learn(pair(0x41, 2), 0x0101);
    unit.learn(pair(0x41, 3), 0x0101);
    assert_eq!((unit.known().len(), unit.place_of(pair(0x40, 140))), (MAX_KNOWN, Some(0)));
    unit.learn(pair(0x41, 4), 0x0101);
    assert_eq!((unit.known().len(), unit.place_of(pair(0x40, 141))), (MAX_KNOWN, Some(0)));
}

#[test]
fn an_invalid_drops_the_pairs_that_it_names() {
    let mut unit = unit(&[[0x22, 1]]);
    for number in 1..=6 {
        unit.learn(pair(0x22, number), 0x0101);
        unit.learn(pair(0x23, number), 0x0102);
    }
    taken(&mut unit, &order(INVALID, 0, &[5, 0x22, 6, 0x22, 1, 0x22, 6, 0x24, 1, 0x23, 7]));
    let left: Vec<(u8, u8)> = unit.known().iter().map(|known| (known.pair.block, known.pair.number)).collect();
    let wanted = [(0x23, 1), (0x22, 2), (0x23, 2), (0x22, 3), (0x23, 3), (0x22, 4), (0x23, 4), (0x22, 5), (0x23, 5)];
    assert_eq!(left, [&wanted[..], &[(0x23, 6)]].concat());
    assert_eq!(unit.pairs(), pairs(&[[0x22, 1]]));
}

/// Readings 125 to 127: the own list stays; the other kinds of the same pass drop nothing and keep nothing.
#[test]
fn notok_and_another_pass_empty_the_unit() {
    let orders = |pass: u32| {
        [
            order(ASK, pass, &[2]),
            order(ASK, pass, &[1]),
            order(SET, pass, &[2, 1, 2, 0x22, 1, 1]),
            order(OK, pass, &[]),
            order(NEW, pass, &[2, 0x31, 1, 0x40, 1]),
            order(INVALID, pass, &[1, 0x31, 2]),
            order(WAIT_SHORT, pass, &[]),
            order(WAIT_LONG, pass, &[]),
            order(NOTOK, pass, &[]),
        ]
    };
    for last in [0, 1, u32::MAX] {
        for pass in [0, 1, 0x0100_0000, u32::MAX] {
            for bytes in orders(pass) {
                let mut unit = unit(&[[0x22, 1]]);
                taken(&mut unit, &order(OK, last, &[]));
                unit.learn(pair(0x31, 1), 0x0101);
                taken(&mut unit, &bytes);
                assert_eq!(unit.known().len(), usize::from(pass == last && bytes[2] != NOTOK), "{bytes:02X?}");
                assert_eq!((unit.pass(), unit.pairs()), (pass, &pairs(&[[0x22, 1]])[..]));
            }
        }
    }
}

/// Reading 126.
#[test]
fn a_refused_order_is_not_the_last() {
    let mut unit = unit(&[]);
    taken(&mut unit, &order(OK, 5, &[]));
    unit.learn(pair(0x31, 1), 0x0101);
    assert_eq!(read(&mut unit, &order(9, 6, &[])), Err(2));
    assert_eq!(unit.read(&order(OK, 6, &[]), &mut [0; 63]), Err(1));
    taken(&mut unit, &order(OK, 5, &[]));
    assert_eq!((unit.pass(), unit.known().len()), (5, 1));
}

#[test]
fn orders_are_read_field_by_field() {
    let is_read = |kind: u8, data: &[u8], content: Content| {
        let bytes = order(kind, 0x0102_0304, data);
        assert_eq!(Order::read(&bytes), Some(Order { pass: 0x0102_0304, content }));
    };
    is_read(ASK, &[7], Content::Ask { position: 7 });
    is_read(SET, &[5, 6, 7, 8, 9, 10], Content::Set { position: 5, address: 0x0607, old: pair(8, 9), new: 10 });
    is_read(OK, &[], Content::Ok);
    is_read(NOTOK, &[], Content::NotOk);
    is_read(WAIT_SHORT, &[], Content::WaitShort);
    is_read(WAIT_LONG, &[], Content::WaitLong);
    let new = order(NEW, 1, &[2, 3, 4, 5, 6]);
    let Some(Order { pass: 1, content: Content::New(named) }) = Order::read(&new) else { panic!("no NEW") };
    assert_eq!(named.iter().collect::<Vec<_>>(), [pair(3, 4), pair(5, 6)]);
    let invalid = order(INVALID, 1, &[2, 3, 4, 5, 6]);
    let Some(Order { pass: 1, content: Content::Invalid(named) }) = Order::read(&invalid) else { panic!("no INVALID") };
    assert!(named.contain(pair(5, 6)) && !named.contain(pair(4, 5)));
}

/// A NetworkMaster and its units; each reads every order, and what they answer is under way.
struct Table {
    ring: Ring,
    units: Vec<Unit>,
    answers: Vec<Vec<u8>>,
}

impl Table {
    fn new(units: Vec<Unit>) -> Table {
        Table { ring: Ring::default(), units, answers: Vec::new() }
    }

    fn event(&mut self, record: &[u8]) {
        let mut out = vec![0; MIN_ROOM];
        let length = self.ring.record(record, &mut out).expect("the record is taken");
        for order in wire::orders(&out[..length]) {
            let answers = self.units.iter_mut().map(|unit| taken(unit, order));
            self.answers.extend(answers.filter(|answer| !answer.is_empty()));
        }
        self.check_claim();
    }

    /// Answers go to the master, the last first, until none is under way.
    fn run(&mut self) {
        while let Some(answer) = self.answers.pop() {
            self.event(&answer);
        }
    }

    /// Each unit is told of each entry of the listing.
    fn look_up_all(&mut self) {
        for Entry { block, number, .. } in self.ring.listing() {
            let (_, address) = self.ring.look_up(block, number).expect("the pair is listed");
            self.units.iter_mut().for_each(|unit| unit.learn(pair(block, number), address));
            self.check_claim();
        }
    }

    fn check_claim(&self) {
        let listing = self.ring.listing();
        let listed = |known: &Known| {
            let is_it = |entry: &Entry| (entry.block, entry.number, entry.address);
            listing.iter().any(|entry| is_it(entry) == (known.pair.block, known.pair.number, known.address))
        };
        let claimed = self.units.iter().all(|unit| unit.known().iter().all(listed));
        assert!(self.ring.state() != State::Ok || claimed);
    }

    fn known(&self) -> Vec<usize> {
        self.units.iter().map(|unit| unit.known().len()).collect()
    }
}

/// Seven units that claim the same pairs: the master renumbers six of them, and each pair is listed.
#[test]
fn one_master_and_several_units_get_to_ok() {
    let list = pairs(&[[0x22, 1], [0x31, 1], [0x22, 1], [0x22, 0], [0x31, 0xFF]]);
    let units = (1..=7).map(|position| Unit::new(position, 0x0100 + u16::from(position), &list).1).collect();
    let mut table = Table::new(units);
    table.event(&event(START, 0, 8));
    assert_eq!(table.answers.len(), 7);
    table.run();
    assert_eq!((table.ring.state(), table.ring.listing().len()), (State::Ok, 35));
    let announced: Vec<(u8, u16, Pair)> = table
        .units
        .iter()
        .flat_map(|unit| unit.pairs().iter().map(|&pair| (unit.position(), unit.address(), pair)))
        .collect();
    let entry = |entry: Entry| (entry.position, entry.address, pair(entry.block, entry.number));
    assert_eq!(table.ring.listing().into_iter().map(entry).collect::<Vec<_>>(), announced);

    // The ring is plugged again in OK: the units forget all, and nobody is renumbered.
    table.look_up_all();
    assert_eq!(table.known(), [35; 7]);
    table.event(&event(NCE, 0, 8));
    assert_eq!(table.known(), [0; 7]);
    table.run();
    assert_eq!((table.ring.state(), table.ring.listing().len()), (State::Ok, 35));

    // A unit falls silent while it is renumbered: its pairs are INVALID.
    table.look_up_all();
    let record = wire::answer(2, 3, 0x0103, &[table.units[2].pairs(), &[pair(0x50, 0)]].concat());
    table.event(&record);
    table.answers.clear();
    table.event(&event(NONE, 2, 3));
    assert_eq!(table.known(), [30; 7]);
    table.event(&event(DELAY, 2, 0));
    table.run();
    assert_eq!((table.ring.listing().len(), table.known()), (35, vec![30; 7]));

    // A bad address in OK: NOTOK.
    table.event(&wire::answer(2, 5, 0x0300, &[]));
    assert_eq!((table.ring.state(), table.known()), (State::NotOk, vec![0; 7]));
    table.run();
    assert_eq!((table.ring.state(), table.ring.listing().len()), (State::Ok, 35));

    // SHUTDOWN tells nobody; the next pass does.
    table.look_up_all();
    table.event(&event(SHUTDOWN, 0, 0));
    assert_eq!(table.known(), [35; 7]);
    table.event(&event(START, 0, 1));
    assert_eq!((table.ring.state(), table.known()), (State::Ok, vec![0; 7]));
}

/// Reading 135: passes go by without an order, and the unit's pass lags.
#[test]
fn a_re_plug_to_one_node_with_an_empty_listing_tells_nothing() {
    let mut table = Table::new(vec![unit(&[[0x22, 1]])]);
    table.event(&event(START, 0, 3));
    table.run();
    table.event(&event(NONE, 1, 1));
    table.look_up_all();
    assert_eq!(table.known(), [1]);
    table.event(&event(NCE, 0, 1));
    assert_eq!((table.units[0].pass(), table.known()), (2, vec![0]));
    table.event(&event(NCE, 0, 1));
    table.event(&event(NCE, 0, 1));
    assert_eq!((table.ring.pass(), table.units[0].pass()), (4, 2));
    table.event(&event(NCE, 0, 3));
    assert_eq!((table.ring.pass(), table.units[0].pass()), (5, 5));
}
