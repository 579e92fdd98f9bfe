//! Holds the generator to its scenes of units and benches: counts what they lead to, over some seeds, and checks what must hold at each
//! step, the claim of ticket 7 among it.

use std::collections::{BTreeMap, HashSet};

use reference::generate::{self, benches};
use reference::order::{Content, Order};
use reference::player::{first_unit, play_bytes, UnitBench};
use reference::refusal;
use reference::registry::{Pair, Ring, State};
use reference::sizes::{BENCH_ROOM, MAX_KNOWN, MAX_PAIRS, MIN_ANSWER_ROOM};
use reference::unit::{Known, Unit};
use reference::wire::{self, ASK, INVALID, NCE, NEW, NOTOK, OK, SET, SHUTDOWN, WAIT_LONG, WAIT_SHORT};

/// INVALIDs that drop as many pairs are great.
const MANY: usize = 8;
const FILLER: u8 = 0xA5;

/// A unit, a ring and what came about so far; it stops after so many orders.
struct Counter {
    unit: Unit,
    ring: Ring,
    left: usize,
    /// Whether the unit reads the orders of the ring.
    on_bench: bool,
    /// The kinds of orders that the unit misses on a bench.
    missed: &'static [u8],
    counts: BTreeMap<&'static str, usize>,
}

impl Counter {
    fn new() -> Counter {
        Counter {
            unit: first_unit(),
            ring: Ring::default(),
            left: 0,
            on_bench: false,
            missed: &[],
            counts: BTreeMap::new(),
        }
    }

    fn count(&mut self, what: &'static str, holds: bool) {
        self.add(what, usize::from(holds));
    }

    fn add(&mut self, what: &'static str, more: usize) {
        *self.counts.entry(what).or_default() += more;
    }

    fn make_unit(&mut self, position: u8, address: u16, pairs: &[Pair]) {
        let (made, unit) = Unit::new(position, address, pairs);
        assert_eq!(made.is_err(), pairs.len() > MAX_PAIRS);
        self.count("made with 24 pairs", pairs.len() == MAX_PAIRS);
        self.count("made with more", made.is_err());
        self.unit = unit;
        self.on_bench = false;
    }

    fn read_order(&mut self, order: &[u8], room: usize) -> Vec<u8> {
        let before = self.unit.clone();
        let mut out = vec![FILLER; room];
        let read = self.unit.read(order, &mut out);
        let length = read.unwrap_or(0);
        assert!(out[length..].iter().all(|&byte| byte == FILLER));
        match read {
            Ok(_) => self.count_order(&before, order, length),
            Err(number) => {
                assert!(self.unit == before);
                assert_eq!(number == refusal::ANSWER_ROOM_TOO_SHORT, room < MIN_ANSWER_ROOM);
                self.count("refused 1", number == refusal::ANSWER_ROOM_TOO_SHORT);
                self.count("refused 2", number == refusal::ORDER_MALFORMED);
            }
        }
        self.check_unit();
        out.truncate(length);
        out
    }

    fn check_unit(&self) {
        let pairs: HashSet<(u8, u8)> =
            self.unit.known().iter().map(|known| (known.pair.block, known.pair.number)).collect();
        assert!(pairs.len() == self.unit.known().len() && pairs.len() <= MAX_KNOWN);
    }

    fn count_order(&mut self, before: &Unit, order: &[u8], length: usize) {
        let Order { pass, content } = Order::read(order).expect("an order is read");
        let had = before.known().len();
        let dropped = had - self.unit.known().len();
        self.count("read on a bench", self.on_bench);
        self.count("emptied by a new pass", pass != before.pass() && had > 0);
        self.count("64 emptied by a new pass", pass != before.pass() && had == MAX_KNOWN);
        let same_pass = pass == before.pass();
        match content {
            Content::Ask { .. } => self.count("ASK answered", length > 0),
            Content::NotOk => self.count("emptied by NOTOK", same_pass && had > 0),
            Content::New(_) => assert!(!same_pass || dropped == 0),
            Content::Invalid(_) if same_pass => {
                self.add("dropped by INVALID", dropped);
                self.count("many dropped by INVALID", dropped >= MANY);
                self.count("many dropped by INVALID on a bench", dropped >= MANY && self.on_bench);
                self.count("dropped by INVALID, some kept", dropped > 0 && dropped < had);
            }
            Content::Set { old, new, .. } if length > 0 => self.count_set(before, old, new),
            Content::Set { .. } => self.count("SET for others", true),
            _ => {}
        }
    }

    fn count_set(&mut self, before: &Unit, old: Pair, new: u8) {
        let wanted = Pair { block: old.block, number: new };
        let has = |pair: Pair| before.pairs().contains(&pair);
        let obeyed = before.pairs() != self.unit.pairs();
        assert_eq!(obeyed, has(old) && !has(wanted));
        let equal = before.pairs().iter().filter(|&&pair| pair == old).count();
        self.count("SET obeyed", obeyed);
        self.count("SET obeyed on a bench", obeyed && self.on_bench);
        self.count("SET of the first of equal pairs", obeyed && equal > 1);
        self.count("SET to 00 or FF", obeyed && matches!(new, 0 | 255));
        self.count("SET to a number that is held", has(old) && has(wanted) && old != wanted);
        self.count("SET to the same number", has(old) && old == wanted);
        self.count("SET of a pair that is not there", !has(old));
    }

    fn learn_answer(&mut self, pair: Pair, address: u16) {
        let before = self.unit.clone();
        self.unit.learn(pair, address);
        let full = before.known().len() == MAX_KNOWN;
        let place = before.place_of(pair);
        self.count("learned", true);
        self.count("64 kept", self.unit.known().len() == MAX_KNOWN);
        self.count("64 kept on a bench", self.unit.known().len() == MAX_KNOWN && self.on_bench);
        self.count("oldest forgotten", full && place.is_none());
        self.count("oldest forgotten on a bench", full && place.is_none() && self.on_bench);
        self.count("renewed", place.is_some());
        self.count("oldest of 64 renewed", full && place == Some(0));
        self.count("renewed with another address", place.is_some_and(|place| before.known()[place].address != address));
        self.check_unit();
    }
}

impl benches::Stage for Counter {
    type Stop = ();

    const PATIENT: bool = true;

    const MOST_PAIRS: usize = 1000;

    fn unit(&self) -> &Unit {
        &self.unit
    }

    fn make(&mut self, position: u8, address: u16, pairs: &[Pair]) -> Result<(), ()> {
        self.make_unit(position, address, pairs);
        Ok(())
    }

    fn read(&mut self, order: &[u8], room: Option<usize>) -> Result<Vec<u8>, ()> {
        self.left = self.left.checked_sub(1).ok_or(())?;
        if self.on_bench && order.get(wire::KIND).is_some_and(|kind| self.missed.contains(kind)) {
            return Ok(Vec::new());
        }
        Ok(self.read_order(order, room.unwrap_or(MIN_ANSWER_ROOM)))
    }

    fn learn(&mut self, pair: Pair, address: u16) -> Result<(), ()> {
        self.left = self.left.checked_sub(1).ok_or(())?;
        self.learn_answer(pair, address);
        Ok(())
    }

    fn look_around(&mut self, _: u8) -> Result<(), ()> {
        Ok(())
    }

    fn look_closely(&mut self) -> Result<(), ()> {
        Ok(())
    }

    fn ring(&self) -> &Ring {
        &self.ring
    }

    fn fresh(&mut self, l: usize) -> Result<(), ()> {
        self.ring = u32::try_from(l).ok().and_then(|l| Ring::fresh(l).ok()).unwrap_or_default();
        Ok(())
    }

    fn offer(&mut self, record: &[u8], room: Option<usize>) -> Result<Vec<u8>, ()> {
        self.on_bench = true;
        let before = self.ring.clone();
        let mut out = vec![0; BENCH_ROOM];
        let Ok(length) = self.ring.record(record, &mut out[..room.unwrap_or(BENCH_ROOM).min(BENCH_ROOM)]) else {
            return Ok(Vec::new());
        };
        out.truncate(length);
        let knows = !self.unit.known().is_empty();
        let was_ok = before.state() == State::Ok;
        let kind = record[wire::KIND];
        self.count("NCE in OK", kind == NCE && was_ok);
        self.count("NCE in OK, something kept", kind == NCE && was_ok && knows);
        self.count("NCE in OK, no order", kind == NCE && was_ok && length == 0);
        self.count("SHUTDOWN, something kept", kind == SHUTDOWN && knows);
        let restarts = wire::orders(&out).any(|order| order[wire::KIND] == NOTOK);
        self.count("restart from OK, something kept", restarts && was_ok && knows);
        Ok(out)
    }

    fn look_up(&mut self, pair: Pair) -> Result<Option<u16>, ()> {
        let found = self.ring.look_up(pair.block, pair.number);
        self.count("look-up found", found.is_ok());
        self.count("look-up of the own pair", found.is_ok_and(|(position, _)| position == self.unit.position()));
        self.count("look-up refused 17", found == Err(refusal::NOT_LISTED));
        self.count("look-up refused 18", found == Err(refusal::NOT_OK));
        Ok(found.ok().map(|(_, address)| address))
    }

    fn at_rest(&mut self) -> Result<(), ()> {
        if self.ring.state() != State::Ok {
            return Ok(());
        }
        let listing: HashSet<(u8, u8, u16)> =
            self.ring.listing().iter().map(|entry| (entry.block, entry.number, entry.address)).collect();
        let is_listed = |known: &Known| listing.contains(&(known.pair.block, known.pair.number, known.address));
        let broken = !self.unit.known().iter().all(is_listed);
        assert!(!broken || !self.missed.is_empty(), "{:?}", self.unit);
        self.count("claim broken", broken);
        self.count("claim checked, something kept", !self.unit.known().is_empty());
        self.count("claim checked, 64 kept", self.unit.known().len() == MAX_KNOWN);
        self.count("claim checked, the pass lags", self.unit.pass() != self.ring.pass());
        Ok(())
    }
}

impl Counter {
    /// Plays a generated script, without what it looks at.
    fn play_script(&mut self, seed: u64, lines: usize) {
        let transcript = play_bytes(&mut UnitBench::new(), &generate::unit(seed, lines));
        let mut room = MIN_ANSWER_ROOM;
        self.unit = first_unit();
        for line in transcript.split(|&byte| byte == b'\n').filter_map(|line| std::str::from_utf8(line).ok()) {
            let words: Vec<&str> = line.split(' ').collect();
            match words[..] {
                ["unit", position, address, ref pairs @ ..] => {
                    let pairs: Vec<Pair> = pairs.iter().map(|pair| read_pair(pair)).collect();
                    self.make_unit(position.parse().expect("a number"), hex(address) as u16, &pairs);
                }
                ["room", length] => room = length.parse().expect("a number"),
                ["<", ref groups @ ..] => drop(self.read_order(&bytes(&groups.concat()), room)),
                ["found", block, number, address] => {
                    let pair = Pair { block: hex(block) as u8, number: hex(number) as u8 };
                    self.learn_answer(pair, hex(address) as u16);
                }
                _ => {}
            }
        }
    }

    fn assert_floors(&self, floors: &[(&'static str, usize)]) {
        println!("{:#?}", self.counts);
        for (what, floor) in floors {
            let count = self.counts.get(what).copied().unwrap_or(0);
            assert!(count >= *floor, "{what}: {count} where at least {floor} are wanted");
        }
    }
}

fn hex(word: &str) -> u32 {
    u32::from_str_radix(word, 16).expect("hexadecimal")
}

fn read_pair(word: &str) -> Pair {
    Pair { block: hex(&word[..2]) as u8, number: hex(&word[3..]) as u8 }
}

fn bytes(digits: &str) -> Vec<u8> {
    (0..digits.len()).step_by(2).map(|at| hex(&digits[at..at + 2]) as u8).collect()
}

/// The scripts that are stored.
#[test]
fn scripts_lead_to_full_units_renumberings_and_new_passes() {
    let mut counter = Counter::new();
    for seed in 1..=8 {
        counter.play_script(seed, 4_000);
    }
    counter.assert_floors(&[
        ("made with 24 pairs", 40),
        ("made with more", 40),
        ("refused 1", 150),
        ("refused 2", 1_200),
        ("ASK answered", 600),
        ("SET for others", 1_500),
        ("SET obeyed", 400),
        ("SET of the first of equal pairs", 90),
        ("SET to 00 or FF", 8),
        ("SET to a number that is held", 60),
        ("SET to the same number", 80),
        ("SET of a pair that is not there", 180),
        ("learned", 8_000),
        ("64 kept", 900),
        ("oldest forgotten", 500),
        ("renewed", 1_800),
        ("oldest of 64 renewed", 40),
        ("renewed with another address", 250),
        ("dropped by INVALID", 1_200),
        ("dropped by INVALID, some kept", 150),
        ("many dropped by INVALID", 30),
        ("emptied by NOTOK", 30),
        ("emptied by a new pass", 300),
        ("64 emptied by a new pass", 6),
    ]);
}

/// The scenes of a stage that is patient.
#[test]
fn plays_lead_to_full_units_renumberings_and_new_passes_and_keep_the_claim() {
    let mut counter = Counter::new();
    for seed in 0..8 {
        counter.left = 20_000;
        benches::Play::new(&mut counter, seed).run();
    }
    counter.assert_floors(&[
        ("made with 24 pairs", 180),
        ("made with more", 250),
        ("refused 1", 900),
        ("refused 2", 5_000),
        ("ASK answered", 3_000),
        ("SET for others", 9_000),
        ("SET obeyed", 1_800),
        ("SET obeyed on a bench", 900),
        ("SET of the first of equal pairs", 300),
        ("SET to 00 or FF", 60),
        ("SET to a number that is held", 300),
        ("SET to the same number", 500),
        ("SET of a pair that is not there", 900),
        ("learned", 45_000),
        ("64 kept", 8_000),
        ("64 kept on a bench", 7_000),
        ("oldest forgotten", 6_000),
        ("oldest forgotten on a bench", 5_000),
        ("renewed", 16_000),
        ("oldest of 64 renewed", 200),
        ("renewed with another address", 1_500),
        ("dropped by INVALID", 6_500),
        ("dropped by INVALID, some kept", 900),
        ("many dropped by INVALID", 200),
        ("many dropped by INVALID on a bench", 80),
        ("emptied by NOTOK", 150),
        ("emptied by a new pass", 1_600),
        ("64 emptied by a new pass", 60),
        ("read on a bench", 40_000),
        ("NCE in OK, something kept", 400),
        ("NCE in OK, no order", 100),
        ("restart from OK, something kept", 180),
        ("SHUTDOWN, something kept", 80),
        ("look-up found", 35_000),
        ("look-up of the own pair", 9_000),
        ("look-up refused 17", 9_000),
        ("look-up refused 18", 14_000),
        ("claim checked, something kept", 14_000),
        ("claim checked, 64 kept", 1_000),
        ("claim checked, the pass lags", 150),
    ]);
}

/// The benches show a unit that has not read all orders: where it misses INVALID, and where it hears of no new pass.
#[test]
fn the_claim_breaks_where_orders_are_missed() {
    let broken = |missed: &'static [u8]| {
        let mut counter = Counter { missed, ..Counter::new() };
        for seed in 0..8 {
            counter.left = 20_000;
            benches::Play::new(&mut counter, seed).run();
        }
        counter.counts["claim broken"]
    };
    assert!(broken(&[INVALID]) > 500);
    assert!(broken(&[ASK, SET, OK, NOTOK, NEW, WAIT_SHORT, WAIT_LONG]) > 100);
    assert_eq!(broken(&[NEW, WAIT_SHORT, WAIT_LONG]), 0);
}
