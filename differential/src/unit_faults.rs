//! Planted faults of units: they are found, and the script that shows it is short.

use std::cell::Cell;

use lathepetal::LookUpOutcome;
use reference::order::{Content, Order};
use reference::player::{Ringbox, UnitBench};
use reference::refusal::{ORDER_MALFORMED, TOO_MANY_PAIRS};
use reference::registry::Pair;
use reference::sizes::MAX_KNOWN;
use reference::unit::{Known, Unit};
use reference::wire::{self, ADDRESS, ASK, INVALID, NEW, NOTOK, OK, SET, WAIT_LONG, WAIT_SHORT};

use crate::benches::{self, Tally};
use crate::boxes::{ReferenceRing, RingBox};
use crate::faults::{is_short, Faulty, FORGETS_A_LOOK_UP};
use crate::script::Found;
use crate::units_boxes::{ReferenceUnit, ShownUnit, UnitBox};

#[derive(Clone, Copy, PartialEq)]
enum Fault {
    None,
    PassesInvalidOver,
    LooksAtNoPass,
    KeepsARefusedLookUp,
    ObeysForAnotherAddress,
    RenumbersTheSecond,
    ForgetsTheNewest,
    RenewsInPlace,
    WritesBehindTheAnswer,
    ChangesBesideARefusal,
    TakesHalfAPair,
    CutsTheRoom,
}

thread_local! {
    /// The fault of the units that are made. It is no parameter of their type, as each of these would be a whole run to compile.
    static PLANTED: Cell<Fault> = const { Cell::new(Fault::None) };
}

/// The reference with one fault, and with a byte that it does not show.
#[derive(Clone, PartialEq)]
struct FaultyUnit {
    fault: Fault,
    unit: ReferenceUnit,
    hidden: u8,
}

impl FaultyUnit {
    fn known(&self) -> Vec<Known> {
        self.unit.0.known().to_vec()
    }

    /// The unit as it is, but with this list and these answers.
    fn put(&mut self, pairs: &[Pair], known: &[Known]) {
        let (position, address, pass) = (self.unit.0.position(), self.unit.0.address(), self.unit.0.pass());
        let (_, mut unit) = Unit::new(position, address, pairs);
        unit.read(&wire::order(OK, pass, &[]), &mut [0; 64]).expect("an order is read");
        known.iter().for_each(|known| unit.learn(known.pair, known.address));
        self.unit = ReferenceUnit(unit);
    }

    fn put_known(&mut self, known: &[Known]) {
        let pairs = self.unit.0.pairs().to_vec();
        self.put(&pairs, known);
    }

    /// The order as the fault reads it.
    fn misread(&self, order: &[u8]) -> Vec<u8> {
        match Order::read(order) {
            Some(Order { pass, content: Content::Invalid(_) }) if self.fault == Fault::PassesInvalidOver => wire::order(OK, pass, &[]),
            Some(Order { content: Content::Set { .. }, .. }) if self.fault == Fault::ObeysForAnotherAddress => {
                [&order[..ADDRESS.start], &self.unit.0.address().to_be_bytes(), &order[ADDRESS.end..]].concat()
            }
            _ => order.to_vec(),
        }
    }

    /// What the fault does to an order that was read.
    fn spoil(&mut self, before: &Unit, order: &[u8], length: usize, out: &mut [u8]) {
        let Some(Order { pass, content }) = Order::read(order) else { return };
        match (self.fault, content) {
            (Fault::LooksAtNoPass, Content::NotOk | Content::Invalid(_)) => {}
            (Fault::LooksAtNoPass, _) => self.put_known(before.known()),
            (Fault::RenumbersTheSecond, Content::Set { old, new, .. }) if before.pairs() != self.unit.0.pairs() => {
                let mut pairs = before.pairs().to_vec();
                let last = pairs.iter().rposition(|&pair| pair == old).expect("the pair was there");
                pairs[last].number = new;
                let known = self.known();
                self.put(&pairs, &known);
                out[..length].copy_from_slice(&wire::answer(pass, before.position(), before.address(), &pairs));
            }
            (Fault::WritesBehindTheAnswer, _) if length > 0 => out[length] ^= 1,
            _ => {}
        }
    }
}

impl UnitBox for FaultyUnit {
    /// Half a pair is refused here, as the reference has no such call.
    fn make(position: u8, address: u16, pairs: &[u8]) -> (u8, FaultyUnit) {
        let fault = PLANTED.get();
        let is_refused = pairs.len() % 2 == 1 && fault != Fault::TakesHalfAPair;
        let (number, unit) = ReferenceUnit::make(position, address, if is_refused { &[] } else { pairs });
        (if is_refused { TOO_MANY_PAIRS } else { number }, FaultyUnit { fault, unit, hidden: 0 })
    }

    fn read(&mut self, order: &[u8], out: &mut [u8]) -> (u8, usize) {
        let before = self.unit.0.clone();
        let room = if self.fault == Fault::CutsTheRoom { out.len() % 65_536 } else { out.len() };
        let (number, length) = self.unit.read(&self.misread(order), &mut out[..room]);
        match number {
            0 => self.spoil(&before, order, length, out),
            ORDER_MALFORMED if self.fault == Fault::ChangesBesideARefusal => self.hidden += 1,
            _ => {}
        }
        (number, length)
    }

    fn learn(&mut self, pair: Pair, answer: LookUpOutcome) {
        let mut known = self.known();
        let place = self.unit.0.place_of(pair);
        match (self.fault, place) {
            (Fault::KeepsARefusedLookUp, _) => self.unit.0.learn(pair, answer.address),
            (Fault::RenewsInPlace, Some(place)) if answer.number == 0 => {
                known[place].address = answer.address;
                self.put_known(&known);
            }
            (Fault::ForgetsTheNewest, None) if answer.number == 0 && known.len() == MAX_KNOWN => {
                known[MAX_KNOWN - 1] = Known { pair, address: answer.address };
                self.put_known(&known);
            }
            _ => self.unit.learn(pair, answer),
        }
    }

    fn show(&self) -> ShownUnit {
        self.unit.show()
    }
}

fn run<R: RingBox>(fault: Fault, missed: &'static [u8], tally: &mut Tally) -> Option<Found> {
    PLANTED.set(fault);
    benches::run::<R, FaultyUnit>(1, 50_000, missed, tally, |_| ())
}

fn unit_fault(fault: Fault) -> Found {
    run::<ReferenceRing>(fault, &[], &mut Tally::default()).expect("the fault is found")
}

/// The script has so many orders and so many look-ups at most.
fn is_short_for_a_unit(found: &Found, orders: usize, look_ups: usize) {
    assert_eq!(found.program, "unit");
    is_short(UnitBench::new(), found, "<", orders);
    is_short(UnitBench::new(), found, "found", look_ups);
}

/// Nothing is found, and everything is come across.
#[test]
fn no_fault() {
    let mut tally = Tally::default();
    assert!(run::<ReferenceRing>(Fault::None, &[], &mut tally).is_none());
    let Tally { orders, numbers, kinds, units, look_ups, losses, sets, claims } = &tally;
    assert_eq!(*orders, 50_000);
    assert!(kinds[usize::from(ASK)..].iter().chain(numbers).chain([&units[0], &units[2]]).all(|&count| count > 100));
    assert!([look_ups.renewed, look_ups.full, look_ups.refused, losses.dropped].iter().all(|&count| count > 1_000));
    assert!([losses.by_notok, losses.by_pass, sets.obeyed, sets.not_obeyed, sets.others].iter().all(|&count| count > 20));
    assert!(claims.keeping > 2_000 && claims.answers > 20_000);
}

#[test]
fn invalid_pairs() {
    is_short_for_a_unit(&unit_fault(Fault::PassesInvalidOver), 1, 1);
}

#[test]
fn a_new_pass() {
    is_short_for_a_unit(&unit_fault(Fault::LooksAtNoPass), 1, 1);
}

#[test]
fn a_refused_look_up() {
    let found = unit_fault(Fault::KeepsARefusedLookUp);
    is_short_for_a_unit(&found, 0, 0);
    assert!(found.script.contains("no script can say"));
}

#[test]
fn another_address() {
    is_short_for_a_unit(&unit_fault(Fault::ObeysForAnotherAddress), 1, 0);
}

#[test]
fn equal_pairs() {
    let found = unit_fault(Fault::RenumbersTheSecond);
    is_short_for_a_unit(&found, 1, 0);
    is_short(UnitBench::new(), &found, "unit", 1);
}

#[test]
fn the_oldest_answer() {
    is_short_for_a_unit(&unit_fault(Fault::ForgetsTheNewest), 0, MAX_KNOWN + 1);
}

#[test]
fn a_renewed_answer() {
    is_short_for_a_unit(&unit_fault(Fault::RenewsInPlace), 0, 3);
}

#[test]
fn lent_room() {
    is_short_for_a_unit(&unit_fault(Fault::WritesBehindTheAnswer), 1, 0);
    is_short_for_a_unit(&unit_fault(Fault::CutsTheRoom), 1, 0);
}

#[test]
fn a_refusal() {
    let found = unit_fault(Fault::ChangesBesideARefusal);
    is_short_for_a_unit(&found, 1, 0);
    assert!(found.difference.what.starts_with("proved: unit unchanged"));
}

#[test]
fn half_a_pair() {
    is_short_for_a_unit(&unit_fault(Fault::TakesHalfAPair), 0, 0);
}

#[test]
fn the_master() {
    let found = run::<Faulty<FORGETS_A_LOOK_UP>>(Fault::None, &[], &mut Tally::default()).expect("the fault is found");
    assert_eq!(found.program, "ringbox");
    is_short(Ringbox::new(), &found, ">", 6);
    assert!(found.script.contains("\nlookup "));
}

/// A unit that misses orders in both boxes: they agree, and the claim is broken.
fn broken_claim(missed: &'static [u8], orders: usize, records: usize) {
    let found = run::<ReferenceRing>(Fault::None, missed, &mut Tally::default()).expect("the claim is broken");
    is_short_for_a_unit(&found, orders, 1);
    is_short(UnitBench::new(), &found, "# >", records);
    assert!(found.difference.what.starts_with("claim"));
}

#[test]
fn the_claim() {
    broken_claim(&[INVALID], 2, 3);
    broken_claim(&[ASK, SET, OK, NOTOK, NEW, WAIT_SHORT, WAIT_LONG], 2, 4);
}
