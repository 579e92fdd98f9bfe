//! Planted faults: boxes that misreport something are found, and the script that shows it is short.

use lathepetal::{Entry, FlatListing, Rows};
use reference::player::{play_bytes, Bench, Ringbox, Telegrams};
use reference::{refusal, sizes, wire};

use crate::boxes::{Joined, ReferenceRing, ReferenceTelegrams, RingBox, Shown, TelegramBox};
use crate::lists_boxes::{ReferenceLists, NO_ROW};
use crate::script::Found;
use crate::{scenes, streams};

const WAITS_SHORT_FOR_EVER: u8 = 0;
const LOSES_THE_NUMBER_FE: u8 = 1;
pub const FORGETS_A_LOOK_UP: u8 = 2;
const WRITES_BEHIND_THE_ORDERS: u8 = 3;
const CHANGES_BESIDE_A_REFUSAL: u8 = 4;
const LISTS_BEHIND_THE_COUNT: u8 = 5;
const PASSES_THE_LAST_PASS: u8 = 6;
const SAYS_NOTOK_AT_A_RING_CHANGE: u8 = 7;
const FORGETS_A_PAIR_AT_A_RING_CHANGE: u8 = 8;
const TELLS_ROW_BY_ROW_AT_A_RING_CHANGE: u8 = 9;
const REFUSES_A_FULL_ROW: u8 = 10;
const CUTS_THE_LISTING: u8 = 11;
const LEAVES_A_SETTING_ROW_OUT: u8 = 12;
const LEAVES_THE_MARKS_OUT: u8 = 13;
const LEAVES_A_ROW_BEHIND_THE_COUNT: u8 = 14;

/// A listing is cut here, at paper 01's number of entries, which ticket 8 raises.
const CUT: usize = 1_008;

/// Mark, kind and pass of an order.
fn head(kind: u8, pass: u32) -> Vec<u8> {
    [&wire::ORDER_MARK[..], &[kind], &pass.to_be_bytes()].concat()
}

/// INVALID for the pairs of a picture, rows separately.
fn row_by_row(met: &Shown, pass: u32) -> Vec<u8> {
    let mut told = Vec::new();
    for (_, row) in met.rows() {
        let pairs: Vec<[u8; 2]> =
            row.blocks.iter().zip(&row.numbers).take(row.count.into()).map(|(block, number)| [*block, *number]).collect();
        for part in pairs.chunks((usize::from(met.size) - 1) / 2) {
            told.extend(head(wire::INVALID, pass));
            told.push(part.len() as u8);
            told.extend(part.concat());
        }
    }
    told
}

/// The reference with one fault.
#[derive(Clone, PartialEq)]
pub struct Faulty<const FAULT: u8>(ReferenceRing);

impl<const FAULT: u8> RingBox for Faulty<FAULT> {
    fn fresh(l: usize) -> (u8, Self) {
        let (number, ring) = ReferenceRing::fresh(l);
        (number, Faulty(ring))
    }

    fn record(&mut self, bytes: &[u8], out: &mut [u8]) -> (u8, usize) {
        let met = self.0.show();
        if FAULT == REFUSES_A_FULL_ROW && bytes.get(wire::COUNT) == Some(&(sizes::MAX_PAIRS as u8)) {
            return (refusal::RECORD_MALFORMED, 0);
        }
        let (number, length) = self.0.record(bytes, out);
        let pass = self.0.show().pass;
        let in_ok = number == lathepetal::DONE && met.state == lathepetal::OK && bytes[wire::KIND] == wire::NCE;
        match FAULT {
            WAITS_SHORT_FOR_EVER if wire::orders(&out[..length]).last().is_some_and(|order| order[wire::KIND] == wire::WAIT_LONG) => {
                out[length - wire::ORDER_HEAD + wire::KIND] = wire::WAIT_SHORT;
            }
            WRITES_BEHIND_THE_ORDERS if length > 40 && out.len() > length => out[length] ^= 1,
            CHANGES_BESIDE_A_REFUSAL if number == refusal::POSITION_IGNORED => self.0.set_pass(pass + 1),
            PASSES_THE_LAST_PASS if number == refusal::NO_PASS_LEFT => return (0, 0),
            SAYS_NOTOK_AT_A_RING_CHANGE if in_ok => {
                out.copy_within(..length, wire::ORDER_HEAD);
                out[..wire::ORDER_HEAD].copy_from_slice(&head(wire::NOTOK, pass));
                return (0, length + wire::ORDER_HEAD);
            }
            FORGETS_A_PAIR_AT_A_RING_CHANGE if in_ok => {
                let last = wire::orders(&out[..length]).last().map_or(0, <[u8]>::len);
                if last > wire::ORDER_HEAD + 3 {
                    out[length - last + wire::ORDER_HEAD] -= 1;
                    return (0, length - 2);
                }
            }
            TELLS_ROW_BY_ROW_AT_A_RING_CHANGE if in_ok => {
                let told = row_by_row(&met, pass);
                let asked = (wire::ORDER_HEAD + 1) * (usize::from(bytes[wire::X]) - 1);
                out[asked..asked + told.len()].copy_from_slice(&told);
                return (0, asked + told.len());
            }
            _ => {}
        }
        (number, length)
    }

    fn show(&self) -> Shown {
        let mut shown = self.0.show();
        if FAULT == LOSES_THE_NUMBER_FE {
            for row in &mut shown.rows {
                row.numbers.iter_mut().filter(|number| **number == 0xFE).for_each(|number| *number = 0);
            }
        }
        shown
    }

    fn listing(&self) -> FlatListing {
        let mut listing = self.0.listing();
        if FAULT == LISTS_BEHIND_THE_COUNT && listing.count == 3 {
            listing.blocks[4] = 0x22;
        }
        if FAULT == CUTS_THE_LISTING {
            listing.count = listing.count.min(CUT);
        }
        listing
    }

    fn look_up(&self, block: u8, number: u8) -> (u8, u8, u16) {
        match self.0.look_up(block, number) {
            (0, 4, _) if FAULT == FORGETS_A_LOOK_UP => (refusal::NOT_LISTED, 0, 0),
            found => found,
        }
    }

    fn listed_rows(&self) -> Rows {
        let all = self.0.listed_rows();
        let mut rows = Rows { count: 0, rows: [NO_ROW; sizes::MAX_UNITS] };
        for mut row in all.rows.into_iter().take(all.count) {
            match FAULT {
                LEAVES_A_SETTING_ROW_OUT if row.entry.status == lathepetal::SETTING => continue,
                LEAVES_THE_MARKS_OUT => row.entry.bad = 0,
                LEAVES_A_ROW_BEHIND_THE_COUNT if all.count == 2 => rows.rows[2] = row,
                _ => {}
            }
            rows.rows[rows.count] = row;
            rows.count += 1;
        }
        rows
    }

    fn entry(&self, position: u8) -> Entry {
        self.0.entry(position)
    }

    fn set_pass(&mut self, pass: u32) {
        self.0.set_pass(pass);
    }
}

const DROPS_THE_LAST_BYTE: u8 = 0;
const COUNTS_TO_127: u8 = 1;
const KEEPS_A_MESSAGE_OPEN: u8 = 2;

/// The reference with one fault.
#[derive(Clone, PartialEq)]
struct FaultyTelegrams<const FAULT: u8>(ReferenceTelegrams);

impl<const FAULT: u8> TelegramBox for FaultyTelegrams<FAULT> {
    fn fresh() -> Self {
        FaultyTelegrams(ReferenceTelegrams::fresh())
    }

    fn count(l: usize, payload: &[u8]) -> (u8, usize) {
        ReferenceTelegrams::count(l, payload)
    }

    fn cut(l: usize, msg_id: u32, payload: &[u8], number: usize, out: &mut [u8]) -> (u8, usize) {
        let (refusal, length) = ReferenceTelegrams::cut(l, msg_id, payload, number, out);
        if FAULT == COUNTS_TO_127 && length > sizes::TELEGRAM_HEAD && number > 128 {
            out[sizes::TELEGRAM_HEAD] &= 0x7F;
        }
        (refusal, length)
    }

    fn join(&mut self, l: usize, buffer: &mut [u8], telegram: &[u8]) -> Joined {
        let before = self.clone();
        let mut joined = self.0.join(l, buffer, telegram);
        match FAULT {
            DROPS_THE_LAST_BYTE if joined.length > 30 => joined.length -= 1,
            KEEPS_A_MESSAGE_OPEN if joined.number == refusal::OUT_OF_SEQUENCE => *self = before,
            _ => {}
        }
        joined
    }

    fn is_open(&self) -> bool {
        self.0.is_open()
    }

    fn is_plain(&self) -> bool {
        self.0.is_plain()
    }
}

fn ring_fault<const FAULT: u8>() -> Found {
    let run = scenes::run::<Faulty<FAULT>, ReferenceLists, ReferenceLists>;
    run(1, 200_000, &mut scenes::Tally::default(), |_| ()).expect("the fault is found")
}

/// With this seed the first messages that are joined have few telegrams. A message is not shortened, so the script has them all.
const SHORT_MESSAGES: u64 = 4;

fn telegram_fault<const FAULT: u8>() -> Found {
    let found = streams::run::<FaultyTelegrams<FAULT>>(SHORT_MESSAGES, 100_000, &mut streams::Tally::default(), |_| ());
    found.expect("the fault is found")
}

/// The script is one that the player understands, and has so many lines at most that begin with `start`.
pub fn is_short<B: Bench>(mut bench: B, found: &Found, start: &str, most: usize) {
    println!("# {}\n{}", found.difference.what, found.script);
    let text = String::from_utf8(play_bytes(&mut bench, found.script.as_bytes())).expect("a transcript is text");
    assert!(!text.contains("not understood"), "{text}");
    let lines = found.script.lines().filter(|line| line.starts_with(start)).count();
    assert!(lines <= most, "{lines} lines, expected {most}");
}

#[test]
fn a_long_silence() {
    let found = ring_fault::<WAITS_SHORT_FOR_EVER>();
    is_short(Ringbox::new(), &found, ">", 40);
    assert!(found.difference.what.starts_with("byte of the room"));
}

#[test]
fn one_answer() {
    is_short(Ringbox::new(), &ring_fault::<LOSES_THE_NUMBER_FE>(), ">", 2);
}

#[test]
fn a_look_up() {
    let found = ring_fault::<FORGETS_A_LOOK_UP>();
    is_short(Ringbox::new(), &found, ">", 6);
    assert!(found.script.contains("\nlookup "));
}

#[test]
fn lent_room() {
    is_short(Ringbox::new(), &ring_fault::<WRITES_BEHIND_THE_ORDERS>(), ">", 3);
}

#[test]
fn a_refusal() {
    is_short(Ringbox::new(), &ring_fault::<CHANGES_BESIDE_A_REFUSAL>(), ">", 5);
}

#[test]
fn a_listing() {
    is_short(Ringbox::new(), &ring_fault::<LISTS_BEHIND_THE_COUNT>(), ">", 3);
}

#[test]
fn listed_rows() {
    let found = ring_fault::<LEAVES_A_SETTING_ROW_OUT>();
    is_short(Ringbox::new(), &found, ">", 3);
    assert!(found.script.ends_with("first none\nsecond\ncompare 20000\n"));
    is_short(Ringbox::new(), &ring_fault::<LEAVES_THE_MARKS_OUT>(), ">", 4);
    is_short(Ringbox::new(), &ring_fault::<LEAVES_A_ROW_BEHIND_THE_COUNT>(), ">", 3);
}

#[test]
fn many_pairs() {
    is_short(Ringbox::new(), &ring_fault::<REFUSES_A_FULL_ROW>(), ">", 2);
    let found = ring_fault::<CUTS_THE_LISTING>();
    is_short(Ringbox::new(), &found, ">", 1 + CUT / sizes::MAX_PAIRS + 1);
    assert!(found.difference.what.starts_with("count of the listing"));
}

#[test]
fn the_last_pass() {
    let found = ring_fault::<PASSES_THE_LAST_PASS>();
    is_short(Ringbox::new(), &found, ">", 2);
    assert!(found.script.contains("no script can show"));
}

#[test]
fn a_ring_change() {
    is_short(Ringbox::new(), &ring_fault::<SAYS_NOTOK_AT_A_RING_CHANGE>(), ">", 2);
    is_short(Ringbox::new(), &ring_fault::<FORGETS_A_PAIR_AT_A_RING_CHANGE>(), ">", 4);
    is_short(Ringbox::new(), &ring_fault::<TELLS_ROW_BY_ROW_AT_A_RING_CHANGE>(), ">", 4);
}

#[test]
fn a_message() {
    is_short(Telegrams::new(), &telegram_fault::<DROPS_THE_LAST_BYTE>(), "join", 3);
}

#[test]
fn a_counter() {
    let found = telegram_fault::<COUNTS_TO_127>();
    is_short(Telegrams::new(), &found, "cut", 1);
    is_short(Telegrams::new(), &found, "fill", 1);
}

#[test]
fn a_broken_message() {
    is_short(Telegrams::new(), &telegram_fault::<KEEPS_A_MESSAGE_OPEN>(), "join", 2);
}
