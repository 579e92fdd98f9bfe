//! Planted faults of the comparison: they are found, and the script that shows it is short.

use std::cell::Cell;

use reference::compare::{compare, Change, Difference, ListRow};
use reference::player::Ringbox;
use reference::refusal::{NO_ROOM_FOR_DIFFERENCES, ROWS_NOT_RISING, ROW_MALFORMED};
use reference::registry::Pair;
use reference::sizes::{DIFFERENCE, MAX_UNITS};

use crate::boxes::ReferenceRing;
use crate::comparisons::{self, Tally};
use crate::faults::is_short;
use crate::lists_boxes::{seen, write, Given, ListsBox, ReferenceLists};
use crate::scenes;
use crate::script::Found;

#[derive(Clone, Copy, PartialEq)]
enum Fault {
    None,
    TellsThePairsOfAGonePosition,
    TellsTheFirstAddress,
    ComparesPairsAsLists,
    RefusesAFullRoom,
    TellsNoChangedAddress,
    CutsANewAddress,
    LooksAtTheOrderFirst,
    WritesBesideARefusal,
    WritesBehindTheLines,
    PassesTheLastPositionOver,
    LooksAtTheStatus,
    LooksBehindThePairs,
    CutsTheRoom,
    CountsRowsInAByte,
    RefusesFivePairs,
}

thread_local! {
    /// The fault of the comparisons. It is no parameter of their type, as each of these would be a whole run to compile.
    static PLANTED: Cell<Fault> = const { Cell::new(Fault::None) };
}

/// The reference with one fault.
struct FaultyLists;

impl ListsBox for FaultyLists {
    fn compare(first: &[Given], second: &[Given], out: &mut [u8]) -> (u8, usize) {
        let fault = PLANTED.get();
        let [first, second] = [first, second].map(|list| misread(fault, list));
        let room = if fault == Fault::CutsTheRoom { out.len() % 65_536 } else { out.len() };
        let differences = compare(&first, &second, usize::MAX)
            .map(|differences| spoil(fault, &first, &second, differences))
            .and_then(|differences| fit(differences, room))
            .and_then(|differences| refuse(fault, &first, &second, out.len(), differences))
            .map_err(|number| renumber(fault, &first, &second, number));
        let (number, length) = write(differences, out);
        match fault {
            Fault::WritesBesideARefusal if number == NO_ROOM_FOR_DIFFERENCES => out.iter_mut().take(1).for_each(|byte| *byte ^= 1),
            Fault::WritesBehindTheLines if number == 0 => out.iter_mut().skip(length).take(1).for_each(|byte| *byte ^= 1),
            _ => {}
        }
        (number, length)
    }
}

/// A list as the fault reads it.
fn misread(fault: Fault, list: &[Given]) -> Vec<ListRow> {
    match fault {
        Fault::LooksAtTheStatus => {
            let is_listed = |given: &&Given| matches!(given.row.entry.status, lathepetal::LISTED | lathepetal::SETTING | 0);
            list.iter().filter(is_listed).map(Given::seen).collect()
        }
        Fault::LooksBehindThePairs => list.iter().map(with_next_pair).collect(),
        Fault::CountsRowsInAByte => seen(&list[..list.len() % 256]),
        _ => seen(list),
    }
}

/// The row with the pair that stands behind its own, where it is another one than 00.00.
fn with_next_pair(given: &Given) -> ListRow {
    let (mut row, entry) = (given.seen(), given.row.entry);
    let place = row.pairs.len();
    let next = entry.blocks.get(place).zip(entry.numbers.get(place)).map(|(&block, &number)| Pair { block, number });
    row.pairs.extend(next.filter(|&pair| pair != Pair { block: 0, number: 0 }));
    row
}

fn at(list: &[ListRow], position: u8) -> Option<&ListRow> {
    list.iter().find(|row| row.position == position)
}

/// What the fault makes of the differences.
fn spoil(fault: Fault, first: &[ListRow], second: &[ListRow], differences: Vec<Difference>) -> Vec<Difference> {
    let one = |difference: Difference| {
        let Difference { position, change } = difference;
        let before = at(first, position);
        match (fault, change) {
            (Fault::TellsThePairsOfAGonePosition, Change::PositionGone) => {
                let gone = before.into_iter().flat_map(|row| &row.pairs).map(|&pair| Change::PairGone(pair));
                [change].into_iter().chain(gone).collect()
            }
            (Fault::TellsTheFirstAddress, Change::AddressChanged { .. }) => {
                before.map(|row| Change::AddressChanged { address: row.address }).into_iter().collect()
            }
            (Fault::TellsNoChangedAddress, Change::AddressChanged { .. }) => Vec::new(),
            (Fault::CutsANewAddress, Change::PositionNew { address }) => vec![Change::PositionNew { address: address & 0xFF }],
            (Fault::PassesTheLastPositionOver, _) if usize::from(position) == MAX_UNITS => Vec::new(),
            (Fault::ComparesPairsAsLists, Change::PairGone(_) | Change::PairNew(_)) if before.is_some() => Vec::new(),
            _ => vec![change],
        }
        .into_iter()
        .map(|change| Difference { position, change })
        .collect::<Vec<_>>()
    };
    let mut differences: Vec<Difference> = differences.into_iter().flat_map(one).collect();
    if fault == Fault::ComparesPairsAsLists {
        differences.extend(first.iter().filter_map(|row| Some(by_places(row, at(second, row.position)?))).flatten());
        differences.sort_by_key(|difference| (difference.position, difference.kind()));
    }
    differences
}

/// The pairs at places where the other row has another one, or none.
fn by_places(before: &ListRow, after: &ListRow) -> Vec<Difference> {
    let other = |row: &ListRow, other: &ListRow| -> Vec<Pair> {
        let places = row.pairs.iter().enumerate();
        places.filter(|&(place, pair)| other.pairs.get(place) != Some(pair)).map(|(_, &pair)| pair).collect()
    };
    let gone = other(before, after).into_iter().map(Change::PairGone);
    let new = other(after, before).into_iter().map(Change::PairNew);
    gone.chain(new).map(|change| Difference { position: before.position, change }).collect()
}

fn fit(differences: Vec<Difference>, room: usize) -> Result<Vec<Difference>, u8> {
    match differences.len() * DIFFERENCE > room {
        true => Err(NO_ROOM_FOR_DIFFERENCES),
        false => Ok(differences),
    }
}

/// What the fault refuses.
fn refuse(fault: Fault, first: &[ListRow], second: &[ListRow], room: usize, differences: Vec<Difference>) -> Result<Vec<Difference>, u8> {
    match fault {
        Fault::RefusesAFullRoom if room > 0 && differences.len() * DIFFERENCE == room => Err(NO_ROOM_FOR_DIFFERENCES),
        Fault::RefusesFivePairs if first.iter().chain(second).any(|row| row.pairs.len() == 5) => Err(ROW_MALFORMED),
        _ => Ok(differences),
    }
}

/// The number that the fault gives with a refusal.
fn renumber(fault: Fault, first: &[ListRow], second: &[ListRow], number: u8) -> u8 {
    let falls = |list: &[ListRow]| list.windows(2).any(|rows| rows[0].position >= rows[1].position);
    match fault {
        Fault::LooksAtTheOrderFirst if falls(first) || falls(second) => ROWS_NOT_RISING,
        _ => number,
    }
}

/// The fault is found, and the script has so many rows at most.
fn finds(fault: Fault, rows: usize) -> Found {
    PLANTED.set(fault);
    let found = comparisons::run::<FaultyLists, ReferenceLists>(1, 50_000, &mut Tally::default(), |_| ()).expect("the fault is found");
    has_rows(&found, rows);
    found
}

fn has_rows(found: &Found, rows: usize) {
    assert_eq!(found.program, "ringbox");
    is_short(Ringbox::new(), found, "compare ", 1);
    let lines = found.script.lines().filter(|line| line.contains("first ") || line.contains("second ")).count();
    assert!(lines <= rows, "{lines} rows, expected {rows}");
}

/// Nothing is found, and everything is come across.
#[test]
fn no_fault() {
    PLANTED.set(Fault::None);
    let mut tally = Tally::default();
    assert!(comparisons::run::<FaultyLists, ReferenceLists>(1, 20_000, &mut tally, |_| ()).is_none());
    let Tally { comparisons, numbers, kinds, same, single, greatest, long } = tally;
    assert_eq!(comparisons, 20_000);
    let refused = [ROW_MALFORMED, ROWS_NOT_RISING, NO_ROOM_FOR_DIFFERENCES].map(|number| numbers[number as usize]);
    assert!(refused.iter().chain([&numbers[0], &same, &single]).all(|&count| count > 500), "{refused:?} {same} {single}");
    assert!(kinds[1..].iter().all(|&count| count > 1_000) && greatest > 50 && long > 100, "{kinds:?} {greatest} {long}");
}

#[test]
fn a_gone_position() {
    finds(Fault::TellsThePairsOfAGonePosition, 1);
}

#[test]
fn an_address() {
    finds(Fault::TellsTheFirstAddress, 2);
    finds(Fault::TellsNoChangedAddress, 2);
    finds(Fault::CutsANewAddress, 1);
}

#[test]
fn pairs_as_sets() {
    finds(Fault::ComparesPairsAsLists, 2);
}

#[test]
fn the_last_position() {
    let found = finds(Fault::PassesTheLastPositionOver, 1);
    assert!(found.script.contains(" 63 "));
}

#[test]
fn the_order_of_refusals() {
    finds(Fault::LooksAtTheOrderFirst, 3);
}

#[test]
fn lent_room() {
    let found = finds(Fault::RefusesAFullRoom, 1);
    assert!(found.script.ends_with("compare 6\n"));
    let found = finds(Fault::WritesBesideARefusal, 2);
    assert!(found.difference.what.starts_with("byte of the room 0"));
    finds(Fault::WritesBehindTheLines, 1);
    let found = finds(Fault::CutsTheRoom, 1);
    assert!(found.script.contains("no script can say"));
}

#[test]
fn marks() {
    let found = finds(Fault::LooksAtTheStatus, 1);
    assert!(found.script.contains("no script can say"));
    let found = finds(Fault::LooksBehindThePairs, 2);
    assert!(found.script.contains("no script can say"));
}

#[test]
fn many_rows() {
    let found = finds(Fault::CountsRowsInAByte, 256);
    assert!(found.script.contains("a row more than a script can say"));
}

#[test]
fn two_pictures() {
    PLANTED.set(Fault::TellsNoChangedAddress);
    let run = scenes::run::<ReferenceRing, FaultyLists, ReferenceLists>;
    let found = run(1, 50_000, &mut scenes::Tally::default(), |_| ()).expect("the fault is found");
    has_rows(&found, 2);
}

/// Both boxes have the fault: they agree.
#[test]
fn pictures_are_not_refused() {
    PLANTED.set(Fault::RefusesFivePairs);
    let run = scenes::run::<ReferenceRing, FaultyLists, FaultyLists>;
    let found = run(1, 50_000, &mut scenes::Tally::default(), |_| ()).expect("the refusal is found");
    println!("# {}\n{}", found.difference.what, found.script);
    assert!(found.difference.what.starts_with("both: listed rows of two pictures refused"));
}

/// Both boxes have the fault: they agree, and the claim is broken.
fn breaks_the_claim(fault: Fault, rows: usize, how: &str) {
    PLANTED.set(fault);
    let found = comparisons::run::<FaultyLists, FaultyLists>(1, 50_000, &mut Tally::default(), |_| ()).expect("the claim is broken");
    has_rows(&found, rows);
    assert!(found.difference.what.starts_with(&format!("claim: {how}")), "{}", found.difference.what);
}

#[test]
fn the_claim() {
    breaks_the_claim(Fault::TellsThePairsOfAGonePosition, 1, "line");
    breaks_the_claim(Fault::TellsTheFirstAddress, 2, "line");
    breaks_the_claim(Fault::TellsNoChangedAddress, 2, "no line");
    breaks_the_claim(Fault::ComparesPairsAsLists, 2, "no line");
    breaks_the_claim(Fault::PassesTheLastPositionOver, 1, "no line");
    breaks_the_claim(Fault::CutsANewAddress, 1, "the first list with the lines");
    breaks_the_claim(Fault::RefusesAFullRoom, 2 * MAX_UNITS, "refusal 21");
}
