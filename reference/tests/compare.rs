//! Holds the comparison of two lists to ticket 6 of paper 02, with the 24 pairs of ticket 8, and to its readings; and the generator to
//! its scenes of lists, by counts over some seeds.

use std::collections::{BTreeMap, BTreeSet};

use reference::compare::{compare, Difference, ListRow};
use reference::generate::{self, lists, rings};
use reference::player::{play_bytes, Ringbox};
use reference::registry::{Entry, Pair, Ring, Status};
use reference::sizes::{BENCH_ROOM, MAX_DIFFERENCES, MAX_PAIRS, MAX_UNITS, MIN_ROOM};
use reference::wire::{answer, event, DELAY, NONE, SHUTDOWN, START};

const ROOM: usize = 20_000;

fn pair(block: u8, number: u8) -> Pair {
    Pair { block, number }
}

fn row(position: u8, address: u16, pairs: &[[u8; 2]]) -> ListRow {
    ListRow { position, address, pairs: pairs.iter().map(|&[block, number]| pair(block, number)).collect() }
}

/// So many pairs of one block, with numbers from `first` on.
fn run(block: u8, first: u8, count: usize) -> Vec<[u8; 2]> {
    (0..count).map(|index| [block, first.wrapping_add(index as u8)]).collect()
}

/// The lines of the differences, or a number.
fn lines(first: &[ListRow], second: &[ListRow], room: usize) -> Result<Vec<[u8; 6]>, u8> {
    compare(first, second, room).map(|differences| differences.iter().map(Difference::bytes).collect())
}

/// Either list is refused with this number, alone and beside the other.
fn assert_refused(list: &[ListRow], number: u8) {
    let good = [row(1, 0x0101, &[[0x22, 1]]), row(63, 0x013F, &[])];
    for room in [0, 1, 6, ROOM, usize::MAX] {
        for other in [&[][..], &good, list] {
            assert_eq!(lines(list, other, room), Err(number), "{list:?}");
            assert_eq!(lines(other, list, room), Err(number), "{list:?}");
        }
    }
}

/// "positions gone, positions new, address changed, pairs gone, pairs new": the lines byte by byte, unused bytes 0.
#[test]
fn a_line_of_each_kind() {
    let one = |first: &[ListRow], second: &[ListRow]| lines(first, second, 6);
    let bare = |address: u16| row(3, address, &[]);
    assert_eq!(one(&[bare(0x0103)], &[]), Ok(vec![[1, 3, 0, 0, 0, 0]]));
    assert_eq!(one(&[], &[bare(0x0103)]), Ok(vec![[2, 3, 1, 3, 0, 0]]));
    assert_eq!(one(&[bare(0x0103)], &[bare(0xFEDC)]), Ok(vec![[3, 3, 0xFE, 0xDC, 0, 0]]));
    assert_eq!(one(&[row(3, 0x0103, &[[0x22, 7]])], &[bare(0x0103)]), Ok(vec![[4, 3, 0, 0, 0x22, 7]]));
    assert_eq!(one(&[bare(0x0103)], &[row(3, 0x0103, &[[0x22, 7]])]), Ok(vec![[5, 3, 0, 0, 0x22, 7]]));
}

/// "by position, then in this order, then as announced": kind 4 as in the first list, kind 5 as in the second.
#[test]
fn the_order_of_lines() {
    let first = [
        row(1, 0x0101, &[[0x22, 1]]),
        row(3, 0x0103, &[[0x60, 3], [0x22, 1], [0x50, 2], [0x31, 1], [0x10, 9]]),
        row(62, 0x013E, &[[0x22, 1]]),
    ];
    let second = [
        row(2, 0x0102, &[[0x31, 7], [0x22, 5], [0x31, 2]]),
        row(3, 0x0105, &[[0x70, 1], [0x31, 1], [0x05, 2], [0x22, 1], [0x61, 9]]),
        row(63, 0x013F, &[]),
    ];
    let wanted = vec![
        [1, 1, 0, 0, 0, 0],
        [2, 2, 1, 2, 0, 0],
        [5, 2, 0, 0, 0x31, 7],
        [5, 2, 0, 0, 0x22, 5],
        [5, 2, 0, 0, 0x31, 2],
        [3, 3, 1, 5, 0, 0],
        [4, 3, 0, 0, 0x60, 3],
        [4, 3, 0, 0, 0x50, 2],
        [4, 3, 0, 0, 0x10, 9],
        [5, 3, 0, 0, 0x70, 1],
        [5, 3, 0, 0, 0x05, 2],
        [5, 3, 0, 0, 0x61, 9],
        [1, 62, 0, 0, 0, 0],
        [2, 63, 1, 0x3F, 0, 0],
    ];
    assert_eq!(lines(&first, &second, ROOM), Ok(wanted));
}

/// "A gone position's pairs get no lines, a new one's do."
#[test]
fn pairs_of_a_gone_position_and_of_a_new_one() {
    let full = [row(9, 0x0109, &run(0x40, 1, 24))];
    assert_eq!(lines(&full, &[], 6), Ok(vec![[1, 9, 0, 0, 0, 0]]));
    let new = lines(&[], &full, 150).expect("room for 25 lines");
    assert_eq!(new.len(), 25);
    assert_eq!(new[0], [2, 9, 1, 9, 0, 0]);
    assert!(new[1..].iter().zip(1..).all(|(&line, number)| line == [5, 9, 0, 0, 0x40, number]));
}

#[test]
fn a_changed_address_alone_is_one_line() {
    let (before, after) = ([row(9, 0x0109, &run(0x40, 1, 24))], [row(9, 0x0901, &run(0x40, 1, 24))]);
    assert_eq!(lines(&before, &after, 6), Ok(vec![[3, 9, 9, 1, 0, 0]]));
}

/// A unit that sits elsewhere is gone at the one position and new at the other, with its pairs.
#[test]
fn a_unit_at_another_position() {
    let (before, after) = ([row(2, 0x0102, &[[0x31, 1]])], [row(3, 0x0102, &[[0x31, 1]])]);
    let wanted = vec![[1, 2, 0, 0, 0, 0], [2, 3, 1, 2, 0, 0], [5, 3, 0, 0, 0x31, 1]];
    assert_eq!(lines(&before, &after, ROOM), Ok(wanted));
}

/// "No line comes out exactly if both hold the same positions, with the same addresses and the same sets of pairs."
#[test]
fn no_line_where_all_is_the_same() {
    let first = [row(1, 0x0101, &[[0x22, 1], [0x31, 1], [0x40, 1]]), row(9, 0x0109, &run(0x40, 1, 24))];
    let mut second = first.clone();
    assert_eq!(lines(&first, &second, 0), Ok(vec![]));
    second[0].pairs.rotate_left(1);
    second[1].pairs.reverse();
    assert_eq!(lines(&first, &second, 0), Ok(vec![]));
    assert_eq!(lines(&[], &[], 0), Ok(vec![]));
}

/// Reading 120: address, block, number and pairs that rows share are not tested.
#[test]
fn whatever_a_row_holds() {
    let first = [row(1, 0, &[[0, 0], [0, 255], [255, 0], [255, 255], [1, 1]]), row(2, 0, &[[0, 0]])];
    let second = [row(1, 0, &[[1, 1], [255, 255], [0, 255], [255, 0], [0, 0]]), row(2, 0xFFFF, &[])];
    assert_eq!(lines(&first, &second, 12), Ok(vec![[3, 2, 0xFF, 0xFF, 0, 0], [4, 2, 0, 0, 0, 0]]));
    assert_eq!(lines(&second, &first, 12), Ok(vec![[3, 2, 0, 0, 0, 0], [5, 2, 0, 0, 0, 0]]));
}

#[test]
fn positions_outside_1_to_63_are_refused_2() {
    for position in 0..=255 {
        let list = [row(position, 0x0101, &[])];
        match position {
            1..=63 => assert_eq!(lines(&list, &[], 6), Ok(vec![[1, position, 0, 0, 0, 0]])),
            _ => assert_refused(&list, 2),
        }
    }
    assert_refused(&[row(0, 0x0101, &[]), row(1, 0x0101, &[])], 2);
    assert_refused(&[row(63, 0x0101, &[]), row(64, 0x0101, &[])], 2);
}

#[test]
fn more_than_24_pairs_are_refused_2() {
    for count in 0..=255 {
        let list = [row(5, 0x0105, &run(0x40, 0, count))];
        match count {
            0..=24 => assert_eq!(lines(&list, &list, 0), Ok(vec![])),
            _ => assert_refused(&list, 2),
        }
    }
}

#[test]
fn a_pair_twice_is_refused_2() {
    for count in 2..=24 {
        for to in 1..count {
            for from in 0..to {
                let mut list = [row(5, 0x0105, &run(0x40, 0, count)), row(6, 0x0106, &run(0x40, 0, count))];
                assert_eq!(lines(&list, &list, 0), Ok(vec![]));
                list[(from + to) % 2].pairs[to] = pair(0x40, from as u8);
                assert_refused(&list, 2);
            }
        }
    }
}

/// "rows not in rising position order"; equal positions do not rise.
#[test]
fn rows_that_do_not_rise_are_refused_20() {
    let bare =
        |positions: &[u8]| -> Vec<ListRow> { positions.iter().map(|&position| row(position, 0x0100, &[])).collect() };
    for upper in 1..=63 {
        for lower in 1..=upper {
            assert_refused(&bare(&[upper, lower]), 20);
        }
    }
    for positions in [&[1, 2, 2, 3][..], &[1, 2, 3, 2], &[2, 1, 3, 4], &[1, 62, 63, 63], &[1, 2, 3, 1], &[1, 1]] {
        assert_refused(&bare(positions), 20);
    }
    assert!(lines(&bare(&[1, 2, 62, 63]), &bare(&[1, 63]), 12).is_ok());
    let mut all: Vec<u8> = (1..=63).collect();
    assert_eq!(lines(&bare(&all), &bare(&all), 0), Ok(vec![]));
    all.push(63);
    assert_refused(&bare(&all), 20);
}

/// "in this order": all rows of both lists are looked at for 2 first, then both lists for 20, then the room.
#[test]
fn the_order_of_refusals() {
    let good = [row(1, 0x0101, &[])];
    let falling = [row(2, 0x0102, &[]), row(1, 0x0101, &[])];
    let bad = [row(1, 0x0101, &[[0x22, 1], [0x22, 1]])];
    let bad_behind = [row(2, 0x0102, &[]), row(1, 0x0101, &[]), row(64, 0x0140, &[])];
    for room in [0, ROOM] {
        assert_eq!(lines(&bad_behind, &good, room), Err(2));
        assert_eq!(lines(&good, &bad_behind, room), Err(2));
        assert_eq!(lines(&falling, &bad, room), Err(2));
        assert_eq!(lines(&bad, &falling, room), Err(2));
        assert_eq!(lines(&falling, &good, room), Err(20));
        assert_eq!(lines(&good, &falling, room), Err(20));
    }
    assert_eq!(lines(&good, &[], 0), Err(21));
}

/// "given exactly if they don't fit": 6 bytes a line.
#[test]
fn room_for_all_differences() {
    let second: Vec<ListRow> = (1..=5).map(|position| row(position, 0x0100, &[[0x22, position]])).collect();
    for count in 0..=5 {
        let needed = 12 * count;
        for room in 0..80 {
            let given = lines(&[], &second[..count], room);
            match room < needed {
                true => assert_eq!(given, Err(21)),
                false => assert_eq!(given.map(|lines| lines.len()), Ok(2 * count)),
            }
        }
    }
}

#[test]
fn the_most_differences() {
    let list = |address: u16, number: u8| -> Vec<ListRow> {
        (1..=63).map(|position| row(position, address + u16::from(position), &run(0x30, number, 24))).collect()
    };
    let (first, second) = (list(0x0100, 1), list(0x0200, 25));
    assert_eq!(lines(&first, &second, 18_521), Err(21));
    let all = lines(&first, &second, 18_522).expect("room for all");
    assert_eq!((all.len(), MAX_DIFFERENCES), (3_087, 3_087));
    assert_eq!((all[0], all[1], all[25]), ([3, 1, 2, 1, 0, 0], [4, 1, 0, 0, 0x30, 1], [5, 1, 0, 0, 0x30, 25]));
    assert_eq!(all[3_086], [5, 63, 0, 0, 0x30, 48]);
}

fn offer(ring: &mut Ring, record: &[u8]) {
    ring.record(record, &mut [0; MIN_ROOM]).expect("the record is taken");
}

/// A ring of seven units with a row of each status.
fn ring_of_all_statuses() -> Ring {
    let mut ring = Ring::fresh(12).expect("a good L");
    offer(&mut ring, &event(START, 0, 7));
    for pass in 1..=3 {
        offer(&mut ring, &answer(pass, 5, 0x0300, &[pair(0x60, 1)]));
    }
    offer(&mut ring, &answer(3, 3, 0x0103, &[pair(0x31, 1), pair(0x22, 1)]));
    offer(&mut ring, &answer(3, 1, 0x0101, &[pair(0x22, 1), pair(0x40, 2), pair(0x22, 2)]));
    offer(&mut ring, &event(NONE, 3, 4));
    offer(&mut ring, &answer(3, 6, 0x0106, &[]));
    ring
}

/// LISTED and SETTING rows by position, each with its address and what it keeps; no others.
#[test]
fn rows_of_a_picture() {
    let mut ring = ring_of_all_statuses();
    let status: Vec<Status> = ring.rows().map(|(_, row)| row.status()).collect();
    assert!(matches!(
        status[..],
        [
            Status::Setting { .. },
            Status::Waiting,
            Status::Listed { .. },
            Status::Silent,
            Status::Ignored { .. },
            Status::Listed { .. }
        ]
    ));
    let wanted =
        [row(1, 0x0101, &[[0x40, 2], [0x22, 2]]), row(3, 0x0103, &[[0x31, 1], [0x22, 1]]), row(6, 0x0106, &[])];
    assert_eq!(ring.listed_rows(), wanted);
    offer(&mut ring, &event(SHUTDOWN, 0, 0));
    assert_eq!(ring.listed_rows(), []);
    assert_eq!(Ring::default().listed_rows(), []);
}

/// "A row's marks aren't looked at": counts and status differ, and there is no difference.
#[test]
fn marks_are_not_looked_at() {
    let marked = ring_of_all_statuses();
    let mut plain = Ring::fresh(45).expect("a good L");
    offer(&mut plain, &event(START, 0, 7));
    offer(&mut plain, &answer(1, 6, 0x0106, &[]));
    offer(&mut plain, &answer(1, 1, 0x0101, &[pair(0x22, 2), pair(0x40, 2)]));
    offer(&mut plain, &answer(1, 3, 0x0103, &[pair(0x22, 1), pair(0x31, 1)]));
    assert!(marked.row(1).map(|row| row.status()) != plain.row(1).map(|row| row.status()));
    assert_eq!(lines(&marked.listed_rows(), &plain.listed_rows(), 0), Ok(vec![]));
    for position in [2, 4, 5] {
        offer(&mut plain, &event(NONE, 1, position));
    }
    offer(&mut plain, &event(DELAY, 1, 0));
    assert_eq!(lines(&marked.listed_rows(), &plain.listed_rows(), 0), Ok(vec![]));
}

/// A list by position: addresses and sets of pairs.
type Map = BTreeMap<u8, (u16, BTreeSet<[u8; 2]>)>;

fn map(list: &[ListRow]) -> Map {
    let set = |row: &ListRow| row.pairs.iter().map(|pair| [pair.block, pair.number]).collect();
    list.iter().map(|row| (row.position, (row.address, set(row)))).collect()
}

/// "The first listing with the differences applied, positions by their pairs as sets, is the second." Each line changes something, and
/// brings what the second has.
fn apply(first: &[ListRow], second: &[ListRow], lines: &[[u8; 6]]) {
    let (before, after) = (map(first), map(second));
    let mut applied = before.clone();
    for &[kind, position, high, low, block, number] in lines {
        let address = u16::from_be_bytes([high, low]);
        let pair = [block, number];
        assert!(matches!(kind, 2 | 3) || address == 0);
        assert!(matches!(kind, 4 | 5) || pair == [0, 0]);
        match kind {
            1 => assert!(applied.remove(&position).is_some()),
            2 => assert!(applied.insert(position, (address, BTreeSet::new())).is_none()),
            _ => {
                let row = applied.get_mut(&position).expect("a row");
                match kind {
                    3 => assert!(std::mem::replace(&mut row.0, address) != address),
                    4 => assert!(row.1.remove(&pair) && !after[&position].1.contains(&pair)),
                    5 => assert!(row.1.insert(pair) && before.get(&position).is_none_or(|row| !row.1.contains(&pair))),
                    _ => panic!("kind {kind}"),
                }
            }
        }
    }
    assert_eq!(applied, after);
}

/// The lines rise by position, kind and place among the announced pairs.
fn assert_order(first: &[ListRow], second: &[ListRow], lines: &[[u8; 6]]) {
    let place = |line: &[u8; 6]| {
        let list = if line[0] == 4 { first } else { second };
        let row = list.iter().find(|row| row.position == line[1]);
        row.and_then(|row| row.pairs.iter().position(|&kept| kept == pair(line[4], line[5])))
    };
    let key = |line: &[u8; 6]| (line[1], line[0], if line[0] < 4 { None } else { place(line) });
    assert!(lines.windows(2).all(|two| key(&two[0]) < key(&two[1])));
}

fn has_pair_twice(row: &ListRow) -> bool {
    (1..row.pairs.len()).any(|index| row.pairs[..index].contains(&row.pairs[index]))
}

/// What comes about where lists are compared; it stops after so many comparisons.
#[derive(Default)]
struct Counter {
    left: usize,
    counts: BTreeMap<String, usize>,
}

impl Counter {
    fn count(&mut self, what: impl Into<String>, holds: bool) {
        *self.counts.entry(what.into()).or_default() += usize::from(holds);
    }

    /// Checks the comparison of two lists against the ticket's words, and counts it; gives its lines.
    fn check(&mut self, first: &[ListRow], second: &[ListRow], room: usize) -> Result<Vec<[u8; 6]>, u8> {
        let given = lines(first, second, room);
        let malformed = self.count_malformed("first", first) | self.count_malformed("second", second);
        let disordered = self.count_disorder("first", first) | self.count_disorder("second", second);
        self.count("2 and 20 at once", malformed && disordered);
        self.count("64 rows", first.len().max(second.len()) == 64);
        self.count("63 rows against 63", (first.len(), second.len()) == (63, 63));
        if malformed || disordered {
            assert_eq!(given, Err(if malformed { 2 } else { 20 }));
            self.count("refused 2", malformed);
            self.count("refused 20", !malformed);
            return given;
        }
        let all = lines(first, second, usize::MAX).expect("room for all");
        let needed = 6 * all.len();
        apply(first, second, &all);
        assert_order(first, second, &all);
        assert_eq!(all.is_empty(), map(first) == map(second));
        assert_eq!(given, if needed > room { Err(21) } else { Ok(all.clone()) });
        self.count("refused 21", needed > room);
        self.count("refused 21 by one byte", needed == room + 1);
        self.count("refused 21 by less than a line", needed > room && needed - room < 6);
        self.count("refused 21 without room", needed > room && room == 0);
        self.count("fits just so", needed == room && needed > 0);
        self.count("a part of a line is left", (1..6).contains(&room.wrapping_sub(needed)));
        self.count("no difference", all.is_empty());
        self.count("no difference, no room", all.is_empty() && room == 0);
        self.count("no difference, pairs in another order", all.is_empty() && first != second);
        self.count("one difference", all.len() == 1);
        self.count("the most differences", all.len() == MAX_DIFFERENCES);
        for kind in 1..=5 {
            let lines = all.iter().filter(|line| line[0] == kind).count();
            self.count(format!("kind {kind}"), lines > 0);
            self.count(format!("kind {kind} alone"), lines > 0 && lines == all.len());
        }
        let has_all = (1..=5).all(|kind| all.iter().any(|line| line[0] == kind));
        self.count("all kinds", has_all);
        let gone_in_order = |two: &[[u8; 6]]| two[0][0] == 4 && two[1][0] == 4 && two[0][4..] > two[1][4..];
        self.count("gone pairs not in order of bytes", all.windows(2).any(gone_in_order));
        given
    }

    fn count_malformed(&mut self, which: &str, list: &[ListRow]) -> bool {
        let unit = |row: &ListRow| (1..=MAX_UNITS).contains(&usize::from(row.position));
        let position = list.iter().any(|row| !unit(row));
        let pairs = list.iter().any(|row| row.pairs.len() > MAX_PAIRS);
        let twice = list.iter().any(|row| row.pairs.len() <= MAX_PAIRS && has_pair_twice(row));
        self.count(format!("{which}: position"), position);
        self.count(format!("{which}: position 0"), list.iter().any(|row| row.position == 0));
        self.count(format!("{which}: position 64"), list.iter().any(|row| row.position == 64));
        self.count(format!("{which}: too many pairs"), pairs);
        self.count(format!("{which}: 25 pairs"), list.iter().any(|row| row.pairs.len() == MAX_PAIRS + 1));
        self.count(format!("{which}: a pair twice"), twice);
        self.count(
            format!("{which}: a pair twice among 24"),
            list.iter().any(|row| row.pairs.len() == 24 && has_pair_twice(row)),
        );
        position || pairs || twice
    }

    fn count_disorder(&mut self, which: &str, list: &[ListRow]) -> bool {
        let equal = list.windows(2).any(|rows| rows[0].position == rows[1].position);
        let falling = list.windows(2).any(|rows| rows[0].position > rows[1].position);
        self.count(format!("{which}: equal positions"), equal && !falling);
        self.count(format!("{which}: falling positions"), falling);
        equal || falling
    }

    fn assert_floors(&self, floors: &[(&str, usize)]) {
        println!("{:#?}", self.counts);
        for (what, floor) in floors {
            let count = self.counts.get(*what).copied().unwrap_or(0);
            assert!(count >= *floor, "{what}: {count} where at least {floor} are wanted");
        }
    }
}

impl lists::Stage for Counter {
    type Stop = ();

    const PATIENT: bool = true;

    const MOST_ROWS: usize = 100;

    fn compare(&mut self, first: &[ListRow], second: &[ListRow], room: usize) -> Result<(), ()> {
        self.left = self.left.checked_sub(1).ok_or(())?;
        drop(self.check(first, second, room));
        Ok(())
    }
}

/// The scenes of a stage that is patient.
#[test]
fn plays_lead_to_each_kind_and_each_refusal() {
    let mut counter = Counter::default();
    for seed in 0..12 {
        counter.left = 2_000;
        lists::Play::new(&mut counter, seed).run();
    }
    counter.assert_floors(&[
        ("refused 2", 3_500),
        ("refused 20", 1_700),
        ("2 and 20 at once", 1_800),
        ("first: position 0", 250),
        ("first: position 64", 250),
        ("first: 25 pairs", 200),
        ("first: too many pairs", 500),
        ("first: a pair twice", 600),
        ("first: a pair twice among 24", 200),
        ("first: equal positions", 700),
        ("first: falling positions", 1_200),
        ("second: position 0", 250),
        ("second: position 64", 250),
        ("second: 25 pairs", 200),
        ("second: too many pairs", 500),
        ("second: a pair twice", 500),
        ("second: a pair twice among 24", 200),
        ("second: equal positions", 700),
        ("second: falling positions", 1_200),
        ("refused 21", 4_000),
        ("refused 21 by one byte", 1_800),
        ("refused 21 by less than a line", 2_700),
        ("refused 21 without room", 800),
        ("fits just so", 1_800),
        ("a part of a line is left", 1_200),
        ("no difference", 1_600),
        ("no difference, no room", 1_000),
        ("no difference, pairs in another order", 400),
        ("one difference", 1_400),
        ("kind 1 alone", 500),
        ("kind 2 alone", 120),
        ("kind 3 alone", 600),
        ("kind 4 alone", 300),
        ("kind 5 alone", 450),
        ("all kinds", 500),
        ("gone pairs not in order of bytes", 2_500),
        ("63 rows against 63", 1_100),
        ("64 rows", 250),
        ("the most differences", 150),
    ]);
}

/// A ring, and its rows as they were before; it stops after so many records.
struct Pictures {
    ring: Ring,
    room: Vec<u8>,
    before: Vec<ListRow>,
    left: usize,
    counter: Counter,
}

impl Pictures {
    /// The rows hold what the listing holds, and can be compared with earlier ones.
    fn check(&mut self, room: usize) {
        let rows = self.ring.listed_rows();
        let entries = rows.iter().flat_map(|row| {
            let &ListRow { position, address, .. } = row;
            row.pairs.iter().map(move |&Pair { block, number }| Entry { position, address, block, number })
        });
        assert!(entries.eq(self.ring.listing()));
        let given = self.counter.check(&self.before, &rows, room);
        assert!(!matches!(given, Err(2 | 20)));
        self.before = rows;
    }
}

impl rings::Stage for Pictures {
    type Stop = ();

    const PATIENT: bool = true;

    fn ring(&self) -> &Ring {
        &self.ring
    }

    fn fresh(&mut self, l: usize) -> Result<(), ()> {
        self.ring = u32::try_from(l).ok().and_then(|l| Ring::fresh(l).ok()).unwrap_or_default();
        Ok(())
    }

    fn offer(&mut self, record: &[u8], room: Option<usize>) -> Result<Vec<u8>, ()> {
        self.left = self.left.checked_sub(1).ok_or(())?;
        let length = self.ring.record(record, &mut self.room[..room.unwrap_or(BENCH_ROOM)]).unwrap_or(0);
        if self.left.is_multiple_of(5) {
            self.check(if self.left.is_multiple_of(2) { ROOM } else { 12 });
        }
        Ok(self.room[..length].to_vec())
    }

    fn set_pass(&mut self, pass: u32) -> Result<bool, ()> {
        self.ring.pass = pass;
        Ok(true)
    }

    fn look_around(&mut self, _: u8, _: &[u8]) -> Result<(), ()> {
        Ok(())
    }

    fn look_closely(&mut self) -> Result<(), ()> {
        self.check(ROOM);
        Ok(())
    }
}

/// Rows of pictures are never refused 2 or 20.
#[test]
fn rows_of_any_picture_can_be_compared() {
    let mut pictures = Pictures {
        ring: Ring::default(),
        room: vec![0; BENCH_ROOM],
        before: Vec::new(),
        left: 0,
        counter: Counter::default(),
    };
    for seed in 0..8 {
        pictures.left = 20_000;
        rings::Play::new(&mut pictures, seed).run();
    }
    pictures.counter.assert_floors(&[
        ("kind 1", 4_500),
        ("kind 2", 9_000),
        ("kind 3", 500),
        ("kind 4", 3_500),
        ("kind 5", 13_000),
        ("all kinds", 100),
        ("no difference, pairs in another order", 140),
        ("63 rows against 63", 900),
    ]);
}

fn hex(word: &str) -> u32 {
    u32::from_str_radix(word, 16).expect("hexadecimal")
}

fn decimal<T: std::str::FromStr>(word: &str) -> T {
    word.parse().ok().expect("a number")
}

fn read_row(position: &str, address: &str, pairs: &[&str]) -> ListRow {
    let pairs = pairs.iter().map(|word| pair(hex(&word[..2]) as u8, hex(&word[3..]) as u8)).collect();
    ListRow { position: decimal(position), address: hex(address) as u16, pairs }
}

impl Counter {
    /// Plays a transcript, and checks each comparison and its answer in it.
    fn play_transcript(&mut self, transcript: &[u8]) {
        let (mut ring, mut room) = (Ring::default(), BENCH_ROOM);
        let mut buffer = vec![0; BENCH_ROOM];
        let mut lists = BTreeMap::from([("first", Vec::new()), ("second", Vec::new())]);
        let mut text = transcript.split(|&byte| byte == b'\n').filter_map(|line| std::str::from_utf8(line).ok());
        while let Some(line) = text.next() {
            let words: Vec<&str> = line.split(' ').collect();
            match words[..] {
                ["fresh", l] => ring = Ring::fresh(decimal(l)).unwrap_or_default(),
                ["room", length] => room = decimal(length),
                [">", ref groups @ ..] => {
                    let digits = groups.concat();
                    let record: Vec<u8> =
                        (0..digits.len()).step_by(2).map(|at| hex(&digits[at..at + 2]) as u8).collect();
                    let _ = ring.record(&record, &mut buffer[..room]);
                }
                [list @ ("first" | "second")] => {
                    lists.insert(list, ring.listed_rows());
                    self.count(format!("{list} from the picture"), true);
                    self.count(format!("{list} from the picture, some rows"), !lists[list].is_empty());
                }
                [list @ ("first" | "second"), "none"] => drop(lists.insert(list, Vec::new())),
                [list @ ("first" | "second"), position, address, ref pairs @ ..] => {
                    lists.get_mut(list).expect("a list").push(read_row(position, address, pairs));
                    self.count("typed rows", true);
                }
                ["compare", length] => {
                    let given = self.check(&lists["first"], &lists["second"], decimal(length));
                    let answer = text.next().expect("an answer");
                    let words: Vec<&str> = answer.split(' ').collect();
                    match (given, &words[..]) {
                        (Ok(lines), ["=", "differences", count]) => {
                            assert_eq!(lines.len(), decimal(count));
                            self.count("differences shown", !lines.is_empty());
                            lines.iter().for_each(|line| check_line(line, text.next().expect("a line")));
                        }
                        (Err(number), ["!", given, ..]) => assert_eq!(number, decimal(given)),
                        (given, _) => panic!("{given:?} and {answer}"),
                    }
                }
                _ => {}
            }
        }
    }
}

/// A line holds the six bytes.
fn check_line(bytes: &[u8; 6], line: &str) {
    let (fields, words) = line.split_once("  ").expect("two blanks");
    let [kind, position, high, low, block, number] = *bytes;
    assert_eq!(fields, format!("= {kind} {position} {high:02X}{low:02X} {block:02X} {number:02X}"));
    assert!(words.starts_with(&format!("position {position}")));
}

/// The scripts with lists that are stored.
#[test]
fn scripts_lead_to_each_kind_and_each_refusal() {
    let mut counter = Counter::default();
    for seed in 1..=8 {
        counter.play_transcript(&play_bytes(&mut Ringbox::new(), &generate::lists(seed, 4_000)));
    }
    counter.assert_floors(&[
        ("first from the picture, some rows", 90),
        ("second from the picture, some rows", 160),
        ("typed rows", 1_300),
        ("differences shown", 160),
        ("refused 2", 60),
        ("refused 20", 60),
        ("refused 21", 180),
        ("2 and 20 at once", 20),
        ("first: position", 12),
        ("first: too many pairs", 12),
        ("first: a pair twice", 10),
        ("first: equal positions", 20),
        ("first: falling positions", 20),
        ("second: position", 12),
        ("second: too many pairs", 10),
        ("second: a pair twice", 10),
        ("second: equal positions", 20),
        ("second: falling positions", 20),
        ("refused 21 by one byte", 100),
        ("fits just so", 50),
        ("a part of a line is left", 30),
        ("no difference", 40),
        ("no difference, pairs in another order", 10),
        ("all kinds", 15),
        ("63 rows against 63", 4),
        ("64 rows", 4),
    ]);
}

#[test]
fn the_fixed_script_leads_to_each_kind_and_each_refusal() {
    let mut counter = Counter::default();
    counter.play_transcript(&play_bytes(&mut Ringbox::new(), reference::scripts::LISTS_EDGES.as_bytes()));
    counter.assert_floors(&[
        ("refused 2", 30),
        ("refused 20", 15),
        ("refused 21", 16),
        ("2 and 20 at once", 8),
        ("first: position 0", 2),
        ("first: position 64", 2),
        ("first: 25 pairs", 1),
        ("first: a pair twice", 5),
        ("first: a pair twice among 24", 3),
        ("first: equal positions", 5),
        ("first: falling positions", 5),
        ("second: position 0", 2),
        ("second: position 64", 2),
        ("second: 25 pairs", 1),
        ("second: a pair twice", 5),
        ("second: a pair twice among 24", 1),
        ("second: equal positions", 5),
        ("second: falling positions", 3),
        ("refused 21 by one byte", 12),
        ("fits just so", 15),
        ("a part of a line is left", 2),
        ("no difference, no room", 12),
        ("no difference, pairs in another order", 1),
        ("kind 1 alone", 1),
        ("kind 2 alone", 1),
        ("kind 3 alone", 1),
        ("kind 4 alone", 1),
        ("kind 5 alone", 1),
        ("all kinds", 2),
        ("first from the picture, some rows", 7),
        ("second from the picture, some rows", 3),
        ("64 rows", 4),
        ("the most differences", 1),
    ]);
}
