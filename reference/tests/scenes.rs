//! Holds the generator to its scenes: counts what they lead the ring to, over some seeds.

use std::collections::{HashMap, HashSet};

use reference::generate::{self, rings};
use reference::player::{play_bytes, Ringbox};
use reference::registry::{Pair, Ring, Status};
use reference::sizes::{BENCH_ROOM, MAX_LISTED, MAX_NUMBER, MIN_NUMBER, NUMBERS};
use reference::wire::{self, ANSWER, ANSWER_HEAD, KIND, SET, X};

/// Pairs and blocks of an ANSWER above this are many.
const FEW: usize = 16;
/// Rings below this are small.
const SMALL: u8 = 10;

/// What comes about in a play.
#[derive(Default, Debug)]
struct Counts {
    /// Registered ANSWERs of 17 to 24 pairs, those of 17 to 24 different blocks, and among these those in a small ring.
    many_pairs: usize,
    many_blocks: usize,
    head_units: usize,
    /// SETs for the 17th to 24th pair of an ANSWER.
    late_sets: usize,
    /// Taken records after which 1,512 entries are listed.
    full_listings: usize,
    /// Bad pairs for which no number is free while two or more blocks are full.
    without_number: usize,
    /// ANSWERs with such pairs in two or more blocks, and those with a SET for another one.
    beggars: usize,
    helped_beggars: usize,
    /// The most blocks that are full at once.
    full_blocks: usize,
}

/// A ring and what came about in it so far; it stops after so many records.
struct Counter {
    ring: Ring,
    room: Vec<u8>,
    left: usize,
    counts: Counts,
}

impl Counter {
    fn new(left: usize) -> Counter {
        Counter { ring: Ring::default(), room: vec![0; BENCH_ROOM], left, counts: Counts::default() }
    }

    fn record(&mut self, record: &[u8], room: usize) -> Vec<u8> {
        let Ok(length) = self.ring.record(record, &mut self.room[..room]) else {
            return Vec::new();
        };
        let orders = self.room[..length].to_vec();
        self.counts.full_listings += usize::from(self.ring.listing().len() == MAX_LISTED);
        if record[KIND] == ANSWER {
            self.count_answer(record, &orders);
        }
        orders
    }

    fn count_answer(&mut self, record: &[u8], orders: &[u8]) {
        let position = record[X];
        let status = self.ring.row(position).expect("a row").status();
        if !matches!(status, Status::Listed { .. } | Status::Setting { .. }) {
            return;
        }
        let pairs: Vec<Pair> =
            record[ANSWER_HEAD..].chunks(2).map(|pair| Pair { block: pair[0], number: pair[1] }).collect();
        let blocks: HashSet<u8> = pairs.iter().map(|pair| pair.block).collect();
        self.counts.many_pairs += usize::from(pairs.len() > FEW);
        self.counts.many_blocks += usize::from(blocks.len() > FEW);
        self.counts.head_units += usize::from(blocks.len() > FEW && self.ring.nodes() < SMALL);
        let has_set = wire::orders(orders).any(|order| order[KIND] == SET);
        let is_late = matches!(status, Status::Setting { place, .. } if usize::from(place) >= FEW);
        self.counts.late_sets += usize::from(has_set && is_late);
        self.count_full_blocks(position, &pairs, has_set);
    }

    fn count_full_blocks(&mut self, position: u8, pairs: &[Pair], has_set: bool) {
        let listing = self.ring.listing();
        let mut kept: HashMap<u8, usize> = HashMap::new();
        for entry in &listing {
            *kept.entry(entry.block).or_default() += 1;
        }
        let full = kept.values().filter(|&&count| count == NUMBERS).count();
        self.counts.full_blocks = self.counts.full_blocks.max(full);
        if full < 2 {
            return;
        }
        let others: HashSet<(u8, u8)> = listing
            .iter()
            .filter(|entry| entry.position != position)
            .map(|entry| (entry.block, entry.number))
            .collect();
        let stands = |pair: &Pair| others.contains(&(pair.block, pair.number));
        let is_free = |pair: &Pair| !stands(pair) && !pairs.contains(pair);
        let bad = |index: usize| {
            let pair = pairs[index];
            matches!(pair.number, 0 | 255) || stands(&pair) || pairs[..index].contains(&pair)
        };
        let none_is_free = |block: u8| !(MIN_NUMBER..=MAX_NUMBER).any(|number| is_free(&Pair { block, number }));
        let without: Vec<u8> = (0..pairs.len())
            .filter(|&index| bad(index))
            .map(|index| pairs[index].block)
            .filter(|&block| none_is_free(block))
            .collect();
        self.counts.without_number += without.len();
        if without.iter().collect::<HashSet<_>>().len() > 1 {
            self.counts.beggars += 1;
            self.counts.helped_beggars += usize::from(has_set);
        }
    }
}

impl rings::Stage for Counter {
    type Stop = ();

    const PATIENT: bool = true;

    fn ring(&self) -> &Ring {
        &self.ring
    }

    fn fresh(&mut self, l: usize) -> Result<(), ()> {
        self.ring = u32::try_from(l).ok().and_then(|l| Ring::fresh(l).ok()).unwrap_or_default();
        Ok(())
    }

    fn offer(&mut self, record: &[u8], room: Option<usize>) -> Result<Vec<u8>, ()> {
        self.left = self.left.checked_sub(1).ok_or(())?;
        Ok(self.record(record, room.unwrap_or(BENCH_ROOM)))
    }

    fn set_pass(&mut self, pass: u32) -> Result<bool, ()> {
        self.ring.pass = pass;
        Ok(true)
    }

    fn look_around(&mut self, _: u8, _: &[u8]) -> Result<(), ()> {
        Ok(())
    }

    fn look_closely(&mut self) -> Result<(), ()> {
        Ok(())
    }
}

impl Counter {
    /// Plays a generated script, without what it looks at.
    fn play_script(&mut self, seed: u64, lines: usize) {
        let transcript = play_bytes(&mut Ringbox::new(), &generate::ringbox(seed, lines));
        let mut room = BENCH_ROOM;
        self.ring = Ring::default();
        for line in transcript.split(|&byte| byte == b'\n').filter_map(|line| std::str::from_utf8(line).ok()) {
            match line.split_once(' ') {
                Some(("fresh", l)) => {
                    self.ring = l.parse().ok().and_then(|l| Ring::fresh(l).ok()).unwrap_or_default();
                }
                Some(("room", length)) => room = length.parse().expect("a number"),
                Some((">", hex)) => drop(self.record(&bytes(hex), room)),
                _ => {}
            }
        }
    }
}

fn bytes(hex: &str) -> Vec<u8> {
    let digits: String = hex.split(' ').collect();
    let byte = |at| u8::from_str_radix(&digits[at..at + 2], 16).expect("hexadecimal");
    (0..digits.len()).step_by(2).map(byte).collect()
}

fn assert_floors(counts: &Counts, floors: &Counts) {
    println!("{counts:?}");
    let values = |counts: &Counts| {
        [
            counts.many_pairs,
            counts.many_blocks,
            counts.head_units,
            counts.late_sets,
            counts.full_listings,
            counts.without_number,
            counts.beggars,
            counts.helped_beggars,
            counts.full_blocks,
        ]
    };
    let reached = values(counts).into_iter().zip(values(floors)).all(|(count, floor)| count >= floor);
    assert!(reached, "{counts:?} where at least {floors:?} are wanted");
}

/// The scripts that are stored.
#[test]
fn scripts_lead_to_rows_of_24_pairs_full_blocks_and_full_rings() {
    let mut counter = Counter::new(0);
    for seed in 1..=8 {
        counter.play_script(seed, 4_000);
    }
    let floors = Counts {
        many_pairs: 3_500,
        many_blocks: 1_000,
        head_units: 300,
        late_sets: 200,
        full_listings: 25,
        without_number: 700,
        beggars: 70,
        helped_beggars: 50,
        full_blocks: MAX_LISTED / NUMBERS,
    };
    assert_floors(&counter.counts, &floors);
}

/// The scenes of a stage that is patient.
#[test]
fn plays_lead_to_rows_of_24_pairs_full_blocks_and_full_rings() {
    let mut counter = Counter::new(0);
    for seed in 0..8 {
        counter.left = 20_000;
        rings::Play::new(&mut counter, seed).run();
    }
    let floors = Counts {
        many_pairs: 20_000,
        many_blocks: 6_000,
        head_units: 3_500,
        late_sets: 2_000,
        full_listings: 60,
        without_number: 4_000,
        beggars: 500,
        helped_beggars: 300,
        full_blocks: MAX_LISTED / NUMBERS,
    };
    assert_floors(&counter.counts, &floors);
}
