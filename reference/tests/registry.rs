//! Holds the registry to facts that no single scene shows: the bound on replies, refusals, the tables it keeps.

use reference::generate::Random;
use reference::registry::{Entry, Pair, Ring, State, Status};
use reference::sizes::{MAX_LISTED, MAX_NODES, MAX_NUMBER, MAX_PAIRS, MIN_NUMBER, MIN_ROOM, NUMBERS};
use reference::wire::{event, ANSWER, DELAY, NCE, NONE, SHUTDOWN, START};

fn answer(ring: &Ring, position: u8, address: u16, pairs: &[[u8; 2]]) -> Vec<u8> {
    let head = event(ANSWER, ring.pass(), position);
    [&head[..], &address.to_be_bytes(), &[pairs.len() as u8], pairs.as_flattened()].concat()
}

fn started(nodes: u8) -> Ring {
    let mut ring = Ring::fresh(12).expect("a good L");
    ring.record(&event(START, 0, nodes), &mut [0; MIN_ROOM]).expect("START is taken");
    ring
}

/// The ring after an NCE in NOTOK, or in OK with listed pairs, a SETTING row and a running delay as far as there are units.
fn plugged(nodes: u8, state: State) -> Ring {
    let mut ring = started(nodes);
    for position in open_positions(&ring).into_iter().filter(|_| state == State::Ok) {
        let record = match position {
            2 => event(NONE, 1, position),
            _ => answer(&ring, position, 0x0100 + u16::from(position), &[[0x22, position]]),
        };
        ring.record(&record, &mut [0; MIN_ROOM]).expect("a reply is taken");
    }
    if state == State::Ok && nodes > 1 {
        let record = answer(&ring, 1, 0x0101, &[[0x22, 1], [0x22, 0]]);
        ring.record(&record, &mut [0; MIN_ROOM]).expect("an unasked announcement is taken");
    }
    assert!(nodes == 1 || ring.state() == state);
    ring.record(&event(NCE, 0, nodes), &mut [0; MIN_ROOM]).expect("NCE is taken");
    assert!(nodes == 1 || ring.state() == state);
    ring
}

/// A ring as each of START, NCE in NOTOK and NCE in OK leaves it.
fn scans(nodes: u8) -> [Ring; 3] {
    [started(nodes), plugged(nodes, State::NotOk), plugged(nodes, State::Ok)]
}

fn open_positions(ring: &Ring) -> Vec<u8> {
    let open = |status| matches!(status, Status::Waiting | Status::Setting { .. });
    ring.rows().filter(|(_, row)| open(row.status())).map(|(position, _)| position).collect()
}

/// The most SETs that one pair gets in a row.
const TRIES: u8 = 3;

/// In each pass each unit gets all SETs for each of its pairs, and answers once more.
fn bound(nodes: u8) -> usize {
    let nodes = usize::from(nodes);
    (usize::from(TRIES) * MAX_PAIRS + 1) * (nodes - 1) * (2 * nodes - 1)
}

fn random_record(random: &mut Random, ring: &Ring, position: u8) -> Vec<u8> {
    if random.chance(3) {
        return event(NONE, ring.pass(), position);
    }
    let count = random.pick(&[0, 1, 3, MAX_PAIRS]);
    let pairs: Vec<[u8; 2]> =
        (0..count).map(|_| [random.pick(&[0x22, 0x23]), random.pick(&[0, 1, 2, 3, 255])]).collect();
    let address = match random.below(20) {
        0 => random.pick(&[0x0100, 0x0300, 0x0101, 0x0102]),
        _ => 0x0110 + u16::from(position),
    };
    answer(ring, position, address, &pairs)
}

#[test]
fn every_ring_gets_to_ok_within_the_bound() {
    for seed in 0..400 {
        let mut random = Random::new(seed);
        let nodes = random.range(1, 9) as u8;
        for mut ring in scans(nodes) {
            let mut taken = 0;
            while ring.open_questions() > 0 {
                let open = open_positions(&ring);
                let position = random.pick(&open);
                let record = random_record(&mut random, &ring, position);
                ring.record(&record, &mut [0; MIN_ROOM]).expect("a reply is taken");
                taken += 1;
            }
            assert!(ring.state() == State::Ok && taken <= bound(nodes), "{taken} replies for {nodes} nodes");
        }
    }
}

/// Each unit refuses all SETs; the last one of a pass announces a bad address instead of its last answer.
#[test]
fn the_bound_is_reached() {
    let refused = [[0x22, 0x00]; MAX_PAIRS];
    for (nodes, mut ring) in (1..=8).flat_map(|nodes| scans(nodes).map(|ring| (nodes, ring))) {
        let mut taken = 0;
        while ring.open_questions() > 0 {
            let liar = ring.rows().find(|(_, row)| row.bad() < 2).map(|(position, _)| position);
            let open = open_positions(&ring);
            let position = open.iter().copied().find(|&position| Some(position) != liar).unwrap_or(open[0]);
            let status = ring.row(position).expect("a row").status();
            let at_end =
                matches!(status, Status::Setting { place, tries: TRIES, .. } if usize::from(place) == MAX_PAIRS - 1);
            let address = if at_end && Some(position) == liar { 0x0300 } else { 0x0100 + u16::from(position) };
            ring.record(&answer(&ring, position, address, &refused), &mut [0; MIN_ROOM]).expect("a reply is taken");
            taken += 1;
        }
        assert_eq!((ring.state(), taken), (State::Ok, bound(nodes)), "{nodes} nodes");
    }
}

/// Checks every field of the picture against the others.
fn check_invariants(ring: &Ring) {
    let mut addresses = Vec::new();
    let mut pairs: Vec<Pair> = Vec::new();
    let mut entries = Vec::new();
    for (position, row) in ring.rows() {
        match row.status() {
            Status::Listed { address } | Status::Setting { address, .. } => {
                assert!((0x0101..=0x02FF).contains(&address) && !addresses.contains(&address));
                addresses.push(address);
                let entry = |pair: &Pair| Entry { position, address, block: pair.block, number: pair.number };
                entries.extend(row.pairs().iter().map(entry));
            }
            _ => assert!(row.pairs().is_empty()),
        }
        for &pair in row.pairs() {
            assert!(!pairs.contains(&pair) && (MIN_NUMBER..=MAX_NUMBER).contains(&pair.number));
            pairs.push(pair);
        }
        assert!(row.bad() <= 3 && row.silences() <= 20);
    }
    assert_eq!(ring.listing(), entries);
    let open = open_positions(ring).len();
    assert_eq!(usize::from(ring.open_questions()), open);
    match ring.state() {
        State::Off => assert!(ring.nodes() == 0 && open == 0 && !ring.delay_runs()),
        State::NotOk => assert!(open > 0 && !ring.delay_runs()),
        State::Ok => {
            let silent = ring.rows().any(|(_, row)| row.status() == Status::Silent);
            assert!(open > 0 || !silent || ring.delay_runs());
        }
    }
}

/// Plays random records and checks the picture and the lent room after each.
#[test]
fn pictures_hang_together_and_refusals_change_nothing() {
    for seed in 0..60 {
        let mut random = Random::new(seed + 1000);
        let mut ring = Ring::fresh(random.range(12, 45) as u32).expect("a good L");
        for _ in 0..400 {
            let record = any_record(&mut random, &ring);
            let room = random.pick(&[0, MIN_ROOM - 1, MIN_ROOM, MIN_ROOM + 88, MIN_ROOM + 88, MIN_ROOM + 88]);
            let filler = random.byte();
            let mut out = vec![filler; room];
            let before = ring.clone();
            match ring.record(&record, &mut out) {
                Ok(length) => assert!(length < MIN_ROOM && out[length..].iter().all(|&byte| byte == filler)),
                Err(number) => {
                    assert!((1..=8).contains(&number) && ring == before);
                    assert!(out.iter().all(|&byte| byte == filler));
                    assert_eq!(number == 1, room < MIN_ROOM);
                }
            }
            check_invariants(&ring);
        }
    }
}

/// After each of many random records an NCE is tried: ASKs and the whole listing in OK, NOTOK and ASKs in NOTOK.
#[test]
fn a_re_plug_tells_the_listing_in_ok_alone() {
    let mut told = [0; 3];
    for seed in 0..60 {
        let mut random = Random::new(seed + 2000);
        let l = random.range(12, 45);
        let mut ring = Ring::fresh(l as u32).expect("a good L");
        for _ in 0..400 {
            let _ = ring.record(&any_record(&mut random, &ring), &mut [0; MIN_ROOM]);
            let nodes = random.range(1, 7) as u8;
            let mut out = [0; MIN_ROOM];
            let mut next = ring.clone();
            let Ok(length) = next.record(&event(NCE, 0, nodes), &mut out) else {
                assert_eq!(ring.state(), State::Off);
                continue;
            };
            let head = |kind: u8| [&[0x4D, 0x4F, kind][..], &(ring.pass() + 1).to_be_bytes()].concat();
            let mut wanted = Vec::new();
            if ring.state() == State::NotOk {
                wanted.extend(head(4));
            }
            for position in 1..nodes {
                wanted.extend([head(1), vec![position]].concat());
            }
            if ring.state() == State::Ok {
                for pairs in ring.listing().chunks((l - 1) / 2) {
                    wanted.extend([head(6), vec![pairs.len() as u8]].concat());
                    wanted.extend(pairs.iter().flat_map(|entry| [entry.block, entry.number]));
                }
                told[ring.listing().len().min(2)] += 1;
            } else if nodes == 1 {
                wanted.extend(head(3));
            }
            assert_eq!(out[..length], wanted);
            let keeps_ok = ring.state() == State::Ok || nodes == 1;
            assert_eq!(next.state(), if keeps_ok { State::Ok } else { State::NotOk });
            let mut fresh = Ring::fresh(l as u32).expect("a good L");
            fresh.pass = ring.pass();
            fresh.record(&event(START, 0, nodes), &mut out).expect("START is taken");
            assert!((next.pass(), next.nodes(), next.delay_runs()) == (fresh.pass(), nodes, false));
            assert!(next.open_questions() == nodes - 1 && next.rows().eq(fresh.rows()));
            check_invariants(&next);
            if random.chance(10) {
                ring = next;
            }
        }
    }
    assert!(told.iter().all(|&times| times > 300), "{told:?}");
}

fn any_record(random: &mut Random, ring: &Ring) -> Vec<u8> {
    let nodes = random.range(1, 7) as u8;
    let position = random.below(usize::from(ring.nodes()).max(1) + 1) as u8;
    match random.below(40) {
        0 => event(NCE, 0, nodes),
        1 => event(SHUTDOWN, 0, 0),
        2 | 3 => event(START, 0, nodes),
        4 => (0..random.below(20)).map(|_| random.byte()).collect(),
        5..=9 => event(DELAY, ring.pass(), 0),
        10..=16 => event(NONE, ring.pass(), position),
        _ => random_record(random, ring, position),
    }
}

#[test]
fn look_ups_find_exactly_the_listing() {
    let mut random = Random::new(5);
    let mut ring = started(5);
    for _ in 0..200 {
        let position = random.range(1, 4) as u8;
        let record = random_record(&mut random, &ring, position);
        let _ = ring.record(&record, &mut [0; MIN_ROOM]);
        let listing = ring.listing();
        for block in [0x00, 0x22, 0x23, 0x24] {
            for number in 0..=255 {
                let entry = listing.iter().find(|entry| (entry.block, entry.number) == (block, number));
                let wanted = match (ring.state(), entry) {
                    (State::Ok, Some(entry)) => Ok((entry.position, entry.address)),
                    (State::Ok, None) => Err(17),
                    _ => Err(18),
                };
                assert_eq!(ring.look_up(block, number), wanted);
            }
        }
    }
}

#[test]
fn the_greatest_listing() {
    let mut ring = started(MAX_NODES as u8);
    for position in 1..MAX_NODES as u8 {
        let pairs: Vec<[u8; 2]> = (1..=MAX_PAIRS as u8).map(|number| [0x10 + position, number]).collect();
        let record = answer(&ring, position, 0x0100 + u16::from(position), &pairs);
        ring.record(&record, &mut [0; MIN_ROOM]).expect("the answer is taken");
    }
    let blank = Entry { position: 0, address: 0, block: 0, number: 0 };
    let mut entries = [blank; MAX_LISTED];
    assert_eq!(ring.listing_into(&mut entries), MAX_LISTED);
    assert_eq!(ring.listing(), entries);
    assert_eq!(ring.look_up(0x4F, MAX_PAIRS as u8), Ok((63, 0x013F)));
}

#[test]
fn a_block_with_one_number_free_and_with_none() {
    let last = NUMBERS.div_ceil(MAX_PAIRS) as u8 + 2;
    for spare in 1..=255u8 {
        let mut ring = started(last + 1);
        let numbers: Vec<[u8; 2]> =
            (MIN_NUMBER..=MAX_NUMBER).filter(|&number| number != spare).map(|number| [0x22, number]).collect();
        let mut position = 0;
        for chunk in numbers.chunks(MAX_PAIRS) {
            position += 1;
            let record = answer(&ring, position, 0x0100 + u16::from(position), chunk);
            assert_eq!(ring.record(&record, &mut [0; MIN_ROOM]), Ok(0));
        }
        let mut out = [0; MIN_ROOM];
        let record = answer(&ring, last, 0x0200, &[[0x22, 0x00]]);
        let length = ring.record(&record, &mut out).expect("the answer is taken");
        if spare == 255 {
            assert_eq!(length, 0);
        } else {
            assert_eq!(out[..length], [0x4D, 0x4F, 2, 0, 0, 0, 1, last, 2, 0, 0x22, 0, spare]);
        }
    }
}
