//! The benchmark: the proved library and the reference side by side, on the same inputs and in the same run.

#[allow(dead_code)]
#[path = "../../differential/src/boxes.rs"]
mod boxes;
mod stack;
mod workloads;

use std::hint::black_box;
use std::mem::size_of;
use std::process::ExitCode;
use std::time::{Duration, Instant};

use boxes::{ProvedRing, ProvedTelegrams, ReferenceRing, ReferenceTelegrams, RingBox, TelegramBox};
use lathepetal::{FlatListing, JoinState, Picture, Row, DIFFERENCES_ROOM, LINE_SIZE, MAX_LINES};
use reference::compare::{compare, ListRow};
use reference::player::fill;
use reference::registry::{Entry, Ring};
use reference::sizes::{
    BENCH_ROOM, MAX_LISTED, MAX_NODES, MAX_PAIRS, MAX_PAYLOAD, MAX_SIZE, MAX_TELEGRAM, MAX_UNITS, MIN_SIZE, TELEGRAM_HEAD,
};
use reference::telegrams::Joining;
use workloads::Records;

const MSG_ID: u32 = 0x2202_100C;

/// How long the run measures.
struct Plan {
    rounds: usize,
    round: Duration,
}

const WHOLE: Plan = Plan { rounds: 31, round: Duration::from_millis(20) };
const QUICK: Plan = Plan { rounds: 5, round: Duration::from_millis(4) };

/// How a time is told.
#[derive(Clone, Copy)]
enum Unit {
    /// Nanoseconds for each of so many.
    Each(usize),
    /// Megabytes a second, of so many bytes.
    Bytes(usize),
}

impl Unit {
    fn tell(self, seconds: f64) -> String {
        match self {
            Unit::Each(count) => format!("{:.1} ns", seconds * 1e9 / count as f64),
            Unit::Bytes(bytes) => format!("{:.0} MB/s", bytes as f64 / seconds / 1e6),
        }
    }
}

/// The table as far as it is made.
struct Bench {
    plan: Plan,
    agrees: bool,
}

impl Bench {
    /// Measures both in turn, writes a line, and holds their checksums to each other.
    fn line(&mut self, what: &str, unit: Unit, mut proved: impl FnMut() -> u64, mut reference: impl FnMut() -> u64) {
        let sums = (proved(), reference());
        let repeats = [repeats(&mut proved, self.plan.round), repeats(&mut reference, self.plan.round)];
        let mut times = [Vec::new(), Vec::new()];
        let mut same = sums.0 == sums.1;
        for _ in 0..self.plan.rounds {
            same &= time(&mut proved, repeats[0], &mut times[0]) == sums.0;
            same &= time(&mut reference, repeats[1], &mut times[1]) == sums.1;
        }
        times.iter_mut().for_each(|times| times.sort_by(f64::total_cmp));
        let [proved, reference] = times.map(|times| (times[0], times[times.len() / 2]));
        println!(
            "{what:<44} {:>12} {:>14} {:>12} {:>14} {:>7.2}",
            unit.tell(proved.0),
            format!("({})", unit.tell(proved.1)),
            unit.tell(reference.0),
            format!("({})", unit.tell(reference.1)),
            reference.0 / proved.0
        );
        if !same {
            println!("  the answers differ");
            self.agrees = false;
        }
    }

    fn records(&mut self, what: &str, records: &Records) {
        let outputs = (outputs::<ProvedRing>(records), outputs::<ReferenceRing>(records));
        self.agrees &= outputs.0 == outputs.1;
        let unit = Unit::Each(records.measured.len());
        let (mut proved_room, mut reference_room) = ([0; BENCH_ROOM], [0; BENCH_ROOM]);
        let proved = picture::<ProvedRing>(&records.before);
        let reference = picture::<ReferenceRing>(&records.before);
        let (proved, reference) = (&proved, &reference);
        self.line(
            what,
            unit,
            || play(proved.clone(), &records.measured, &mut proved_room),
            || play(reference.clone(), &records.measured, &mut reference_room),
        );
    }

    /// Two lists of rows with so many lines.
    fn comparison(&mut self, what: &str, lines: usize, proved: [&[Row]; 2], reference: [&[ListRow]; 2]) {
        let (mut proved_room, mut reference_room) = (vec![0; DIFFERENCES_ROOM], vec![0; DIFFERENCES_ROOM]);
        let sum = |number: u8, length: usize, room: &[u8]| {
            let last = length.saturating_sub(LINE_SIZE);
            let line = room[last..last + LINE_SIZE].iter().fold(0, |line, &byte| line << 8 | u64::from(byte));
            add(u64::from(number) << 32 | length as u64, line)
        };
        self.line(
            what,
            Unit::Each(1),
            || {
                let [first, second] = black_box(proved);
                let outcome = lathepetal::compare(first, second, &mut proved_room);
                sum(outcome.number, outcome.length, &proved_room)
            },
            || {
                let [first, second] = black_box(reference);
                let (number, length) = write_lines(first, second, &mut reference_room);
                sum(number, length, &reference_room)
            },
        );
        self.agrees &= proved_room == reference_room && (lines == 0) == proved_room.iter().all(|&byte| byte == 0);
        self.agrees &= lathepetal::compare(proved[0], proved[1], &mut proved_room).length == LINE_SIZE * lines;
    }

    fn telegrams(&mut self, l: usize, payload: &[u8]) {
        let telegrams = cut_all::<ProvedTelegrams>(l, payload);
        self.agrees &= telegrams == cut_all::<ReferenceTelegrams>(l, payload);
        let unit = Unit::Bytes(payload.len());
        let count = telegrams.len();
        let what = format!("cut of {} bytes, L = {l}", payload.len());
        self.line(&what, unit, || cut::<ProvedTelegrams>(l, payload, count), || cut::<ReferenceTelegrams>(l, payload, count));

        let (mut proved_buffer, mut reference_buffer) = (vec![0; MAX_PAYLOAD], vec![0; MAX_PAYLOAD]);
        let what = format!("join of {} bytes, L = {l}", payload.len());
        self.line(
            &what,
            unit,
            || join::<ProvedTelegrams>(l, &telegrams, &mut proved_buffer),
            || join::<ReferenceTelegrams>(l, &telegrams, &mut reference_buffer),
        );
        self.agrees &= proved_buffer == payload && reference_buffer == payload;
    }
}

/// How often a piece of work is done in one round.
fn repeats(work: &mut impl FnMut() -> u64, round: Duration) -> usize {
    let mut repeats = 1;
    loop {
        let mut times = Vec::new();
        time(work, repeats, &mut times);
        let taken = times[0] * repeats as f64;
        if taken * 4.0 > round.as_secs_f64() {
            return ((round.as_secs_f64() / times[0]) as usize).max(1);
        }
        repeats *= 2;
    }
}

/// Adds the seconds of one piece of work; gives its checksum, or 0 where they are not all the same.
fn time(work: &mut impl FnMut() -> u64, repeats: usize, times: &mut Vec<f64>) -> u64 {
    let sum = work();
    let mut same = true;
    let start = Instant::now();
    for _ in 0..repeats {
        same &= black_box(work()) == sum;
    }
    times.push(start.elapsed().as_secs_f64() / repeats as f64);
    if same {
        sum
    } else {
        0
    }
}

fn add(sum: u64, value: u64) -> u64 {
    (sum ^ value).wrapping_mul(0x9E37_79B9_7F4A_7C15).rotate_left(23)
}

fn picture<B: RingBox>(records: &[Vec<u8>]) -> B {
    let mut ring = B::fresh(MIN_SIZE).1;
    for record in records {
        ring.record(record, &mut [0; BENCH_ROOM]);
    }
    ring
}

/// Plays records one behind the other; sums up numbers, lengths and the orders' last bytes.
fn play<B: RingBox>(mut ring: B, records: &[Vec<u8>], room: &mut [u8]) -> u64 {
    let mut sum = 1;
    for record in records {
        let (number, length) = ring.record(black_box(record), room);
        let last = length.saturating_sub(8);
        let tail = u64::from_le_bytes(*room[last..].first_chunk().expect("there is room"));
        sum = add(sum, u64::from(number) << 32 | length as u64);
        if length >= 8 {
            sum = add(sum, tail);
        }
    }
    black_box(&ring);
    sum
}

/// All that the records give, and the listing at their end.
fn outputs<B: RingBox>(records: &Records) -> (Vec<u8>, FlatListing) {
    let mut ring = B::fresh(MIN_SIZE).1;
    let mut all = Vec::new();
    for record in records.before.iter().chain(&records.measured) {
        let mut room = [0; BENCH_ROOM];
        let (number, length) = ring.record(record, &mut room);
        all.push(number);
        all.extend_from_slice(&(length as u32).to_be_bytes());
        all.extend_from_slice(&room[..length]);
    }
    (all, ring.listing())
}

fn cut_all<B: TelegramBox>(l: usize, payload: &[u8]) -> Vec<Vec<u8>> {
    let (_, count) = B::count(l, payload);
    let one = |number| {
        let mut room = [0; MAX_TELEGRAM];
        let (_, length) = B::cut(l, MSG_ID, payload, number, &mut room);
        room[..length].to_vec()
    };
    (1..=count).map(one).collect()
}

fn cut<B: TelegramBox>(l: usize, payload: &[u8], count: usize) -> u64 {
    let mut room = [0; MAX_TELEGRAM];
    let mut sum = 1;
    for number in 1..=count {
        let (refusal, length) = B::cut(l, MSG_ID, black_box(payload), number, &mut room);
        black_box(&room);
        sum =
            add(sum, u64::from(refusal) << 32 | (length as u64) << 16 | u64::from(room[TELEGRAM_HEAD]) << 8 | u64::from(room[length - 1]));
    }
    sum
}

fn join<B: TelegramBox>(l: usize, telegrams: &[Vec<u8>], buffer: &mut [u8]) -> u64 {
    let mut state = B::fresh();
    let mut sum = 1;
    for telegram in telegrams {
        let joined = state.join(l, buffer, black_box(telegram));
        sum = add(sum, u64::from(joined.number) << 32 | u64::from(joined.complete) << 40 | joined.length as u64);
    }
    black_box(buffer);
    sum
}

fn listings_and_look_ups(bench: &mut Bench) {
    let (records, (block, number)) = workloads::full_picture();
    let proved = picture::<ProvedRing>(&records);
    let reference = picture::<ReferenceRing>(&records);
    bench.agrees &= proved.listing() == reference.listing();
    let mut entries = [Entry { position: 0, address: 0, block: 0, number: 0 }; MAX_LISTED];
    bench.line(
        &format!("listing of {MAX_LISTED} pairs"),
        Unit::Each(1),
        || {
            let listing = lathepetal::listing(black_box(proved.0));
            let last = listing.count - 1;
            black_box(&listing);
            add(listing.count as u64, u64::from(listing.positions[last]) << 8 | u64::from(listing.numbers[last]))
        },
        || {
            let count = black_box(&reference.0).listing_into(&mut entries);
            let last = entries[count - 1];
            black_box(&entries);
            add(count as u64, u64::from(last.position) << 8 | u64::from(last.number))
        },
    );
    let sum = |(number, position, address): (u8, u8, u16)| add(u64::from(number), u64::from(position) << 16 | u64::from(address));
    bench.line(
        &format!("look-up of the last of {MAX_LISTED} pairs"),
        Unit::Each(1),
        || sum(black_box(&proved).look_up(block, number)),
        || sum(black_box(&reference).look_up(block, number)),
    );
}

/// The listed rows of full pictures, and comparisons of them.
fn rows_and_comparisons(bench: &mut Bench) {
    let pictures = workloads::two_full_pictures();
    let [proved, other_proved] = pictures.each_ref().map(|records| picture::<ProvedRing>(records));
    let [reference, other_reference] = pictures.each_ref().map(|records| picture::<ReferenceRing>(records));
    bench.agrees &= proved.listed_rows() == reference.listed_rows() && other_proved.listed_rows() == other_reference.listed_rows();
    bench.line(
        &format!("listed rows of {MAX_UNITS}"),
        Unit::Each(1),
        || {
            let rows = lathepetal::listed_rows(black_box(proved.0));
            let last = black_box(&rows).rows[rows.count - 1];
            let pair = u64::from(last.entry.numbers[MAX_PAIRS - 1]);
            add(rows.count as u64, u64::from(last.position) << 24 | u64::from(last.entry.address) << 8 | pair)
        },
        || {
            let rows = black_box(&reference.0).listed_rows();
            let last = &black_box(&rows)[rows.len() - 1];
            let pair = u64::from(last.pairs[MAX_PAIRS - 1].number);
            add(rows.len() as u64, u64::from(last.position) << 24 | u64::from(last.address) << 8 | pair)
        },
    );

    let (proved, other_proved) = (proved.listed_rows().rows, other_proved.listed_rows().rows);
    let (reference, other_reference) = (reference.0.listed_rows(), other_reference.0.listed_rows());
    let what = format!("comparison, full, all different, {MAX_LINES} lines");
    bench.comparison(&what, MAX_LINES, [&proved, &other_proved], [&reference, &other_reference]);
    bench.comparison("comparison, full, the same", 0, [&proved, &proved], [&reference, &reference]);
}

/// Writes the reference's lines as the library does; gives the number and how many bytes they have.
fn write_lines(first: &[ListRow], second: &[ListRow], out: &mut [u8]) -> (u8, usize) {
    match compare(first, second, out.len()) {
        Ok(differences) => {
            let lines = out.chunks_exact_mut(LINE_SIZE).zip(&differences);
            lines.for_each(|(line, difference)| line.copy_from_slice(&difference.bytes()));
            (0, LINE_SIZE * differences.len())
        }
        Err(number) => (number, 0),
    }
}

/// The most stack that a record of the lists takes.
fn stack_of<B: RingBox>(lists: &[Records]) -> usize {
    let mut most = 0;
    for list in lists {
        let mut ring = B::fresh(MIN_SIZE).1;
        let mut room = [0; BENCH_ROOM];
        for record in list.before.iter().chain(&list.measured) {
            let taken = stack::taken_by(|| {
                black_box(ring.record(record, &mut room));
            });
            most = most.max(taken);
        }
    }
    most
}

fn memory(lists: &[Records]) {
    println!();
    println!("{:<44} {:>12} {:>14} {:>12}", "memory, bytes", "proved", "", "reference");
    let line = |what: &str, proved: usize, reference: usize| println!("{what:<44} {proved:>12} {:>14} {reference:>12}", "");
    line("ring picture", size_of::<Picture>(), size_of::<Ring>());
    line("listing", size_of::<FlatListing>(), size_of::<[Entry; MAX_LISTED]>());
    line("join state", size_of::<JoinState>(), size_of::<Joining>());
    line("stack of one record, at most", stack_of::<ProvedRing>(lists), stack_of::<ReferenceRing>(lists));
}

fn main() -> ExitCode {
    let words: Vec<String> = std::env::args().skip(1).collect();
    let (plan, days) = match words.iter().map(String::as_str).collect::<Vec<_>>()[..] {
        [] => (WHOLE, 100),
        ["--quick"] => (QUICK, 10),
        _ => {
            eprintln!("usage: bench [--quick]");
            return ExitCode::from(2);
        }
    };
    println!(
        "Best and (median) of {} rounds, in turn. The ratio is reference time / proved time: above 1 the proved is faster.",
        plan.rounds
    );
    println!("Lent buffers are not cleared between calls.");
    println!();
    println!("{:<44} {:>12} {:>14} {:>12} {:>14} {:>7}", "what", "proved", "", "reference", "", "ratio");

    let mut bench = Bench { plan, agrees: true };
    let answers = [workloads::days(days), workloads::full_answers(), workloads::bad_answers()];
    bench.records("bench day, N = 8, each record", &answers[0]);
    bench.records(&format!("ANSWER of {MAX_PAIRS} pairs, {MAX_LISTED} listed"), &answers[1]);
    bench.records(&format!("ANSWER of {MAX_PAIRS} bad pairs, none free, and back"), &answers[2]);
    bench.records(&format!("NONE, N = {MAX_NODES}"), &workloads::silences());
    bench.records(&format!("NCE in NOTOK, N = {MAX_NODES}"), &workloads::replugs_in_notok());
    let change = workloads::replug_in_ok();
    bench.records(&format!("NCE in OK, {MAX_LISTED} listed, and a copy"), &change);
    bench.records(&format!("NCE in OK and {MAX_UNITS} ANSWERs, each record"), &workloads::rescans());
    bench.records(&format!("refused records, N = {MAX_NODES}"), &workloads::refusals());
    listings_and_look_ups(&mut bench);
    rows_and_comparisons(&mut bench);
    let payload = fill(MAX_PAYLOAD, 0);
    bench.telegrams(MIN_SIZE, &payload);
    bench.telegrams(MAX_SIZE, &payload);
    let [_, full, bad] = answers;
    memory(&[workloads::days(1), full, bad, change, workloads::conflicts()]);

    if bench.agrees {
        println!("\nBoth gave the same answers.");
        ExitCode::SUCCESS
    } else {
        println!("\nThe answers differ.");
        ExitCode::FAILURE
    }
}
