//! The differential test: the proved library and the reference take the same records, telegrams, orders and lists of rows, and all that
//! they give is compared.

mod benches;
mod boxes;
mod claim;
mod comparisons;
#[cfg(test)]
mod faults;
mod lent;
mod lists;
mod lists_boxes;
mod lists_claim;
#[cfg(test)]
mod lists_faults;
mod minimize;
mod ring;
mod scenes;
mod script;
mod streams;
mod telegrams;
#[cfg(test)]
mod unit_faults;
mod units;
mod units_boxes;

use std::process::ExitCode;
use std::time::{Instant, SystemTime, UNIX_EPOCH};

use benches::Claims;
use boxes::{ProvedRing, ProvedTelegrams, STATUSES};
use lists_boxes::{ProvedLists, ReferenceLists};
use reference::sizes::MAX_PAIRS;
use reference::{refusal, wire};
use script::Found;
use units_boxes::ProvedUnit;

const USAGE: &str = "usage: differential [SEED] [RECORDS] [TELEGRAMS] [ORDERS] [COMPARISONS]";
const RECORDS: usize = 1_000_000;
const TELEGRAMS: usize = 200_000;
const ORDERS: usize = 300_000;
const COMPARISONS: usize = 100_000;
/// The kinds of orders, from 1 on.
const ORDER_NAMES: [&str; 8] = ["ASK", "SET", "OK", "NOTOK", "NEW", "INVALID", "WAIT SHORT", "WAIT LONG"];
/// The kinds of lines, from 1 on.
const LINE_NAMES: [&str; 5] = ["position gone", "position new", "address changed", "pair gone", "pair new"];

fn main() -> ExitCode {
    let words: Option<Vec<u64>> = std::env::args().skip(1).map(|word| word.parse().ok()).collect();
    let Some(words) = words.filter(|words| words.len() <= 5) else {
        eprintln!("{USAGE}");
        return ExitCode::from(2);
    };
    let seed = words.first().copied().unwrap_or_else(seed_from_the_clock);
    let count = |place: usize, unless_given: usize| words.get(place).map_or(unless_given, |&count| count as usize);
    let (records, telegrams, orders) = (count(1, RECORDS), count(2, TELEGRAMS), count(3, ORDERS));
    let comparisons = count(4, COMPARISONS);
    println!("seed {seed}");

    let mut registry = scenes::Tally::default();
    let found = scenes::run::<ProvedRing, ProvedLists, ReferenceLists>(seed, records, &mut registry, progress("records", records));
    if let Some(found) = found {
        return different(seed, registry.records, found);
    }
    let mut transport = streams::Tally::default();
    if let Some(found) = streams::run::<ProvedTelegrams>(seed, telegrams, &mut transport, progress("telegrams", telegrams)) {
        return different(seed, transport.telegrams, found);
    }
    let mut units = benches::Tally::default();
    if let Some(found) = benches::run::<ProvedRing, ProvedUnit>(seed, orders, &[], &mut units, progress("orders", orders)) {
        return different(seed, units.orders, found);
    }
    let mut lists = comparisons::Tally::default();
    let found = comparisons::run::<ProvedLists, ReferenceLists>(seed, comparisons, &mut lists, progress("comparisons", comparisons));
    if let Some(found) = found {
        return different(seed, lists.comparisons, found);
    }
    report(&registry, &transport);
    report_units(&units);
    report_lists("comparisons of two pictures", &registry.pictures);
    report_lists("comparisons of two lists", &lists);
    let changes = registry.changes.all;
    println!(
        "differential: seed {seed}: {records} records, {changes} of them NCEs in OK, {telegrams} telegrams, {orders} orders, \
         {comparisons} comparisons, no difference"
    );
    ExitCode::SUCCESS
}

fn seed_from_the_clock() -> u64 {
    SystemTime::now().duration_since(UNIX_EPOCH).map_or(0, |time| time.as_micros() as u64 % 1_000_000_000)
}

/// Says on standard error, every few seconds, how far the run is.
fn progress(what: &'static str, of: usize) -> impl FnMut(usize) {
    let mut said = Instant::now();
    move |played| {
        if said.elapsed().as_secs() >= 5 {
            said = Instant::now();
            eprintln!("{played} of {of} {what}");
        }
    }
}

/// Prints what differs and the script that shows it.
fn different(seed: u64, played: usize, found: Found) -> ExitCode {
    println!("# {}", found.difference.what);
    println!("# a script for {}:", found.program);
    print!("{}", found.script);
    println!("# differential: seed {seed}: a difference after {played}");
    ExitCode::FAILURE
}

fn names(names: &[&str], counts: &[usize]) -> String {
    names.iter().zip(counts).map(|(name, count)| format!(" {name} {count}")).collect()
}

fn numbers(counts: &[usize], from: u8, to: u8) -> String {
    (from..=to).map(|n| format!(" {n} {}", counts[n as usize])).collect()
}

/// What the run came across.
fn report(registry: &scenes::Tally, transport: &streams::Tally) {
    eprintln!("{} sessions; {} listings compared, {} of them full", registry.sessions, registry.listings, registry.full_listings);
    eprintln!("ANSWERs taken, by pairs:{}", numbers(&registry.answers, 0, MAX_PAIRS as u8));
    eprintln!("records by number:{}", numbers(&registry.numbers, 0, refusal::NO_PASS_LEFT));
    eprintln!("orders:{}", names(&ORDER_NAMES, &registry.orders[wire::ASK as usize..]));
    eprintln!("rows seen:{}", names(&STATUSES, &registry.rows));
    let changes = &registry.changes;
    let told = [changes.all, changes.telling, changes.asking, changes.delayed, changes.fewer];
    eprintln!("NCEs in OK:{}", names(&["taken", "telling pairs", "with a question open", "while a delay ran", "to fewer nodes"], &told));
    eprintln!("telegram refusals:{}", numbers(&transport.numbers, refusal::ILLEGAL_SIZE, refusal::OUT_OF_SEQUENCE));
    eprintln!("{} messages joined", transport.messages);
}

/// What the units came across.
fn report_units(units: &benches::Tally) {
    let benches::Tally { look_ups, losses, sets, claims, .. } = units;
    eprintln!("units: made {}, refused {}", units.units[0], units.units[refusal::TOO_MANY_PAIRS as usize]);
    eprintln!("orders read by units:{}", names(&ORDER_NAMES, &units.kinds[wire::ASK as usize..]));
    eprintln!("orders refused by units:{}", numbers(&units.numbers, refusal::ANSWER_ROOM_TOO_SHORT, refusal::ORDER_MALFORMED));
    let told = [look_ups.learned, look_ups.renewed, look_ups.full, look_ups.refused];
    eprintln!("look-ups:{}", names(&["learned", "renewed", "with 64 kept", "refused"], &told));
    let lost = [losses.dropped, losses.by_notok, losses.by_pass];
    eprintln!("answers:{}", names(&["dropped by INVALID", "emptied by NOTOK", "emptied by a new pass"], &lost));
    eprintln!("SETs:{}", names(&["obeyed", "not obeyed", "for others"], &[sets.obeyed, sets.not_obeyed, sets.others]));
    let Claims { checked, keeping, answers } = claims;
    eprintln!("claim checked {checked} times, {keeping} of them with answers kept, {answers} in all");
}

/// What comparisons came across.
fn report_lists(what: &str, lists: &comparisons::Tally) {
    let refused = numbers(&lists.numbers, refusal::ROWS_NOT_RISING, refusal::NO_ROOM_FOR_DIFFERENCES);
    let malformed = lists.numbers[refusal::ROW_MALFORMED as usize];
    eprintln!("{what}: {}; refused {} {malformed}{refused}", lists.comparisons, refusal::ROW_MALFORMED);
    let told = [lists.same, lists.single, lists.greatest, lists.long];
    eprintln!("  of these:{}", names(&["without a line", "with one", "with 3,087", "of more than 64 rows"], &told));
    eprintln!("  lines:{}", names(&LINE_NAMES, &lists.kinds[1..]));
}
