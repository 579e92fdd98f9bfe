//! Rings played through both boxes: each record is offered to both, and everything that comes back is compared.

use crate::boxes::{ReferenceRing, RingBox, Shown};
use crate::lent::{Lent, Names, Pattern};
use crate::lists_boxes::{Given, NO_ROW};
use crate::minimize::{minimize, Simpler};
use crate::script::{differ, differ_at, must, must_at, Difference, Found};
use lathepetal::Rows;
use reference::registry::Ring;
use reference::sizes::{BENCH_DIFFERENCE_ROOM, BENCH_ROOM, MAX_NODES, MAX_UNITS, MIN_ROOM};
use reference::wire::{event, ADDRESS, ANSWER, ANSWER_HEAD, COUNT, DELAY, KIND, NCE, NONE, PASS, RECORD_HEAD, RECORD_MARK, START, X};

/// The most order room that is lent; a script can lend less.
pub const MOST_ROOM: usize = 2 * MIN_ROOM;
const NAMES: Names = Names { number: "number of the record", length: "length of the orders" };

/// One step of a session.
#[derive(Clone)]
pub enum Step {
    /// A record with `room` bytes of order room, filled with the pattern from place `fill` on. Kinds with a pass carry one that is
    /// `ahead` of the current one, so that a session keeps its sense when steps are dropped.
    Record { bytes: Vec<u8>, ahead: u32, room: usize, fill: usize },
    /// The pass is set in both pictures.
    Pass(u32),
}

impl Step {
    /// A record that carries the pass given where it has one.
    pub fn record(bytes: &[u8], current_pass: u32, room: usize, fill: usize) -> Step {
        let ahead = match carried_pass(bytes) {
            Some(pass) => pass.wrapping_sub(current_pass),
            None => 0,
        };
        Step::Record { bytes: bytes.to_vec(), ahead, room, fill }
    }

    /// An NCE as a START.
    fn as_start(&self) -> Option<Step> {
        match self {
            Step::Record { bytes, ahead, room, fill } if nodes(bytes).is_some() && bytes[KIND] == NCE => {
                let bytes = event(START, 0, bytes[X]);
                Some(Step::Record { bytes, ahead: *ahead, room: *room, fill: *fill })
            }
            _ => None,
        }
    }

    /// The step in a ring without the unit at a position, where it is still one.
    fn without_unit(&self, position: u8) -> Option<Step> {
        let Step::Record { bytes, ahead, room, fill } = self else { return Some(self.clone()) };
        let mut bytes = bytes.clone();
        match bytes[..] {
            [_, _, ANSWER | NONE, _, _, _, _, x, ..] if x == position => return None,
            [_, _, START | NCE | ANSWER | NONE, _, _, _, _, x, ..] if x > position => bytes[X] = x - 1,
            _ => {}
        }
        Some(Step::Record { bytes, ahead: *ahead, room: *room, fill: *fill })
    }
}

impl Simpler for Step {
    fn simpler(&self) -> Vec<Step> {
        match self {
            Step::Pass(u32::MAX) => Vec::new(),
            Step::Pass(_) => vec![Step::Pass(u32::MAX)],
            Step::Record { bytes, ahead, room, fill } => {
                let with = |bytes: Vec<u8>, room: usize| Step::Record { bytes, ahead: *ahead, room, fill: *fill };
                let roomy = (*room != BENCH_ROOM).then(|| with(bytes.clone(), BENCH_ROOM));
                roomy.into_iter().chain(simpler_records(bytes).into_iter().map(|bytes| with(bytes, *room))).collect()
            }
        }
    }

    /// Sessions that begin with a later scan, and sessions without one of the units: the greatest N is less by one.
    fn rewritten(steps: &[Step]) -> Vec<Vec<Step>> {
        let nodes = |step: &Step| match step {
            Step::Record { bytes, .. } => nodes(bytes),
            Step::Pass(_) => None,
        };
        let most = steps.iter().filter_map(nodes).max().unwrap_or(0).min(MAX_NODES as u8);
        let later = (1..steps.len()).filter_map(|at| Some([&[steps[at].as_start()?], &steps[at + 1..]].concat()));
        let smaller = (1..most).map(|position| steps.iter().filter_map(|step| step.without_unit(position)).collect());
        later.chain(smaller).collect()
    }
}

/// A scan of a smaller ring; an ANSWER with the unit's own address, with one that is bad for any unit, or without one of its pairs.
fn simpler_records(bytes: &[u8]) -> Vec<Vec<u8>> {
    if let Some(nodes) = nodes(bytes) {
        let smaller = [nodes / 2, nodes.saturating_sub(1)].into_iter().filter(|&nodes| nodes > 0);
        return smaller.map(|nodes| [&bytes[..X], &[nodes]].concat()).collect();
    }
    if bytes.len() < ANSWER_HEAD || bytes[KIND] != ANSWER || bytes.len() != ANSWER_HEAD + 2 * bytes[COUNT] as usize {
        return Vec::new();
    }
    let mut records = Vec::new();
    let own = (0x0100 + u16::from(bytes[X])).to_be_bytes();
    let bad = [0, 0];
    if bytes[ADDRESS] != own {
        records.push([&bytes[..ADDRESS.start], &own, &bytes[ADDRESS.end..]].concat());
        if bytes[ADDRESS] != bad {
            records.push([&bytes[..ADDRESS.start], &bad, &bytes[ADDRESS.end..]].concat());
        }
    }
    for at in (ANSWER_HEAD..bytes.len()).step_by(2) {
        let mut fewer = bytes.to_vec();
        fewer.drain(at..at + 2);
        fewer[COUNT] -= 1;
        records.push(fewer);
    }
    records
}

/// The pass of a record of a kind that carries one.
fn carried_pass(bytes: &[u8]) -> Option<u32> {
    match *bytes {
        [m0, m1, ANSWER | NONE | DELAY, p0, p1, p2, p3, ..] if [m0, m1] == RECORD_MARK => Some(u32::from_be_bytes([p0, p1, p2, p3])),
        _ => None,
    }
}

/// N of a record that brings one.
fn nodes(bytes: &[u8]) -> Option<u8> {
    (bytes.len() == RECORD_HEAD && matches!(bytes[KIND], START | NCE)).then(|| bytes[X])
}

/// One ring in both boxes.
pub struct Player<P> {
    proved: P,
    reference: ReferenceRing,
    shown: Shown,
    lent: Lent,
}

impl<P: RingBox> Player<P> {
    /// Fresh pictures for L; a bad L leaves both with one for 12.
    pub fn fresh(l: usize, pattern: Pattern) -> Result<Player<P>, Difference> {
        let (proved_number, proved) = P::fresh(l);
        let (number, reference) = ReferenceRing::fresh(l);
        differ("number of fresh", proved_number, number)?;
        let shown = reference.show();
        let player = Player { proved, reference, shown, lent: Lent::new(NAMES, pattern) };
        player.compare_shown()?;
        Ok(player)
    }

    /// A pattern for the room that is lent.
    pub fn pattern(word: impl FnMut() -> u64) -> Pattern {
        Pattern::new(MOST_ROOM, word)
    }

    /// The ring of the proved side.
    pub fn proved(&self) -> &P {
        &self.proved
    }

    /// The reference's ring.
    pub fn ring(&self) -> &Ring {
        &self.reference.0
    }

    /// What the reference's picture says.
    pub fn shown(&self) -> &Shown {
        &self.shown
    }

    /// Plays one step in both boxes and compares; gives the number and the orders.
    pub fn play(&mut self, step: &Step) -> Result<(u8, &[u8]), Difference> {
        match step {
            Step::Pass(pass) => {
                self.proved.set_pass(*pass);
                self.reference.set_pass(*pass);
                self.shown.pass = *pass;
                self.compare_shown()?;
                Ok((0, &[]))
            }
            Step::Record { room, fill, .. } => self.offer(&self.bytes_of(step), *room, *fill),
        }
    }

    /// The bytes of a record in the current pass.
    pub fn bytes_of(&self, step: &Step) -> Vec<u8> {
        let Step::Record { bytes, ahead, .. } = step else { return Vec::new() };
        let mut bytes = bytes.clone();
        if carried_pass(&bytes).is_some() {
            bytes[PASS].copy_from_slice(&self.shown.pass.wrapping_add(*ahead).to_be_bytes());
        }
        bytes
    }

    fn offer(&mut self, bytes: &[u8], room: usize, fill: usize) -> Result<(u8, &[u8]), Difference> {
        let Player { proved, reference, lent, .. } = self;
        let before = (proved.clone(), reference.clone());
        let (number, length) =
            lent.offer(bytes, room, fill, |bytes, out| proved.record(bytes, out), |bytes, out| reference.record(bytes, out))?;
        if number != 0 {
            must("proved: picture unchanged by a refusal", *proved == before.0, true)?;
            must("reference: picture unchanged by a refusal", *reference == before.1, true)?;
        }
        self.shown = self.reference.show();
        self.compare_shown()?;
        Ok((number, self.lent.written(length)))
    }

    fn compare_shown(&self) -> Result<(), Difference> {
        let (proved, reference) = (self.proved.show(), &self.shown);
        if proved == *reference {
            return Ok(());
        }
        differ("state", proved.state, reference.state)?;
        differ("pass", proved.pass, reference.pass)?;
        differ("L", proved.size, reference.size)?;
        differ("N", proved.nodes, reference.nodes)?;
        differ("delay", proved.delay, reference.delay)?;
        for ((position, row), (_, other)) in proved.rows().zip(reference.rows()) {
            differ(&format!("row of position {position}"), row, other)?;
        }
        differ("open questions", proved.open, reference.open)
    }

    /// Compares the whole listing; gives its pairs.
    pub fn compare_listing(&self) -> Result<Vec<(u8, u8)>, Difference> {
        let (proved, reference) = (self.proved.listing(), self.reference.listing());
        if proved != reference {
            differ("count of the listing", proved.count, reference.count)?;
            differ_at("position of the listing at place", &proved.positions, &reference.positions)?;
            differ_at("address of the listing at place", &proved.addresses, &reference.addresses)?;
            differ_at("block of the listing at place", &proved.blocks, &reference.blocks)?;
            differ_at("number of the listing at place", &proved.numbers, &reference.numbers)?;
        }
        let count = reference.count;
        Ok(reference.blocks[..count].iter().copied().zip(reference.numbers[..count].iter().copied()).collect())
    }

    /// Compares a look-up; gives its number, position and address.
    pub fn compare_look_up(&self, block: u8, number: u8) -> Result<(u8, u8, u16), Difference> {
        let (proved, reference) = (self.proved.look_up(block, number), self.reference.look_up(block, number));
        if proved != reference {
            differ(&format!("lookup {block:02X} {number:02X} (number, position, address)"), proved, reference)
                .map_err(|difference| difference.shown_by(format!("lookup {block:02X} {number:02X}")))?;
        }
        Ok(reference)
    }

    /// Compares the listed rows; gives them.
    pub fn compare_listed_rows(&self) -> Result<Rows, Difference> {
        let rows = self.proved.listed_rows();
        let shown = |difference: Difference| difference.shown_by(format!("first none\nsecond\ncompare {BENCH_DIFFERENCE_ROOM}"));
        self.are_listed(&rows).map_err(shown)?;
        Ok(rows)
    }

    /// The rows are those of the reference, each with the picture's own entry, and zeros stand behind them.
    fn are_listed(&self, rows: &Rows) -> Result<(), Difference> {
        let listed = self.reference.0.listed_rows();
        differ("count of the listed rows", rows.count, listed.len())?;
        let (counted, behind) = rows.rows.split_at(rows.count);
        for (row, listed) in counted.iter().zip(listed) {
            differ("listed row", Given::from(*row).seen(), listed)?;
            must("proved: listed row and the picture's own entry", row.entry, self.proved.entry(row.position))?;
        }
        must_at("proved: behind the listed rows, row", behind, &[NO_ROW; MAX_UNITS][..behind.len()])
    }

    /// Compares the listing, the listed rows, the look-up of each listed pair, of its neighbours and of pairs at the edges: how many pairs
    /// are listed.
    pub fn compare_closely(&self) -> Result<usize, Difference> {
        let pairs = self.compare_listing()?;
        self.compare_listed_rows()?;
        for &(block, number) in &pairs {
            self.compare_look_up(block, number)?;
            self.compare_look_up(block, number.wrapping_add(1))?;
            self.compare_look_up(block.wrapping_add(1), number)?;
        }
        for (block, number) in [(0, 0), (0, 1), (1, 1), (2, 1), (0x22, 0), (0x22, 0xFF), (0xFE, 0xFE), (0xFF, 0xFF)] {
            self.compare_look_up(block, number)?;
        }
        Ok(pairs.len())
    }
}

/// A session as far as it is played.
pub struct Session {
    pub l: usize,
    pub pattern: Pattern,
    pub steps: Vec<Step>,
}

impl Session {
    /// Plays steps anew and compares closely after each: the difference that shows, if any.
    fn replay<P: RingBox>(&self, steps: &[Step]) -> Option<Difference> {
        let run = || {
            let mut player = Player::<P>::fresh(self.l, self.pattern.clone())?;
            player.compare_closely()?;
            for step in steps {
                player.play(step)?;
                player.compare_closely()?;
            }
            Ok(())
        };
        run().err()
    }

    /// The shortest script that shows a difference, as `found` in the run.
    pub fn explain<P: RingBox>(&self, found: Difference) -> Found {
        let differs = |steps: &[Step]| self.replay::<P>(steps).is_some();
        let steps = match differs(&self.steps) {
            true => minimize(self.steps.clone(), differs),
            false => self.steps.clone(),
        };
        let difference = self.replay::<P>(&steps).unwrap_or(found);
        Found { program: "ringbox", script: self.script::<P>(&steps, &difference), difference }
    }

    /// Steps as a bench script for `ringbox`.
    fn script<P: RingBox>(&self, steps: &[Step], difference: &Difference) -> String {
        let mut text = format!("fresh {}\n", self.l);
        let mut player = Player::<P>::fresh(self.l, self.pattern.clone()).ok();
        let mut lent = BENCH_ROOM;
        for step in steps {
            match step {
                Step::Pass(pass) => text += &format!("# here the pass is set to {pass}, which no script can show\n"),
                Step::Record { bytes, room, .. } => {
                    if *room != lent {
                        lent = *room;
                        text += &match lent > BENCH_ROOM {
                            true => format!("# from here on the room is {room}, which no script can lend\nroom {BENCH_ROOM}\n"),
                            false => format!("room {room}\n"),
                        };
                    }
                    let bytes = player.as_ref().map_or(bytes.clone(), |player| player.bytes_of(step));
                    text += &format!("> {}\n", hex_of_record(&bytes));
                }
            }
            player = player.and_then(|mut player| player.play(step).is_ok().then_some(player));
        }
        text += "state\nrows\nlisting\n";
        if let Some(line) = &difference.line {
            text += &format!("{line}\n");
        }
        text
    }
}

/// The normal form of a record.
pub fn hex_of_record(bytes: &[u8]) -> String {
    let mut text = String::new();
    for (index, byte) in bytes.iter().enumerate() {
        let pairs = bytes.get(KIND) == Some(&ANSWER) && (index == COUNT || index >= ANSWER_HEAD && (index - ANSWER_HEAD) % 2 == 0);
        if [KIND, PASS.start, X, RECORD_HEAD].contains(&index) || pairs {
            text.push(' ');
        }
        text += &format!("{byte:02X}");
    }
    text
}
