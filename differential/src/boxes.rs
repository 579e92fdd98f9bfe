//! The two boxes behind one face: the proved library and the reference.

use std::fmt;

use lathepetal::{Entry, FlatListing, JoinState, Picture, Row, Rows, MAX_LISTED, MAX_PAIRS, MAX_UNITS};
use reference::registry::{self, Ring, State, Status};
use reference::sizes;
use reference::telegrams::{self, Joining};

// Both sides have the same sizes.
const _: () = {
    assert!(MAX_UNITS == sizes::MAX_UNITS && MAX_PAIRS == sizes::MAX_PAIRS && MAX_LISTED == sizes::MAX_LISTED);
    assert!(lathepetal::MIN_SIZE == sizes::MIN_SIZE && lathepetal::MAX_SIZE == sizes::MAX_SIZE);
    assert!(lathepetal::MIN_ROOM == sizes::MIN_ROOM && lathepetal::MAX_PAYLOAD == sizes::MAX_PAYLOAD);
    assert!(lathepetal::MAX_TELEGRAM == sizes::MAX_TELEGRAM);
    assert!(lathepetal::MAX_ANSWERS == sizes::MAX_KNOWN && lathepetal::MIN_ANSWER_ROOM == sizes::MIN_ANSWER_ROOM);
};

/// The statuses of a row, by number.
pub const STATUSES: [&str; 5] = ["WAITING", "SETTING", "LISTED", "SILENT", "IGNORED"];

/// One row of a picture, with zeros for what it does not keep.
#[derive(Clone, Copy, PartialEq, Default)]
pub struct ShownRow {
    pub status: u8,
    pub address: Option<u16>,
    pub bad: u8,
    pub silences: u8,
    pub place: u8,
    pub tries: u8,
    pub count: u8,
    pub blocks: [u8; MAX_PAIRS],
    pub numbers: [u8; MAX_PAIRS],
}

impl ShownRow {
    /// The row as an entry of a picture.
    fn entry(&self) -> Entry {
        let ShownRow { status, address, bad, silences, place, tries, count, blocks, numbers } = *self;
        Entry { address: address.unwrap_or(0), status, bad, silences, place, tries, count, blocks, numbers }
    }
}

/// As `rows` writes it, with place and tries of the renumbering.
impl fmt::Debug for ShownRow {
    fn fmt(&self, f: &mut fmt::Formatter) -> fmt::Result {
        let status = STATUSES.get(self.status as usize).unwrap_or(&"?");
        let address = self.address.map_or("----".to_string(), |address| format!("{address:04X}"));
        write!(f, "{status} {address} bad {} silent {} place {} tries {}", self.bad, self.silences, self.place, self.tries)?;
        let count = self.count as usize;
        self.blocks.iter().zip(&self.numbers).take(count).try_for_each(|(block, number)| write!(f, " {block:02X}.{number:02X}"))
    }
}

/// What a picture says.
#[derive(Clone, PartialEq)]
pub struct Shown {
    pub state: u8,
    pub pass: u32,
    pub size: u8,
    pub nodes: u8,
    pub delay: bool,
    pub open: u8,
    /// Position p stands at p - 1.
    pub rows: [ShownRow; MAX_UNITS],
}

impl Shown {
    /// The rows that there are, with their positions.
    pub fn rows(&self) -> impl Iterator<Item = (u8, &ShownRow)> {
        (1..self.nodes).zip(&self.rows)
    }
}

/// A box that keeps the registry of a ring. A number 0 means that there is no refusal.
pub trait RingBox: Clone + PartialEq + 'static {
    /// A fresh picture for L and the number given back.
    fn fresh(l: usize) -> (u8, Self);

    /// Offers a record; gives the number and the length of the orders.
    fn record(&mut self, bytes: &[u8], out: &mut [u8]) -> (u8, usize);

    fn show(&self) -> Shown;

    fn listing(&self) -> FlatListing;

    /// Number, position and address.
    fn look_up(&self, block: u8, number: u8) -> (u8, u8, u16);

    fn listed_rows(&self) -> Rows;

    /// The entry that the picture has for a unit.
    fn entry(&self, position: u8) -> Entry;

    fn set_pass(&mut self, pass: u32);
}

/// The picture of the proved library.
#[derive(Clone, PartialEq)]
pub struct ProvedRing(pub Picture);

impl RingBox for ProvedRing {
    fn fresh(l: usize) -> (u8, ProvedRing) {
        let outcome = lathepetal::fresh(l);
        (outcome.number, ProvedRing(outcome.picture))
    }

    fn record(&mut self, bytes: &[u8], out: &mut [u8]) -> (u8, usize) {
        let outcome = lathepetal::record(self.0, bytes, out);
        self.0 = outcome.picture;
        (outcome.number, outcome.length)
    }

    fn show(&self) -> Shown {
        let picture = &self.0;
        let mut rows = [ShownRow::default(); MAX_UNITS];
        let units = picture.units as usize;
        for (row, entry) in rows.iter_mut().zip(&picture.entries).take(units) {
            row.status = entry.status;
            row.bad = entry.bad;
            row.silences = entry.silences;
            let keeps = matches!(entry.status, lathepetal::SETTING | lathepetal::LISTED);
            if keeps || entry.status == lathepetal::IGNORED {
                row.address = Some(entry.address);
            }
            if keeps {
                let count = (entry.count as usize).min(MAX_PAIRS);
                row.count = entry.count;
                row.blocks[..count].copy_from_slice(&entry.blocks[..count]);
                row.numbers[..count].copy_from_slice(&entry.numbers[..count]);
            }
            if entry.status == lathepetal::SETTING {
                row.place = entry.place;
                row.tries = entry.tries;
            }
        }
        let open = rows.iter().take(units).filter(|row| matches!(row.status, lathepetal::WAITING | lathepetal::SETTING)).count();
        Shown {
            state: picture.state,
            pass: picture.pass,
            size: picture.size,
            nodes: if picture.state == lathepetal::OFF { 0 } else { picture.units + 1 },
            delay: picture.delay != 0,
            open: open as u8,
            rows,
        }
    }

    fn listing(&self) -> FlatListing {
        lathepetal::listing(self.0)
    }

    fn look_up(&self, block: u8, number: u8) -> (u8, u8, u16) {
        let outcome = lathepetal::look_up(self.0, block, number);
        (outcome.number, outcome.position, outcome.address)
    }

    fn listed_rows(&self) -> Rows {
        lathepetal::listed_rows(self.0)
    }

    fn entry(&self, position: u8) -> Entry {
        self.0.entries[position as usize - 1]
    }

    fn set_pass(&mut self, pass: u32) {
        self.0.pass = pass;
    }
}

/// The ring of the reference.
#[derive(Clone, PartialEq)]
pub struct ReferenceRing(pub Ring);

impl RingBox for ReferenceRing {
    fn fresh(l: usize) -> (u8, ReferenceRing) {
        match Ring::fresh(narrow(l)) {
            Ok(ring) => (0, ReferenceRing(ring)),
            Err(number) => (number, ReferenceRing(Ring::default())),
        }
    }

    fn record(&mut self, bytes: &[u8], out: &mut [u8]) -> (u8, usize) {
        number_and_value(self.0.record(bytes, out))
    }

    fn show(&self) -> Shown {
        let mut rows = [ShownRow::default(); MAX_UNITS];
        for (position, row) in self.0.rows() {
            rows[position as usize - 1] = shown(row);
        }
        Shown {
            state: match self.0.state() {
                State::Off => lathepetal::OFF,
                State::NotOk => lathepetal::NOTOK,
                State::Ok => lathepetal::OK,
            },
            pass: self.0.pass(),
            size: self.0.payload_size(),
            nodes: self.0.nodes(),
            delay: self.0.delay_runs(),
            open: self.0.open_questions(),
            rows,
        }
    }

    fn listing(&self) -> FlatListing {
        let entries = self.0.listing();
        let mut flat = FlatListing {
            count: entries.len(),
            positions: [0; MAX_LISTED],
            addresses: [0; MAX_LISTED],
            blocks: [0; MAX_LISTED],
            numbers: [0; MAX_LISTED],
        };
        for (index, entry) in entries.iter().enumerate() {
            flat.positions[index] = entry.position;
            flat.addresses[index] = entry.address;
            flat.blocks[index] = entry.block;
            flat.numbers[index] = entry.number;
        }
        flat
    }

    fn look_up(&self, block: u8, number: u8) -> (u8, u8, u16) {
        match self.0.look_up(block, number) {
            Ok((position, address)) => (0, position, address),
            Err(number) => (number, 0, 0),
        }
    }

    fn listed_rows(&self) -> Rows {
        let mut rows = Rows { count: 0, rows: [Row { position: 0, entry: ShownRow::default().entry() }; MAX_UNITS] };
        for listed in self.0.listed_rows() {
            rows.rows[rows.count] = Row { position: listed.position, entry: self.entry(listed.position) };
            rows.count += 1;
        }
        rows
    }

    fn entry(&self, position: u8) -> Entry {
        self.0.row(position).map(shown).unwrap_or_default().entry()
    }

    fn set_pass(&mut self, pass: u32) {
        self.0.pass = pass;
    }
}

/// What a row of the reference says.
fn shown(row: &registry::Row) -> ShownRow {
    let mut shown = ShownRow::default();
    shown.status = match row.status() {
        Status::Waiting => lathepetal::WAITING,
        Status::Setting { place, tries, .. } => {
            shown.place = place;
            shown.tries = tries;
            lathepetal::SETTING
        }
        Status::Listed { .. } => lathepetal::LISTED,
        Status::Silent => lathepetal::SILENT,
        Status::Ignored { .. } => lathepetal::IGNORED,
    };
    shown.address = row.address();
    shown.bad = row.bad();
    shown.silences = row.silences();
    shown.count = row.pairs().len() as u8;
    for (index, pair) in row.pairs().iter().enumerate() {
        shown.blocks[index] = pair.block;
        shown.numbers[index] = pair.number;
    }
    shown
}

/// What a join gives back.
#[derive(Clone, Copy, PartialEq, Debug)]
pub struct Joined {
    pub number: u8,
    pub complete: u8,
    pub msg_id: u32,
    pub length: usize,
}

/// A box that cuts and joins telegrams; its value is the state between the telegrams of a message.
pub trait TelegramBox: Clone + PartialEq {
    /// No message is open.
    fn fresh() -> Self;

    /// The number and how many telegrams.
    fn count(l: usize, payload: &[u8]) -> (u8, usize);

    /// The number and the length of the telegram.
    fn cut(l: usize, msg_id: u32, payload: &[u8], number: usize, out: &mut [u8]) -> (u8, usize);

    fn join(&mut self, l: usize, buffer: &mut [u8], telegram: &[u8]) -> Joined;

    fn is_open(&self) -> bool;

    /// A state without an open message is four zeros, and one with an open message is marked 1.
    fn is_plain(&self) -> bool;
}

/// The join state of the proved library.
#[derive(Clone, PartialEq)]
pub struct ProvedTelegrams(JoinState);

impl TelegramBox for ProvedTelegrams {
    fn fresh() -> ProvedTelegrams {
        ProvedTelegrams(lathepetal::join_fresh())
    }

    fn count(l: usize, payload: &[u8]) -> (u8, usize) {
        let outcome = lathepetal::count(l, payload);
        (outcome.number, outcome.telegrams)
    }

    fn cut(l: usize, msg_id: u32, payload: &[u8], number: usize, out: &mut [u8]) -> (u8, usize) {
        let outcome = lathepetal::cut(l, msg_id, payload, number, out);
        (outcome.number, outcome.length)
    }

    fn join(&mut self, l: usize, buffer: &mut [u8], telegram: &[u8]) -> Joined {
        let outcome = lathepetal::join(self.0, l, buffer, telegram);
        self.0 = outcome.state;
        Joined { number: outcome.number, complete: outcome.complete, msg_id: outcome.msg_id, length: outcome.length }
    }

    fn is_open(&self) -> bool {
        self.0.open != 0
    }

    fn is_plain(&self) -> bool {
        match self.0.open {
            0 => self.0 == JoinState { open: 0, msg_id: 0, counter: 0, length: 0 },
            mark => mark == 1,
        }
    }
}

/// The join state of the reference.
#[derive(Clone, PartialEq)]
pub struct ReferenceTelegrams(Joining);

impl TelegramBox for ReferenceTelegrams {
    fn fresh() -> ReferenceTelegrams {
        ReferenceTelegrams(Joining::fresh())
    }

    fn count(l: usize, payload: &[u8]) -> (u8, usize) {
        number_and_value(telegrams::count(narrow(l), payload).map(|count| count as usize))
    }

    fn cut(l: usize, msg_id: u32, payload: &[u8], number: usize, out: &mut [u8]) -> (u8, usize) {
        number_and_value(telegrams::cut(narrow(l), msg_id, payload, narrow(number), out))
    }

    fn join(&mut self, l: usize, buffer: &mut [u8], telegram: &[u8]) -> Joined {
        let (number, complete) = match self.0.join(narrow(l), buffer, telegram) {
            Ok(complete) => (0, complete),
            Err(number) => (number, None),
        };
        let (msg_id, length) = complete.unwrap_or((0, 0));
        Joined { number, complete: u8::from(complete.is_some()), msg_id, length }
    }

    fn is_open(&self) -> bool {
        self.0.is_open()
    }

    fn is_plain(&self) -> bool {
        true
    }
}

/// The reference takes L and telegram numbers of 32 bits; the greatest of these stands for all above it, as no good one is near.
fn narrow(value: usize) -> u32 {
    u32::try_from(value).unwrap_or(u32::MAX)
}

fn number_and_value(result: Result<usize, u8>) -> (u8, usize) {
    match result {
        Ok(value) => (0, value),
        Err(number) => (number, 0),
    }
}
