//! The registry of a MOST ring: the NetworkMaster's picture of its units and the orders it gives.

mod orders;
mod record;

use crate::compare::ListRow;
use crate::refusal;
use crate::sizes::{MAX_LISTED, MAX_NODES, MAX_NUMBER, MAX_PAIRS, MIN_NUMBER, MIN_ROOM, MIN_SIZE};
use crate::telegrams::payload_size;
use orders::Orders;
use record::{Announcement, Event};

/// The good addresses.
pub const ADDRESS_MIN: u16 = 0x0101;
pub const ADDRESS_MAX: u16 = 0x02FF;

const MAX_BAD: u8 = 3;
const MAX_TRIES: u8 = 3;
const MAX_SILENCES: u8 = 20;

/// The state of the ring.
#[derive(Clone, Copy, PartialEq, Eq, Debug)]
pub enum State {
    Off,
    NotOk,
    Ok,
}

/// FBlockID and InstID of one block instance.
#[derive(Clone, Copy, PartialEq, Eq, Hash, Debug)]
pub struct Pair {
    pub block: u8,
    pub number: u8,
}

const NO_PAIR: Pair = Pair { block: 0, number: 0 };

/// Where a row stands, with the address it keeps there.
#[derive(Clone, Copy, PartialEq, Eq, Debug)]
pub enum Status {
    Waiting,
    /// `place` is the index of the announced pair under renumbering, `tries` the SETs sent for it.
    Setting {
        address: u16,
        place: u8,
        tries: u8,
    },
    Listed {
        address: u16,
    },
    Silent,
    /// The address is the one that caused it.
    Ignored {
        address: u16,
    },
}

impl Status {
    fn is_open(self) -> bool {
        matches!(self, Status::Waiting | Status::Setting { .. })
    }

    /// The address of a listed position.
    fn kept_address(self) -> Option<u16> {
        match self {
            Status::Setting { address, .. } | Status::Listed { address } => Some(address),
            _ => None,
        }
    }
}

/// What the registry knows of one unit.
#[derive(Clone, Copy, PartialEq, Eq, Debug)]
pub struct Row {
    status: Status,
    bad: u8,
    silences: u8,
    length: u8,
    /// The kept pairs in announced order; the places after them hold `NO_PAIR`.
    pairs: [Pair; MAX_PAIRS],
}

impl Row {
    const EMPTY: Row = Row { status: Status::Waiting, bad: 0, silences: 0, length: 0, pairs: [NO_PAIR; MAX_PAIRS] };

    pub fn status(&self) -> Status {
        self.status
    }

    /// The address that the row keeps, an IGNORED row's cause among them.
    pub fn address(&self) -> Option<u16> {
        match self.status {
            Status::Ignored { address } => Some(address),
            other => other.kept_address(),
        }
    }

    /// The count of bad announcements.
    pub fn bad(&self) -> u8 {
        self.bad
    }

    /// The count of silences.
    pub fn silences(&self) -> u8 {
        self.silences
    }

    /// The kept pairs in announced order.
    pub fn pairs(&self) -> &[Pair] {
        &self.pairs[..self.length as usize]
    }

    fn push(&mut self, pair: Pair) {
        self.pairs[self.length as usize] = pair;
        self.length += 1;
    }

    fn clear_pairs(&mut self) {
        self.length = 0;
        self.pairs = [NO_PAIR; MAX_PAIRS];
    }
}

/// One entry of the listing.
#[derive(Clone, Copy, PartialEq, Eq, Debug)]
pub struct Entry {
    pub position: u8,
    pub address: u16,
    pub block: u8,
    pub number: u8,
}

/// The pairs that any row keeps, one bit for each; no two rows keep the same pair.
#[derive(Clone, PartialEq, Debug)]
struct KeptPairs([[u64; 4]; 256]);

impl KeptPairs {
    const NONE: KeptPairs = KeptPairs([[0; 4]; 256]);

    fn word(&mut self, pair: Pair) -> (&mut u64, u64) {
        (&mut self.0[pair.block as usize][pair.number as usize / 64], 1 << (pair.number % 64))
    }

    /// Says whether the pair was not there before.
    fn insert(&mut self, pair: Pair) -> bool {
        let (word, bit) = self.word(pair);
        let fresh = *word & bit == 0;
        *word |= bit;
        fresh
    }

    fn remove(&mut self, pair: Pair) {
        let (word, bit) = self.word(pair);
        *word &= !bit;
    }

    fn contains(&self, pair: Pair) -> bool {
        self.0[pair.block as usize][pair.number as usize / 64] >> (pair.number % 64) & 1 == 1
    }
}

/// Who has each address from 0100 to 02FF: nobody, a position that keeps it, or the barred ones.
#[derive(Clone, PartialEq, Debug)]
struct Holders([u8; 512]);

const NOBODY: u8 = 0;
const BARRED: u8 = 255;

impl Holders {
    const NONE: Holders = Holders([NOBODY; 512]);

    /// The address must be a good one.
    fn set(&mut self, address: u16, holder: u8) {
        self.0[address as usize - 0x0100] = holder;
    }

    fn get(&self, address: u16) -> u8 {
        self.0[address as usize - 0x0100]
    }

    /// Frees every address that is not barred.
    fn keep_barred(&mut self) {
        for holder in &mut self.0 {
            if *holder != BARRED {
                *holder = NOBODY;
            }
        }
    }
}

fn address_is_good(address: u16) -> bool {
    (ADDRESS_MIN..=ADDRESS_MAX).contains(&address)
}

/// Which pairs of an announcement are bad, by index.
type BadPairs = [bool; MAX_PAIRS];

/// What an announced address means for a row.
enum Verdict {
    Barred,
    /// Counted for the row itself and, if there is one, for the other row.
    Bad(Option<u8>),
    Good,
}

/// The ring picture.
#[derive(Clone, PartialEq, Debug)]
pub struct Ring {
    /// The number of the current pass.
    pub pass: u32,
    state: State,
    payload_size: u8,
    nodes: u8,
    delay_runs: bool,
    open: u8,
    silent: u8,
    /// Indexed by position; only 1 to `nodes` - 1 are rows, the others stay `Row::EMPTY`.
    rows: [Row; MAX_NODES],
    kept: KeptPairs,
    holders: Holders,
}

impl Ring {
    /// A fresh picture for payload size `l`, or number 10.
    pub fn fresh(l: u32) -> Result<Ring, u8> {
        Ok(Ring::off(0, payload_size(l)? as u8))
    }

    fn off(pass: u32, payload_size: u8) -> Ring {
        Ring {
            pass,
            state: State::Off,
            payload_size,
            nodes: 0,
            delay_runs: false,
            open: 0,
            silent: 0,
            rows: [Row::EMPTY; MAX_NODES],
            kept: KeptPairs::NONE,
            holders: Holders::NONE,
        }
    }

    pub fn state(&self) -> State {
        self.state
    }

    pub fn pass(&self) -> u32 {
        self.pass
    }

    /// N, or 0 in OFF.
    pub fn nodes(&self) -> u8 {
        self.nodes
    }

    pub fn open_questions(&self) -> u8 {
        self.open
    }

    pub fn delay_runs(&self) -> bool {
        self.delay_runs
    }

    pub fn payload_size(&self) -> u8 {
        self.payload_size
    }

    /// The row of a position, where there is one.
    pub fn row(&self, position: u8) -> Option<&Row> {
        (position != 0 && position < self.nodes).then(|| &self.rows[position as usize])
    }

    /// Every row with its position, ascending.
    pub fn rows(&self) -> impl Iterator<Item = (u8, &Row)> {
        (1..self.nodes).map(|position| (position, &self.rows[position as usize]))
    }

    /// The rows that are LISTED or SETTING, by position.
    pub fn listed_rows(&self) -> Vec<ListRow> {
        let listed = |(position, row): (u8, &Row)| {
            let address = row.status.kept_address()?;
            Some(ListRow { position, address, pairs: row.pairs().to_vec() })
        };
        self.rows().filter_map(listed).collect()
    }

    /// The listing, by position and announced order.
    pub fn listing(&self) -> Vec<Entry> {
        let mut entries = Vec::with_capacity(MAX_LISTED);
        self.each_entry(|entry| entries.push(entry));
        entries
    }

    /// Writes the listing to the start of `entries` and gives its length.
    pub fn listing_into(&self, entries: &mut [Entry; MAX_LISTED]) -> usize {
        let mut length = 0;
        self.each_entry(|entry| {
            entries[length] = entry;
            length += 1;
        });
        length
    }

    fn each_entry(&self, mut take: impl FnMut(Entry)) {
        for (position, row) in self.rows() {
            if let Some(address) = row.status.kept_address() {
                for pair in row.pairs() {
                    take(Entry { position, address, block: pair.block, number: pair.number });
                }
            }
        }
    }

    /// Position and address of a listed pair, or numbers 18, 17.
    pub fn look_up(&self, block: u8, number: u8) -> Result<(u8, u16), u8> {
        if self.state != State::Ok {
            return Err(refusal::NOT_OK);
        }
        let pair = Pair { block, number };
        if !self.kept.contains(pair) {
            return Err(refusal::NOT_LISTED);
        }
        let holds = |(position, row): (u8, &Row)| {
            let address = row.status.kept_address()?;
            row.pairs().contains(&pair).then_some((position, address))
        };
        self.rows().find_map(holds).ok_or(refusal::NOT_LISTED)
    }

    /// Offers a record: the orders stand at the start of `out`, their length comes back, or a number.
    pub fn record(&mut self, bytes: &[u8], out: &mut [u8]) -> Result<usize, u8> {
        if out.len() < MIN_ROOM {
            return Err(refusal::ORDER_ROOM_TOO_SHORT);
        }
        let event = Event::read(bytes).ok_or(refusal::RECORD_MALFORMED)?;
        self.check(&event)?;
        let mut orders = Orders::new(out);
        match event {
            Event::Start { nodes } | Event::NetworkChange { nodes } => self.scan_anew(nodes, &mut orders),
            Event::Shutdown => *self = Ring::off(self.pass, self.payload_size),
            Event::Answer { position, announcement, .. } => self.answer(position, &announcement, &mut orders)?,
            Event::NoAnswer { position, .. } => self.no_answer(position, &mut orders),
            Event::Delay { .. } => self.end_of_delay(&mut orders),
        }
        self.settle(&mut orders);
        Ok(orders.length())
    }

    /// Numbers 3 to 9, but 9 of an ANSWER.
    fn check(&self, event: &Event) -> Result<(), u8> {
        match (event, self.state) {
            (Event::Start { .. }, State::Off) => {}
            (Event::Start { .. }, _) => return Err(refusal::ALREADY_RUNNING),
            (_, State::Off) => return Err(refusal::NOT_RUNNING),
            _ => {}
        }
        match *event {
            Event::Start { .. } | Event::NetworkChange { .. } if self.pass == u32::MAX => Err(refusal::NO_PASS_LEFT),
            Event::Answer { pass, position, .. } => {
                let open = self.check_row(pass, position)?;
                if open || self.state == State::Ok {
                    Ok(())
                } else {
                    Err(refusal::NOT_ASKED)
                }
            }
            Event::NoAnswer { pass, position } => {
                if self.check_row(pass, position)? {
                    Ok(())
                } else {
                    Err(refusal::NOT_ASKED)
                }
            }
            Event::Delay { pass } if pass != self.pass => Err(refusal::WRONG_PASS),
            Event::Delay { .. } if !self.delay_runs => Err(refusal::NOT_ASKED),
            _ => Ok(()),
        }
    }

    /// Numbers 5 to 7; says whether the row's question is open.
    fn check_row(&self, pass: u32, position: u8) -> Result<bool, u8> {
        if pass != self.pass {
            return Err(refusal::WRONG_PASS);
        }
        let row = self.row(position).ok_or(refusal::NO_SUCH_POSITION)?;
        if matches!(row.status, Status::Ignored { .. }) {
            return Err(refusal::POSITION_IGNORED);
        }
        Ok(row.status.is_open())
    }

    /// START and NCE: a new pass, fresh rows for `nodes`, each asked. START sets NOTOK, and an NCE in NOTOK tells it first;
    /// an NCE in OK keeps OK, and every pair listed so far is told INVALID, packed across rows in listing order.
    fn scan_anew(&mut self, nodes: u8, orders: &mut Orders) {
        let pass = self.pass + 1;
        if self.state == State::NotOk {
            orders.not_ok(pass);
        }
        for position in 1..nodes {
            orders.ask(pass, position);
        }
        let keeps_ok = self.state == State::Ok;
        if keeps_ok {
            let listed = self.rows().flat_map(|(_, row)| row.pairs());
            orders.invalid(pass, pairs_per_order(self.payload_size), listed);
        }
        *self = Ring::off(pass, self.payload_size);
        self.state = if keeps_ok { State::Ok } else { State::NotOk };
        self.nodes = nodes;
        self.open = nodes - 1;
    }

    /// A new pass after a bad announcement: every row that is not IGNORED is emptied and asked.
    fn restart(&mut self, orders: &mut Orders) {
        self.pass += 1;
        self.state = State::NotOk;
        self.delay_runs = false;
        self.kept = KeptPairs::NONE;
        self.holders.keep_barred();
        orders.not_ok(self.pass);
        for position in 1..self.nodes {
            let row = &mut self.rows[position as usize];
            if !matches!(row.status, Status::Ignored { .. }) {
                row.clear_pairs();
                self.set_status(position, Status::Waiting);
                orders.ask(self.pass, position);
            }
        }
    }

    fn no_answer(&mut self, position: u8, orders: &mut Orders) {
        self.tell_invalid(position, orders);
        self.release(position);
        self.set_status(position, Status::Silent);
        let row = &mut self.rows[position as usize];
        row.silences = MAX_SILENCES.min(row.silences + 1);
    }

    fn end_of_delay(&mut self, orders: &mut Orders) {
        self.delay_runs = false;
        for position in 1..self.nodes {
            if self.rows[position as usize].status == Status::Silent {
                self.set_status(position, Status::Waiting);
                orders.ask(self.pass, position);
            }
        }
    }

    fn answer(&mut self, position: u8, announcement: &Announcement, orders: &mut Orders) -> Result<(), u8> {
        match self.judge_address(position, announcement.address) {
            Verdict::Barred => self.ignore(position, announcement.address, orders),
            Verdict::Bad(other) => self.count_bad(position, other, announcement.address, orders)?,
            Verdict::Good => self.register(position, announcement, orders),
        }
        Ok(())
    }

    fn judge_address(&self, position: u8, address: u16) -> Verdict {
        if !address_is_good(address) {
            return Verdict::Bad(None);
        }
        match self.holders.get(address) {
            BARRED => Verdict::Barred,
            holder if holder != NOBODY && holder != position => Verdict::Bad(Some(holder)),
            _ => match self.rows[position as usize].status.kept_address() {
                Some(kept) if kept != address => Verdict::Bad(None),
                _ => Verdict::Good,
            },
        }
    }

    /// Counts a bad announcement; then the counted rows are IGNORED, or a restart comes.
    fn count_bad(&mut self, position: u8, other: Option<u8>, address: u16, orders: &mut Orders) -> Result<(), u8> {
        let last = |row: u8| self.rows[row as usize].bad + 1 == MAX_BAD;
        let at_limit = last(position) || other.is_some_and(last);
        if !at_limit && self.pass == u32::MAX {
            return Err(refusal::NO_PASS_LEFT);
        }
        let (first, second) = match other {
            Some(other) => (position.min(other), Some(position.max(other))),
            None => (position, None),
        };
        for counted in [Some(first), second].into_iter().flatten() {
            self.rows[counted as usize].bad += 1;
            if at_limit {
                self.ignore(counted, address, orders);
            }
        }
        if !at_limit {
            self.restart(orders);
        }
        Ok(())
    }

    fn ignore(&mut self, position: u8, address: u16, orders: &mut Orders) {
        self.tell_invalid(position, orders);
        self.release(position);
        self.set_status(position, Status::Ignored { address });
        if address_is_good(address) {
            self.holders.set(address, BARRED);
        }
    }

    /// Takes a good address: the row keeps it and the good pairs, and the first bad pair is renumbered.
    fn register(&mut self, position: u8, announcement: &Announcement, orders: &mut Orders) {
        let before = self.rows[position as usize];
        self.release(position);
        let bad_pairs = self.keep_good_pairs(position, announcement);
        self.holders.set(announcement.address, position);
        self.rows[position as usize].silences = 0;
        if self.state == State::Ok {
            let (old, new) = (before.pairs(), self.rows[position as usize].pairs());
            let size = pairs_per_order(self.payload_size);
            orders.invalid(self.pass, size, old.iter().filter(|pair| !new.contains(pair)));
            orders.new_pairs(self.pass, size, new.iter().filter(|pair| !old.contains(pair)));
        }
        let status = self.renumber(position, before.status, announcement, bad_pairs, orders);
        self.set_status(position, status);
    }

    /// Keeps the good pairs of an announcement; the indices of the bad ones come back marked.
    fn keep_good_pairs(&mut self, position: u8, announcement: &Announcement) -> BadPairs {
        let mut bad_pairs = [false; MAX_PAIRS];
        for (pair, bad) in announcement.pairs().zip(&mut bad_pairs) {
            if (MIN_NUMBER..=MAX_NUMBER).contains(&pair.number) && self.kept.insert(pair) {
                self.rows[position as usize].push(pair);
            } else {
                *bad = true;
            }
        }
        bad_pairs
    }

    /// Sends the SET that is due, if any, and gives the row's next status.
    fn renumber(
        &self,
        position: u8,
        status: Status,
        announcement: &Announcement,
        bad_pairs: BadPairs,
        orders: &mut Orders,
    ) -> Status {
        let address = announcement.address;
        let (mut place, mut tries) = match status {
            Status::Setting { place, tries, .. } => (place, tries),
            _ => (0, 0),
        };
        while let Some(pair) = announcement.pair(place) {
            if bad_pairs[place as usize] && tries < MAX_TRIES {
                if let Some(number) = self.free_number(pair.block, announcement) {
                    orders.set(self.pass, position, address, pair, number);
                    return Status::Setting { address, place, tries: tries + 1 };
                }
            }
            place += 1;
            tries = 0;
        }
        Status::Listed { address }
    }

    /// The least number that no row keeps for the block and that stands with it nowhere in the announcement.
    fn free_number(&self, block: u8, announcement: &Announcement) -> Option<u8> {
        let mut used = self.kept.0[block as usize];
        for pair in announcement.pairs().filter(|pair| pair.block == block) {
            used[pair.number as usize / 64] |= 1 << (pair.number % 64);
        }
        used[0] |= 1;
        used[3] |= 1 << 63;
        let word = used.iter().position(|&word| word != u64::MAX)?;
        Some((word * 64) as u8 + used[word].trailing_ones() as u8)
    }

    /// Tells the loss of all pairs of a row, if the ring is in OK.
    fn tell_invalid(&self, position: u8, orders: &mut Orders) {
        if self.state == State::Ok {
            let lost = self.rows[position as usize].pairs();
            orders.invalid(self.pass, pairs_per_order(self.payload_size), lost);
        }
    }

    /// Takes address and pairs from a row.
    fn release(&mut self, position: u8) {
        let row = &mut self.rows[position as usize];
        for &pair in row.pairs() {
            self.kept.remove(pair);
        }
        row.clear_pairs();
        if let Some(address) = row.status.kept_address() {
            self.holders.set(address, NOBODY);
        }
    }

    fn set_status(&mut self, position: u8, status: Status) {
        let old = std::mem::replace(&mut self.rows[position as usize].status, status);
        self.open = self.open + u8::from(status.is_open()) - u8::from(old.is_open());
        self.silent = self.silent + u8::from(status == Status::Silent) - u8::from(old == Status::Silent);
    }

    /// The end of every event: OK when no question is open, then WAIT for the silent units.
    fn settle(&mut self, orders: &mut Orders) {
        if self.state == State::Off || self.open != 0 {
            return;
        }
        if self.state == State::NotOk {
            self.state = State::Ok;
            orders.ok(self.pass);
        }
        if self.silent != 0 && !self.delay_runs {
            let below = |row: &Row| row.status == Status::Silent && row.silences < MAX_SILENCES;
            let short = self.rows().any(|(_, row)| below(row));
            orders.wait(self.pass, short);
            self.delay_runs = true;
        }
    }
}

/// A fresh picture for the least payload size, as it comes back beside number 10.
impl Default for Ring {
    fn default() -> Ring {
        Ring::off(0, MIN_SIZE as u8)
    }
}

fn pairs_per_order(payload_size: u8) -> usize {
    (payload_size as usize - 1) / 2
}
