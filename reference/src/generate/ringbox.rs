//! The writer of scripts for the registry: it plays each record in a ring of its own, and writes what shows the ring. A script with
//! lists takes the ring's rows as lists too, types others, and compares.

use super::lists::{self, needed_room, room_near, MANY_DIFFERENCES};
use super::oddities::{odd_line, Oddities, LISTS, RINGBOX};
use super::rings::{pair_near, Stage};
use super::script::{Full, Script};
use super::Random;
use crate::compare::ListRow;
use crate::player::List;
use crate::registry::Ring;
use crate::sizes::{BENCH_DIFFERENCE_ROOM, BENCH_ROOM, BENCH_ROWS, DIFFERENCE, MAX_LISTED, MIN_ROOM, NUMBERS};

/// Listings from this length on, that of a full block, are seldom shown.
const LONG_LISTING: usize = NUMBERS;

/// A script, the ring and the lists at its end, and the order room that it lends.
pub struct Writer {
    script: Script,
    ring: Ring,
    room: usize,
    buffer: Vec<u8>,
    /// By the numbers of `List`.
    lists: [Vec<ListRow>; 2],
    /// What the lines about lists are drawn from, so that they leave the other lines as they are; nothing where there are no such lines.
    lists_random: Option<Random>,
    oddities: &'static Oddities,
}

impl Writer {
    pub fn new(script: Script) -> Writer {
        Writer {
            script,
            ring: Ring::default(),
            room: BENCH_ROOM,
            buffer: vec![0; BENCH_ROOM],
            lists: [Vec::new(), Vec::new()],
            lists_random: None,
            oddities: RINGBOX,
        }
    }

    /// A writer that writes about lists too.
    pub fn with_lists(script: Script, random: Random) -> Writer {
        Writer { lists_random: Some(random), oddities: LISTS, ..Writer::new(script) }
    }

    pub fn into_text(self) -> Vec<u8> {
        self.script.into_text()
    }

    fn lend(&mut self, room: usize) {
        if room != self.room {
            self.room = room;
            let text = self.script.decimal(room);
            self.script.command(&format!("room {text}"));
        }
    }

    fn look_up(&mut self, blocks: &[u8]) {
        let pair = pair_near(&self.ring, blocks, &mut self.script.random);
        self.script.command(&format!("lookup {:02X} {:02X}", pair.block, pair.number));
    }

    /// Writes lines about lists in so many of a thousand cases, if it writes any.
    fn about_lists(&mut self, share: usize, write: impl FnOnce(&mut Writer) -> Result<(), Full>) -> Result<(), Full> {
        if !self.lists_random.as_mut().is_some_and(|random| random.below(1000) < share) {
            return Ok(());
        }
        self.swap_random();
        let written = write(self);
        self.swap_random();
        written
    }

    fn swap_random(&mut self) {
        if let Some(random) = &mut self.lists_random {
            std::mem::swap(&mut self.script.random, random);
        }
    }

    /// A list is the ring's rows, seldom with a row more behind them; mostly it is compared.
    fn take_rows(&mut self) -> Result<(), Full> {
        self.script.go_on()?;
        let list = self.script.random.pick(&[List::First, List::Second, List::Second]);
        self.script.command(list.word());
        self.lists[list as usize] = self.ring.listed_rows();
        if self.script.random.chance(12) {
            let last = self.lists[list as usize].last().map_or(0, |row| row.position);
            let position = self.script.random.pick(&[last + 1, last + 1, last, 63]);
            let pair = pair_near(&self.ring, &[0x22], &mut self.script.random);
            let row = ListRow { position, address: 0x0100 + u16::from(position), pairs: vec![pair] };
            self.type_row(list, &row);
        }
        if self.script.random.chance(80) {
            self.compare_lists();
        }
        Ok(())
    }

    /// Compares the lists as they stand; many differences are seldom shown.
    fn compare_lists(&mut self) {
        let needed = needed_room(&self.lists[0], &self.lists[1]);
        let mut room = room_near(needed, BENCH_DIFFERENCE_ROOM, &mut self.script.random);
        if needed > MANY_DIFFERENCES * DIFFERENCE && self.script.random.chance(90) {
            room = room.min(needed - 1);
        }
        self.compare_with(room);
    }

    fn compare_with(&mut self, room: usize) {
        let room = self.script.decimal(room);
        self.script.command(&format!("compare {room}"));
    }

    /// Types a row more; a list that is full does not take it.
    fn type_row(&mut self, list: List, row: &ListRow) {
        let position = self.script.decimal(row.position);
        let pairs: String = row.pairs.iter().map(|pair| format!(" {:02X}.{:02X}", pair.block, pair.number)).collect();
        self.script.command(&format!("{} {position} {:04X}{pairs}", list.word(), row.address));
        if self.lists[list as usize].len() < BENCH_ROWS {
            self.lists[list as usize].push(row.clone());
        }
    }

    /// Makes a list these rows, by typing those that it has not.
    fn type_list(&mut self, list: List, rows: &[ListRow]) -> Result<(), Full> {
        if !rows.starts_with(&self.lists[list as usize]) {
            self.script.command(&format!("{} none", list.word()));
            self.lists[list as usize].clear();
        }
        for row in &rows[self.lists[list as usize].len()..] {
            self.script.go_on()?;
            self.type_row(list, row);
            if self.script.random.chance(3) {
                odd_line(&mut self.script, self.oddities);
            }
        }
        match rows {
            [.., last] if rows.len() == BENCH_ROWS && self.script.random.chance(50) => self.type_row(list, last),
            _ => {}
        }
        Ok(())
    }
}

impl lists::Stage for Writer {
    type Stop = Full;

    const PATIENT: bool = false;

    fn compare(&mut self, first: &[ListRow], second: &[ListRow], room: usize) -> Result<(), Full> {
        self.script.go_on()?;
        let mut lists = [(List::First, first), (List::Second, second)];
        if self.script.random.chance(30) {
            lists.reverse();
        }
        for (list, rows) in lists {
            self.type_list(list, rows)?;
        }
        self.compare_with(room);
        Ok(())
    }
}

impl Stage for Writer {
    type Stop = Full;

    const PATIENT: bool = false;

    fn ring(&self) -> &Ring {
        &self.ring
    }

    /// No script can say an L of more than 32 bits.
    fn fresh(&mut self, l: usize) -> Result<(), Full> {
        self.script.go_on()?;
        self.about_lists(400, Writer::take_rows)?;
        let l = u32::try_from(l).unwrap_or(u32::MAX);
        let text = self.script.decimal(l);
        self.script.command(&format!("fresh {text}"));
        let fresh = Ring::fresh(l);
        if fresh.is_err() {
            self.script.command("state");
        }
        self.ring = fresh.unwrap_or_default();
        self.about_lists(600, |writer| {
            let seed = writer.script.random.word();
            lists::Play::new(writer, seed).play_scene()
        })
    }

    fn offer(&mut self, record: &[u8], room: Option<usize>) -> Result<Vec<u8>, Full> {
        self.script.go_on()?;
        match room {
            Some(room) => self.lend(room),
            None if self.room < MIN_ROOM => self.lend(MIN_ROOM),
            None => {}
        }
        self.script.command_with_hex(">", record);
        let length = self.ring.record(record, &mut self.buffer[..self.room]).unwrap_or(0);
        Ok(self.buffer[..length].to_vec())
    }

    fn set_pass(&mut self, _: u32) -> Result<bool, Full> {
        Ok(false)
    }

    fn look_around(&mut self, chatter: u8, blocks: &[u8]) -> Result<(), Full> {
        let small = self.ring.nodes() < 10;
        if self.script.random.chance(chatter) {
            let rows = self.script.random.chance(if small { 60 } else { 4 });
            self.script.command(if rows { "rows" } else { "state" });
        }
        let listing = match self.ring.listing().len() {
            _ if small => 60,
            LONG_LISTING.. => 4,
            _ => 10,
        };
        if self.script.random.below(1000) < listing {
            self.script.command("listing");
        }
        if self.script.random.chance(8) {
            self.look_up(blocks);
        }
        if self.script.random.chance(3) {
            odd_line(&mut self.script, self.oddities);
        }
        self.about_lists(20, Writer::take_rows)
    }

    fn look_closely(&mut self) -> Result<(), Full> {
        self.script.go_on()?;
        self.script.command("rows");
        let listing = match self.ring.listing().len() {
            MAX_LISTED => 50,
            LONG_LISTING.. => 12,
            _ => 30,
        };
        if self.script.random.chance(listing) {
            self.script.command("listing");
        }
        for _ in 0..4 {
            self.look_up(&[0x22]);
        }
        self.about_lists(400, Writer::take_rows)
    }
}
