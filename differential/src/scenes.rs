//! Generated rings in both boxes: the stage that the scenes are played on, and what they came across.

use lathepetal::{Rows, DIFFERENCES_ROOM};
use reference::generate::lists::{needed_room, room_near};
use reference::generate::rings::{pair_near, Play, Stage};
use reference::generate::Random;
use reference::refusal;
use reference::registry::Ring;
use reference::sizes::{MAX_LISTED, MAX_PAIRS, MIN_ROOM, MIN_SIZE};
use reference::wire::{self, ANSWER, COUNT, INVALID, KIND, NCE, ORDER_KINDS, X};

use crate::boxes::{RingBox, Shown, STATUSES};
use crate::comparisons;
use crate::lent::Pattern;
use crate::lists::{self, Comparison};
use crate::lists_boxes::{seen, Given, ListsBox};
use crate::ring::{Player, Session, Step, MOST_ROOM};
use crate::script::{must, Difference, Found};

/// What was played, for the end of the run.
#[derive(Default)]
pub struct Tally {
    pub records: usize,
    pub sessions: usize,
    /// By number given back.
    pub numbers: [usize; refusal::COUNT as usize],
    /// By order kind.
    pub orders: [usize; ORDER_KINDS as usize],
    /// By row status, over some of the pictures.
    pub rows: [usize; STATUSES.len()],
    /// ANSWERs taken, by how many pairs they have.
    pub answers: [usize; MAX_PAIRS + 1],
    /// Listings compared: all, and those with every place filled.
    pub listings: usize,
    pub full_listings: usize,
    /// NCEs taken in OK.
    pub changes: Changes,
    /// Comparisons of the listed rows of two pictures.
    pub pictures: comparisons::Tally,
}

impl Tally {
    fn count_listing(&mut self, listed: usize) {
        self.listings += 1;
        self.full_listings += usize::from(listed == MAX_LISTED);
    }
}

/// NCEs taken in OK: all, those that told pairs, and those that came while a question was open, while a delay ran, and to fewer nodes.
#[derive(Default)]
pub struct Changes {
    pub all: usize,
    pub telling: usize,
    pub asking: usize,
    pub delayed: usize,
    pub fewer: usize,
}

impl Changes {
    /// Counts a taken record by the picture that it met.
    fn count(&mut self, met: &Shown, record: &[u8], orders: &[u8]) {
        if met.state != lathepetal::OK || record[KIND] != NCE {
            return;
        }
        self.all += 1;
        self.telling += usize::from(wire::orders(orders).any(|order| order[KIND] == INVALID));
        self.asking += usize::from(met.open > 0);
        self.delayed += usize::from(met.delay);
        self.fewer += usize::from(record[X] < met.nodes);
    }
}

/// Why a run ends.
enum Stop {
    /// All is played.
    Full,
    /// What differs in a ring, and in the comparison of two pictures.
    Ring(Difference),
    Lists(Box<Comparison>, Difference),
}

impl From<Difference> for Stop {
    fn from(difference: Difference) -> Stop {
        Stop::Ring(difference)
    }
}

/// Plays sessions until `records` are played: the first difference, if there is one. The listed rows of two pictures are compared in the
/// boxes `L` and `M`.
pub fn run<P: RingBox, L: ListsBox, M: ListsBox>(
    seed: u64,
    records: usize,
    tally: &mut Tally,
    progress: impl FnMut(usize),
) -> Option<Found> {
    let mut random = Random::new(!seed);
    let mut lists_random = Random::new(seed.reverse_bits());
    let pattern = Pattern::new(lists::MOST_ROOM, || lists_random.word());
    let lists = lists::Player::<L, M>::new(pattern.clone());
    let session = Session { l: MIN_SIZE, pattern: Player::<P>::pattern(|| random.word()), steps: Vec::new() };
    let player = match Player::<P>::fresh(session.l, session.pattern.clone()) {
        Ok(player) => player,
        Err(difference) => return Some(session.explain::<P>(difference)),
    };
    let mut both = Both { random, player, session, lists, lists_random, earlier: Vec::new(), tally, records, progress };
    match Play::new(&mut both, seed).run() {
        Stop::Ring(difference) => Some(both.session.explain::<P>(difference)),
        Stop::Lists(comparison, difference) => Some(lists::explain::<L, M>(&pattern, &comparison, difference)),
        Stop::Full => both.player.compare_closely().err().map(|difference| both.session.explain::<P>(difference)),
    }
}

/// A ring in both boxes, its session so far, and the listed rows of an earlier picture, of this session or another one.
struct Both<'a, P, L, M, F> {
    random: Random,
    player: Player<P>,
    session: Session,
    lists: lists::Player<L, M>,
    /// What comparisons are drawn from, so that they leave the rings as they are.
    lists_random: Random,
    earlier: Vec<Given>,
    tally: &'a mut Tally,
    records: usize,
    progress: F,
}

impl<P: RingBox, L: ListsBox, M: ListsBox, F: FnMut(usize)> Both<'_, P, L, M, F> {
    fn play(&mut self, step: Step) -> Result<(u8, Vec<u8>), Stop> {
        self.session.steps.push(step);
        let (number, orders) = self.player.play(&self.session.steps[self.session.steps.len() - 1])?;
        Ok((number, orders.to_vec()))
    }

    /// Mostly enough room.
    fn room(&mut self) -> usize {
        let room = match self.random.below(100) {
            0..=59 => MIN_ROOM,
            60..=79 => self.random.range(MIN_ROOM, MIN_ROOM + 128),
            80..=89 => MIN_ROOM + 1,
            90..=93 => self.random.range(MIN_ROOM, MOST_ROOM),
            94..=96 => MOST_ROOM,
            97 => MIN_ROOM - 1,
            _ => self.random.pick(&[0, 1, 7, 255, 256, MIN_ROOM - 2, MIN_ROOM - 1, MIN_ROOM - 1]),
        };
        room.min(MOST_ROOM)
    }

    fn look_up(&mut self, pairs: usize, blocks: &[u8]) -> Result<(), Stop> {
        for _ in 0..pairs {
            let pair = pair_near(self.player.ring(), blocks, &mut self.random);
            self.player.compare_look_up(pair.block, pair.number)?;
        }
        Ok(())
    }

    /// Compares the listed rows with those of an earlier picture, from either to the other; those of now are kept in their place.
    fn compare_pictures(&mut self, rows: &Rows) -> Result<(), Stop> {
        let now: Vec<Given> = rows.rows[..rows.count].iter().map(|&row| row.into()).collect();
        let earlier = std::mem::replace(&mut self.earlier, now.clone());
        let random = &mut self.lists_random;
        let (first, second) = if random.chance(50) { (earlier, now) } else { (now, earlier) };
        let room = match random.chance(70) {
            true => DIFFERENCES_ROOM,
            false => room_near(needed_room(&seen(&first), &seen(&second)), lists::MOST_ROOM, random),
        };
        let comparison = Comparison { first, second, room, fill: random.word() as usize };
        let compared = self.lists.play(&comparison).and_then(|(number, lines)| {
            self.tally.pictures.count(number, lines);
            let is_refused = matches!(number, refusal::ROW_MALFORMED | refusal::ROWS_NOT_RISING);
            must("both: listed rows of two pictures refused 2 or 20", is_refused, false)
        });
        compared.map_err(|difference| Stop::Lists(comparison.into(), difference))
    }

    fn count(&mut self, number: u8, orders: &[u8]) {
        self.tally.records += 1;
        self.tally.numbers[number as usize] += 1;
        wire::orders(orders).for_each(|order| self.tally.orders[order[KIND] as usize] += 1);
        if self.random.chance(30) {
            self.player.shown().rows().for_each(|(_, row)| self.tally.rows[row.status as usize] += 1);
        }
    }
}

impl<P: RingBox, L: ListsBox, M: ListsBox, F: FnMut(usize)> Stage for Both<'_, P, L, M, F> {
    type Stop = Stop;

    const PATIENT: bool = true;
    const MOST_ROOM: usize = MOST_ROOM;

    fn ring(&self) -> &Ring {
        self.player.ring()
    }

    /// A session of its own.
    fn fresh(&mut self, l: usize) -> Result<(), Stop> {
        self.look_closely()?;
        (self.progress)(self.tally.records);
        self.tally.sessions += 1;
        let pattern = Player::<P>::pattern(|| self.random.word());
        self.session = Session { l, pattern: pattern.clone(), steps: Vec::new() };
        self.player = Player::fresh(l, pattern)?;
        Ok(())
    }

    fn offer(&mut self, record: &[u8], room: Option<usize>) -> Result<Vec<u8>, Stop> {
        if self.tally.records >= self.records {
            return Err(Stop::Full);
        }
        let room = room.unwrap_or_else(|| self.room());
        let step = Step::record(record, self.ring().pass(), room, self.random.word() as usize);
        let met = self.player.shown().clone();
        let (number, orders) = self.play(step)?;
        self.count(number, &orders);
        if number == lathepetal::DONE {
            self.tally.changes.count(&met, record, &orders);
            if record[KIND] == ANSWER {
                self.tally.answers[record[COUNT] as usize] += 1;
            }
        }
        Ok(orders)
    }

    fn set_pass(&mut self, pass: u32) -> Result<bool, Stop> {
        self.play(Step::Pass(pass))?;
        Ok(true)
    }

    /// All but the listing, the listed rows and look-ups is compared after each record.
    fn look_around(&mut self, _: u8, blocks: &[u8]) -> Result<(), Stop> {
        match self.random.below(200) {
            0 => self.look_closely(),
            1..=40 => {
                let listed = self.player.compare_listing()?.len();
                self.tally.count_listing(listed);
                self.player.compare_listed_rows()?;
                self.look_up(12, blocks)
            }
            41..=100 => self.look_up(2, blocks),
            101..=106 => {
                let rows = self.player.compare_listed_rows()?;
                self.compare_pictures(&rows)
            }
            _ => Ok(()),
        }
    }

    fn look_closely(&mut self) -> Result<(), Stop> {
        let listed = self.player.compare_closely()?;
        self.tally.count_listing(listed);
        Ok(())
    }
}
