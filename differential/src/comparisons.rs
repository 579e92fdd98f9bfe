//! Generated lists of rows in both boxes: the stage that they are compared on, and what they came across.

use lathepetal::{LINE_SIZE, MAX_LINES};
use reference::compare::ListRow;
use reference::generate::lists::{Play, Stage};
use reference::generate::Random;
use reference::refusal;
use reference::sizes::BENCH_ROWS;

use crate::lent::Pattern;
use crate::lists::{explain, Comparison, Player, MOST_ROOM};
use crate::lists_boxes::{Given, ListsBox};
use crate::script::{Found, Stop};

/// The kinds of lines lie below this.
const KINDS: usize = 6;
/// The most rows of a list.
const MANY_ROWS: usize = 600;

/// What was compared, for the end of the run.
#[derive(Default)]
pub struct Tally {
    pub comparisons: usize,
    /// By number given back.
    pub numbers: [usize; refusal::COUNT as usize],
    /// Lines by kind.
    pub kinds: [usize; KINDS],
    /// Comparisons without a line, with one, and with as many as there can be.
    pub same: usize,
    pub single: usize,
    pub greatest: usize,
    /// Comparisons of a list with more rows than a bench has.
    pub long: usize,
}

impl Tally {
    /// Counts what a comparison gave.
    pub fn count(&mut self, number: u8, lines: &[u8]) {
        self.comparisons += 1;
        self.numbers[number as usize] += 1;
        lines.chunks(LINE_SIZE).for_each(|line| self.kinds[line[0] as usize] += 1);
        if number == lathepetal::DONE {
            let lines = lines.len() / LINE_SIZE;
            self.same += usize::from(lines == 0);
            self.single += usize::from(lines == 1);
            self.greatest += usize::from(lines == MAX_LINES);
        }
    }
}

/// Compares lists until that is done so often: the first difference, if there is one.
pub fn run<P: ListsBox, R: ListsBox>(seed: u64, comparisons: usize, tally: &mut Tally, progress: impl FnMut(usize)) -> Option<Found> {
    let mut random = Random::new(!seed);
    let pattern = Pattern::new(MOST_ROOM, || random.word());
    let player = Player::<P, R>::new(pattern.clone());
    let mut both = Both { random, player, last: Comparison::default(), tally, comparisons, progress };
    match Play::new(&mut both, seed).run() {
        Stop::Different(difference) => Some(explain::<P, R>(&pattern, &both.last, difference)),
        Stop::Full => None,
    }
}

/// Both boxes, and what they compared last.
struct Both<'a, P, R, F> {
    random: Random,
    player: Player<P, R>,
    last: Comparison,
    tally: &'a mut Tally,
    comparisons: usize,
    progress: F,
}

impl<P, R, F> Both<'_, P, R, F> {
    /// The rows of a list, or many more of them.
    fn give(&mut self, list: &[ListRow], is_plain: bool) -> Vec<Given> {
        let random = &mut self.random;
        let rows = if random.chance(1) { random.range(BENCH_ROWS + 1, MANY_ROWS) } else { list.len() };
        let given = |row| if is_plain { Given::plain(row) } else { Given::noisy(row, random) };
        list.iter().cycle().take(rows).map(given).collect()
    }
}

impl<P: ListsBox, R: ListsBox, F: FnMut(usize)> Stage for Both<'_, P, R, F> {
    type Stop = Stop;

    const PATIENT: bool = true;
    /// More than a byte counts.
    const MOST_ROWS: usize = 256;
    const MOST_ROOM: usize = MOST_ROOM;

    /// What a comparison does not look at is mostly any bytes. Now and then a list is given over and over.
    fn compare(&mut self, first: &[ListRow], second: &[ListRow], room: usize) -> Result<(), Stop> {
        if self.tally.comparisons >= self.comparisons {
            return Err(Stop::Full);
        }
        (self.progress)(self.tally.comparisons);
        let is_plain = self.random.chance(10);
        self.last =
            Comparison { first: self.give(first, is_plain), second: self.give(second, is_plain), room, fill: self.random.word() as usize };
        let (number, lines) = self.player.play(&self.last)?;
        self.tally.count(number, lines);
        self.tally.long += usize::from(self.last.first.len().max(self.last.second.len()) > BENCH_ROWS);
        Ok(())
    }
}
