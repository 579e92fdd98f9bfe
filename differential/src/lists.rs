//! Two lists of rows compared in both boxes: everything that comes back is compared, and the claim is checked.

use std::collections::BTreeSet;
use std::marker::PhantomData;

use reference::compare::ListRow;
use reference::generate::lists::needed_room;
use reference::player::{Bench, List, Ringbox};
use reference::registry::Pair;
use reference::sizes::{BENCH_DIFFERENCE_ROOM, BENCH_ROWS};

use crate::lent::{Lent, Names, Pattern};
use crate::lists_boxes::{seen, Given, ListsBox};
use crate::lists_claim;
use crate::minimize::{minimize, Simpler};
use crate::script::{beyond, Difference, Found};
use crate::units::fewer;

/// The most room that is lent to lines; a script can lend less.
pub const MOST_ROOM: usize = 65_536;
const NAMES: Names = Names { number: "number of the comparison", length: "length of the lines" };

type Command = <Ringbox as Bench>::Command;

/// Two lists that are compared with `room` bytes of room, filled with the pattern from place `fill` on.
#[derive(Clone, Default)]
pub struct Comparison {
    pub first: Vec<Given>,
    pub second: Vec<Given>,
    pub room: usize,
    pub fill: usize,
}

impl Comparison {
    /// The room that all lines need; none where the lists are refused.
    fn needed(&self) -> usize {
        needed_room(&seen(&self.first), &seen(&self.second))
    }

    /// The comparison in steps that can be dropped.
    fn steps(&self) -> Vec<Step> {
        let row = |list: List| move |given: &Given| Step::Row(list, given.clone());
        let mut steps: Vec<Step> = self.first.iter().map(row(List::First)).collect();
        steps.extend(self.second.iter().map(row(List::Second)));
        steps.push(Step::Room { more: self.room as isize - self.needed() as isize });
        steps
    }

    /// The comparison that these steps make.
    fn of(steps: &[Step], fill: usize) -> Comparison {
        let mut comparison = Comparison { room: BENCH_DIFFERENCE_ROOM, fill, ..Comparison::default() };
        for step in steps {
            match step {
                Step::Row(List::First, given) => comparison.first.push(given.clone()),
                Step::Row(List::Second, given) => comparison.second.push(given.clone()),
                Step::Room { more } => {
                    comparison.room = (comparison.needed() as isize + more).clamp(0, MOST_ROOM as isize) as usize;
                }
            }
        }
        comparison
    }

    /// A script for `ringbox`.
    fn script(&self) -> String {
        let rows = rows_lines(List::First, &self.first) + &rows_lines(List::Second, &self.second);
        let room = self.room.min(BENCH_DIFFERENCE_ROOM);
        rows + &beyond(self.room, BENCH_DIFFERENCE_ROOM) + &line(&Command::Compare { room })
    }
}

fn line(command: &Command) -> String {
    let mut text = Vec::new();
    Ringbox::normal_form(command, &mut text);
    String::from_utf8(text).expect("a normal form is text") + "\n"
}

/// The rows of a list, as far as a script can say them.
fn rows_lines(list: List, rows: &[Given]) -> String {
    let mut text = String::new();
    for (place, given) in rows.iter().enumerate() {
        if !given.is_plain() {
            text += "# this row has marks, or bytes behind its pairs, which no script can say\n";
        }
        let row = line(&Command::AddRow(list, given.seen()));
        text += &match place < BENCH_ROWS {
            true => row,
            false => format!("# a row more than a script can say: {row}"),
        };
    }
    text
}

/// A part of a comparison.
#[derive(Clone)]
enum Step {
    /// One row more at the end of a list.
    Row(List, Given),
    /// So much more room than the lines need, so that it keeps its sense when rows are dropped; without this step there is plenty.
    Room { more: isize },
}

impl Simpler for Step {
    fn simpler(&self) -> Vec<Step> {
        match *self {
            Step::Row(list, ref given) => simpler_rows(given).into_iter().map(|given| Step::Row(list, given)).collect(),
            Step::Room { more: 0 } => Vec::new(),
            Step::Room { more: -1 } => vec![Step::Room { more: 0 }],
            Step::Room { .. } => vec![Step::Room { more: 0 }, Step::Room { more: -1 }],
        }
    }

    /// Comparisons without a position, and without a pair of one of the first positions, in both lists at once.
    fn rewritten(steps: &[Step]) -> Vec<Vec<Step>> {
        let rows: Vec<ListRow> = steps.iter().filter_map(Step::row).collect();
        let positions: BTreeSet<u8> = rows.iter().map(|row| row.position).collect();
        let is_first = |row: &&ListRow| positions.iter().take(4).any(|&position| position == row.position);
        let pairs = rows.iter().filter(is_first).flat_map(|row| row.pairs.iter().map(|&pair| (row.position, pair)));
        let fewer_rows = positions.iter().map(|&position| steps.iter().filter(|step| !step.is_at(position)).cloned().collect());
        let fewer_pairs = pairs.map(|(position, pair)| steps.iter().map(|step| step.without_pair(position, pair)).collect());
        fewer_rows.chain(fewer_pairs).collect()
    }
}

impl Step {
    fn row(&self) -> Option<ListRow> {
        match self {
            Step::Row(_, given) => Some(given.seen()),
            Step::Room { .. } => None,
        }
    }

    fn is_at(&self, position: u8) -> bool {
        self.row().is_some_and(|row| row.position == position)
    }

    /// The step without a pair, where it is a row of this position.
    fn without_pair(&self, position: u8, pair: Pair) -> Step {
        match self {
            Step::Row(list, given) if self.is_at(position) => {
                let mut row = given.seen();
                row.pairs.retain(|&kept| kept != pair);
                Step::Row(*list, given.with(&row))
            }
            _ => self.clone(),
        }
    }
}

/// A row without marks, with the unit's own address, or with fewer pairs.
fn simpler_rows(given: &Given) -> Vec<Given> {
    let row = given.seen();
    let own = 0x0100 + u16::from(row.position);
    let plain = (!given.is_plain()).then(|| Given::plain(&row));
    let plainer = (row.address != own).then(|| given.with(&ListRow { address: own, ..row.clone() }));
    let fewer = fewer(&row.pairs).into_iter().map(|pairs| given.with(&ListRow { pairs, ..row }));
    plain.into_iter().chain(plainer).chain(fewer).collect()
}

/// Lists in both boxes, `P` in the place of the proved one and `R` in that of the reference.
pub struct Player<P, R> {
    lent: Lent,
    boxes: PhantomData<(P, R)>,
}

impl<P: ListsBox, R: ListsBox> Player<P, R> {
    pub fn new(pattern: Pattern) -> Player<P, R> {
        Player { lent: Lent::new(NAMES, pattern), boxes: PhantomData }
    }

    /// Compares two lists in both boxes, and what the boxes give; gives the number and the lines.
    pub fn play(&mut self, comparison: &Comparison) -> Result<(u8, &[u8]), Difference> {
        let Comparison { first, second, room, fill } = comparison;
        let (number, length) =
            self.lent.offer(&[], *room, *fill, |_, out| P::compare(first, second, out), |_, out| R::compare(first, second, out))?;
        let lines = self.lent.written(length);
        lists_claim::check(first, second, *room, number, lines)?;
        Ok((number, lines))
    }
}

/// The shortest script for `ringbox` that shows a difference, as `found` in the run.
pub fn explain<P: ListsBox, R: ListsBox>(pattern: &Pattern, comparison: &Comparison, found: Difference) -> Found {
    let replay = |steps: &[Step]| Player::<P, R>::new(pattern.clone()).play(&Comparison::of(steps, comparison.fill)).err();
    let differs = |steps: &[Step]| replay(steps).is_some();
    let steps = match comparison.steps() {
        steps if differs(&steps) => minimize(steps, differs),
        steps => steps,
    };
    let difference = replay(&steps).unwrap_or(found);
    Found { difference, program: "ringbox", script: Comparison::of(&steps, comparison.fill).script() }
}
