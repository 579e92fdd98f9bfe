//! Differences, and the scripts that show them.

use std::fmt::Debug;

/// What differs, with both values.
#[derive(Debug)]
pub struct Difference {
    pub what: String,
    /// The script line that shows it, beside those that are always there.
    pub line: Option<String>,
}

impl Difference {
    pub fn shown_by(self, line: String) -> Difference {
        Difference { line: Some(line), ..self }
    }
}

/// Why a run ends.
pub enum Stop {
    /// All is played.
    Full,
    Different(Difference),
}

impl From<Difference> for Stop {
    fn from(difference: Difference) -> Stop {
        Stop::Different(difference)
    }
}

/// A difference and the shortest script that shows it, with the program that plays it.
pub struct Found {
    pub difference: Difference,
    pub program: &'static str,
    pub script: String,
}

/// A comment where a value is beyond what a script can say.
pub fn beyond(value: usize, limit: usize) -> String {
    if value > limit {
        format!("# no script can say {value} here\n")
    } else {
        String::new()
    }
}

/// Nothing where both boxes gave the same.
pub fn differ<T: PartialEq + Debug>(what: &str, proved: T, reference: T) -> Result<(), Difference> {
    unequal(what, ["proved", "reference"], proved, reference)
}

/// The first place where the boxes gave something else.
pub fn differ_at<T: PartialEq + Debug>(what: &str, proved: &[T], reference: &[T]) -> Result<(), Difference> {
    unequal_at(what, ["proved", "reference"], proved, reference)
}

/// Nothing where something is as it must be.
pub fn must<T: PartialEq + Debug>(what: &str, is: T, must_be: T) -> Result<(), Difference> {
    unequal(what, ["is", "must be"], is, must_be)
}

/// The first place that is not as it must be.
pub fn must_at<T: PartialEq + Debug>(what: &str, is: &[T], must_be: &[T]) -> Result<(), Difference> {
    unequal_at(what, ["is", "must be"], is, must_be)
}

fn unequal<T: PartialEq + Debug>(what: &str, names: [&str; 2], one: T, other: T) -> Result<(), Difference> {
    if one == other {
        return Ok(());
    }
    Err(Difference { what: format!("{what}: {} {one:?}, {} {other:?}", names[0], names[1]), line: None })
}

fn unequal_at<T: PartialEq + Debug>(what: &str, names: [&str; 2], one: &[T], other: &[T]) -> Result<(), Difference> {
    if one == other {
        return Ok(());
    }
    let place = one.iter().zip(other).position(|(one, other)| one != other);
    let place = place.unwrap_or(one.len().min(other.len()));
    unequal(&format!("{what} {place}"), names, one.get(place), other.get(place))
}
