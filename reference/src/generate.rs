//! The generator of bench scripts: the same seed gives the same bytes. And fixed lines that are too long to write by hand.

pub mod benches;
mod limits;
pub mod lists;
mod oddities;
mod random;
mod ringbox;
pub mod rings;
mod script;
pub mod streams;
mod telegrams;
mod unit;

use crate::sizes::{MAX_SIZE, MIN_SIZE};
pub use random::Random;
use script::Script;

/// Scripts of so many lines begin with so many passes.
const LONG: usize = 150_000;
const MANY_PASSES: usize = 66_000;

/// Payload sizes that are refused.
const BAD_SIZES: &[usize] = &[
    0,
    1,
    MIN_SIZE - 2,
    MIN_SIZE - 1,
    MAX_SIZE + 1,
    MAX_SIZE + 2,
    255,
    256 + MIN_SIZE,
    65_536 + MIN_SIZE,
    0x8000_0000 + MIN_SIZE,
    u32::MAX as usize,
    (1 << 32) + MIN_SIZE,
    usize::MAX,
];

/// A script of about `lines` lines for the registry.
pub fn ringbox(seed: u64, lines: usize) -> Vec<u8> {
    with_rings(ringbox::Writer::new(Script::new(!seed, lines)), seed, lines)
}

/// A script of about `lines` lines for the registry with lists that are compared: the same scenes, and lines about lists among theirs.
pub fn lists(seed: u64, lines: usize) -> Vec<u8> {
    let random = Random::new(seed.reverse_bits());
    with_rings(ringbox::Writer::with_lists(Script::new(!seed, lines), random), seed, lines)
}

fn with_rings(mut writer: ringbox::Writer, seed: u64, lines: usize) -> Vec<u8> {
    let mut play = rings::Play::new(&mut writer, seed);
    if lines < LONG || play.climb(MANY_PASSES).is_ok() {
        play.run();
    }
    writer.into_text()
}

/// A script of about `lines` lines for the telegrams.
pub fn telegrams(seed: u64, lines: usize) -> Vec<u8> {
    let mut writer = telegrams::Writer::new(Script::new(!seed, lines));
    let mut play = streams::Play::new(&mut writer, seed);
    let long_joins = match lines {
        0..4_000 => 0,
        4_000..20_000 => 1,
        _ => streams::ENDS,
    };
    if (0..long_joins).all(|join| play.long_join(seed as usize + join).is_ok()) {
        play.run();
    }
    writer.into_text()
}

/// A script of about `lines` lines for a unit.
pub fn unit(seed: u64, lines: usize) -> Vec<u8> {
    let mut writer = unit::Writer::new(Script::new(!seed, lines));
    benches::Play::new(&mut writer, seed).run();
    writer.into_text()
}

/// Lines on both sides of the limit, for the registry.
pub fn ringbox_limits() -> Vec<u8> {
    limits::ringbox()
}

/// Lines on both sides of the limit, for the lists of the registry.
pub fn lists_limits() -> Vec<u8> {
    limits::lists()
}

/// Lines on both sides of the limit, for the telegrams.
pub fn telegrams_limits() -> Vec<u8> {
    limits::telegrams()
}

/// Lines on both sides of the limit, for a unit.
pub fn unit_limits() -> Vec<u8> {
    limits::unit()
}
