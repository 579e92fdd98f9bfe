//! The sizes of rings, telegrams and lent room; whatever else has a size takes it from here.

/// The most nodes a ring has, the NetworkMaster at position 0 among them.
pub const MAX_NODES: usize = 64;
/// The most units, from position 1 on.
pub const MAX_UNITS: usize = MAX_NODES - 1;
/// The most pairs a row keeps and an ANSWER carries.
pub const MAX_PAIRS: usize = 24;
/// The most entries of a listing.
pub const MAX_LISTED: usize = MAX_UNITS * MAX_PAIRS;
/// The least number that a pair may have.
pub const MIN_NUMBER: u8 = 0x01;
/// The greatest number that a pair may have.
pub const MAX_NUMBER: u8 = 0xFE;
/// How many numbers a block has.
pub const NUMBERS: usize = (MAX_NUMBER - MIN_NUMBER) as usize + 1;
/// The least order room.
pub const MIN_ROOM: usize = 8192;
/// The most look-up answers that a unit keeps.
pub const MAX_KNOWN: usize = 64;
/// The least room for a unit's ANSWER.
pub const MIN_ANSWER_ROOM: usize = 64;

/// The bytes of a difference between two lists of rows.
pub const DIFFERENCE: usize = 6;
/// The most differences: at each position another address, and no pair that stays.
pub const MAX_DIFFERENCES: usize = MAX_UNITS * (1 + 2 * MAX_PAIRS);

/// The least payload size L of a telegram, and the greatest.
pub const MIN_SIZE: usize = 12;
pub const MAX_SIZE: usize = 45;
/// The bytes of a telegram in front of its data: MsgID, TelID and TelLen.
pub const TELEGRAM_HEAD: usize = 6;
/// The longest telegram.
pub const MAX_TELEGRAM: usize = TELEGRAM_HEAD + MAX_SIZE;
/// The longest message, and the least join buffer.
pub const MAX_PAYLOAD: usize = 65_535;

/// The most room that a bench lends to orders and to a unit's ANSWER.
pub const BENCH_ROOM: usize = 8192;
/// The most pairs of a command.
pub const BENCH_PAIRS: usize = 255;
/// The most rows of a list on a bench.
pub const BENCH_ROWS: usize = 64;
/// The most room that a bench lends to differences.
pub const BENCH_DIFFERENCE_ROOM: usize = 20_000;
/// The longest payload of a bench, and the most room that it lends to a telegram.
pub const BENCH_PAYLOAD: usize = 70_000;
