//! The proved library as `include/lathepetal.h` declares it; what a caller keeps to stands there. The fields of a picture are public, since
//! to the tests it is plain data; what is handed to `record` is a picture that the box handed out.

pub const MIN_SIZE: usize = 12;
pub const MAX_SIZE: usize = 45;
pub const MAX_UNITS: usize = 63;
pub const MAX_PAIRS: usize = 24;
pub const MAX_LISTED: usize = MAX_UNITS * MAX_PAIRS;
pub const MIN_ROOM: usize = 8192;
pub const MAX_TELEGRAM: usize = 6 + MAX_SIZE;
pub const MAX_PAYLOAD: usize = 65_535;
pub const MAX_ANSWERS: usize = 64;
pub const MIN_ANSWER_ROOM: usize = 64;
pub const LINE_SIZE: usize = 6;
pub const MAX_LINES: usize = MAX_UNITS * (1 + 2 * MAX_PAIRS);
pub const DIFFERENCES_ROOM: usize = LINE_SIZE * MAX_LINES;

/// The numbers given back that a program looks for by name; the header has them all.
pub const DONE: u8 = 0;
pub const WRONG_PASS: u8 = 5;
pub const NOT_LISTED: u8 = 17;

pub const OFF: u8 = 0;
pub const NOTOK: u8 = 1;
pub const OK: u8 = 2;

pub const WAITING: u8 = 0;
pub const SETTING: u8 = 1;
pub const LISTED: u8 = 2;
pub const SILENT: u8 = 3;
pub const IGNORED: u8 = 4;

#[repr(C)]
#[derive(Clone, Copy, PartialEq, Eq, Debug)]
pub struct Entry {
    pub address: u16,
    pub status: u8,
    pub bad: u8,
    pub silences: u8,
    pub place: u8,
    pub tries: u8,
    pub count: u8,
    pub blocks: [u8; MAX_PAIRS],
    pub numbers: [u8; MAX_PAIRS],
}

/// It has no padding, so that equal pictures are equal byte for byte.
#[repr(C)]
#[derive(Clone, Copy, PartialEq, Eq, Debug)]
pub struct Picture {
    pub pass: u32,
    pub state: u8,
    pub delay: u8,
    pub size: u8,
    pub units: u8,
    pub entries: [Entry; MAX_UNITS],
}

#[repr(C)]
#[derive(Clone, Copy, PartialEq, Eq, Debug)]
pub struct FlatListing {
    pub count: usize,
    pub positions: [u8; MAX_LISTED],
    pub addresses: [u16; MAX_LISTED],
    pub blocks: [u8; MAX_LISTED],
    pub numbers: [u8; MAX_LISTED],
}

#[repr(C)]
#[derive(Clone, Copy, PartialEq, Eq, Debug)]
pub struct Row {
    pub position: u8,
    pub entry: Entry,
}

#[repr(C)]
#[derive(Clone, Copy, PartialEq, Eq, Debug)]
pub struct Rows {
    pub count: usize,
    pub rows: [Row; MAX_UNITS],
}

#[repr(C)]
#[derive(Clone, Copy, PartialEq, Eq, Debug)]
pub struct Pairs {
    pub count: usize,
    pub blocks: [u8; MAX_PAIRS],
    pub numbers: [u8; MAX_PAIRS],
}

#[repr(C)]
#[derive(Clone, Copy, PartialEq, Eq, Debug)]
pub struct Answers {
    pub count: usize,
    pub addresses: [u16; MAX_ANSWERS],
    pub blocks: [u8; MAX_ANSWERS],
    pub numbers: [u8; MAX_ANSWERS],
}

#[repr(C)]
#[derive(Clone, Copy, PartialEq, Eq, Debug)]
pub struct Slave {
    pub pass: u32,
    pub address: u16,
    pub position: u8,
    pub pairs: Pairs,
    pub known: Answers,
}

#[repr(C)]
#[derive(Clone, Copy, PartialEq, Eq, Debug)]
pub struct JoinState {
    pub open: u32,
    pub msg_id: u32,
    pub counter: u32,
    pub length: u32,
}

#[repr(C)]
pub struct FreshOutcome {
    pub number: u8,
    pub picture: Picture,
}

#[repr(C)]
pub struct RecordOutcome {
    pub number: u8,
    pub length: usize,
    pub picture: Picture,
}

#[repr(C)]
#[derive(Clone, Copy, PartialEq, Eq, Debug)]
pub struct LookUpOutcome {
    pub number: u8,
    pub position: u8,
    pub address: u16,
}

#[repr(C)]
#[derive(Clone, Copy, PartialEq, Eq, Debug)]
pub struct CompareOutcome {
    pub number: u8,
    pub length: usize,
}

#[repr(C)]
pub struct UnitOutcome {
    pub number: u8,
    pub unit: Slave,
}

#[repr(C)]
pub struct UnitReadOutcome {
    pub number: u8,
    pub length: usize,
    pub unit: Slave,
}

#[repr(C)]
pub struct CountOutcome {
    pub number: u8,
    pub telegrams: usize,
}

#[repr(C)]
pub struct CutOutcome {
    pub number: u8,
    pub length: usize,
}

#[repr(C)]
pub struct JoinOutcome {
    pub number: u8,
    pub complete: u8,
    pub msg_id: u32,
    pub length: usize,
    pub state: JoinState,
}

// The sizes that the header asserts: no padding but behind the numbers that stand first, behind the position of a unit or of a row, and
// behind the last row.
const _: () = {
    use std::mem::size_of;
    const ENTRY: usize = 8 + 2 * MAX_PAIRS;
    const PICTURE: usize = 8 + MAX_UNITS * ENTRY;
    assert!(size_of::<Entry>() == ENTRY && size_of::<Picture>() == PICTURE && size_of::<FlatListing>() == 8 + 5 * MAX_LISTED);
    assert!(size_of::<FreshOutcome>() == 4 + PICTURE && size_of::<RecordOutcome>() == 16 + PICTURE && size_of::<LookUpOutcome>() == 4);
    const SLAVE: usize = 8 + (8 + 2 * MAX_PAIRS) + (8 + 4 * MAX_ANSWERS);
    assert!(size_of::<Slave>() == SLAVE && size_of::<UnitOutcome>() == 8 + SLAVE && size_of::<UnitReadOutcome>() == 16 + SLAVE);
    assert!(size_of::<Row>() == 2 + ENTRY && size_of::<Rows>() == 8 + MAX_UNITS * (2 + ENTRY) + 2 && size_of::<CompareOutcome>() == 16);
    assert!(size_of::<CountOutcome>() == 16 && size_of::<CutOutcome>() == 16);
    assert!(size_of::<JoinState>() == 16 && size_of::<JoinOutcome>() == 32);
};

mod archive {
    use super::*;

    extern "C" {
        pub fn lathepetal_fresh(l: usize) -> FreshOutcome;
        pub fn lathepetal_record(picture: Picture, bytes: *const u8, length: usize, out: *mut u8, room: usize) -> RecordOutcome;
        pub fn lathepetal_listing(picture: Picture) -> FlatListing;
        pub fn lathepetal_look_up(picture: Picture, block: u8, number: u8) -> LookUpOutcome;
        pub fn lathepetal_listed_rows(picture: Picture) -> Rows;
        pub fn lathepetal_compare(
            first: *const Row,
            firsts: usize,
            second: *const Row,
            seconds: usize,
            out: *mut u8,
            room: usize,
        ) -> CompareOutcome;
        pub fn lathepetal_unit(position: u8, address: u16, pairs: *const u8, length: usize) -> UnitOutcome;
        pub fn lathepetal_unit_read(unit: Slave, order: *const u8, length: usize, out: *mut u8, room: usize) -> UnitReadOutcome;
        pub fn lathepetal_unit_learn(unit: Slave, block: u8, number: u8, answer: LookUpOutcome) -> Slave;
        pub fn lathepetal_count(l: usize, payload: *const u8, length: usize) -> CountOutcome;
        pub fn lathepetal_cut(
            l: usize,
            msg_id: u32,
            payload: *const u8,
            length: usize,
            number: usize,
            buffer: *mut u8,
            room: usize,
        ) -> CutOutcome;
        pub fn lathepetal_join_fresh() -> JoinState;
        pub fn lathepetal_join(state: JoinState, l: usize, buffer: *mut u8, room: usize, telegram: *const u8, length: usize)
            -> JoinOutcome;
    }
}

// The calls. A slice is never null, and a `&mut` one overlaps nothing, as the header asks.

#[inline(always)]
pub fn fresh(l: usize) -> FreshOutcome {
    unsafe { archive::lathepetal_fresh(l) }
}

#[inline(always)]
pub fn record(picture: Picture, bytes: &[u8], out: &mut [u8]) -> RecordOutcome {
    unsafe { archive::lathepetal_record(picture, bytes.as_ptr(), bytes.len(), out.as_mut_ptr(), out.len()) }
}

#[inline(always)]
pub fn listing(picture: Picture) -> FlatListing {
    unsafe { archive::lathepetal_listing(picture) }
}

#[inline(always)]
pub fn look_up(picture: Picture, block: u8, number: u8) -> LookUpOutcome {
    unsafe { archive::lathepetal_look_up(picture, block, number) }
}

#[inline(always)]
pub fn listed_rows(picture: Picture) -> Rows {
    unsafe { archive::lathepetal_listed_rows(picture) }
}

#[inline(always)]
pub fn compare(first: &[Row], second: &[Row], out: &mut [u8]) -> CompareOutcome {
    unsafe { archive::lathepetal_compare(first.as_ptr(), first.len(), second.as_ptr(), second.len(), out.as_mut_ptr(), out.len()) }
}

#[inline(always)]
pub fn unit(position: u8, address: u16, pairs: &[u8]) -> UnitOutcome {
    unsafe { archive::lathepetal_unit(position, address, pairs.as_ptr(), pairs.len()) }
}

#[inline(always)]
pub fn unit_read(unit: Slave, order: &[u8], out: &mut [u8]) -> UnitReadOutcome {
    unsafe { archive::lathepetal_unit_read(unit, order.as_ptr(), order.len(), out.as_mut_ptr(), out.len()) }
}

#[inline(always)]
pub fn unit_learn(unit: Slave, block: u8, number: u8, answer: LookUpOutcome) -> Slave {
    unsafe { archive::lathepetal_unit_learn(unit, block, number, answer) }
}

#[inline(always)]
pub fn count(l: usize, payload: &[u8]) -> CountOutcome {
    unsafe { archive::lathepetal_count(l, payload.as_ptr(), payload.len()) }
}

#[inline(always)]
pub fn cut(l: usize, msg_id: u32, payload: &[u8], number: usize, buffer: &mut [u8]) -> CutOutcome {
    unsafe { archive::lathepetal_cut(l, msg_id, payload.as_ptr(), payload.len(), number, buffer.as_mut_ptr(), buffer.len()) }
}

#[inline(always)]
pub fn join_fresh() -> JoinState {
    unsafe { archive::lathepetal_join_fresh() }
}

#[inline(always)]
pub fn join(state: JoinState, l: usize, buffer: &mut [u8], telegram: &[u8]) -> JoinOutcome {
    unsafe { archive::lathepetal_join(state, l, buffer.as_mut_ptr(), buffer.len(), telegram.as_ptr(), telegram.len()) }
}
