//! Holds cutting and joining to each other and to the numbers of paper 01.

use reference::generate::Random;
use reference::telegrams::{count, cut, Joining};

fn payload(length: usize) -> Vec<u8> {
    (0..length).map(|index| (index * 7 + index / 251) as u8).collect()
}

fn round_trip(l: u32, payload: &[u8], buffer: &mut [u8]) {
    let mut joining = Joining::fresh();
    let count = count(l, payload).expect("a count");
    let mut total = 0;
    for number in 1..=count {
        let mut room = [0xAA; 60];
        let length = cut(l, 0xDEAD_BEEF, payload, number, &mut room).expect("a telegram");
        assert!(length <= 6 + l as usize && room[length..].iter().all(|&byte| byte == 0xAA));
        assert_eq!(cut(l, 0xDEAD_BEEF, payload, number, &mut room[..length - 1]), Err(13));
        let wanted = (number == count).then_some((0xDEAD_BEEF, payload.len()));
        assert_eq!(joining.join(l, buffer, &room[..length]), Ok(wanted));
        total += length - 6 - usize::from(count > 1);
    }
    assert_eq!(total, payload.len());
    assert_eq!(buffer[..payload.len()], *payload);
    assert_eq!(cut(l, 0, payload, count + 1, &mut [0; 60]), Err(12));
    assert_eq!(cut(l, 0, payload, 0, &mut [0; 60]), Err(12));
}

#[test]
fn messages_come_back() {
    let mut buffer = vec![0; 65_535];
    for l in 12..=45 {
        for length in (0..=200).chain([2_815, 2_816, 2_817, 11_264, 11_265]) {
            round_trip(l, &payload(length), &mut buffer);
        }
        for length in [65_533, 65_534, 65_535] {
            round_trip(l, &payload(length), &mut buffer);
        }
    }
}

#[test]
fn numbers_of_cutting_in_their_order() {
    let great = payload(65_536);
    assert_eq!(count(11, &great), Err(10));
    assert_eq!(count(46, &[]), Err(10));
    assert_eq!(count(u32::MAX, &[]), Err(10));
    assert_eq!(count(12, &great), Err(11));
    assert_eq!(cut(11, 0, &great, 0, &mut []), Err(10));
    assert_eq!(cut(12, 0, &great, 0, &mut []), Err(11));
    assert_eq!(cut(12, 0, &[], 0, &mut []), Err(12));
    assert_eq!(cut(12, 0, &[], 2, &mut []), Err(12));
    assert_eq!(cut(12, 0, &[], 1, &mut []), Err(13));
    assert_eq!(cut(12, 0, &[], 1, &mut [0; 6]), Ok(6));
}

/// Only 16 ends an open message; no refusal changes the buffer.
#[test]
fn refusals_of_joining() {
    let mut buffer = vec![0x55; 65_535];
    let mut joining = Joining::fresh();
    assert_eq!(joining.join(12, &mut buffer, &[0, 0, 0, 9, 0x10, 2, 0, 7]), Ok(None));
    let open = joining.clone();
    let mut refused = |l: u32, room: usize, telegram: &[u8], number: u8| {
        let mut joining = open.clone();
        let before = buffer.clone();
        assert_eq!(joining.join(l, &mut buffer[..room], telegram), Err(number), "{telegram:02X?}");
        assert_eq!(joining.is_open(), number != 16, "{telegram:02X?}");
        assert!(buffer == before && (number == 16 || joining == open));
    };
    refused(11, 0, &[], 10);
    refused(46, 65_535, &[], 10);
    refused(12, 65_534, &[], 13);
    for length in 0..6 {
        refused(12, 65_535, &vec![0; length], 14);
    }
    refused(12, 65_535, &[0, 0, 0, 9, 0x20, 2, 1], 14);
    refused(12, 65_535, &[0, 0, 0, 9, 0x21, 2, 1, 1], 14);
    refused(12, 65_535, &[0, 0, 0, 9, 0x20, 13, 1, 0, 0, 0, 0, 0, 0, 0, 0, 0, 0, 0, 0], 14);
    refused(12, 65_535, &[0, 0, 0, 9, 0x40, 13, 1, 0, 0, 0, 0, 0, 0, 0, 0, 0, 0, 0, 0], 14);
    for tel_id in 1..=3 {
        refused(12, 65_535, &[0, 0, 0, 9, tel_id << 4, 0], 14);
    }
    for tel_id in 4..=15 {
        refused(12, 65_535, &[0, 0, 0, 9, tel_id << 4, 0], 15);
        refused(12, 65_535, &[0, 0, 0, 9, tel_id << 4, 1, 1], 15);
    }
    for tel_id in 2..=3 {
        refused(12, 65_535, &[0, 0, 0, 8, tel_id << 4, 1, 1], 16);
        refused(12, 65_535, &[1, 0, 0, 9, tel_id << 4, 1, 1], 16);
        refused(12, 65_535, &[0, 0, 0, 9, tel_id << 4, 1, 0], 16);
        refused(12, 65_535, &[0, 0, 0, 9, tel_id << 4, 1, 2], 16);
    }
    refused(12, 65_535, &[0, 0, 0, 9, 0x10, 1, 1], 16);
}

#[test]
fn a_total_above_65535() {
    for (last, wanted) in [(18, Ok(Some((9, 65_534)))), (19, Ok(Some((9, 65_535)))), (20, Err(16))] {
        let mut buffer = vec![0; 70_000];
        let mut joining = Joining::fresh();
        for number in 0..1489u32 {
            let tel_id = if number == 0 { 0x10 } else { 0x20 };
            let telegram = [&[0, 0, 0, 9, tel_id, 45, number as u8][..], &[3; 44]].concat();
            assert_eq!(joining.join(45, &mut buffer, &telegram), Ok(None));
        }
        let before = buffer.clone();
        let telegram = [&[0, 0, 0, 9, 0x30, last + 1, 209][..], &vec![4; last as usize]].concat();
        assert_eq!(joining.join(45, &mut buffer, &telegram), wanted);
        assert!(!joining.is_open());
        assert_eq!(wanted.is_err(), buffer == before);
        assert!(buffer[65_535..].iter().all(|&byte| byte == 0));
    }
}

#[test]
fn random_telegrams_never_break_the_joining() {
    let mut random = Random::new(3);
    let mut buffer = vec![0; 65_535];
    let mut joining = Joining::fresh();
    for _ in 0..200_000 {
        let length = random.below(14);
        let mut telegram =
            vec![0, 0, 0, random.below(2) as u8, (random.below(5) as u8) << 4, length as u8, random.below(3) as u8];
        telegram.resize(6 + length, 1);
        let _ = joining.join(random.range(11, 14) as u32, &mut buffer, &telegram);
    }
}
