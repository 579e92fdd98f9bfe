//! The claim of ticket 6: no line comes out exactly where both lists hold the same, and the first list with the lines applied is the
//! second; pairs are sets. And room for the most lines is never refused 21.

use std::collections::BTreeMap;

use lathepetal::{DIFFERENCES_ROOM, LINE_SIZE};
use reference::refusal::NO_ROOM_FOR_DIFFERENCES;

use crate::lists_boxes::Given;
use crate::script::{must, Difference};

/// What a list holds: at each position the address, and the pairs as a set, in rising order.
type Held = BTreeMap<u8, (u16, Vec<[u8; 2]>)>;

fn held(list: &[Given]) -> Held {
    let one = |given: &Given| {
        let row = given.seen();
        let mut pairs: Vec<[u8; 2]> = row.pairs.iter().map(|pair| [pair.block, pair.number]).collect();
        pairs.sort_unstable();
        (row.position, (row.address, pairs))
    };
    list.iter().map(one).collect()
}

/// Checks the claim where the comparison gave this number and these lines.
pub fn check(first: &[Given], second: &[Given], room: usize, number: u8, lines: &[u8]) -> Result<(), Difference> {
    match number {
        lathepetal::DONE => {}
        NO_ROOM_FOR_DIFFERENCES => return must("claim: refusal 21 with room for the most lines", room >= DIFFERENCES_ROOM, false),
        _ => return Ok(()),
    }
    let (mut before, after) = (held(first), held(second));
    must("claim: no line, and both lists hold the same", lines.is_empty(), before == after)?;
    for line in lines.chunks(LINE_SIZE) {
        if !apply(&mut before, line) {
            return Err(Difference { what: format!("claim: line {line:02X?} has nothing to apply to"), line: None });
        }
    }
    must("claim: the first list with the lines applied is the second", before == after, true)
}

/// Applies a line; says whether there is something to apply it to.
fn apply(held: &mut Held, line: &[u8]) -> bool {
    let &[kind, position, high, low, block, number] = line else { return false };
    let address = u16::from_be_bytes([high, low]);
    let pair = [block, number];
    match (kind, held.get_mut(&position)) {
        (1, Some(_)) => address == 0 && pair == [0, 0] && held.remove(&position).is_some(),
        (2, None) => pair == [0, 0] && held.insert(position, (address, Vec::new())).is_none(),
        (3, Some((had, _))) => pair == [0, 0] && std::mem::replace(had, address) != address,
        (4, Some((_, pairs))) => address == 0 && pairs.binary_search(&pair).map(|place| pairs.remove(place)).is_ok(),
        (5, Some((_, pairs))) => address == 0 && pairs.binary_search(&pair).map_err(|place| pairs.insert(place, pair)).is_err(),
        _ => false,
    }
}
