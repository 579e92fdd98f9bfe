// One bench session, whole: a ring of three is started, a clashing instance number is renumbered, and the ring gets to OK. Then the
// listing, two look-ups, a record that is refused, a re-plug in which the ring stays OK, and a message cut into telegrams and joined
// again.
// Ends with status 1 where anything is not as expected.

// The library as include/lathepetal.h declares it; what a caller keeps to stands there.
#[allow(dead_code)]
#[path = "../embed/src/lib.rs"]
mod lathepetal;

const L: usize = 12;
const MSG_ID: u32 = 0x2202100C;

fn expect(holds: bool, what: &str) {
    if !holds {
        eprintln!("not as expected: {what}");
        std::process::exit(1);
    }
}

fn hex(bytes: &[u8]) -> String {
    bytes.iter().map(|b| format!("{b:02X}")).collect()
}

// Bytes in hex, in groups of the widths given; what is left behind them is the last group.
fn groups(bytes: &[u8], widths: &[usize]) -> String {
    let mut words = Vec::new();
    let mut rest = bytes;
    for &width in widths {
        if rest.len() <= width {
            break;
        }
        let (group, behind) = rest.split_at(width);
        words.push(hex(group));
        rest = behind;
    }
    words.push(hex(rest));
    words.join(" ")
}

// mark, kind, pass, x, address, count, pairs
const RECORD_GROUPS: &[usize] = &[2, 1, 4, 1, 2, 1];
// mark, kind, pass, position, address, block, old, new
const SET_GROUPS: &[usize] = &[2, 1, 4, 1, 2, 1, 1, 1];
// mark, kind, pass, position or count, pairs
const ORDER_GROUPS: &[usize] = &[2, 1, 4, 1];
// MsgID, TelID and TelLen, counter, payload
const TELEGRAM_GROUPS: &[usize] = &[4, 2, 1];

const HEAD: usize = 7;
const ASK: u8 = 1;
const SET: u8 = 2;
const NEW: u8 = 5;
const INVALID: u8 = 6;

// The length of the order that `orders` begins with.
fn order_length(orders: &[u8]) -> usize {
    match orders[2] {
        ASK => HEAD + 1,
        SET => HEAD + 6,
        NEW | INVALID => HEAD + 1 + 2 * orders[HEAD] as usize,
        _ => HEAD,
    }
}

// Hands one record to the box, prints what it gives, and holds that to the number and the orders expected.
fn play(picture: lathepetal::Picture, bytes: &[u8], number: u8, orders: &[u8]) -> lathepetal::Picture {
    let mut out = [0u8; lathepetal::MIN_ROOM];
    let outcome = lathepetal::record(picture, bytes, &mut out);

    println!("{}", groups(bytes, RECORD_GROUPS));
    expect(outcome.number == number, "the number of a record");
    expect(outcome.length == orders.len(), "the length of the orders");
    expect(out[..outcome.length] == *orders, "the orders");
    if outcome.number != lathepetal::DONE {
        expect(outcome.picture == picture, "the picture after a refusal");
        println!("  is refused {}", outcome.number);
        return picture;
    }
    if outcome.length == 0 {
        println!("  gives nothing");
    }
    let mut rest = &out[..outcome.length];
    while !rest.is_empty() {
        let (order, behind) = rest.split_at(order_length(rest));
        println!("  gives {}", groups(order, if order[2] == SET { SET_GROUPS } else { ORDER_GROUPS }));
        rest = behind;
    }
    outcome.picture
}

fn look_up(picture: lathepetal::Picture, block: u8, instance: u8, expected: lathepetal::LookUpOutcome) {
    let found = lathepetal::look_up(picture, block, instance);
    expect(found == expected, "what a look-up finds");
    if found.number != lathepetal::DONE {
        println!("{block:02X}.{instance:02X} is refused {}", found.number);
    } else {
        println!("{block:02X}.{instance:02X} is at position {}, address {:04X}", found.position, found.address);
    }
}

fn ring() {
    const START_3: &[u8] = &[0x4D, 0x45, 1, 0, 0, 0, 0, 3];
    const ASK_1_2: &[u8] = &[0x4D, 0x4F, 1, 0, 0, 0, 1, 1, 0x4D, 0x4F, 1, 0, 0, 0, 1, 2];
    const FIRST: &[u8] = &[0x4D, 0x45, 4, 0, 0, 0, 1, 1, 0x01, 0x01, 1, 0x22, 0x01];
    const SECOND: &[u8] = &[0x4D, 0x45, 4, 0, 0, 0, 1, 2, 0x01, 0x02, 1, 0x22, 0x01];
    const SET_2: &[u8] = &[0x4D, 0x4F, 2, 0, 0, 0, 1, 2, 0x01, 0x02, 0x22, 0x01, 0x02];
    const RENUMBERED: &[u8] = &[0x4D, 0x45, 4, 0, 0, 0, 1, 2, 0x01, 0x02, 1, 0x22, 0x02];
    const RING_OK: &[u8] = &[0x4D, 0x4F, 3, 0, 0, 0, 1];
    const OLD_NONE: &[u8] = &[0x4D, 0x45, 5, 0, 0, 0, 0, 1];
    const CHANGE_3: &[u8] = &[0x4D, 0x45, 2, 0, 0, 0, 0, 3];
    const ASK_1: &[u8] = &[0x4D, 0x4F, 1, 0, 0, 0, 2, 1];
    const ASK_2: &[u8] = &[0x4D, 0x4F, 1, 0, 0, 0, 2, 2];
    const INVALID_BOTH: &[u8] = &[0x4D, 0x4F, 6, 0, 0, 0, 2, 2, 0x22, 0x01, 0x22, 0x02];
    const FIRST_AGAIN: &[u8] = &[0x4D, 0x45, 4, 0, 0, 0, 2, 1, 0x01, 0x01, 1, 0x22, 0x01];
    const NEW_1: &[u8] = &[0x4D, 0x4F, 5, 0, 0, 0, 2, 1, 0x22, 0x01];
    const NOWHERE: lathepetal::LookUpOutcome = lathepetal::LookUpOutcome { number: lathepetal::NOT_LISTED, position: 0, address: 0 };

    let made = lathepetal::fresh(L);
    expect(made.number == lathepetal::DONE, "the number of a fresh picture");

    let picture = play(made.picture, START_3, lathepetal::DONE, ASK_1_2);
    let picture = play(picture, FIRST, lathepetal::DONE, &[]);
    let picture = play(picture, SECOND, lathepetal::DONE, SET_2);
    let picture = play(picture, RENUMBERED, lathepetal::DONE, RING_OK);
    expect(picture.state == lathepetal::OK, "the state");

    let listing = lathepetal::listing(picture);
    expect(listing.count == 2, "how many pairs are listed");
    println!("{} pairs are listed", listing.count);
    for i in 0..listing.count {
        println!(
            "  {:02X}.{:02X} at position {}, address {:04X}",
            listing.blocks[i], listing.numbers[i], listing.positions[i], listing.addresses[i]
        );
    }

    look_up(picture, 0x22, 0x02, lathepetal::LookUpOutcome { number: lathepetal::DONE, position: 2, address: 0x0102 });
    look_up(picture, 0x22, 0x03, NOWHERE);
    let picture = play(picture, OLD_NONE, lathepetal::WRONG_PASS, &[]);

    let picture = play(picture, CHANGE_3, lathepetal::DONE, &[ASK_1, ASK_2, INVALID_BOTH].concat());
    let picture = play(picture, FIRST_AGAIN, lathepetal::DONE, NEW_1);
    expect(picture.state == lathepetal::OK, "the state after a re-plug");
    look_up(picture, 0x22, 0x02, NOWHERE);
}

fn telegrams() {
    let mut buffer = vec![0u8; lathepetal::MAX_PAYLOAD];
    let payload: Vec<u8> = (0xA0..0xA0 + 20).collect();

    let count = lathepetal::count(L, &payload);
    expect(count.number == lathepetal::DONE && count.telegrams == 2, "how many telegrams");
    println!("{} bytes are {} telegrams", payload.len(), count.telegrams);

    let mut state = lathepetal::join_fresh();
    for number in 1..=count.telegrams {
        let mut telegram = [0u8; lathepetal::MAX_TELEGRAM];
        let cut = lathepetal::cut(L, MSG_ID, &payload, number, &mut telegram);
        expect(cut.number == lathepetal::DONE, "the number of a cut");
        println!("  {}", groups(&telegram[..cut.length], TELEGRAM_GROUPS));

        let joined = lathepetal::join(state, L, &mut buffer, &telegram[..cut.length]);
        expect(joined.number == lathepetal::DONE, "the number of a join");
        expect((joined.complete == 1) == (number == count.telegrams), "whether the message is complete");
        if joined.complete == 1 {
            expect(joined.msg_id == MSG_ID, "the MsgID");
            expect(buffer[..joined.length] == payload, "the message");
            println!("joined: MsgID {:08X}, {} bytes, as they were", joined.msg_id, joined.length);
        }
        state = joined.state;
    }
    expect(state.open == 0, "the state behind a complete message");
}

fn main() {
    ring();
    telegrams();
}
