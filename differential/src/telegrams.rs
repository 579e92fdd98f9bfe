//! Telegrams cut and joined in both boxes: each step is taken by both, and everything that comes back is compared.

use crate::boxes::{ReferenceTelegrams, TelegramBox};
use crate::minimize::{minimize, Simpler};
use crate::script::{beyond, differ, differ_at, must, must_at, Difference, Found};
use reference::player::fill;
use reference::refusal::OUT_OF_SEQUENCE;
use reference::sizes::{BENCH_PAYLOAD, MAX_PAYLOAD};

const GUARD: usize = 64;
/// Lent room begins at this many places in turn, so that it has every alignment.
const STARTS: usize = 16;
const AREA: usize = STARTS + BENCH_PAYLOAD + 2 * GUARD;
/// What a script can lend to a join, and its greatest number.
const SCRIPT_ROOM: usize = MAX_PAYLOAD;
const SCRIPT_NUMBER: usize = u32::MAX as usize;

/// One step.
#[derive(Clone)]
pub enum Step {
    /// The payload is `length` bytes, made from `seed` as the script's `fill` makes them.
    Fill {
        length: usize,
        seed: u32,
    },
    Payload(Vec<u8>),
    Count {
        l: usize,
    },
    Cut {
        l: usize,
        msg_id: u32,
        number: usize,
        room: usize,
    },
    /// A fresh join state.
    Rejoin,
    Join {
        l: usize,
        room: usize,
        telegram: Vec<u8>,
    },
}

impl Simpler for Step {
    fn simpler(&self) -> Vec<Step> {
        match *self {
            Step::Fill { length, seed } if seed != 0 => vec![Step::Fill { length, seed: 0 }],
            Step::Cut { l, msg_id, number, room } if number > SCRIPT_NUMBER => {
                vec![Step::Cut { l, msg_id, number: SCRIPT_NUMBER, room }]
            }
            Step::Join { l, room, ref telegram } if room > SCRIPT_ROOM => {
                vec![Step::Join { l, room: SCRIPT_ROOM, telegram: telegram.clone() }]
            }
            _ => Vec::new(),
        }
    }
}

impl Step {
    /// The step as a line of a script.
    fn line(&self) -> String {
        match self {
            Step::Fill { length, seed } => format!("fill {length} {seed}\n"),
            Step::Payload(bytes) => format!("payload {}\n", hex(bytes)),
            Step::Count { l } => format!("{}count {l}\n", beyond(*l, SCRIPT_NUMBER)),
            Step::Cut { l, msg_id, number, room } => {
                let notes = beyond(*l, SCRIPT_NUMBER) + &beyond(*number, SCRIPT_NUMBER);
                format!("{notes}cut {l} {msg_id:08X} {number} {room}\n")
            }
            Step::Rejoin => "rejoin\n".to_string(),
            Step::Join { l, room, telegram } => {
                let notes = beyond(*l, SCRIPT_NUMBER) + &beyond(*room, SCRIPT_ROOM);
                let (msg_id, rest) = telegram.split_at(telegram.len().min(4));
                let (head, data) = rest.split_at(rest.len().min(2));
                let words = [hex(msg_id), hex(head), hex(data)].join(" ");
                format!("{notes}join {l} {room} {}\n", words.trim_end())
            }
        }
    }
}

fn hex(bytes: &[u8]) -> String {
    bytes.iter().map(|byte| format!("{byte:02X}")).collect()
}

/// What a step gave, in both boxes.
pub enum Given {
    Nothing,
    Telegrams(usize),
    Telegram,
    Open,
    /// The length of a message, which stands at the start of the join buffer.
    Message(usize),
    Refused(u8),
}

/// Both boxes with their join buffers. A third buffer is what the proved one's must be.
pub struct Player<P> {
    proved: P,
    reference: ReferenceTelegrams,
    payload: Vec<u8>,
    buffers: [Vec<u8>; 3],
    pattern: Vec<u8>,
}

impl<P: TelegramBox> Player<P> {
    pub fn new() -> Player<P> {
        let pattern: Vec<u8> = fill(AREA, 0x5A).iter().map(|byte| byte ^ 0xA7).collect();
        Player {
            proved: P::fresh(),
            reference: ReferenceTelegrams::fresh(),
            payload: Vec::new(),
            buffers: [pattern.clone(), pattern.clone(), pattern.clone()],
            pattern,
        }
    }

    pub fn payload(&self) -> &[u8] {
        &self.payload
    }

    pub fn message(&self, length: usize) -> &[u8] {
        &self.buffers[0][..length]
    }

    /// Plays one step in both boxes and compares.
    pub fn play(&mut self, step: &Step) -> Result<Given, Difference> {
        match *step {
            Step::Fill { length, seed } => self.payload = fill(length, seed),
            Step::Payload(ref bytes) => self.payload = bytes.clone(),
            Step::Count { l } => return self.count(l),
            Step::Cut { l, msg_id, number, room } => return self.cut(l, msg_id, number, room),
            Step::Rejoin => {
                self.proved = P::fresh();
                self.reference = ReferenceTelegrams::fresh();
            }
            Step::Join { l, room, ref telegram } => return self.join(l, room, telegram),
        }
        Ok(Given::Nothing)
    }

    fn count(&self, l: usize) -> Result<Given, Difference> {
        let proved = P::count(l, &self.payload);
        let (number, count) = ReferenceTelegrams::count(l, &self.payload);
        differ("number and count of telegrams", proved, (number, count))?;
        Ok(if number == 0 { Given::Telegrams(count) } else { Given::Refused(number) })
    }

    fn cut(&self, l: usize, msg_id: u32, number: usize, room: usize) -> Result<Given, Difference> {
        let start = GUARD + number % STARTS;
        let end = start + room;
        let pattern = &self.pattern[..end + GUARD];
        let mut rooms = [pattern.to_vec(), pattern.to_vec()];
        let proved = P::cut(l, msg_id, &self.payload, number, &mut rooms[0][start..end]);
        let (refusal, length) = ReferenceTelegrams::cut(l, msg_id, &self.payload, number, &mut rooms[1][start..end]);
        differ("number and length of the cut", proved, (refusal, length))?;
        differ_at("byte of the lent room", &rooms[0][start..end], &rooms[1][start..end])?;
        let written = start + length;
        must_at("proved: byte in front of the room", &rooms[0][..start], &pattern[..start])?;
        must_at("proved: byte behind the telegram", &rooms[0][written..], &pattern[written..])?;
        must_at("reference: byte behind the telegram", &rooms[1][written..], &pattern[written..])?;
        if refusal != 0 {
            return Ok(Given::Refused(refusal));
        }
        Ok(Given::Telegram)
    }

    fn join(&mut self, l: usize, room: usize, telegram: &[u8]) -> Result<Given, Difference> {
        let before = (self.proved.clone(), self.reference.clone());
        let [proved_buffer, reference_buffer, kept] = &mut self.buffers;
        let proved = self.proved.join(l, &mut proved_buffer[..room], telegram);
        let reference = self.reference.join(l, &mut reference_buffer[..room], telegram);
        differ("join", proved, reference)?;
        differ("open message", self.proved.is_open(), self.reference.is_open())?;
        must("proved: zeros in the state without a message, or its mark 1", self.proved.is_plain(), true)?;
        differ_at("byte of the join buffer", proved_buffer, reference_buffer)?;
        match reference.number {
            0 => {
                must_at("proved: byte behind the lent room", &proved_buffer[room..], &kept[room..])?;
                kept.copy_from_slice(proved_buffer);
                Ok(if reference.complete == 1 { Given::Message(reference.length) } else { Given::Open })
            }
            number => {
                must_at("proved: byte of the buffer after a refusal", proved_buffer, kept)?;
                if number == OUT_OF_SEQUENCE {
                    must("proved: open message where one is dropped", self.proved.is_open(), false)?;
                } else {
                    must("proved: state unchanged by a refusal", self.proved == before.0, true)?;
                    must("reference: state unchanged by a refusal", self.reference == before.1, true)?;
                }
                Ok(Given::Refused(number))
            }
        }
    }
}

fn replay<P: TelegramBox>(steps: &[Step]) -> Option<Difference> {
    let mut player = Player::<P>::new();
    steps.iter().find_map(|step| player.play(step).err())
}

/// The shortest script for `telegrams` that shows a difference, as `found` in the run.
pub fn explain<P: TelegramBox>(steps: &[Step], found: Difference) -> Found {
    let differs = |steps: &[Step]| replay::<P>(steps).is_some();
    let steps = match differs(steps) {
        true => minimize(steps.to_vec(), differs),
        false => steps.to_vec(),
    };
    let difference = replay::<P>(&steps).unwrap_or(found);
    Found { difference, program: "telegrams", script: steps.iter().map(Step::line).collect() }
}
