//! The cutting of a message into telegrams and the joining of telegrams into a message.

use crate::refusal;
use crate::sizes::{MAX_PAYLOAD, MAX_SIZE, MIN_SIZE, TELEGRAM_HEAD};

// The TelIDs of the one telegram of a short message, and of those of a longer one.
pub const SINGLE: u8 = 0;
pub const FIRST: u8 = 1;
pub const NEXT: u8 = 2;
pub const FINAL: u8 = 3;

/// L as a size, or number 10.
pub fn payload_size(l: u32) -> Result<usize, u8> {
    match l as usize {
        size @ MIN_SIZE..=MAX_SIZE => Ok(size),
        _ => Err(refusal::ILLEGAL_SIZE),
    }
}

/// The number of telegrams that a payload takes, or numbers 10, 11.
pub fn count(l: u32, payload: &[u8]) -> Result<u32, u8> {
    let size = payload_size(l)?;
    match payload.len() {
        length if length > MAX_PAYLOAD => Err(refusal::PAYLOAD_TOO_LONG),
        length if length <= size => Ok(1),
        length => Ok(length.div_ceil(size - 1) as u32),
    }
}

/// Writes telegram `number`, from 1, to the start of `out` and gives its length, or numbers 10 to 13.
pub fn cut(l: u32, msg_id: u32, payload: &[u8], number: u32, out: &mut [u8]) -> Result<usize, u8> {
    let count = count(l, payload)?;
    if number == 0 || number > count {
        return Err(refusal::NO_SUCH_TELEGRAM);
    }
    if count == 1 {
        return write(msg_id, SINGLE, None, payload, out);
    }
    let part_size = l as usize - 1;
    let start = (number as usize - 1) * part_size;
    let part = &payload[start..payload.len().min(start + part_size)];
    let tel_id = match number {
        1 => FIRST,
        _ if number == count => FINAL,
        _ => NEXT,
    };
    write(msg_id, tel_id, Some((number - 1) as u8), part, out)
}

fn write(msg_id: u32, tel_id: u8, counter: Option<u8>, part: &[u8], out: &mut [u8]) -> Result<usize, u8> {
    let tel_len = part.len() + usize::from(counter.is_some());
    let length = TELEGRAM_HEAD + tel_len;
    let out = out.get_mut(..length).ok_or(refusal::ROOM_TOO_SHORT)?;
    out[..4].copy_from_slice(&msg_id.to_be_bytes());
    out[4..TELEGRAM_HEAD].copy_from_slice(&(u16::from(tel_id) << 12 | tel_len as u16).to_be_bytes());
    if let Some(counter) = counter {
        out[TELEGRAM_HEAD] = counter;
    }
    out[length - part.len()..].copy_from_slice(part);
    Ok(length)
}

/// The message that is being joined.
#[derive(Clone, Copy, PartialEq, Eq, Debug)]
struct OpenMessage {
    msg_id: u32,
    counter: u8,
    length: usize,
}

/// The state of joining.
#[derive(Clone, PartialEq, Eq, Debug, Default)]
pub struct Joining {
    open: Option<OpenMessage>,
}

/// A well-formed telegram.
struct Telegram<'a> {
    msg_id: u32,
    tel_id: u8,
    data: &'a [u8],
}

impl<'a> Telegram<'a> {
    /// Numbers 14, 15.
    fn read(size: usize, bytes: &'a [u8]) -> Result<Telegram<'a>, u8> {
        let (&[m0, m1, m2, m3, high, low], data) =
            bytes.split_first_chunk::<TELEGRAM_HEAD>().ok_or(refusal::TELEGRAM_MALFORMED)?;
        let tel_id = high >> 4;
        let tel_len = usize::from(high & 0x0F) << 8 | usize::from(low);
        let needs_counter = (FIRST..=FINAL).contains(&tel_id);
        if tel_len != data.len() || tel_len > size || (needs_counter && tel_len == 0) {
            return Err(refusal::TELEGRAM_MALFORMED);
        }
        if tel_id > FINAL {
            return Err(refusal::TEL_ID_PASSED_OVER);
        }
        Ok(Telegram { msg_id: u32::from_be_bytes([m0, m1, m2, m3]), tel_id, data })
    }
}

impl Joining {
    /// No message is open.
    pub fn fresh() -> Joining {
        Joining { open: None }
    }

    /// Says whether a message is open.
    pub fn is_open(&self) -> bool {
        self.open.is_some()
    }

    /// Takes one telegram: MsgID and length of a complete message, nothing while more is to come, or numbers 10, 13 to 16.
    pub fn join(&mut self, l: u32, buffer: &mut [u8], telegram: &[u8]) -> Result<Option<(u32, usize)>, u8> {
        let size = payload_size(l)?;
        if buffer.len() < MAX_PAYLOAD {
            return Err(refusal::ROOM_TOO_SHORT);
        }
        let telegram = Telegram::read(size, telegram)?;
        let open = self.open.take();
        if telegram.tel_id == SINGLE {
            buffer[..telegram.data.len()].copy_from_slice(telegram.data);
            return Ok(Some((telegram.msg_id, telegram.data.len())));
        }
        let start = match telegram.tel_id {
            FIRST => OpenMessage { msg_id: telegram.msg_id, counter: 0, length: 0 },
            _ => open.ok_or(refusal::OUT_OF_SEQUENCE)?,
        };
        let (&counter, part) = telegram.data.split_first().ok_or(refusal::TELEGRAM_MALFORMED)?;
        let length = start.length + part.len();
        if start.msg_id != telegram.msg_id || start.counter != counter || length > MAX_PAYLOAD {
            return Err(refusal::OUT_OF_SEQUENCE);
        }
        buffer[start.length..length].copy_from_slice(part);
        if telegram.tel_id == FINAL {
            return Ok(Some((telegram.msg_id, length)));
        }
        self.open = Some(OpenMessage { msg_id: telegram.msg_id, counter: counter.wrapping_add(1), length });
        Ok(None)
    }
}
