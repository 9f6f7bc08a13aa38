//! PCS link (source document 000).
//!
//! 253; receiver; sender; info; number; length high; length low; sender's port;
//! receiver's port; data (packed); sum; with CRC (02, request 2) three bytes of it; 254.

use crate::crc;
use crate::packing;
use crate::stream::{self, Event, Link, State};
use crate::sum;

pub struct Pcs;

const HUNTING: u64 = 0;
const OPEN: u64 = 1;

const START: u8 = 253;
const END: u8 = 254;

/// Bytes in front of the data.
const HEADER: usize = 8;
/// Gathered bytes of the longest frame without CRC.
const PLAIN_MOST: usize = 1180;

#[derive(Clone, Copy, Debug, PartialEq, Eq)]
pub struct Message {
    pub receiver: u8,
    pub sender: u8,
    /// 0 ordinary, 1 asks for an acknowledgement, 2 and 3 are the positive and the negative one.
    pub kind: u8,
    pub number: u8,
    pub sender_port: u8,
    pub receiver_port: u8,
    /// Whether a CRC stands behind the sum.
    pub crc: bool,
    /// Data bytes, unpacked.
    pub length: usize,
}

fn receiver_ok(receiver: u8) -> bool {
    (1..=250).contains(&receiver) || receiver == 255
}

/// Sender, number and ports.
fn field_ok(field: u8) -> bool {
    (1..=250).contains(&field)
}

/// Whether a message may be sent (else 3), with CRC or without.
pub fn ok(receiver: u8, sender: u8, kind: u8, number: u8, sender_port: u8, receiver_port: u8, data: &[u8]) -> bool {
    receiver_ok(receiver)
        && field_ok(sender)
        && kind <= 3
        && field_ok(number)
        && field_ok(sender_port)
        && field_ok(receiver_port)
        && data.len() <= 1024
        && (kind < 2 || data.is_empty())
}

/// Whether the info among these bytes from the receiver's address on, if they reach so far, is one with CRC.
pub fn has_crc(bytes: &[u8]) -> bool {
    matches!(bytes.get(2), Some(12..=15))
}

/// The CRC over a body as sent: its lowest seven bits, the next seven, the top two.
pub fn crc_bytes(body: &[u8]) -> [u8; 3] {
    let value = crc::crc16(0, body);
    [value & 127, value >> 7 & 127, value >> 14].map(|part| packing::seven_out(part as u8))
}

/// What stands between a body and the end mark: the sum, with CRC also its bytes.
pub fn checks(body: &[u8], crc: bool) -> Vec<u8> {
    let mut checks = vec![sum::pcs(body)];
    if crc {
        checks.extend(crc_bytes(body));
    }
    checks
}

/// The frame of a message, or 3.
#[allow(clippy::too_many_arguments)]
pub fn frame(receiver: u8, sender: u8, kind: u8, number: u8, sender_port: u8, receiver_port: u8, crc: bool, data: &[u8]) -> Result<Vec<u8>, u8> {
    if !ok(receiver, sender, kind, number, sender_port, receiver_port, data) {
        return Err(3);
    }
    let packed = packing::pack(data);
    let high = packing::seven_out((packed.len() / 128) as u8);
    let low = packing::seven_out((packed.len() % 128) as u8);
    let info = if crc { 12 + kind } else { 4 + kind };
    let mut sent = vec![receiver, sender, info, number, high, low, sender_port, receiver_port];
    sent.extend(&packed);
    let mut frame = vec![START];
    frame.extend(&sent);
    frame.extend(checks(&sent, crc));
    frame.push(END);
    Ok(frame)
}

/// Writer: 3, then 2, then the frame at the start of `out`.
#[allow(clippy::too_many_arguments)]
pub fn write(
    receiver: u8, sender: u8, kind: u8, number: u8, sender_port: u8, receiver_port: u8, crc: bool, data: &[u8], out: &mut [u8],
) -> Result<usize, u8> {
    let frame = frame(receiver, sender, kind, number, sender_port, receiver_port, crc, data)?;
    stream::put(&frame, out)
}

/// The tests at 254, in the order of 02's request 2: 6, 5, 8, 9, 10, 13. `gathered` are the
/// bytes between 253 and 254. An accepted message comes with its unpacked data.
fn judge(gathered: &[u8]) -> Result<(Message, Vec<u8>), u8> {
    let crc = has_crc(gathered);
    let behind = if crc { 4 } else { 1 };
    if gathered.len() < HEADER + behind {
        return Err(6);
    }
    // The store has room for CRC bytes that a plain frame has not.
    if !crc && gathered.len() > PLAIN_MOST {
        return Err(5);
    }
    let (body, check) = gathered.split_at(gathered.len() - behind);
    // As sent: a 0 is not the 128 that stands for it.
    if checks(body, crc) != check {
        return Err(8);
    }
    let (header, packed) = body.split_at(HEADER);
    let (receiver, sender, info, number) = (header[0], header[1], header[2], header[3]);
    let (sender_port, receiver_port) = (header[6], header[7]);
    let fields = receiver_ok(receiver)
        && field_ok(sender)
        && field_ok(number)
        && field_ok(sender_port)
        && field_ok(receiver_port)
        && (crc || (4..=7).contains(&info));
    if !fields {
        return Err(9);
    }
    let stated = match (packing::seven_in(header[4]), packing::seven_in(header[5])) {
        (Some(high), Some(low)) => high as usize * 128 + low as usize,
        _ => return Err(9),
    };
    let kind = if crc { info - 12 } else { info - 4 };
    if kind >= 2 && stated > 0 {
        return Err(9);
    }
    if stated != packed.len() {
        return Err(10);
    }
    let data = packing::unpack(packed).ok_or(13u8)?;
    let message = Message { receiver, sender, kind, number, sender_port, receiver_port, crc, length: data.len() };
    Ok((message, data))
}

impl Link for Pcs {
    type Message = Message;
    const SIZE: usize = 1183;
    const PLACE: usize = 0;

    fn odd(state: State) -> bool {
        stream::odd(state, 2, 1, Self::SIZE)
    }

    fn step(state: &mut State, store: &mut [u8], byte: u8) -> Event<Message> {
        // 253 always starts; while a frame is open that is 4.
        if byte == START {
            let was_open = state.mode == OPEN;
            state.mode = OPEN;
            state.count = 0;
            state.open = 1;
            return if was_open { Event::Refused(4) } else { Event::Nothing };
        }
        if state.mode == HUNTING {
            state.noise = state.noise.wrapping_add(1);
            state.open = 0;
            return Event::Nothing;
        }
        // 254 ends an open frame.
        if byte == END {
            let verdict = judge(&store[..state.count as usize]);
            stream::hunt(state);
            return match verdict {
                Err(number) => Event::Refused(number),
                Ok((message, data)) => {
                    // The unpacked data from place 0; nothing else is written.
                    store[..data.len()].copy_from_slice(&data);
                    Event::Message(message)
                }
            };
        }
        // The byte that is one too many is not stored.
        if state.count as usize == Self::SIZE {
            stream::hunt(state);
            return Event::Refused(5);
        }
        store[state.count as usize] = byte;
        state.count += 1;
        state.open = state.open.wrapping_add(1);
        Event::Nothing
    }

    fn length(message: &Message) -> usize {
        message.length
    }

    fn first_field(message: &Message) -> u8 {
        message.sender
    }

    fn fields(message: &Message) -> Vec<u8> {
        let m = message;
        vec![m.receiver, m.sender, m.kind, m.number, m.sender_port, m.receiver_port, m.crc as u8]
    }

    fn answer(message: &Message) -> u64 {
        (message.length as u64) << 8
            | (message.kind as u64) << 20
            | (message.crc as u64) << 22
            | (message.receiver as u64) << 24
            | (message.sender as u64) << 32
            | (message.number as u64) << 40
            | (message.sender_port as u64) << 48
            | (message.receiver_port as u64) << 56
    }
}
