//! MDU link (source document 002).
//!
//! E3; 01; length (two bytes, high first); address; header sum; type; data;
//! CRC (two bytes, high first). The body is type and data.

use crate::crc;
use crate::stream::{self, Event, Link, State};
use crate::sum;

pub struct Mdu;

const HUNTING: u64 = 0;
const OPEN: u64 = 1;

const START: u8 = 0xE3;
const VERSION: u8 = 0x01;

#[derive(Clone, Copy, Debug, PartialEq, Eq)]
pub struct Message {
    pub address: u8,
    /// Bytes of the body.
    pub length: usize,
}

/// Whether a message may be sent (else 3).
pub fn ok(address: u8, body: &[u8]) -> bool {
    address >= 1 && (1..=1025).contains(&body.len())
}

/// The frame of a message, or 3.
pub fn frame(address: u8, body: &[u8]) -> Result<Vec<u8>, u8> {
    if !ok(address, body) {
        return Err(3);
    }
    let mut frame = vec![START, VERSION, (body.len() / 256) as u8, (body.len() % 256) as u8, address];
    let header_sum = sum::modulo_256(&frame);
    frame.push(header_sum);
    frame.extend(body);
    let check = crc::crc16(0, body);
    frame.push((check >> 8) as u8);
    frame.push((check & 255) as u8);
    Ok(frame)
}

/// Writer: 3, then 2, then the frame at the start of `out`.
pub fn write(address: u8, body: &[u8], out: &mut [u8]) -> Result<usize, u8> {
    stream::put(&frame(address, body)?, out)
}

/// The tests at byte six: version and address 9, header sum 8, length 10.
fn judge_header(header: &[u8]) -> Result<u64, u8> {
    if header[1] != VERSION || header[4] == 0 {
        return Err(9);
    }
    if sum::modulo_256(&header[..5]) != header[5] {
        return Err(8);
    }
    let length = header[2] as u64 * 256 + header[3] as u64;
    if !(1..=1025).contains(&length) {
        return Err(10);
    }
    Ok(length)
}

/// The test at the last byte.
fn judge_body(store: &[u8], length: usize) -> Result<Message, u8> {
    let check = store[6 + length] as u16 * 256 + store[7 + length] as u16;
    if crc::crc16(0, &store[6..6 + length]) != check {
        return Err(8);
    }
    Ok(Message { address: store[4], length })
}

fn hunting(state: &mut State, store: &mut [u8], byte: u8) {
    state.length = 0;
    if byte == START {
        store[0] = byte;
        state.mode = OPEN;
        state.count = 1;
        state.open = 1;
    } else {
        state.open = 0;
        state.noise = state.noise.wrapping_add(1);
    }
}

impl Link for Mdu {
    type Message = Message;
    const SIZE: usize = 1033;
    const PLACE: usize = 6;

    /// Beside the common rule: an open frame with none gathered; from byte six
    /// on a length outside 1 to 1,025, or one with all its bytes gathered.
    fn odd(state: State) -> bool {
        if stream::odd(state, 2, 1, Self::SIZE) {
            return true;
        }
        if state.mode == OPEN && state.count == 0 {
            return true;
        }
        state.count >= 6 && (!(1..=1025).contains(&state.length) || state.count >= state.length + 8)
    }

    fn step(state: &mut State, store: &mut [u8], byte: u8) -> Event<Message> {
        if state.mode == HUNTING {
            hunting(state, store, byte);
            return Event::Nothing;
        }
        // Every byte of an open frame is gathered, E3 too.
        store[state.count as usize] = byte;
        state.count += 1;
        state.open = state.open.wrapping_add(1);
        if state.count < 6 {
            state.length = 0;
            return Event::Nothing;
        }
        if state.count == 6 {
            return match judge_header(&store[..6]) {
                Ok(length) => {
                    state.length = length;
                    Event::Nothing
                }
                Err(number) => stream::end(state, Err(number)),
            };
        }
        if state.count < state.length + 8 {
            return Event::Nothing;
        }
        stream::end(state, judge_body(store, state.length as usize))
    }

    fn length(message: &Message) -> usize {
        message.length
    }

    fn first_field(message: &Message) -> u8 {
        message.address
    }

    fn fields(message: &Message) -> Vec<u8> {
        vec![message.address]
    }

    fn answer(message: &Message) -> u64 {
        (message.length as u64) << 8 | (message.address as u64) << 24
    }
}
