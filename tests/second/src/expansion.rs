//! Expansion link (source document 004).
//!
//! FD; id; type; repeat; address; data; CRC-32 (low byte first); FE. Between
//! the marks FD, FE and FF are hidden; the CRC is taken before hiding.

use crate::crc;
use crate::escape;
use crate::stream::{self, Event, Link, State};

pub struct Expansion;

const OPEN: u64 = 1;
/// Open, with an FF waiting.
const HALF: u64 = 2;

const START: u8 = 0xFD;
const END: u8 = 0xFE;
const HIDE: u8 = 0xFF;

#[derive(Clone, Copy, Debug, PartialEq, Eq)]
pub struct Message {
    pub id: u8,
    /// 0 request, 1 acknowledgement, 2 check error.
    pub kind: u8,
    pub repeat: u8,
    pub address: u8,
    pub length: usize,
}

/// Whether a message may be sent (else 3).
pub fn ok(kind: u8, repeat: u8, data: &[u8]) -> bool {
    kind <= 2 && repeat <= 3 && data.len() <= 1024 && (kind == 0 || data.is_empty())
}

/// The frame of a message, or 3.
pub fn frame(id: u8, kind: u8, repeat: u8, address: u8, data: &[u8]) -> Result<Vec<u8>, u8> {
    if !ok(kind, repeat, data) {
        return Err(3);
    }
    let mut bytes = vec![id, kind, repeat, address];
    bytes.extend(data);
    let check = crc::crc32(&bytes);
    bytes.extend(check.to_le_bytes());
    let mut frame = vec![START];
    frame.extend(escape::hide(&bytes));
    frame.push(END);
    Ok(frame)
}

/// Writer: 3, then 2, then the frame at the start of `out`.
pub fn write(id: u8, kind: u8, repeat: u8, address: u8, data: &[u8], out: &mut [u8]) -> Result<usize, u8> {
    stream::put(&frame(id, kind, repeat, address, data)?, out)
}

/// The tests at the end: 6, 8, 9.
fn judge(gathered: &[u8]) -> Result<Message, u8> {
    if gathered.len() < 8 {
        return Err(6);
    }
    let (checked, check) = gathered.split_at(gathered.len() - 4);
    if crc::crc32(checked).to_le_bytes() != check {
        return Err(8);
    }
    let (id, kind, repeat, address) = (checked[0], checked[1], checked[2], checked[3]);
    let length = checked.len() - 4;
    if kind > 2 || repeat > 3 || (kind != 0 && length > 0) {
        return Err(9);
    }
    Ok(Message { id, kind, repeat, address, length })
}

impl Link for Expansion {
    type Message = Message;
    const SIZE: usize = 1032;
    const PLACE: usize = 4;

    fn odd(state: State) -> bool {
        stream::odd(state, 3, 1, Self::SIZE)
    }

    fn step(state: &mut State, store: &mut [u8], byte: u8) -> Event<Message> {
        // FD always starts, also after an FF; while a frame is open that is 4.
        if byte == START {
            let was_open = state.mode == OPEN || state.mode == HALF;
            state.mode = OPEN;
            state.count = 0;
            state.open = 1;
            return if was_open { Event::Refused(4) } else { Event::Nothing };
        }
        match state.mode {
            OPEN => {
                state.open = state.open.wrapping_add(1);
                match byte {
                    END => stream::end(state, judge(&store[..state.count as usize])),
                    HIDE => {
                        state.mode = HALF;
                        Event::Nothing
                    }
                    _ => stream::gather(state, store, byte, OPEN, Self::SIZE),
                }
            }
            HALF => {
                state.open = state.open.wrapping_add(1);
                match escape::unhide(byte) {
                    Some(hidden) => stream::gather(state, store, hidden, OPEN, Self::SIZE),
                    None => stream::end(state, Err(7)),
                }
            }
            _ => {
                // Hunting.
                state.open = 0;
                state.noise = state.noise.wrapping_add(1);
                Event::Nothing
            }
        }
    }

    fn length(message: &Message) -> usize {
        message.length
    }

    fn first_field(message: &Message) -> u8 {
        message.address
    }

    fn fields(message: &Message) -> Vec<u8> {
        vec![message.id, message.kind, message.repeat, message.address]
    }

    fn answer(message: &Message) -> u64 {
        (message.length as u64) << 8
            | (message.id as u64) << 24
            | (message.kind as u64) << 32
            | (message.repeat as u64) << 40
            | (message.address as u64) << 48
    }
}
