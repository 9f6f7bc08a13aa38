//! DLE link (source document 003).
//!
//! Marks 10 02 and 10 03 (hex) round sequence, node, length and data, where a 10
//! is sent twice. An error message has length 0 and one error byte.

use crate::escape;
use crate::stream::{self, Event, Link, State};

pub struct Dle;

const HUNTING: u64 = 0;
/// Still hunting, with a 10 waiting.
const HALF_START: u64 = 1;
const OPEN: u64 = 2;
/// Open, with a 10 waiting.
const HALF: u64 = 3;

const MARK: u8 = 0x10;
const START: u8 = 0x02;
const END: u8 = 0x03;

#[derive(Clone, Copy, Debug, PartialEq, Eq)]
pub struct Message {
    pub sequence: u8,
    pub node: u8,
    /// The error byte of an error message.
    pub error: Option<u8>,
    /// Data bytes; 0 for an error message.
    pub length: usize,
}

/// Whether a message with data may be sent (else 3); one with an error byte always may.
pub fn ok(data: &[u8]) -> bool {
    (1..=255).contains(&data.len())
}

fn between_marks(bytes: &[u8]) -> Vec<u8> {
    let mut frame = vec![MARK, START];
    frame.extend(escape::double(bytes));
    frame.extend([MARK, END]);
    frame
}

/// The frame of a message with data, or 3.
pub fn frame(sequence: u8, node: u8, data: &[u8]) -> Result<Vec<u8>, u8> {
    if !ok(data) {
        return Err(3);
    }
    let mut bytes = vec![sequence, node, data.len() as u8];
    bytes.extend(data);
    Ok(between_marks(&bytes))
}

/// The frame of an error message.
pub fn error_frame(sequence: u8, node: u8, error: u8) -> Vec<u8> {
    between_marks(&[sequence, node, 0, error])
}

/// Writer: 3, then 2, then the frame at the start of `out`.
pub fn write(sequence: u8, node: u8, data: &[u8], out: &mut [u8]) -> Result<usize, u8> {
    stream::put(&frame(sequence, node, data)?, out)
}

/// Writer of an error message: only 2.
pub fn write_error(sequence: u8, node: u8, error: u8, out: &mut [u8]) -> Result<usize, u8> {
    stream::put(&error_frame(sequence, node, error), out)
}

/// The tests at the end: 6, then 10.
fn judge(gathered: &[u8]) -> Result<Message, u8> {
    if gathered.len() < 4 {
        return Err(6);
    }
    let (sequence, node, stated) = (gathered[0], gathered[1], gathered[2] as usize);
    let present = gathered.len() - 3;
    if stated == 0 {
        if present != 1 {
            return Err(10);
        }
        return Ok(Message { sequence, node, error: Some(gathered[3]), length: 0 });
    }
    if stated != present {
        return Err(10);
    }
    Ok(Message { sequence, node, error: None, length: stated })
}

/// A byte while hunting, with a 10 waiting or not.
fn hunting(state: &mut State, byte: u8) {
    let waiting = state.mode == HALF_START;
    if waiting && byte == START {
        // Counts on from the half mark (a strange `open` is left free by the paper, decided so).
        state.mode = OPEN;
        state.open = state.open.wrapping_add(1);
    } else if !waiting && byte == MARK {
        state.mode = HALF_START;
        state.open = 1;
    } else {
        // Without a 02 both bytes are noise, even 10 10.
        state.mode = HUNTING;
        state.open = 0;
        state.noise = state.noise.wrapping_add(if waiting { 2 } else { 1 });
    }
}

/// What follows the 10 inside an open frame.
fn after_mark(state: &mut State, store: &mut [u8], byte: u8) -> Event<Message> {
    state.open = state.open.wrapping_add(1);
    match byte {
        START => {
            state.mode = OPEN;
            state.count = 0;
            state.open = 2;
            Event::Refused(4)
        }
        END => stream::end(state, judge(&store[..state.count as usize])),
        MARK => stream::gather(state, store, MARK, OPEN, Dle::SIZE),
        _ => stream::end(state, Err(7)),
    }
}

impl Link for Dle {
    type Message = Message;
    const SIZE: usize = 258;
    const PLACE: usize = 3;

    fn odd(state: State) -> bool {
        stream::odd(state, 4, 2, Self::SIZE)
    }

    fn step(state: &mut State, store: &mut [u8], byte: u8) -> Event<Message> {
        match state.mode {
            HUNTING | HALF_START => {
                hunting(state, byte);
                Event::Nothing
            }
            OPEN => {
                state.open = state.open.wrapping_add(1);
                if byte == MARK {
                    state.mode = HALF;
                    return Event::Nothing;
                }
                stream::gather(state, store, byte, OPEN, Self::SIZE)
            }
            _ => after_mark(state, store, byte),
        }
    }

    fn length(message: &Message) -> usize {
        message.length
    }

    fn first_field(message: &Message) -> u8 {
        message.node
    }

    /// Sequence, node, 1 for an error message, error byte (0 for data).
    fn fields(message: &Message) -> Vec<u8> {
        vec![message.sequence, message.node, message.error.is_some() as u8, message.error.unwrap_or(0)]
    }

    fn answer(message: &Message) -> u64 {
        (message.length as u64) << 8
            | (message.error.is_some() as u64) << 20
            | (message.sequence as u64) << 24
            | (message.node as u64) << 32
            | (message.error.unwrap_or(0) as u64) << 40
    }
}
