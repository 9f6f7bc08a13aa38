//! What the four receivers have in common: state, event, call, part of the store.
//!
//! Numbers 1 to 18 are those of document 01's table and stand as plain numbers
//! in the code; 11 is withdrawn by request 2 of document 02, and 21 comes with its
//! request 5.

/// A receiver's state. Fresh is all zeros; any numbers may stand in it.
/// Only MDU uses `length`.
#[derive(Clone, Copy, Debug, Default, PartialEq, Eq)]
pub struct State {
    pub mode: u64,
    /// How many bytes are gathered; they stand at the front of the store.
    pub count: u64,
    /// MDU: the stated length, from byte six on.
    pub length: u64,
    /// Wire bytes of the open frame (or the half mark), going round.
    pub open: u32,
    /// Bytes of noise, going round from 4,294,967,295 to 0.
    pub noise: u32,
}

/// What one byte, or one call, made.
#[derive(Clone, Copy, Debug, PartialEq, Eq)]
pub enum Event<M> {
    Nothing,
    Message(M),
    Refused(u8),
}

/// The answer of one call.
#[derive(Clone, Copy, Debug, PartialEq, Eq)]
pub struct Received<M> {
    pub used: usize,
    pub state: State,
    pub event: Event<M>,
}

/// One link, as the whole-frame rule, the listing and the tests see it.
pub trait Link {
    type Message: Copy + PartialEq + std::fmt::Debug;
    /// The link's size: the least store.
    const SIZE: usize;
    /// Where the data of a message begins in the store.
    const PLACE: usize;

    /// Refusal 12: a state that holds what its rules don't allow.
    fn odd(state: State) -> bool;
    /// One byte of the stream, the state not odd and the store long enough.
    fn step(state: &mut State, store: &mut [u8], byte: u8) -> Event<Self::Message>;
    /// Data length of a message.
    fn length(message: &Self::Message) -> usize;
    /// The listing's first field.
    fn first_field(message: &Self::Message) -> u8;
    /// The fields beside the data, in the order in which the vectors print them.
    fn fields(message: &Self::Message) -> Vec<u8>;
    /// Bits 8 to 63 of the host's 64-bit answer.
    fn answer(message: &Self::Message) -> u64;
}

/// What gives 12 on every link: a mode that it has not, or a count that is too
/// high, while hunting already above 0. Modes below `hunting` hunt, those below `known` are known.
pub fn odd(state: State, known: u64, hunting: u64, size: usize) -> bool {
    state.mode >= known
        || state.count > size as u64
        || (state.mode < hunting && state.count > 0)
}

/// One call: tests 12, then 1, then takes byte after byte until one makes an
/// event, that one included.
pub fn receive<L: Link>(piece: &[u8], state: State, store: &mut [u8]) -> Received<L::Message> {
    if L::odd(state) {
        return Received { used: 0, state, event: Event::Refused(12) };
    }
    if store.len() < L::SIZE {
        return Received { used: 0, state, event: Event::Refused(1) };
    }
    let mut state = state;
    for (index, byte) in piece.iter().enumerate() {
        let event = L::step(&mut state, store, *byte);
        if event != Event::Nothing {
            return Received { used: index + 1, state, event };
        }
    }
    Received { used: piece.len(), state, event: Event::Nothing }
}

/// The accepted data: a part of the store itself, empty if it doesn't lie in it.
pub fn data<'a, L: Link>(store: &'a [u8], message: &L::Message) -> &'a [u8] {
    let length = L::length(message);
    match L::PLACE.checked_add(length) {
        Some(end) if end <= store.len() => &store[L::PLACE..end],
        _ => &[],
    }
}

/// Back to hunting: nothing gathered, nothing open; the noise stays.
pub fn hunt(state: &mut State) {
    state.mode = 0;
    state.count = 0;
    state.length = 0;
    state.open = 0;
}

/// The end of a frame: back to hunting, with what the tests at the end say.
pub fn end<M>(state: &mut State, verdict: Result<M, u8>) -> Event<M> {
    hunt(state);
    match verdict {
        Ok(message) => Event::Message(message),
        Err(number) => Event::Refused(number),
    }
}

/// One byte after unhiding, in a frame that stays open; one more than the link's size is not stored.
pub fn gather<M>(state: &mut State, store: &mut [u8], byte: u8, open: u64, size: usize) -> Event<M> {
    if state.count as usize == size {
        hunt(state);
        return Event::Refused(5);
    }
    store[state.count as usize] = byte;
    state.count += 1;
    state.mode = open;
    Event::Nothing
}

/// Writers: test 2, then the frame at the start of the lent memory.
pub fn put(frame: &[u8], out: &mut [u8]) -> Result<usize, u8> {
    if out.len() < frame.len() {
        return Err(2);
    }
    out[..frame.len()].copy_from_slice(frame);
    Ok(frame.len())
}
