//! A receiver with any state and store, and a stream handed to it in pieces.

use crate::crc;
use crate::dle;
use crate::escape;
use crate::expansion;
use crate::gen::{self, Wire, Xorshift};
use crate::mdu;
use crate::pcs;
use crate::stream::{self, Link, State};
use crate::vectors::link::Section;

/// A program takes no more bytes of a word.
const PIECE: usize = 4096;
/// A sequence is ended when its calls are as long as this.
const LONG: usize = 12_000;

/// Shorter than the size, exactly it, longer.
fn store_length(random: &mut Xorshift, size: usize) -> usize {
    match random.below(16) {
        0 => size - 1,
        1 => random.pick(&[0, 1, size / 2, size - 2]),
        2 | 3 => size + 1,
        4 => size + random.below(300),
        _ => size,
    }
}

/// A count of 32 bits: small, about to go round, or any.
fn count32(random: &mut Xorshift) -> u32 {
    match random.below(4) {
        0 => random.below(3) as u32,
        1 => u32::MAX - random.below(3) as u32,
        2 => random.below(2000) as u32,
        _ => random.next() as u32,
    }
}

/// Other numbers where they never give 12: in `open` and `noise`, and in MDU's `length` below six bytes.
fn counts_changed(random: &mut Xorshift, wire: Wire, state: State) -> State {
    let is_free = wire == Wire::Mdu && state.count < 6 && random.once_in(2);
    let length = if is_free { random.pick(&[1, 7, 1025, 1026, 9_999_999_999]) } else { state.length };
    State { open: count32(random), noise: count32(random), length, ..state }
}

/// Any numbers at all, most of them at the edges of what is known.
fn any_state<L: Link>(random: &mut Xorshift, wire: Wire) -> State {
    let size = L::SIZE as u64;
    let mode = match random.below(4) {
        0 => random.pick(&[4, 5, 255, 256, 65_536, 4_294_967_295, 4_294_967_296, 4_294_967_297, 9_999_999_999]),
        _ => random.below(4) as u64,
    };
    let count = match random.below(4) {
        0 => random.pick(&[0, 1, 5, 6, 7, 8, 9, 11, 12, size - 3, size - 2, size - 1, size]),
        1 => random.pick(&[size + 1, 65_536, 65_537, 4_294_967_296, 4_294_967_297, 9_999_999_999]),
        2 => 0,
        _ => random.below(L::SIZE + 1) as u64,
    };
    let length = match random.below(4) {
        0 => random.pick(&[0, 1, 2, 1024, 1025, 1026, 1027, 65_537, 4_294_967_297, 9_999_999_999]),
        1 => 0,
        _ => (count + random.below(4) as u64).saturating_sub(9),
    };
    let length = if wire == Wire::Mdu { length } else { 0 };
    counts_changed(random, wire, State { mode, count, length, ..State::default() })
}

/// The gathered bytes of a frame, now and then damaged.
fn gathered(random: &mut Xorshift, wire: Wire) -> Vec<u8> {
    let mut bytes = gen::content(random, wire);
    if random.once_in(4) {
        gen::damage(random, &mut bytes, 0);
    }
    match wire {
        Wire::Pcs => bytes.extend(pcs::checks(&bytes, pcs::has_crc(&bytes))),
        Wire::Mdu => bytes.extend(crc::crc16(0, bytes.get(6..).unwrap_or(&[])).to_be_bytes()),
        Wire::Dle => {}
        Wire::Expansion => bytes.extend(crc::crc32(&bytes).to_le_bytes()),
    }
    bytes
}

/// What is still on the wire when these are to be gathered.
fn on_the_wire(wire: Wire, bytes: &[u8]) -> Vec<u8> {
    match wire {
        Wire::Pcs => [bytes, &[254]].concat(),
        Wire::Mdu => bytes.to_vec(),
        Wire::Dle => [&escape::double(bytes)[..], &[0x10, 0x03]].concat(),
        Wire::Expansion => [&escape::hide(bytes)[..], &[0xFE]].concat(),
    }
}

/// The middle of a frame that no call has gathered: its first bytes stand in the store.
fn middle<L: Link>(random: &mut Xorshift, wire: Wire) -> (State, Vec<u8>, Vec<u8>) {
    let bytes = gathered(random, wire);
    let count = random.below(bytes.len().min(L::SIZE) + 1);
    let length = store_length(random, L::SIZE);
    let mut store = gen::contents(random, length);
    for (place, byte) in store.iter_mut().zip(&bytes[..count]) {
        *place = *byte;
    }
    let mut rest = on_the_wire(wire, &bytes[count..]);
    let (open, half) = match wire {
        Wire::Dle => (2, 3),
        Wire::Expansion => (1, 2),
        _ => (1, 1),
    };
    let mut mode = open;
    if random.once_in(5) && half != open {
        mode = half;
        rest.insert(0, random.pick(&[0x10, 0x10, 0x02, 0x03, 0x00, 0x01, 0xFD, 0xFE, 0xFF]));
    }
    let stated = match bytes.get(2..4) {
        Some(pair) if wire == Wire::Mdu && count >= 6 => pair[0] as u64 * 256 + pair[1] as u64,
        _ => 0,
    };
    let length = if wire == Wire::Mdu && random.once_in(6) { stated + random.below(3) as u64 } else { stated };
    let state = State { mode, count: count as u64, length, ..State::default() };
    (counts_changed(random, wire, state), store, rest)
}

/// A stream that calls have read up to somewhere, and what follows.
fn reached<L: Link>(random: &mut Xorshift, wire: Wire, stream: &[u8]) -> (State, Vec<u8>, Vec<u8>) {
    let at = random.below(stream.len() + 1);
    let length = L::SIZE + random.pick(&[0, 0, 0, 1, 77]);
    let mut store = gen::contents(random, length);
    let (mut state, mut read) = (State::default(), 0);
    while read < at {
        let received = stream::receive::<L>(&stream[read..at], state, &mut store);
        state = received.state;
        read += received.used;
    }
    if random.once_in(3) {
        state = counts_changed(random, wire, state);
    }
    if random.once_in(12) {
        let shorter = random.below(store.len());
        store.truncate(shorter);
    }
    (state, store, stream[at..].to_vec())
}

/// One to three runs of bytes.
fn stream_of(random: &mut Xorshift, wire: Wire) -> Vec<u8> {
    let mut stream = Vec::new();
    for _ in 0..1 + random.below(3) {
        stream.extend(gen::run(random, wire));
    }
    stream
}

fn piece_length(random: &mut Xorshift, most: usize) -> usize {
    let length = match random.below(6) {
        0 => 1,
        1 => random.below(4),
        2 | 3 => most,
        _ => random.below(most + 1),
    };
    length.min(most).min(PIECE)
}

/// Between two calls: other counts, or a store with another byte or another length.
fn meddle(random: &mut Xorshift, wire: Wire, link: &mut Section) {
    if random.once_in(2) {
        let state = counts_changed(random, wire, link.state);
        link.set(state);
        return;
    }
    let mut store = link.store.clone();
    match random.below(4) {
        0 => store.push(gen::edge(random)),
        1 => {
            store.pop();
        }
        _ => {
            let place = random.below(store.len().min(40));
            store[place] = gen::edge(random);
        }
    }
    link.hold(store);
}

/// Calls with piece after piece. What lies behind an event goes to the next call, or
/// is lost with its piece; 12 and 1 end the sequence.
fn play<L: Link>(random: &mut Xorshift, wire: Wire, link: &mut Section, stream: &[u8]) {
    let mut rest = stream;
    for _ in 0..24 {
        let length = piece_length(random, rest.len());
        let (used, event) = link.receive::<L>(&rest[..length]);
        let stays = event == "refused 12" || event == "refused 1";
        rest = &rest[if random.once_in(6) { length } else { used }..];
        if stays || rest.is_empty() || link.lines.calls.len() > LONG {
            break;
        }
        if random.once_in(6) {
            link.content();
        }
        if random.once_in(16) && !link.store.is_empty() {
            meddle(random, wire, link);
        }
    }
    link.content();
}

/// The accessor with a store and a message of any data length.
fn part<L: Link>(random: &mut Xorshift, wire: Wire, link: &mut Section) {
    let room = store_length(random, L::SIZE).saturating_sub(random.below(3) * random.below(L::SIZE));
    let fits = room.saturating_sub(L::PLACE);
    let length = match random.below(5) {
        0 => fits,
        1 => fits + 1,
        2 => random.pick(&[0, 1, 4_294_967_295, 4_294_967_296, 9_999_999_999]),
        _ => random.below(fits + 2),
    };
    match wire {
        Wire::Pcs => {
            let crc = random.once_in(2);
            let message =
                pcs::Message { receiver: 1, sender: 1, kind: 0, number: 1, sender_port: 1, receiver_port: 1, crc, length };
            link.part::<pcs::Pcs>(room, length, message);
        }
        Wire::Mdu => link.part::<mdu::Mdu>(room, length, mdu::Message { address: 1, length }),
        Wire::Dle => {
            // A length of one byte on this link.
            let length = length.min(255);
            link.part::<dle::Dle>(room, length, dle::Message { sequence: 1, node: 1, error: None, length });
        }
        Wire::Expansion => {
            let message = expansion::Message { id: 1, kind: 0, repeat: 0, address: 0, length };
            link.part::<expansion::Expansion>(room, length, message);
        }
    }
}

pub fn sequence<L: Link>(random: &mut Xorshift, wire: Wire, link: &mut Section) {
    let mut stream = stream_of(random, wire);
    let length = store_length(random, L::SIZE);
    match random.below(12) {
        0..=2 => link.fresh(length),
        3 => {
            link.fresh(length);
            let state = counts_changed(random, wire, State::default());
            link.set(state);
        }
        4..=6 => {
            let (state, store, rest) = reached::<L>(random, wire, &stream);
            link.hold(store);
            link.set(state);
            stream = rest;
        }
        7..=9 => {
            let (state, store, rest) = middle::<L>(random, wire);
            link.hold(store);
            link.set(state);
            stream = [rest, stream].concat();
        }
        _ => {
            link.hold(gen::contents(random, length));
            let state = any_state::<L>(random, wire);
            link.set(state);
        }
    }
    play::<L>(random, wire, link, &stream);
    part::<L>(random, wire, link);
}

#[cfg(test)]
mod tests {
    use super::*;
    use crate::dle::Dle;
    use crate::expansion::Expansion;
    use crate::mdu::Mdu;
    use crate::pcs::Pcs;

    /// The middle of a frame goes on to its message, whatever stands in `open` and `noise`.
    fn goes_on<L: Link>(wire: Wire) {
        let mut random = Xorshift::new(5);
        let mut messages = 0;
        for _ in 0..300 {
            let (state, mut store, rest) = middle::<L>(&mut random, wire);
            let received = stream::receive::<L>(&rest, state, &mut store);
            if let stream::Event::Message(_) = received.event {
                messages += 1;
                assert_eq!((received.state.mode, received.state.count, received.state.open), (0, 0, 0));
            }
        }
        assert!(messages > 60, "{wire:?}: {messages}");
    }

    #[test]
    fn the_middle_of_a_frame_goes_on() {
        goes_on::<Pcs>(Wire::Pcs);
        goes_on::<Mdu>(Wire::Mdu);
        goes_on::<Dle>(Wire::Dle);
        goes_on::<Expansion>(Wire::Expansion);
    }

    #[test]
    fn a_reached_state_is_known() {
        let mut random = Xorshift::new(6);
        for _ in 0..300 {
            let stream = stream_of(&mut random, Wire::Dle);
            let (state, _, _) = reached::<Dle>(&mut random, Wire::Dle, &stream);
            assert!(!Dle::odd(state));
            let stream = stream_of(&mut random, Wire::Mdu);
            let (state, _, _) = reached::<Mdu>(&mut random, Wire::Mdu, &stream);
            assert!(!Mdu::odd(state));
        }
    }
}
