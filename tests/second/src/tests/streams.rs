//! The cutting rule, the count of every byte, the noise that goes round.

use super::FILL;
use crate::dle::Dle;
use crate::expansion::Expansion;
use crate::gen::{self, Wire, Xorshift};
use crate::mdu::Mdu;
use crate::pcs::Pcs;
use crate::stream::{self, Event, Link, State};

/// Everything that happens in a stream handed over in pieces of `cut` bytes
/// (0: any), with the store after each event.
type History<M> = (Vec<(Event<M>, Vec<u8>)>, State, Vec<u8>);

fn history<L: Link>(wire: &[u8], random: Option<&mut Xorshift>, cut: usize) -> History<L::Message> {
    let mut store = vec![FILL; L::SIZE + 3];
    let mut state = State::default();
    let mut events = Vec::new();
    let mut random = random;
    let mut rest = wire;
    while !rest.is_empty() {
        let length = match (&mut random, cut) {
            (Some(random), _) => random.below(12).min(rest.len()),
            (None, cut) => cut.min(rest.len()),
        };
        let mut piece = &rest[..length];
        rest = &rest[length..];
        while !piece.is_empty() {
            let received = stream::receive::<L>(piece, state, &mut store);
            state = received.state;
            piece = &piece[received.used..];
            if received.event != Event::Nothing {
                events.push((received.event, store.clone()));
            }
        }
    }
    (events, state, store)
}

fn cutting<L: Link>(wire: Wire) {
    let mut random = Xorshift::new(11);
    for _ in 0..150 {
        let mut stream = Vec::new();
        for _ in 0..random.below(6) {
            stream.extend(gen::run(&mut random, wire));
        }
        let uncut = history::<L>(&stream, None, usize::MAX);
        assert_eq!(history::<L>(&stream, None, 1), uncut);
        assert_eq!(history::<L>(&stream, Some(&mut random), 0), uncut);
    }
}

#[test]
fn cut_streams_equal_uncut_ones() {
    cutting::<Pcs>(Wire::Pcs);
    cutting::<Mdu>(Wire::Mdu);
    cutting::<Dle>(Wire::Dle);
    cutting::<Expansion>(Wire::Expansion);
}

/// Of each byte read so far it is known what it is part of: a frame that ended,
/// well or not, the frame that is open, or the noise.
fn every_byte<L: Link>(wire: Wire, mark: u32) {
    let mut random = Xorshift::new(5);
    for _ in 0..300 {
        let stream = gen::run(&mut random, wire);
        let mut store = vec![FILL; L::SIZE];
        let mut state = State::default();
        let mut framed = 0u32;
        for (index, byte) in stream.iter().enumerate() {
            let before = state;
            let received = stream::receive::<L>(&[*byte], state, &mut store);
            assert_eq!(received.used, 1);
            state = received.state;
            match received.event {
                Event::Nothing => {}
                // The refused frame ends just before the new mark of `mark` bytes.
                Event::Refused(4) => framed += before.open + 1 - mark,
                _ => framed += before.open + 1,
            }
            assert_eq!(framed + state.noise + state.open, index as u32 + 1);
        }
    }
}

#[test]
fn every_byte_is_counted_once() {
    every_byte::<Pcs>(Wire::Pcs, 1);
    every_byte::<Mdu>(Wire::Mdu, 1);
    every_byte::<Dle>(Wire::Dle, 2);
    every_byte::<Expansion>(Wire::Expansion, 1);
}

#[test]
fn noise_goes_round() {
    let mut store = vec![0; 1183];
    let state = State { noise: u32::MAX, ..State::default() };
    assert_eq!(stream::receive::<Pcs>(&[1], state, &mut store).state.noise, 0);
    assert_eq!(stream::receive::<Mdu>(&[1, 1], state, &mut store).state.noise, 1);
    assert_eq!(stream::receive::<Dle>(&[0x10, 1], state, &mut store).state.noise, 1);
    assert_eq!(stream::receive::<Expansion>(&[1], state, &mut store).state.noise, 0);
}
