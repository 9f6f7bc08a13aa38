//! 01's listing over a whole input: a link letter, then wire bytes.

use crate::dle::Dle;
use crate::expansion::Expansion;
use crate::mdu::Mdu;
use crate::pcs::Pcs;
use crate::stream::{self, Event, Link, State};

/// Bytes in upper-case hex without spaces.
pub fn hex(bytes: &[u8]) -> String {
    bytes.iter().map(|byte| format!("{byte:02X}")).collect()
}

fn listed<L: Link>(letter: char, wire: &[u8]) -> String {
    let mut text = format!("link {letter}\n");
    let mut store = vec![0u8; L::SIZE];
    let mut state = State::default();
    let mut rest = wire;
    while !rest.is_empty() {
        let received = stream::receive::<L>(rest, state, &mut store);
        state = received.state;
        // What lies behind the event goes to the next call.
        rest = &rest[received.used..];
        match received.event {
            Event::Nothing => {}
            Event::Refused(number) => text += &format!("refused {number}\n"),
            Event::Message(message) => {
                let length = L::length(&message);
                text += &format!("message {} {}", L::first_field(&message), length);
                if length > 0 {
                    text += " ";
                    text += &hex(stream::data::<L>(&store, &message));
                }
                text += "\n";
            }
        }
    }
    text += &format!("noise {}\nopen {}\n", state.noise, state.open);
    text
}

/// Any other first byte than P, M, D or X, or none, prints only `refused 9`.
pub fn listing(input: &[u8]) -> String {
    match input.split_first() {
        Some((b'P', wire)) => listed::<Pcs>('P', wire),
        Some((b'M', wire)) => listed::<Mdu>('M', wire),
        Some((b'D', wire)) => listed::<Dle>('D', wire),
        Some((b'X', wire)) => listed::<Expansion>('X', wire),
        _ => String::from("refused 9\n"),
    }
}
