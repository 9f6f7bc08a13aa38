//! The host's call on one whole frame and its 64-bit answer.

use crate::stream::{self, Event, Link, State};

/// The message of a whole frame, or a refusal.
///
/// After 1, one call of a fresh receiver decides, and leaves the store: its
/// refusal stands; a message stands if the run is its frame and no more; all else is 6.
pub fn message<L: Link>(frame: &[u8], store: &mut [u8]) -> Result<L::Message, u8> {
    let received = stream::receive::<L>(frame, State::default(), store);
    match received.event {
        Event::Refused(number) => Err(number),
        Event::Message(message) => {
            // The noise count is exact while the run is below 2^32 bytes, and
            // no frame is as long as that.
            let began_first = received.state.noise == 0 && frame.len() <= u32::MAX as usize;
            if began_first && received.used == frame.len() {
                Ok(message)
            } else {
                Err(6)
            }
        }
        Event::Nothing => Err(6),
    }
}

/// A refusal is its number; a message has 0 there, in bits 0 to 7, and the link's
/// own bits above.
pub fn read<L: Link>(frame: &[u8], store: &mut [u8]) -> u64 {
    match message::<L>(frame, store) {
        Ok(message) => L::answer(&message),
        Err(number) => number as u64,
    }
}
