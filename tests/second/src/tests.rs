//! Tests over whole links: 01's examples and edges, the documents' frames, PCS with
//! CRC, odd states, the cutting rule, whole frames, the display, records, gate exchange, listing.

mod boards;
mod display;
mod frames;
mod gate;
mod listing;
mod receivers;
mod records;
mod states;
mod streams;
mod whole;

use crate::stream::{self, Event, Link, Received, State};

const FILL: u8 = 0xA5;

/// One call on a fresh receiver with a store of exactly the link's size.
fn fresh<L: Link>(piece: &[u8]) -> (Received<L::Message>, Vec<u8>) {
    let mut store = vec![FILL; L::SIZE];
    let received = stream::receive::<L>(piece, State::default(), &mut store);
    (received, store)
}

fn event<L: Link>(piece: &[u8]) -> Event<L::Message> {
    fresh::<L>(piece).0.event
}

/// The frames printed in document 000.
const CELDL: [u8; 22] =
    [253, 2, 250, 4, 4, 128, 11, 1, 1, 67, 69, 76, 68, 76, 128, 128, 128, 128, 1, 128, 118, 254];
const RECORD: [u8; 35] = [
    253, 250, 2, 4, 4, 128, 24, 1, 1, 65, 69, 76, 68, 76, 128, 128, 128, 128, 1, 96, 16, 103, 128, 15, 2, 42, 87, 81,
    81, 128, 128, 128, 108, 120, 254,
];
const DISPLAY: [u8; 23] =
    [253, 101, 250, 5, 2, 128, 12, 1, 1, 67, 76, 67, 83, 72, 49, 50, 128, 51, 52, 53, 128, 96, 254];
/// The same with CRC, as request 2 of 02 has it.
const DISPLAY_WITH_CRC: [u8; 26] =
    [253, 101, 250, 13, 2, 128, 12, 1, 1, 67, 76, 67, 83, 72, 49, 50, 128, 51, 52, 53, 128, 104, 124, 117, 1, 254];
const ACKNOWLEDGEMENT: [u8; 11] = [253, 250, 101, 6, 2, 128, 128, 1, 1, 105, 254];
