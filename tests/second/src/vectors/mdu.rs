//! MDU: document 002's frames, the edges, headers and check values.

use super::link::Section;
use super::text::{given, given_run, Lines};
use crate::captures;
use crate::mdu::{self, Mdu};
use crate::stream::{Link, State};

fn documents(s: &mut Section) {
    let long = [0xB1, 0x00, 0x04, 0x47, 0xBA];
    for (address, body) in [(0x33, &long[..]), (0x33, &[0x31][..]), (0x0D, &long[..]), (0x0D, &[0x31][..])] {
        s.write(&[address], given(body), 16);
        s.read_back::<Mdu>();
        s.write(&[address], given(body), body.len() + 8);
        s.write(&[address], given(body), body.len() + 7);
        s.whole::<Mdu>();
    }
}

fn edges(s: &mut Section) {
    s.write(&[0], given(&[0x31]), 16);
    s.write(&[0], given(&[0x31]), 0);
    s.write(&[1], given(&[]), 16);
    s.write(&[255], given(&[0xE3, 0xE3]), 16);
    s.read_back::<Mdu>();
    // The length edge: 1,025 written and read, 1,026 refused.
    for length in [1024, 1025, 1026] {
        s.write(&[7], given_run(length), 1040);
        if length == 1025 {
            s.read_back::<Mdu>();
        }
    }
}

fn headers_and_checks(s: &mut Section) {
    s.each::<Mdu>(&[
        &[0xE3, 0x01, 0x04, 0x01, 0x07, 0xF0],
        &[0xE3, 0x01, 0x04, 0x02, 0x07, 0xF1],
        &[0xE3, 0x01, 0x00, 0x00, 0x07, 0xEB],
        &[0xE3, 0x02, 0x00, 0x00, 0x07, 0x00],
        &[0xE3, 0x01, 0x00, 0x00, 0x00, 0x00],
        &[0xE3, 0x01, 0x00, 0x00, 0x07, 0x00],
        &[0xE3, 0x01, 0x00, 0x01, 0x33, 0x18, 0x31, 0xD4, 0xC0],
        &[0xE3, 0x01, 0x00, 0x01, 0x33, 0x18, 0x31, 0xC1, 0xD4],
        &[0xE3, 0x01, 0x00, 0x01, 0x33, 0x18, 0x30, 0xD4, 0xC1],
    ]);
}

fn states(s: &mut Section) {
    let open = |count, length| State { mode: 1, count, length, open: 0, noise: 0 };
    s.odd::<Mdu>(&[
        State { mode: 2, ..State::default() },
        State { count: 1, ..State::default() },
        open(1034, 1025),
        open(0, 0),
        open(6, 0),
        open(6, 1026),
        open(9, 1),
        open(1033, 1025),
    ]);
    s.strange::<Mdu>(&[0], &[1]);
    s.short::<Mdu>();
    s.noise_goes_round::<Mdu>();
}

/// The length that the state keeps decides, not the one in the store; below six bytes none is kept.
fn kept_lengths(s: &mut Section) {
    for (count, length) in [(6, 1), (6, 1025), (8, 1), (1032, 1025), (5, 9_999_999_999), (1, 7)] {
        s.fresh(Mdu::SIZE);
        s.set(State { mode: 1, count, length, open: 0, noise: 0 });
        s.receive::<Mdu>(&[1]);
        s.receive::<Mdu>(&[2, 3]);
    }
    s.fresh(Mdu::SIZE);
    s.set(State { length: 5, ..State::default() });
    s.receive::<Mdu>(&[]);
    s.receive::<Mdu>(&[1]);
}

fn cut(s: &mut Section) {
    // The second example of document 002, uncut and cut after each byte.
    let stream = &captures::example()[1..];
    s.fresh(Mdu::SIZE);
    s.receive::<Mdu>(stream);
    s.receive::<Mdu>(&stream[16..]);
    s.receive::<Mdu>(&stream[30..]);
    s.cut::<Mdu>(stream);
    // A header refusal takes all six bytes, E3 among them too.
    s.cut::<Mdu>(&[0xE3, 0xE3, 0x01, 0x00, 0x01, 0x33, 0x18, 0x31, 0xE3]);
}

fn parts(s: &mut Section) {
    for (room, length) in [(1033, 1027), (1033, 1028), (6, 0), (5, 0)] {
        s.part::<Mdu>(room, length, mdu::Message { address: 1, length });
    }
}

pub fn section() -> (Lines, Lines) {
    let writer = |n: &[u8], body: &[u8], out: &mut [u8]| mdu::write(n[0], body, out);
    let mut s = Section::new("mdu", true, &writer);
    documents(&mut s);
    edges(&mut s);
    headers_and_checks(&mut s);
    states(&mut s);
    kept_lengths(&mut s);
    cut(&mut s);
    parts(&mut s);
    (s.lines, s.whole)
}
