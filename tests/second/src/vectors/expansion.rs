//! The expansion link: hiding, the edges, codes, the CRC and the fields.

use super::link::Section;
use super::text::{given, given_run, given_same, Lines};
use crate::crc;
use crate::escape;
use crate::expansion::{self, Expansion};
use crate::stream::{Link, State};

/// These bytes and their CRC, hidden, between the marks.
fn closed(bytes: &[u8]) -> Vec<u8> {
    let check = crc::crc32(bytes).to_le_bytes();
    [&[0xFD], &escape::hide(&[bytes, &check].concat())[..], &[0xFE]].concat()
}

/// The same with the CRC taken over hidden bytes, which is wrong.
fn closed_wrongly(bytes: &[u8]) -> Vec<u8> {
    let hidden = escape::hide(bytes);
    let check = escape::hide(&crc::crc32(&hidden).to_le_bytes());
    [&[0xFD], &hidden[..], &check[..], &[0xFE]].concat()
}

fn messages(s: &mut Section) {
    for (numbers, data) in [
        ([0, 0, 0, 1], &[][..]),
        ([1, 0, 0, 2], &[0x64, 0x96][..]),
        ([0xFD, 0, 3, 0xFE], &[0xFD, 0xFE, 0xFF, 0x00, 0x01, 0x02][..]),
        ([0xFF, 1, 3, 0xFF], &[][..]),
        ([255, 2, 0, 0], &[][..]),
    ] {
        s.write(&numbers, given(data), 40);
        let exact = s.frame.len();
        s.read_back::<Expansion>();
        s.write(&numbers, given(data), exact);
        s.write(&numbers, given(data), exact - 1);
        s.whole::<Expansion>();
    }
}

fn unsendable(s: &mut Section) {
    for numbers in [[0, 3, 0, 0], [0, 255, 0, 0], [0, 0, 4, 0], [0, 1, 4, 0]] {
        s.write(&numbers, given(&[]), 40);
        s.write(&numbers, given(&[]), 0);
    }
    s.write(&[0, 1, 0, 0], given(&[7]), 40);
    s.write(&[0, 2, 0, 0], given(&[7]), 40);
    // The length edge: 1,024 sent, 1,025 refused.
    for length in [1023, 1024, 1025] {
        s.write(&[9, 0, 0, 8], given_run(length), 2066);
        if length == 1024 {
            s.read_back::<Expansion>();
        }
    }
}

fn refusals(s: &mut Section) {
    s.each::<Expansion>(&[
        &[0xFD, 0xFE],
        &[0xFD, 1, 2, 3, 4, 5, 6, 7, 0xFE],
        &[0xFD, 1, 3, 0, 0, 1, 2, 3, 4, 0xFE],
        &[0xFD, 1, 0xFF, 0xFE],
        &[0xFD, 1, 0xFF, 0xFF],
        &[0xFD, 1, 0xFF, 0x03],
        &[0xFD, 1, 0xFF, 0xFD, 2],
        &[0xFD, 1, 0xFD, 2],
        &[0xFE, 0xFF, 0x00],
    ]);
    for bytes in [&[1, 0, 3][..], &[1, 3, 0, 0], &[1, 0, 4, 0], &[1, 1, 0, 0, 9], &[1, 2, 0, 0, 9], &[1, 2, 3, 4]] {
        s.each::<Expansion>(&[&closed(bytes)]);
    }
    s.each::<Expansion>(&[&closed_wrongly(&[1, 0, 0, 0xFF])]);
    // Full: 5 for one more, plain or hidden; 7, 4 and the end as ever.
    for last in [&[5][..], &[0xFF, 0x00], &[0xFF, 0x05], &[0xFD], &[0xFE]] {
        s.fresh(Expansion::SIZE);
        s.receive::<Expansion>(&[0xFD]);
        s.receive_given::<Expansion>(given_same(1032));
        s.receive::<Expansion>(last);
    }
}

fn states(s: &mut Section) {
    s.odd::<Expansion>(&[
        State { mode: 3, ..State::default() },
        State { mode: 1, count: 1033, ..State::default() },
        State { mode: 2, count: 1033, ..State::default() },
        State { mode: 0, count: 1, ..State::default() },
    ]);
    s.strange::<Expansion>(&[0], &[1, 2]);
    s.short::<Expansion>();
    s.noise_goes_round::<Expansion>();
}

fn cut(s: &mut Section) {
    let mut stream = vec![0xFE, 0xFF, 0xFD, 9, 0xFF];
    stream.extend(expansion::frame(0xFD, 0, 1, 2, &[0xFE, 0xFF, 0x10]).unwrap_or_default());
    stream.extend([0x00, 0xFD, 0xFE, 0xFD, 0xFF]);
    s.cut::<Expansion>(&stream);
}

fn parts(s: &mut Section) {
    for (room, length) in [(1032, 1028), (1032, 1029), (4, 0), (3, 0)] {
        s.part::<Expansion>(room, length, expansion::Message { id: 1, kind: 0, repeat: 0, address: 0, length });
    }
}

pub fn section() -> (Lines, Lines) {
    let writer = |n: &[u8], data: &[u8], out: &mut [u8]| expansion::write(n[0], n[1], n[2], n[3], data, out);
    let mut s = Section::new("expansion", false, &writer);
    messages(&mut s);
    unsendable(&mut s);
    refusals(&mut s);
    states(&mut s);
    cut(&mut s);
    parts(&mut s);
    (s.lines, s.whole)
}
