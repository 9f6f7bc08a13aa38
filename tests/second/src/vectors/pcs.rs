//! PCS: document 000's messages, group lengths, the edges, the end's tests. Those of frames with CRC are in `boards`.

use super::boards;
use super::link::Section;
use super::text::{given, given_run, given_same, Lines};
use crate::pcs::{self, Pcs};
use crate::stream::{Link, State};

/// The record that document 000's time clock sends.
const RECORD_DATA: &[u8] = b"AELDL\0\0\0\x01\x60\x10\x67\x80\x0F\xAA\xD7\x51\xD1\x80\0\0";

/// Document 000's four messages: numbers without the CRC's, and data.
pub const MESSAGES: [([u8; 6], &[u8]); 4] = [
    ([2, 250, 0, 4, 1, 1], b"CELDL\0\0\0\x01"),
    ([250, 2, 0, 4, 1, 1], RECORD_DATA),
    ([101, 250, 1, 2, 1, 1], b"CLCSH12345"),
    ([250, 101, 2, 2, 1, 1], b""),
];

/// One field out of its range each.
pub const UNSENDABLE: [[u8; 6]; 13] = [
    [0, 1, 0, 1, 1, 1],
    [251, 1, 0, 1, 1, 1],
    [254, 1, 0, 1, 1, 1],
    [1, 0, 0, 1, 1, 1],
    [1, 251, 0, 1, 1, 1],
    [1, 255, 0, 1, 1, 1],
    [1, 1, 4, 1, 1, 1],
    [1, 1, 0, 0, 1, 1],
    [1, 1, 0, 251, 1, 1],
    [1, 1, 0, 1, 0, 1],
    [1, 1, 0, 1, 251, 1],
    [1, 1, 0, 1, 1, 0],
    [1, 1, 0, 1, 1, 251],
];

/// Whole frames for 6 (two as long as a plain frame needs, but with the info of one with CRC) and for 8.
const FRAMES: [&[u8]; 5] = [
    &[253, 254],
    &[253, 1, 1, 12, 1, 128, 128, 1, 25, 254],
    &[253, 1, 1, 12, 1, 128, 128, 1, 1, 0, 254],
    &[253, 1, 1, 15, 1, 128, 128, 1, 1, 20, 254],
    &[253, 0, 1, 4, 1, 128, 128, 1, 1, 0, 254],
];

/// Bodies for 9, 10 and 13, and good ones beside them; the sum is put behind each.
const BODIES: [&[u8]; 36] = [
    &[0, 1, 4, 1, 128, 128, 1, 1],
    &[251, 1, 4, 1, 128, 128, 1, 1],
    &[255, 250, 4, 250, 128, 128, 250, 250],
    &[1, 255, 4, 1, 128, 128, 1, 1],
    &[1, 1, 3, 1, 128, 128, 1, 1],
    &[1, 1, 7, 1, 128, 128, 1, 1],
    &[1, 1, 8, 1, 128, 128, 1, 1],
    &[1, 1, 11, 1, 128, 128, 1, 1],
    &[1, 1, 16, 1, 128, 128, 1, 1],
    &[1, 1, 4, 0, 128, 128, 1, 1],
    &[1, 1, 4, 1, 0, 128, 1, 1],
    &[1, 1, 4, 1, 128, 0, 1, 1],
    &[1, 1, 4, 1, 129, 128, 1, 1],
    &[1, 1, 4, 1, 128, 128, 0, 1],
    &[1, 1, 4, 1, 128, 128, 1, 251],
    &[1, 1, 6, 1, 128, 2, 1, 1],
    &[1, 1, 6, 1, 128, 128, 1, 1, 5, 128],
    &[1, 1, 4, 1, 128, 1, 1, 1],
    &[1, 1, 4, 1, 128, 2, 1, 1, 129],
    &[1, 1, 4, 1, 1, 2, 1, 1, 5, 128],
    &[1, 1, 4, 1, 128, 1, 1, 1, 5],
    &[1, 1, 4, 1, 128, 9, 1, 1, 1, 2, 3, 4, 5, 6, 7, 8, 9],
    &[1, 1, 4, 1, 128, 2, 1, 1, 129, 128],
    &[1, 1, 4, 1, 128, 2, 1, 1, 0, 128],
    &[1, 1, 4, 1, 128, 2, 1, 1, 5, 129],
    &[1, 1, 4, 1, 128, 2, 1, 1, 5, 2],
    &[1, 1, 4, 1, 128, 3, 1, 1, 5, 5, 4],
    &[1, 1, 4, 1, 128, 3, 1, 1, 5, 5, 3],
    &[1, 1, 4, 1, 128, 3, 1, 1, 5, 5, 96],
    // 02's fare of two bytes, and as 01 had it.
    &[1, 1, 4, 1, 128, 3, 1, 1, 22, 100, 64],
    &[1, 1, 4, 1, 128, 3, 1, 1, 22, 100, 2],
    // One byte as it is packed, and old-style tails: one byte is 13, four to six can be other data.
    &[1, 1, 4, 1, 128, 2, 1, 1, 128, 64],
    &[1, 1, 4, 1, 128, 2, 1, 1, 128, 1],
    &[1, 1, 4, 1, 128, 5, 1, 1, 1, 2, 3, 4, 8],
    &[1, 1, 4, 1, 128, 6, 1, 1, 1, 2, 3, 4, 5, 28],
    &[1, 1, 4, 1, 128, 7, 1, 1, 1, 2, 3, 4, 5, 6, 62],
];

pub fn frame(n: [u8; 6], crc: bool, data: &[u8]) -> Vec<u8> {
    pcs::frame(n[0], n[1], n[2], n[3], n[4], n[5], crc, data).unwrap_or_default()
}

/// The numbers of a line: whether with CRC stands behind the others.
pub fn seven(n: [u8; 6], crc: bool) -> [u8; 7] {
    [n[0], n[1], n[2], n[3], n[4], n[5], crc as u8]
}

/// What the sum of one of document 000's messages is taken over.
pub fn summed(message: usize) -> Vec<u8> {
    let (numbers, data) = MESSAGES[message];
    let frame = frame(numbers, false, data);
    frame[1..frame.len() - 2].to_vec()
}

/// These bytes between the marks, with the check bytes behind them that their info asks for.
pub fn closed(bytes: &[u8]) -> Vec<u8> {
    [&[253], bytes, &pcs::checks(bytes, pcs::has_crc(bytes)), &[254]].concat()
}

fn documents(s: &mut Section) {
    for (numbers, data) in MESSAGES {
        let exact = frame(numbers, false, data).len();
        let numbers = seven(numbers, false);
        s.write(&numbers, given(data), exact + 3);
        s.read_back::<Pcs>();
        s.write(&numbers, given(data), exact);
        s.write(&numbers, given(data), exact - 1);
        s.whole::<Pcs>();
    }
}

fn lengths(s: &mut Section) {
    // Every length of a last group, top bits set and not.
    for length in 1..=8usize {
        let data: Vec<u8> = (0..length).map(|k| if k % 2 == 0 { 0x80 + k as u8 } else { k as u8 }).collect();
        s.write(&[255, 128, 1, 128, 250, 1, 0], given(&data), 40);
        s.read_back::<Pcs>();
    }
    // 02's fare of two bytes.
    s.write(&[101, 250, 0, 2, 1, 1, 0], given(&[0x96, 0x64]), 20);
    s.read_back::<Pcs>();
    s.whole::<Pcs>();
    // The length edge: 1,024 sent, 1,025 refused.
    for length in [1023, 1024, 1025, 1026] {
        s.write(&[1, 2, 0, 3, 4, 5, 0], given_run(length), 1200);
        if length == 1024 {
            s.read_back::<Pcs>();
        }
    }
}

/// 3 for each field, before 2; kinds 2 and 3 with data and without.
fn unsendable(s: &mut Section) {
    for numbers in UNSENDABLE {
        s.write(&seven(numbers, false), given(b""), 20);
        s.write(&seven(numbers, false), given(b""), 0);
    }
    s.write(&[1, 1, 2, 1, 1, 1, 0], given(&[7]), 20);
    s.write(&[1, 1, 3, 1, 1, 1, 0], given(&[7]), 20);
    s.write(&[1, 1, 3, 1, 1, 1, 0], given(b""), 20);
    s.read_back::<Pcs>();
}

/// The end's tests, in their order.
fn ends(s: &mut Section) {
    s.each::<Pcs>(&FRAMES);
    for bytes in BODIES {
        s.each::<Pcs>(&[&closed(bytes)]);
    }
}

/// 5 for the byte that is one too many; 4 in the middle.
fn too_long(s: &mut Section) {
    s.fresh(Pcs::SIZE);
    s.receive::<Pcs>(&[253]);
    s.receive_given::<Pcs>(given_same(1183));
    s.receive::<Pcs>(&[11, 12]);
    s.receive::<Pcs>(&[12, 253]);
    s.receive::<Pcs>(&[9, 253, 254]);
}

fn states(s: &mut Section) {
    s.odd::<Pcs>(&[
        State { mode: 2, ..State::default() },
        State { mode: 1, count: 1184, ..State::default() },
        State { mode: 0, count: 1, ..State::default() },
    ]);
    // Known counts at the edges; the filled store's info is that of a plain frame.
    s.fresh(Pcs::SIZE);
    for (count, byte) in [(1183, 254), (1183, 253), (1183, 5), (1182, 5), (1181, 254), (1180, 254)] {
        s.set(State { mode: 1, count, open: count as u32 + 1, ..State::default() });
        s.receive::<Pcs>(&[byte]);
    }
    s.strange::<Pcs>(&[0], &[1]);
    s.short::<Pcs>();
    s.noise_goes_round::<Pcs>();
}

fn cut(s: &mut Section) {
    let mut stream = vec![254, 7, 253, 1, 253];
    stream.extend(&frame([101, 250, 1, 2, 1, 1], false, b"CLCSH\xB1\xB2345")[1..]);
    stream.extend([0, 253, 254, 253, 9]);
    s.cut::<Pcs>(&stream);
}

fn parts(s: &mut Section) {
    for (room, length) in [(1183, 1183), (1183, 1184), (1183, 0), (0, 0), (0, 1)] {
        let crc = length > 0;
        let message =
            pcs::Message { receiver: 1, sender: 1, kind: 0, number: 1, sender_port: 1, receiver_port: 1, crc, length };
        s.part::<Pcs>(room, length, message);
    }
}

pub fn section() -> (Lines, Lines) {
    let writer = |n: &[u8], data: &[u8], out: &mut [u8]| pcs::write(n[0], n[1], n[2], n[3], n[4], n[5], n[6] == 1, data, out);
    let mut s = Section::new("pcs", false, &writer);
    documents(&mut s);
    lengths(&mut s);
    unsendable(&mut s);
    ends(&mut s);
    too_long(&mut s);
    states(&mut s);
    cut(&mut s);
    parts(&mut s);
    boards::lines(&mut s);
    (s.lines, s.whole)
}
