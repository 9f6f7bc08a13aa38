//! PCS with CRC (02, request 2): messages written and read back, the end's tests in their order, the edges of both sorts.

use super::link::Section;
use super::pcs::{closed, frame, seven, MESSAGES, UNSENDABLE};
use super::text::{given, given_run, given_same};
use crate::crc;
use crate::packing;
use crate::pcs::{self, Pcs};
use crate::stream::{Link, State};
use crate::sum;

/// Document 000's display message.
const DISPLAY: ([u8; 6], &[u8]) = MESSAGES[2];

/// The shortest body with CRC; its sum is 17.
const EMPTY: [u8; 8] = [1, 1, 12, 1, 128, 128, 1, 1];

/// Bodies for 9, 10 and 13, and good ones beside them; sum and CRC are put behind each.
const BODIES: [&[u8]; 31] = [
    &[0, 1, 12, 1, 128, 128, 1, 1],
    &[251, 1, 12, 1, 128, 128, 1, 1],
    &[255, 250, 12, 250, 128, 128, 250, 250],
    &[1, 0, 12, 1, 128, 128, 1, 1],
    &[1, 251, 12, 1, 128, 128, 1, 1],
    &[1, 255, 12, 1, 128, 128, 1, 1],
    &[1, 1, 12, 0, 128, 128, 1, 1],
    &[1, 1, 12, 251, 128, 128, 1, 1],
    &[1, 1, 12, 1, 128, 128, 0, 1],
    &[1, 1, 12, 1, 128, 128, 251, 1],
    &[1, 1, 12, 1, 128, 128, 1, 0],
    &[1, 1, 12, 1, 128, 128, 1, 251],
    &[1, 1, 12, 1, 0, 128, 1, 1],
    &[1, 1, 12, 1, 129, 128, 1, 1],
    &[1, 1, 12, 1, 128, 0, 1, 1],
    &[1, 1, 12, 1, 128, 129, 1, 1],
    // Acknowledgements: a stated length is 9, data that is not stated 10.
    &[1, 1, 14, 1, 128, 2, 1, 1],
    &[1, 1, 15, 1, 128, 2, 1, 1, 5, 128],
    &[1, 1, 14, 1, 128, 128, 1, 1, 5, 128],
    &[1, 1, 15, 1, 128, 128, 1, 1],
    // 9 before 10; the stated length with the three bytes of the CRC, or the four behind the data; 10 before 13.
    &[1, 0, 12, 1, 128, 1, 1, 1],
    &[1, 1, 12, 1, 128, 3, 1, 1],
    &[1, 1, 12, 1, 128, 5, 1, 1, 5, 128],
    &[1, 1, 12, 1, 128, 6, 1, 1, 5, 128],
    &[1, 1, 12, 1, 128, 2, 1, 1, 5, 128],
    &[1, 1, 12, 1, 128, 2, 1, 1, 129],
    &[1, 1, 12, 1, 128, 1, 1, 1, 5],
    &[1, 1, 12, 1, 128, 9, 1, 1, 1, 2, 3, 4, 5, 6, 7, 8, 9],
    &[1, 1, 12, 1, 128, 2, 1, 1, 129, 128],
    &[1, 1, 12, 1, 128, 2, 1, 1, 5, 0],
    &[1, 1, 12, 1, 128, 3, 1, 1, 22, 100, 2],
];

/// Bodies whose CRC is 0 in its top two bits, its lowest seven, the seven between, and in all.
const ZEROS: [[u8; 8]; 4] = [
    [1, 2, 12, 1, 128, 128, 3, 1],
    [1, 2, 12, 1, 128, 128, 72, 1],
    [1, 2, 12, 100, 128, 128, 2, 1],
    [1, 2, 12, 169, 128, 128, 203, 1],
];

/// A body and what stands behind it, whether that is right or not.
fn with(body: &[u8], checks: &[u8]) -> Vec<u8> {
    [&[253], body, checks, &[254]].concat()
}

/// What stands between the marks of a message, without its check bytes.
fn body(numbers: [u8; 6], data: &[u8]) -> Vec<u8> {
    let frame = frame(numbers, true, data);
    frame[1..frame.len() - 5].to_vec()
}

fn written(s: &mut Section) {
    for (numbers, data) in MESSAGES {
        let exact = frame(numbers, true, data).len();
        s.write(&seven(numbers, true), given(data), exact);
        s.read_back::<Pcs>();
        s.whole_given::<Pcs>(&s.frame.clone(), Pcs::SIZE);
        // Room for all but a byte of the CRC, for the frame without one, and for less than that.
        for room in [exact - 1, exact - 3, exact - 4] {
            s.write(&seven(numbers, true), given(data), room);
        }
    }
    s.whole::<Pcs>();
    // 01's size is too short now, for a frame without CRC too.
    let plain = frame(DISPLAY.0, false, DISPLAY.1);
    s.whole_given::<Pcs>(&plain, 1180);
    s.fresh(1180);
    s.receive::<Pcs>(&plain);
    for data in [&[0x96, 0x64][..], &[0x81; 7], &[0x81; 8]] {
        s.write(&[255, 128, 0, 128, 250, 1, 1], given(data), 40);
        s.read_back::<Pcs>();
    }
    // 3 for each field, before 2; acknowledgements with data and without.
    for numbers in UNSENDABLE {
        s.write(&seven(numbers, true), given(b""), 0);
    }
    s.write(&seven(UNSENDABLE[0], true), given(b""), 12);
    s.write(&[1, 1, 2, 1, 1, 1, 1], given(&[7]), 20);
    s.write(&[1, 1, 3, 1, 1, 1, 1], given(&[7]), 20);
    s.write(&[1, 1, 3, 1, 1, 1, 1], given(b""), 20);
    s.read_back::<Pcs>();
}

/// The longest frame, 1,185 bytes, where there is room for it and where there is not; 1,025 bytes are 3.
fn longest(s: &mut Section) {
    let numbers = [1, 2, 0, 3, 4, 5, 1];
    s.write(&numbers, given_run(1024), 1184);
    s.write(&numbers, given_run(1024), 1185);
    s.read_back::<Pcs>();
    s.whole_given::<Pcs>(&s.frame.clone(), Pcs::SIZE);
    s.write(&numbers, given_run(1025), 1200);
    // Without CRC.
    s.write(&[1, 2, 0, 3, 4, 5, 0], given_run(1024), 1181);
    s.write(&[1, 2, 0, 3, 4, 5, 0], given_run(1024), 1182);
    s.read_back::<Pcs>();
}

/// 6 below 12 bytes, though the ninth of them be the right sum of a plain frame; with 12 the frame is complete.
fn too_short(s: &mut Section) {
    let whole = closed(&EMPTY);
    let mut frames: Vec<Vec<u8>> = (0..=12).map(|n| with(&whole[1..=n], &[])).collect();
    for info in 13..=15 {
        let mut body = EMPTY;
        body[2] = info;
        frames.push(with(&body, &pcs::checks(&body, false)));
        frames.push(with(&body, &pcs::checks(&body, true)[..3]));
    }
    for length in [9, 10] {
        let body = [&EMPTY[..], &[5; 2]].concat();
        frames.push(with(&body[..length], &pcs::checks(&body[..length], false)));
    }
    s.in_turn::<Pcs>(&frames);
    s.whole_given::<Pcs>(&frames[9], Pcs::SIZE);
}

/// 8 for each of the four bytes by itself, for each mistaken order and cover of the CRC, and before 9.
fn wrong_checks(s: &mut Section) {
    let body = body(DISPLAY.0, DISPLAY.1);
    let right = pcs::checks(&body, true);
    let (sum, low, middle, top) = (right[0], right[1], right[2], right[3]);
    let crc_of = |bytes: &[u8]| [&right[..1], &pcs::crc_bytes(bytes)].concat();
    let value = crc::crc16(0, &body).to_le_bytes();
    let other_start = crc::crc16(0xFFFF, &body);
    let other_start = [other_start & 127, other_start >> 7 & 127, other_start >> 14].map(|part| packing::seven_out(part as u8));
    let unsent: Vec<u8> = body.iter().map(|byte| if *byte == 128 { 0 } else { *byte }).collect();
    let wrong: [Vec<u8>; 14] = [
        vec![sum ^ 1, low, middle, top],
        vec![sum, low ^ 1, middle, top],
        vec![sum, low, middle ^ 64, top],
        vec![sum, low, middle, top ^ 2],
        vec![sum ^ 1, low ^ 1, middle ^ 1, top ^ 2],
        vec![sum, top, middle, low],
        vec![low, middle, top, sum],
        vec![sum, low | 128, middle, top],
        vec![sum, value[0], value[1], 128],
        [&right[..1], &other_start].concat(),
        crc_of(&[&body[..], &[sum]].concat()),
        crc_of(&[&body[..8], DISPLAY.1].concat()),
        crc_of(&body[8..]),
        crc_of(&unsent),
    ];
    let mut frames: Vec<Vec<u8>> = wrong.iter().map(|checks| with(&body, checks)).collect();
    s.whole_given::<Pcs>(&frames[1], Pcs::SIZE);
    let bad_field = [0, 1, 12, 1, 128, 128, 1, 1];
    let checks = pcs::checks(&bad_field, true);
    frames.push(with(&bad_field, &[checks[0], checks[1] ^ 1, checks[2], checks[3]]));
    frames.push(with(&bad_field, &[checks[0] ^ 1, checks[1], checks[2], checks[3]]));
    s.in_turn::<Pcs>(&frames);
}

/// A 0 where 128 belongs is 8, in each part of the CRC and in the sum.
fn zeros(s: &mut Section) {
    let mut frames = Vec::new();
    for body in ZEROS {
        let right = pcs::checks(&body, true);
        frames.push(with(&body, &right));
        for place in (1..4).filter(|place| right[*place] == 128) {
            let mut checks = right.clone();
            checks[place] = 0;
            frames.push(with(&body, &checks));
        }
    }
    // Sums of 0 and of 251, as they are sent and as they are not.
    for (port, raw) in [(239, 0), (234, 251)] {
        let body = [1, 2, 12, 1, 128, 128, port, 1];
        let right = pcs::checks(&body, true);
        frames.push(with(&body, &right));
        frames.push(with(&body, &[&[raw], &right[1..]].concat()));
    }
    s.in_turn::<Pcs>(&frames);
}

/// The info of one sort on a frame of the other: check bytes as they were, those of the wrong sort, the last one the sum of all others.
fn other_sort(s: &mut Section) {
    let mut frames = Vec::new();
    for (numbers, data) in [DISPLAY, MESSAGES[3]] {
        for crc in [false, true] {
            let mut changed = frame(numbers, crc, data);
            changed[3] ^= 8;
            let body = if crc { &changed[1..changed.len() - 5] } else { &changed[1..changed.len() - 2] };
            frames.push(with(body, &pcs::checks(body, crc)));
            frames.push(changed);
        }
    }
    let gathered = body(DISPLAY.0, DISPLAY.1);
    let gathered = [&gathered[..], &pcs::checks(&gathered, true)[..3]].concat();
    for info in [5, 8, 11, 16] {
        let mut plain = gathered.clone();
        plain[2] = info;
        frames.push(with(&plain, &[sum::pcs(&plain)]));
    }
    s.in_turn::<Pcs>(&frames);
}

/// A frame about as long as the store in three pieces: the header, 1,168 bytes that are well packed, what else is packed and the check bytes.
struct Long {
    info: u8,
    stated: usize,
    rest: &'static [u8],
}

impl Long {
    fn header(&self) -> Vec<u8> {
        let (high, low) = ((self.stated / 128) as u8, (self.stated % 128) as u8);
        vec![1, 2, self.info, 3, packing::seven_out(high), packing::seven_out(low), 4, 5]
    }

    fn body(&self) -> Vec<u8> {
        [&self.header()[..], &[5; 1168], self.rest].concat()
    }

    /// The check bytes, those at places that `wrong` names changed.
    fn checks(&self, wrong: &[usize]) -> Vec<u8> {
        let mut checks = pcs::checks(&self.body(), matches!(self.info, 12..=15));
        wrong.iter().for_each(|place| checks[*place] ^= 1);
        checks
    }

    /// The frame with each of these faults in turn. What is refused stays in the store: only the check bytes come again.
    fn lines(&self, s: &mut Section, faults: &[&[usize]]) {
        for (index, wrong) in faults.iter().enumerate() {
            let ending = [&self.checks(wrong)[..], &[254]].concat();
            if index == 0 {
                s.receive::<Pcs>(&[&[253], &self.header()[..]].concat());
                s.receive_given::<Pcs>(given_same(1168));
                s.receive::<Pcs>(&[self.rest, &ending].concat());
            } else {
                let count = self.body().len();
                s.set(State { mode: 1, count: count as u64, open: count as u32 + 1, ..State::default() });
                s.receive::<Pcs>(&ending);
            }
        }
    }
}

/// 1,180 to 1,184 gathered bytes, plain and with CRC, with right and wrong check bytes.
fn edges(s: &mut Section) {
    s.fresh(Pcs::SIZE);
    // Plain frames: from 1,181 on 5, whatever their sum and info, at 1,184 before the end.
    Long { info: 4, stated: 1171, rest: &[5, 6, 64] }.lines(s, &[&[0], &[]]);
    Long { info: 4, stated: 1172, rest: &[5, 6, 7, 64] }.lines(s, &[&[0], &[]]);
    Long { info: 8, stated: 1172, rest: &[5, 6, 7, 64] }.lines(s, &[&[]]);
    Long { info: 4, stated: 1173, rest: &[5, 6, 7, 8, 64] }.lines(s, &[&[0], &[]]);
    Long { info: 4, stated: 1174, rest: &[5, 6, 7, 8, 9, 64] }.lines(s, &[&[0], &[]]);
    Long { info: 16, stated: 1174, rest: &[5, 6, 7, 8, 9, 64] }.lines(s, &[&[]]);
    Long { info: 4, stated: 1175, rest: &[5, 6, 7, 8, 9, 10, 64] }.lines(s, &[&[]]);
    // With CRC: 1,168 packed bytes, 1,169 (13), 1,170, 1,171, and 5 at the last byte of the CRC.
    Long { info: 12, stated: 1168, rest: &[] }.lines(s, &[&[0], &[3], &[]]);
    Long { info: 13, stated: 1169, rest: &[5] }.lines(s, &[&[1], &[]]);
    Long { info: 12, stated: 1170, rest: &[5, 64] }.lines(s, &[&[2], &[]]);
    Long { info: 13, stated: 1171, rest: &[5, 6, 64] }.lines(s, &[&[0], &[1], &[2], &[3], &[]]);
    Long { info: 12, stated: 1174, rest: &[5, 6, 64] }.lines(s, &[&[]]);
    Long { info: 12, stated: 1172, rest: &[5, 6, 7, 64] }.lines(s, &[&[]]);
    // The longest with CRC, its info made a plain one: 5.
    let longest = Long { info: 13, stated: 1171, rest: &[5, 6, 64] };
    let plain = Long { info: 5, ..longest };
    s.receive::<Pcs>(&[&[253], &plain.header()[..]].concat());
    s.receive_given::<Pcs>(given_same(1168));
    s.receive::<Pcs>(&[plain.rest, &longest.checks(&[]), &[254]].concat());
}

/// Both sorts, a wrong CRC and a new start mark, cut after each byte.
fn cut(s: &mut Section) {
    let acknowledgement = MESSAGES[3];
    let mut stream = vec![7, 253, 12, 253];
    stream.extend(&frame([101, 250, 0, 2, 1, 1], true, &[0x96, 0x64])[1..]);
    stream.extend(frame(acknowledgement.0, false, acknowledgement.1));
    let mut wrong = frame(acknowledgement.0, true, acknowledgement.1);
    wrong[10] ^= 1;
    stream.extend(wrong);
    s.cut::<Pcs>(&stream);
}

pub fn lines(s: &mut Section) {
    written(s);
    longest(s);
    too_short(s);
    s.in_turn::<Pcs>(&BODIES.map(closed));
    wrong_checks(s);
    zeros(s);
    other_sort(s);
    edges(s);
    cut(s);
}
