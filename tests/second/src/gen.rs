//! Generated inputs: a fixed-seed xorshift, messages at their edges, frames and
//! every kind of damage to them. Used by `compare`, `captures` and the tests.

pub mod display;

use crate::crc;
use crate::escape;
use crate::packing;
use crate::pcs;
use crate::sum;

pub struct Xorshift(u64);

impl Xorshift {
    pub fn new(seed: u64) -> Self {
        // Any seed, 0 too, gives a state that is not 0.
        let mixed = seed.wrapping_mul(2).wrapping_add(1).wrapping_mul(0x9E37_79B9_7F4A_7C15);
        let mut generator = Xorshift(mixed | 1);
        for _ in 0..8 {
            generator.next();
        }
        generator
    }

    pub fn next(&mut self) -> u64 {
        self.0 ^= self.0 << 13;
        self.0 ^= self.0 >> 7;
        self.0 ^= self.0 << 17;
        self.0
    }

    /// A number below `limit` (which is at least 1).
    pub fn below(&mut self, limit: usize) -> usize {
        ((self.next() >> 16) % limit as u64) as usize
    }

    pub fn byte(&mut self) -> u8 {
        (self.next() >> 24) as u8
    }

    /// True once in `times`.
    pub fn once_in(&mut self, times: usize) -> bool {
        self.below(times) == 0
    }

    pub fn pick<T: Copy>(&mut self, from: &[T]) -> T {
        from[self.below(from.len())]
    }
}

/// The four links, for a choice at run time.
#[derive(Clone, Copy, Debug, PartialEq, Eq)]
pub enum Wire {
    Pcs,
    Mdu,
    Dle,
    Expansion,
}

pub const WIRES: [Wire; 4] = [Wire::Pcs, Wire::Mdu, Wire::Dle, Wire::Expansion];

/// Byte values at which some rule of some link changes.
const EDGES: [u8; 32] = [
    0, 1, 2, 3, 4, 5, 6, 7, 8, 9, 11, 12, 13, 15, 16, 17, 18, 126, 127, 128, 129, 130, 248, 249, 250, 251, 252, 253,
    254, 255, 0xE3, 0xE2,
];

/// Marks, hidden bytes and what follows them.
const MARKS: [u8; 16] =
    [0x10, 0x10, 0x02, 0x03, 0xFD, 0xFE, 0xFF, 0xFF, 0x00, 0x01, 0x02, 0xE3, 0xE3, 0x80, 0x7F, 0x04];

/// Any byte, mostly one at an edge.
pub fn edge(random: &mut Xorshift) -> u8 {
    if random.once_in(3) {
        random.byte()
    } else {
        random.pick(&EDGES)
    }
}

/// A value that a 16-bit check starts from: 0, one at an edge, or any.
pub fn start(random: &mut Xorshift) -> u16 {
    match random.below(4) {
        0 => 0,
        1 => random.pick(&[1, 0xFF, 0x100, 0x7FFF, 0x8000, 0xA001, 0xFFFF]),
        _ => random.next() as u16,
    }
}

/// A byte from `least` to `most`, often one of the two.
pub fn between(random: &mut Xorshift, least: u8, most: u8) -> u8 {
    match random.below(4) {
        0 => least,
        1 => most,
        _ => least + random.below(most as usize - least as usize + 1) as u8,
    }
}

/// A data length: an edge, a short one, or any.
pub fn data_length(random: &mut Xorshift) -> usize {
    const LENGTHS: [usize; 25] = [
        0, 1, 2, 3, 5, 6, 7, 8, 13, 14, 15, 16, 21, 253, 254, 255, 256, 257, 1022, 1023, 1024, 1025, 1026, 1027, 1100,
    ];
    match random.below(10) {
        0..=2 => random.pick(&LENGTHS),
        3 => random.below(1200),
        _ => random.below(24),
    }
}

/// `length` bytes of one of several natures.
pub fn contents(random: &mut Xorshift, length: usize) -> Vec<u8> {
    match random.below(6) {
        0 => {
            let byte = if random.once_in(2) { random.pick(&MARKS) } else { edge(random) };
            vec![byte; length]
        }
        1 => (0..length).map(|_| random.pick(&MARKS)).collect(),
        2 => (0..length).map(|_| edge(random)).collect(),
        3 => (0..length).map(|_| random.byte() & 0x7F).collect(),
        4 => {
            let from = random.byte();
            (0..length).map(|k| from.wrapping_add(k as u8)).collect()
        }
        _ => (0..length).map(|_| random.byte()).collect(),
    }
}

/// The bytes of a valid frame before its check value and without its marks:
/// PCS receiver to packed data; MDU the header and the body; DLE sequence to
/// data or error byte; expansion id to data.
pub fn content(random: &mut Xorshift, wire: Wire) -> Vec<u8> {
    let length = data_length(random);
    content_of(random, wire, length)
}

/// The same with data of about `length` bytes, also of lengths that may not be sent.
pub fn content_of(random: &mut Xorshift, wire: Wire, length: usize) -> Vec<u8> {
    let mut bytes;
    match wire {
        Wire::Pcs => {
            let kind = if length == 0 { random.below(4) as u8 } else { random.below(2) as u8 };
            let receiver = if random.once_in(5) { 255 } else { between(random, 1, 250) };
            let info = random.pick(&[4, 12]) + kind;
            bytes = vec![receiver, between(random, 1, 250), info, between(random, 1, 250), 128, 128];
            bytes.extend([between(random, 1, 250), between(random, 1, 250)]);
            bytes.extend(packing::pack(&contents(random, length)));
        }
        Wire::Mdu => {
            bytes = vec![0xE3, 1, 0, 0, between(random, 1, 255), 0];
            bytes.extend(contents(random, length.max(1)));
        }
        Wire::Dle => {
            bytes = vec![edge(random), edge(random), 0];
            if length == 0 {
                bytes.push(edge(random));
                return bytes;
            }
            // Lengths about 255 rather than about 1,024.
            let length = if length >= 1000 { length - 769 } else { length };
            bytes.extend(contents(random, length));
        }
        Wire::Expansion => {
            let kind = if length == 0 { random.below(3) as u8 } else { 0 };
            bytes = vec![edge(random), kind, random.below(4) as u8, edge(random)];
            bytes.extend(contents(random, length));
        }
    }
    restate(wire, &mut bytes);
    bytes
}

/// Puts the stated length right, and MDU's header sum.
pub fn restate(wire: Wire, content: &mut [u8]) {
    let all = content.len();
    match wire {
        Wire::Pcs if all >= 8 => {
            let present = all - 8;
            content[4] = packing::seven_out(((present / 128) & 127) as u8);
            content[5] = packing::seven_out((present % 128) as u8);
        }
        Wire::Mdu if all >= 6 => {
            let present = all - 6;
            content[2] = (present / 256) as u8;
            content[3] = (present % 256) as u8;
            content[5] = sum::modulo_256(&content[..5]);
        }
        Wire::Dle if all >= 3 => content[2] = ((all - 3) % 256) as u8,
        _ => {}
    }
}

/// Check values (computed now, so also over damaged bytes; PCS: those that the info asks for), hiding and marks.
pub fn close(wire: Wire, content: &[u8]) -> Vec<u8> {
    let mut frame = Vec::new();
    match wire {
        Wire::Pcs => frame = between_marks(content, &pcs::checks(content, pcs::has_crc(content))),
        Wire::Mdu => {
            frame.extend(content);
            let check = crc::crc16(0, content.get(6..).unwrap_or(&[]));
            frame.extend(check.to_be_bytes());
        }
        Wire::Dle => {
            frame.extend([0x10, 0x02]);
            frame.extend(escape::double(content));
            frame.extend([0x10, 0x03]);
        }
        Wire::Expansion => {
            let mut bytes = content.to_vec();
            bytes.extend(crc::crc32(content).to_le_bytes());
            frame.push(0xFD);
            frame.extend(escape::hide(&bytes));
            frame.push(0xFE);
        }
    }
    frame
}

/// PCS: a body and these check bytes, whether they are its own or not.
fn between_marks(body: &[u8], checks: &[u8]) -> Vec<u8> {
    [&[253], body, checks, &[254]].concat()
}

pub fn valid(random: &mut Xorshift, wire: Wire) -> Vec<u8> {
    loop {
        let length = data_length(random);
        let sendable = match wire {
            Wire::Dle => length <= 255,
            Wire::Mdu => length <= 1025,
            _ => length <= 1024,
        };
        if sendable {
            let content = content_of(random, wire, length);
            return close(wire, &content);
        }
    }
}

/// Bits flipped, bytes dropped, doubled, inserted, changed or swapped, from place `from` on.
pub fn damage(random: &mut Xorshift, bytes: &mut Vec<u8>, from: usize) {
    let times = if random.once_in(3) { 1 + random.below(4) } else { 1 };
    for _ in 0..times {
        if bytes.len() <= from {
            let byte = edge(random);
            bytes.push(byte);
            continue;
        }
        let place = from + random.below(bytes.len() - from);
        match random.below(8) {
            0 | 1 => bytes[place] ^= 1 << random.below(8),
            2 => {
                bytes.remove(place);
            }
            3 => bytes.insert(place, bytes[place]),
            4 => bytes.insert(place, edge(random)),
            5 => bytes[place] = edge(random),
            6 => {
                let other = from + random.below(bytes.len() - from);
                bytes.swap(place, other);
            }
            _ => bytes[place] = random.pick(&MARKS),
        }
    }
}

/// A header byte changed, the check values put right: 9 and 10.
fn header_changed(random: &mut Xorshift, wire: Wire) -> Vec<u8> {
    let length = if random.once_in(3) { data_length(random) } else { random.below(12) };
    let mut bytes = content_of(random, wire, length);
    let header = match wire {
        Wire::Pcs => 8,
        Wire::Mdu => 5,
        Wire::Dle => 3,
        Wire::Expansion => 4,
    };
    bytes[random.below(header)] = edge(random);
    if wire == Wire::Pcs && random.once_in(2) {
        bytes[2] = 3 + random.below(15) as u8;
    }
    if random.once_in(4) {
        bytes[random.below(header)] = edge(random);
    }
    if random.once_in(4) {
        // Several faults at once, for the order of the tests.
        damage(random, &mut bytes, header);
    }
    if wire == Wire::Mdu && !random.once_in(6) && bytes.len() >= 6 {
        bytes[5] = sum::modulo_256(&bytes[..5]);
    }
    let mut frame = close(wire, &bytes);
    if random.once_in(6) {
        // The check value wrong too; with PCS's CRC any byte of the two.
        let behind = if wire == Wire::Pcs && pcs::has_crc(&bytes) { 2 + random.below(4) } else { 2 };
        let place = frame.len().saturating_sub(behind);
        frame[place] ^= 1 << random.below(3);
    }
    frame
}

/// A start mark in the middle of a frame: 4 on links with a start mark.
fn started_again(random: &mut Xorshift, wire: Wire) -> Vec<u8> {
    let mut frame = valid(random, wire);
    let place = random.below(frame.len() + 1);
    let start: &[u8] = match wire {
        Wire::Pcs => &[253],
        Wire::Mdu => &[0xE3],
        Wire::Dle => &[0x10, 0x02],
        Wire::Expansion => &[0xFD],
    };
    frame.splice(place..place, start.iter().copied());
    frame
}

/// The data damaged, stated length and check values put right: mostly 13 or other data, and the same where nothing
/// changes, as by an old-style tail without a top bit.
fn data_damaged(random: &mut Xorshift, wire: Wire) -> Vec<u8> {
    let mut bytes = content(random, wire);
    let header = match wire {
        Wire::Pcs => 8,
        Wire::Mdu => 6,
        Wire::Dle => 3,
        Wire::Expansion => 4,
    };
    if random.once_in(3) {
        // The last packed byte: places that a short group does not use, or its top bits at the places that 01 gave them.
        let old_style = wire == Wire::Pcs && random.once_in(2);
        let in_group = (bytes.len() - header + 7) % 8;
        if let Some(last) = bytes[header..].last_mut() {
            *last = if old_style { packing::seven_out((*last & 127) >> (7 - in_group)) } else { edge(random) };
        }
    } else {
        damage(random, &mut bytes, header);
    }
    if wire == Wire::Pcs {
        // A mark among the packed bytes would end the frame early.
        for byte in &mut bytes[header..] {
            if *byte == 253 || *byte == 254 {
                *byte = 252;
            }
        }
    }
    restate(wire, &mut bytes);
    close(wire, &bytes)
}

/// MDU lengths at their edges with a right header sum: 10, or a frame that
/// waits for more. Other links: frames about the size of the store: 5, on PCS also at the end.
fn near_size(random: &mut Xorshift, wire: Wire) -> Vec<u8> {
    let length = 1021 + random.below(9);
    let mut bytes = content_of(random, wire, length);
    if wire == Wire::Mdu && random.once_in(3) {
        let stated = random.pick(&[0u16, 1, 2, 1023, 1024, 1025, 1026, 1027, 2049, 65535]);
        bytes[2..4].copy_from_slice(&stated.to_be_bytes());
        bytes[5] = sum::modulo_256(&bytes[..5]);
    }
    if wire == Wire::Pcs && random.once_in(3) {
        // A plain frame is too long whatever its info.
        bytes[2] = random.below(20) as u8;
    }
    let mut frame = close(wire, &bytes);
    if wire == Wire::Pcs && random.once_in(3) {
        // And whatever its sum.
        let place = frame.len() - 2 - random.below(4);
        frame[place] ^= 1;
    }
    if random.once_in(4) {
        // An ordinary byte more just before the end.
        let place = frame.len().saturating_sub(random.below(4));
        frame.insert(place, 0x55);
    }
    frame
}

/// PCS: a body with CRC, half of them with a number that makes one part of the CRC 0 if one does.
fn body_with_crc(random: &mut Xorshift) -> Vec<u8> {
    let length = if random.once_in(6) { data_length(random) } else { random.below(24) };
    let mut body = content_of(random, Wire::Pcs, length);
    body[2] |= 8;
    if random.once_in(2) {
        let part = random.below(3);
        if let Some(number) = (1..=250).find(|number| pcs::crc_bytes(&with_number(&body, *number))[part] == 128) {
            body[3] = number;
        }
    }
    body
}

fn with_number(body: &[u8], number: u8) -> Vec<u8> {
    let mut changed = body.to_vec();
    changed[3] = number;
    changed
}

/// PCS: check bytes as a mistaken reading of the rules has them, or one of them changed: 8, where they differ.
fn checks_mistaken(random: &mut Xorshift) -> Vec<u8> {
    let body = body_with_crc(random);
    let mut checks = pcs::checks(&body, true);
    let unpacked = packing::unpack(&body[8..]).unwrap_or_default();
    let covered: [Vec<u8>; 4] = [
        [&body[..], &checks[..1]].concat(), // the sum too
        [&body[..8], &unpacked].concat(),   // before packing
        body[8..].to_vec(),                 // the data alone
        // Before 0 goes out as 128.
        body.iter().map(|byte| if *byte == 128 { 0 } else { *byte }).collect(),
    ];
    match random.below(12) {
        0..=3 => {
            let place = random.below(4);
            checks[place] = if random.once_in(2) { edge(random) } else { checks[place] ^ (1 << random.below(8)) };
        }
        4..=6 => checks.iter_mut().filter(|check| **check == 128).for_each(|check| *check = 0),
        7 => checks[1..].reverse(),
        8 => checks.rotate_left(1),
        9 => {
            let places = (random.below(4), random.below(4));
            checks.swap(places.0, places.1);
        }
        _ => checks[1..].copy_from_slice(&pcs::crc_bytes(&covered[random.below(4)])),
    }
    between_marks(&body, &checks)
}

/// PCS: the info of the other sort, with the check bytes as they were, with right ones of the wrong sort, with the last
/// byte right as a plain frame's sum, or with all put right.
fn sort_changed(random: &mut Xorshift) -> Vec<u8> {
    let mut body = content(random, Wire::Pcs);
    let before = pcs::checks(&body, pcs::has_crc(&body));
    body[2] ^= 8;
    let crc = pcs::has_crc(&body);
    match random.below(4) {
        0 => between_marks(&body, &before),
        1 => between_marks(&body, &pcs::checks(&body, !crc)),
        2 => {
            let body = [&body[..], &before[1..]].concat();
            between_marks(&body, &pcs::checks(&body, false))
        }
        _ => close(Wire::Pcs, &body),
    }
}

/// PCS: about as few bytes as a frame with CRC has, below 12 of them 6, with right check bytes of either sort.
fn short_with_crc(random: &mut Xorshift) -> Vec<u8> {
    let mut body = content_of(random, Wire::Pcs, 0);
    body[2] |= 8;
    let kept = 3 + random.below(9);
    body.resize(kept, 5);
    let crc = random.once_in(2);
    between_marks(&body, &pcs::checks(&body, crc))
}

/// One to nine bytes, often one, often the FF of an idle line.
pub fn noise(random: &mut Xorshift) -> Vec<u8> {
    let length = if random.once_in(3) { 1 } else { 1 + random.below(9) };
    if random.once_in(3) {
        return vec![0xFF; length];
    }
    contents(random, length)
}

/// Bytes that are no frame to begin with: random ones, marks, or few.
fn loose(random: &mut Xorshift) -> Vec<u8> {
    match random.below(4) {
        0 => Vec::new(),
        1 => (0..1 + random.below(4)).map(|_| random.pick(&MARKS)).collect(),
        2 => (0..random.below(60)).map(|_| random.pick(&MARKS)).collect(),
        _ => {
            let length = data_length(random);
            contents(random, length)
        }
    }
}

/// An opened frame that just goes on: 5 on links with a start mark.
fn endless(random: &mut Xorshift, wire: Wire) -> Vec<u8> {
    let mut bytes = match wire {
        Wire::Pcs => vec![253],
        Wire::Mdu => vec![0xE3],
        Wire::Dle => vec![0x10, 0x02],
        Wire::Expansion => vec![0xFD],
    };
    let length = random.pick(&[255usize, 258, 259, 260, 1031, 1032, 1033, 1034, 1180, 1181, 1182, 1183, 1184, 1300]);
    // On PCS it is the info too.
    let filler = if random.once_in(3) { between(random, 12, 15) } else { between(random, 4, 9) };
    let hidden = random.once_in(3);
    for _ in 0..length {
        match wire {
            Wire::Dle if hidden => bytes.extend([0x10, 0x10]),
            Wire::Expansion if hidden => bytes.extend([0xFF, random.below(3) as u8]),
            _ => bytes.push(filler),
        }
    }
    if random.once_in(2) {
        match wire {
            Wire::Pcs => bytes.push(254),
            Wire::Mdu => {}
            Wire::Dle => bytes.extend([0x10, 0x03]),
            Wire::Expansion => bytes.push(0xFE),
        }
    }
    bytes
}

/// A frame with noise before it, behind it or both.
fn in_noise(random: &mut Xorshift, wire: Wire) -> Vec<u8> {
    let frame = valid(random, wire);
    let mut bytes = Vec::new();
    let where_noisy = random.below(3);
    if where_noisy != 1 {
        bytes.extend(noise(random));
    }
    bytes.extend(frame);
    if where_noisy != 0 {
        bytes.extend(noise(random));
    }
    bytes
}

/// One run of bytes for a link: valid, damaged, resummed, cut, noisy, long, loose.
pub fn run(random: &mut Xorshift, wire: Wire) -> Vec<u8> {
    if wire == Wire::Pcs && random.once_in(4) {
        return match random.below(5) {
            0 | 1 => checks_mistaken(random),
            2 => sort_changed(random),
            3 => short_with_crc(random),
            _ => near_size(random, wire),
        };
    }
    match random.below(21) {
        0..=4 => valid(random, wire),
        5 | 6 => header_changed(random, wire),
        7 | 8 => data_damaged(random, wire),
        9 => {
            // Anything damaged, only the check value put right.
            let mut bytes = content(random, wire);
            damage(random, &mut bytes, 0);
            close(wire, &bytes)
        }
        10..=12 => {
            let mut frame = valid(random, wire);
            damage(random, &mut frame, 0);
            frame
        }
        13 => {
            let mut frame = valid(random, wire);
            let kept = random.below(frame.len());
            frame.truncate(kept);
            frame
        }
        14 | 15 => in_noise(random, wire),
        16 => {
            let mut bytes = valid(random, wire);
            bytes.extend(valid(random, wire));
            if random.once_in(2) {
                damage(random, &mut bytes, 0);
            }
            bytes
        }
        17 => near_size(random, wire),
        18 => endless(random, wire),
        19 => started_again(random, wire),
        _ => loose(random),
    }
}

#[cfg(test)]
mod tests {
    use super::*;

    #[test]
    fn seeds_repeat_and_differ() {
        let take = |seed| {
            let mut random = Xorshift::new(seed);
            (0..20).map(|_| random.next()).collect::<Vec<u64>>()
        };
        assert_eq!(take(7), take(7));
        assert_ne!(take(7), take(8));
        assert_ne!(take(0), take(1));
    }
}
