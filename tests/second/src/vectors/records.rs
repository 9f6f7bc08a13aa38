//! Fare records: copying, elements, making, and views.

use super::text::{answer_word, filled, given, mix, section, value_word, words, Given, Lines};
use crate::record::{self, View};

const PAYLOADS: [&[u8]; 20] = [
    &[2, 0, 0, 1, 0, 0x64, 0x96],
    &[3, 0, 0, 1, 0, 0x64, 0x96],
    &[1, 0, 0, 3, 0, 0, 128, 255],
    &[2, 0xE6, 0x03, 2, 0, 0xFF, 0xFF, 0x00, 0x80],
    &[3, 0xE6, 0x03, 2, 0, 0xFF, 0xFF, 0x00, 0x80],
    &[4, 0xF2, 0x01, 2, 0, 0xFF, 0xFF, 0xFF, 0xFF, 0x00, 0x00, 0x00, 0x80],
    &[5, 0xF2, 0x01, 2, 0, 0xFF, 0xFF, 0xFF, 0xFF, 0x00, 0x00, 0x00, 0x80],
    // 16: too short, type, count 0, address plus count, length.
    &[],
    &[2, 0, 0, 1],
    &[0, 0, 0, 1, 0, 1],
    &[6, 0, 0, 1, 0, 1],
    &[1, 0, 0, 0, 0],
    &[1, 0xD0, 0x07, 1, 0, 1],
    &[2, 0xE8, 0x03, 1, 0, 1, 1],
    &[3, 0xE8, 0x03, 1, 0, 1, 1],
    &[4, 0xF4, 0x01, 1, 0, 1, 1, 1, 1],
    &[5, 0xF4, 0x01, 1, 0, 1, 1, 1, 1],
    &[2, 0, 0, 1, 0, 1],
    &[2, 0, 0, 1, 0, 1, 1, 1],
    &[1, 0xFF, 0xFF, 1, 0, 1],
];

/// Each type with its element size and the most that address plus count may be.
pub const TYPES: [(u8, usize, usize); 5] = [(1, 1, 2000), (2, 2, 1000), (3, 2, 1000), (4, 4, 500), (5, 4, 500)];

/// A head with these elements behind it, well formed or not.
pub fn payload_of(number: u8, address: u16, count: u16, elements: &[u8]) -> Vec<u8> {
    [&[number], &address.to_le_bytes()[..], &count.to_le_bytes(), elements].concat()
}

/// Most elements that a whole length of 1,024 leaves room for.
pub fn most(size: usize) -> usize {
    1019 / size
}

/// Keeps these bytes for the word `frame`.
pub fn kept(lines: &mut Lines, payload: &[u8]) -> Given {
    lines.add(&format!("keep {}", given(payload).word), "");
    Given { word: String::from("frame"), bytes: payload.to_vec() }
}

fn count_word(result: Result<usize, u8>) -> String {
    match result {
        Ok(count) => format!("count {count}"),
        Err(number) => format!("refused {number}"),
    }
}

pub fn copy_line(lines: &mut Lines, signed: bool, payload: &Given, room: usize) {
    let (sign, answer, places);
    if signed {
        let mut fares: Vec<i32> = (1..=room as i32).collect();
        answer = count_word(record::copy_signed(&payload.bytes, &mut fares));
        (sign, places) = ("signed", words(&fares));
    } else {
        let mut fares: Vec<u32> = (1..=room as u32).collect();
        answer = count_word(record::copy_unsigned(&payload.bytes, &mut fares));
        (sign, places) = ("unsigned", words(&fares));
    }
    lines.add(&format!("copy {sign} {} room {room}", payload.word), &format!("{answer} places {places}"));
}

pub fn element_line(lines: &mut Lines, signed: bool, payload: &Given, number: usize) {
    let (sign, answer) = if signed {
        ("signed", value_word(record::element_signed(&payload.bytes, number)))
    } else {
        ("unsigned", value_word(record::element_unsigned(&payload.bytes, number)))
    };
    lines.add(&format!("element {sign} {} {number}", payload.word), &answer);
}

pub fn view_line(lines: &mut Lines, payload: &Given) {
    let answer = match record::view(&payload.bytes) {
        Ok(view) => format!("type {} count {}", view.number, view.count),
        Err(number) => format!("refused {number}"),
    };
    lines.add(&format!("view {}", payload.word), &answer);
}

pub fn view_element_line(lines: &mut Lines, signed: bool, payload: &Given, number: u8, count: usize, element: usize) {
    let view = View { payload: &payload.bytes, number, count };
    let (sign, answer) = if signed {
        ("signed", value_word(view.element_signed(element)))
    } else {
        ("unsigned", value_word(view.element_unsigned(element)))
    };
    lines.add(&format!("view-element {sign} {} {number} {count} {element}", payload.word), &answer);
}

/// Lines of records that are made.
pub struct Make {
    pub lines: Lines,
}

impl Make {
    fn made(&mut self, called: String, fares: String, room: usize, make: &dyn Fn(&mut [u8]) -> Result<usize, u8>) {
        let mut out = filled(room);
        let answer = match make(&mut out) {
            Ok(length) => format!("length {length} record {}", answer_word(&out[..length])),
            Err(number) => format!("refused {number}"),
        };
        let call = format!("make {called} room {room} fares {fares}");
        self.lines.add(&call, &format!("{answer} memory {}", mix(&out)));
    }

    pub fn unsigned(&mut self, number: u8, address: u16, fares: &[u32], room: usize) {
        let called = format!("unsigned {number} {address}");
        self.made(called, fares_words(fares), room, &|out| record::write_unsigned(number, address, fares, out));
    }

    pub fn signed(&mut self, number: u8, address: u16, fares: &[i32], room: usize) {
        let called = format!("signed {number} {address}");
        self.made(called, fares_words(fares), room, &|out| record::write_signed(number, address, fares, out));
    }
}

/// How many, and the fares as far as the last that is not 0.
fn fares_words<T: ToString + Default + PartialEq>(fares: &[T]) -> String {
    let given = fares.iter().rposition(|fare| *fare != T::default()).map_or(0, |last| last + 1);
    format!("{} {}", fares.len(), words(&fares[..given])).trim_end().to_string()
}

/// A malformed record gives 16 everywhere: once is enough.
fn read_lines(lines: &mut Lines) {
    for payload in PAYLOADS {
        let is_record = record::view(payload).is_ok();
        let rooms: &[usize] = if is_record { &[0, 1, 4] } else { &[0] };
        let numbers: &[usize] = if is_record { &[0, 1, 2, 3] } else { &[0] };
        let payload = given(payload);
        for room in rooms {
            copy_line(lines, false, &payload, *room);
            copy_line(lines, true, &payload, *room);
        }
        for number in numbers {
            element_line(lines, false, &payload, *number);
            element_line(lines, true, &payload, *number);
        }
    }
}

/// A run that is no record: 16 from each call, whatever the sign and the view's numbers.
fn malformed_lines(lines: &mut Lines, payload: &Given, number: u8, count: usize) {
    view_line(lines, payload);
    for signed in [false, true] {
        copy_line(lines, signed, payload, 2);
        element_line(lines, signed, payload, 0);
        element_line(lines, signed, payload, count);
        view_element_line(lines, signed, payload, number, count, 0);
    }
}

/// A record of `count` elements: copied as a whole, into a run that is one too short, and, if it
/// is short, into a longer one; its first and last element, and one above, also of its view.
fn whole_lines(lines: &mut Lines, payload: &Given, number: u8, count: usize) {
    let is_signed = record::copy_unsigned(&payload.bytes, &mut []) == Err(17);
    view_line(lines, payload);
    copy_line(lines, is_signed, payload, count);
    copy_line(lines, is_signed, payload, count - 1);
    if count < 10 {
        copy_line(lines, is_signed, payload, count + 2);
    }
    copy_line(lines, !is_signed, payload, 2);
    for element in [0, count - 1, count, 65_535] {
        for signed in [false, true] {
            element_line(lines, signed, payload, element);
            view_element_line(lines, signed, payload, number, count, element);
        }
    }
}

/// `length` bytes with every top bit among them.
fn elements(length: usize) -> Vec<u8> {
    (0..length).map(|k| (37 * k + k / 7 + 100) as u8).collect()
}

/// The limits of each type, exact and one above: address plus count, the whole length, the count.
fn edge_lines(lines: &mut Lines) {
    for (number, size, limit) in TYPES {
        let one = elements(size);
        let exact = given(&payload_of(number, limit as u16 - 1, 1, &one));
        whole_lines(lines, &exact, number, 1);
        malformed_lines(lines, &given(&payload_of(number, limit as u16, 1, &one)), number, 1);
        // With address 1 the sum is 0 in 16 bits.
        malformed_lines(lines, &given(&payload_of(number, 1, 65_535, &one)), number, 65_535);
        let count = most(size);
        let all = kept(lines, &payload_of(number, (limit - count) as u16, count as u16, &elements(size * count)));
        whole_lines(lines, &all, number, count);
        // 1,025 bytes: one element more.
        let more = kept(lines, &payload_of(number, 0, count as u16 + 1, &elements(size * (count + 1))));
        malformed_lines(lines, &more, number, count + 1);
    }
    let many = kept(lines, &payload_of(1, 0, 65_535, &elements(1019)));
    malformed_lines(lines, &many, 1, 65_535);
}

fn made_records(make: &mut Make) {
    make.unsigned(2, 0, &[38_500], 10);
    make.signed(3, 0, &[-27_036], 10);
    make.unsigned(2, 0, &[38_500], 7);
    make.unsigned(2, 0, &[38_500], 6);
    make.unsigned(1, 1997, &[0, 128, 255], 10);
    make.unsigned(1, 1998, &[0, 128, 255], 10);
    make.unsigned(2, 999, &[65_535], 10);
    make.unsigned(5, 499, &[4_294_967_295], 10);
    make.signed(3, 998, &[-32_768, 32_767], 10);
    make.signed(4, 498, &[-2_147_483_648, 2_147_483_647], 16);
}

/// 3, before 2: type, signedness, number, count, address plus count.
fn refused_records(make: &mut Make) {
    for (number, fare) in [(0, 0), (6, 0), (1, 256), (2, 65_536), (3, 0), (4, 0)] {
        make.unsigned(number, 0, &[fare], 10);
        make.unsigned(number, 0, &[fare], 0);
    }
    for (number, fare) in [(0, 0), (1, 0), (2, 0), (5, 0), (3, 32_768), (3, -32_769)] {
        make.signed(number, 0, &[fare], 10);
        make.signed(number, 0, &[fare], 0);
    }
    make.unsigned(1, 0, &[], 10);
    make.signed(4, 0, &[], 10);
    make.unsigned(1, 2000, &[0], 10);
    make.unsigned(2, 1000, &[0], 10);
    make.signed(3, 1000, &[0], 10);
    make.signed(4, 500, &[0], 10);
    make.unsigned(5, 500, &[0], 10);
    make.unsigned(1, 65_535, &[0], 10);
}

/// Address plus count at its limit and one above, with one fare and with as many as the
/// whole length of 1,024 leaves room for; then one fare more.
fn limits(make: &mut Make) {
    for (number, size, limit) in TYPES {
        let count = most(size);
        let longest = 5 + size * count;
        let last = (limit - count) as u16;
        let mut few = |count: usize, address: u16, room: usize| {
            let fares: Vec<u32> = (0..count as u32).map(|k| if k < 4 { 3 * k + 100 } else { 0 }).collect();
            let signed: Vec<i32> = fares.iter().map(|fare| -11 * *fare as i32).collect();
            if number == 3 || number == 4 {
                make.signed(number, address, &signed, room);
            } else {
                make.unsigned(number, address, &fares, room);
            }
        };
        few(1, limit as u16 - 1, 20);
        few(1, limit as u16, 20);
        few(count, last, longest);
        few(count, last, longest - 1);
        few(count, last, 1100);
        few(count, last + 1, 1100);
        few(count + 1, 0, 1100);
        few(count + 1, 0, 0);
    }
}

pub fn records_section() -> Lines {
    let mut lines = section("records");
    read_lines(&mut lines);
    edge_lines(&mut lines);
    let mut make = Make { lines };
    made_records(&mut make);
    refused_records(&mut make);
    limits(&mut make);
    make.lines
}

pub fn views_section() -> Lines {
    let mut lines = section("views");
    for payload in PAYLOADS {
        view_line(&mut lines, &given(payload));
    }
    // Views whose fields are not the payload's.
    let payload = given(PAYLOADS[3]);
    for (number, count) in [(2, 2), (2, 1), (2, 3), (3, 2), (0, 0), (2, 65_538)] {
        for element in [0, 1, 2] {
            view_element_line(&mut lines, false, &payload, number, count, element);
            view_element_line(&mut lines, true, &payload, number, count, element);
        }
    }
    lines
}
