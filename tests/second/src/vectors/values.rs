//! The published check values, packing, and 01's examples.

use super::pcs::summed;
use super::text::{answer_word, bytes_word, given, given_run, run, section, value_word, Given, Lines};
use super::Part;
use crate::crc;
use crate::dle;
use crate::escape;
use crate::listing::hex;
use crate::packing;
use crate::record;
use crate::sum;

fn crc_lines(lines: &mut Lines, word: &str, bytes: &[u8]) {
    lines.add(&format!("crc16 {word}"), &hex(&crc::crc16(0, bytes).to_be_bytes()));
    lines.add(&format!("crc32 {word}"), &hex(&crc::crc32(bytes).to_be_bytes()));
}

/// Answers the value, which the next block can start from.
pub fn crc16_from_line(lines: &mut Lines, start: u16, given: &Given) -> u16 {
    let value = crc::crc16(start, &given.bytes);
    lines.add(&format!("crc16-from {start} {}", given.word), &hex(&value.to_be_bytes()));
    value
}

/// A run in blocks, each from the value of the one before it, and then in one pass.
pub fn blocks_lines(lines: &mut Lines, start: u16, blocks: &[Vec<u8>]) {
    let mut value = start;
    for block in blocks {
        value = crc16_from_line(lines, value, &given(block));
    }
    assert_eq!(crc16_from_line(lines, start, &given(&blocks.concat())), value);
}

/// A start that is ignored or xored in at the end, and blocks that each start from 0, give other values than these.
fn crc16_from_lines(lines: &mut Lines) {
    for start in [0, 1, 0x8000, 0xA001, 0xFFFF] {
        for bytes in [&b"123456789"[..], &[], &[0x00], &[0x80], &[0xFF, 0xFF]] {
            crc16_from_line(lines, start, &given(bytes));
        }
        for length in [4, 95, 96, 97, 1024, 1028] {
            crc16_from_line(lines, start, &given_run(length));
        }
    }
    for cut in 0..=9 {
        blocks_lines(lines, 0, &[b"123456789"[..cut].to_vec(), Vec::new(), b"123456789"[cut..].to_vec()]);
    }
    let body = run(1025);
    for (size, of) in [(1, &body[..25]), (95, &body), (96, &body), (256, &body), (1024, &body)] {
        let blocks: Vec<Vec<u8>> = of.chunks(size).map(<[u8]>::to_vec).collect();
        blocks_lines(lines, 0xD4C1, &blocks);
    }
}

pub fn crc_section() -> Lines {
    let mut lines = section("crc");
    for bytes in [b"123456789", &[][..], &[0x00], &[0x80], &[0x01], &[0xFF, 0xFF, 0xFF, 0xFF]] {
        crc_lines(&mut lines, &bytes_word(bytes), bytes);
    }
    for length in [1024, 1028] {
        crc_lines(&mut lines, &format!("run{length}"), &run(length));
    }
    crc16_from_lines(&mut lines);
    lines
}

fn pack_line(lines: &mut Lines, data: &[u8]) {
    lines.add(&format!("pack {}", bytes_word(data)), &answer_word(&packing::pack(data)));
}

fn unpack_line(lines: &mut Lines, packed: &[u8]) {
    let answer = packing::unpack(packed).map_or(String::from("refused 13"), |data| answer_word(&data));
    lines.add(&format!("unpack {}", bytes_word(packed)), &answer);
}

/// Data of `length` bytes, byte k being k + 1 and its top bit that at place k of `tops`.
fn data_with(length: usize, tops: u64) -> Vec<u8> {
    (0..length).map(|k| (k as u64 + 1 + (tops >> k & 1) * 128) as u8).collect()
}

/// Every length of a last group with every pattern of top bits is packed, and a group of every length is unpacked with
/// every byte of top bits, among them those of 01's rule.
fn groups(lines: &mut Lines) {
    for length in 1..=7 {
        for tops in 0..1 << length {
            pack_line(lines, &data_with(length, tops));
        }
    }
    for length in 1..=7 {
        for tops in (0..=129).chain([192, 255]) {
            unpack_line(lines, &[data_with(length, 0), vec![tops]].concat());
        }
    }
}

pub fn packing_section() -> Lines {
    let mut lines = section("packing");
    // 02's fare of two bytes. Old-style tails: of one and two bytes 13, of four to six, alone and behind a full group, other data.
    pack_line(&mut lines, &[0x96, 0x64]);
    unpack_line(&mut lines, &packing::pack(&[0x96, 0x64]));
    for data in [&[0x96, 0x64][..], &[0x80], &[0x80, 0, 0, 0], &[0, 0x80, 0, 0, 0], &[0x80, 0x80, 0, 0, 0, 0]] {
        unpack_line(&mut lines, &packing::old_style(data));
        unpack_line(&mut lines, &packing::old_style(&[&[0x85; 7], data].concat()));
    }
    groups(&mut lines);
    // Behind full groups, with all top bits and with every third; top bits alone; bytes outside 1 to 128 anywhere.
    for length in (7..=21).chain([50, 56]) {
        for data in [data_with(length, u64::MAX), data_with(length, 0x1249_2492_4924_9249)] {
            pack_line(&mut lines, &data);
            unpack_line(&mut lines, &packing::pack(&data));
        }
    }
    pack_line(&mut lines, &[]);
    unpack_line(&mut lines, &[]);
    for packed in [&[128][..], &[64], &[1, 2, 3, 4, 5, 6, 7, 8, 64]] {
        unpack_line(&mut lines, packed);
    }
    let packed = packing::pack(&run(16));
    for place in 0..packed.len() {
        for wrong in [0, 129] {
            let mut bad = packed.clone();
            bad[place] = wrong;
            unpack_line(&mut lines, &bad);
        }
    }
    lines
}

pub fn examples_section(part: Part) -> Lines {
    let sum = |bytes: &[u8]| (format!("sum {}", hex(bytes)), sum::pcs(bytes).to_string());
    let crc16 = |bytes: &[u8]| (format!("crc16 {}", hex(bytes)), hex(&crc::crc16(0, bytes).to_be_bytes()));
    let packed = [42, 87, 81, 81, 128, 128, 128, 108];
    let data = [0x64, 0x96];
    let marks = [0xFD, 0xFE, 0xFF];
    let word = [2, 0, 0, 1, 0, 0x64, 0x96];
    let integer = [3, 0, 0, 1, 0, 0x64, 0x96];
    let rows = [
        sum(&summed(0)),
        sum(&summed(2)),
        sum(&summed(3)),
        sum(&[251]),
        sum(&[128, 128]),
        (format!("unpack {}", hex(&packed)), hex(&packing::unpack(&packed).unwrap_or_default())),
        crc16(&[0x31]),
        crc16(&[0xB1, 0x00, 0x04, 0x47, 0xBA]),
        (format!("dle-frame 16 3 {}", hex(&data)), hex(&dle::frame(0x10, 3, &data).unwrap_or_default())),
        (format!("hide {}", hex(&marks)), hex(&escape::hide(&marks))),
        (format!("element unsigned {} 0", hex(&word)), value_word(record::element_unsigned(&word, 0))),
        (format!("element signed {} 0", hex(&integer)), value_word(record::element_signed(&integer, 0))),
    ];
    let mut lines = section("examples");
    for (index, (call, answer)) in rows.iter().enumerate() {
        if call.starts_with("element") == (part == Part::Records) {
            lines.add(&format!("example {} {call}", index + 1), answer);
        }
    }
    lines
}
