//! Generated captures for the listing program, each with its expected listing.

use crate::gen::{self, Wire, Xorshift, WIRES};
use crate::listing;
use crate::pcs::Pcs;
use crate::stream::{self, Event, Link, State};
use std::fs;
use std::io;
use std::path::Path;

fn letter(wire: Wire) -> u8 {
    match wire {
        Wire::Pcs => b'P',
        Wire::Mdu => b'M',
        Wire::Dle => b'D',
        Wire::Expansion => b'X',
    }
}

/// Document 002's second example, read as M.
pub fn example() -> Vec<u8> {
    let mut input = vec![b'M'];
    input.extend([0xFF, 0xFF, 0xFF, 0xE3, 0x01, 0x00, 0x05, 0x0D, 0xF6, 0xB1, 0x00, 0x04, 0x47, 0xBA, 0x98, 0x8F]);
    input.extend([0xFF, 0xFF, 0xFF, 0xEE, 0xEE, 0xE3, 0x01, 0x00, 0x01, 0x0D, 0xF2, 0x31, 0xD4, 0xC1]);
    input.extend([0xFF, 0xFF, 0xFF]);
    input
}

/// Document 000's acknowledgement, the same with CRC, and with a CRC that is wrong in its lowest place.
pub fn boards() -> Vec<u8> {
    let mut input = vec![b'P'];
    input.extend([253, 250, 101, 6, 2, 128, 128, 1, 1, 105, 254]);
    input.extend([253, 250, 101, 14, 2, 128, 128, 1, 1, 113, 42, 86, 2, 254]);
    input.extend([253, 250, 101, 14, 2, 128, 128, 1, 1, 113, 43, 86, 2, 254]);
    input
}

/// Capture number `index`: the first few fixed, the others generated.
pub fn capture(random: &mut Xorshift, index: usize) -> Vec<u8> {
    match index {
        0 => return Vec::new(),
        1..=4 => return vec![letter(WIRES[index - 1])],
        5 => return example(),
        6 => return vec![b'p'],
        7 => return vec![b'\n', b'P'],
        8 => return vec![0],
        9 => return boards(),
        _ => {}
    }
    if index % 16 == 9 {
        // A wrong first byte, with frames behind it.
        let mut input = vec![random.byte()];
        while b"PMDX".contains(&input[0]) {
            input[0] = random.byte();
        }
        let wire = random.pick(&WIRES);
        input.extend(gen::run(random, wire));
        return input;
    }
    let wire = WIRES[index % 4];
    let mut input = vec![letter(wire)];
    // Some captures are longer than any piece that a program reads at once.
    let least = if index % 32 >= 28 { 66_000 + random.below(140_000) } else { 0 };
    let runs = random.below(12);
    let mut made = 0;
    while made < runs || input.len() < least {
        match random.below(4) {
            0 => input.extend(gen::noise(random)),
            1 => input.extend(gen::valid(random, wire)),
            _ => input.extend(gen::run(random, wire)),
        }
        made += 1;
    }
    if random.once_in(3) {
        // Cut anywhere, the last byte of a half mark or hidden byte included.
        let kept = 1 + random.below(input.len());
        input.truncate(kept);
    }
    input
}

/// PCS messages of a capture, without CRC and with it, which its listing doesn't tell.
fn sorts(input: &[u8]) -> [usize; 2] {
    let Some((b'P', mut rest)) = input.split_first() else { return [0, 0] };
    let (mut state, mut store, mut sorts) = (State::default(), vec![0; Pcs::SIZE], [0, 0]);
    while !rest.is_empty() {
        let received = stream::receive::<Pcs>(rest, state, &mut store);
        state = received.state;
        rest = &rest[received.used..];
        if let Event::Message(message) = received.event {
            sorts[message.crc as usize] += 1;
        }
    }
    sorts
}

/// Writes capture-NNNNN.bin and capture-NNNNN.txt into `folder`; how many PCS messages they have, without CRC and with it.
pub fn captures(folder: &Path, seed: u64, count: usize) -> io::Result<[usize; 2]> {
    fs::create_dir_all(folder)?;
    let mut random = Xorshift::new(seed);
    let mut seen = [0, 0];
    for index in 0..count {
        let input = capture(&mut random, index);
        let [plain, crc] = sorts(&input);
        seen = [seen[0] + plain, seen[1] + crc];
        fs::write(folder.join(format!("capture-{index:05}.bin")), &input)?;
        fs::write(folder.join(format!("capture-{index:05}.txt")), listing::listing(&input))?;
    }
    Ok(seen)
}

#[cfg(test)]
mod tests {
    use super::*;

    #[test]
    fn sorts_are_told_apart() {
        assert_eq!(sorts(&boards()), [1, 1]);
        assert_eq!(sorts(&[boards(), boards()[12..26].to_vec()].concat()), [1, 2]);
        assert_eq!(sorts(&example()), [0, 0]);
        assert_eq!(sorts(&[]), [0, 0]);
    }
}
