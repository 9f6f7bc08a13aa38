//! Records: well formed or not, read by every call, and made.

use crate::gen::{self, Xorshift};
use crate::vectors::records::{
    copy_line, element_line, kept, most, payload_of, view_element_line, view_line, Make, TYPES,
};
use crate::vectors::text::Lines;

/// The longest run of fares that the program lends.
const ROOM: usize = 1100;

/// A type's number, now and then any, with the size and the limit of a known one.
fn type_of(random: &mut Xorshift) -> (u8, usize, usize) {
    let (number, size, limit) = random.pick(&TYPES);
    (if random.once_in(20) { gen::edge(random) } else { number }, size, limit)
}

/// Few or as many as fit; at an edge one more, none, or too many.
fn count_of(random: &mut Xorshift, size: usize, at_edge: bool) -> usize {
    match random.below(8) {
        0 => most(size),
        1 => 1 + random.below(most(size)),
        2 if at_edge => most(size) + 1,
        3 if at_edge => 0,
        4 if at_edge => random.pick(&[255, 256, 257, 499, 500, 501, 999, 1000, 1001, 65_534, 65_535]),
        _ => 1 + random.below(6),
    }
}

/// At the limit of address plus count or below it; at an edge one above, or any.
fn address_of(random: &mut Xorshift, limit: usize, count: usize, at_edge: bool) -> u16 {
    let last = limit.saturating_sub(count);
    let address = match random.below(8) {
        0 | 1 => last,
        2 if at_edge => last + 1,
        3 if at_edge => random.next() as usize,
        4 if at_edge => random.pick(&[0, 1, 255, 256, 65_535, 65_536 - count.min(65_536)]),
        _ => random.below(last + 1),
    };
    address as u16
}

/// A payload with its stated type and count.
fn payload(random: &mut Xorshift) -> (Vec<u8>, u8, usize) {
    let at_edge = random.once_in(2);
    let (number, size, limit) = type_of(random);
    let count = count_of(random, size, at_edge);
    let length = match random.below(10) {
        0 if at_edge => size * count + 1 + random.below(3),
        1 if at_edge => (size * count).saturating_sub(1 + random.below(3)),
        2 if at_edge => random.below(60),
        _ => size * count,
    };
    let elements = gen::contents(random, length.min(ROOM));
    let address = address_of(random, limit, count, at_edge);
    let mut bytes = payload_of(number, address, count as u16, &elements);
    if random.once_in(30) {
        bytes.truncate(random.below(7));
    }
    (bytes, number, count)
}

/// An element's number: the first, the last, one above it, or any.
fn element_of(random: &mut Xorshift, count: usize) -> usize {
    match random.below(8) {
        0 => 0,
        1 | 2 => count.saturating_sub(1),
        3 => count,
        4 => random.pick(&[count + 1, 65_535, 65_536, 4_294_967_295, 4_294_967_296, 9_999_999_999]),
        _ => random.below(count + 1),
    }
}

/// Each call that reads, twice with each sign.
pub fn read(random: &mut Xorshift) -> Lines {
    let mut lines = Lines::default();
    let (bytes, number, count) = payload(random);
    let payload = kept(&mut lines, &bytes);
    view_line(&mut lines, &payload);
    for signed in [false, true, false, true] {
        let room = match random.below(6) {
            0 | 1 => count,
            2 => count.saturating_sub(1),
            3 => count + 1,
            4 => random.below(count + 3),
            _ => random.below(4),
        };
        copy_line(&mut lines, signed, &payload, room.min(ROOM));
        element_line(&mut lines, signed, &payload, element_of(random, count));
        let viewed = if random.once_in(8) { gen::edge(random) } else { number };
        let counted = if random.once_in(8) { element_of(random, count) } else { count };
        view_element_line(&mut lines, signed, &payload, viewed, counted, element_of(random, count));
    }
    lines
}

/// The least and the most that a type's element can hold; 32 bits of either sign for an unknown type.
fn range(number: u8, signed: bool) -> (i64, i64) {
    match (number, signed) {
        (1, false) => (0, 255),
        (2, false) => (0, 65_535),
        (3, true) => (-32_768, 32_767),
        (_, false) => (0, u32::MAX as i64),
        (_, true) => (i32::MIN as i64, i32::MAX as i64),
    }
}

/// Fares that the type holds, now and then one that it does not.
fn fares(random: &mut Xorshift, number: u8, signed: bool, count: usize) -> Vec<i64> {
    let (least, most) = range(number, signed);
    let wide = (most - least + 1) as u64;
    let mut fares: Vec<i64> = (0..count)
        .map(|_| match random.below(6) {
            0 => least,
            1 => most,
            2 => least.max(-1) + random.below(3) as i64,
            _ => least + (random.next() % wide) as i64,
        })
        .collect();
    let (lowest, highest) = range(0, signed);
    if random.once_in(5) && count > 0 {
        let place = if random.once_in(2) { count - 1 } else { random.below(count) };
        let beyond = random.pick(&[least - 1, most + 1, lowest, highest, 256, 65_536]);
        fares[place] = beyond.clamp(lowest, highest);
    }
    fares
}

/// A record made from a run of fares, mostly one that may be.
pub fn made(random: &mut Xorshift) -> Lines {
    let mut make = Make { lines: Lines::default() };
    let at_edge = random.once_in(3);
    let (number, size, limit) = type_of(random);
    let signed = (number == 3 || number == 4) != random.once_in(10);
    let count = count_of(random, size, at_edge).min(ROOM);
    let fares = fares(random, number, signed, count);
    let address = address_of(random, limit, count, at_edge);
    let exact = 5 + size * count;
    let room = match random.below(8) {
        0..=3 => exact,
        4 => exact - 1,
        5 => exact + 1 + random.below(40),
        6 => random.below(exact),
        _ => random.pick(&[0, 5, 1024, 1025]),
    };
    if signed {
        let fares: Vec<i32> = fares.iter().map(|fare| *fare as i32).collect();
        make.signed(number, address, &fares, room.min(4096));
    } else {
        let fares: Vec<u32> = fares.iter().map(|fare| *fare as u32).collect();
        make.unsigned(number, address, &fares, room.min(4096));
    }
    make.lines
}

#[cfg(test)]
mod tests {
    use super::*;
    use crate::record;

    #[test]
    fn records_at_their_edges_are_among_the_payloads() {
        let mut random = Xorshift::new(9);
        let (mut sound, mut longest, mut exact, mut above, mut many) = (0, 0, 0, 0, 0);
        for _ in 0..4000 {
            let (bytes, number, count) = payload(&mut random);
            let known = TYPES.iter().find(|(known, _, _)| bytes.len() >= 5 && *known == bytes[0]);
            if let Some((_, size, limit)) = known {
                let sum = bytes[1] as usize + bytes[2] as usize * 256 + count;
                exact += (sum == *limit && record::view(&bytes).is_ok()) as u32;
                above += (sum == *limit + 1 && bytes.len() == 5 + size * count && bytes.len() <= 1024) as u32;
                longest += (count == most(*size) && record::view(&bytes).is_ok()) as u32;
                many += (count == most(*size) + 1 && bytes.len() == 1025 && sum <= *limit) as u32;
                sound += record::view(&bytes).is_ok_and(|view| view.number == number && view.count == count) as u32;
            }
        }
        assert!(sound > 1500 && longest > 100 && exact > 100 && above > 20 && many > 20);
    }

    #[test]
    fn fares_are_mostly_in_range() {
        let mut random = Xorshift::new(10);
        let within = (0..500).filter(|_| {
            let fares = fares(&mut random, 3, true, 3);
            fares.iter().all(|fare| (-32_768..=32_767).contains(fare))
        });
        assert!((350..500).contains(&within.count()));
    }
}
