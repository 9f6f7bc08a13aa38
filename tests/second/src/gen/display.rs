//! Orders for the queue display, and frames that are nearly such.

use super::{between, close, damage, edge, restate, run, Wire, Xorshift};
use crate::display::{self, Order};
use crate::packing;

/// A number of any count of digits, often the least or the most of them, often with zeros in it.
pub fn value(random: &mut Xorshift) -> u32 {
    let above = 10u32.pow(1 + random.below(8) as u32);
    match random.below(12) {
        0 | 1 => above - 1,
        2 | 3 => above / 10,
        4 | 5 => above / 10 + random.below(10) as u32,
        6 => random.below(1000) as u32,
        7 => random.below(3) as u32,
        _ => random.below(above as usize) as u32,
    }
}

/// The same, now and then one with more than eight digits.
pub fn any_value(random: &mut Xorshift) -> u32 {
    match random.below(12) {
        0 => display::MOST + 1 + random.below(3) as u32,
        1 => random.pick(&[999_999_999, 1_000_000_000, 4_200_000_000, u32::MAX - 1, u32::MAX]),
        2 => random.next() as u32,
        _ => value(random),
    }
}

pub fn order(random: &mut Xorshift) -> Order {
    let receiver = if random.once_in(5) { 255 } else { between(random, 1, 250) };
    let (sender, number) = (between(random, 1, 250), between(random, 1, 250));
    Order { receiver, sender, number, value: value(random) }
}

/// The writer's frame.
pub fn frame(order: Order) -> Vec<u8> {
    display::frame(order.value, order.receiver, order.sender, order.number).unwrap_or_default()
}

/// What stands between the marks of an order with this info, these ports and these data, without check values.
fn content(order: Order, info: u8, ports: [u8; 2], data: &[u8]) -> Vec<u8> {
    let mut content = vec![order.receiver, order.sender, info, order.number, 128, 128, ports[0], ports[1]];
    content.extend(packing::pack(data));
    restate(Wire::Pcs, &mut content);
    content
}

/// Zeros in front, too many digits or none, another word or none, another byte in it or behind it.
fn other_data(random: &mut Xorshift, value: u32) -> Vec<u8> {
    let mut data = display::data(value);
    let place = random.below(data.len());
    match random.below(12) {
        0 | 1 => (0..1 + random.below(8)).for_each(|_| data.insert(5, b'0')),
        2 => data.resize(5 + 9 + random.below(3), b'0' + random.below(10) as u8),
        3 => data.truncate(if random.once_in(2) { 5 } else { random.below(5) }),
        4 | 5 => data[place] ^= random.pick(&[1, 2, 8, 16, 32, 128]),
        6 | 7 => data[place] = random.pick(&[b'/', b'/', b':', b':', b' ', b'-', 0, 128]),
        8 => {
            data.remove(place);
        }
        9 => data.insert(place, data[place]),
        10 => data = data.split_off(5),
        _ => data.push(random.pick(b" \0\n5")),
    }
    data
}

/// Another kind, other ports, a CRC; the data of an order, or none.
fn other_fields(random: &mut Xorshift, order: Order) -> Vec<u8> {
    let data = display::data(order.value);
    let (mut info, mut ports) = (5, [1, 1]);
    match random.below(4) {
        0 => info = random.pick(&[4, 12, 13, 13]),
        1 => ports[random.below(2)] = between(random, 2, 250),
        2 => return content(order, random.pick(&[5, 6, 7, 13, 14, 15]), ports, &[]),
        _ => (info, ports) = (random.pick(&[4, 5, 12, 13]), [between(random, 1, 3), between(random, 1, 3)]),
    }
    content(order, info, ports, &data)
}

/// An order with something in front of it, behind it, cut off or damaged.
fn other_bytes(random: &mut Xorshift, order: Order) -> Vec<u8> {
    let mut bytes = frame(order);
    let other = random.pick(&[0, 5, 128, 253, 254, 255]);
    match random.below(8) {
        0 => bytes.insert(0, other),
        1 => bytes.push(other),
        2 => bytes.truncate(random.below(bytes.len())),
        3 => bytes.extend_from_within(..),
        4 => bytes.insert(random.below(bytes.len()), 253),
        _ => damage(random, &mut bytes, 0),
    }
    bytes
}

/// So many digits that the data are as long as PCS sends, or too long.
fn long_data(random: &mut Xorshift) -> Vec<u8> {
    let mut data = display::data(0);
    data.resize(1022 + random.below(8), b'7');
    data
}

/// A frame that is not an order, or hardly one: something of it is changed, and then mostly the check values are right.
pub fn nearly(random: &mut Xorshift, order: Order) -> Vec<u8> {
    match random.below(16) {
        0..=4 => close(Wire::Pcs, &content(order, 5, [1, 1], &other_data(random, order.value))),
        5..=8 => close(Wire::Pcs, &other_fields(random, order)),
        9 | 10 => {
            // A byte of the header or of the packed data, for 9, 10 and 13, or two for their order.
            let mut bytes = content(order, random.pick(&[5, 5, 13]), [1, 1], &display::data(order.value));
            for _ in 0..1 + random.below(2) {
                let place = random.below(bytes.len());
                bytes[place] = edge(random);
            }
            close(Wire::Pcs, &bytes)
        }
        11..=14 => other_bytes(random, order),
        _ if random.once_in(3) => close(Wire::Pcs, &content(order, 5, [1, 1], &long_data(random))),
        _ => run(random, Wire::Pcs),
    }
}

#[cfg(test)]
mod tests {
    use super::*;

    #[test]
    fn orders_are_sent_and_numbers_at_their_edges_are_among_them() {
        let mut random = Xorshift::new(1);
        let values: Vec<u32> = (0..4000).map(|_| value(&mut random)).collect();
        assert!(values.iter().all(|value| *value <= display::MOST));
        for edge in [0, 9, 10, 99, 100, 999, 1000, 9_999_999, 10_000_000, display::MOST] {
            assert!(values.contains(&edge), "{edge}");
        }
        for _ in 0..500 {
            let order = order(&mut random);
            assert_eq!(display::read(&frame(order), &mut [0; 1183]), Ok(order));
        }
    }

    /// Most are outside the profile, and the others are refused or orders.
    #[test]
    fn nearly_orders() {
        let mut random = Xorshift::new(2);
        let mut seen = [0; 22];
        for _ in 0..4000 {
            let order = order(&mut random);
            let run = nearly(&mut random, order);
            seen[display::read(&run, &mut [0; 1183]).err().unwrap_or(0) as usize] += 1;
        }
        for number in [4, 5, 6, 8, 9, 10, 13] {
            assert!(seen[number] > 10, "{number}: {seen:?}");
        }
        assert!(seen[21] > 1200 && seen[0] > 100 && seen[0] < 1000, "{seen:?}");
    }
}
