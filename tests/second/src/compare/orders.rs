//! What the calls of the queue display are made with.

use super::{field, room, Call};
use crate::display;
use crate::gen::{self, Wire, Xorshift};

/// The numbers are the four bytes of the value, receiver, sender and number.
pub fn write_call(random: &mut Xorshift, function: usize) -> Call {
    let value = gen::display::any_value(random);
    let receiver = if random.once_in(6) { 255 } else { field(random, 1, 250) };
    let (sender, number) = (field(random, 1, 250), field(random, 1, 250));
    let exact = display::frame(value, receiver, sender, number).map(|frame| frame.len());
    let numbers = [&value.to_be_bytes()[..], &[receiver, sender, number]].concat();
    Call { function, numbers, input: Vec::new(), lent: room(random, exact) }
}

/// An order, something like one, or anything on the line.
pub fn run(random: &mut Xorshift) -> Vec<u8> {
    let order = gen::display::order(random);
    match random.below(8) {
        0 | 1 => gen::display::frame(order),
        2 => gen::run(random, Wire::Pcs),
        _ => gen::display::nearly(random, order),
    }
}

pub fn shown_call(random: &mut Xorshift, function: usize) -> Call {
    let value = gen::display::any_value(random);
    Call { function, numbers: value.to_be_bytes().to_vec(), input: Vec::new(), lent: 0 }
}

/// Mistaken answers, each by its number, which the comparison must find.
#[cfg(test)]
pub mod mistaken {
    use crate::compare::{writer_answer, Host, Own};
    use crate::display::{self, Order};
    use crate::pcs::{self, Pcs};
    use crate::stream;
    use crate::whole;

    pub const COUNT: u8 = 46;

    pub fn write(case: u8, value: u32, f: [u8; 3], out: &mut [u8]) -> i32 {
        let own = |value, f, out: &mut [u8]| Own.display_write(value, f, out);
        // As PCS sends any text, kind, port and CRC.
        let sent = |text: String, kind, port, crc, out: &mut [u8]| {
            let data = format!("CLCSH{text}");
            writer_answer(pcs::write(f[0], f[1], kind, f[2], 1, port, crc, data.as_bytes(), out))
        };
        let fits = value <= display::MOST;
        match case {
            0 if !fits => own(value % (display::MOST + 1), f, out),
            1 if !fits && out.len() < 18 => -2, // 2 before 3
            2 if value == display::MOST => -3,
            3 if f[0] == 255 => -3,
            4 if fits => sent(value.to_string(), 1, 1, true, out),
            5 if fits => sent(value.to_string(), 0, 1, false, out),
            6 if fits => sent(value.to_string(), 1, 2, false, out),
            7 if fits => sent(format!("{value:03}"), 1, 1, false, out),
            8 if fits && value % 1000 != value => sent(format!("{:03}", value % 1000), 1, 1, false, out), // only what is shown
            9 if value == 0 => sent(String::new(), 1, 1, false, out),
            10 if fits => sent(value.to_string().chars().rev().collect(), 1, 1, false, out),
            11 => own(value, [f[0], f[2], f[1]], out),
            12 => own(value, [f[1], f[0], f[2]], out),
            13 => {
                let answer = own(value, f, out);
                if answer > 0 && out.len() > answer as usize {
                    out[answer as usize] = 0; // a byte after the frame
                }
                answer
            }
            14 => {
                let answer = own(value, f, out);
                if answer == -2 && !out.is_empty() {
                    out[0] = 253; // writes although refused
                }
                answer
            }
            _ => own(value, f, out),
        }
    }

    /// A PCS message outside the profile as a lenient reader takes it.
    fn lenient(case: u8, frame: &[u8]) -> Option<u64> {
        let mut store = vec![0; 1183];
        let mut m = whole::message::<Pcs>(frame, &mut store).ok()?;
        let mut data = stream::data::<Pcs>(&store, &m).to_vec();
        match case {
            15 => m.crc = false,
            16 => m.kind = 1,
            17 => m.sender_port = 1,
            18 => m.receiver_port = 1,
            19 => while data.len() > 6 && data[5] == b'0' {
                data.remove(5);
            },
            20 if data.len() == 14 && data[5..].iter().all(u8::is_ascii_digit) => data.truncate(13), // nine digits
            21 if data == b"CLCSH" => data.push(b'0'),
            22 if data.len() > 5 => data[..5].make_ascii_uppercase(),
            23 if data.len() > 5 => data[4] = b'H',
            24 => data.iter_mut().for_each(|byte| *byte &= 127),
            25 => data.iter_mut().skip(5).filter(|byte| **byte == b':').for_each(|byte| *byte = b'9'),
            26 => data.iter_mut().skip(5).filter(|byte| **byte == b'/').for_each(|byte| *byte = b'1'),
            27 => while data.len() > 6 && data.last().is_some_and(|last| !last.is_ascii_digit()) {
                data.pop(); // what stands behind the digits
            },
            28 => data = [b"CLCSH", &data[..]].concat(), // no word at all
            _ => return None,
        }
        let frame = pcs::frame(m.receiver, m.sender, m.kind, m.number, m.sender_port, m.receiver_port, m.crc, &data).ok()?;
        Some(Own.display_read(&frame, &mut store))
    }

    pub fn read(case: u8, frame: &[u8], store: &mut [u8]) -> u64 {
        let before = store.to_vec();
        let answer = Own.display_read(frame, store);
        let order = display::read(frame, &mut [0; 1183]).ok();
        match (case, answer, order) {
            (15..=28, 21, _) => lenient(case, frame).unwrap_or(21),
            (29, 21, _) => 9,
            (30, 13, _) => 21, // the profile before the packing
            (31, 1, None) if whole::message::<Pcs>(frame, &mut [0; 1183]).is_ok() => 21, // 21 before 1
            (32, _, Some(Order { receiver: 255, .. })) if answer != 1 => 21,
            (33, _, Some(o)) if answer != 1 => Order { receiver: o.sender, sender: o.receiver, ..o }.answer(),
            (34, _, Some(o)) if answer != 1 => Order { value: o.value % 65_536, ..o }.answer(),
            (35, _, Some(Order { value: 0, .. })) if answer != 1 => 21,
            (36, _, Some(Order { value: 10_000_000.., .. })) if answer != 1 => 21,
            (37, 21, _) => 21 | 101 << 8,
            (38, 21, _) => {
                store.copy_from_slice(&before); // what a refusal leaves taken back
                answer
            }
            _ => answer,
        }
    }

    pub fn shown(case: u8, value: u32) -> u32 {
        let places = |text: String| text.bytes().rev().take(3).fold(0, |places, byte| places << 8 | byte as u32);
        match case {
            39 => places(format!("{value:03}")),
            40 => places(format!("{:>3}", value % 1000)), // zeros in front dropped
            41 => Own.display_shown(value).swap_bytes() >> 8,
            42 => Own.display_shown(value) | 32 << 24,
            43 if value > display::MOST => places(String::from("   ")),
            44 if value == 0 => places(String::from("   ")),
            45 => Own.display_shown(value % 65_536),
            _ => Own.display_shown(value),
        }
    }
}
