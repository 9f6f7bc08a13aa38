//! Each receiver's marks and codes, and its tests at the end in their order.

use super::{event, fresh};
use crate::dle::{self, Dle};
use crate::expansion::Expansion;
use crate::gen::{self, Wire};
use crate::mdu::{self, Mdu};
use crate::pcs::{self, Pcs};
use crate::stream::{Event, Link, State};

/// A PCS frame from its gathered bytes, the sum put right, and the CRC where the info asks for it.
fn judged(content: &[u8]) -> Event<pcs::Message> {
    event::<Pcs>(&gen::close(Wire::Pcs, content))
}

#[test]
fn pcs_info() {
    for info in 0..=252u8 {
        let expected = match info {
            4..=7 | 12..=15 => None,
            _ => Some(9),
        };
        match (judged(&[1, 1, info, 1, 128, 128, 1, 1]), expected) {
            (Event::Message(message), None) => {
                assert_eq!((message.kind, message.crc), if info < 8 { (info - 4, false) } else { (info - 12, true) })
            }
            (Event::Refused(number), Some(wanted)) => assert_eq!(number, wanted),
            (other, _) => panic!("info {info}: {other:?}"),
        }
    }
}

/// 128 is an ordinary address, not a 0.
#[test]
fn pcs_fields() {
    for place in [0, 1, 3, 6, 7] {
        let values = (0..=255u8).filter(|value| *value != 253 && *value != 254);
        for (value, info) in values.flat_map(|value| [(value, 4), (value, 12)]) {
            let mut content = [1, 1, info, 1, 128, 128, 1, 1];
            content[place] = value;
            let fine = (1..=250).contains(&value) || (place == 0 && value == 255);
            match judged(&content) {
                Event::Message(message) => {
                    assert!(fine);
                    let fields = Pcs::fields(&message);
                    assert_eq!(fields[[0, 1, 9, 3, 9, 9, 4, 5][place]], value);
                }
                other => assert!(!fine && other == Event::Refused(9)),
            }
        }
    }
    for length in [[0, 128], [129, 128], [128, 0], [128, 129], [255, 1]] {
        assert_eq!(judged(&[1, 1, 4, 1, length[0], length[1], 1, 1]), Event::Refused(9));
        assert_eq!(judged(&[1, 1, 12, 1, length[0], length[1], 1, 1]), Event::Refused(9));
    }
}

#[test]
fn pcs_end_tests_in_order() {
    // 6 before 8, 8 before 9.
    assert_eq!(event::<Pcs>(&[253, 1, 1, 4, 1, 128, 128, 1, 25, 254]), Event::Refused(6));
    assert_eq!(event::<Pcs>(&[253, 0, 1, 4, 1, 128, 128, 1, 1, 0, 254]), Event::Refused(8));
    assert_eq!(judged(&[1, 1, 6, 1, 128, 2, 1, 1]), Event::Refused(9)); // stated, though none present
    assert_eq!(judged(&[1, 1, 6, 1, 128, 128, 1, 1, 5, 128]), Event::Refused(10));
    assert_eq!(judged(&[1, 1, 4, 1, 128, 2, 1, 1, 129]), Event::Refused(10)); // 10 before 13
    assert_eq!(judged(&[1, 1, 4, 1, 128, 1, 1, 1, 5]), Event::Refused(13));
    assert_eq!(judged(&[1, 1, 4, 1, 128, 2, 1, 1, 129, 128]), Event::Refused(13));
    assert_eq!(judged(&[1, 1, 4, 1, 128, 2, 1, 1, 5, 2]), Event::Refused(13));
}

#[test]
fn pcs_marks_and_size() {
    // 254 while hunting is noise; 253 while open gives 4 and opens.
    let (received, _) = fresh::<Pcs>(&[254, 7, 253, 1, 2, 253, 9]);
    assert_eq!(received.event, Event::Refused(4));
    assert_eq!((received.used, received.state), (6, State { mode: 1, count: 0, length: 0, open: 1, noise: 2 }));
    let mut long = vec![253];
    long.extend([1u8; 1183]);
    assert_eq!(event::<Pcs>(&long), Event::Nothing);
    long.push(1);
    let (received, store) = fresh::<Pcs>(&long);
    assert_eq!(received.event, Event::Refused(5));
    assert_eq!(received.state, State::default());
    assert!(store.iter().all(|byte| *byte == 1));
}

#[test]
fn mdu_header_tests_in_order() {
    let header = |bytes: [u8; 6]| {
        let (received, store) = fresh::<Mdu>(&bytes);
        assert_eq!(&store[..6], &bytes);
        assert_eq!(received.used, 6);
        received.event
    };
    assert_eq!(header([0xE3, 2, 0, 0, 1, 0]), Event::Refused(9)); // before 8 and 10
    assert_eq!(header([0xE3, 1, 0, 0, 0, 0]), Event::Refused(9));
    assert_eq!(header([0xE3, 1, 0, 0, 1, 0]), Event::Refused(8)); // before 10
    assert_eq!(header([0xE3, 1, 0, 0, 1, 0xE5]), Event::Refused(10));
    assert_eq!(header([0xE3, 1, 0, 1, 1, 0xE6]), Event::Nothing);
    assert_eq!(event::<Mdu>(&[0xE3, 1, 0, 1, 0x33, 0x18, 0x31, 0xD4, 0xC0]), Event::Refused(8));
    // Once a frame is open, E3 starts nothing.
    let frame = mdu::frame(0xE3, &[0xE3, 0xE3]).unwrap();
    assert_eq!(event::<Mdu>(&frame), Event::Message(mdu::Message { address: 0xE3, length: 2 }));
}

#[test]
fn dle_pairs() {
    // Hunting, 10 10 is two bytes of noise, so this 02 opens nothing.
    let (received, _) = fresh::<Dle>(&[0x10, 0x10, 0x02, 0x10]);
    assert_eq!(received.event, Event::Nothing);
    assert_eq!(received.state, State { mode: 1, count: 0, length: 0, open: 1, noise: 3 });
    let (received, _) = fresh::<Dle>(&[0x10, 2, 5, 0x10, 2]);
    assert_eq!(received.event, Event::Refused(4));
    assert_eq!(received.state, State { mode: 2, count: 0, length: 0, open: 2, noise: 0 });
    assert_eq!(event::<Dle>(&[0x10, 2, 5, 0x10, 4]), Event::Refused(7));
    let error = dle::error_frame(1, 0x10, 0x10);
    let message = dle::Message { sequence: 1, node: 0x10, error: Some(0x10), length: 0 };
    assert_eq!(event::<Dle>(&error), Event::Message(message));
    assert_eq!(event::<Dle>(&[0x10, 2, 1, 2, 0, 4, 5, 0x10, 3]), Event::Refused(10));
    assert_eq!(event::<Dle>(&[0x10, 2, 1, 2, 1, 4, 5, 0x10, 3]), Event::Refused(10));
    // Full: an ordinary byte or a doubled 10 is one too many, a wrong pair is 7, the end is the end.
    let mut full = vec![0x10, 2];
    full.extend([5u8; 258]);
    let with = |more: &[u8]| event::<Dle>(&[&full[..], more].concat());
    assert_eq!(with(&[5]), Event::Refused(5));
    assert_eq!(with(&[0x10]), Event::Nothing);
    assert_eq!(with(&[0x10, 0x10]), Event::Refused(5));
    assert_eq!(with(&[0x10, 0x05]), Event::Refused(7));
    assert_eq!(with(&[0x10, 0x02]), Event::Refused(4));
    assert_eq!(with(&[0x10, 0x03]), Event::Refused(10));
}

#[test]
fn expansion_pairs() {
    assert_eq!(event::<Expansion>(&[0xFD, 1, 0xFF, 0xFE]), Event::Refused(7));
    assert_eq!(event::<Expansion>(&[0xFD, 1, 0xFF, 0xFF]), Event::Refused(7));
    assert_eq!(event::<Expansion>(&[0xFD, 1, 0xFF, 3]), Event::Refused(7));
    assert_eq!(event::<Expansion>(&[0xFD, 1, 0xFF, 0xFD]), Event::Refused(4));
    assert_eq!(event::<Expansion>(&[0xFE, 0xFF, 0x00]), Event::Nothing);
    let closed = |content: &[u8]| event::<Expansion>(&gen::close(Wire::Expansion, content));
    assert_eq!(closed(&[1, 3, 0, 0]), Event::Refused(9));
    assert_eq!(closed(&[1, 0, 4, 0]), Event::Refused(9));
    assert_eq!(closed(&[1, 1, 0, 0, 9]), Event::Refused(9));
    assert_eq!(closed(&[1, 2, 0, 0, 9]), Event::Refused(9));
    assert!(matches!(closed(&[0xFF, 0, 3, 0xFD, 0xFE]), Event::Message(m) if m.length == 1 && m.address == 0xFD));
    assert_eq!(closed(&[1, 2, 3]), Event::Refused(6));
    assert_eq!(event::<Expansion>(&[0xFD, 1, 3, 0, 0, 1, 2, 3, 4, 0xFE]), Event::Refused(8)); // before 9
    let mut full = vec![0xFD];
    full.extend([5u8; 1032]);
    let with = |more: &[u8]| event::<Expansion>(&[&full[..], more].concat());
    assert_eq!(with(&[5]), Event::Refused(5));
    assert_eq!(with(&[0xFF]), Event::Nothing);
    assert_eq!(with(&[0xFF, 0]), Event::Refused(5));
    assert_eq!(with(&[0xFF, 9]), Event::Refused(7));
    assert_eq!(with(&[0xFE]), Event::Refused(8));
}
