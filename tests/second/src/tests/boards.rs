//! PCS with CRC (02, request 2): the frame, the order of the tests at the end, the edges of both sorts.

use super::{event, fresh, ACKNOWLEDGEMENT, DISPLAY, DISPLAY_WITH_CRC, FILL};
use crate::crc;
use crate::gen::{self, Wire, Xorshift};
use crate::pcs::{self, Pcs};
use crate::stream::{self, Event, State};

/// These bytes between the marks.
fn between(gathered: &[u8]) -> Event<pcs::Message> {
    event::<Pcs>(&[&[253], gathered, &[254]].concat())
}

/// A frame's bytes between its marks.
fn gathered(frame: &[u8]) -> Vec<u8> {
    frame[1..frame.len() - 1].to_vec()
}

/// A body with the check bytes of its sort, one of them changed.
fn wrong(body: &[u8], place: usize) -> Vec<u8> {
    let mut checks = pcs::checks(body, pcs::has_crc(body));
    checks[place] ^= 1;
    [body, &checks].concat()
}

/// A body closed as its info asks, all checks right.
fn right(body: &[u8]) -> Vec<u8> {
    [body, &pcs::checks(body, pcs::has_crc(body))].concat()
}

#[test]
fn document_000_with_crc() {
    assert_eq!(pcs::frame(101, 250, 1, 2, 1, 1, true, b"CLCSH12345").unwrap(), DISPLAY_WITH_CRC);
    let (received, store) = fresh::<Pcs>(&DISPLAY_WITH_CRC);
    let message =
        pcs::Message { receiver: 101, sender: 250, kind: 1, number: 2, sender_port: 1, receiver_port: 1, crc: true, length: 10 };
    assert_eq!((received.used, received.state, received.event), (26, State::default(), Event::Message(message)));
    assert_eq!(stream::data::<Pcs>(&store, &message), b"CLCSH12345");
    assert_eq!(&store[10..24], &DISPLAY_WITH_CRC[11..25]);
    assert!(store[24..].iter().all(|byte| *byte == FILL));
    // The value whose parts stand behind the sum, and MDU's routine with its start 0.
    assert_eq!(crc::crc16(0, &DISPLAY_WITH_CRC[1..21]), 16384 + 117 * 128 + 124);
}

/// The field is part of the message, and nothing else of it differs.
#[test]
fn both_sorts_of_a_message() {
    for kind in 0..4 {
        let messages = [false, true].map(|crc| {
            let frame = pcs::frame(250, 101, kind, 2, 3, 4, crc, b"").unwrap();
            assert_eq!(frame[3], if crc { 12 + kind } else { 4 + kind });
            match event::<Pcs>(&frame) {
                Event::Message(message) => message,
                other => panic!("{other:?}"),
            }
        });
        assert_ne!(messages[0], messages[1]);
        assert_eq!(messages[0], pcs::Message { crc: false, ..messages[1] });
    }
    assert_eq!(pcs::frame(1, 1, 2, 1, 1, 1, true, b"a"), Err(3));
    assert_eq!(pcs::frame(1, 1, 3, 1, 1, 1, true, b"a"), Err(3));
}

#[test]
fn longest_frame() {
    let frame = pcs::frame(1, 2, 0, 3, 4, 5, true, &[0xFF; 1024]).unwrap();
    assert_eq!(frame.len(), 1185);
    assert!(matches!(event::<Pcs>(&frame), Event::Message(m) if m.crc && m.length == 1024));
    assert_eq!(pcs::frame(1, 2, 0, 3, 4, 5, true, &[0xFF; 1025]), Err(3));
    let mut out = [FILL; 1186];
    assert_eq!(pcs::write(1, 2, 0, 3, 4, 5, true, &[0xFF; 1024], &mut out[..1184]), Err(2));
    assert_eq!(pcs::write(0, 2, 0, 3, 4, 5, true, &[0xFF; 1024], &mut out[..1184]), Err(3));
    assert!(out.iter().all(|byte| *byte == FILL));
    assert_eq!(pcs::write(1, 2, 0, 3, 4, 5, true, &[0xFF; 1024], &mut out), Ok(1185));
    assert_eq!((&out[..1185], out[1185]), (&frame[..], FILL));
}

/// Each frame fails two neighbouring tests, and the first of them tells. No frame fails both 6 and 5.
#[test]
fn end_tests_in_order() {
    // 6 before 8: eleven bytes with CRC, nine of a plain frame with its right sum and with a wrong one.
    assert_eq!(between(&[1, 1, 12, 1, 128, 128, 1, 1, 17]), Event::Refused(6));
    assert_eq!(between(&[1, 1, 12, 1, 128, 128, 1, 1, 16]), Event::Refused(6));
    assert_eq!(between(&[1, 1, 12, 1, 128, 128, 1, 1, 17, 4, 112]), Event::Refused(6));
    assert_eq!(between(&[1, 1, 4, 1, 128, 128, 1, 1]), Event::Refused(6));
    // 5 before 8.
    let plain = [&[1, 1, 4, 1, 9, 20, 1, 1][..], &[5; 1172]].concat();
    assert_eq!(between(&wrong(&plain, 0)), Event::Refused(5));
    // 8 before 9, for either value and in both sorts.
    assert_eq!(between(&wrong(&[0, 1, 4, 1, 128, 128, 1, 1], 0)), Event::Refused(8));
    for place in 0..4 {
        assert_eq!(between(&wrong(&[0, 1, 12, 1, 128, 128, 1, 1], place)), Event::Refused(8));
    }
    // 9 before 10, 10 before 13.
    for info in [4, 12] {
        assert_eq!(between(&right(&[0, 1, info, 1, 128, 2, 1, 1])), Event::Refused(9));
        assert_eq!(between(&right(&[1, 1, info + 2, 1, 128, 3, 1, 1, 5, 128])), Event::Refused(9));
        assert_eq!(between(&right(&[1, 1, info, 1, 128, 2, 1, 1, 129])), Event::Refused(10));
        assert_eq!(between(&right(&[1, 1, info, 1, 128, 1, 1, 1, 129])), Event::Refused(13));
    }
}

#[test]
fn least_sizes() {
    let frame = pcs::frame(1, 1, 0, 1, 1, 1, true, b"").unwrap();
    for n in 0..12 {
        assert_eq!(between(&frame[1..=n]), Event::Refused(6));
    }
    assert!(matches!(between(&frame[1..=12]), Event::Message(m) if m.crc));
    // Nine to eleven bytes with a last one that were a plain frame's sum.
    for length in 8..11 {
        let body = [1, 1, 13, 1, 128, 128, 1, 1, 5, 128];
        assert_eq!(between(&[&body[..length], &[crate::sum::pcs(&body[..length])]].concat()), Event::Refused(6));
    }
}

/// A body of `length` packed bytes, well packed where they can be.
fn body(info: u8, length: usize) -> Vec<u8> {
    let mut body = vec![1, 2, info, 3, (length / 128) as u8, (length % 128) as u8, 4, 5];
    body.extend((0..length).map(|k| if k + 1 == length { 64 } else { 5 }));
    body
}

#[test]
fn sizes_at_the_edge() {
    // Plain: 1,171 packed bytes are 1,180 gathered ones.
    assert!(matches!(between(&right(&body(4, 1171))), Event::Message(m) if m.length == 1024 && !m.crc));
    assert_eq!(between(&wrong(&body(4, 1171), 0)), Event::Refused(8));
    for length in 1172..=1174 {
        for info in (0..=252).filter(|info| !(12..=15).contains(info)) {
            assert_eq!(between(&right(&body(info, length))), Event::Refused(5));
        }
        assert_eq!(between(&wrong(&body(4, length), 0)), Event::Refused(5));
    }
    // With CRC: 1,168 packed bytes are 1,180 gathered ones.
    for (length, data) in [(1168, 1022), (1170, 1023), (1171, 1024)] {
        assert!(matches!(between(&right(&body(12, length))), Event::Message(m) if m.length == data && m.crc));
        for place in 0..4 {
            assert_eq!(between(&wrong(&body(12, length), place)), Event::Refused(8));
        }
    }
    assert_eq!(between(&right(&body(12, 1169))), Event::Refused(13));
    // Byte 1,184 is one too many in either sort, whatever follows.
    for (info, length) in [(4, 1175), (12, 1172)] {
        let frame = [&[253], &right(&body(info, length))[..], &[254]].concat();
        let (received, store) = fresh::<Pcs>(&frame);
        assert_eq!((received.used, received.state, received.event), (1185, State::default(), Event::Refused(5)));
        assert_eq!(store, &frame[1..1184]);
    }
}

/// Compared as sent: where 128 stands for a part that is 0, a 0 is 8.
#[test]
fn zero_parts() {
    let all = [1, 2, 12, 169, 128, 128, 203, 1];
    assert_eq!(pcs::checks(&all, true), [132, 128, 128, 128]);
    assert!(matches!(between(&right(&all)), Event::Message(_)));
    for place in 9..12 {
        let mut bytes = right(&all);
        bytes[place] = 0;
        assert_eq!(between(&bytes), Event::Refused(8));
    }
}

/// Mistaken ways to make the three bytes are 8.
#[test]
fn mistaken_crcs() {
    let good = gathered(&DISPLAY_WITH_CRC);
    let (body, checks) = good.split_at(20);
    let with_crc = |crc: [u8; 3]| between(&[body, &checks[..1], &crc].concat());
    assert!(matches!(with_crc([124, 117, 1]), Event::Message(_)));
    assert_eq!(with_crc([1, 117, 124]), Event::Refused(8));
    assert_eq!(with_crc(pcs::crc_bytes(&good[..21])), Event::Refused(8)); // over the sum too
    assert_eq!(with_crc(pcs::crc_bytes(&[&body[..8], b"CLCSH12345"].concat())), Event::Refused(8)); // over unpacked data
    assert_eq!(with_crc(pcs::crc_bytes(&body[8..])), Event::Refused(8));
    assert_eq!(between(&[body, &checks[1..], &checks[..1]].concat()), Event::Refused(8));
}

#[test]
fn info_of_the_other_sort() {
    // The check bytes as they were.
    let mut frame = DISPLAY;
    frame[3] = 13;
    assert_eq!(event::<Pcs>(&frame), Event::Refused(8));
    let mut frame = DISPLAY_WITH_CRC;
    frame[3] = 5;
    assert_eq!(event::<Pcs>(&frame), Event::Refused(8));
    let mut frame = ACKNOWLEDGEMENT;
    frame[3] = 14;
    assert_eq!(event::<Pcs>(&frame), Event::Refused(6));
    // As a plain frame with a right sum it has three bytes more than it states.
    let mut plain = gathered(&DISPLAY_WITH_CRC);
    plain[2] = 5;
    plain[23] = crate::sum::pcs(&plain[..23]);
    assert_eq!(between(&plain), Event::Refused(10));
}

/// The withdrawn number is told by no stream.
#[test]
fn never_11() {
    let mut random = Xorshift::new(12);
    for _ in 0..3000 {
        let run = gen::run(&mut random, Wire::Pcs);
        let (mut rest, mut state, mut store) = (&run[..], State::default(), [FILL; 1183]);
        while !rest.is_empty() {
            let received = stream::receive::<Pcs>(rest, state, &mut store);
            assert_ne!(received.event, Event::Refused(11));
            state = received.state;
            rest = &rest[received.used..];
        }
    }
    for info in 0..=252 {
        for length in 0..30 {
            let body = [&[1, 1, info, 1, 128, 128, 1, 1][..], &[5; 22]].concat();
            assert_ne!(between(&body[..length]), Event::Refused(11));
            assert_ne!(between(&right(&body[..length])), Event::Refused(11));
        }
    }
}
