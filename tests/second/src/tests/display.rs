//! The queue display (02, request 5): writer, reader, places shown, and what the display end takes.

use super::{fresh as received, ACKNOWLEDGEMENT, DISPLAY, DISPLAY_WITH_CRC, FILL};
use crate::display::{self, Display, Order};
use crate::gen::{self, Wire, Xorshift};
use crate::pcs::{self, Pcs};
use crate::whole;

/// Document 000's order.
const ORDER: Order = Order { receiver: 101, sender: 250, number: 2, value: 12_345 };

fn read(run: &[u8]) -> Result<Order, u8> {
    display::read(run, &mut [FILL; 1183])
}

/// A frame of the profile but for its data.
fn with_data(data: &[u8]) -> Vec<u8> {
    pcs::frame(101, 250, 1, 2, 1, 1, false, data).unwrap()
}

/// A frame with a number, from sender 250.
fn order(receiver: u8, number: u8, value: u32) -> Vec<u8> {
    display::frame(value, receiver, 250, number).unwrap()
}

/// What a display answers, and the answer; no byte behind it is written.
fn take(display: &mut Display, run: &[u8]) -> Result<Option<Vec<u8>>, u8> {
    let mut out = [FILL; 20];
    let taken = display.take(run, &mut [FILL; 1183], &mut out);
    let length = taken.unwrap_or_default().unwrap_or_default();
    assert!(out[length..].iter().all(|byte| *byte == FILL));
    taken.map(|answer| answer.map(|length| out[..length].to_vec()))
}

#[test]
fn document_000_second_example() {
    assert_eq!(display::frame(12_345, 101, 250, 2).unwrap(), DISPLAY);
    assert_eq!(read(&DISPLAY), Ok(ORDER));
    let mut end = display::fresh(101);
    assert_eq!(take(&mut end, &DISPLAY), Ok(Some(ACKNOWLEDGEMENT.to_vec())));
    assert_eq!(end, Display { own: 101, last: Some((250, 2)), places: *b"345" });
    // The answer is a PCS message, and no order.
    assert_eq!(read(&ACKNOWLEDGEMENT), Err(21));
    let message = whole::message::<Pcs>(&ACKNOWLEDGEMENT, &mut [FILL; 1183]).unwrap();
    assert_eq!((message.kind, message.receiver, message.sender, message.number, message.crc), (2, 250, 101, 2, false));
}

#[test]
fn the_places_shown() {
    let examples: [(u32, &[u8; 3]); 12] = [
        (0, b"  0"),
        (7, b"  7"),
        (9, b"  9"),
        (10, b" 10"),
        (45, b" 45"),
        (99, b" 99"),
        (100, b"100"),
        (345, b"345"),
        (1000, b"000"),
        (1005, b"005"),
        (12_345, b"345"),
        (99_999_999, b"999"),
    ];
    for (value, places) in examples {
        assert_eq!(&display::shown(value), places, "{value}");
    }
    // Above what can be sent, the last three too.
    assert_eq!(&display::shown(100_000_000), b"000");
    assert_eq!(&display::shown(u32::MAX), b"295");
    assert_eq!(display::fresh(7), Display { own: 7, last: None, places: *b"   " });
}

#[test]
fn written_reads_back() {
    let mut random = Xorshift::new(21);
    for _ in 0..2000 {
        let digits = 1 + random.below(8) as u32;
        let value = random.below(10usize.pow(digits)) as u32;
        let receiver = if random.once_in(4) { 255 } else { gen::between(&mut random, 1, 250) };
        let (sender, number) = (gen::between(&mut random, 1, 250), gen::between(&mut random, 1, 250));
        let frame = display::frame(value, receiver, sender, number).unwrap();
        assert_eq!(read(&frame), Ok(Order { receiver, sender, number, value }));
    }
}

/// The longest frame has 26 bytes: two marks, eight of header, thirteen of data packed into fifteen, the sum.
#[test]
fn writer_refuses_3_then_2() {
    let mut out = [FILL; 30];
    for value in [display::MOST + 1, u32::MAX] {
        assert_eq!(display::write(value, 101, 250, 2, &mut out), Err(3));
        assert_eq!(display::write(value, 101, 250, 2, &mut out[..0]), Err(3));
        assert_eq!(display::write(value, 0, 0, 0, &mut out), Err(3));
    }
    for (receiver, sender, number) in
        [(0, 250, 2), (251, 250, 2), (254, 250, 2), (101, 0, 2), (101, 251, 2), (101, 255, 2), (101, 250, 0), (101, 250, 251)]
    {
        assert_eq!(display::write(1, receiver, sender, number, &mut out), Err(3));
        assert_eq!(display::write(1, receiver, sender, number, &mut out[..0]), Err(3));
    }
    assert_eq!(display::write(display::MOST, 101, 250, 2, &mut out[..25]), Err(2));
    assert_eq!(display::write(0, 101, 250, 2, &mut out[..0]), Err(2));
    assert!(out.iter().all(|byte| *byte == FILL));
    assert_eq!(display::write(display::MOST, 101, 250, 2, &mut out), Ok(26));
    assert!(out[26..].iter().all(|byte| *byte == FILL));
    let lengths = [0, 10, 100, 1000, 10_000, 100_000, 1_000_000, 10_000_000].map(|value| order(255, 1, value).len());
    assert_eq!(lengths, [18, 19, 21, 22, 23, 24, 25, 26]);
}

/// Data beside `CLCSH` and a number without zeros in front.
#[test]
fn outside_by_data() {
    for data in [&b"CLCSH0"[..], b"CLCSH9", b"CLCSH10", b"CLCSH99999999"] {
        assert!(read(&with_data(data)).is_ok());
    }
    let outside: [&[u8]; 20] = [
        b"",
        b"CLCS",
        b"CLCSH",
        b"CLCSH007",
        b"CLCSH00",
        b"CLCSH01234567",
        b"CLCSH123456789",
        b"CLCSH000000001",
        b"CLCSH0000000000000001",
        b"CLCSH12345 ",
        b"CLCSH 12345",
        b"CLCSH12:45",
        b"CLCSH12/45",
        b"CLCSH-1",
        b"CLCSH1\xB1",
        b"CLCSI12345",
        b"clcsh12345",
        b"\xC3LCSH12345",
        b"12345",
        b"12345CLCSH",
    ];
    for data in outside {
        assert_eq!(read(&with_data(data)), Err(21), "{data:?}");
    }
}

/// Kind, ports and CRC, each by itself.
#[test]
fn outside_by_fields() {
    assert_eq!(read(&DISPLAY_WITH_CRC), Err(21));
    for (kind, sender_port, receiver_port) in [(0, 1, 1), (1, 2, 1), (1, 250, 1), (1, 1, 2), (1, 1, 250), (0, 2, 2)] {
        let frame = pcs::frame(101, 250, kind, 2, sender_port, receiver_port, false, b"CLCSH12345").unwrap();
        assert_eq!(read(&frame), Err(21));
    }
    for (kind, crc) in [(2, false), (3, false), (2, true), (3, true)] {
        assert_eq!(read(&pcs::frame(101, 250, kind, 2, 1, 1, crc, b"").unwrap()), Err(21));
    }
}

/// Each run of bytes that is accepted is the writer's frame of what was read.
#[test]
fn accepted_is_the_writers() {
    let mut random = Xorshift::new(22);
    let mut accepted = 0;
    for _ in 0..20_000 {
        let order = gen::display::order(&mut random);
        let run = gen::display::nearly(&mut random, order);
        if let Ok(order) = read(&run) {
            assert_eq!(run, display::frame(order.value, order.receiver, order.sender, order.number).unwrap());
            accepted += 1;
        }
    }
    assert!(accepted > 500, "{accepted}");
}

/// The store is left as PCS's call leaves it, whatever the answer.
#[test]
fn the_store_is_as_pcs_leaves_it() {
    let mut random = Xorshift::new(23);
    let mut runs: Vec<Vec<u8>> = (0..500).map(|_| gen::run(&mut random, Wire::Pcs)).collect();
    runs.extend([DISPLAY.to_vec(), DISPLAY_WITH_CRC.to_vec(), ACKNOWLEDGEMENT.to_vec(), with_data(b"CLCSH007")]);
    for run in runs {
        let expected = received::<Pcs>(&run).1;
        let mut store = vec![FILL; 1183];
        let _ = display::read(&run, &mut store);
        assert_eq!(store, expected);
        let mut store = vec![FILL; 1183];
        let _ = display::fresh(101).take(&run, &mut store, &mut [0; 11]);
        assert_eq!(store, expected);
    }
}

/// Each run fails two neighbouring tests, and the first of them tells; the display stays.
#[test]
fn refusals_in_order() {
    let start = Display { own: 101, last: Some((250, 7)), places: *b" 42" };
    let refused = |own: u8, run: &[u8], room: usize, answer: usize| {
        let (mut end, mut store, mut out) = (Display { own, ..start }, vec![FILL; room], vec![FILL; answer]);
        let taken = end.take(run, &mut store, &mut out);
        assert_eq!(end, Display { own, ..start });
        assert!(out.iter().all(|byte| *byte == FILL));
        (taken, store.iter().all(|byte| *byte == FILL))
    };
    // 3 before 1, before all else, and nothing is looked at.
    for own in [0, 251, 252, 253, 254, 255] {
        for (run, room, answer) in [(&DISPLAY[..], 1183, 11), (&DISPLAY, 1182, 11), (&DISPLAY[1..], 1183, 0), (&[], 0, 0)] {
            assert_eq!(refused(own, run, room, answer), (Err(3), true));
        }
        assert_eq!(refused(own, &order(own.clamp(1, 250), 2, 1), 1183, 11), (Err(3), true));
        assert_eq!(refused(own, &order(255, 2, 1), 1183, 11), (Err(3), true));
    }
    // 1 before the others; then PCS's own, before 21 and 2.
    assert_eq!(refused(101, &[253, 254], 1182, 0), (Err(1), true));
    let damaged = |place: usize, byte: u8| [&DISPLAY[..place], &[byte], &DISPLAY[place + 1..]].concat();
    assert_eq!(refused(101, &damaged(12, 253), 1183, 0).0, Err(4));
    assert_eq!(refused(101, &[&[253], &[5; 1184][..]].concat(), 1183, 0).0, Err(5));
    assert_eq!(refused(101, &[&DISPLAY[..], &DISPLAY].concat(), 1183, 0).0, Err(6));
    assert_eq!(refused(101, &damaged(13, b'I'), 1183, 0).0, Err(8));
    let closed = |body: &[u8]| [&[253], body, &pcs::checks(body, false), &[254]].concat();
    assert_eq!(refused(101, &closed(&[101, 251, 5, 2, 128, 128, 2, 2]), 1183, 0).0, Err(9));
    assert_eq!(refused(101, &closed(&[101, 250, 5, 2, 128, 2, 2, 2]), 1183, 0).0, Err(10));
    assert_eq!(refused(101, &closed(&[101, 250, 5, 2, 128, 1, 2, 2, 7]), 1183, 0).0, Err(13));
    // 21 before 2 and whoever it is for: own, another, everybody.
    for receiver in [101, 100, 255] {
        for answer in [0, 11] {
            let frame = pcs::frame(receiver, 250, 1, 2, 1, 1, false, b"CLCSH007").unwrap();
            assert_eq!(refused(101, &frame, 1183, answer).0, Err(21));
        }
    }
    // 2 for the own address alone.
    for answer in [0, 10] {
        assert_eq!(refused(101, &DISPLAY, 1183, answer).0, Err(2));
    }
}

#[test]
fn an_answer_needs_eleven_bytes() {
    for (own, sender, number) in [(1, 250, 250), (250, 1, 1), (101, 101, 9)] {
        let frame = display::frame(77, own, sender, number).unwrap();
        let mut end = display::fresh(own);
        let mut out = [FILL; 11];
        assert_eq!(end.take(&frame, &mut [FILL; 1183], &mut out[..10]), Err(2));
        assert_eq!(end, display::fresh(own));
        assert_eq!(end.take(&frame, &mut [FILL; 1183], &mut out), Ok(Some(11)));
        assert_eq!(out.to_vec(), pcs::frame(sender, own, 2, number, 1, 1, false, b"").unwrap());
        assert_eq!((end.last, &end.places), (Some((sender, number)), b" 77"));
    }
}

/// A repeat with too little room is not answered, and what it would have repeated stays the last one.
#[test]
fn a_frame_without_room_is_not_taken() {
    let mut end = display::fresh(101);
    take(&mut end, &order(101, 2, 111)).unwrap();
    let before = end;
    assert_eq!(end.take(&order(101, 3, 222), &mut [FILL; 1183], &mut [0; 10]), Err(2));
    assert_eq!(end.take(&order(101, 2, 222), &mut [FILL; 1183], &mut [0; 10]), Err(2));
    assert_eq!(end, before);
    take(&mut end, &order(101, 3, 222)).unwrap();
    assert_eq!((end.last, &end.places), (Some((250, 3)), b"222"));
}

/// A frame with the last one's sender and number is answered and changes nothing: value and receiver are not compared.
#[test]
fn a_repeat_is_answered_but_not_shown() {
    let answer = Ok(Some(pcs::frame(250, 101, 2, 2, 1, 1, false, b"").unwrap()));
    for first in [101, 255] {
        let mut end = display::fresh(101);
        take(&mut end, &order(first, 2, 12_345)).unwrap();
        let taken = end;
        assert_eq!(&taken.places, b"345");
        for value in [12_345, 7, 0] {
            assert_eq!(take(&mut end, &order(101, 2, value)), answer);
            assert_eq!(take(&mut end, &order(255, 2, value)), Ok(None));
            assert_eq!(end, taken);
        }
    }
    // Another number, or another sender, is another frame, and then the first is one too.
    let mut end = display::fresh(101);
    take(&mut end, &order(101, 2, 1)).unwrap();
    take(&mut end, &order(101, 3, 2)).unwrap();
    assert_eq!(&end.places, b"  2");
    take(&mut end, &order(255, 2, 3)).unwrap();
    assert_eq!(&end.places, b"  3");
    take(&mut end, &display::frame(4, 101, 249, 2).unwrap()).unwrap();
    assert_eq!((end.last, &end.places), (Some((249, 2)), b"  4"));
    take(&mut end, &order(101, 2, 5)).unwrap();
    assert_eq!((end.last, &end.places), (Some((250, 2)), b"  5"));
}

/// No frame is the last one of a fresh display.
#[test]
fn a_first_frame_is_always_shown() {
    for (sender, number) in [(1, 1), (250, 250)] {
        for receiver in [101, 255] {
            let mut end = display::fresh(101);
            take(&mut end, &display::frame(8, receiver, sender, number).unwrap()).unwrap();
            assert_eq!((end.last, &end.places), (Some((sender, number)), b"  8"));
        }
    }
}

/// Nothing is told of frames for others, and nothing changed; so a repeat behind them is still one.
#[test]
fn frames_for_others() {
    let mut end = display::fresh(101);
    for receiver in (1..=250).filter(|receiver| *receiver != 101) {
        assert_eq!(take(&mut end, &order(receiver, 2, 999)), Ok(None));
        assert_eq!(end, display::fresh(101));
    }
    take(&mut end, &order(101, 2, 111)).unwrap();
    let taken = end;
    // No room is needed for them.
    assert_eq!(end.take(&order(100, 3, 222), &mut [FILL; 1183], &mut []), Ok(None));
    assert_eq!(take(&mut end, &order(100, 3, 222)), Ok(None));
    assert!(take(&mut end, &order(101, 2, 333)).unwrap().is_some());
    assert_eq!(end, taken);
}

/// A frame for everybody is shown and never answered, so there is never too little room for it.
#[test]
fn frames_for_everybody() {
    let mut end = display::fresh(101);
    for (number, answer) in [(1, 0), (2, 10), (3, 11)] {
        let mut out = vec![FILL; answer];
        assert_eq!(end.take(&order(255, number, number as u32), &mut [FILL; 1183], &mut out), Ok(None));
        assert!(out.iter().all(|byte| *byte == FILL));
        assert_eq!((end.last, end.places), (Some((250, number)), [b' ', b' ', b'0' + number]));
    }
}

/// What a display is told outside the rules leaves it as it was, any run of bytes among it.
#[test]
fn refused_runs_change_nothing() {
    let mut random = Xorshift::new(24);
    let mut end = display::fresh(101);
    take(&mut end, &DISPLAY).unwrap();
    let before = end;
    for _ in 0..2000 {
        let run = gen::run(&mut random, Wire::Pcs);
        assert!(take(&mut end, &run).is_err());
        assert_eq!(end, before);
    }
}
