//! The documents' frames, the length edges, what writers refuse.

use super::{event, fresh, ACKNOWLEDGEMENT, CELDL, DISPLAY, FILL, RECORD};
use crate::dle::{self, Dle};
use crate::expansion::{self, Expansion};
use crate::mdu::{self, Mdu};
use crate::pcs::{self, Pcs};
use crate::stream::{self, Event, Received, State};

#[test]
fn document_000_written() {
    assert_eq!(pcs::frame(2, 250, 0, 4, 1, 1, false, b"CELDL\0\0\0\x01").unwrap(), CELDL);
    let data = b"AELDL\0\0\0\x01\x60\x10\x67\x80\x0F\xAA\xD7\x51\xD1\x80\0\0";
    assert_eq!(pcs::frame(250, 2, 0, 4, 1, 1, false, data).unwrap(), RECORD);
    assert_eq!(pcs::frame(101, 250, 1, 2, 1, 1, false, b"CLCSH12345").unwrap(), DISPLAY);
    assert_eq!(pcs::frame(250, 101, 2, 2, 1, 1, false, b"").unwrap(), ACKNOWLEDGEMENT);
}

#[test]
fn document_000_read_with_the_store_afterwards() {
    let (received, store) = fresh::<Pcs>(&CELDL);
    let message =
        pcs::Message { receiver: 2, sender: 250, kind: 0, number: 4, sender_port: 1, receiver_port: 1, crc: false, length: 9 };
    assert_eq!(received, Received { used: 22, state: State::default(), event: Event::Message(message) });
    assert_eq!(stream::data::<Pcs>(&store, &message), b"CELDL\0\0\0\x01");
    // Places 0 to 8 the data, 9 to 19 still as gathered, the rest untouched.
    assert_eq!(&store[9..20], &CELDL[10..21]);
    assert!(store[20..].iter().all(|byte| *byte == FILL));
    assert!(matches!(event::<Pcs>(&RECORD), Event::Message(m) if m.length == 21));
    assert!(matches!(event::<Pcs>(&DISPLAY), Event::Message(m) if m.kind == 1 && m.length == 10));
    assert!(matches!(event::<Pcs>(&ACKNOWLEDGEMENT), Event::Message(m) if m.kind == 2 && m.length == 0));
}

#[test]
fn document_002_frames() {
    let long = [0xE3, 0x01, 0x00, 0x05, 0x33, 0x1C, 0xB1, 0x00, 0x04, 0x47, 0xBA, 0x98, 0x8F];
    let short = [0xE3, 0x01, 0x00, 0x01, 0x33, 0x18, 0x31, 0xD4, 0xC1];
    assert_eq!(mdu::frame(0x33, &[0xB1, 0x00, 0x04, 0x47, 0xBA]).unwrap(), long);
    assert_eq!(mdu::frame(0x33, &[0x31]).unwrap(), short);
    assert_eq!(event::<Mdu>(&long), Event::Message(mdu::Message { address: 0x33, length: 5 }));
    let (_, store) = fresh::<Mdu>(&long);
    assert_eq!(&store[..13], &long);
    assert_eq!(store[13], FILL);
}

#[test]
fn example_9() {
    let wire = [0x10, 0x02, 0x10, 0x10, 0x03, 0x02, 0x64, 0x96, 0x10, 0x03];
    assert_eq!(dle::frame(0x10, 3, &[0x64, 0x96]).unwrap(), wire);
    let message = dle::Message { sequence: 0x10, node: 3, error: None, length: 2 };
    assert_eq!(event::<Dle>(&wire), Event::Message(message));
}

#[test]
fn length_edges() {
    assert_eq!(pcs::frame(1, 1, 0, 1, 1, 1, false, &[0xFF; 1024]).unwrap().len(), 1182);
    assert_eq!(pcs::frame(1, 1, 0, 1, 1, 1, false, &[0xFF; 1025]), Err(3));
    assert_eq!(expansion::frame(0xFE, 0, 3, 0xFF, &[0xFF; 1024]).map(|f| f.len() <= 2066), Ok(true));
    assert_eq!(expansion::frame(0, 0, 0, 0, &[0; 1025]), Err(3));
    assert_eq!(mdu::frame(1, &[0; 1025]).unwrap().len(), 1033);
    assert_eq!(mdu::frame(1, &[0; 1026]), Err(3));
    assert_eq!(mdu::frame(1, &[]), Err(3));
    assert_eq!(dle::frame(0, 0, &[0x10; 255]).unwrap().len(), 2 + 3 + 510 + 2);
    assert_eq!(dle::frame(0, 0, &[0; 256]), Err(3));
    assert_eq!(dle::frame(0, 0, &[]), Err(3));

    let longest = mdu::frame(7, &[0x31; 1025]).unwrap();
    assert_eq!(event::<Mdu>(&longest), Event::Message(mdu::Message { address: 7, length: 1025 }));
    let too_long = [0xE3, 1, 0x04, 0x02, 7, 0xF1];
    assert_eq!(event::<Mdu>(&too_long), Event::Refused(10));
    assert_eq!(event::<Mdu>(&[0xE3, 1, 0, 0, 7, 0xEB]), Event::Refused(10));
    assert_eq!(event::<Expansion>(&[0xFD, 0xFE]), Event::Refused(6));
    assert_eq!(event::<Dle>(&[0x10, 2, 1, 2, 0, 0x10, 3]), Event::Refused(6));
    assert_eq!(event::<Pcs>(&[253, 254]), Event::Refused(6));
}

#[test]
fn writers_test_3_then_2_and_leave_memory() {
    let mut out = [FILL; 40];
    assert_eq!(pcs::write(0, 1, 0, 1, 1, 1, false, b"", &mut out[..0]), Err(3));
    assert_eq!(pcs::write(251, 1, 0, 1, 1, 1, false, b"", &mut out), Err(3));
    assert_eq!(pcs::write(254, 1, 0, 1, 1, 1, false, b"", &mut out), Err(3));
    assert_eq!(pcs::write(1, 255, 0, 1, 1, 1, false, b"", &mut out), Err(3));
    assert_eq!(pcs::write(1, 1, 4, 1, 1, 1, false, b"", &mut out), Err(3));
    assert_eq!(pcs::write(1, 1, 2, 1, 1, 1, false, b"a", &mut out), Err(3));
    assert_eq!(pcs::write(1, 1, 3, 1, 1, 1, false, b"a", &mut out), Err(3));
    assert_eq!(pcs::write(1, 1, 0, 251, 1, 1, false, b"", &mut out), Err(3));
    assert_eq!(pcs::write(1, 1, 0, 1, 0, 1, false, b"", &mut out), Err(3));
    assert_eq!(pcs::write(1, 1, 0, 1, 1, 251, false, b"", &mut out), Err(3));
    assert_eq!(pcs::write(1, 1, 0, 1, 1, 1, false, b"", &mut out[..10]), Err(2));
    assert_eq!(mdu::write(0, b"a", &mut out), Err(3));
    assert_eq!(mdu::write(1, b"a", &mut out[..8]), Err(2));
    assert_eq!(dle::write(1, 2, b"", &mut out[..0]), Err(3));
    assert_eq!(dle::write_error(0x10, 2, 3, &mut out[..8]), Err(2));
    assert_eq!(expansion::write(0, 3, 0, 0, b"", &mut out), Err(3));
    assert_eq!(expansion::write(0, 0, 4, 0, b"", &mut out), Err(3));
    assert_eq!(expansion::write(0, 1, 0, 0, b"a", &mut out), Err(3));
    assert!(out.iter().all(|byte| *byte == FILL));
    assert_eq!(pcs::write(255, 1, 0, 1, 1, 1, false, b"", &mut out), Ok(11));
    assert!(out[11..].iter().all(|byte| *byte == FILL));
    assert_eq!(dle::write_error(0x10, 2, 3, &mut out[..9]), Ok(9));
    assert_eq!(&out[..9], &[0x10, 2, 0x10, 0x10, 2, 0, 3, 0x10, 3]);
}
