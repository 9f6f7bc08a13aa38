//! What writers make, receivers and the whole-frame call read back.

use super::{fresh, ACKNOWLEDGEMENT, CELDL, DISPLAY_WITH_CRC, FILL};
use crate::dle::{self, Dle};
use crate::expansion::{self, Expansion};
use crate::gen::{self, Xorshift};
use crate::mdu::{self, Mdu};
use crate::pcs::{self, Pcs};
use crate::stream::{self, Event, Link};
use crate::whole;

/// The data lies in the store and only the gathered places were written.
fn read_back<L: Link>(frame: &[u8], gathered: usize, fields: &[u8], data: &[u8]) {
    let (received, store) = fresh::<L>(frame);
    let Event::Message(message) = received.event else { panic!("{:?}", received.event) };
    assert_eq!(received.used, frame.len());
    assert_eq!(L::fields(&message), fields);
    assert_eq!(L::length(&message), data.len());
    assert_eq!(stream::data::<L>(&store, &message), data);
    assert!(store[gathered..].iter().all(|byte| *byte == FILL));
    // As a whole frame; not with a byte more on either side, nor with one less.
    let mut store = vec![FILL; L::SIZE];
    assert_eq!(whole::read::<L>(frame, &mut store), L::answer(&message));
    let noise_in_front = [&[0x55], frame].concat();
    assert_eq!(whole::read::<L>(&noise_in_front, &mut store), 6);
    let noise_behind = [frame, &[0x55]].concat();
    assert_eq!(whole::read::<L>(&noise_behind, &mut store), 6);
    assert_eq!(whole::read::<L>(&frame[..frame.len() - 1], &mut store), 6);
    assert_eq!(whole::read::<L>(frame, &mut store[1..]), 1);
}

#[test]
fn writers_against_readers() {
    let mut random = Xorshift::new(3);
    for _ in 0..400 {
        let length = gen::data_length(&mut random);
        let data = gen::contents(&mut random, length);
        let field = |random: &mut Xorshift| gen::between(random, 1, 250);
        let f = [field(&mut random), field(&mut random), random.below(4) as u8, field(&mut random), field(&mut random), field(&mut random)];
        let crc = random.once_in(2);
        match pcs::frame(f[0], f[1], f[2], f[3], f[4], f[5], crc, &data) {
            Ok(frame) => read_back::<Pcs>(&frame, frame.len() - 2, &[&f[..], &[crc as u8]].concat(), &data),
            Err(number) => assert!(number == 3 && (length > 1024 || (f[2] >= 2 && length > 0))),
        }
        match mdu::frame(f[0], &data) {
            Ok(frame) => read_back::<Mdu>(&frame, frame.len(), &[f[0]], &data),
            Err(number) => assert!(number == 3 && (length == 0 || length > 1025)),
        }
        let g = [random.byte(), random.byte(), random.byte()];
        match dle::frame(g[0], g[1], &data) {
            Ok(frame) => read_back::<Dle>(&frame, 3 + length, &[g[0], g[1], 0, 0], &data),
            Err(number) => assert!(number == 3 && (length == 0 || length > 255)),
        }
        read_back::<Dle>(&dle::error_frame(g[0], g[1], g[2]), 4, &[g[0], g[1], 1, g[2]], &[]);
        let (kind, repeat) = (random.below(3) as u8, random.below(4) as u8);
        match expansion::frame(g[0], kind, repeat, g[1], &data) {
            Ok(frame) => read_back::<Expansion>(&frame, 8 + length, &[g[0], kind, repeat, g[1]], &data),
            Err(number) => assert!(number == 3 && (length > 1024 || (kind > 0 && length > 0))),
        }
    }
}

#[test]
fn whole_frame_answers() {
    let mut store = vec![0; 1183];
    let bits = 9u64 << 8 | 2 << 24 | 250 << 32 | 4 << 40 | 1 << 48 | 1 << 56;
    assert_eq!(whole::read::<Pcs>(&CELDL, &mut store), bits);
    let bits = 2u64 << 20 | 250 << 24 | 101 << 32 | 2 << 40 | 1 << 48 | 1 << 56;
    assert_eq!(whole::read::<Pcs>(&ACKNOWLEDGEMENT, &mut store), bits);
    let bits = 10u64 << 8 | 1 << 20 | 1 << 22 | 101 << 24 | 250 << 32 | 2 << 40 | 1 << 48 | 1 << 56;
    assert_eq!(whole::read::<Pcs>(&DISPLAY_WITH_CRC, &mut store), bits);
    assert_eq!(whole::read::<Pcs>(&ACKNOWLEDGEMENT, &mut store[1..]), 1);
    let frame = dle::error_frame(5, 6, 7);
    assert_eq!(whole::read::<Dle>(&frame, &mut store), 1 << 20 | 5 << 24 | 6 << 32 | 7 << 40);
    let frame = expansion::frame(1, 2, 3, 4, b"").unwrap();
    assert_eq!(whole::read::<Expansion>(&frame, &mut store), 1 << 24 | 2 << 32 | 3 << 40 | 4 << 48);
    let frame = mdu::frame(9, &[1; 1025]).unwrap();
    assert_eq!(whole::read::<Mdu>(&frame, &mut store), 1025 << 8 | 9 << 24);
    assert_eq!(whole::read::<Mdu>(&[], &mut store), 6);
    // A refusal behind noise is answered as it is.
    assert_eq!(whole::read::<Expansion>(&[1, 2, 0xFD, 0xFF, 0xFF, 9], &mut store), 7);
}
