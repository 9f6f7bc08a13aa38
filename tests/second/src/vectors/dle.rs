//! DLE: doubling, error messages, the edges, codes and lengths.

use super::link::Section;
use super::text::{given, given_run, given_same, words, Lines};
use crate::dle::{self, Dle};
use crate::stream::{Link, State};

fn data(s: &mut Section) {
    s.write(&[0x10, 3], given(&[0x64, 0x96]), 12);
    s.read_back::<Dle>();
    s.whole::<Dle>();
    s.write(&[0x10, 3], given(&[0x64, 0x96]), 10);
    s.write(&[0x10, 3], given(&[0x64, 0x96]), 9);
    s.write(&[1, 0x10], given(&[0x10; 16]), 50);
    s.read_back::<Dle>();
    s.write(&[1, 2], given(&[0x10, 0x03, 0x10, 0x02]), 20);
    s.read_back::<Dle>();
    for length in [0, 1, 254, 255, 256] {
        s.write(&[9, 8], given_run(length), 520);
        if length == 255 {
            s.read_back::<Dle>();
        }
    }
    s.write(&[9, 8], given_run(0), 0);
}

fn errors(s: &mut Section) {
    for (numbers, room) in [([0x10u8, 0x10, 0x10], 12), ([1, 2, 0], 8), ([1, 2, 0], 7), ([1, 2, 255], 8)] {
        let head = format!("write-error {}", words(&numbers));
        s.written(head, room, &|out| dle::write_error(numbers[0], numbers[1], numbers[2], out));
        s.read_back::<Dle>();
        s.whole::<Dle>();
    }
}

fn refusals(s: &mut Section) {
    s.each::<Dle>(&[
        &[0x10, 0x02, 0x10, 0x03],
        &[0x10, 0x02, 1, 2, 0, 0x10, 0x03],
        &[0x10, 0x02, 1, 2, 0, 4, 5, 0x10, 0x03],
        &[0x10, 0x02, 1, 2, 1, 4, 5, 0x10, 0x03],
        &[0x10, 0x02, 1, 2, 2, 4, 0x10, 0x03],
        &[0x10, 0x02, 1, 0x10, 0x04],
        &[0x10, 0x02, 1, 0x10, 0x02, 5],
        &[0x10, 0x10, 0x02, 0x10, 0x01],
    ]);
    // Full: 5 for one more, plain or doubled; 7, 4 and the end as ever.
    for last in [&[5][..], &[0x10, 0x10], &[0x10, 0x05], &[0x10, 0x02], &[0x10, 0x03]] {
        s.fresh(Dle::SIZE);
        s.receive::<Dle>(&[0x10, 0x02]);
        s.receive_given::<Dle>(given_same(258));
        s.receive::<Dle>(last);
    }
}

fn states(s: &mut Section) {
    s.odd::<Dle>(&[
        State { mode: 4, ..State::default() },
        State { mode: 2, count: 259, ..State::default() },
        State { mode: 3, count: 259, ..State::default() },
        State { mode: 0, count: 1, ..State::default() },
        State { mode: 1, count: 1, ..State::default() },
    ]);
    s.strange::<Dle>(&[0, 1], &[2, 3]);
    s.short::<Dle>();
    s.noise_goes_round::<Dle>();
}

/// What stands in the store was gathered, whoever put it there.
fn put_in_the_store(s: &mut Section) {
    for (bytes, rest) in [(&[1, 2, 2, 0x10][..], &[7, 0x10, 0x03][..]), (&[1, 2, 0, 0x10], &[0x10, 0x03])] {
        s.hold([bytes, &[9; 255]].concat());
        s.set(State { mode: 2, count: 4, ..State::default() });
        s.receive::<Dle>(rest);
        s.content();
    }
}

fn cut(s: &mut Section) {
    let mut stream = vec![7, 0x10, 0x10, 0x02, 0x10, 0x02, 9, 0x10, 0x02];
    stream.extend(&dle::frame(0x10, 3, &[0x64, 0x10, 0x96]).unwrap_or_default()[2..]);
    stream.extend(dle::error_frame(5, 6, 0x10));
    stream.extend([0x10, 0x02, 0x10, 0x07, 3, 0x10]);
    s.cut::<Dle>(&stream);
}

fn parts(s: &mut Section) {
    for (room, length) in [(258, 255), (257, 255), (3, 0), (2, 0)] {
        s.part::<Dle>(room, length, dle::Message { sequence: 1, node: 1, error: None, length });
    }
}

pub fn section() -> (Lines, Lines) {
    let writer = |n: &[u8], data: &[u8], out: &mut [u8]| dle::write(n[0], n[1], data, out);
    let mut s = Section::new("dle", false, &writer);
    data(&mut s);
    errors(&mut s);
    refusals(&mut s);
    states(&mut s);
    put_in_the_store(&mut s);
    cut(&mut s);
    parts(&mut s);
    (s.lines, s.whole)
}
