//! The queue display: orders written and read, what lies outside the profile, the places shown, what the display end takes.

use super::pcs::{closed, frame, MESSAGES};
use super::text::{answer_word, bytes_word, filled, given, given_run, given_same, mix, section, Given, Lines};
use crate::display::{self, Display};
use crate::packing;
use crate::pcs::Pcs;
use crate::stream::Link;

/// An answer's length.
const ANSWER: usize = 11;

/// Document 000's order.
const ORDER: (u32, u8, u8, u8) = (12_345, 101, 250, 2);

/// Lines of the display's calls, the last frame written, and the display end.
pub struct Orders {
    pub lines: Lines,
    pub frame: Vec<u8>,
    pub display: Display,
}

fn made_word(length: usize, memory: &[u8]) -> String {
    format!("length {length} frame {}", answer_word(&memory[..length]))
}

impl Orders {
    /// Before a line says otherwise the display's own address is 0.
    pub fn new(lines: Lines) -> Self {
        Orders { lines, frame: Vec::new(), display: display::fresh(0) }
    }

    /// The last frame written, by its word.
    pub fn last(&self) -> Given {
        Given { word: String::from("frame"), bytes: self.frame.clone() }
    }

    pub fn write(&mut self, value: u32, receiver: u8, sender: u8, number: u8, room: usize) {
        let mut out = filled(room);
        let answer = match display::write(value, receiver, sender, number, &mut out) {
            Ok(length) => {
                self.frame = out[..length].to_vec();
                made_word(length, &out)
            }
            Err(number) => format!("refused {number}"),
        };
        let call = format!("display-write {value} {receiver} {sender} {number} room {room}");
        self.lines.add(&call, &format!("{answer} memory {}", mix(&out)));
    }

    pub fn read(&mut self, run: &Given, room: usize) {
        let mut store = filled(room);
        let answer = match display::read(&run.bytes, &mut store) {
            Ok(order) => format!("order {} {} {} {}", order.receiver, order.sender, order.number, order.value),
            Err(number) => format!("refused {number}"),
        };
        self.lines.add(&format!("display-read {} room {room}", run.word), &format!("{answer} store {}", mix(&store)));
    }

    pub fn shown(&mut self, value: u32) {
        self.lines.add(&format!("display-shown {value}"), &bytes_word(&display::shown(value)));
    }

    pub fn fresh(&mut self, own: u8) {
        self.display = display::fresh(own);
        self.lines.add(&format!("display fresh {own}"), "");
    }

    pub fn take(&mut self, run: &Given, room: usize, answer: usize) {
        let (mut store, mut out) = (filled(room), filled(answer));
        let reply = match self.display.take(&run.bytes, &mut store, &mut out) {
            Ok(None) => String::from("nothing"),
            Ok(Some(length)) => made_word(length, &out),
            Err(number) => format!("refused {number}"),
        };
        let call = format!("display take {} room {room} answer {answer}", run.word);
        let places = bytes_word(&self.display.places);
        self.lines.add(&call, &format!("{reply} shown {places} store {} memory {}", mix(&store), mix(&out)));
    }

    /// A frame with room for everything.
    fn take_order(&mut self, value: u32, receiver: u8, sender: u8, number: u8) {
        self.take(&order(value, receiver, sender, number), Pcs::SIZE, ANSWER);
    }
}

fn order(value: u32, receiver: u8, sender: u8, number: u8) -> Given {
    given(&display::frame(value, receiver, sender, number).unwrap_or_default())
}

/// Document 000's order in all but its data, for a receiver.
fn with_data(receiver: u8, data: &[u8]) -> Vec<u8> {
    frame([receiver, 250, 1, 2, 1, 1], false, data)
}

/// Every count of digits from its least number to its most, and zeros and different digits in them.
const VALUES: [u32; 26] = [
    0, 1, 7, 9, 10, 45, 99, 100, 345, 999, 1000, 1005, 9999, 10_000, 12_345, 99_999, 100_000, 999_999, 1_000_000, 9_999_999,
    10_000_000, 10_203_040, 12_345_678, 87_654_321, 90_000_009, 99_999_999,
];

/// Receiver, sender and number with one of them out of its range.
const UNSENDABLE: [(u8, u8, u8); 12] = [
    (0, 250, 2),
    (251, 250, 2),
    (252, 250, 2),
    (253, 250, 2),
    (254, 250, 2),
    (101, 0, 2),
    (101, 251, 2),
    (101, 255, 2),
    (101, 250, 0),
    (101, 250, 251),
    (101, 250, 255),
    (0, 0, 0),
];

fn written(o: &mut Orders) {
    let (value, receiver, sender, number) = ORDER;
    for room in [26, 23, 22, 0] {
        o.write(value, receiver, sender, number, room);
    }
    o.read(&o.last(), Pcs::SIZE);
    let mut longest = 0;
    for value in VALUES {
        let exact = order(value, 101, 250, 2).bytes.len();
        o.write(value, 101, 250, 2, exact);
        o.read(&o.last(), Pcs::SIZE);
        if exact > longest {
            o.write(value, 101, 250, 2, exact - 1);
            longest = exact;
        }
    }
    for (receiver, sender, number) in [(255, 250, 2), (1, 1, 1), (250, 250, 250), (255, 1, 250), (128, 128, 128)] {
        o.write(405, receiver, sender, number, 30);
        o.read(&o.last(), Pcs::SIZE);
    }
}

/// 3, before 2: the number, then what PCS does not send; the last frame written stays.
fn unsendable(o: &mut Orders) {
    for value in [100_000_000, 100_000_001, 999_999_999, 1_000_000_000, 4_294_967_295] {
        o.write(value, 101, 250, 2, 40);
        o.write(value, 101, 250, 2, 0);
    }
    for (receiver, sender, number) in UNSENDABLE {
        o.write(5, receiver, sender, number, 40);
        o.write(5, receiver, sender, number, 0);
    }
    o.write(100_000_000, 0, 0, 0, 40);
    o.read(&o.last(), Pcs::SIZE);
}

fn shown(o: &mut Orders) {
    for value in VALUES {
        o.shown(value);
    }
    for value in [11, 101, 110, 900, 1001, 1010, 1045, 1100, 255, 256, 65_535, 65_536, 2_147_483_648] {
        o.shown(value);
    }
    // Above what can be sent.
    for value in [100_000_000, 100_000_007, 100_000_045, 1_000_000_000, 4_294_967_000, 4_294_967_295] {
        o.shown(value);
    }
}

/// Data that are not `CLCSH` and a number of one to eight digits; beside them some that are.
const DATA: [&[u8]; 37] = [
    b"",
    b"C",
    b"CLCS",
    b"CLCSH",
    b"CLCSH0",
    b"CLCSH00",
    b"CLCSH007",
    b"CLCSH05",
    b"CLCSH01234567",
    b"CLCSH00000000",
    b"CLCSH12345678",
    b"CLCSH123456789",
    b"CLCSH000000001",
    b"CLCSH100000000",
    b"CLCSH4294967296",
    b"CLCSH4294967301",
    b"CLCSH18446744073709551617",
    b"CLCSH ",
    b"CLCSH 12345",
    b"CLCSH12345 ",
    b"CLCSH12345\0",
    b"CLCSH12345\n",
    b"CLCSH12/45",
    b"CLCSH12:45",
    b"CLCSH/",
    b"CLCSH:",
    b"CLCSH+5",
    b"CLCSH-5",
    b"CLCSHA",
    b"CLCSH1\xB1",
    b"CLCSH\xB1",
    b"\xC3LCSH1",
    b"clcsh1",
    b"CLCSI1",
    b"DLCSH1",
    b"CCLCSH1",
    b"12345",
];

/// 21 for the data, for the kind, for each port and for a CRC.
fn outside(o: &mut Orders) {
    for data in DATA {
        o.read(&given(&with_data(101, data)), Pcs::SIZE);
    }
    let data = b"CLCSH12345";
    for (kind, sender_port, receiver_port, crc) in [
        (1, 1, 1, true),
        (0, 1, 1, true),
        (0, 1, 1, false),
        (1, 2, 1, false),
        (1, 1, 2, false),
        (1, 250, 1, false),
        (1, 1, 250, false),
        (1, 2, 2, true),
    ] {
        o.read(&given(&frame([101, 250, kind, 2, sender_port, receiver_port], crc, data)), Pcs::SIZE);
    }
    for (kind, crc) in [(2, false), (3, false), (2, true), (3, true)] {
        o.read(&given(&frame([101, 250, kind, 2, 1, 1], crc, b"")), Pcs::SIZE);
    }
    // The other three messages of document 000.
    for (numbers, data) in [MESSAGES[0], MESSAGES[1], MESSAGES[3]] {
        o.read(&given(&frame(numbers, false, data)), Pcs::SIZE);
    }
    // As many digits as PCS sends.
    o.read(&given(&with_data(101, &[&b"CLCSH"[..], &[b'7'; 1019]].concat())), Pcs::SIZE);
}

/// Bodies for 9, 10 and 13, whose check values are right; some are outside the profile too.
fn wrong_bodies() -> Vec<Vec<u8>> {
    let packed = packing::pack(b"CLCSH12345");
    let body = |header: [u8; 8], packed: &[u8]| [&header[..], packed].concat();
    let changed = |place: usize, byte: u8| {
        let mut packed = packed.clone();
        packed[place] = byte;
        packed
    };
    vec![
        body([0, 250, 5, 2, 128, 12, 1, 1], &packed),
        body([251, 250, 5, 2, 128, 12, 1, 1], &packed),
        body([101, 251, 5, 2, 128, 12, 1, 1], &packed),
        body([101, 250, 5, 0, 128, 12, 1, 1], &packed),
        body([101, 250, 5, 2, 128, 12, 0, 1], &packed),
        body([101, 250, 5, 2, 128, 12, 1, 251], &packed),
        body([101, 250, 9, 2, 128, 12, 1, 1], &packed),
        body([101, 250, 6, 2, 128, 12, 1, 1], &packed),
        body([101, 250, 5, 2, 0, 12, 1, 1], &packed),
        body([101, 250, 5, 2, 128, 11, 1, 1], &packed),
        body([101, 250, 5, 2, 1, 12, 2, 1], &packed),
        body([101, 250, 13, 2, 128, 15, 1, 1], &packed),
        body([101, 250, 5, 2, 128, 12, 1, 1], &changed(7, 129)),
        body([101, 250, 5, 2, 128, 12, 1, 1], &changed(11, 1)),
        body([101, 250, 5, 2, 128, 12, 2, 1], &changed(5, 0)),
        body([101, 250, 5, 2, 128, 9, 1, 1], &packed[..9]),
    ]
}

/// Runs that PCS refuses, each of them with its number: 4, 5 at its byte and at its end, 6, 8, 9, 10, 13.
fn wrong_runs() -> Vec<Given> {
    let right = with_data(101, b"CLCSH12345");
    let with_crc = frame([101, 250, 1, 2, 1, 1], true, b"CLCSH12345");
    let changed = |place: usize, byte: u8| {
        let mut run = right.clone();
        run[place] = byte;
        given(&run)
    };
    let mut crc_wrong = with_crc.clone();
    crc_wrong[22] ^= 1;
    let mut info_changed = right.clone();
    info_changed[3] = 13;
    let mut runs = vec![
        changed(12, 253),
        given(&[&[253], &right[..]].concat()),
        given(&[&[253], &[5; 1184][..]].concat()),
        given(&[&[253], &[5; 1181][..], &[254]].concat()),
        given(&[]),
        given(&[253]),
        given(&[253, 254]),
        given(&right[1..]),
        given(&right[..right.len() - 1]),
        given(&right[..12]),
        given(&[&[0], &right[..]].concat()),
        given(&[&[254], &right[..]].concat()),
        given(&[&right[..], &[0]].concat()),
        given(&[&right[..], &[253]].concat()),
        given(&right.repeat(2)),
        given_same(30),
        given_run(200),
        given_run(400),
        changed(21, 97),
        changed(14, 50),
        changed(1, 102),
        changed(9, 68),
        given(&crc_wrong),
        given(&info_changed),
    ];
    runs.extend(wrong_bodies().iter().map(|body| given(&closed(body))));
    runs
}

/// PCS's refusals, before 21; 1 before all of them.
fn refused(o: &mut Orders) {
    for run in wrong_runs() {
        o.read(&run, Pcs::SIZE);
    }
    let right = with_data(101, b"CLCSH12345");
    for run in [given(&right), given(&with_data(101, b"CLCSH007")), given(&[253, 254]), given(&[])] {
        for room in [Pcs::SIZE - 1, 1180, 1, 0] {
            o.read(&run, room);
        }
    }
    o.read(&given(&right), Pcs::SIZE + 1);
    o.read(&given(&right), 4096);
}

/// Document 000's exchange; a repeat, with the same number and with others, for itself and for everybody.
fn repeats(o: &mut Orders) {
    let (value, receiver, sender, number) = ORDER;
    o.fresh(101);
    for room in [30, 23] {
        o.write(value, receiver, sender, number, room);
        o.take(&o.last(), Pcs::SIZE, ANSWER);
    }
    o.take_order(7, 101, 250, 2);
    o.take_order(8, 255, 250, 2);
    // Another number, another sender, and then the first one again.
    o.take_order(45, 101, 250, 3);
    o.take_order(45, 101, 250, 3);
    o.take_order(1005, 101, 249, 3);
    o.take_order(0, 101, 250, 3);
    o.take_order(value, receiver, sender, number);
    // First for everybody, then for itself.
    o.take_order(99_999_999, 255, 250, 4);
    o.take_order(6, 255, 250, 4);
    o.take_order(6, 101, 250, 4);
    o.take_order(6, 101, 4, 250);
    // A fresh display has taken none.
    o.fresh(101);
    o.take_order(321, 101, 4, 250);
    o.fresh(101);
    o.take_order(654, 255, 4, 250);
    o.take_order(987, 101, 4, 250);
}

/// Frames for other displays, also between a frame and its repeat; no room is needed for them.
fn others(o: &mut Orders) {
    o.fresh(101);
    for receiver in [100, 102, 1, 250] {
        o.take_order(999, receiver, 250, 2);
    }
    o.take_order(111, 101, 250, 2);
    o.take_order(222, 100, 250, 3);
    o.take_order(333, 102, 250, 2);
    o.take(&order(444, 100, 250, 9), Pcs::SIZE, 0);
    o.take_order(555, 101, 250, 2);
    o.take(&order(666, 255, 250, 5), Pcs::SIZE, 0);
    o.take(&order(777, 255, 250, 5), Pcs::SIZE, 10);
    o.take_order(888, 100, 250, 6);
    o.take_order(888, 101, 250, 5);
    // Where another one is meant now.
    o.fresh(100);
    o.take_order(111, 101, 250, 2);
    o.take_order(222, 100, 250, 2);
}

/// 2 for the answer alone: eleven bytes are enough, and what does not fit is not taken.
fn rooms(o: &mut Orders) {
    o.fresh(101);
    for answer in [0, 1, 10] {
        o.take(&order(12, 101, 250, 7), Pcs::SIZE, answer);
    }
    for answer in [11, 12, 40] {
        o.take(&order(34, 101, 250, 7), Pcs::SIZE, answer);
    }
    // A frame that comes again is answered or refused too.
    o.take(&order(56, 101, 250, 7), Pcs::SIZE, 10);
    o.take(&order(56, 101, 250, 8), Pcs::SIZE, 10);
    o.take(&order(78, 101, 250, 7), Pcs::SIZE, 11);
    o.take(&order(56, 101, 250, 8), Pcs::SIZE, 11);
    // The store: 1 before all but 3.
    for (room, answer) in [(1182, 11), (1180, 11), (0, 0), (1184, 11), (4096, 11), (1183, 4096)] {
        o.take(&order(90, 101, 250, 9), room, answer);
    }
    o.take(&given(&[]), 1182, 0);
    o.take(&given(&with_data(101, b"CLCSH007")), 1182, 0);
    o.take(&order(90, 100, 250, 9), 1182, 11);
}

/// Displays at the edges of the addresses, and with the sender's own; the answer has the two turned.
fn addresses(o: &mut Orders) {
    for own in [1, 2, 128, 249, 250] {
        o.fresh(own);
        o.take_order(42, own, 7, 8);
        o.take_order(43, 251 - own, own, 9);
        o.take_order(44, own, own, own);
    }
    // 3 where the own address is none: nothing is looked at.
    for own in [0, 251, 252, 253, 254, 255] {
        o.fresh(own);
        o.take_order(42, 255, 7, 8);
        o.take_order(42, own.clamp(1, 250), 7, 8);
        o.take(&given(&[253, 254]), 0, 0);
    }
}

/// PCS's refusals and 21, for every receiver and with little room: the display and the memory for the answer stay.
fn refused_takes(o: &mut Orders) {
    o.fresh(101);
    o.take_order(12_345, 101, 250, 1);
    for run in wrong_runs() {
        o.take(&run, Pcs::SIZE, ANSWER);
    }
    for receiver in [101, 100, 255] {
        for data in [&b"CLCSH007"[..], b"CLCSH123456789", b"CLCSH", b"CELDL7"] {
            o.take(&given(&with_data(receiver, data)), Pcs::SIZE, ANSWER);
        }
        o.take(&given(&with_data(receiver, b"CLCSH007")), Pcs::SIZE, 0);
        o.take(&given(&frame([receiver, 250, 1, 2, 1, 1], true, b"CLCSH7")), Pcs::SIZE, ANSWER);
        o.take(&given(&frame([receiver, 250, 0, 2, 1, 1], false, b"CLCSH7")), Pcs::SIZE, ANSWER);
        o.take(&given(&frame([receiver, 250, 1, 2, 1, 2], false, b"CLCSH7")), Pcs::SIZE, ANSWER);
        o.take(&given(&frame([receiver, 250, 2, 2, 1, 1], false, b"")), Pcs::SIZE, ANSWER);
    }
    // None of them was taken.
    o.take_order(54_321, 101, 250, 1);
    o.take_order(54_321, 101, 250, 2);
}

pub fn display_section() -> Lines {
    let mut o = Orders::new(section("display"));
    // Before a display has an address.
    o.take_order(12_345, 101, 250, 2);
    o.take(&o.last(), 0, 0);
    written(&mut o);
    unsendable(&mut o);
    shown(&mut o);
    outside(&mut o);
    refused(&mut o);
    repeats(&mut o);
    others(&mut o);
    rooms(&mut o);
    addresses(&mut o);
    refused_takes(&mut o);
    o.lines
}

#[cfg(test)]
mod tests {
    use super::*;
    use crate::vectors::generated::Tally;
    use std::collections::BTreeSet;

    /// The answers of document 000's exchange, by its printed frames.
    #[test]
    fn document_000() {
        let text = display_section().answered;
        let order = "FD65FA0502800C0101434C4353483132803334358060FE";
        let answer = "FDFA6506028080010169FE";
        assert!(text.contains(&format!("display-write 12345 101 250 2 room 23 length 23 frame {order} ")));
        assert!(text.contains("display-read frame room 1183 order 101 250 2 12345 "));
        assert!(text.contains(&format!("display take frame room 1183 answer 11 length 11 frame {answer} shown 333435 ")));
        assert!(text.contains(&format!("display-read {answer} room 1183 refused 21 ")));
    }

    /// As of the generated lines, each answer of each call.
    #[test]
    fn every_answer_is_seen_and_no_other() {
        let mut tally = Tally::default();
        tally.count("display", &display_section());
        let missing: Vec<String> = tally.missing().into_iter().filter(|line| line.starts_with("display")).collect();
        assert!(missing.is_empty(), "{missing:?}");
    }

    #[test]
    fn the_runs_are_refused_with_every_number_of_pcs() {
        let read = |run: &Given| display::read(&run.bytes, &mut filled(Pcs::SIZE)).err().unwrap_or(0);
        let seen: BTreeSet<u8> = wrong_runs().iter().map(read).collect();
        assert_eq!(seen, BTreeSet::from([4, 5, 6, 8, 9, 10, 13]));
    }
}
