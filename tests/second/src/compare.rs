//! Compares the thirteen functions of the C interface with this implementation over
//! generated calls: the answer, every byte of lent memory and of a canary on
//! both sides of it, and that the input bytes stay as they were.

mod orders;

use crate::crc;
use crate::display;
use crate::dle::{self, Dle};
use crate::expansion::{self, Expansion};
use crate::gen::{self, Wire, Xorshift};
use crate::listing::hex;
use crate::mdu::{self, Mdu};
use crate::pcs::{self, Pcs};
use crate::stream::{self, Link};
use crate::whole;

/// The C interface on slices.
pub trait Host {
    /// Receiver, sender, kind, number, sender's port, receiver's port, CRC (0 or 1, above it 3).
    fn pcs_write(&self, fields: [u8; 7], data: &[u8], out: &mut [u8]) -> i32;
    fn mdu_write(&self, address: u8, body: &[u8], out: &mut [u8]) -> i32;
    fn dle_write(&self, sequence: u8, node: u8, data: &[u8], out: &mut [u8]) -> i32;
    fn dle_write_error(&self, sequence: u8, node: u8, error: u8, out: &mut [u8]) -> i32;
    /// Id, type, repeat, address.
    fn expansion_write(&self, fields: [u8; 4], data: &[u8], out: &mut [u8]) -> i32;
    fn pcs_read(&self, frame: &[u8], store: &mut [u8]) -> u64;
    fn mdu_read(&self, frame: &[u8], store: &mut [u8]) -> u64;
    fn dle_read(&self, frame: &[u8], store: &mut [u8]) -> u64;
    fn expansion_read(&self, frame: &[u8], store: &mut [u8]) -> u64;
    fn crc16(&self, start: u16, bytes: &[u8]) -> u16;
    /// Receiver, sender, number.
    fn display_write(&self, value: u32, fields: [u8; 3], out: &mut [u8]) -> i32;
    fn display_read(&self, frame: &[u8], store: &mut [u8]) -> u64;
    /// The left place in the lowest byte.
    fn display_shown(&self, value: u32) -> u32;
}

/// A writer's answer in C: a length, or a refusal as a negative number.
fn writer_answer(result: Result<usize, u8>) -> i32 {
    match result {
        Ok(length) => length as i32,
        Err(number) => -(number as i32),
    }
}

/// The frame of what the C call is made with.
fn pcs_frame(f: [u8; 7], data: &[u8]) -> Result<Vec<u8>, u8> {
    match f[6] {
        0 | 1 => pcs::frame(f[0], f[1], f[2], f[3], f[4], f[5], f[6] == 1, data),
        _ => Err(3),
    }
}

/// This implementation.
pub struct Own;

impl Host for Own {
    fn pcs_write(&self, f: [u8; 7], data: &[u8], out: &mut [u8]) -> i32 {
        writer_answer(pcs_frame(f, data).and_then(|frame| stream::put(&frame, out)))
    }
    fn mdu_write(&self, address: u8, body: &[u8], out: &mut [u8]) -> i32 {
        writer_answer(mdu::write(address, body, out))
    }
    fn dle_write(&self, sequence: u8, node: u8, data: &[u8], out: &mut [u8]) -> i32 {
        writer_answer(dle::write(sequence, node, data, out))
    }
    fn dle_write_error(&self, sequence: u8, node: u8, error: u8, out: &mut [u8]) -> i32 {
        writer_answer(dle::write_error(sequence, node, error, out))
    }
    fn expansion_write(&self, f: [u8; 4], data: &[u8], out: &mut [u8]) -> i32 {
        writer_answer(expansion::write(f[0], f[1], f[2], f[3], data, out))
    }
    fn pcs_read(&self, frame: &[u8], store: &mut [u8]) -> u64 {
        whole::read::<Pcs>(frame, store)
    }
    fn mdu_read(&self, frame: &[u8], store: &mut [u8]) -> u64 {
        whole::read::<Mdu>(frame, store)
    }
    fn dle_read(&self, frame: &[u8], store: &mut [u8]) -> u64 {
        whole::read::<Dle>(frame, store)
    }
    fn expansion_read(&self, frame: &[u8], store: &mut [u8]) -> u64 {
        whole::read::<Expansion>(frame, store)
    }
    fn crc16(&self, start: u16, bytes: &[u8]) -> u16 {
        crc::crc16(start, bytes)
    }
    fn display_write(&self, value: u32, f: [u8; 3], out: &mut [u8]) -> i32 {
        writer_answer(display::write(value, f[0], f[1], f[2], out))
    }
    fn display_read(&self, frame: &[u8], store: &mut [u8]) -> u64 {
        match display::read(frame, store) {
            Ok(order) => order.answer(),
            Err(number) => number as u64,
        }
    }
    fn display_shown(&self, value: u32) -> u32 {
        let [left, middle, right] = display::shown(value);
        u32::from_le_bytes([left, middle, right, 0])
    }
}

/// The static library, through its C interface.
#[cfg(feature = "host")]
pub mod linked {
    use super::Host;

    extern "C" {
        fn linebox_pcs_write(
            receiver: u8, sender: u8, kind: u8, number: u8, sender_port: u8, receiver_port: u8, crc: u8,
            data: *const u8, data_len: usize, out: *mut u8, out_len: usize,
        ) -> i32;
        fn linebox_mdu_write(address: u8, body: *const u8, body_len: usize, out: *mut u8, out_len: usize) -> i32;
        fn linebox_dle_write(
            sequence: u8, node: u8, data: *const u8, data_len: usize, out: *mut u8, out_len: usize,
        ) -> i32;
        fn linebox_dle_write_error(sequence: u8, node: u8, error: u8, out: *mut u8, out_len: usize) -> i32;
        fn linebox_expansion_write(
            id: u8, kind: u8, repeat: u8, address: u8, data: *const u8, data_len: usize, out: *mut u8, out_len: usize,
        ) -> i32;
        fn linebox_pcs_read(frame: *const u8, frame_len: usize, store: *mut u8, store_len: usize) -> u64;
        fn linebox_mdu_read(frame: *const u8, frame_len: usize, store: *mut u8, store_len: usize) -> u64;
        fn linebox_dle_read(frame: *const u8, frame_len: usize, store: *mut u8, store_len: usize) -> u64;
        fn linebox_expansion_read(frame: *const u8, frame_len: usize, store: *mut u8, store_len: usize) -> u64;
        fn linebox_crc16(start: u16, bytes: *const u8, len: usize) -> u16;
        fn linebox_display_write(value: u32, receiver: u8, sender: u8, number: u8, out: *mut u8, out_len: usize) -> i32;
        fn linebox_display_read(frame: *const u8, frame_len: usize, store: *mut u8, store_len: usize) -> u64;
        fn linebox_display_shown(value: u32) -> u32;
    }

    pub struct Linked;

    impl Host for Linked {
        fn pcs_write(&self, f: [u8; 7], data: &[u8], out: &mut [u8]) -> i32 {
            unsafe {
                linebox_pcs_write(
                    f[0], f[1], f[2], f[3], f[4], f[5], f[6],
                    data.as_ptr(), data.len(), out.as_mut_ptr(), out.len(),
                )
            }
        }
        fn mdu_write(&self, address: u8, body: &[u8], out: &mut [u8]) -> i32 {
            unsafe { linebox_mdu_write(address, body.as_ptr(), body.len(), out.as_mut_ptr(), out.len()) }
        }
        fn dle_write(&self, sequence: u8, node: u8, data: &[u8], out: &mut [u8]) -> i32 {
            unsafe { linebox_dle_write(sequence, node, data.as_ptr(), data.len(), out.as_mut_ptr(), out.len()) }
        }
        fn dle_write_error(&self, sequence: u8, node: u8, error: u8, out: &mut [u8]) -> i32 {
            unsafe { linebox_dle_write_error(sequence, node, error, out.as_mut_ptr(), out.len()) }
        }
        fn expansion_write(&self, f: [u8; 4], data: &[u8], out: &mut [u8]) -> i32 {
            unsafe {
                linebox_expansion_write(
                    f[0], f[1], f[2], f[3], data.as_ptr(), data.len(), out.as_mut_ptr(), out.len(),
                )
            }
        }
        fn pcs_read(&self, frame: &[u8], store: &mut [u8]) -> u64 {
            unsafe { linebox_pcs_read(frame.as_ptr(), frame.len(), store.as_mut_ptr(), store.len()) }
        }
        fn mdu_read(&self, frame: &[u8], store: &mut [u8]) -> u64 {
            unsafe { linebox_mdu_read(frame.as_ptr(), frame.len(), store.as_mut_ptr(), store.len()) }
        }
        fn dle_read(&self, frame: &[u8], store: &mut [u8]) -> u64 {
            unsafe { linebox_dle_read(frame.as_ptr(), frame.len(), store.as_mut_ptr(), store.len()) }
        }
        fn expansion_read(&self, frame: &[u8], store: &mut [u8]) -> u64 {
            unsafe { linebox_expansion_read(frame.as_ptr(), frame.len(), store.as_mut_ptr(), store.len()) }
        }
        fn crc16(&self, start: u16, bytes: &[u8]) -> u16 {
            unsafe { linebox_crc16(start, bytes.as_ptr(), bytes.len()) }
        }
        fn display_write(&self, value: u32, f: [u8; 3], out: &mut [u8]) -> i32 {
            unsafe { linebox_display_write(value, f[0], f[1], f[2], out.as_mut_ptr(), out.len()) }
        }
        fn display_read(&self, frame: &[u8], store: &mut [u8]) -> u64 {
            unsafe { linebox_display_read(frame.as_ptr(), frame.len(), store.as_mut_ptr(), store.len()) }
        }
        fn display_shown(&self, value: u32) -> u32 {
            unsafe { linebox_display_shown(value) }
        }
    }
}

/// A function's name and the refusal numbers that it can give.
struct Function {
    name: &'static str,
    refusals: &'static [u8],
}

const FUNCTIONS: [Function; 13] = [
    Function { name: "linebox_pcs_write", refusals: &[2, 3] },
    Function { name: "linebox_mdu_write", refusals: &[2, 3] },
    Function { name: "linebox_dle_write", refusals: &[2, 3] },
    Function { name: "linebox_dle_write_error", refusals: &[2] },
    Function { name: "linebox_expansion_write", refusals: &[2, 3] },
    Function { name: "linebox_pcs_read", refusals: &[1, 4, 5, 6, 8, 9, 10, 13] },
    Function { name: "linebox_mdu_read", refusals: &[1, 6, 8, 9, 10] },
    Function { name: "linebox_dle_read", refusals: &[1, 4, 5, 6, 7, 10] },
    Function { name: "linebox_expansion_read", refusals: &[1, 4, 5, 6, 7, 8, 9] },
    Function { name: "linebox_crc16", refusals: &[] },
    Function { name: "linebox_display_write", refusals: &[2, 3] },
    Function { name: "linebox_display_read", refusals: &[1, 4, 5, 6, 8, 9, 10, 13, 21] },
    Function { name: "linebox_display_shown", refusals: &[] },
];

/// One call: which function, its single numbers, its input bytes and how much
/// memory (output or store) it is lent. The numbers of the check are the two bytes
/// of its start and then the lengths of blocks, in which the input is gone through
/// besides; those of the display begin with the four bytes of the value.
struct Call {
    function: usize,
    numbers: Vec<u8>,
    input: Vec<u8>,
    lent: usize,
}

#[derive(Clone, Copy, Debug, PartialEq, Eq)]
enum Answer {
    Writer(i32),
    Read(u64),
    /// In one pass, and carried on over the blocks.
    Check(u16, u16),
    /// The places that a number is shown in.
    Shown(u32),
}

impl Answer {
    /// 0 for success.
    fn refusal(self) -> u64 {
        match self {
            Answer::Writer(number) if number < 0 => number.unsigned_abs() as u64,
            Answer::Writer(_) => 0,
            Answer::Read(bits) => bits & 255,
            Answer::Check(..) | Answer::Shown(_) => 0,
        }
    }
}

/// Block by block, what is left behind the last length as one more.
fn carried(host: &dyn Host, start: u16, lengths: &[u8], bytes: &[u8]) -> u16 {
    let (mut value, mut rest) = (start, bytes);
    for length in lengths {
        let (block, behind) = rest.split_at(rest.len().min(*length as usize));
        value = host.crc16(value, block);
        rest = behind;
    }
    host.crc16(value, rest)
}

impl Call {
    fn on(&self, host: &dyn Host, input: &[u8], lent: &mut [u8]) -> Answer {
        let n = &self.numbers;
        match self.function {
            0 => Answer::Writer(host.pcs_write([n[0], n[1], n[2], n[3], n[4], n[5], n[6]], input, lent)),
            1 => Answer::Writer(host.mdu_write(n[0], input, lent)),
            2 => Answer::Writer(host.dle_write(n[0], n[1], input, lent)),
            3 => Answer::Writer(host.dle_write_error(n[0], n[1], n[2], lent)),
            4 => Answer::Writer(host.expansion_write([n[0], n[1], n[2], n[3]], input, lent)),
            5 => Answer::Read(host.pcs_read(input, lent)),
            6 => Answer::Read(host.mdu_read(input, lent)),
            7 => Answer::Read(host.dle_read(input, lent)),
            8 => Answer::Read(host.expansion_read(input, lent)),
            9 => {
                let start = u16::from_be_bytes([n[0], n[1]]);
                Answer::Check(host.crc16(start, input), carried(host, start, &n[2..], input))
            }
            10 => Answer::Writer(host.display_write(self.value(), [n[4], n[5], n[6]], lent)),
            11 => Answer::Read(host.display_read(input, lent)),
            _ => Answer::Shown(host.display_shown(self.value())),
        }
    }

    /// The display's value.
    fn value(&self) -> u32 {
        let n = &self.numbers;
        u32::from_be_bytes([n[0], n[1], n[2], n[3]])
    }

    /// Of a PCS frame: 0 where it was written, 1 where it was read, and whether it has a CRC.
    fn sort(&self, answer: Answer) -> Option<(usize, bool)> {
        match (self.function, answer) {
            (0, Answer::Writer(length)) if length > 0 => Some((0, self.numbers[6] == 1)),
            (5, Answer::Read(bits)) if bits & 255 == 0 => Some((1, bits >> 22 & 1 == 1)),
            _ => None,
        }
    }
}

/// Output memory: the exact room, one less, one more, none, more, anything.
fn room(random: &mut Xorshift, exact: Result<usize, u8>) -> usize {
    match exact {
        Ok(exact) => match random.below(8) {
            0..=2 => exact,
            3 => exact - 1,
            4 => exact + 1,
            5 => random.below(exact + 1),
            6 => exact + random.below(80),
            _ => random.pick(&[0, 1, 2200]),
        },
        Err(_) => random.pick(&[0, 1, 8, 30, 300, 1200, 2200]),
    }
}

/// A field from `least` to `most`, now and then any byte.
fn field(random: &mut Xorshift, least: u8, most: u8) -> u8 {
    if random.once_in(16) {
        gen::edge(random)
    } else {
        gen::between(random, least, most)
    }
}

/// What a writer is called with, and how long its frame is if it makes one.
type Written = (Vec<u8>, Vec<u8>, Result<usize, u8>);

fn pcs_written(random: &mut Xorshift, mut length: usize) -> Written {
    let kind = field(random, 0, 3);
    if kind >= 2 && !random.once_in(6) {
        length = 0;
    }
    let receiver = if random.once_in(6) { 255 } else { field(random, 1, 250) };
    let (sender, number) = (field(random, 1, 250), field(random, 1, 250));
    let n = [receiver, sender, kind, number, field(random, 1, 250), field(random, 1, 250), field(random, 0, 1)];
    let data = gen::contents(random, length);
    let frame = pcs_frame(n, &data);
    (n.to_vec(), data, frame.map(|frame| frame.len()))
}

fn mdu_written(random: &mut Xorshift, length: usize) -> Written {
    let address = field(random, 0, 255);
    let body = gen::contents(random, length);
    let frame = mdu::frame(address, &body);
    (vec![address], body, frame.map(|frame| frame.len()))
}

fn dle_written(random: &mut Xorshift, length: usize) -> Written {
    let n = [gen::edge(random), gen::edge(random)];
    let data = gen::contents(random, length);
    let frame = dle::frame(n[0], n[1], &data);
    (n.to_vec(), data, frame.map(|frame| frame.len()))
}

fn dle_error_written(random: &mut Xorshift) -> Written {
    let n = [gen::edge(random), gen::edge(random), gen::edge(random)];
    (n.to_vec(), Vec::new(), Ok(dle::error_frame(n[0], n[1], n[2]).len()))
}

fn expansion_written(random: &mut Xorshift, mut length: usize) -> Written {
    let kind = field(random, 0, 2);
    if kind >= 1 && !random.once_in(6) {
        length = 0;
    }
    let n = [gen::edge(random), kind, field(random, 0, 3), gen::edge(random)];
    let data = gen::contents(random, length);
    let frame = expansion::frame(n[0], n[1], n[2], n[3], &data);
    (n.to_vec(), data, frame.map(|frame| frame.len()))
}

fn writer_call(random: &mut Xorshift, function: usize) -> Call {
    let length = gen::data_length(random);
    let (numbers, input, exact) = match function {
        0 => pcs_written(random, length),
        1 => mdu_written(random, length),
        2 => dle_written(random, length),
        3 => dle_error_written(random),
        _ => expansion_written(random, length),
    };
    Call { function, numbers, input, lent: room(random, exact) }
}

fn read_call(random: &mut Xorshift, function: usize) -> Call {
    let (input, size) = match function {
        5 => (gen::run(random, Wire::Pcs), Pcs::SIZE),
        6 => (gen::run(random, Wire::Mdu), Mdu::SIZE),
        7 => (gen::run(random, Wire::Dle), Dle::SIZE),
        8 => (gen::run(random, Wire::Expansion), Expansion::SIZE),
        _ => (orders::run(random), Pcs::SIZE),
    };
    let lent = match random.below(24) {
        0 => size - 1,
        1 => random.pick(&[0, 1, size / 3, size - 2]),
        2 => size + 1,
        3 => size + random.below(300),
        _ => size,
    };
    Call { function, numbers: Vec::new(), input, lent }
}

fn check_call(random: &mut Xorshift, function: usize) -> Call {
    let mut numbers = gen::start(random).to_be_bytes().to_vec();
    for _ in 0..random.below(5) {
        numbers.push(gen::edge(random));
    }
    let length = gen::data_length(random);
    Call { function, numbers, input: gen::contents(random, length), lent: 0 }
}

const GUARD: usize = 32;

/// A run of memory with a canary of `GUARD` bytes on both sides.
fn guarded(random: &mut Xorshift, length: usize) -> Vec<u8> {
    let mut memory = Vec::with_capacity(length + 2 * GUARD);
    while memory.len() < length + 2 * GUARD {
        memory.extend(random.next().to_le_bytes());
    }
    memory.truncate(length + 2 * GUARD);
    memory
}

fn inside(memory: &mut [u8]) -> &mut [u8] {
    let end = memory.len() - GUARD;
    &mut memory[GUARD..end]
}

/// What a comparison found: counts of each answer, by function and number, and of
/// the PCS frames written and read, without CRC and with it.
pub struct Counts {
    answers: [[u64; 22]; FUNCTIONS.len()],
    sorts: [[u64; 2]; 2],
}

/// What a call left: the answer, the memory and the input, each with its canary.
#[derive(PartialEq)]
struct Left {
    answer: Answer,
    memory: Vec<u8>,
    input: Vec<u8>,
}

fn left(call: &Call, host: &dyn Host, input: &[u8], canary: &[u8]) -> Left {
    let (mut memory, mut input) = (canary.to_vec(), input.to_vec());
    let answer = call.on(host, inside(&mut input), inside(&mut memory));
    Left { answer, memory, input }
}

/// The text of a difference.
fn difference(call: &Call, canary: &[u8], got: &Left, expected: &Left) -> String {
    let mut text = format!("{}\n", FUNCTIONS[call.function].name);
    text += &format!("numbers  {:?}\n", call.numbers);
    text += &format!("input    {} bytes {}\n", call.input.len(), hex(&call.input));
    text += &format!("lent     {} bytes\n", call.lent);
    text += &format!("answer   {:?} (refusal {})\n", got.answer, got.answer.refusal());
    text += &format!("expected {:?} (refusal {})\n", expected.answer, expected.answer.refusal());
    if let Some(place) = got.memory.iter().zip(&expected.memory).position(|(a, b)| a != b) {
        let lent = GUARD..canary.len() - GUARD;
        text += &format!("memory differs first at place {} of the lent bytes\n", place as i64 - GUARD as i64);
        text += &format!("before   {}\n", hex(&canary[lent.clone()]));
        text += &format!("memory   {}\n", hex(&got.memory[lent.clone()]));
        text += &format!("expected {}\n", hex(&expected.memory[lent]));
    }
    if got.input != expected.input {
        text += "the input bytes were changed\n";
    }
    text
}

/// Compares `count` generated calls; the text of the first difference otherwise.
pub fn compare(host: &dyn Host, seed: u64, count: u64) -> Result<Counts, String> {
    let mut random = Xorshift::new(seed);
    let mut counts = Counts { answers: [[0; 22]; FUNCTIONS.len()], sorts: [[0; 2]; 2] };
    for number in 0..count {
        // Reads have more to show than writers.
        let function = match number % 18 {
            17 => 11,
            more @ 13..=16 => (more - 8) as usize,
            each => each as usize,
        };
        let call = match function {
            0..=4 => writer_call(&mut random, function),
            5..=8 | 11 => read_call(&mut random, function),
            9 => check_call(&mut random, function),
            10 => orders::write_call(&mut random, function),
            _ => orders::shown_call(&mut random, function),
        };
        let mut input = guarded(&mut random, call.input.len());
        inside(&mut input).copy_from_slice(&call.input);
        let canary = guarded(&mut random, call.lent);
        let expected = left(&call, &Own, &input, &canary);
        let got = left(&call, host, &input, &canary);
        if got != expected {
            let text = difference(&call, &canary, &got, &expected);
            return Err(format!("difference at call {number} (seed {seed}): {text}"));
        }
        counts.answers[function][expected.answer.refusal() as usize] += 1;
        if let Some((way, crc)) = call.sort(expected.answer) {
            counts.sorts[way][crc as usize] += 1;
        }
    }
    Ok(counts)
}

impl Counts {
    /// One row a function, one column a number; `.` where it can't be given.
    pub fn table(&self) -> String {
        let numbers = [0usize, 1, 2, 3, 4, 5, 6, 7, 8, 9, 10, 13, 21];
        let mut text = format!("{:<24}", "function");
        for number in numbers {
            text += &if number == 0 { format!("{:>8}", "ok") } else { format!("{number:>8}") };
        }
        text += "\n";
        for (function, row) in FUNCTIONS.iter().zip(&self.answers) {
            text += &format!("{:<24}", function.name);
            for number in numbers {
                let can = number == 0 || function.refusals.contains(&(number as u8));
                text += &if can || row[number] > 0 { format!("{:>8}", row[number]) } else { format!("{:>8}", ".") };
            }
            text += "\n";
        }
        let [written, read] = self.sorts;
        text += &format!("PCS frames written: {} plain, {} with CRC; ", written[0], written[1]);
        text += &format!("read: {} plain, {} with CRC\n", read[0], read[1]);
        text
    }

    /// Answers that a function can give and that were never seen, and the other way round; a sort of PCS frames never seen.
    pub fn missing(&self) -> Vec<String> {
        let mut missing = Vec::new();
        if self.sorts.concat().contains(&0) {
            missing.push(String::from("a sort of PCS frames was never written or never read"));
        }
        for (function, row) in FUNCTIONS.iter().zip(&self.answers) {
            for (number, seen) in row.iter().enumerate() {
                let can = number == 0 || function.refusals.contains(&(number as u8));
                if can && *seen == 0 {
                    missing.push(format!("{} never answered {number}", function.name));
                }
                if !can && *seen > 0 {
                    missing.push(format!("{} can't answer {number} and did", function.name));
                }
            }
        }
        missing
    }
}

#[cfg(test)]
mod tests {
    use super::orders::mistaken;
    use super::*;

    #[test]
    fn own_against_own_sees_every_number() {
        for seed in [0, 1, 2, 42] {
            let counts = compare(&Own, seed, 4000).unwrap_or_else(|text| panic!("{text}"));
            assert!(counts.missing().is_empty(), "{:?}", counts.missing());
        }
    }

    /// One wrong answer at a time, which the comparison must find; those of the display stand behind the others.
    struct Wrong(u8);

    const FIRST_OF_DISPLAY: u8 = 33;

    /// A frame with CRC, the byte at this place of its four check bytes put right.
    fn put_right(frame: &[u8], place: usize) -> Vec<u8> {
        let mut frame = frame.to_vec();
        let checks = frame.len() - 5;
        frame[checks + place] = pcs::checks(&frame[1..checks], true)[place];
        frame
    }

    fn zeros_made_128(frame: &[u8]) -> Vec<u8> {
        let (before, last) = frame.split_at(frame.len() - 5);
        let last: Vec<u8> = last.iter().map(|byte| if *byte == 0 { 128 } else { *byte }).collect();
        [before, &last].concat()
    }

    /// The 16-bit check four bits at a time, so many steps a byte; what the four bits 1101 lead to is wrong in these bits.
    fn by_halves(start: u16, bytes: &[u8], steps: usize, wrong: u16) -> u16 {
        let four_leave = |c: u16| (0..4).fold(c, |c, _| if c & 1 == 1 { c >> 1 ^ 0xA001 } else { c >> 1 });
        let step = |c: u16| if c & 15 == 13 { four_leave(c) ^ wrong } else { four_leave(c) };
        bytes.iter().fold(start, |c, byte| (0..steps).fold(c ^ u16::from(*byte), |c, _| step(c)))
    }

    #[test]
    fn two_steps_a_byte_are_the_check() {
        assert_eq!(by_halves(0x1234, b"123456789", 2, 0), Own.crc16(0x1234, b"123456789"));
    }

    impl Wrong {
        /// Answers of a reader that mistakes the rules of frames with CRC.
        fn pcs_answer(&self, frame: &[u8], answer: u64) -> u64 {
            let [253, gathered @ .., 254] = frame else { return answer };
            let n = gathered.len();
            let crc = pcs::has_crc(gathered);
            let again = |frame: Vec<u8>| Own.pcs_read(&frame, &mut [0; 1183]);
            match self.0 {
                19 => answer & !(1 << 22),
                20 if answer == 6 && crc && (9..12).contains(&n) => 8, // the least of a plain frame
                // 8 before 5, and 9 before 5, where a plain frame is too long
                21 if answer == 5 && n <= 1183 && gathered[n - 1] != crate::sum::pcs(&gathered[..n - 1]) => 8,
                22 if answer == 5 && n <= 1183 && gathered[2] > 7 => 9,
                23 if answer == 8 && crc => again(zeros_made_128(frame)),
                24..=27 if answer == 8 && crc => again(put_right(frame, self.0 as usize - 24)), // one byte not compared
                28 if answer & 255 == 0 && n > 1180 => 5, // the size of a plain frame
                29 if answer == 10 && crc => 13,
                _ => answer,
            }
        }
    }

    impl Host for Wrong {
        fn pcs_write(&self, f: [u8; 7], data: &[u8], out: &mut [u8]) -> i32 {
            match self.0 {
                14 => return Own.pcs_write([f[0], f[1], f[2], f[3], f[4], f[5], f[6].min(1)], data, out),
                15 if f[6] > 1 && out.len() < 11 => return -2, // 2 before 3
                16 if f[6] == 1 && data.is_empty() && f[2] > 1 => return -3, // acknowledgements have it too
                17 if f[6] == 1 && data.len() == 1024 => return -3,
                _ => {}
            }
            let answer = Own.pcs_write(f, data, out);
            if self.0 == 0 && answer > 0 && out.len() > answer as usize {
                out[answer as usize] = 0; // a byte after the frame
            }
            if self.0 == 18 && answer > 0 && f[6] == 1 {
                out.swap(answer as usize - 4, answer as usize - 2); // top bits first
            }
            answer
        }
        fn mdu_write(&self, address: u8, body: &[u8], out: &mut [u8]) -> i32 {
            if self.0 == 1 && body.len() == 1025 {
                return -3;
            }
            Own.mdu_write(address, body, out)
        }
        fn dle_write(&self, sequence: u8, node: u8, data: &[u8], out: &mut [u8]) -> i32 {
            if self.0 == 2 && out.len() < 4 {
                return -2; // 2 before 3
            }
            Own.dle_write(sequence, node, data, out)
        }
        fn dle_write_error(&self, sequence: u8, node: u8, error: u8, out: &mut [u8]) -> i32 {
            if self.0 == 3 && !out.is_empty() {
                out[0] = 0x10; // writes although refused
            }
            Own.dle_write_error(sequence, node, error, out)
        }
        fn expansion_write(&self, f: [u8; 4], data: &[u8], out: &mut [u8]) -> i32 {
            if self.0 == 4 && data.len() == 1024 {
                return -3;
            }
            Own.expansion_write(f, data, out)
        }
        fn pcs_read(&self, frame: &[u8], store: &mut [u8]) -> u64 {
            let answer = Own.pcs_read(frame, store);
            if self.0 == 5 && answer == 13 {
                return 10;
            }
            if self.0 == 6 && answer & 255 == 0 && store.len() > 1183 {
                store[1183] = 0; // a byte behind the frame's
            }
            self.pcs_answer(frame, answer)
        }
        fn mdu_read(&self, frame: &[u8], store: &mut [u8]) -> u64 {
            if self.0 == 7 && frame.first() == Some(&0xFF) {
                return Own.mdu_read(&frame[1..], store); // noise in front let through
            }
            Own.mdu_read(frame, store)
        }
        fn dle_read(&self, frame: &[u8], store: &mut [u8]) -> u64 {
            let answer = Own.dle_read(frame, store);
            if self.0 == 8 && answer & (1 << 20) != 0 {
                return answer & !(1 << 20);
            }
            answer
        }
        fn expansion_read(&self, frame: &[u8], store: &mut [u8]) -> u64 {
            if self.0 == 9 && store.len() == 1031 {
                return Own.expansion_read(frame, &mut vec![0; 1032]); // 1 not given
            }
            Own.expansion_read(frame, store)
        }
        fn crc16(&self, start: u16, bytes: &[u8]) -> u16 {
            match self.0 {
                10 => Own.crc16(0, bytes),         // the start ignored, so each block from 0
                11 => Own.crc16(0, bytes) ^ start, // the start xored in at the end
                12 if bytes.is_empty() => 0,
                13 if bytes.len() >= 96 => Own.crc16(start & 0xFF, bytes),
                30 => Own.crc16(start, &bytes.iter().map(|byte| byte.rotate_left(4)).collect::<Vec<u8>>()), // high half first
                31 => by_halves(start, bytes, 1, 0),                                                         // one step a byte
                32 => by_halves(start, bytes, 2, 1),                                                         // one constant wrong
                _ => Own.crc16(start, bytes),
            }
        }
        fn display_write(&self, value: u32, f: [u8; 3], out: &mut [u8]) -> i32 {
            mistaken::write(self.0.wrapping_sub(FIRST_OF_DISPLAY), value, f, out)
        }
        fn display_read(&self, frame: &[u8], store: &mut [u8]) -> u64 {
            mistaken::read(self.0.wrapping_sub(FIRST_OF_DISPLAY), frame, store)
        }
        fn display_shown(&self, value: u32) -> u32 {
            mistaken::shown(self.0.wrapping_sub(FIRST_OF_DISPLAY), value)
        }
    }

    #[test]
    fn each_wrong_answer_is_found() {
        for wrong in 0..FIRST_OF_DISPLAY + mistaken::COUNT {
            assert!(compare(&Wrong(wrong), 1, 60_000).is_err(), "wrong answer {wrong} was not found");
        }
        assert!(compare(&Wrong(255), 1, 4000).is_ok());
    }
}
