//! One link's lines: a writer, a receiver with its state and store, whole frames.

use super::text::{answer_word, bytes_word, filled, given, mix, section, words, Given, Lines};
use crate::stream::{self, Event, Link, State};
use crate::whole;

/// A writer called with numbers, bytes and memory.
pub type Writer<'a> = &'a dyn Fn(&[u8], &[u8], &mut [u8]) -> Result<usize, u8>;

/// One link's section: its lines, those of its whole frames, the last frame, the
/// state and the store.
pub struct Section<'a> {
    name: &'a str,
    pub lines: Lines,
    pub whole: Lines,
    with_length: bool,
    writer: Writer<'a>,
    pub frame: Vec<u8>,
    pub state: State,
    pub store: Vec<u8>,
}

impl<'a> Section<'a> {
    pub fn new(name: &'a str, with_length: bool, writer: Writer<'a>) -> Self {
        Section {
            name,
            lines: section(name),
            whole: Lines::default(),
            with_length,
            writer,
            frame: Vec::new(),
            state: State::default(),
            store: Vec::new(),
        }
    }

    pub fn state_words(&self) -> String {
        let s = self.state;
        if self.with_length {
            format!("{} {} {} {} {}", s.mode, s.count, s.length, s.open, s.noise)
        } else {
            format!("{} {} {} {}", s.mode, s.count, s.open, s.noise)
        }
    }

    pub fn written(&mut self, head: String, room: usize, write: &dyn Fn(&mut [u8]) -> Result<usize, u8>) {
        let mut out = filled(room);
        let answer = match write(&mut out) {
            Ok(length) => {
                self.frame = out[..length].to_vec();
                format!("length {length} frame {}", answer_word(&self.frame))
            }
            Err(number) => format!("refused {number}"),
        };
        self.lines.add(&format!("{head} room {room}"), &format!("{answer} memory {}", mix(&out)));
    }

    pub fn write(&mut self, numbers: &[u8], data: Given, room: usize) {
        let writer = self.writer;
        let head = format!("write {} {}", words(numbers), data.word);
        self.written(head, room, &|out| writer(numbers, &data.bytes, out));
    }

    pub fn fresh(&mut self, room: usize) {
        self.state = State::default();
        self.store = filled(room);
        self.lines.add(&format!("fresh {room}"), "");
    }

    /// A store of these bytes; the state stays.
    pub fn hold(&mut self, store: Vec<u8>) {
        self.lines.add(&format!("store {}", bytes_word(&store)), "");
        self.store = store;
    }

    /// The whole store, to its last place.
    pub fn content(&mut self) {
        self.lines.add("content", &bytes_word(&self.store));
    }

    pub fn set(&mut self, state: State) {
        self.state = state;
        self.lines.add(&format!("state {}", self.state_words()), "");
    }

    /// How many bytes were used, and the event in words.
    pub fn receive_given<L: Link>(&mut self, piece: Given) -> (usize, String) {
        let received = stream::receive::<L>(&piece.bytes, self.state, &mut self.store);
        self.state = received.state;
        let event = match received.event {
            Event::Nothing => String::from("nothing"),
            Event::Refused(number) => format!("refused {number}"),
            Event::Message(message) => {
                let data = stream::data::<L>(&self.store, &message);
                format!("message {} {} {}", words(&L::fields(&message)), L::length(&message), answer_word(data))
            }
        };
        let (used, state, store) = (received.used, self.state_words(), mix(&self.store));
        let call = format!("receive {}", piece.word);
        self.lines.add(&call, &format!("used {used} {event} state {state} store {store}"));
        (used, event)
    }

    pub fn receive<L: Link>(&mut self, piece: &[u8]) -> (usize, String) {
        self.receive_given::<L>(given(piece))
    }

    /// The last frame written, on a fresh receiver.
    pub fn read_back<L: Link>(&mut self) {
        self.fresh(L::SIZE);
        let piece = Given { word: String::from("frame"), bytes: self.frame.clone() };
        self.receive_given::<L>(piece);
    }

    /// Each piece on a fresh receiver.
    pub fn each<L: Link>(&mut self, pieces: &[&[u8]]) {
        for piece in pieces {
            self.fresh(L::SIZE);
            self.receive::<L>(piece);
        }
    }

    /// Each piece on one receiver, which the one before it left hunting.
    pub fn in_turn<L: Link>(&mut self, pieces: &[Vec<u8>]) {
        self.fresh(L::SIZE);
        for piece in pieces {
            self.receive::<L>(piece);
        }
    }

    /// A stream cut after each byte.
    pub fn cut<L: Link>(&mut self, stream: &[u8]) {
        self.fresh(L::SIZE);
        for byte in stream {
            self.receive::<L>(&[*byte]);
        }
    }

    /// States that give 12: with a store of the link's size, and with a shorter
    /// one and an empty piece.
    pub fn odd<L: Link>(&mut self, states: &[State]) {
        for state in states {
            self.fresh(L::SIZE);
            self.set(*state);
            self.receive::<L>(&[0xFD, 0x10, 0xE3]);
            self.fresh(L::SIZE - 1);
            self.set(*state);
            self.receive::<L>(&[]);
        }
    }

    /// Known states with numbers that no call leaves: `open` and `noise` about to go round,
    /// four bytes of the store gathered in the modes that don't hunt.
    pub fn strange<L: Link>(&mut self, hunting: &[u64], open: &[u64]) {
        let (most, zero) = (u32::MAX, State::default());
        for mode in hunting.iter().chain(open) {
            let count = if open.contains(mode) { 4 } else { 0 };
            for piece in [&[][..], &[1], &[0x10, 0x02], &[0x02, 7], &[0xFD, 7], &[0xFE], &[0xE3, 7], &[0xFF, 0x00, 7]] {
                self.fresh(L::SIZE);
                self.set(State { mode: *mode, count, open: most, noise: most, ..zero });
                self.receive::<L>(piece);
            }
        }
    }

    /// The noise count goes round.
    pub fn noise_goes_round<L: Link>(&mut self) {
        self.fresh(L::SIZE);
        self.set(State { noise: u32::MAX, ..State::default() });
        self.receive::<L>(&[]);
        self.receive::<L>(&[0x01]);
        self.set(State { noise: u32::MAX, ..State::default() });
        self.receive::<L>(&[0x10, 0x01, 0x01]);
    }

    /// 1, for a fresh receiver.
    pub fn short<L: Link>(&mut self) {
        self.fresh(L::SIZE - 1);
        self.receive::<L>(&[]);
        self.receive::<L>(&[1, 2]);
        self.fresh(0);
        self.receive::<L>(&[1, 2]);
    }

    pub fn whole_given<L: Link>(&mut self, frame: &[u8], room: usize) {
        let mut store = filled(room);
        let answer = whole::read::<L>(frame, &mut store);
        let call = format!("whole {} {} room {room}", self.name, bytes_word(frame));
        self.whole.add(&call, &format!("answer {answer} store {}", mix(&store)));
    }

    /// The last frame alone, behind noise, before noise, without its last byte,
    /// twice, and with a short store.
    pub fn whole<L: Link>(&mut self) {
        let frame = self.frame.clone();
        self.whole_given::<L>(&frame, L::SIZE);
        self.whole_given::<L>(&[&[0x55], &frame[..]].concat(), L::SIZE);
        self.whole_given::<L>(&[&frame[..], &[0x55]].concat(), L::SIZE);
        self.whole_given::<L>(&frame[..frame.len() - 1], L::SIZE);
        self.whole_given::<L>(&[&frame[..], &frame[..]].concat(), L::SIZE);
        self.whole_given::<L>(&frame, L::SIZE - 1);
        self.whole_given::<L>(&[], L::SIZE);
    }

    pub fn part<L: Link>(&mut self, room: usize, length: usize, message: L::Message) {
        let store = filled(room);
        let part = stream::data::<L>(&store, &message);
        self.lines.add(&format!("part {room} {length}"), &format!("gives {}", part.len()));
    }
}
