//! The gate exchange: the asking end, the responding end, the chain address.

use super::text::{bytes_word, section, Lines};
use crate::gate::{self, Answer, Asking, Reply, Responder, Response};

/// Lines of the asking end.
pub struct Ask {
    pub lines: Lines,
    pub asking: Asking,
}

fn state_words(asking: Asking) -> String {
    format!("{} {} {} {}", asking.mode, asking.id, asking.repeat, asking.sent)
}

impl Ask {
    pub fn new(lines: Lines) -> Self {
        Ask { lines, asking: gate::fresh() }
    }

    fn line(&mut self, called: String, (asking, answer): (Asking, Answer)) {
        self.asking = asking;
        let word = match answer {
            Answer::Nothing => String::from("nothing"),
            Answer::Send { id, repeat } => format!("send {id} {repeat}"),
            Answer::Done => String::from("done"),
            Answer::GivenUp => String::from("given-up"),
            Answer::Refused(number) => format!("refused {number}"),
        };
        self.lines.add(&format!("ask {called}"), &format!("{word} state {}", state_words(asking)));
    }

    pub fn fresh(&mut self) {
        self.asking = gate::fresh();
        self.lines.add("ask fresh", "");
    }

    pub fn start(&mut self, now: u32) {
        self.line(format!("start {now}"), gate::start(self.asking, now));
    }

    pub fn tick(&mut self, now: u32) {
        self.line(format!("tick {now}"), gate::tick(self.asking, now));
    }

    pub fn arrival(&mut self, kind: u8, id: u8, now: u32) {
        self.line(format!("arrival {id} {kind} {now}"), gate::arrival(self.asking, kind, id, now));
    }

    pub fn state(&mut self, asking: Asking) {
        self.asking = asking;
        self.lines.add(&format!("ask state {}", state_words(asking)), "");
    }

    pub fn cycle(&mut self, times: usize) {
        let mut last = 0;
        for _ in 0..times {
            let (waiting, answer) = gate::start(self.asking, 0);
            if let Answer::Send { id, .. } = answer {
                last = id;
            }
            self.asking = gate::arrival(waiting, 1, last, 0).0;
        }
        self.lines.add(&format!("ask cycle {times}"), &format!("last {last} state {}", state_words(self.asking)));
    }
}

fn reply_words(reply: Option<Reply>) -> String {
    match reply {
        Some(reply) => format!("reply {} {} {} {}", reply.id, reply.kind, reply.repeat, reply.address),
        None => String::from("reply none"),
    }
}

fn who(head: bool) -> &'static str {
    if head {
        "head"
    } else {
        "board"
    }
}

/// Lines of the responding end.
pub struct Respond {
    pub lines: Lines,
    pub responder: Responder,
}

impl Respond {
    pub fn new(lines: Lines) -> Self {
        Respond { lines, responder: Responder::default() }
    }

    fn line(&mut self, call: String, (responder, reply, handed): Response) {
        self.responder = responder;
        let last = if responder.handed { responder.id.to_string() } else { String::from("none") };
        self.lines.add(&call, &format!("{} handed {} last {last}", reply_words(reply), handed as u8));
    }

    pub fn fresh(&mut self) {
        self.responder = Responder::default();
        self.lines.add("respond fresh", "");
    }

    pub fn state(&mut self, responder: Responder) {
        self.responder = responder;
        self.lines.add(&format!("respond state {} {}", responder.handed as u8, responder.id), "");
    }

    pub fn accepted(&mut self, head: bool, id: u8, kind: u8, repeat: u8, address: u8) {
        let call = format!("respond {} {id} {kind} {repeat} {address}", who(head));
        self.line(call, gate::accepted(self.responder, head, id, kind, repeat, address));
    }

    /// Number 0 stands for a call that told nothing.
    pub fn refused(&mut self, head: bool, number: u8, store: &[u8]) {
        let call = format!("respond-refused {} {number} {}", who(head), bytes_word(store));
        let answered = match number {
            0 => gate::quiet(self.responder),
            _ => gate::refused(self.responder, head, number, store),
        };
        self.line(call, answered);
    }
}

/// Waits, repeats, giving up.
fn waits(ask: &mut Ask) {
    ask.tick(500);
    ask.arrival(1, 0, 500);
    ask.arrival(2, 0, 500);
    ask.start(1000);
    ask.start(1001);
    ask.tick(1099);
    ask.tick(1100);
    ask.tick(1199);
    ask.tick(1200);
    ask.start(1201);
    ask.tick(1300);
    ask.tick(1399);
    ask.tick(1400);
    ask.tick(1500);
}

/// The next id; check errors; another id and other types change nothing.
fn replies(ask: &mut Ask) {
    ask.start(2000);
    ask.arrival(2, 0, 2001);
    ask.arrival(1, 0, 2001);
    ask.arrival(0, 1, 2001);
    ask.arrival(3, 1, 2001);
    ask.arrival(2, 1, 2002);
    ask.tick(2101);
    ask.tick(2102);
    ask.arrival(2, 1, 2103);
    ask.arrival(2, 1, 2104);
    ask.arrival(1, 1, 2105);
    ask.start(3000);
    ask.arrival(1, 2, 3099);
    ask.arrival(1, 2, 3099);
}

/// The clock goes round, a clock set back ends the wait early; ids go round.
fn rounds(ask: &mut Ask) {
    ask.start(4_294_967_290);
    ask.tick(4_294_967_295);
    ask.tick(93);
    ask.tick(94);
    ask.tick(93);
    ask.arrival(1, 3, 0);
    ask.cycle(251);
    ask.start(0);
    ask.arrival(1, 255, 0);
    ask.start(0);
    ask.arrival(1, 0, 0);
}

/// 12 before 14 and all else; nothing changes.
fn unknown(ask: &mut Ask) {
    for (mode, repeat) in [(2, 0), (0, 4), (1, 4), (1, 255), (65_535, 3)] {
        ask.state(Asking { mode, id: 7, repeat, sent: 5 });
        ask.start(0);
        ask.tick(1000);
        ask.arrival(1, 7, 0);
        ask.arrival(2, 7, 0);
        ask.arrival(9, 9, 0);
    }
}

/// Known states that no exchange comes to: a repeat while idle, any id and time.
fn strange(ask: &mut Ask) {
    for mode in [0, 1] {
        for repeat in [0, 3] {
            let state = Asking { mode, id: 200, repeat, sent: 4_000_000_000 };
            ask.state(state);
            ask.tick(4_000_000_099);
            ask.tick(4_000_000_100);
            ask.state(state);
            ask.arrival(1, 200, 1);
            ask.start(2);
            ask.state(state);
            ask.arrival(2, 200, 3);
            ask.arrival(1, 201, 4);
        }
    }
}

/// Accepted frames at the responding end: id, type, repeat, address.
const ARRIVALS: [(u8, u8, u8, u8); 10] = [
    (0, 1, 0, 9),
    (0, 2, 0, 9),
    (0, 0, 1, 9),
    (0, 0, 2, 9),
    (0, 0, 0, 9),
    (1, 0, 3, 0),
    (1, 0, 3, 255),
    (0, 0, 3, 7),
    (0, 1, 3, 7),
    (0, 0, 1, 7),
];

fn responding(respond: &mut Respond, head: bool) {
    respond.fresh();
    for (id, kind, repeat, address) in ARRIVALS {
        respond.accepted(head, id, kind, repeat, address);
    }
    for number in [0, 4, 5, 6, 7, 8, 9, 255] {
        respond.refused(head, number, &[77, 9, 9, 200, 1]);
    }
    // The id that an 8 bears is not the last handed out, nor is it remembered.
    respond.accepted(head, 77, 0, 1, 6);
    respond.refused(head, 8, &[0, 9, 9, 200]);
    respond.accepted(head, 77, 0, 1, 6);
    // A store that can't hold an address.
    for length in 0..4 {
        respond.refused(head, 8, &[77, 9, 9, 9][..length]);
    }
    respond.fresh();
    respond.refused(head, 8, &[1, 2]);
    respond.refused(head, 8, &[1, 2, 3, 4]);
    for (handed, id) in [(true, 5), (false, 5)] {
        respond.state(Responder { handed, id });
        respond.refused(head, 8, &[5, 0, 1]);
        respond.accepted(head, 5, 1, 1, 3);
        respond.accepted(head, 5, 0, 1, 3);
    }
}

pub fn chain(lines: &mut Lines, address: u8) {
    let down = match gate::down(address) {
        Ok(next) => format!("gives {next} here {}", gate::here(next) as u8),
        Err(number) => format!("refused {number}"),
    };
    lines.add(&format!("chain down {address}"), &down);
    let up = match gate::up(address) {
        Ok(next) => format!("gives {next}"),
        Err(number) => format!("refused {number}"),
    };
    lines.add(&format!("chain up {address}"), &up);
}

pub fn gate_section() -> Lines {
    let mut ask = Ask::new(section("gate"));
    ask.fresh();
    waits(&mut ask);
    replies(&mut ask);
    rounds(&mut ask);
    unknown(&mut ask);
    strange(&mut ask);
    let mut respond = Respond::new(ask.lines);
    for head in [false, true] {
        responding(&mut respond, head);
    }
    let mut lines = respond.lines;
    for address in [0u8, 1, 2, 254, 255] {
        chain(&mut lines, address);
    }
    lines
}
