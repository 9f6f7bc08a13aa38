//! The gate exchange (asking end and responding end) and the chain address.

/// The asking end's state, of any numbers. `id` is the latest one, also while idle.
#[derive(Clone, Copy, Debug, PartialEq, Eq)]
pub struct Asking {
    pub mode: u16,
    pub id: u8,
    pub repeat: u8,
    pub sent: u32,
}

const IDLE: u16 = 0;
const WAITING: u16 = 1;

/// A fresh one's first id is 0, the one after 255.
pub fn fresh() -> Asking {
    Asking { mode: IDLE, id: 255, repeat: 0, sent: 0 }
}

/// A wait is over after so many milliseconds.
const WAIT: u32 = 100;

#[derive(Clone, Copy, Debug, PartialEq, Eq)]
pub enum Answer {
    Nothing,
    /// Send the request with this id and repeat.
    Send { id: u8, repeat: u8 },
    Done,
    GivenUp,
    Refused(u8),
}

/// 12: an unknown mode or a repeat above 3, in either mode.
fn odd(asking: Asking) -> bool {
    asking.mode > WAITING || asking.repeat > 3
}

/// Idle again; the other numbers stay (left free by the paper, decided so).
fn idle(asking: Asking) -> Asking {
    Asking { mode: IDLE, ..asking }
}

/// Start: 12, then 14 while waiting; idle it sends the next id with repeat 0.
pub fn start(asking: Asking, now: u32) -> (Asking, Answer) {
    if odd(asking) {
        return (asking, Answer::Refused(12));
    }
    if asking.mode == WAITING {
        return (asking, Answer::Refused(14));
    }
    let id = asking.id.wrapping_add(1);
    (Asking { mode: WAITING, id, repeat: 0, sent: now }, Answer::Send { id, repeat: 0 })
}

/// Sends again with the next repeat, or gives up after the third.
fn again(asking: Asking, now: u32) -> (Asking, Answer) {
    if asking.repeat == 3 {
        return (idle(asking), Answer::GivenUp);
    }
    let resent = Asking { repeat: asking.repeat + 1, sent: now, ..asking };
    (resent, Answer::Send { id: resent.id, repeat: resent.repeat })
}

/// The clock: a wait lasts 100 milliseconds, reckoned modulo 2^32.
pub fn tick(asking: Asking, now: u32) -> (Asking, Answer) {
    if odd(asking) {
        return (asking, Answer::Refused(12));
    }
    if asking.mode == WAITING && now.wrapping_sub(asking.sent) >= WAIT {
        return again(asking, now);
    }
    (asking, Answer::Nothing)
}

/// A frame of type `kind` with `id` arrived.
pub fn arrival(asking: Asking, kind: u8, id: u8, now: u32) -> (Asking, Answer) {
    if odd(asking) {
        return (asking, Answer::Refused(12));
    }
    if asking.mode == WAITING && id == asking.id {
        if kind == 1 {
            return (idle(asking), Answer::Done);
        }
        if kind == 2 {
            return again(asking, now);
        }
    }
    (asking, Answer::Nothing)
}

/// The responding end's state: whether a request was handed out, and its id.
#[derive(Clone, Copy, Debug, Default, PartialEq, Eq)]
pub struct Responder {
    pub handed: bool,
    pub id: u8,
}

/// A frame that answers: repeat 0, no data.
#[derive(Clone, Copy, Debug, PartialEq, Eq)]
pub struct Reply {
    pub id: u8,
    pub kind: u8,
    pub repeat: u8,
    pub address: u8,
}

/// A board replies with address 0, the head with the one of the frame.
fn reply(id: u8, kind: u8, head: bool, address: u8) -> Reply {
    Reply { id, kind, repeat: 0, address: if head { address } else { 0 } }
}

/// The new state, the reply, and whether the request is handed out.
pub type Response = (Responder, Option<Reply>, bool);

/// An accepted frame: every request is acknowledged; a repeat of the request
/// handed out last is not handed out again.
pub fn accepted(responder: Responder, head: bool, id: u8, kind: u8, repeat: u8, address: u8) -> Response {
    if kind != 0 {
        return (responder, None, false);
    }
    let acknowledgement = Some(reply(id, 1, head, address));
    if responder.handed && responder.id == id && repeat > 0 {
        return (responder, acknowledgement, false);
    }
    (Responder { handed: true, id }, acknowledgement, true)
}

/// A refused frame: an 8 gets a check error that bears the gathered id.
/// No reply where the store can't hold an address (left free by the paper).
pub fn refused(responder: Responder, head: bool, number: u8, store: &[u8]) -> Response {
    if number != 8 || store.len() < 4 {
        return (responder, None, false);
    }
    (responder, Some(reply(store[0], 2, head, store[3])), false)
}

/// A call of the receiver that told nothing.
pub fn quiet(responder: Responder) -> Response {
    (responder, None, false)
}

/// One step down the chain; none from 0.
pub fn down(address: u8) -> Result<u8, u8> {
    address.checked_sub(1).ok_or(15)
}

/// After a step down, 0 means here.
pub fn here(address: u8) -> bool {
    address == 0
}

/// Upward it steps up; 255 gives 15.
pub fn up(address: u8) -> Result<u8, u8> {
    address.checked_add(1).ok_or(15)
}
