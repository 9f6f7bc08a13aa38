//! The gate exchange: an asking end and a responding end with any state, step after
//! step, and the chain address.

use crate::gate::{Asking, Responder};
use crate::gen::{self, Xorshift};
use crate::vectors::gate::{self, Ask, Respond};
use crate::vectors::text::Lines;

/// A time about the end of the wait that began at `sent`, or any.
fn time(random: &mut Xorshift, sent: u32) -> u32 {
    const LATER: [u32; 11] = [0, 1, 98, 99, 100, 101, 200, 1 << 31, (1 << 31) - 1, u32::MAX, u32::MAX - 99];
    match random.below(5) {
        0 => random.next() as u32,
        _ => sent.wrapping_add(random.pick(&LATER)),
    }
}

fn any_asking(random: &mut Xorshift) -> Asking {
    let odd = random.once_in(5);
    let mode = if odd && random.once_in(2) { random.pick(&[2, 3, 255, 256, 257, 65_535]) } else { random.below(2) as u16 };
    let repeat = if odd { random.pick(&[3, 4, 5, 128, 255]) } else { random.below(4) as u8 };
    let sent = if random.once_in(3) { random.pick(&[0, 1, 99, u32::MAX]) } else { random.next() as u32 };
    Asking { mode, id: gen::edge(random), repeat, sent }
}

/// A start, a tick, an arrival with the waiting id or another one, or a cycle.
fn asked(random: &mut Xorshift, ask: &mut Ask) {
    let now = time(random, ask.asking.sent);
    match random.below(12) {
        0..=2 => ask.start(now),
        3..=6 => ask.tick(now),
        7..=10 => {
            let kind = if random.once_in(6) { gen::edge(random) } else { random.below(3) as u8 };
            let id = match random.below(8) {
                0 => gen::edge(random),
                1 => ask.asking.id.wrapping_add(1),
                2 => ask.asking.id.wrapping_sub(1),
                _ => ask.asking.id,
            };
            ask.arrival(kind, id, now);
        }
        _ => ask.cycle(random.pick(&[0, 1, 2, 255, 256, 257, 300])),
    }
}

pub fn asking(random: &mut Xorshift) -> Lines {
    let mut ask = Ask::new(Lines::default());
    if random.once_in(4) {
        ask.fresh();
    } else {
        ask.state(any_asking(random));
    }
    for _ in 0..1 + random.below(10) {
        asked(random, &mut ask);
    }
    ask.lines
}

fn arrived(random: &mut Xorshift, respond: &mut Respond) {
    let head = random.once_in(2);
    if random.once_in(3) {
        let number = if random.once_in(3) { random.below(20) as u8 } else { 8 };
        let length = if random.once_in(8) { random.below(1100) } else { random.below(8) };
        let store = gen::contents(random, length);
        return respond.refused(head, number, &store);
    }
    let id = if random.once_in(3) { gen::edge(random) } else { respond.responder.id };
    let kind = if random.once_in(4) { gen::edge(random) } else { 0 };
    let repeat = if random.once_in(8) { gen::edge(random) } else { random.below(4) as u8 };
    respond.accepted(head, id, kind, repeat, gen::edge(random));
}

pub fn responding(random: &mut Xorshift) -> Lines {
    let mut respond = Respond::new(Lines::default());
    if random.once_in(4) {
        respond.fresh();
    } else {
        respond.state(Responder { handed: random.once_in(2), id: gen::edge(random) });
    }
    for _ in 0..1 + random.below(10) {
        arrived(random, &mut respond);
    }
    respond.lines
}

pub fn chain(random: &mut Xorshift) -> Lines {
    let mut lines = Lines::default();
    gate::chain(&mut lines, gen::edge(random));
    lines
}

#[cfg(test)]
mod tests {
    use super::*;

    #[test]
    fn known_and_unknown_states_are_asked() {
        let mut random = Xorshift::new(3);
        let states: Vec<Asking> = (0..500).map(|_| any_asking(&mut random)).collect();
        let unknown = states.iter().filter(|state| state.mode > 1 || state.repeat > 3).count();
        assert!((30..150).contains(&unknown), "{unknown}");
        assert!(states.iter().any(|state| state.mode == 1 && state.repeat == 3));
        assert!(states.iter().any(|state| state.mode == 0 && state.repeat > 3));
    }

    #[test]
    fn every_sequence_sets_its_state_first() {
        let mut random = Xorshift::new(4);
        for _ in 0..50 {
            let lines = asking(&mut random).calls;
            assert!(lines.starts_with("ask fresh") || lines.starts_with("ask state"));
            let lines = responding(&mut random).calls;
            assert!(lines.starts_with("respond fresh") || lines.starts_with("respond state"));
        }
    }
}
