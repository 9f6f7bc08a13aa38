//! The queue display: orders written and read, nearly orders, and a display end that takes frame after frame.

use crate::display::Order;
use crate::gen::{self, Xorshift};
use crate::vectors::display::Orders;
use crate::vectors::text::{given, Given, Lines};

/// A sequence is ended when its calls are as long as this.
const LONG: usize = 12_000;

/// PCS's size, now and then about it or far from it.
fn store(random: &mut Xorshift) -> usize {
    match random.below(16) {
        0 => 1182,
        1 => random.pick(&[0, 1, 1180, 1181]),
        2 => 1184,
        3 => 1183 + random.below(300),
        _ => 1183,
    }
}

/// The exact room, one byte less or more, any.
fn room(random: &mut Xorshift, exact: usize) -> usize {
    match random.below(8) {
        0 | 1 => exact - 1,
        2 => exact + 1,
        3 => random.below(exact),
        4 => exact + random.below(40),
        _ => exact,
    }
}

/// A byte from 1 to 250, now and then any.
fn field(random: &mut Xorshift) -> u8 {
    if random.once_in(16) {
        gen::edge(random)
    } else {
        gen::between(random, 1, 250)
    }
}

fn write(random: &mut Xorshift, orders: &mut Orders) {
    let receiver = if random.once_in(5) { 255 } else { field(random) };
    let (value, sender, number) = (gen::display::any_value(random), field(random), field(random));
    let exact = gen::display::frame(Order { receiver: 1, sender: 1, number: 1, value }).len();
    let room = room(random, exact.max(18));
    orders.write(value, receiver, sender, number, room);
}

/// A write, a read of what was written last, a read of something like it, and the places of a number.
pub fn orders(random: &mut Xorshift) -> Lines {
    let mut orders = Orders::new(Lines::default());
    // What the word `frame` stands for is written in the same file.
    let first = gen::display::order(random);
    orders.write(first.value, first.receiver, first.sender, first.number, 40);
    for _ in 0..1 + random.below(6) {
        write(random, &mut orders);
        orders.read(&orders.last(), store(random));
        let order = gen::display::order(random);
        let run = gen::display::nearly(random, order);
        orders.read(&given(&run), store(random));
        orders.shown(gen::display::any_value(random));
        if orders.lines.calls.len() > LONG {
            break;
        }
    }
    orders.lines
}

/// Who sends to one display and its neighbours; few, so that frames repeat.
struct Line {
    own: u8,
    senders: [u8; 2],
    numbers: [u8; 2],
}

impl Line {
    fn new(random: &mut Xorshift, own: u8) -> Self {
        let sender = gen::between(random, 1, 250);
        let number = gen::between(random, 1, 249);
        Line { own, senders: [sender, gen::between(random, 1, 250)], numbers: [number, number + 1] }
    }

    /// An order for the display, for everybody, or for another one.
    fn order(&self, random: &mut Xorshift) -> Order {
        let receiver = match random.below(8) {
            0 | 1 => 255,
            2 => gen::between(random, 1, 250),
            3 => self.own.wrapping_add(random.pick(&[1, 255])).clamp(1, 250),
            _ => self.own.clamp(1, 250),
        };
        let sender = if random.once_in(4) { self.senders[1] } else { self.senders[0] };
        Order { receiver, sender, number: random.pick(&self.numbers), value: gen::display::value(random) }
    }
}

/// What a display is handed next: an order, something like it, or the same bytes once more.
fn handed(random: &mut Xorshift, line: &Line, orders: &mut Orders, before: &Given) -> Given {
    let order = line.order(random);
    match random.below(8) {
        0 | 1 => given(&gen::display::nearly(random, order)),
        2 => Given { word: before.word.clone(), bytes: before.bytes.clone() },
        3 => {
            orders.write(order.value, order.receiver, order.sender, order.number, 26);
            orders.last()
        }
        _ => given(&gen::display::frame(order)),
    }
}

/// A display, mostly with an address that one can have, and the frames that it is handed.
pub fn taking(random: &mut Xorshift) -> Lines {
    let mut orders = Orders::new(Lines::default());
    let own = if random.once_in(8) { gen::edge(random) } else { gen::between(random, 1, 250) };
    let line = Line::new(random, own);
    orders.fresh(own);
    let mut run = given(&gen::display::frame(line.order(random)));
    for _ in 0..2 + random.below(12) {
        orders.take(&run, store(random), room(random, 11));
        if orders.lines.calls.len() > LONG {
            break;
        }
        if random.once_in(24) {
            orders.fresh(own);
        }
        run = handed(random, &line, &mut orders, &run);
    }
    orders.lines
}

#[cfg(test)]
mod tests {
    use super::*;
    use crate::display;

    /// Orders for the display, for everybody and for others, new ones and repeats; of those for it also with another value.
    #[test]
    fn orders_and_their_repeats_are_taken() {
        let mut random = Xorshift::new(11);
        let mut seen = [0; 7];
        for _ in 0..400 {
            let own = gen::between(&mut random, 1, 250);
            let line = Line::new(&mut random, own);
            let mut end = display::fresh(own);
            for _ in 0..8 {
                let order = line.order(&mut random);
                let before = end;
                let taken = end.take(&gen::display::frame(order), &mut [0; 1183], &mut [0; 11]);
                assert!(taken.is_ok());
                let again = before.last == Some((order.sender, order.number));
                let case = match (order.receiver, again) {
                    (receiver, false) if receiver == own => 0,
                    (receiver, true) if receiver == own => if before.places == display::shown(order.value) { 1 } else { 2 },
                    (255, false) => 3,
                    (255, true) => 4,
                    (_, false) => 5,
                    (_, true) => 6,
                };
                assert_eq!(end == before, again || case > 4);
                seen[case] += 1;
            }
        }
        assert!(seen.iter().all(|count| *count > 5), "{seen:?}");
    }

    #[test]
    fn every_sequence_sets_its_display_or_its_frame_first() {
        let mut random = Xorshift::new(12);
        for _ in 0..50 {
            assert!(taking(&mut random).calls.starts_with("display fresh "));
            let lines = orders(&mut random).answered;
            assert!(lines.lines().next().is_some_and(|line| line.contains(" length ")));
        }
    }
}
