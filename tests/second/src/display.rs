//! The queue display (02, request 5): a profile of PCS, the three places shown, the display end.

use crate::pcs::{self, Pcs};
use crate::stream;
use crate::whole;

/// The largest number that eight digits can write.
pub const MOST: u32 = 99_999_999;
/// What stands in front of the digits.
const WORD: &[u8] = b"CLCSH";
/// The receiver that every display is meant by.
const EVERYBODY: u8 = 255;
/// Both ports of the profile.
const PORT: u8 = 1;
/// PCS's kinds: asks for an acknowledgement, and the positive one.
const ASKS: u8 = 1;
const POSITIVE: u8 = 2;

/// A frame of the profile: a number to be shown, and where it comes from and goes to.
#[derive(Clone, Copy, Debug, PartialEq, Eq)]
pub struct Order {
    pub receiver: u8,
    pub sender: u8,
    pub number: u8,
    pub value: u32,
}

impl Order {
    /// Bits 8 to 63 of the host's 64-bit answer.
    pub fn answer(&self) -> u64 {
        (self.receiver as u64) << 8 | (self.sender as u64) << 16 | (self.number as u64) << 24 | (self.value as u64) << 32
    }
}

/// The data of an order. A number has no zero in front, and 0 is one digit.
pub fn data(value: u32) -> Vec<u8> {
    [WORD, value.to_string().as_bytes()].concat()
}

/// The frame of an order: 3 for the number or by PCS's own rules.
pub fn frame(value: u32, receiver: u8, sender: u8, number: u8) -> Result<Vec<u8>, u8> {
    if value > MOST {
        return Err(3);
    }
    pcs::frame(receiver, sender, ASKS, number, PORT, PORT, false, &data(value))
}

/// Writer: 3, then 2, then the frame at the start of `out`.
pub fn write(value: u32, receiver: u8, sender: u8, number: u8, out: &mut [u8]) -> Result<usize, u8> {
    stream::put(&frame(value, receiver, sender, number)?, out)
}

/// The number that one to eight digits write, the first of several not 0.
fn value_of(digits: &[u8]) -> Option<u32> {
    let length_ok = (1..=8).contains(&digits.len());
    if !length_ok || !digits.iter().all(u8::is_ascii_digit) || (digits.len() > 1 && digits[0] == b'0') {
        return None;
    }
    Some(digits.iter().fold(0, |value, digit| 10 * value + (digit - b'0') as u32))
}

/// A PCS message as an order; none outside the profile.
fn order(message: &pcs::Message, data: &[u8]) -> Option<Order> {
    let m = message;
    if m.kind != ASKS || m.sender_port != PORT || m.receiver_port != PORT || m.crc {
        return None;
    }
    let value = value_of(data.strip_prefix(WORD)?)?;
    Some(Order { receiver: m.receiver, sender: m.sender, number: m.number, value })
}

/// Reader of one whole frame: PCS's refusals, then 21. The store is as PCS leaves it.
pub fn read(run: &[u8], store: &mut [u8]) -> Result<Order, u8> {
    let message = whole::message::<Pcs>(run, store)?;
    order(&message, stream::data::<Pcs>(store, &message)).ok_or(21)
}

/// The last three digits of a number, with spaces on the left where it has fewer. The
/// papers leave numbers of more than eight digits free: the last three too.
pub fn shown(value: u32) -> [u8; 3] {
    let mut places = [b' '; 3];
    for (place, digit) in places.iter_mut().rev().zip(value.to_string().bytes().rev()) {
        *place = digit;
    }
    places
}

/// A display: its address, sender and number of the frame taken last, what it shows.
#[derive(Clone, Copy, Debug, PartialEq, Eq)]
pub struct Display {
    pub own: u8,
    pub last: Option<(u8, u8)>,
    pub places: [u8; 3],
}

pub fn fresh(own: u8) -> Display {
    Display { own, last: None, places: [b' '; 3] }
}

impl Display {
    /// One whole frame: 3 for the own address, the reader's refusals, 2 for the answer, and
    /// each leaves the display as it was. Else the length of the answer, if there is one.
    pub fn take(&mut self, run: &[u8], store: &mut [u8], out: &mut [u8]) -> Result<Option<usize>, u8> {
        if !(1..=250).contains(&self.own) {
            return Err(3);
        }
        let order = read(run, store)?;
        if order.receiver != self.own && order.receiver != EVERYBODY {
            return Ok(None);
        }
        let answer = if order.receiver == self.own { Some(self.answer(&order, out)?) } else { None };
        self.show(&order);
        Ok(answer)
    }

    /// The acknowledgement, its addresses turned.
    fn answer(&self, order: &Order, out: &mut [u8]) -> Result<usize, u8> {
        pcs::write(order.sender, self.own, POSITIVE, order.number, PORT, PORT, false, &[], out)
    }

    /// Sender and number alone tell a frame from the last one taken.
    fn show(&mut self, order: &Order) {
        let taken = Some((order.sender, order.number));
        if self.last != taken {
            self.last = taken;
            self.places = shown(order.value);
        }
    }
}
