//! Fare records (source document 001, cut down by document 01).
//!
//! Low byte first: type in one byte, address and count in two each, elements.

/// Element size, signedness, and the most that address plus count may be.
struct Kind {
    size: usize,
    signed: bool,
    limit: usize,
}

fn kind_of(number: u8) -> Option<Kind> {
    match number {
        1 => Some(Kind { size: 1, signed: false, limit: 2000 }), // byte
        2 => Some(Kind { size: 2, signed: false, limit: 1000 }), // word
        3 => Some(Kind { size: 2, signed: true, limit: 1000 }),  // integer
        4 => Some(Kind { size: 4, signed: true, limit: 500 }),   // long integer
        5 => Some(Kind { size: 4, signed: false, limit: 500 }),  // double word
        _ => None,
    }
}

const HEAD: usize = 5;
const LONGEST: usize = 1024;

/// A well-formed record's head.
struct Head {
    kind: Kind,
    count: usize,
}

/// The head of a well-formed record, or 16.
fn head(payload: &[u8]) -> Result<Head, u8> {
    if payload.len() < HEAD {
        return Err(16);
    }
    let kind = kind_of(payload[0]).ok_or(16u8)?;
    let address = payload[1] as usize + payload[2] as usize * 256;
    let count = payload[3] as usize + payload[4] as usize * 256;
    let well_formed = count >= 1
        && address + count <= kind.limit
        && payload.len() == HEAD + kind.size * count
        && payload.len() <= LONGEST;
    if !well_formed {
        return Err(16);
    }
    Ok(Head { kind, count })
}

/// 16, then 17.
fn head_signed(payload: &[u8], signed: bool) -> Result<Head, u8> {
    let head = head(payload)?;
    if head.kind.signed != signed {
        return Err(17);
    }
    Ok(head)
}

fn element_bytes<'a>(payload: &'a [u8], head: &Head, number: usize) -> &'a [u8] {
    let from = HEAD + head.kind.size * number;
    &payload[from..from + head.kind.size]
}

fn unsigned_of(bytes: &[u8]) -> u32 {
    let mut value = 0u32;
    for byte in bytes.iter().rev() {
        value = value << 8 | *byte as u32;
    }
    value
}

/// Two's complement of the element's own width.
fn signed_of(bytes: &[u8]) -> i32 {
    let value = unsigned_of(bytes) as i64;
    let width = 8 * bytes.len() as u32;
    let half = 1i64 << (width - 1);
    (if value >= half { value - (1i64 << width) } else { value }) as i32
}

/// Copying unsigned fares: 16, 17, 2.
pub fn copy_unsigned(payload: &[u8], out: &mut [u32]) -> Result<usize, u8> {
    let head = head_signed(payload, false)?;
    if out.len() < head.count {
        return Err(2);
    }
    for (number, place) in out[..head.count].iter_mut().enumerate() {
        *place = unsigned_of(element_bytes(payload, &head, number));
    }
    Ok(head.count)
}

/// Copying signed fares: 16, 17, 2.
pub fn copy_signed(payload: &[u8], out: &mut [i32]) -> Result<usize, u8> {
    let head = head_signed(payload, true)?;
    if out.len() < head.count {
        return Err(2);
    }
    for (number, place) in out[..head.count].iter_mut().enumerate() {
        *place = signed_of(element_bytes(payload, &head, number));
    }
    Ok(head.count)
}

/// Reading one element: 16, 17, 18.
pub fn element_unsigned(payload: &[u8], number: usize) -> Result<u32, u8> {
    let head = head_signed(payload, false)?;
    if number >= head.count {
        return Err(18);
    }
    Ok(unsigned_of(element_bytes(payload, &head, number)))
}

/// Reading one element: 16, 17, 18.
pub fn element_signed(payload: &[u8], number: usize) -> Result<i32, u8> {
    let head = head_signed(payload, true)?;
    if number >= head.count {
        return Err(18);
    }
    Ok(signed_of(element_bytes(payload, &head, number)))
}

/// The bytes of a record from numbers of either signedness: 3, then 2.
fn write(number: u8, address: u16, fares: &[i64], signed: bool, out: &mut [u8]) -> Result<usize, u8> {
    let kind = kind_of(number).ok_or(3u8)?;
    let count = fares.len();
    let length = HEAD + kind.size * count;
    let width = 8 * kind.size as u32;
    let (least, most) = if kind.signed {
        (-(1i64 << (width - 1)), (1i64 << (width - 1)) - 1)
    } else {
        (0, (1i64 << width) - 1)
    };
    let may_be_sent = kind.signed == signed
        && count >= 1
        && address as usize + count <= kind.limit
        && length <= LONGEST
        && fares.iter().all(|fare| (least..=most).contains(fare));
    if !may_be_sent {
        return Err(3);
    }
    if out.len() < length {
        return Err(2);
    }
    out[0] = number;
    out[1..3].copy_from_slice(&address.to_le_bytes());
    out[3..5].copy_from_slice(&(count as u16).to_le_bytes());
    for (index, fare) in fares.iter().enumerate() {
        let from = HEAD + kind.size * index;
        out[from..from + kind.size].copy_from_slice(&fare.to_le_bytes()[..kind.size]);
    }
    Ok(length)
}

pub fn write_unsigned(number: u8, address: u16, fares: &[u32], out: &mut [u8]) -> Result<usize, u8> {
    let fares: Vec<i64> = fares.iter().map(|fare| *fare as i64).collect();
    write(number, address, &fares, false, out)
}

pub fn write_signed(number: u8, address: u16, fares: &[i32], out: &mut [u8]) -> Result<usize, u8> {
    let fares: Vec<i64> = fares.iter().map(|fare| *fare as i64).collect();
    write(number, address, &fares, true, out)
}

/// The record view, on a lent payload; type and count may be any numbers.
#[derive(Clone, Copy, Debug)]
pub struct View<'a> {
    pub payload: &'a [u8],
    pub number: u8,
    pub count: usize,
}

/// A view of a well-formed record, or 16.
pub fn view(payload: &[u8]) -> Result<View<'_>, u8> {
    let head = head(payload)?;
    Ok(View { payload, number: payload[0], count: head.count })
}

impl View<'_> {
    /// 16 where the payload is malformed or has another type or count than the view.
    fn held(&self) -> Result<(), u8> {
        let head = head(self.payload)?;
        if self.payload[0] != self.number || head.count != self.count {
            return Err(16);
        }
        Ok(())
    }

    pub fn element_unsigned(&self, number: usize) -> Result<u32, u8> {
        self.held()?;
        element_unsigned(self.payload, number)
    }

    pub fn element_signed(&self, number: usize) -> Result<i32, u8> {
        self.held()?;
        element_signed(self.payload, number)
    }
}
