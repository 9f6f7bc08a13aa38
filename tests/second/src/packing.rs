//! PCS packing: 7-bit values, and eight-bit data in groups of up to seven.

/// A value of seven bits as it is sent: 128 stands for 0.
pub fn seven_out(value: u8) -> u8 {
    if value == 0 {
        128
    } else {
        value
    }
}

/// The 7-bit value of a sent byte; none for a byte outside 1 to 128.
pub fn seven_in(byte: u8) -> Option<u8> {
    match byte {
        1..=127 => Some(byte),
        128 => Some(0),
        _ => None,
    }
}

/// A group goes out as seven bits of each byte and one byte of top bits: the
/// first byte of every group at place 6, each one behind it one place lower
/// (request 3 of 02). The places that a short group does not use are the low ones: 0.
pub fn pack(data: &[u8]) -> Vec<u8> {
    let mut packed = Vec::new();
    for group in data.chunks(7) {
        let mut tops = 0u8;
        for (index, byte) in group.iter().enumerate() {
            packed.push(seven_out(byte & 127));
            tops |= (byte >> 7) << (6 - index);
        }
        packed.push(seven_out(tops));
    }
    packed
}

/// The data of packed bytes. None (refusal 13) when a packed byte is outside
/// 1 to 128, the packed length is 1 modulo 8, or an unused place is set.
pub fn unpack(packed: &[u8]) -> Option<Vec<u8>> {
    if packed.len() % 8 == 1 {
        return None;
    }
    let mut data = Vec::new();
    for group in packed.chunks(8) {
        let in_group = group.len() - 1;
        let tops = seven_in(group[in_group])?;
        for (index, byte) in group[..in_group].iter().enumerate() {
            let top = (tops >> (6 - index)) & 1;
            data.push(seven_in(*byte)? | (top << 7));
        }
        if (in_group..7).any(|index| (tops >> (6 - index)) & 1 == 1) {
            return None;
        }
    }
    Some(data)
}

/// A packed run as the writers of 01 ended it: the top bits of a short last
/// group with the last byte's at place 0, so the high places unused.
pub fn old_style(data: &[u8]) -> Vec<u8> {
    let mut packed = pack(data);
    let in_group = data.len() % 7;
    if in_group > 0 {
        if let Some(last) = packed.last_mut() {
            *last = seven_out((*last & 127) >> (7 - in_group));
        }
    }
    packed
}

#[cfg(test)]
mod tests {
    use super::*;

    #[test]
    fn example_6() {
        let packed = [42, 87, 81, 81, 128, 128, 128, 108];
        let data = [0xAA, 0xD7, 0x51, 0xD1, 0x80, 0x00, 0x00];
        assert_eq!(unpack(&packed), Some(data.to_vec()));
        assert_eq!(pack(&data), packed.to_vec());
    }

    #[test]
    fn short_group_begins_at_place_6() {
        assert_eq!(pack(&[0x96, 0x64]), vec![22, 100, 64]); // 02's own
        assert_eq!(pack(&[0x80]), vec![128, 64]);
        assert_eq!(pack(&[0x80, 0x01]), vec![128, 1, 64]);
        assert_eq!(pack(&[0x01, 0x80]), vec![1, 128, 32]);
        assert_eq!(pack(&[0, 0, 0, 0, 0, 0x80]), vec![128, 128, 128, 128, 128, 128, 2]);
        assert_eq!(pack(&[]), Vec::<u8>::new());
    }

    #[test]
    fn old_style_short_groups() {
        assert_eq!(old_style(&[0x96, 0x64]), vec![22, 100, 2]); // by 01's rule
        assert_eq!(old_style(&[0x80]), vec![128, 1]);
        assert_eq!(old_style(&[0x80; 7]), pack(&[0x80; 7]));
        assert_eq!(old_style(&[]), Vec::<u8>::new());
        // Up to three bytes with a top bit set: 13. Of four to six some unpack, to other data.
        let bytes = |length: usize, tops: usize| -> Vec<u8> {
            (0..length).map(|k| ((tops >> k & 1) << 7) as u8).collect()
        };
        for (length, other) in [(1, 0), (2, 0), (3, 0), (4, 1), (5, 7), (6, 31)] {
            let answers: Vec<_> = (1..1 << length).map(|tops| (bytes(length, tops), unpack(&old_style(&bytes(length, tops))))).collect();
            assert_eq!(answers.iter().filter(|(_, answer)| answer.is_some()).count(), other, "{length}");
            assert!(answers.iter().all(|(data, answer)| answer.as_ref() != Some(data)), "{length}");
        }
        assert_eq!(unpack(&old_style(&[0x80, 0, 0, 0])), Some(vec![0, 0, 0, 0x80]));
    }

    #[test]
    fn badly_packed() {
        assert_eq!(unpack(&[1]), None); // length 1 modulo 8
        assert_eq!(unpack(&[1, 1, 1, 1, 1, 1, 1, 1, 1]), None);
        assert_eq!(unpack(&[128, 1]), None); // unused place set
        assert_eq!(unpack(&[1, 65]), None);
        assert_eq!(unpack(&[1, 64]), Some(vec![0x81]));
        assert_eq!(unpack(&[1, 1, 16]), None);
        assert_eq!(unpack(&[1, 1, 32]), Some(vec![1, 0x81]));
        assert_eq!(unpack(&[0, 128]), None); // outside 1 to 128
        assert_eq!(unpack(&[129, 128]), None);
        assert_eq!(unpack(&[1, 0]), None);
        assert_eq!(unpack(&[1, 129]), None);
        assert_eq!(unpack(&[]), Some(vec![]));
    }

    #[test]
    fn unpacks_what_it_packs() {
        for length in 0..40usize {
            let data: Vec<u8> = (0..length).map(|k| (k * 91 + length * 57) as u8).collect();
            let packed = pack(&data);
            assert_eq!(packed.len(), length + length.div_ceil(7));
            assert_eq!(unpack(&packed), Some(data));
        }
        assert_eq!(pack(&[0; 1024]).len(), 1171);
    }
}
