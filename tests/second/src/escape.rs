//! Hiding between the marks: DLE's doubled 10 and expansion's FF pairs.

/// DLE: every 10 is doubled.
pub fn double(bytes: &[u8]) -> Vec<u8> {
    let mut hidden = Vec::new();
    for byte in bytes {
        hidden.push(*byte);
        if *byte == 0x10 {
            hidden.push(0x10);
        }
    }
    hidden
}

/// Expansion: the three highest bytes go out as FF and a code, FF 02 for FD.
pub fn hide(bytes: &[u8]) -> Vec<u8> {
    let mut hidden = Vec::new();
    for byte in bytes {
        match byte {
            0xFD => hidden.extend([0xFF, 0x02]),
            0xFE => hidden.extend([0xFF, 0x01]),
            0xFF => hidden.extend([0xFF, 0x00]),
            other => hidden.push(*other),
        }
    }
    hidden
}

/// Expansion: the byte that FF and `second` stand for; none if wrongly coded.
pub fn unhide(second: u8) -> Option<u8> {
    match second {
        0x00 => Some(0xFF),
        0x01 => Some(0xFE),
        0x02 => Some(0xFD),
        _ => None,
    }
}

#[cfg(test)]
mod tests {
    use super::*;

    #[test]
    fn example_10() {
        assert_eq!(hide(&[0xFD, 0xFE, 0xFF]), [0xFF, 2, 0xFF, 1, 0xFF, 0]);
    }

    #[test]
    fn hidden_and_back() {
        for byte in 0..=255u8 {
            let hidden = hide(&[byte]);
            match hidden.len() {
                1 => assert!(hidden[0] == byte && byte < 0xFD),
                _ => assert!(hidden[0] == 0xFF && unhide(hidden[1]) == Some(byte)),
            }
        }
        assert_eq!(unhide(3), None);
        assert_eq!(unhide(0xFE), None);
    }

    #[test]
    fn doubled() {
        assert_eq!(double(&[0x10, 3, 0x10]), [0x10, 0x10, 3, 0x10, 0x10]);
    }
}
