//! The two sums modulo 256: PCS's check value and MDU's header sum.

/// Sum of bytes modulo 256.
pub fn modulo_256(bytes: &[u8]) -> u8 {
    bytes.iter().fold(0u8, |sum, byte| sum.wrapping_add(*byte))
}

/// PCS: a raw sum as it goes out, never above 250 and never 0.
pub fn sent_as(raw: u8) -> u8 {
    let lowered = if raw > 250 { raw - 128 } else { raw };
    if lowered == 0 {
        128
    } else {
        lowered
    }
}

/// PCS: the sum over a body as sent.
pub fn pcs(sent: &[u8]) -> u8 {
    sent_as(modulo_256(sent))
}

#[cfg(test)]
mod tests {
    use super::*;

    #[test]
    fn examples_4_and_5() {
        assert_eq!(sent_as(251), 123);
        assert_eq!(sent_as(0), 128);
    }

    #[test]
    fn edges() {
        assert_eq!(sent_as(250), 250);
        assert_eq!(sent_as(255), 127);
        assert_eq!(sent_as(128), 128);
        assert_eq!(sent_as(1), 1);
        assert_eq!(pcs(&[255, 1]), 128);
    }

    #[test]
    fn never_a_mark_and_never_0() {
        for raw in 0..=255u8 {
            assert!((1..=250).contains(&sent_as(raw)));
        }
    }
}
