//! The two CRCs of document 01, bit by bit and from the polynomials as written there.
//!
//! Both take the lowest bit of each byte first. The register here is the plain
//! one (highest power of x at the top), turned round once at the end, and where
//! a start is given at the beginning too; the paper's reflected constant A001 is
//! not used, only tested for.

/// x^16 + x^15 + x^2 + 1, from a start (02, request 1); MDU's starts at 0.
pub fn crc16(start: u16, bytes: &[u8]) -> u16 {
    let polynomial: u16 = (1 << 15) | (1 << 2) | 1;
    let mut register: u16 = start.reverse_bits();
    for byte in bytes {
        for place in 0..8 {
            let bit = (byte >> place) & 1;
            let out = (register >> 15) as u8;
            register <<= 1;
            if bit != out {
                register ^= polynomial;
            }
        }
    }
    register.reverse_bits()
}

/// Expansion: 04C11DB7, reflected, start and final xor all ones.
pub fn crc32(bytes: &[u8]) -> u32 {
    let polynomial: u32 = 0x04C1_1DB7;
    let mut register: u32 = 0xFFFF_FFFF;
    for byte in bytes {
        for place in 0..8 {
            let bit = (byte >> place) & 1;
            let out = (register >> 31) as u8;
            register <<= 1;
            if bit != out {
                register ^= polynomial;
            }
        }
    }
    register.reverse_bits() ^ 0xFFFF_FFFF
}

#[cfg(test)]
mod tests {
    use super::*;

    #[test]
    fn published_vectors() {
        assert_eq!(crc16(0, b"123456789"), 0xBB3D); // CRC-16/ARC
        assert_eq!(crc16(0xFFFF, b"123456789"), 0x4B37); // CRC-16/MODBUS
        assert_eq!(!crc16(0xFFFF, b"123456789"), 0xB4C8); // CRC-16/USB
        assert_eq!(crc32(b"123456789"), 0xCBF4_3926); // CRC-32
        assert_eq!(crc16(0, b""), 0);
        assert_eq!(crc32(b""), 0);
    }

    #[test]
    fn examples_7_and_8() {
        assert_eq!(crc16(0, &[0x31]), 0xD4C1);
        assert_eq!(crc16(0, &[0xB1, 0x00, 0x04, 0x47, 0xBA]), 0x988F);
    }

    #[test]
    fn a_run_of_no_bytes_gives_the_start() {
        for start in [0, 1, 0x8000, 0xBB3D, 0xFFFF] {
            assert_eq!(crc16(start, b""), start);
        }
    }

    #[test]
    fn blocks_are_one_pass() {
        let run = b"123456789";
        for start in [0, 1, 0xFFFF] {
            for cut in 0..=run.len() {
                for again in cut..=run.len() {
                    let blocks = [&run[..cut], &run[cut..again], &run[again..]];
                    let reached = blocks.iter().fold(start, |value, block| crc16(value, block));
                    assert_eq!(reached, crc16(start, run));
                }
            }
        }
    }

    #[test]
    fn reflected_constant_is_a001() {
        assert_eq!(0x8005u16.reverse_bits(), 0xA001);
        // One bit 1 in the highest place of a byte leaves the constant itself.
        assert_eq!(crc16(0, &[0x80]), 0xA001);
    }
}
