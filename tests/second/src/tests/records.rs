//! Fare records: examples, edges, writing, views.

use super::FILL;
use crate::record;

#[test]
fn record_examples_11_and_12() {
    let mut payload = [2, 0, 0, 1, 0, 0x64, 0x96];
    assert_eq!(record::element_unsigned(&payload, 0), Ok(38_500));
    assert_eq!(record::element_signed(&payload, 0), Err(17));
    assert_eq!(record::element_unsigned(&payload, 1), Err(18));
    payload[0] = 3;
    assert_eq!(record::element_signed(&payload, 0), Ok(-27_036));
    assert_eq!(record::element_unsigned(&payload, 7), Err(17));
    let mut out = [5i32; 3];
    assert_eq!(record::copy_signed(&payload, &mut out), Ok(1));
    assert_eq!(out, [-27_036, 5, 5]);
    assert_eq!(record::copy_signed(&payload, &mut []), Err(2));
    assert_eq!(record::copy_unsigned(&payload, &mut []), Err(17));
}

#[test]
fn record_edges() {
    let limits = [(1u8, 1usize, 2000usize), (2, 2, 1000), (3, 2, 1000), (4, 4, 500), (5, 4, 500)];
    for (number, size, limit) in limits {
        let well_formed = |address: usize, count: usize, length: usize| {
            let mut payload = vec![0u8; length];
            payload[0] = number;
            payload[1..3].copy_from_slice(&(address as u16).to_le_bytes());
            payload[3..5].copy_from_slice(&(count as u16).to_le_bytes());
            match record::view(&payload) {
                Ok(_) => true,
                Err(refusal) => refusal != 16,
            }
        };
        assert!(well_formed(limit - 1, 1, 5 + size));
        assert!(!well_formed(limit, 1, 5 + size));
        assert!(!well_formed(0, 0, 5));
        assert!(!well_formed(0, 1, 5 + size + 1));
        assert!(!well_formed(0, 2, 5 + size));
        let most = 1019 / size;
        assert!(well_formed(0, most, 5 + size * most));
        assert!(!well_formed(0, most + 1, 5 + size * (most + 1)));
        assert!(!well_formed(65535, 1, 5 + size));
    }
    for payload in [&[][..], &[2, 0, 0, 1][..], &[0, 0, 0, 1, 0, 1][..], &[6, 0, 0, 1, 0, 1][..]] {
        assert_eq!(record::view(payload).err(), Some(16));
        assert_eq!(record::copy_unsigned(payload, &mut []), Err(16));
        assert_eq!(record::element_signed(payload, 0), Err(16));
    }
}

#[test]
fn record_writing() {
    let mut out = [FILL; 16];
    assert_eq!(record::write_unsigned(2, 0, &[38_500], &mut out), Ok(7));
    assert_eq!(&out[..8], &[2, 0, 0, 1, 0, 0x64, 0x96, FILL]);
    assert_eq!(record::write_signed(3, 0, &[-27_036], &mut out), Ok(7));
    assert_eq!(&out[..7], &[3, 0, 0, 1, 0, 0x64, 0x96]);
    let before = out;
    for (number, fare) in [(1, 256), (2, 65_536), (3, 1), (4, 1), (0, 1), (6, 1)] {
        assert_eq!(record::write_unsigned(number, 0, &[fare], &mut out), Err(3));
    }
    for (number, fare) in [(3, 32_768), (3, -32_769), (1, 1), (2, 1), (5, 1)] {
        assert_eq!(record::write_signed(number, 0, &[fare], &mut out), Err(3));
    }
    assert_eq!(record::write_unsigned(5, 0, &[], &mut out), Err(3));
    assert_eq!(record::write_unsigned(5, 500, &[1], &mut out), Err(3));
    assert_eq!(record::write_unsigned(1, 0, &[0; 1020], &mut out), Err(3));
    assert_eq!(record::write_unsigned(1, 0, &[0; 1019], &mut out), Err(2));
    assert_eq!(record::write_unsigned(5, 0, &[u32::MAX], &mut out[..8]), Err(2));
    assert_eq!(out, before);
    assert_eq!(record::write_unsigned(5, 499, &[u32::MAX], &mut out), Ok(9));
    assert_eq!(record::write_signed(4, 0, &[i32::MIN], &mut out), Ok(9));
    assert_eq!(record::element_signed(&out[..9], 0), Ok(i32::MIN));
}

#[test]
fn record_views() {
    let payload = [1, 0, 0, 2, 0, 7, 8];
    let view = record::view(&payload).unwrap();
    assert_eq!((view.number, view.count), (1, 2));
    assert_eq!(view.element_unsigned(1), Ok(8));
    assert_eq!(view.element_unsigned(2), Err(18));
    assert_eq!(view.element_signed(2), Err(17));
    assert_eq!(record::View { count: 3, ..view }.element_unsigned(0), Err(16));
    assert_eq!(record::View { number: 2, ..view }.element_unsigned(0), Err(16));
    assert_eq!(record::View { payload: &payload[..6], ..view }.element_unsigned(0), Err(16));
}
