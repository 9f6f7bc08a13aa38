//! Listings.

use super::ACKNOWLEDGEMENT;
use crate::captures;
use crate::dle;
use crate::listing::listing;

#[test]
fn listing_example() {
    let expected = "link M\nmessage 13 5 B1000447BA\nmessage 13 1 31\nnoise 11\nopen 0\n";
    assert_eq!(listing(&captures::example()), expected);
}

/// The lines don't tell a frame with CRC from one without.
#[test]
fn listing_of_both_sorts() {
    assert_eq!(listing(&captures::boards()), "link P\nmessage 101 0\nmessage 101 0\nrefused 8\nnoise 0\nopen 0\n");
}

#[test]
fn listing_of_others() {
    assert_eq!(listing(b""), "refused 9\n");
    assert_eq!(listing(b"p"), "refused 9\n");
    assert_eq!(listing(b"P"), "link P\nnoise 0\nopen 0\n");
    assert_eq!(listing(&[b'X', 0xFD, 0xFE, 0xFD, 0xFF]), "link X\nrefused 6\nnoise 0\nopen 2\n");
    assert_eq!(listing(&[b'D', 7, 0x10]), "link D\nnoise 1\nopen 1\n");
    let mut input = vec![b'D'];
    input.extend(dle::error_frame(1, 2, 3));
    input.extend(dle::frame(1, 2, &[0x10, 0xAB]).unwrap());
    assert_eq!(listing(&input), "link D\nmessage 2 0\nmessage 2 2 10AB\nnoise 0\nopen 0\n");
    let mut input = vec![b'P'];
    input.extend(ACKNOWLEDGEMENT);
    input.extend([253, 1, 253]);
    assert_eq!(listing(&input), "link P\nmessage 101 0\nrefused 4\nnoise 0\nopen 1\n");
}
