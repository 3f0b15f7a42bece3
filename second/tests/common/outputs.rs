//! What writer.rs and cutter.rs ask of a call that writes a session into a lent
//! output from a place on.

use second::Written;
use std::fmt::Debug;

/// Hex digits, in groups.
pub fn bytes(hex: &str) -> Vec<u8> {
    let digits: String = hex.split_whitespace().collect();
    (0..digits.len() / 2)
        .map(|i| u8::from_str_radix(&digits[2 * i..2 * i + 2], 16).unwrap())
        .collect()
}

/// The call writes `session` from `place` on into an output of `length` bytes,
/// says where it stopped, and changes no other byte: the output is filled with
/// one junk byte and then with another, so that none can be written unseen.
#[track_caller]
pub fn writes(
    call: impl Fn(&mut [u8], usize) -> Written,
    length: usize,
    place: usize,
    session: &[u8],
) {
    for junk in [0xA5, 0x5A] {
        let mut out = vec![junk; length];
        let stop = place + session.len();
        let written = Written {
            refusal: 0,
            place: stop,
        };
        assert_eq!(call(&mut out, place), written);
        assert!(out[..place].iter().all(|byte| *byte == junk));
        assert_eq!(&out[place..stop], session);
        assert!(out[stop..].iter().all(|byte| *byte == junk));
    }
}

/// The call, given this, is refused, with place 0, and changes no byte.
#[track_caller]
pub fn refuses(
    given: impl Debug,
    call: impl Fn(&mut [u8], usize) -> Written,
    length: usize,
    place: usize,
    refusal: u32,
) {
    for junk in [0xA5, 0x5A] {
        let mut out = vec![junk; length];
        let written = call(&mut out, place);
        assert_eq!(written, Written { refusal, place: 0 }, "{given:?}");
        assert!(out.iter().all(|byte| *byte == junk));
    }
}
