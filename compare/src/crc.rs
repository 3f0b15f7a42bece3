//! CRC-32, as zlib and gzip have it.

/// x^32 + x^26 + x^23 + ... + 1, the lowest power at the highest bit.
const POLYNOMIAL: u32 = 0xEDB8_8320;

pub fn crc(bytes: &[u8]) -> u32 {
    let mut rest = u32::MAX;
    for byte in bytes {
        rest ^= *byte as u32;
        for _ in 0..8 {
            let odd = rest & 1 == 1;
            rest >>= 1;
            if odd {
                rest ^= POLYNOMIAL;
            }
        }
    }
    !rest
}

#[cfg(test)]
mod tests {
    #[test]
    fn the_usual_check() {
        assert_eq!(super::crc(b"123456789"), 0xCBF4_3926);
    }
}
