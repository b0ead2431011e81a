//! CRC-32C as RFC 3720 gives it, bit by bit: reflected polynomial, register all ones at the start, complemented at the
//! end.

const POLYNOMIAL: u32 = 0x82F6_3B78;

/// Continues the finished sum `crc` over `bytes`; 0 is the sum of no bytes.
pub fn crc32c_append(crc: u32, bytes: &[u8]) -> u32 {
    !bytes.iter().fold(!crc, |register, &byte| step(register, byte))
}

fn step(register: u32, byte: u8) -> u32 {
    let mut register = register ^ u32::from(byte);
    for _ in 0..8 {
        let odd = register & 1 == 1;
        register >>= 1;
        if odd {
            register ^= POLYNOMIAL;
        }
    }
    register
}

#[cfg(test)]
mod tests {
    use super::crc32c_append;

    #[test]
    fn the_sum_of_the_nine_digits() {
        assert_eq!(crc32c_append(0, b"123456789"), 0xE306_9283);
    }

    #[test]
    fn appending_continues() {
        assert_eq!(crc32c_append(crc32c_append(0, b"1234"), b"56789"), crc32c_append(0, b"123456789"));
    }

    #[test]
    fn no_bytes() {
        assert_eq!(crc32c_append(0, b""), 0);
    }
}
