//! Checksums over the first 124 bytes of a block.

use crate::block::SUMMED;

pub trait Checksum {
    /// The number that a block carries to say which checksum it was made with.
    const MARK: u8;

    fn sum(bytes: &[u8; SUMMED]) -> u32;
}

/// Fletcher-32 over 16-bit words.
#[derive(Clone, Copy, Debug)]
pub struct Fletcher;

impl Checksum for Fletcher {
    const MARK: u8 = 1;

    fn sum(bytes: &[u8; SUMMED]) -> u32 {
        // 62 words keep both sums below 2^32, so one reduction at the end is enough.
        let (words, _) = bytes.as_chunks::<2>();
        let mut a = 0u32;
        let mut b = 0u32;
        for &word in words {
            a += u32::from(u16::from_be_bytes(word));
            b += a;
        }
        (b % 65_535) << 16 | (a % 65_535)
    }
}

/// The turning sum over 32-bit words.
#[derive(Clone, Copy, Debug)]
pub struct Turning;

impl Checksum for Turning {
    const MARK: u8 = 2;

    fn sum(bytes: &[u8; SUMMED]) -> u32 {
        let (words, _) = bytes.as_chunks::<4>();
        words.iter().fold(0u32, |sum, &word| sum.rotate_left(5) ^ u32::from_be_bytes(word))
    }
}

#[cfg(test)]
mod tests {
    use super::*;

    fn only(index: usize, value: u8) -> [u8; SUMMED] {
        let mut bytes = [0; SUMMED];
        bytes[index] = value;
        bytes
    }

    /// Fletcher-32 as the format states it, reduced at every word.
    fn fletcher_by_words(bytes: &[u8; SUMMED]) -> u32 {
        let (mut a, mut b) = (0u32, 0u32);
        for pair in bytes.chunks(2) {
            a = (a + u32::from(pair[0]) * 256 + u32::from(pair[1])) % 65_535;
            b = (b + a) % 65_535;
        }
        b * 65_536 + a
    }

    #[test]
    fn last_byte() {
        assert_eq!(Fletcher::sum(&only(123, 1)), 0x0001_0001);
        assert_eq!(Turning::sum(&only(123, 1)), 0x0000_0001);
    }

    #[test]
    fn first_byte() {
        assert_eq!(Fletcher::sum(&only(0, 1)), 0x3E00_0100);
        assert_eq!(Turning::sum(&only(0, 1)), 0x0000_4000);
    }

    #[test]
    fn fletcher_reduced_once_is_the_same() {
        assert_eq!(Fletcher::sum(&[255; SUMMED]), fletcher_by_words(&[255; SUMMED]));
        let mut x = 1u32;
        for _ in 0..1000 {
            let bytes = std::array::from_fn(|_| {
                x = x.wrapping_mul(1_664_525).wrapping_add(1_013_904_223);
                (x >> 24) as u8 | (x >> 10) as u8
            });
            assert_eq!(Fletcher::sum(&bytes), fletcher_by_words(&bytes));
        }
    }
}
