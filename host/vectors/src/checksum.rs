//! Two small numbers that stand for many.
//!
//! Of bytes this is Adler-32, kept as its two halves. Both stay below 65,521
//! after every number, so no sum on the way passes 131,040 and no program has
//! to think of numbers that wrap.

/// Both halves are taken modulo this prime, and each number before it is added.
const MODULUS: u64 = 65_521;

/// The checksum of some numbers; of none it is (1, 0).
///
/// The first number is 1 plus the sum of all. The second is the sum of what the
/// first one was after each of them, so it knows their order.
pub fn checksum_of(numbers: impl IntoIterator<Item = u64>) -> (u64, u64) {
    let (mut first, mut second) = (1, 0);
    for number in numbers {
        first = (first + number % MODULUS) % MODULUS;
        second = (second + first) % MODULUS;
    }
    (first, second)
}

/// The checksum of some bytes.
pub fn checksum(bytes: &[u8]) -> (u64, u64) {
    checksum_of(bytes.iter().map(|&byte| u64::from(byte)))
}

/// The checksum as it is printed: both numbers in decimal, a space between.
pub fn printed_checksum(bytes: &[u8]) -> String {
    let (first, second) = checksum(bytes);
    format!("{first} {second}")
}

#[cfg(test)]
mod tests {
    use super::{checksum, checksum_of, printed_checksum};

    #[test]
    fn no_bytes_give_one_and_zero() {
        assert_eq!(checksum(b""), (1, 0));
        assert_eq!(printed_checksum(b""), "1 0");
    }

    #[test]
    fn a_known_text_gives_its_known_adler_32() {
        // 0x11E60398, the value that is published for this text
        assert_eq!(checksum(b"Wikipedia"), (0x0398, 0x11E6));
    }

    #[test]
    fn both_numbers_stay_below_the_modulus() {
        let (first, second) = checksum(&[255; 70_000]);
        assert!(first < 65_521 && second < 65_521);
        // 70,000 * 255 + 1 = 17,850,001 = 272 * 65,521 + 28,289
        assert_eq!(first, 28_289);
    }

    #[test]
    fn large_numbers_are_taken_modulo_the_modulus() {
        assert_eq!(checksum_of([65_521, 65_522]), (2, 3));
        // 2^64 - 1 = 281,539,415,969,071 * 65,521 + 50,624
        assert_eq!(checksum_of([u64::MAX]), (50_625, 50_625));
    }
}
