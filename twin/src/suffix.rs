//! Suffixes and tree places (document 01, "Suffixes and tree places").

use crate::refusal::Reason;

/// The most suffix bits.
pub const MOST_BITS: u8 = 12;

/// Tree places of all 4,096 twelve-bit suffixes.
static PLACES: [u16; 4096] = twelve_bit_places();

/// Builds the listing: the place of a value is its 12 bits read backwards.
const fn twelve_bit_places() -> [u16; 4096] {
    let mut places = [0; 4096];
    let mut value = 0;
    while value < 4096 {
        places[value] = (value as u16).reverse_bits() >> 4;
        value += 1;
    }
    places
}

/// `*` and its bits; the last bit is the lowest of the value and of the address.
#[derive(Clone, Copy, PartialEq, Eq, Debug)]
pub struct Suffix {
    length: u8,
    value: u16,
}

impl Suffix {
    /// The suffix `*`, which covers everything.
    pub const STAR: Suffix = Suffix {
        length: 0,
        value: 0,
    };

    /// A suffix of `length` bits, if the length and the value are possible.
    pub fn new(length: u64, value: u64) -> Option<Suffix> {
        if length > u64::from(MOST_BITS) || value >> length != 0 {
            return None;
        }
        Some(Suffix {
            length: length as u8,
            value: value as u16,
        })
    }

    /// The suffix of a length and a tree place below 2^length.
    pub fn at_place(length: u8, place: u16) -> Suffix {
        let value = read_backwards(length, place);
        Suffix { length, value }
    }

    /// Its number of bits, L.
    pub fn length(self) -> u8 {
        self.length
    }

    /// Its bits as a binary number, the last bit lowest.
    pub fn value(self) -> u16 {
        self.value
    }

    /// Its tree place: the bits read from the last to the first.
    pub fn place(self) -> u16 {
        read_backwards(self.length, self.value)
    }

    /// Whether its L bits are the lowest L bits of the address.
    pub fn matches(self, address: u32) -> bool {
        address & ((1 << self.length) - 1) == u32::from(self.value)
    }

    /// Reads the text of a suffix of at most `k` bits, where k is 1 to 12.
    pub fn read(text: &[u8], k: u64) -> Option<Suffix> {
        let (&star, bits) = text.split_first()?;
        if !(1..=u64::from(MOST_BITS)).contains(&k) || star != b'*' || bits.len() as u64 > k {
            return None;
        }
        let mut value = 0;
        for &bit in bits {
            if bit != b'0' && bit != b'1' {
                return None;
            }
            value = 2 * value + u16::from(bit - b'0');
        }
        let length = bits.len() as u8;
        Some(Suffix { length, value })
    }

    /// Writes its text at a position of a lent buffer and returns the position
    /// after it; nothing is written if it doesn't fit.
    pub fn write(self, at: usize, buffer: &mut [u8]) -> Option<usize> {
        let end = at.checked_add(1 + usize::from(self.length))?;
        let (star, bits) = buffer.get_mut(at..end)?.split_first_mut()?;
        *star = b'*';
        for (shift, bit) in bits.iter_mut().rev().enumerate() {
            *bit = b'0' + (self.value >> shift & 1) as u8;
        }
        Some(end)
    }

    /// Appends its text to a text that grows.
    pub fn push(self, text: &mut Vec<u8>) {
        let at = text.len();
        text.resize(at + 1 + usize::from(self.length), b'*');
        self.write(at, text);
    }
}

/// Writes the suffix of a length and a value that are handed over as `write`
/// does, unless they make no suffix, which is found first.
pub fn write_handed(
    length: u64,
    value: u64,
    at: usize,
    buffer: &mut [u8],
) -> Result<usize, Reason> {
    let suffix = Suffix::new(length, value).ok_or(Reason::BadField)?;
    suffix.write(at, buffer).ok_or(Reason::ShortLoan)
}

/// `length` bits in the other order, from the twelve-bit listing.
fn read_backwards(length: u8, bits: u16) -> u16 {
    PLACES[usize::from(bits)] >> (MOST_BITS - length)
}

#[cfg(test)]
mod tests {
    use super::*;

    #[test]
    fn case_p8_and_the_example_of_the_text() {
        assert_eq!(Suffix::read(b"*00100", 5).unwrap().place(), 4);
        assert_eq!(Suffix::read(b"*00010", 5).unwrap().place(), 8);
        assert_eq!(Suffix::read(b"*100", 12).unwrap().place(), 1);
        assert_eq!(Suffix::STAR.place(), 0);
    }

    #[test]
    fn place_and_value_are_each_the_other_backwards() {
        for length in 0..=MOST_BITS {
            for value in 0..1u64 << length {
                let suffix = Suffix::new(u64::from(length), value).unwrap();
                let text: Vec<u8> = (0..length).map(|bit| (value >> bit & 1) as u8).collect();
                let place = text
                    .iter()
                    .fold(0, |place, &bit| 2 * place + u16::from(bit));
                assert_eq!(suffix.place(), place);
                assert_eq!(Suffix::at_place(length, place), suffix);
            }
        }
    }

    #[test]
    fn texts_read_back() {
        for length in 0..=MOST_BITS {
            for value in 0..1u64 << length {
                let suffix = Suffix::new(u64::from(length), value).unwrap();
                let mut text = Vec::new();
                suffix.push(&mut text);
                let k = u64::from(length);
                assert_eq!(Suffix::read(&text, k.max(1)), Some(suffix));
                assert!(length == 0 || Suffix::read(&text, k - 1).is_none());
            }
        }
    }

    #[test]
    fn wrong_texts_and_values_are_turned_back() {
        for text in [
            &b""[..],
            b"0",
            b"**",
            b"*2",
            b"*/",
            b"* ",
            b"0*",
            b"*0000000000000",
        ] {
            assert_eq!(Suffix::read(text, 12), None);
        }
        assert_eq!(Suffix::new(13, 0), None);
        assert_eq!(Suffix::new(3, 8), None);
        assert_eq!(Suffix::new(u64::MAX, 0), None);
        assert_eq!(Suffix::new(0, u64::MAX), None);
    }

    #[test]
    fn k_is_within_its_limits() {
        for k in [0, 13, 256, 257, 1 << 32, u64::MAX] {
            assert_eq!(Suffix::read(b"*", k), None);
        }
        assert_eq!(Suffix::read(b"*", 1), Some(Suffix::STAR));
        assert!(Suffix::read(b"*000000000000", 12).is_some());
    }

    #[test]
    fn what_makes_no_suffix_is_found_before_a_short_buffer() {
        let mut buffer = *b".....";
        for (length, value) in [(13, 0), (3, 8), (0, 1), (64, 0), (u64::MAX, u64::MAX)] {
            for at in [0, 5, usize::MAX] {
                let answer = write_handed(length, value, at, &mut buffer);
                assert_eq!(answer, Err(Reason::BadField));
            }
        }
        for at in [2, 5, usize::MAX] {
            let answer = write_handed(3, 7, at, &mut buffer);
            assert_eq!(answer, Err(Reason::ShortLoan));
        }
        assert_eq!(&buffer, b".....");
        assert_eq!(write_handed(3, 6, 1, &mut buffer), Ok(5));
        assert_eq!(&buffer, b".*110");
    }

    #[test]
    fn matching_looks_at_the_lowest_bits() {
        let suffix = Suffix::read(b"*01", 12).unwrap();
        assert!(suffix.matches(0b1101) && suffix.matches(u32::MAX - 2));
        assert!(!suffix.matches(0b0010));
        assert!(Suffix::STAR.matches(u32::MAX));
    }
}
