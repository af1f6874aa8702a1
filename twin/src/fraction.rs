//! Whole numbers over a power of two: as binary64 numbers and as decimals, both
//! exact.

use std::fmt;

/// How many bits of a binary64 number hold its fraction.
const FRACTION_BITS: u32 = 52;
/// What a binary64 number adds to its exponent.
const BIAS: u32 = 1_023;
/// The most halvings, so that all decimals fit into 64 bits.
const MOST_HALVINGS: u32 = 19;

/// A number that is halved so many times: number / 2^halvings.
#[derive(Clone, Copy, PartialEq, Eq, Debug)]
pub struct Fraction {
    number: u32,
    halvings: u32,
}

impl Fraction {
    /// The number over 2^halvings; at most 19 halvings.
    pub fn new(number: u32, halvings: u8) -> Fraction {
        let halvings = u32::from(halvings);
        assert!(halvings <= MOST_HALVINGS);
        Fraction { number, halvings }
    }

    /// The binary64 number that it is, put together from its bits: the sign is
    /// plus, the exponent is the place of the highest bit less the halvings, and
    /// the fraction is what stands below that bit. A number of 32 bits fits into
    /// the fraction, so that nothing is rounded. Nothing is plus zero.
    pub fn double(self) -> f64 {
        let Some(top) = self.number.checked_ilog2() else {
            return f64::from_bits(0);
        };
        let below = u64::from(self.number - (1 << top));
        let fraction = below << (FRACTION_BITS - top);
        let exponent = u64::from(BIAS + top - self.halvings);
        f64::from_bits((exponent << FRACTION_BITS) | fraction)
    }
}

/// The exact decimals, without zeros at their end, and without a dot where
/// there are none: r / 2^h is r × 5^h / 10^h.
impl fmt::Display for Fraction {
    fn fmt(&self, out: &mut fmt::Formatter) -> fmt::Result {
        let number = u64::from(self.number);
        let whole = number >> self.halvings;
        let rest = number - (whole << self.halvings);
        write!(out, "{whole}")?;
        if rest == 0 {
            return Ok(());
        }
        let width = self.halvings as usize;
        let decimals = format!("{:0width$}", rest * 5u64.pow(self.halvings));
        write!(out, ".{}", decimals.trim_end_matches('0'))
    }
}

#[cfg(test)]
mod tests {
    use super::*;
    use crate::limits::{MOST_BITS, MOST_VOLUME};

    /// The fraction of a number over 2^k with each volume times it, for all k,
    /// all numbers up to 2^k and the volumes handed in.
    fn each(volumes: &[u32], mut look: impl FnMut(u8, u32, u32)) {
        for k in 1..=MOST_BITS as u8 {
            for held in 0..=1u32 << k {
                for &volume in volumes {
                    look(k, held, volume);
                }
            }
        }
    }

    const VOLUMES: [u32; 14] = [
        0, 1, 2, 3, 5, 45, 55, 127, 1_024, 4_095, 4_097, 8_191, 9_999, 10_000,
    ];

    #[test]
    fn doubles_are_the_quotient_and_the_product() {
        each(&VOLUMES, |k, held, volume| {
            let share = Fraction::new(held, k).double();
            let quotient = f64::from(held) / f64::from(1u32 << k);
            assert_eq!(share.to_bits(), quotient.to_bits(), "{held} of 2^{k}");
            let load = Fraction::new(volume * held, k).double();
            let product = f64::from(volume) * share;
            assert_eq!(load.to_bits(), product.to_bits(), "{volume}, {held}, {k}");
        });
        for volume in 0..=MOST_VOLUME as u32 {
            for held in [1, 3, 1_365, 2_731, 4_095] {
                let load = Fraction::new(volume * held, 12).double();
                let product = f64::from(volume) * (f64::from(held) / 4_096.0);
                assert_eq!(load.to_bits(), product.to_bits());
            }
        }
    }

    /// Takes a double apart again: significand × 2^(exponent - 52) is number /
    /// 2^k, in whole numbers.
    #[test]
    fn doubles_have_just_the_value_of_the_fraction() {
        each(&[1, 7, 9_999, 10_000], |k, held, volume| {
            let number = volume * held;
            let bits = Fraction::new(number, k).double().to_bits();
            if number == 0 {
                return assert_eq!(bits, 0);
            }
            let exponent = (bits >> 52) as i32 - 1_023;
            let significand = u128::from(bits & ((1 << 52) - 1) | 1 << 52);
            let shift = 52 - exponent - i32::from(k);
            assert_eq!(significand, u128::from(number) << shift);
        });
    }

    #[test]
    fn printed_decimals_read_back_to_the_same_bits() {
        each(&VOLUMES, |k, held, volume| {
            let fraction = Fraction::new(volume * held, k);
            let text = fraction.to_string();
            let double: f64 = text.parse().unwrap();
            assert_eq!(double.to_bits(), fraction.double().to_bits(), "{text}");
        });
    }

    /// Long division, one decimal at a time.
    fn divided(number: u64, by: u64) -> String {
        let mut text = (number / by).to_string();
        let mut rest = number % by;
        if rest > 0 {
            text.push('.');
        }
        while rest > 0 {
            rest *= 10;
            text += &(rest / by).to_string();
            rest %= by;
        }
        text
    }

    #[test]
    fn printed_decimals_are_those_of_the_long_division() {
        each(&VOLUMES, |k, held, volume| {
            let text = Fraction::new(volume * held, k).to_string();
            assert_eq!(text, divided(u64::from(volume * held), 1 << k));
        });
    }

    #[test]
    fn worked_cases() {
        for (number, halvings, bits, text) in [
            (0, 12, 0, "0"),
            (1, 0, 0x3ff0_0000_0000_0000, "1"),
            (4_096, 12, 0x3ff0_0000_0000_0000, "1"),
            (1, 1, 0x3fe0_0000_0000_0000, "0.5"),
            (1, 12, 0x3f30_0000_0000_0000, "0.000244140625"),
            (13, 5, 0x3fda_0000_0000_0000, "0.40625"),
            (55 * 13, 5, 0x4036_5800_0000_0000, "22.34375"),
            (320, 5, 0x4024_0000_0000_0000, "10"),
            (10_000 * 4_096, 12, 0x40c3_8800_0000_0000, "10000"),
            (
                9_999 * 4_095,
                12,
                0x40c3_8647_8800_0000,
                "9996.558837890625",
            ),
        ] {
            let fraction = Fraction::new(number, halvings);
            assert_eq!(fraction.to_string(), text);
            assert_eq!(fraction.double().to_bits(), bits, "{text}");
        }
    }

    #[test]
    fn the_widest_fractions() {
        for (number, halvings) in [(u32::MAX, 0), (u32::MAX, 19), (1, 19), (1 << 31, 19)] {
            let fraction = Fraction::new(number, halvings);
            let expected = f64::from(number) / f64::from(1u32 << halvings);
            assert_eq!(fraction.double().to_bits(), expected.to_bits());
            assert_eq!(fraction.to_string().parse(), Ok(expected));
        }
    }
}
