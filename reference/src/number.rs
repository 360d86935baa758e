//! Numbers as laws reckon with them: bounded, and sometimes without value.

use crate::judge::{OUT_OF_NUMBERS, ZERO_DIVISOR};

/// A result further from zero than this gives no value.
pub const BOUND: i64 = 1_000_000_000;

/// Why an operation on values gives none, by the kind of fault that its law then
/// is. It is as wide as a value, so that either comes back in one register.
#[derive(Clone, Copy, PartialEq, Eq, Debug)]
#[repr(i64)]
pub enum Trouble {
    ZeroDivisor = ZERO_DIVISOR as i64,
    OutOfNumbers = OUT_OF_NUMBERS as i64,
}

/// What comes of operands that have values.
pub type Reckoned = Result<i64, Trouble>;

/// Keeps a result that lies in the range; operands are always in it already,
/// so not even a product can overflow an `i64` before it gets here.
#[inline]
pub fn bounded(value: i64) -> Reckoned {
    match (-BOUND..=BOUND).contains(&value) {
        true => Ok(value),
        false => Err(Trouble::OutOfNumbers),
    }
}

#[inline]
pub fn sum(a: i64, b: i64) -> Reckoned {
    bounded(a + b)
}

#[inline]
pub fn difference(a: i64, b: i64) -> Reckoned {
    bounded(a - b)
}

#[inline]
pub fn product(a: i64, b: i64) -> Reckoned {
    bounded(a * b)
}

/// Rounded down.
#[inline]
pub fn quotient(a: i64, b: i64) -> Reckoned {
    match b {
        0 => Err(Trouble::ZeroDivisor),
        // Both signs turned, the quotient is the same.
        ..0 => Ok(whole_parts(-a, -b)),
        1.. => Ok(whole_parts(a, b)),
    }
}

/// What the quotient leaves of the dividend: 0, or of the divisor's sign.
#[inline]
pub fn remainder(a: i64, b: i64) -> Reckoned {
    Ok(a - quotient(a, b)? * b)
}

/// How often a part goes into a number, rounded down; the part is above 0.
///
/// Nothing below 0 is ever divided, so there is nothing to truncate and no result
/// to be put right by what remains. Numbers below 0 are counted from -1 downward
/// instead: -1 - n is the n-th of them, and the first `part` of them have the
/// quotient -1, the next -2. So -1 - n has the quotient -1 - m where n has m. To
/// take a number from -1 is to turn all of its bits.
#[inline]
fn whole_parts(number: i64, part: i64) -> i64 {
    let turned = number >> 63;
    // Four bytes hold either, and are divided in less time than eight.
    i64::from((number ^ turned) as u32 / part as u32) ^ turned
}

/// A two-byte mask, high byte first.
#[inline]
pub fn mask(high: u8, low: u8) -> u16 {
    u16::from_be_bytes([high, low])
}

/// A two-byte value, high byte first, two's complement.
#[inline]
pub fn value(high: u8, low: u8) -> i16 {
    i16::from_be_bytes([high, low])
}
