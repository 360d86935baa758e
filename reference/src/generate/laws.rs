//! Random constraints and expressions as prefix bytes.

use super::random::Random;
use crate::law::MAX_DEPTH;

/// What a random law may refer to.
pub struct Ground<'a> {
    /// Lowest, highest and start value of each fluent; at least one.
    pub fluents: &'a [[i16; 3]],
    /// Number of entries; code 29 is used only if there are some.
    pub entries: usize,
    /// Whether the law is under 2B or 2C already, and may have neither.
    pub looking_back: bool,
}

pub fn constant(value: i16) -> Vec<u8> {
    let [high, low] = value.to_be_bytes();
    vec![0x10, high, low]
}

/// Prefix bytes of a code and its operands.
pub fn node(code: u8, operands: &[&[u8]]) -> Vec<u8> {
    let mut bytes = vec![code];
    operands
        .iter()
        .for_each(|part| bytes.extend_from_slice(part));
    bytes
}

/// A chain of one-operand codes around a part.
pub fn wrapped(code: u8, times: usize, part: &[u8]) -> Vec<u8> {
    let mut bytes = vec![code; times];
    bytes.extend_from_slice(part);
    bytes
}

pub fn sum(left: &[u8], right: &[u8]) -> Vec<u8> {
    node(0x12, &[left, right])
}

pub fn difference(left: &[u8], right: &[u8]) -> Vec<u8> {
    node(0x13, &[left, right])
}

pub fn product(left: &[u8], right: &[u8]) -> Vec<u8> {
    node(0x14, &[left, right])
}

pub fn quotient(left: &[u8], right: &[u8]) -> Vec<u8> {
    node(0x15, &[left, right])
}

pub fn remainder(left: &[u8], right: &[u8]) -> Vec<u8> {
    node(0x16, &[left, right])
}

pub fn negation(part: &[u8]) -> Vec<u8> {
    node(0x17, &[part])
}

pub fn reified(constraint: &[u8]) -> Vec<u8> {
    node(0x19, &[constraint])
}

pub fn and(left: &[u8], right: &[u8]) -> Vec<u8> {
    node(0x26, &[left, right])
}

pub fn or(left: &[u8], right: &[u8]) -> Vec<u8> {
    node(0x27, &[left, right])
}

pub fn not(constraint: &[u8]) -> Vec<u8> {
    node(0x28, &[constraint])
}

/// Held at every position from 0 to the present one.
pub fn always(held: &[u8]) -> Vec<u8> {
    node(ALWAYS, &[held])
}

/// Held at one or more of them.
pub fn sometime(held: &[u8]) -> Vec<u8> {
    node(SOMETIME, &[held])
}

/// The codes that look back.
pub const ALWAYS: u8 = 0x2B;
pub const SOMETIME: u8 = 0x2C;

pub const TRUE: &[u8] = &[0x2A];
pub const FALSE: &[u8] = &[0x28, 0x2A];

/// A number at an end of the range, near it, or beyond it.
fn large(r: &mut Random) -> Vec<u8> {
    let &[left, right] = r.pick(&[
        [31_250, 32_000],
        [32_000, -31_250],
        [31_622, -31_622],
        [31_623, 31_623],
    ]);
    node(0x14, &[&constant(left), &constant(right)])
}

pub fn lag(r: &mut Random) -> u8 {
    match r.below(20) {
        0..=11 => 0,
        12..=16 => r.from_to(1, 3) as u8,
        17..=18 => r.from_to(0, 63) as u8,
        _ => 63,
    }
}

impl Ground<'_> {
    fn fluent(&self, r: &mut Random) -> Vec<u8> {
        vec![0x11, r.below(self.fluents.len()) as u8, lag(r)]
    }

    fn constant(&self, r: &mut Random) -> Vec<u8> {
        let range = self.fluents[r.below(self.fluents.len())];
        constant(match r.below(6) {
            0 => 0,
            1 | 2 => r.below(9) as i16 - 4,
            3 => range[r.below(3)],
            4 => *r.pick(&[i16::MIN, i16::MAX, 31_622, 31_623, -31_623]),
            _ => r.value(),
        })
    }

    /// The same for what stands under 2B or 2C.
    fn of_positions(&self) -> Self {
        Ground {
            looking_back: true,
            ..*self
        }
    }

    /// An expression at most so many levels deep, its own included.
    pub fn expression(&self, r: &mut Random, levels: usize) -> Vec<u8> {
        if levels < 3 || r.one_in(3) {
            return match r.below(18) {
                0 if levels > 1 => large(r),
                0..=5 => self.constant(r),
                _ => self.fluent(r),
            };
        }
        let code = *r.pick(&[0x12, 0x12, 0x13, 0x13, 0x14, 0x15, 0x16, 0x17, 0x18, 0x19]);
        let first = match code {
            0x19 => self.constraint(r, levels - 1),
            _ => self.expression(r, levels - 1),
        };
        match code {
            0x17..=0x19 => node(code, &[&first]),
            _ => node(code, &[&first, &self.expression(r, levels - 1)]),
        }
    }

    /// A constraint at most so many levels deep, its own included.
    pub fn constraint(&self, r: &mut Random, levels: usize) -> Vec<u8> {
        match r.below(12) {
            0..=4 if levels > 1 => {
                let code = r.from_to(0x20, 0x25) as u8;
                let left = self.expression(r, levels - 1);
                node(code, &[&left, &self.expression(r, levels - 1)])
            }
            5 | 6 if levels > 2 => {
                let code = r.from_to(0x26, 0x27) as u8;
                let left = self.constraint(r, levels - 1);
                node(code, &[&left, &self.constraint(r, levels - 1)])
            }
            7 if levels > 1 => node(0x28, &[&self.constraint(r, levels - 1)]),
            8 | 9 if self.entries > 0 => vec![0x29, r.below(self.entries) as u8, lag(r)],
            10 | 11 if levels > 1 && !self.looking_back => {
                let code = r.from_to(0x2B, 0x2C) as u8;
                let held = self.of_positions().constraint(r, levels - 1);
                node(code, &[&held])
            }
            _ => vec![0x2A],
        }
    }

    /// A constraint that is true in most states, so that long sheets exist.
    pub fn likely(&self, r: &mut Random) -> Vec<u8> {
        let fluent = r.below(self.fluents.len());
        let read = vec![0x11, fluent as u8, lag(r)];
        let [lowest, highest, _] = self.fluents[fluent];
        match r.below(10) {
            0..=2 => vec![0x2A],
            3 => node(0x25, &[&read, &constant(lowest)]),
            4 => node(0x23, &[&read, &constant(highest)]),
            5 => node(0x27, &[&[0x2A], &self.constraint(r, 3)]),
            6 => wrapped(0x28, 2, &node(0x21, &[&read, &constant(r.value())])),
            7 => {
                let code = r.from_to(0x2B, 0x2C) as u8;
                node(code, &[&node(0x25, &[&read, &constant(lowest)])])
            }
            8 => {
                let held = self.of_positions().constraint(r, 3);
                node(0x2C, &[&node(0x27, &[&[0x2A], &held])])
            }
            _ => {
                let deep = wrapped(0x28, 2 * r.from_to(1, 6), &[0x2A]);
                node(0x26, &[&deep, &[0x2A]])
            }
        }
    }

    /// An expression that mostly stays in the fluent's range.
    pub fn setting(&self, r: &mut Random, fluent: usize) -> Vec<u8> {
        let [lowest, highest, start] = self.fluents[fluent];
        let own = vec![0x11, fluent as u8, lag(r)];
        match r.below(6) {
            0 => constant(start),
            1 => constant(*r.pick(&[lowest, highest])),
            2 => own,
            3 | 4 => {
                let code = *r.pick(&[0x12, 0x13]);
                node(code, &[&own, &constant(r.below(4) as i16)])
            }
            _ => {
                // Start value, or one more if some constraint is true.
                let flag = node(0x19, &[&self.constraint(r, 3)]);
                node(0x12, &[&constant(start), &flag])
            }
        }
    }

    /// Tries deep and wide laws first and shrinks until they fit.
    pub fn wild(
        &self,
        r: &mut Random,
        room: usize,
        make: impl Fn(&Self, &mut Random, usize) -> Vec<u8>,
    ) -> Vec<u8> {
        let mut levels = r.from_to(2, MAX_DEPTH);
        loop {
            let bytes = make(self, r, levels);
            if bytes.len() <= room {
                return bytes;
            }
            levels = (levels - 1).max(2);
        }
    }
}
