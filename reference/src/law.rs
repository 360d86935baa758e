//! Constraints and expressions as prefix bytes, and whether they are as they may
//! be.

pub const MAX_DEPTH: usize = 16;
pub const MAX_LAG: u8 = 63;

/// Checks the bytes of a law. Each function takes a part from the front of them
/// and hands out the rest; every `None` is refusal 4.
#[derive(Clone, Copy)]
pub struct Checker {
    pub fluents: u8,
    /// Number of entries; 0 where code 29 is not allowed.
    pub entries: u8,
    /// Whether the part stands under 2B or 2C, where neither of them may stand.
    pub looking_back: bool,
}

impl Checker {
    pub fn constraint(self, bytes: &[u8]) -> Option<&[u8]> {
        self.truth(bytes, MAX_DEPTH as u32)
    }

    pub fn expression(self, bytes: &[u8]) -> Option<&[u8]> {
        self.value(bytes, MAX_DEPTH as u32)
    }

    fn is_read(self, fluent: u8, lag: u8) -> bool {
        fluent < self.fluents && lag <= MAX_LAG
    }

    /// A constraint with so many levels left, its own included. Going down its
    /// first operands leaves the second ones behind, as bits: the number of each
    /// says how many levels that operand has.
    fn truth(self, mut bytes: &[u8], mut levels: u32) -> Option<&[u8]> {
        let mut behind = 0u32;
        loop {
            levels = levels.checked_sub(1)?;
            bytes = match bytes {
                [0x26..=0x27, operands @ ..] => {
                    behind |= 1 << levels;
                    bytes = operands;
                    continue;
                }
                [0x28, operand @ ..] => {
                    bytes = operand;
                    continue;
                }
                // The commonest one, at once.
                [0x20..=0x25, 0x11, fluent, lag, 0x10, _, _, rest @ ..]
                    if self.is_read(*fluent, *lag) && levels > 0 =>
                {
                    rest
                }
                [0x20..=0x25, operands @ ..] => {
                    let right = self.value(operands, levels)?;
                    self.value(right, levels)?
                }
                [0x29, entry, lag, rest @ ..] if *entry < self.entries && *lag <= MAX_LAG => rest,
                [0x2A, rest @ ..] => rest,
                [0x2B..=0x2C, operand @ ..] if !self.looking_back => {
                    let below = Checker {
                        looking_back: true,
                        ..self
                    };
                    below.truth(operand, levels)?
                }
                _ => return None,
            };
            if behind == 0 {
                return Some(bytes);
            }
            levels = behind.trailing_zeros();
            behind &= behind - 1;
        }
    }

    /// An expression, likewise.
    fn value(self, mut bytes: &[u8], mut levels: u32) -> Option<&[u8]> {
        let mut behind = 0u32;
        loop {
            levels = levels.checked_sub(1)?;
            bytes = match bytes {
                [0x12..=0x16, operands @ ..] => {
                    behind |= 1 << levels;
                    bytes = operands;
                    continue;
                }
                [0x17..=0x18, operand @ ..] => {
                    bytes = operand;
                    continue;
                }
                [0x10, _, _, rest @ ..] => rest,
                [0x11, fluent, lag, rest @ ..] if self.is_read(*fluent, *lag) => rest,
                [0x19, operand @ ..] => self.truth(operand, levels)?,
                _ => return None,
            };
            if behind == 0 {
                return Some(bytes);
            }
            levels = behind.trailing_zeros();
            behind &= behind - 1;
        }
    }
}
