//! Hex lines: text to frames and back. A frame is a kind byte, a count byte
//! and as many payload bytes as the count says.

use crate::refusal;

pub const MAX_PAYLOAD: usize = 120;
pub const MAX_FRAME: usize = 2 + MAX_PAYLOAD;

/// Stands where a character is no digit: over every byte.
const NO_DIGIT: u16 = 0x100;

/// What each character gives to a byte as its first digit, and as its second.
/// Lower case is no digit.
const FIRST: [u16; 256] = digits(4);
const SECOND: [u16; 256] = digits(0);

const fn digits(shift: u32) -> [u16; 256] {
    let mut table = [NO_DIGIT; 256];
    let mut digit = 0;
    while digit < 16 {
        table[DIGITS[digit] as usize] = (digit as u16) << shift;
        digit += 1;
    }
    table
}

const DIGITS: &[u8; 16] = b"0123456789ABCDEF";

/// The byte of two characters, or [`NO_DIGIT`] and more.
#[inline]
fn byte_of(pair: [u8; 2]) -> u16 {
    FIRST[usize::from(pair[0])] | SECOND[usize::from(pair[1])]
}

/// Bits that are set in no pair of values.
const BEYOND: u16 = 0xF0F0;

/// The byte of two digits, and a number with bits of [`BEYOND`] if one is none:
/// what [`byte_of`] does, by operations of which many are done at once.
#[inline]
fn reckoned(pair: [u8; 2]) -> (u8, u16) {
    let pair = u16::from_le_bytes(pair);
    // A letter has this bit, and is 7 further from its value than a digit is.
    let letters = (pair >> 6) & 0x0101;
    let values = pair.wrapping_sub(0x3030 + 7 * letters);
    // Letters stand for 10 and more, and nothing else does.
    let tens = values.wrapping_add(0x0606) ^ (letters << 4);
    ((values << 4 | values >> 8) as u8, values | tens)
}

/// Decodes two characters a byte. Whether all were digits is asked at the end,
/// so that nothing leaves the loops before.
#[inline]
fn decode(text: &[u8], bytes: &mut [u8]) -> bool {
    let whole = bytes.len() & !7;
    let (blocks, rest) = bytes.split_at_mut(whole);
    let (block_text, rest_text) = text.split_at(2 * whole);
    let pairs = |text| <[u8]>::chunks_exact(text, 2).map(|pair| [pair[0], pair[1]]);
    let mut beyond = 0;
    for (byte, pair) in blocks.iter_mut().zip(pairs(block_text)) {
        let (value, seen) = reckoned(pair);
        *byte = value;
        beyond |= seen;
    }
    let mut seen = 0;
    for (byte, pair) in rest.iter_mut().zip(pairs(rest_text)) {
        let value = byte_of(pair);
        *byte = value as u8;
        seen |= value;
    }
    beyond & BEYOND == 0 && seen < NO_DIGIT
}

/// A line that ends where its count byte asks for it.
pub struct Line<'a> {
    pub kind: u8,
    /// All before its LF: the digits of kind and count, then what should be the
    /// payload's.
    text: &'a [u8],
}

/// Characters of kind and count.
const HEAD: usize = 4;

impl Line<'_> {
    /// Number of the payload's bytes, at most [`MAX_PAYLOAD`].
    #[inline]
    pub fn count(&self) -> usize {
        (self.text.len() - HEAD) / 2
    }

    /// Writes the payload, which has [`Line::count`] bytes; refusals 1 and 2.
    #[inline]
    pub fn read(&self, payload: &mut [u8]) -> Result<(), u8> {
        match decode(&self.text[HEAD..], payload) {
            true => Ok(()),
            false => Err(not_whole(self.text)),
        }
    }
}

/// The refusal of a text whose first line is not as its count byte asks for: 2 if
/// it is a line of bytes.
#[cold]
fn not_whole(text: &[u8]) -> u8 {
    let is_byte = |pair: &[u8]| matches!(*pair, [a, b] if byte_of([a, b]) < NO_DIGIT);
    let mut lines = text.splitn(2, |&character| character == b'\n');
    match (lines.next(), lines.next()) {
        (Some(line @ [_, ..]), Some(_)) if line.chunks(2).all(is_byte) => refusal::COUNT,
        _ => refusal::LINE,
    }
}

/// The lines of a text, one at a time.
pub struct Lines<'a> {
    rest: &'a [u8],
    number: usize,
}

impl<'a> Lines<'a> {
    pub fn of(text: &'a [u8]) -> Self {
        Lines {
            rest: text,
            number: 0,
        }
    }

    /// Number of the line last handed out, from 1; 0 before the first.
    pub fn number(&self) -> usize {
        self.number
    }

    /// The text from the line to come on.
    pub fn rest(&self) -> &'a [u8] {
        self.rest
    }

    /// Whether the line to come starts in one of these ways.
    #[inline]
    pub fn at(&self, starts: &[&[u8]]) -> bool {
        starts.iter().any(|start| self.rest.starts_with(start))
    }

    /// The next line, refusal 1 or 2, or `None` at the end. Its first digits say
    /// where it has to end; only if it does not is its end looked for.
    #[inline]
    pub fn next_line(&mut self) -> Option<Result<Line<'a>, u8>> {
        if self.rest.is_empty() {
            return None;
        }
        self.number += 1;
        Some(self.as_asked().ok_or_else(|| not_whole(self.rest)))
    }

    #[inline]
    fn as_asked(&mut self) -> Option<Line<'a>> {
        let &[a, b, c, d] = self.rest.first_chunk::<HEAD>()?;
        let (kind, count) = (byte_of([a, b]), byte_of([c, d]));
        if kind >= NO_DIGIT || usize::from(count) > MAX_PAYLOAD {
            return None;
        }
        let end = HEAD + 2 * usize::from(count);
        let (text, [b'\n', rest @ ..]) = self.rest.split_at_checked(end)? else {
            return None;
        };
        self.rest = rest;
        let kind = kind as u8;
        Some(Line { kind, text })
    }
}

/// Characters of the line for a frame of so many bytes.
pub const fn line_length(frame: usize) -> usize {
    2 * frame + 1
}

/// Writes digits at the start of `text` and returns their number.
fn write_digits(bytes: &[u8], text: &mut [u8]) -> usize {
    for (pair, byte) in text.chunks_exact_mut(2).zip(bytes) {
        pair[0] = DIGITS[(byte >> 4) as usize];
        pair[1] = DIGITS[(byte & 15) as usize];
    }
    2 * bytes.len()
}

/// Writes the line of a kind and payload at the start of `text`, which must be
/// long enough, and returns its length.
pub fn write_line(kind: u8, payload: &[u8], text: &mut [u8]) -> usize {
    let mut place = write_digits(&[kind, payload.len() as u8], text);
    place += write_digits(payload, &mut text[place..]);
    text[place] = b'\n';
    place + 1
}
