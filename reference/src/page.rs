//! What a program prints, put to the front of an output that has room for it.

/// The least number of each number of digits from two to eight.
const POWERS: [u32; 7] = [10, 100, 1_000, 10_000, 100_000, 1_000_000, 10_000_000];

pub(crate) struct Page<'a> {
    output: &'a mut [u8],
    used: usize,
}

impl<'a> Page<'a> {
    pub fn over(output: &'a mut [u8]) -> Self {
        Page { output, used: 0 }
    }

    /// Number of the bytes printed.
    pub fn used(&self) -> usize {
        self.used
    }

    pub fn byte(&mut self, byte: u8) {
        self.output[self.used] = byte;
        self.used += 1;
    }

    /// A space and a number of up to eight digits.
    pub fn number(&mut self, number: i32) {
        self.byte(b' ');
        if number < 0 {
            self.byte(b'-');
        }
        let mut rest = number.unsigned_abs();
        let more = POWERS.map(|least| usize::from(rest >= least));
        let digits = 1 + more.iter().sum::<usize>();
        for digit in self.output[self.used..][..digits].iter_mut().rev() {
            *digit = b'0' + (rest % 10) as u8;
            rest /= 10;
        }
        self.used += digits;
    }

    pub fn line<const N: usize>(&mut self, word: &str, numbers: [i32; N]) {
        word.bytes().for_each(|byte| self.byte(byte));
        numbers.iter().for_each(|&number| self.number(number));
        self.byte(b'\n');
    }
}
