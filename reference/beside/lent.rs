//! A buffer to lend, between other bytes that have to stay as they are.

use std::fmt::Debug;

/// Numbers before and after the buffer.
const EDGE: usize = 64;

pub struct Lent<T> {
    all: Vec<T>,
    edge: T,
}

impl<T: Copy + PartialEq + Debug + From<u8>> Lent<T> {
    pub fn of(contents: &[T]) -> Self {
        let edge = T::from(0x5A);
        let mut all = vec![edge; EDGE];
        all.extend_from_slice(contents);
        all.extend([edge; EDGE]);
        Lent { all, edge }
    }

    pub fn part(&mut self) -> &mut [T] {
        let end = self.all.len() - EDGE;
        &mut self.all[EDGE..end]
    }

    /// The contents after the call.
    pub fn back(self) -> Result<Vec<T>, String> {
        let end = self.all.len() - EDGE;
        let mut around = self.all[..EDGE].iter().chain(&self.all[end..]);
        match around.all(|value| *value == self.edge) {
            true => Ok(self.all[EDGE..end].to_vec()),
            false => Err("a byte beside a lent buffer was written".into()),
        }
    }
}
