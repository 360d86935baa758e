//! What laws are read against, and what they come to there.
//!
//! Anything built on a part without value has none, so evaluation ends at the
//! first such part. A compiled law has its operands from left to right, each
//! before its operation, and positions are looked at from 0 on, so the trouble met
//! there is the first.

use crate::code::{Code, Op, OR};
use crate::law::MAX_DEPTH;
use crate::number::{self, Reckoned};
use crate::sheet::MAX_STEPS;

/// The values of a state, and zeros.
type State = [i32; 64];

/// A position and its state, which constraints are read at.
#[derive(Clone, Copy)]
struct Position<'a> {
    number: usize,
    state: &'a State,
}

/// The states reached, what occurred in the steps, and a present state.
pub struct History<'a> {
    /// The states reached, fluent by fluent.
    levels: &'a mut [i16],
    width: usize,
    /// The present state, which may not be among those reached yet.
    now: State,
    /// Its number; the present step is one more.
    position: usize,
    /// Mask of the entries that occur in each step; nothing occurs in step 0.
    occurring: [u64; MAX_STEPS + 1],
}

impl<'a> History<'a> {
    /// Stands at a state 0 of so many zeros. The buffer has room for all states.
    #[inline]
    pub fn start(width: usize, levels: &'a mut [i16]) -> Self {
        History {
            levels,
            width,
            now: [0; 64],
            position: 0,
            occurring: [0; MAX_STEPS + 1],
        }
    }

    /// Stands at state 0 again. Nobody asks what occurred in a step to come.
    pub fn restart(&mut self) {
        self.position = 0;
    }

    /// The states reached, and after them whatever was there.
    pub fn levels(&self) -> &[i16] {
        self.levels
    }

    /// These entries occur in the present step.
    pub fn occur(&mut self, entries: u64) {
        self.occurring[self.position + 1] = entries;
    }

    /// Goes on to the next state, where each value is still the one before.
    pub fn advance(&mut self) {
        self.position += 1;
    }

    /// The value of a fluent in the present state.
    pub fn present(&self, fluent: usize) -> i64 {
        self.now[fluent].into()
    }

    /// Gives a fluent another value in the present state.
    pub fn set(&mut self, fluent: usize, value: i16) {
        self.now[fluent] = value.into();
    }

    /// The present state is reached.
    pub fn reach(&mut self) {
        let levels = &mut self.levels[self.position * self.width..][..self.width];
        for (level, &value) in levels.iter_mut().zip(&self.now) {
            *level = value as i16;
        }
    }

    /// The value of a compiled law; truth is 1, falsehood 0.
    pub fn evaluate(&self, code: &[Op]) -> Reckoned {
        let present = Position {
            number: self.position,
            state: &self.now,
        };
        self.evaluate_at(present, code)
    }

    fn evaluate_at(&self, here: Position, code: &[Op]) -> Reckoned {
        let mut waiting = Waiting::default();
        let mut last = 0;
        let mut ops = code.iter();
        while let Some(op) = ops.next() {
            let leaf = |side| here.leaf(op, side);
            last = match op.code {
                Code::Leaf => {
                    waiting.push(last);
                    leaf(0)
                }
                Code::Lagged => {
                    waiting.push(last);
                    self.lagged(here, op.numbers.map(|number| number as usize))
                }
                Code::Occurs => {
                    waiting.push(last);
                    self.occurs(here, op.numbers.map(|number| number as usize))
                }
                Code::Compare => {
                    waiting.push(last);
                    compared(op, leaf(0), leaf(1))
                }
                Code::Joined => joined(op, last, compared(op, leaf(0), leaf(1))),
                Code::CompareLast => compared(op, last, leaf(1)),
                Code::CompareWaiting => compared(op, waiting.pop(), last),
                Code::Join => joined(op, waiting.pop(), last),
                Code::Sum => {
                    waiting.push(last);
                    number::sum(leaf(0), leaf(1))?
                }
                Code::SumLast => number::sum(last, leaf(1))?,
                Code::SumWaiting => number::sum(waiting.pop(), last)?,
                Code::Difference => {
                    waiting.push(last);
                    number::difference(leaf(0), leaf(1))?
                }
                Code::DifferenceLast => number::difference(last, leaf(1))?,
                Code::LeafLessLast => number::difference(leaf(1), last)?,
                Code::DifferenceWaiting => number::difference(waiting.pop(), last)?,
                Code::Product => number::product(waiting.pop(), last)?,
                Code::Quotient => number::quotient(waiting.pop(), last)?,
                Code::Remainder => number::remainder(waiting.pop(), last)?,
                Code::Absolute => last.abs(),
                Code::Positions => {
                    waiting.push(last);
                    let (operand, behind) = ops.as_slice().split_at(op.numbers[0] as usize);
                    ops = behind.iter();
                    self.up_to(here, op, operand)?
                }
            };
        }
        Ok(last)
    }

    /// The truths of an operand at all positions from 0 to this one, joined. No truth
    /// ends it, since a later position may be without value; the first trouble does.
    #[inline(never)]
    fn up_to(&self, here: Position, op: &Op, operand: &[Op]) -> Reckoned {
        let mut truth = i64::from(op.manner & OR == 0);
        let mut state = [0; 64];
        let reached = &self.levels[..here.number * self.width];
        for (number, levels) in reached.chunks(self.width).enumerate() {
            for (value, &level) in state.iter_mut().zip(levels) {
                *value = level.into();
            }
            let there = Position {
                number,
                state: &state,
            };
            truth = joined(op, truth, self.evaluate_at(there, operand)?);
        }
        Ok(joined(op, truth, self.evaluate_at(here, operand)?))
    }

    /// Before state 0 stands state 0.
    #[inline]
    fn lagged(&self, here: Position, [fluent, lag]: [usize; 2]) -> i64 {
        match here.number {
            0 => here.state[fluent].into(),
            number => self.levels[number.saturating_sub(lag) * self.width + fluent].into(),
        }
    }

    /// Before step 1 nothing occurs.
    #[inline]
    fn occurs(&self, here: Position, [entry, lag]: [usize; 2]) -> i64 {
        let step = (here.number + 1).saturating_sub(lag);
        (self.occurring[step] >> entry & 1) as i64
    }
}

impl Position<'_> {
    #[inline]
    fn leaf(self, op: &Op, side: usize) -> i64 {
        let place = usize::from(op.places[side]) % self.state.len();
        i64::from(self.state[place]) + i64::from(op.numbers[side])
    }
}

#[inline]
fn compared(op: &Op, a: i64, b: i64) -> i64 {
    let place = 1 + i32::from(a > b) - i32::from(a < b);
    i64::from(op.manner >> place & 1)
}

#[inline]
fn joined(op: &Op, a: i64, b: i64) -> i64 {
    match op.manner & OR {
        0 => a & b,
        _ => a | b,
    }
}

/// The values that wait while a law is evaluated. A part at depth 16 has at most
/// 15 finished left operands above it; before them waits what was there when
/// nothing was reckoned yet. All of them are values, which four bytes hold.
#[derive(Default)]
struct Waiting {
    values: [i32; MAX_DEPTH],
    height: usize,
}

impl Waiting {
    #[inline]
    fn push(&mut self, value: i64) {
        self.values[self.height % MAX_DEPTH] = value as i32;
        self.height += 1;
    }

    #[inline]
    fn pop(&mut self) -> i64 {
        self.height = self.height.wrapping_sub(1);
        self.values[self.height % MAX_DEPTH].into()
    }
}
