//! A seeded generator of cases for this and any other implementation.

pub mod aims;
pub mod calls;
pub mod case;
pub mod changing_fast;
pub mod codes;
mod course;
pub mod coverage;
pub mod divisions;
pub mod draft;
pub mod faults;
pub mod laws;
pub mod laying;
pub mod looking_back;
pub mod low_water;
mod mix;
pub mod nesting;
pub mod random;
pub mod report;
pub mod shapes;
pub mod sheets;
pub mod supplements;
pub mod texts;
pub mod troubles;
pub mod verdicts;

pub use aims::{Aim, Expect};
pub use case::{
    handed_on, program_name, run_reference, Answer, Call, Case, Outcome, SupplementCall,
};
pub use coverage::Coverage;

use random::Random;

/// The number of cases and the seed, as a program's first two arguments say,
/// else 20,000 and 1; `None` where one is no number.
pub fn asked(arguments: &mut impl Iterator<Item = String>) -> Option<(u64, u64)> {
    let mut number = |default| match arguments.next() {
        Some(word) => word.parse().ok(),
        None => Some(default),
    };
    Some((number(20_000)?, number(1)?))
}

/// Hands out cases without end; the same seed gives the same cases.
pub struct Generator {
    random: Random,
    aims: Vec<Aim>,
    made: usize,
}

/// A case and, if it was made for one answer, the number of its aim.
pub struct Generated {
    pub case: Case,
    pub aim: Option<usize>,
}

impl Generator {
    pub fn seeded(seed: u64) -> Self {
        Generator {
            random: Random::seeded(seed),
            aims: aims::aims(),
            made: 0,
        }
    }

    pub fn aims(&self) -> &[Aim] {
        &self.aims
    }
}

impl Iterator for Generator {
    type Item = Generated;

    /// Every second case has an aim, one after another.
    fn next(&mut self) -> Option<Generated> {
        let number = self.made;
        self.made += 1;
        Some(if number % 2 == 0 {
            let aim = number / 2 % self.aims.len();
            Generated {
                case: (self.aims[aim].make)(&mut self.random),
                aim: Some(aim),
            }
        } else {
            Generated {
                case: mix::any(&mut self.random, &self.aims),
                aim: None,
            }
        })
    }
}
