//! A domain in which the sheet decides what a level is in each state, and a law that
//! is read on the last state of such a course or in the step after it.

use super::aims::Expect::{self, Accepted, Broken, Goal};
use super::draft::{law, mask_frame, Draft};
use super::laws::{constant, node, or, reified};
use super::random::Random;
use super::verdicts::{effect, read, Made};
use crate::sheet::MAX_STEPS;

/// The level that courses are about. Action 1 of agent 0 sets it to 0, and so on up
/// to action 4.
pub(super) const LEVEL: u8 = 0;

/// A level that is 1 in the last state alone, and one that effects set.
const MARK: u8 = 1;
const SHOWN: u8 = 2;

/// The action of agent 1 that leads to the last state, and the one after it; the
/// second one's entry.
const MARKING: u8 = 5;
const READING: u8 = 6;
const READING_ENTRY: u8 = 5;

/// Level 0 at a lag.
pub(super) fn level(lag: u8) -> Vec<u8> {
    read(LEVEL, lag)
}

/// What a constraint comes to.
#[derive(Clone, Copy, PartialEq, Eq, Debug)]
pub(super) enum Comes {
    To(bool),
    /// It has no value, by a trouble of this kind.
    Without(u8),
}

/// What happens up to the last state.
pub(super) struct Course {
    /// Level 0 in state 0.
    pub start: u8,
    /// What agent 0 names in each step up to the last state, and in one after it.
    pub names: Vec<u8>,
    pub then: u8,
}

impl Course {
    /// Level 0 is this in each state. Where it stays, agent 0 may be idle; the step
    /// after the last state is no matter.
    pub fn through(r: &mut Random, levels: &[u8]) -> Self {
        let mut name = |pair: &[u8]| match pair[0] == pair[1] && r.one_in(2) {
            true => 0,
            false => pair[1] + 1,
        };
        Course {
            start: levels[0],
            names: levels.windows(2).map(&mut name).collect(),
            then: r.below(5) as u8,
        }
    }

    /// All levels are known to everybody, and every action may be taken, but for the
    /// one behind the last state.
    fn draft(&self) -> Draft {
        let marked = i16::from(self.names.is_empty());
        let fluents = [[0, 3, self.start.into()], [0, 1, marked], [0, 1, 0]];
        let mut entries: Vec<_> = (1..MARKING).map(|name| (name, 0b01)).collect();
        entries.extend([MARKING, READING].map(|name| (name, 0b10)));
        let mut draft = Draft::new(2, &fluents, &entries);
        for fluent in [LEVEL, MARK, SHOWN] {
            draft.insert(mask_frame(0xA3, fluent, 0b11));
        }
        for entry in 0..READING_ENTRY {
            draft.insert(law(0xA5, &[&[entry, 0x2A]]));
            let (fluent, value) = match entry + 1 {
                MARKING => (MARK, 1),
                _ => (LEVEL, entry),
            };
            draft.insert(effect(entry, fluent, &constant(value.into())));
        }
        draft
    }

    /// The steps up to the last state, and one more if agent 1 names something there.
    fn sheet(&self, after: Option<u8>) -> Vec<u8> {
        let mut steps: Vec<_> = self.names.iter().map(|&name| [name, 0]).collect();
        if let Some(last) = steps.last_mut() {
            last[1] = MARKING;
        }
        steps.extend(after.map(|name| [self.then, name]));
        steps.concat()
    }
}

/// Where a constraint is read.
pub(super) struct Place {
    pub name: &'static str,
    pub kind: u8,
    /// The depth of the constraint, which may stand under 19.
    pub top: usize,
    /// The verdict where it is true, and where it is false.
    verdicts: [Expect; 2],
    /// The law around it, of an entry and about a fluent if the kind has them.
    frame: fn(u8, u8, &[u8]) -> Vec<u8>,
    /// What agent 1 names in the step that it is read in; it may be read on the last
    /// state itself.
    step: Option<u8>,
}

pub(super) const PLACES: &[Place] = &[
    Place {
        name: "A5",
        kind: 0xA5,
        top: 1,
        verdicts: [Accepted, Broken(2)],
        frame: |entry, _, constraint| law(0xA5, &[&[entry], constraint]),
        step: Some(READING),
    },
    Place {
        name: "A7",
        kind: 0xA7,
        top: 1,
        verdicts: [Accepted, Broken(6)],
        frame: |_, _, constraint| law(0xA7, &[constraint]),
        step: None,
    },
    Place {
        name: "the constraint of A6",
        kind: 0xA6,
        top: 1,
        verdicts: [Accepted, Goal(8)],
        frame: |entry, fluent, constraint| {
            law(0xA6, &[&[entry], constraint, &[fluent], &constant(1)])
        },
        step: Some(READING),
    },
    Place {
        name: "A9",
        kind: 0xA9,
        top: 1,
        verdicts: [Accepted, Goal(8)],
        frame: |_, _, constraint| law(0xA9, &[constraint]),
        step: None,
    },
    Place {
        name: "the expression of A6",
        kind: 0xA6,
        top: 2,
        verdicts: [Accepted, Goal(8)],
        frame: |entry, fluent, constraint| effect(entry, fluent, &reified(constraint)),
        step: Some(READING),
    },
    Place {
        name: "A8",
        kind: 0xA8,
        top: 1,
        verdicts: [Accepted, Broken(3)],
        frame: |_, _, constraint| law(0xA8, &[constraint]),
        step: Some(0),
    },
];

impl Place {
    pub fn verdict(&self, comes: Comes) -> Expect {
        match comes {
            Comes::To(truth) => self.verdicts[usize::from(!truth)],
            Comes::Without(kind) if self.kind == 0xA9 => Goal(kind),
            Comes::Without(kind) => Broken(kind),
        }
    }

    /// Whether its constraint is read in every state or step, and not only at last.
    pub fn always_read(&self) -> bool {
        [0xA7, 0xA8].contains(&self.kind)
    }

    /// Whether it is read in a step, so that code 29 may stand there.
    pub fn in_a_step(&self) -> bool {
        self.step.is_some()
    }

    /// States of the longest course.
    pub fn longest(&self) -> usize {
        MAX_STEPS + 1 - usize::from(self.in_a_step())
    }

    /// The law around a constraint, of an entry of any domain.
    pub fn law(&self, entry: u8, constraint: &[u8]) -> Vec<u8> {
        (self.frame)(entry, 0, constraint)
    }

    /// A law about the last state alone: before it, it is true if it has a value.
    pub fn at_last(&self, course: &Course, constraint: &[u8]) -> Made {
        match self.always_read() {
            true => {
                let before = node(0x20, &[&read(MARK, 0), &constant(0)]);
                self.throughout(course, &or(&before, constraint))
            }
            false => self.throughout(course, constraint),
        }
    }

    /// A law of just this constraint.
    pub fn throughout(&self, course: &Course, constraint: &[u8]) -> Made {
        let mut draft = course.draft();
        if self.kind != 0xA5 {
            draft.insert(law(0xA5, &[&[READING_ENTRY, 0x2A]]));
        }
        draft.insert((self.frame)(READING_ENTRY, SHOWN, constraint));
        if self.kind == 0xA6 {
            let set = node(0x20, &[&read(SHOWN, 0), &constant(1)]);
            draft.insert(law(0xA9, &[&set]));
        }
        (draft, course.sheet(self.step))
    }
}
