//! Laws with one part that is none: a byte that is no code, or a code of the
//! other sort, with operands after it as a code would have them; or a code with
//! an operand too few or too many. A reader that took the byte for a code, or
//! counted otherwise, would find such a law whole.

use super::draft::{law, replacement, Draft};
use super::faults::{plus, Lines};
use super::laws::node;
use super::random::Random;
use super::supplements::{with_line, PLACES};
use crate::refusal::PAYLOAD;
use std::ops::RangeInclusive;

/// What a tree is.
#[derive(Clone, Copy, PartialEq, Eq, Debug)]
enum Sort {
    Expression,
    Constraint,
}

/// What operands are.
#[derive(Clone, Copy, Debug)]
enum Of {
    Bytes,
    Expressions,
    Constraints,
}

type Operands = (Of, usize);

use Of::{Bytes, Constraints, Expressions};
use Sort::{Constraint, Expression};

/// The paper's codes: what each is, and its operands.
const CODES: &[(RangeInclusive<u8>, Sort, Operands)] = &[
    (0x10..=0x11, Expression, (Bytes, 2)),
    (0x12..=0x16, Expression, (Expressions, 2)),
    (0x17..=0x18, Expression, (Expressions, 1)),
    (0x19..=0x19, Expression, (Constraints, 1)),
    (0x20..=0x25, Constraint, (Expressions, 2)),
    (0x26..=0x27, Constraint, (Constraints, 2)),
    (0x28..=0x28, Constraint, (Constraints, 1)),
    (0x29..=0x29, Constraint, (Bytes, 2)),
    (0x2A..=0x2A, Constraint, (Constraints, 0)),
    (0x2B..=0x2C, Constraint, (Constraints, 1)),
];

/// Bytes beside them.
const NO_CODES: &[RangeInclusive<u8>] = &[0x0F..=0x0F, 0x1A..=0x1F, 0x2D..=0x2F];

/// Operands that a code beside them might have.
const OPERANDS: &[(&str, Operands)] = &[
    ("nothing", (Constraints, 0)),
    ("two bytes", (Bytes, 2)),
    ("an expression", (Expressions, 1)),
    ("two expressions", (Expressions, 2)),
    ("a constraint", (Constraints, 1)),
    ("two constraints", (Constraints, 2)),
];

/// A code and its operands where an expression or a constraint is looked for.
#[derive(Clone, Copy, Debug)]
pub struct Part {
    sort: Sort,
    code: u8,
    operands: Operands,
}

/// Where a part stands: in a law of which kind, in which tree of it, and whether
/// below others there.
#[derive(Clone, Copy, Debug)]
pub struct Spot {
    kind: u8,
    tree: Sort,
    below: bool,
}

const fn top(kind: u8, tree: Sort) -> Spot {
    let below = false;
    Spot { kind, tree, below }
}

const fn below(kind: u8, tree: Sort) -> Spot {
    let below = true;
    Spot { kind, tree, below }
}

/// All spots, so that neighbours differ: of two constraints one stands in a law
/// that may have code 29.
const SPOTS: &[(&str, Spot)] = &[
    ("at the top of A5", top(0xA5, Constraint)),
    ("below others in A7", below(0xA7, Constraint)),
    ("at the top of A6's constraint", top(0xA6, Constraint)),
    ("below others in A9", below(0xA9, Constraint)),
    ("at the top of A8", top(0xA8, Constraint)),
    ("below others in A5", below(0xA5, Constraint)),
    ("at the top of A7", top(0xA7, Constraint)),
    ("below others in A6's constraint", below(0xA6, Constraint)),
    ("at the top of A9", top(0xA9, Constraint)),
    ("below others in A8", below(0xA8, Constraint)),
    ("at the top of A6's expression", top(0xA6, Expression)),
    ("below others in A6's expression", below(0xA6, Expression)),
];

/// All parts: label, refusal, part. Number 0 means that the law is in order.
pub fn parts() -> Vec<(String, u8, Part)> {
    let mut parts = Vec::new();
    let mut add = |label, number, sort, code, operands| {
        let part = Part {
            sort,
            code,
            operands,
        };
        let edge = if number == 0 { "edge: " } else { "" };
        parts.push((format!("{edge}code {code:02X} {label}"), number, part));
    };
    let sorts = [(Expression, "an expression"), (Constraint, "a constraint")];
    for (sort, wanted) in sorts {
        for code in NO_CODES.iter().cloned().flatten() {
            for &(with, operands) in OPERANDS {
                let label = format!("for {wanted} with {with}");
                add(label, PAYLOAD, sort, code, operands);
            }
        }
    }
    for (codes, sort, (of, number)) in CODES.iter().cloned() {
        for code in codes {
            let own = "with its operands".into();
            add(own, 0, sort, code, (of, number));
            if number > 0 {
                let few = "with an operand too few".into();
                add(few, PAYLOAD, sort, code, (of, number - 1));
            }
            let many = "with an operand too many".into();
            add(many, PAYLOAD, sort, code, (of, number + 1));
            for (other, wanted) in sorts {
                if other != sort {
                    let label = format!("for {wanted} with its operands");
                    add(label, PAYLOAD, other, code, (of, number));
                }
            }
        }
    }
    parts
}

/// A number below this one, and below 10, so that it is no code wherever one is
/// looked for.
fn number(r: &mut Random, end: usize) -> u8 {
    r.below(end.min(10)) as u8
}

/// A small tree without codes of one operand, so that none is left of it where
/// its first byte was taken for another's operand.
fn small(r: &mut Random, draft: &Draft, sort: Sort) -> Vec<u8> {
    match (sort, r.one_in(2)) {
        (Expression, true) => vec![0x10, number(r, 10), number(r, 10)],
        (Expression, false) => vec![0x11, number(r, draft.fluents.len()), number(r, 10)],
        (Constraint, true) => vec![0x2A],
        (Constraint, false) => {
            let code = r.from_to(0x20, 0x25) as u8;
            let left = small(r, draft, Expression);
            node(code, &[&left, &small(r, draft, Expression)])
        }
    }
}

/// A tree as an operand of some code; where it is to be crossed, the code is of
/// the other sort.
fn above(r: &mut Random, draft: &Draft, sort: Sort, tree: &[u8], crossed: bool) -> (Sort, Vec<u8>) {
    let (above, first, last) = match (sort, crossed) {
        (Expression, false) => (Expression, 0x12, 0x18),
        (Expression, true) => (Constraint, 0x20, 0x25),
        (Constraint, false) => (Constraint, 0x26, 0x28),
        (Constraint, true) => (Expression, 0x19, 0x19),
    };
    let code = r.from_to(first, last) as u8;
    let other = small(r, draft, sort);
    let bytes = match (code, r.one_in(2)) {
        (0x17..=0x19 | 0x28, _) => node(code, &[tree]),
        (_, true) => node(code, &[tree, &other]),
        (_, false) => node(code, &[&other, tree]),
    };
    (above, bytes)
}

impl Part {
    /// Where it can stand, by label: at the top only of a tree of its sort. Code
    /// 29 is refused in A7 and A9 whatever its operands.
    pub fn spots(self) -> Vec<(&'static str, Spot)> {
        let occurrence = self.code == 0x29;
        let possible = |(_, spot): &&(_, Spot)| {
            (spot.below || spot.tree == self.sort)
                && !(occurrence && [0xA7, 0xA9].contains(&spot.kind))
        };
        SPOTS.iter().filter(possible).copied().collect()
    }

    fn bytes(self, r: &mut Random, draft: &Draft) -> Vec<u8> {
        let mut bytes = vec![self.code];
        let (of, operands) = self.operands;
        for at in 0..operands {
            match of {
                // As of a fluent or an entry, and a lag.
                Bytes if at == 0 => {
                    let end = draft.fluents.len().min(draft.entries.len());
                    bytes.push(number(r, end));
                }
                Bytes => bytes.push(number(r, 10)),
                Expressions => bytes.extend(small(r, draft, Expression)),
                Constraints => bytes.extend(small(r, draft, Constraint)),
            }
        }
        bytes
    }

    /// The tree that it stands in.
    fn tree(self, r: &mut Random, draft: &Draft, spot: Spot) -> Vec<u8> {
        let (mut sort, mut tree) = (self.sort, self.bytes(r, draft));
        if spot.below {
            for _ in 0..r.from_to(1, 8) {
                let crossed = r.one_in(3);
                (sort, tree) = above(r, draft, sort, &tree, crossed);
            }
        }
        if sort != spot.tree {
            (_, tree) = above(r, draft, sort, &tree, true);
        }
        tree
    }

    /// The law that it stands in.
    fn law(self, r: &mut Random, draft: &Draft, spot: Spot, entry: u8) -> Vec<u8> {
        let tree = self.tree(r, draft, spot);
        let fluent = number(r, draft.fluents.len());
        match (spot.kind, spot.tree) {
            (0xA5, _) => law(0xA5, &[&[entry], &tree]),
            (0xA6, Constraint) => {
                let value = small(r, draft, Expression);
                law(0xA6, &[&[entry], &tree, &[fluent], &value])
            }
            (0xA6, Expression) => {
                let condition = small(r, draft, Constraint);
                law(0xA6, &[&[entry], &condition, &[fluent], &tree])
            }
            (kind, _) => law(kind, &[&tree]),
        }
    }

    pub fn in_domain(self, r: &mut Random, spot: Spot) -> Lines {
        in_domain(r, |r, draft, entry| self.law(r, draft, spot, entry))
    }

    pub fn in_supplement(self, r: &mut Random, spot: Spot) -> (Draft, Lines) {
        in_supplement(r, spot.kind, |r, draft, entry| {
            self.law(r, draft, spot, entry)
        })
    }
}

/// A random domain with such a law, which may be of an entry.
pub fn in_domain(r: &mut Random, make: impl Fn(&mut Random, &Draft, u8) -> Vec<u8>) -> Lines {
    plus(r, |r, draft| {
        let entry = r.below(draft.entries.len()) as u8;
        make(r, draft, entry)
    })
}

/// A random domain, and a supplement with such a law, which is of this kind.
pub fn in_supplement(
    r: &mut Random,
    kind: u8,
    make: impl Fn(&mut Random, &Draft, u8) -> Vec<u8>,
) -> (Draft, Lines) {
    let &(_, place) = r.pick(PLACES);
    with_line(r, place, kind, |r, draft, number| {
        let entry = draft.law(number)[2];
        replacement(number, &make(r, draft, entry))
    })
}
