//! Laws of a wanted shape, to be added to a domain in the making.

use super::draft::{law, Draft};
use super::laws::{constant, lag, node, wrapped};
use super::random::Random;
use crate::domain::Fluent;
use crate::line::MAX_PAYLOAD;

/// A law of a random kind around a constraint; code 29 asks for A5, A6 or A8.
pub fn law_with(r: &mut Random, draft: &Draft, occurrences: bool, constraint: &[u8]) -> Vec<u8> {
    let entry = r.below(draft.entries.len()) as u8;
    let fluent = r.below(draft.fluents.len()) as u8;
    match r.below(if occurrences { 3 } else { 5 }) {
        0 => law(0xA5, &[&[entry], constraint]),
        1 => law(0xA6, &[&[entry], constraint, &[fluent, 0x10, 0, 1]]),
        2 => law(0xA8, &[constraint]),
        3 => law(0xA7, &[constraint]),
        _ => law(0xA9, &[constraint]),
    }
}

/// A law around an expression at depth 1 (in A6) or 2 (under a comparison).
pub fn law_around(r: &mut Random, draft: &Draft, expression: &[u8]) -> Vec<u8> {
    if r.one_in(2) {
        return law(0xA6, &[&[0, 0x2A, 0], expression]);
    }
    let code = r.from_to(0x20, 0x25) as u8;
    let one = constant(1);
    let constraint = match r.one_in(2) {
        true => node(code, &[expression, &one]),
        false => node(code, &[&one, expression]),
    };
    law_with(r, draft, false, &constraint)
}

/// Exactly so deep, by comparisons and reified constraints in turn.
pub fn alternating(depth: usize) -> Vec<u8> {
    match depth {
        0 | 1 => vec![0x2A],
        2 => node(0x20, &[&constant(0), &constant(0)]),
        _ => node(
            0x20,
            &[&constant(0), &node(0x19, &[&alternating(depth - 2)])],
        ),
    }
}

/// A constraint that is exactly so deep.
pub fn deep_constraint(r: &mut Random, depth: usize) -> Vec<u8> {
    match r.below(3) {
        0 => wrapped(0x28, depth - 1, &[0x2A]),
        1 => alternating(depth),
        _ => {
            let mut either = vec![0x2A];
            for _ in 1..depth {
                either = node(r.from_to(0x26, 0x27) as u8, &[&either, &[0x2A]]);
            }
            either
        }
    }
}

/// A law that is exactly so deep.
pub fn deep(r: &mut Random, draft: &Draft, depth: usize) -> Vec<u8> {
    match r.below(5) {
        0..=2 => {
            let constraint = deep_constraint(r, depth);
            law_with(r, draft, false, &constraint)
        }
        3 => {
            let code = r.from_to(0x17, 0x18) as u8;
            let value = wrapped(code, depth - 1, &constant(3));
            law(0xA6, &[&[0, 0x2A, 0], &value])
        }
        _ => {
            let mut value = vec![0x11, 0, 0];
            for _ in 1..depth {
                value = node(r.from_to(0x12, 0x13) as u8, &[&value, &constant(1)]);
            }
            law(0xA6, &[&[0, 0x2A, 0], &value])
        }
    }
}

/// Two numbers under one code: a fluent and a constant, 7 bytes.
fn pair(r: &mut Random, draft: &Draft, code: u8) -> Vec<u8> {
    let read = [0x11, r.below(draft.fluents.len()) as u8, lag(r)];
    node(code, &[&read, &constant(r.value())])
}

/// So many comparisons joined by "and" or "or", in halves: 8 bytes each but
/// for the first.
fn joined(r: &mut Random, draft: &Draft, comparisons: usize) -> Vec<u8> {
    if comparisons == 1 {
        let code = r.from_to(0x20, 0x25) as u8;
        return pair(r, draft, code);
    }
    let half = comparisons / 2;
    let left = joined(r, draft, half);
    let code = r.from_to(0x26, 0x27) as u8;
    node(code, &[&left, &joined(r, draft, comparisons - half)])
}

/// A constraint of exactly so many bytes: comparisons, and "not" around them as
/// often as is needed.
pub(super) fn sized_constraint(r: &mut Random, draft: &Draft, size: usize) -> Vec<u8> {
    let part = joined(r, draft, (size + 1) / 8);
    wrapped(0x28, size - part.len(), &part)
}

/// A law of the kind whose payload has exactly so many bytes, 16 or more.
pub fn sized(r: &mut Random, draft: &Draft, kind: u8, entry: u8, size: usize) -> Vec<u8> {
    let bytes = match kind {
        0xA5 => law(kind, &[&[entry], &sized_constraint(r, draft, size - 1)]),
        0xA6 => {
            let condition = sized_constraint(r, draft, size - 9);
            law(kind, &[&[entry], &condition, &[0], &pair(r, draft, 0x12)])
        }
        _ => law(kind, &[&sized_constraint(r, draft, size)]),
    };
    assert_eq!(bytes.len(), 2 + size);
    bytes
}

/// As many of everything as is allowed, fluents with limits, and laws that fill
/// their lines: no domain has a longer text.
pub fn longest(r: &mut Random) -> Draft {
    let mut draft = Draft::crowded();
    for fluent in 0..draft.fluents.len() {
        draft.limit(fluent, r.from_to(1, Fluent::MAX_LIMIT.into()) as u16);
    }
    for entry in 0..draft.entries.len() as u8 {
        let law = sized(r, &draft, 0xA5, entry, MAX_PAYLOAD);
        draft.insert(law);
        let kind = r.from_to(0xA5, 0xA9) as u8;
        let law = sized(r, &draft, kind, entry, MAX_PAYLOAD);
        draft.insert(law);
    }
    draft
}

pub fn occurrence_under_reified() -> Vec<u8> {
    node(0x20, &[&[0x19, 0x29, 0, 0], &constant(0)])
}
