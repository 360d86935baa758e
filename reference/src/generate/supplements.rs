//! Supplements for random domains, with one fault or just short of one. Number
//! 0 means that the domain accepts the supplement.

use super::draft::{frame, law, replacement, Draft};
use super::faults::Lines;
use super::random::Random;
use super::shapes::{deep_constraint, longest, sized};
use crate::line::MAX_PAYLOAD;
use crate::refusal::*;

/// The longest law that may stand in for another.
pub const LONGEST_LAW: usize = MAX_PAYLOAD - 2;

/// A random law that may stand in for the one with this number.
pub fn stand_in(r: &mut Random, draft: &Draft, number: usize) -> Vec<u8> {
    let own = draft.law(number);
    let calm = !r.one_in(4);
    draft.random_law(r, own[0], own[2], calm, LONGEST_LAW)
}

/// The law of this number replaced by a random one.
fn replaced(r: &mut Random, draft: &Draft, number: usize) -> Vec<u8> {
    replacement(number, &stand_in(r, draft, number))
}

/// Numbers of laws, in any order.
fn shuffled(r: &mut Random, laws: usize) -> Vec<usize> {
    let mut numbers: Vec<_> = (0..laws).collect();
    for place in 1..laws {
        numbers.swap(place, r.below(place + 1));
    }
    numbers
}

/// The laws of these numbers replaced by random ones.
pub fn all_replaced(
    r: &mut Random,
    draft: &Draft,
    numbers: impl IntoIterator<Item = usize>,
) -> Lines {
    let lines = numbers.into_iter();
    lines.map(|number| replaced(r, draft, number)).collect()
}

/// A random supplement, now and then an empty one.
pub fn supplement(r: &mut Random, draft: &Draft) -> Lines {
    let mut numbers = shuffled(r, draft.laws());
    numbers.truncate(r.below(numbers.len() + 1));
    all_replaced(r, draft, numbers)
}

/// A random domain and a supplement of one line or more.
pub fn some_lines(r: &mut Random) -> (Draft, Lines) {
    loop {
        let draft = Draft::random(r);
        let lines = supplement(r, &draft);
        if !lines.is_empty() {
            return (draft, lines);
        }
    }
}

/// The same domain by other means: laws of it are given by the supplement, and
/// others stand in their places.
pub fn behind(r: &mut Random, draft: &Draft) -> (Draft, Lines) {
    let (mut other, mut lines) = (draft.clone(), Lines::new());
    for number in shuffled(r, draft.laws()) {
        let own = draft.law(number);
        if own.len() <= 2 + LONGEST_LAW && !r.one_in(3) {
            lines.push(replacement(number, own));
            other = other.with_law(number, &stand_in(r, draft, number));
        }
    }
    (other, lines)
}

/// The same domain by two supplements: of each line the lower one has it, or the
/// upper one has it and the lower one none or another of its number.
pub fn behind_two(r: &mut Random, draft: &Draft) -> (Draft, [Lines; 2]) {
    let (other, lines) = behind(r, draft);
    let (mut lower, mut upper) = (Lines::new(), Lines::new());
    for line in lines {
        match r.below(3) {
            0 => lower.push(line),
            1 => upper.push(line),
            _ => {
                lower.push(replaced(r, draft, line[2].into()));
                upper.push(line);
            }
        }
    }
    (other, [lower, upper])
}

/// How the law numbers of two supplements meet.
#[derive(Clone, Copy, PartialEq, Eq, Debug)]
pub enum Meeting {
    Disjoint,
    /// Each has some of its own beside the common ones.
    Overlapping,
    Equal,
}

/// A random domain, and two supplements of one line or more for it.
pub fn two(r: &mut Random, meeting: Meeting) -> (Draft, [Lines; 2]) {
    let (draft, _) = with_kind(r, 0);
    let numbers = shuffled(r, draft.laws());
    let first = r.from_to(1, numbers.len() - 2);
    let second = r.from_to(first + 1, numbers.len() - 1);
    let (lower, upper) = match meeting {
        Meeting::Disjoint => (&numbers[..first], &numbers[first..second]),
        Meeting::Overlapping => (&numbers[..second], &numbers[first..]),
        Meeting::Equal => (&numbers[..second], &numbers[..second]),
    };
    let mut lines = [lower, upper].map(|numbers| all_replaced(r, &draft, numbers.to_vec()));
    lines[1].reverse();
    (draft, lines)
}

/// Where a line stands among others.
#[derive(Clone, Copy, PartialEq, Eq, Debug)]
pub enum Place {
    First,
    Middle,
    Last,
}

pub const PLACES: &[(&str, Place)] = &[
    ("first", Place::First),
    ("in the middle", Place::Middle),
    ("last", Place::Last),
];

/// Label, refusal, the kind of the law that the line is about (0: any), and the
/// line for the law with this number.
pub type LineFault = (
    &'static str,
    u8,
    u8,
    fn(&mut Random, &Draft, usize) -> Vec<u8>,
);

/// A random domain with a law of the kind, and its number; three laws or more,
/// so that lines can stand around the one about it.
fn with_kind(r: &mut Random, kind: u8) -> (Draft, usize) {
    loop {
        let draft = Draft::random(r);
        let laws = 0..draft.laws();
        let of_kind = |&number: &usize| [0, draft.law(number)[0]].contains(&kind);
        let numbers: Vec<_> = laws.clone().filter(of_kind).collect();
        if laws.len() >= 3 && !numbers.is_empty() {
            let number = *r.pick(&numbers);
            return (draft, number);
        }
    }
}

/// A supplement with such a line at a place, all others being in order.
pub fn with_line(
    r: &mut Random,
    place: Place,
    kind: u8,
    line: impl Fn(&mut Random, &Draft, usize) -> Vec<u8>,
) -> (Draft, Lines) {
    let (draft, number) = with_kind(r, kind);
    let mut others = shuffled(r, draft.laws());
    others.retain(|&other| other != number);
    others.truncate(r.from_to(2, 5));
    let mut lines = all_replaced(r, &draft, others);
    let at = match place {
        Place::First => 0,
        Place::Middle => r.from_to(1, lines.len() - 1),
        Place::Last => lines.len(),
    };
    let line = line(r, &draft, number);
    lines.insert(at, line);
    (draft, lines)
}

/// The law replaced by another of this kind and payload.
fn given(number: usize, kind: u8, payload: &[u8]) -> Vec<u8> {
    replacement(number, &frame(kind, payload))
}

/// The law replaced by one of its own kind and entry, around a constraint.
fn around(draft: &Draft, number: usize, constraint: &[u8]) -> Vec<u8> {
    let (kind, entry) = (draft.law(number)[0], draft.law(number)[2]);
    let own = match kind {
        0xA5 => law(kind, &[&[entry], constraint]),
        0xA6 => law(kind, &[&[entry], constraint, &[0, 0x10, 0, 1]]),
        _ => law(kind, &[constraint]),
    };
    replacement(number, &own)
}

/// A law of exactly so many bytes in place of this one.
fn given_sized(r: &mut Random, draft: &Draft, number: usize, size: usize) -> Vec<u8> {
    let (kind, entry) = (draft.law(number)[0], draft.law(number)[2]);
    replacement(number, &sized(r, draft, kind, entry, size))
}

/// A number that no law has.
fn no_law(r: &mut Random, draft: &Draft) -> usize {
    *r.pick(&[draft.laws(), draft.laws() + 1, 128, 255])
}

/// An entry that is not the law's, there or not.
fn other_entry(r: &mut Random, draft: &Draft, number: usize) -> u8 {
    let own = draft.law(number)[2];
    let other = *r.pick(&[0, 1, draft.entries.len() as u8, 255]);
    match other == own {
        true => own ^ 1,
        false => other,
    }
}

fn other_kind(r: &mut Random, draft: &Draft, number: usize) -> u8 {
    loop {
        let kind = r.from_to(0xA5, 0xA9) as u8;
        if kind != draft.law(number)[0] {
            return kind;
        }
    }
}

/// The line in order, and then altered.
fn altered(r: &mut Random, draft: &Draft, number: usize, alter: fn(&mut Vec<u8>)) -> Vec<u8> {
    let mut line = replaced(r, draft, number);
    alter(&mut line);
    line
}

pub const LINE_FAULTS: &[LineFault] = &[
    ("no count byte", COUNT, 0, |_, _, _| vec![0xAF]),
    ("count over 120, bytes present", COUNT, 0, |r, draft, n| {
        let size = r.from_to(119, 253);
        let mut line = replaced(r, draft, n);
        line.resize(4 + size, 0x2A);
        line[1] = (2 + size) as u8;
        line
    }),
    ("fewer bytes than the count", COUNT, 0, |r, draft, n| {
        altered(r, draft, n, |line| line[1] += 1)
    }),
    ("more bytes than the count", COUNT, 0, |r, draft, n| {
        altered(r, draft, n, |line| line[1] -= 1)
    }),
    ("kind of a domain", KIND, 0, |r, draft, n| {
        match r.one_in(2) {
            true => draft.law(n).clone(),
            false => {
                let mut line = replaced(r, draft, n);
                line[0] = r.from_to(0xA1, 0xA9) as u8;
                line
            }
        }
    }),
    ("kind unknown", KIND, 0, |r, draft, n| {
        let mut line = replaced(r, draft, n);
        line[0] = *r.pick(&[0x01, 0xA0, 0xAA, 0xAE, 0xB0, 0xFA, 0xFF]);
        line
    }),
    ("kind 00", KIND, 0, |r, draft, n| {
        altered(r, draft, n, |line| line[0] = 0)
    }),
    (
        "order: kind and a payload under 3 bytes",
        KIND,
        0,
        |r, _, _| {
            let length = r.below(3);
            frame(0xAE, &r.bytes(length))
        },
    ),
    (
        "order: kind and a law not in the domain",
        KIND,
        0,
        |_, _, _| frame(0xAE, &[255, 0xA9, 0x2A]),
    ),
    ("no payload", PAYLOAD, 0, |_, _, _| frame(0xAF, &[])),
    ("payload of 1 byte", PAYLOAD, 0, |r, _, n| {
        frame(0xAF, &[*r.pick(&[n as u8, 255])])
    }),
    ("payload of 2 bytes", PAYLOAD, 0, |_, draft, n| {
        frame(0xAF, &[n as u8, draft.law(n)[0]])
    }),
    (
        "order: payload of 2 bytes, a law not in the domain",
        PAYLOAD,
        0,
        |r, draft, n| frame(0xAF, &[no_law(r, draft) as u8, draft.law(n)[0]]),
    ),
    (
        "order: payload of 2 bytes, another kind",
        PAYLOAD,
        0,
        |r, draft, n| frame(0xAF, &[n as u8, other_kind(r, draft, n)]),
    ),
    ("law not in the domain", OTHER_LAW, 0, |r, draft, n| {
        replacement(no_law(r, draft), &stand_in(r, draft, n))
    }),
    ("law 255", OTHER_LAW, 0, |r, draft, n| {
        replacement(255, &stand_in(r, draft, n))
    }),
    ("as many as there are laws", OTHER_LAW, 0, |r, draft, n| {
        replacement(draft.laws(), &stand_in(r, draft, n))
    }),
    ("another kind of law", OTHER_LAW, 0, |r, draft, n| {
        let kind = other_kind(r, draft, n);
        let law = draft.random_law(r, kind, 0, true, LONGEST_LAW);
        replacement(n, &law)
    }),
    ("a kind that no law has", OTHER_LAW, 0, |r, _, n| {
        let kind = *r.pick(&[0x00, 0xA1, 0xA4, 0xAA, 0xAF, 0xB1, 0xFF]);
        given(n, kind, &[0x2A])
    }),
    ("another entry in A5", OTHER_LAW, 0xA5, |r, draft, n| {
        let entry = other_entry(r, draft, n);
        given(n, 0xA5, &[entry, 0x2A])
    }),
    ("another entry in A6", OTHER_LAW, 0xA6, |r, draft, n| {
        let entry = other_entry(r, draft, n);
        given(n, 0xA6, &[entry, 0x2A, 0, 0x10, 0, 0])
    }),
    (
        "order: another entry in A5 and nothing else",
        OTHER_LAW,
        0xA5,
        |r, draft, n| given(n, 0xA5, &[other_entry(r, draft, n)]),
    ),
    (
        "order: another entry in A6 and a bad code",
        OTHER_LAW,
        0xA6,
        |r, draft, n| given(n, 0xA6, &[other_entry(r, draft, n), 0xFF]),
    ),
    (
        "order: a law not in the domain with a bad code",
        OTHER_LAW,
        0,
        |r, draft, _| given(no_law(r, draft), 0xA9, &[0xFF]),
    ),
    (
        "order: another kind with a bad code",
        OTHER_LAW,
        0,
        |r, draft, n| {
            let kind = other_kind(r, draft, n);
            given(n, kind, &[0, 0xFF])
        },
    ),
    ("A5 of its entry alone", PAYLOAD, 0xA5, |_, draft, n| {
        given(n, 0xA5, &[draft.law(n)[2]])
    }),
    ("A6 of its entry alone", PAYLOAD, 0xA6, |_, draft, n| {
        given(n, 0xA6, &[draft.law(n)[2]])
    }),
    ("no code of a constraint", PAYLOAD, 0, |r, draft, n| {
        let code = *r.pick(&[0x00, 0x10, 0x19, 0x1F, 0x2D, 0x80, 0xFF]);
        around(draft, n, &[code, 0x10, 0, 0, 0x10, 0, 0])
    }),
    ("a byte after the law", PAYLOAD, 0, |r, draft, n| {
        let (kind, entry) = (draft.law(n)[0], draft.law(n)[2]);
        let mut law = draft.random_law(r, kind, entry, true, LONGEST_LAW - 1);
        law.push(0x2A);
        replacement(n, &law)
    }),
    ("law cut off", PAYLOAD, 0, |r, draft, n| {
        let (kind, entry) = (draft.law(n)[0], draft.law(n)[2]);
        let mut law = sized(r, draft, kind, entry, LONGEST_LAW);
        let length = r.from_to(2, LONGEST_LAW - 1);
        law.truncate(2 + length);
        replacement(n, &law)
    }),
    ("fluent unknown", PAYLOAD, 0, |r, draft, n| {
        let fluent = r.from_to(draft.fluents.len(), 255) as u8;
        around(draft, n, &[0x20, 0x11, fluent, 0, 0x10, 0, 0])
    }),
    ("effect on unknown fluent", PAYLOAD, 0xA6, |r, draft, n| {
        let fluent = r.from_to(draft.fluents.len(), 255) as u8;
        given(n, 0xA6, &[draft.law(n)[2], 0x2A, fluent, 0x10, 0, 0])
    }),
    ("fluent with lag 64", PAYLOAD, 0, |_, draft, n| {
        around(draft, n, &[0x20, 0x11, 0, 64, 0x10, 0, 0])
    }),
    (
        "code 29 with unknown entry",
        PAYLOAD,
        0xA5,
        |r, draft, n| {
            let entry = r.from_to(draft.entries.len(), 255) as u8;
            around(draft, n, &[0x29, entry, 0])
        },
    ),
    ("code 29 in A7", PAYLOAD, 0xA7, |_, draft, n| {
        around(draft, n, &[0x29, 0, 0])
    }),
    ("code 29 in A9", PAYLOAD, 0xA9, |_, draft, n| {
        around(draft, n, &[0x28, 0x29, 0, 1])
    }),
    ("depth 17", PAYLOAD, 0, |r, draft, n| {
        let constraint = deep_constraint(r, 17);
        around(draft, n, &constraint)
    }),
    ("edge: depth 16", 0, 0, |r, draft, n| {
        let constraint = deep_constraint(r, 16);
        around(draft, n, &constraint)
    }),
    ("edge: code 29 in A8", 0, 0xA8, |_, draft, n| {
        around(draft, n, &[0x29, 0, 63])
    }),
    ("edge: A5 of 4 bytes", 0, 0xA5, |_, draft, n| {
        around(draft, n, &[0x2A])
    }),
    ("edge: A6 of 8 bytes", 0, 0xA6, |_, draft, n| {
        around(draft, n, &[0x2A])
    }),
    ("edge: A7 of 3 bytes", 0, 0xA7, |_, draft, n| {
        around(draft, n, &[0x2A])
    }),
    ("edge: A8 of 3 bytes", 0, 0xA8, |_, draft, n| {
        around(draft, n, &[0x2A])
    }),
    ("edge: A9 of 3 bytes", 0, 0xA9, |_, draft, n| {
        around(draft, n, &[0x2A])
    }),
    ("edge: A5 by 118 bytes", 0, 0xA5, |r, draft, n| {
        given_sized(r, draft, n, LONGEST_LAW)
    }),
    ("edge: A6 by 118 bytes", 0, 0xA6, |r, draft, n| {
        given_sized(r, draft, n, LONGEST_LAW)
    }),
    ("edge: A7 by 118 bytes", 0, 0xA7, |r, draft, n| {
        given_sized(r, draft, n, LONGEST_LAW)
    }),
    ("edge: A8 by 118 bytes", 0, 0xA8, |r, draft, n| {
        given_sized(r, draft, n, LONGEST_LAW)
    }),
    ("edge: A9 by 118 bytes", 0, 0xA9, |r, draft, n| {
        given_sized(r, draft, n, LONGEST_LAW)
    }),
];

/// A domain and a whole supplement.
pub type Whole = (&'static str, u8, fn(&mut Random) -> (Draft, Lines));

/// A law of so many bytes, replaced by one of so many.
fn long_law(r: &mut Random, size: usize, by: usize) -> (Draft, Lines) {
    let (draft, number) = with_kind(r, 0);
    let (kind, entry) = (draft.law(number)[0], draft.law(number)[2]);
    let long = sized(r, &draft, kind, entry, size);
    let lines = vec![given_sized(r, &draft, number, by)];
    (draft.with_law(number, &long), lines)
}

/// Lines for every law, in any order.
fn every_law(r: &mut Random, draft: Draft) -> (Draft, Lines) {
    let numbers = shuffled(r, draft.laws());
    let lines = all_replaced(r, &draft, numbers);
    (draft, lines)
}

/// Every law replaced by the longest that may stand in for it, in any order.
pub fn longest_lines(r: &mut Random, draft: &Draft) -> Lines {
    let numbers = shuffled(r, draft.laws()).into_iter();
    numbers
        .map(|number| given_sized(r, draft, number, LONGEST_LAW))
        .collect()
}

/// 128 laws and little else.
pub fn many_laws(r: &mut Random) -> Draft {
    let mut draft = Draft::crowded().free();
    while draft.laws() < 128 {
        let kind = r.from_to(0xA5, 0xA9) as u8;
        let law = draft.random_law(r, kind, 0, true, LONGEST_LAW);
        draft.insert(law);
    }
    draft
}

/// A supplement whose last line, if `spoil` leaves it, repeats its first number.
fn twice(r: &mut Random, spoil: fn(&mut Vec<u8>)) -> (Draft, Lines) {
    let (draft, number) = with_kind(r, 0);
    let mut numbers = shuffled(r, draft.laws());
    numbers.retain(|&other| other != number);
    numbers.truncate(r.below(4));
    numbers.insert(0, number);
    let mut lines = all_replaced(r, &draft, numbers);
    let mut again = match r.one_in(2) {
        true => lines[0].clone(),
        false => replaced(r, &draft, number),
    };
    spoil(&mut again);
    lines.push(again);
    (draft, lines)
}

pub const WHOLE: &[Whole] = &[
    ("law given twice", OTHER_LAW, |r| twice(r, |_| ())),
    (
        "order: law given twice, the second cut off",
        OTHER_LAW,
        |r| {
            twice(r, |again| {
                again.truncate(5);
                again[1] = 3;
            })
        },
    ),
    ("order: law given twice with a bad code", OTHER_LAW, |r| {
        twice(r, |again| {
            let last = again.len() - 1;
            again[last] = 0xFF;
        })
    }),
    ("order: law given twice in 2 bytes", PAYLOAD, |r| {
        twice(r, |again| {
            again.truncate(4);
            again[1] = 2;
        })
    }),
    ("129 lines", OTHER_LAW, |r| {
        let draft = many_laws(r);
        let (draft, mut lines) = every_law(r, draft);
        let again = r.pick(&lines).clone();
        lines.push(again);
        (draft, lines)
    }),
    ("edge: no lines", 0, |r| (Draft::random(r), vec![])),
    ("edge: one line", 0, |r| {
        let (draft, number) = with_kind(r, 0);
        let line = replaced(r, &draft, number);
        (draft, vec![line])
    }),
    ("edge: laws by themselves", 0, |r| {
        let draft = Draft::pool();
        let lines = shuffled(r, 5).into_iter();
        let lines = lines.map(|n| replacement(n, draft.law(n))).collect();
        (draft, lines)
    }),
    ("edge: every law replaced", 0, |r| {
        let draft = Draft::random(r);
        every_law(r, draft)
    }),
    ("edge: 128 lines", 0, |r| {
        let draft = many_laws(r);
        every_law(r, draft)
    }),
    ("edge: 128 lines of 120 bytes", 0, full),
    ("edge: law of 118 bytes by 118", 0, |r| {
        long_law(r, 118, 118)
    }),
    ("edge: law of 119 bytes by 118", 0, |r| {
        long_law(r, 119, 118)
    }),
    ("edge: law of 120 bytes by 118", 0, |r| {
        long_law(r, 120, 118)
    }),
    ("edge: law of 119 bytes by fewer", 0, |r| {
        let size = r.from_to(16, 117);
        long_law(r, 119, size)
    }),
    ("edge: law of 120 bytes by fewer", 0, |r| {
        let size = r.from_to(16, 117);
        long_law(r, 120, size)
    }),
    ("law of 120 bytes by 119", COUNT, |r| long_law(r, 120, 119)),
    ("law of 120 bytes by 120", COUNT, |r| long_law(r, 120, 120)),
];

/// The longest supplement, of a domain that leaves room for it in a program's
/// input.
pub fn full(r: &mut Random) -> (Draft, Lines) {
    let draft = many_laws(r);
    let lines = longest_lines(r, &draft);
    (draft, lines)
}

/// The longest domain, and all of its laws replaced by the longest.
pub fn longest_of_both(r: &mut Random) -> (Draft, Lines) {
    let draft = longest(r);
    let lines = longest_lines(r, &draft);
    (draft, lines)
}
