//! Laws without value: by every trouble and in every place where a law is read;
//! with two troubles, of which the first is given; and numbers that are just
//! values still.

use super::aims::Expect::{self, Accepted, Broken, Goal};
use super::draft::{law, mask_frame, Draft};
use super::laws::{
    and, constant, difference, negation, node, or, product, quotient, reified, remainder, sum,
    wrapped, FALSE, TRUE,
};
use super::random::Random;
use super::verdicts::{counting, effect, read, single, Made, Trial};
use crate::judge::{OUT_OF_NUMBERS, ZERO_DIVISOR};
use std::rc::Rc;

/// The highest number, 31,250 times 32,000.
pub(super) fn highest() -> Vec<u8> {
    node(0x14, &[&constant(31_250), &constant(32_000)])
}

pub(super) fn lowest() -> Vec<u8> {
    node(0x14, &[&constant(-31_250), &constant(32_000)])
}

/// Minus one while the seed is 0, zero once it is 1.
fn divisor(seed: &[u8]) -> Vec<u8> {
    difference(seed, &constant(1))
}

/// 52,578 while the seed is 0. Once it is 1, 19,019 times this is just out of
/// numbers: 1,000,000,001.
fn cofactor(seed: &[u8]) -> Vec<u8> {
    sum(&product(&constant(26_289), &constant(2)), seed)
}

/// The paper's square: of 31,622 while the seed is 0, of 31,623 once it is 1.
fn square(seed: &[u8]) -> Vec<u8> {
    let factor = sum(&constant(31_622), seed);
    product(&factor, &factor)
}

/// Two to the power of 16, whose square is 0 in 32 bits.
fn power() -> Vec<u8> {
    product(&constant(256), &constant(256))
}

/// Expressions that have a value while their seed is 0 and none once it is 1; and
/// the kind of fault that a law is then.
pub(super) type Cause = (&'static str, u8, fn(&[u8]) -> Vec<u8>);

/// One trouble each. They are put before every call that judges.
const CAUSES: &[Cause] = &[
    ("quotient by 0", ZERO_DIVISOR, |seed| {
        quotient(&constant(7), &divisor(seed))
    }),
    ("remainder by 0", ZERO_DIVISOR, |seed| {
        remainder(&constant(-7), &divisor(seed))
    }),
    ("square of 31,623", OUT_OF_NUMBERS, square),
    ("sum far above", OUT_OF_NUMBERS, |seed| {
        sum(&highest(), &product(&highest(), seed))
    }),
    ("difference far below", OUT_OF_NUMBERS, |seed| {
        difference(&product(&lowest(), seed), &highest())
    }),
];

/// The same with other dividends; just beyond the number range and far beyond, at
/// both ends.
const FINER: &[Cause] = &[
    ("0 by 0", ZERO_DIVISOR, |seed| {
        quotient(&constant(0), &divisor(seed))
    }),
    ("highest number by 0", ZERO_DIVISOR, |seed| {
        quotient(&highest(), &divisor(seed))
    }),
    (
        "remainder of the lowest number by 0",
        ZERO_DIVISOR,
        |seed| remainder(&lowest(), &divisor(seed)),
    ),
    ("sum just above", OUT_OF_NUMBERS, |seed| {
        sum(&highest(), seed)
    }),
    ("sum just below", OUT_OF_NUMBERS, |seed| {
        sum(&negation(seed), &lowest())
    }),
    ("sum far below", OUT_OF_NUMBERS, |seed| {
        sum(&lowest(), &product(&lowest(), seed))
    }),
    ("difference just above", OUT_OF_NUMBERS, |seed| {
        difference(&highest(), &negation(seed))
    }),
    ("difference just below", OUT_OF_NUMBERS, |seed| {
        difference(&lowest(), seed)
    }),
    ("difference far above", OUT_OF_NUMBERS, |seed| {
        difference(&highest(), &product(&lowest(), seed))
    }),
    ("product just above", OUT_OF_NUMBERS, |seed| {
        product(&constant(19_019), &cofactor(seed))
    }),
    ("product just below", OUT_OF_NUMBERS, |seed| {
        product(&cofactor(seed), &constant(-19_019))
    }),
    ("product far above", OUT_OF_NUMBERS, |seed| {
        product(&lowest(), &product(&lowest(), seed))
    }),
    ("product far below", OUT_OF_NUMBERS, |seed| {
        product(&product(&highest(), seed), &lowest())
    }),
    ("product above, 0 in 32 bits", OUT_OF_NUMBERS, |seed| {
        product(&power(), &product(&power(), seed))
    }),
    ("product below, 0 in 32 bits", OUT_OF_NUMBERS, |seed| {
        product(&negation(&product(&power(), seed)), &power())
    }),
];

/// More than one trouble, or one that the rest of the law seems to undo, or that
/// its operation might hide or give a reason of its own for.
const COMPOUNDS: &[Cause] = &[
    ("dividend out of numbers by 0", OUT_OF_NUMBERS, |seed| {
        quotient(&sum(&highest(), seed), &divisor(seed))
    }),
    (
        "remainder, dividend out of numbers by 0",
        OUT_OF_NUMBERS,
        |seed| remainder(&difference(&lowest(), seed), &divisor(seed)),
    ),
    ("divisor out of numbers", OUT_OF_NUMBERS, |seed| {
        quotient(&constant(7), &square(seed))
    }),
    (
        "remainder of 0, divisor out of numbers",
        OUT_OF_NUMBERS,
        |seed| remainder(&constant(0), &difference(&lowest(), seed)),
    ),
    (
        "zero divisor left of a product out of numbers",
        ZERO_DIVISOR,
        |seed| sum(&quotient(&constant(7), &divisor(seed)), &square(seed)),
    ),
    (
        "zero divisor right of a product out of numbers",
        OUT_OF_NUMBERS,
        |seed| sum(&square(seed), &quotient(&constant(7), &divisor(seed))),
    ),
    (
        "zero divisor in the first of two large factors",
        ZERO_DIVISOR,
        |seed| {
            let factor = sum(&constant(31_623), &quotient(&constant(7), &divisor(seed)));
            product(&factor, &constant(31_623))
        },
    ),
    (
        "zero divisor in the second of two large factors",
        ZERO_DIVISOR,
        |seed| {
            let factor = sum(&remainder(&constant(7), &divisor(seed)), &constant(31_622));
            product(&constant(31_622), &factor)
        },
    ),
    ("out of numbers and back", OUT_OF_NUMBERS, |seed| {
        difference(&sum(&highest(), seed), &highest())
    }),
    ("out of numbers times 0", OUT_OF_NUMBERS, |seed| {
        product(&difference(&lowest(), seed), &constant(0))
    }),
    ("0 times a quotient by 0", ZERO_DIVISOR, |seed| {
        product(&constant(0), &quotient(&constant(7), &divisor(seed)))
    }),
];

/// A cause of this kind.
fn any_cause(r: &mut Random, kind: u8) -> fn(&[u8]) -> Vec<u8> {
    let causes = CAUSES.iter().chain(FINER);
    let of_kind: Vec<_> = causes.filter(|(_, own, _)| *own == kind).collect();
    r.pick(&of_kind).2
}

/// The two kinds each way round: first the one that is given.
const WAYS: [[u8; 2]; 2] = [
    [ZERO_DIVISOR, OUT_OF_NUMBERS],
    [OUT_OF_NUMBERS, ZERO_DIVISOR],
];

/// A constraint about an expression.
pub(super) fn about(part: &[u8]) -> Vec<u8> {
    node(0x20, &[part, &constant(0)])
}

/// An expression of two, neither of which has a value. What is wrong with the
/// first is to be given.
type Pair = (&'static str, fn(&[u8], &[u8]) -> Vec<u8>);

const PAIRS: &[Pair] = &[
    ("under 12", sum),
    ("under 13", difference),
    ("under 14", product),
    ("under 15", quotient),
    ("under 16", remainder),
    ("under 20", |a, b| reified(&node(0x20, &[a, b]))),
    ("under 21", |a, b| reified(&node(0x21, &[a, b]))),
    ("under 22", |a, b| reified(&node(0x22, &[a, b]))),
    ("under 23", |a, b| reified(&node(0x23, &[a, b]))),
    ("under 24", |a, b| reified(&node(0x24, &[a, b]))),
    ("under 25", |a, b| reified(&node(0x25, &[a, b]))),
    ("under 26", |a, b| reified(&and(&about(a), &about(b)))),
    ("under 27", |a, b| reified(&or(&about(a), &about(b)))),
    ("each under 19, under 12", |a, b| {
        sum(&reified(&about(a)), &reified(&about(b)))
    }),
    ("under 26 under 28", |a, b| {
        reified(&node(0x28, &[&and(&about(a), &about(b))]))
    }),
    ("under 26 behind a true side of 27", |a, b| {
        reified(&or(TRUE, &and(&about(a), &about(b))))
    }),
    ("under 27 behind a false side of 26", |a, b| {
        reified(&and(FALSE, &or(&about(a), &about(b))))
    }),
    ("under 26, the first behind a true side of 27", |a, b| {
        reified(&and(&or(TRUE, &about(a)), &about(b)))
    }),
    ("under 27, the first behind a false side of 26", |a, b| {
        reified(&or(&and(FALSE, &about(a)), &about(b)))
    }),
    ("under 27, the first before a true side of 27", |a, b| {
        reified(&or(&or(&about(a), TRUE), &about(b)))
    }),
    ("under 12, the first times 0", |a, b| {
        sum(&product(a, &constant(0)), b)
    }),
    ("under 12, the first deeper", |a, b| {
        sum(&wrapped(0x17, 3, a), b)
    }),
    ("under 13, the second deeper", |a, b| {
        difference(a, &wrapped(0x18, 3, b))
    }),
    ("under 12, and the first again", |a, b| sum(&sum(a, b), a)),
];

/// Wraps an expression without value in other parts, which then have none.
fn hidden(r: &mut Random, part: &[u8]) -> Vec<u8> {
    match r.below(6) {
        0 => product(&constant(0), part),
        1 => sum(part, &constant(1)),
        2 => node(0x18, &[part]),
        3 => reified(&about(part)),
        _ => part.to_vec(),
    }
}

/// A constraint with an expression in it; what is reified can do without that.
fn compared(r: &mut Random, part: &[u8]) -> Vec<u8> {
    let code = r.from_to(0x20, 0x25) as u8;
    match part {
        [0x19, constraint @ ..] if r.one_in(2) => constraint.to_vec(),
        _ if r.one_in(2) => node(code, &[part, &constant(3)]),
        _ => node(code, &[&constant(3), part]),
    }
}

fn hidden_constraint(r: &mut Random, part: &[u8]) -> Vec<u8> {
    let part = hidden(r, part);
    let plain = compared(r, &part);
    match r.below(6) {
        // Neither a true side of "or" nor a false side of "and" settles it.
        0 => or(TRUE, &plain),
        1 => or(&plain, TRUE),
        2 => and(FALSE, &plain),
        3 => and(&plain, FALSE),
        4 => node(0x28, &[&plain]),
        _ => plain,
    }
}

/// Makes an expression from a seed.
type Part<'a> = &'a dyn Fn(&[u8]) -> Vec<u8>;

/// An expression that never has a value. Its seed is 1 by a constant, by the
/// fluent that stays at 5, or by a constraint.
fn always(r: &mut Random, part: Part) -> Vec<u8> {
    let seed = match r.below(4) {
        0 => difference(&read(0, 0), &constant(4)),
        1 => difference(&read(0, 1), &constant(4)),
        2 => reified(TRUE),
        _ => constant(1),
    };
    part(&seed)
}

/// A constraint that is true as long as it has a value: until the count rises.
fn later(r: &mut Random, part: Part) -> Vec<u8> {
    let part = part(&difference(&read(0, 0), &constant(5)));
    let constraint = compared(r, &part);
    match r.one_in(2) {
        true => or(TRUE, &constraint),
        false => or(&constraint, TRUE),
    }
}

/// Where a law without value is read: the verdict by its kind, domain and sheet.
type Place = (
    &'static str,
    fn(u8) -> Expect,
    fn(&mut Random, Part) -> Made,
);

const AT_ONCE: &[Place] = &[
    ("A5", Broken, |r, part| {
        let part = always(r, part);
        let mut draft = known();
        draft.insert(law(0xA5, &[&[0], &hidden_constraint(r, &part)]));
        (draft.free(), vec![0, 1])
    }),
    ("A8", Broken, |r, part| {
        let part = always(r, part);
        let mut draft = single().free();
        draft.insert(law(0xA8, &[&hidden_constraint(r, &part)]));
        (draft, vec![0])
    }),
    ("constraint of A6", Broken, |r, part| {
        let part = always(r, part);
        let mut draft = single().free();
        let constraint = hidden_constraint(r, &part);
        draft.insert(law(0xA6, &[&[0], &constraint, &[0, 0x10, 0, 1]]));
        (draft, vec![0, 1])
    }),
    ("expression of A6", Broken, |r, part| {
        let part = always(r, part);
        let mut draft = single().free();
        draft.insert(effect(0, 0, &hidden(r, &part)));
        (draft, vec![0, 0, 1])
    }),
    ("A7 at step 0", Broken, |r, part| {
        let part = always(r, part);
        let mut draft = single().free();
        draft.insert(law(0xA7, &[&hidden_constraint(r, &part)]));
        (draft, vec![0; r.below(3)])
    }),
    ("A9", Goal, |r, part| {
        let part = always(r, part);
        let mut draft = single().free();
        draft.insert(law(0xA9, &[&hidden_constraint(r, &part)]));
        (draft, vec![0; r.below(3)])
    }),
];

/// The same of a law that has a value for some steps.
const LATER: &[Place] = &[
    ("A7 later", Broken, |r, part| {
        let mut draft = counting();
        draft.insert(law(0xA7, &[&later(r, part)]));
        (draft, [0, 1, 1][r.below(2)..].to_vec())
    }),
    ("A9 later", Goal, |r, part| {
        let mut draft = counting();
        draft.insert(law(0xA9, &[&later(r, part)]));
        (draft, [0, 1, 0][r.below(2)..].to_vec())
    }),
];

fn places() -> impl Iterator<Item = &'static Place> {
    AT_ONCE.iter().chain(LATER)
}

/// The single action, by one who knows the fluent.
fn known() -> Draft {
    let mut draft = single();
    draft.insert(mask_frame(0xA3, 0, 1));
    draft
}

pub(super) fn add(
    trials: &mut Vec<Trial>,
    label: String,
    expect: Expect,
    make: impl Fn(&mut Random) -> Made + 'static,
) {
    trials.push((label, expect, Rc::new(make)));
}

/// Each of these troubles in each place.
pub(super) fn in_each_place(trials: &mut Vec<Trial>, causes: &[Cause]) {
    for &(label, kind, cause) in causes {
        for &(place, expect, make) in places() {
            let label = format!("no value in {place}: {label}");
            add(trials, label, expect(kind), move |r| make(r, &cause));
        }
    }
}

/// Each pair of troubles each way round in these places, with operands made of
/// causes.
fn pairs(trials: &mut Vec<Trial>, places: &[Place], operand: fn(&[u8]) -> Vec<u8>) {
    for &(label, pair) in PAIRS {
        for [first, second] in WAYS {
            for &(place, expect, make) in places {
                let label = format!("no value in {place}: {first} before {second} {label}");
                add(trials, label, expect(first), move |r| {
                    let causes = [first, second].map(|kind| any_cause(r, kind));
                    make(r, &|seed| {
                        let [one, other] = causes.map(|cause| operand(&cause(seed)));
                        pair(&one, &other)
                    })
                });
            }
        }
    }
}

/// An operand that is 1 as long as it has a value, whatever value that is: nothing
/// is wrong with a pair of them until then.
fn tamed(part: &[u8]) -> Vec<u8> {
    sum(&product(part, &constant(0)), &constant(1))
}

/// An expression that never has a value, by a trouble of this kind.
fn any_trouble(r: &mut Random, kind: u8) -> Vec<u8> {
    let cause = any_cause(r, kind);
    always(r, &cause)
}

/// A law of the kind without value; an effect's constraint or its expression.
fn any_law(r: &mut Random, kind: u8, part: &[u8]) -> Vec<u8> {
    match kind {
        0xA6 if r.one_in(2) => effect(0, 0, &hidden(r, part)),
        0xA6 => law(kind, &[&[0], &hidden_constraint(r, part), &[0, 0x10, 0, 1]]),
        0xA5 => law(kind, &[&[0], &hidden_constraint(r, part)]),
        _ => law(kind, &[&hidden_constraint(r, part)]),
    }
}

/// The kinds of laws as they are read, static laws at step 0.
const READING: [u8; 5] = [0xA7, 0xA5, 0xA8, 0xA6, 0xA9];

/// Two laws neither of which has a value: the one that is read first is at fault.
fn two_laws(trials: &mut Vec<Trial>) {
    for [first, second] in WAYS {
        for (at, earlier) in READING.into_iter().enumerate() {
            let expect = if earlier == 0xA9 { Goal } else { Broken };
            for &later in &READING[at..] {
                let label = format!("{first} in {earlier:X} before {second} in {later:X}");
                add(trials, label, expect(first), move |r| {
                    let mut draft = known();
                    for (law, kind) in [(earlier, first), (later, second)] {
                        let part = any_trouble(r, kind);
                        draft.insert(any_law(r, law, &part));
                    }
                    (draft.free(), vec![1])
                });
            }
        }
    }
}

/// An effect law neither part of which has a value: the constraint is read first.
fn both_parts(trials: &mut Vec<Trial>) {
    for [first, second] in WAYS {
        let label = format!("{first} in the constraint of A6, {second} in its expression");
        add(trials, label, Broken(first), move |r| {
            let [one, other] = [first, second].map(|kind| any_trouble(r, kind));
            let (constraint, value) = (hidden_constraint(r, &one), hidden(r, &other));
            let mut draft = single().free();
            draft.insert(law(0xA6, &[&[0], &constraint, &[0], &value]));
            (draft, vec![0, 1])
        });
    }
}

/// Laws that are not read do no harm: an executability law behind a true one, and
/// the expression of an effect law whose constraint is false.
fn unread(part: &[u8]) -> Made {
    let mut draft = known().free();
    draft.insert(law(0xA5, &[&[0], &node(0x20, &[part, part])]));
    draft.insert(law(0xA6, &[&[0], FALSE, &[0], part]));
    (draft, vec![1])
}

/// A law about a fluent that the crew does not know is not read.
fn unknown(part: &[u8]) -> Made {
    let mut draft = single();
    draft.insert(law(0xA5, &[&[0], &about(part)]));
    (draft, vec![1])
}

/// Each of these troubles in laws that are not read, and just not met.
fn none_met(trials: &mut Vec<Trial>, causes: &[Cause]) {
    for &(cause_label, _, cause) in causes {
        let label = format!("accepted: law not read, {cause_label}");
        add(trials, label, Accepted, move |r| unread(&always(r, &cause)));
        let label = format!("law about an unknown fluent not read, {cause_label}");
        add(trials, label, Broken(2), move |_| {
            unknown(&cause(&difference(&read(0, 0), &constant(4))))
        });
        let label = format!("accepted: just not met, {cause_label}");
        add(trials, label, Accepted, move |r| {
            let kind = *r.pick(&[0xA7, 0xA8, 0xA9]);
            let mut draft = single().free();
            draft.insert(law(kind, &[&or(TRUE, &about(&cause(&constant(0))))]));
            (draft, vec![1])
        });
    }
}

/// Expressions at the ends of the number range, and what they are equal to.
type Equal = (&'static str, fn() -> [Vec<u8>; 2]);

const ENDS: &[Equal] = &[
    ("sum up to the highest number", || {
        let below = difference(&highest(), &constant(1));
        [sum(&below, &constant(1)), highest()]
    }),
    ("sum down to the lowest number", || {
        let above = sum(&lowest(), &constant(1));
        [sum(&constant(-1), &above), lowest()]
    }),
    ("sum of both ends", || {
        [sum(&lowest(), &highest()), constant(0)]
    }),
    ("difference up to the highest number", || {
        let below = sum(&highest(), &constant(-1));
        [difference(&below, &constant(-1)), highest()]
    }),
    ("difference down to the lowest number", || {
        [difference(&constant(0), &highest()), lowest()]
    }),
    ("product up to the highest number", || {
        [product(&lowest(), &constant(-1)), highest()]
    }),
    ("product down to the lowest number", || {
        [product(&constant(-1), &highest()), lowest()]
    }),
    ("square of 31,622", || {
        let rest = product(&constant(-1_754), &constant(28));
        let near = difference(&highest(), &constant(4));
        [square(&constant(0)), sum(&near, &rest)]
    }),
    ("negation of the highest number", || {
        [negation(&highest()), lowest()]
    }),
    ("negation of the lowest number", || {
        [negation(&lowest()), highest()]
    }),
    ("absolute value of the lowest number", || {
        [node(0x18, &[&lowest()]), highest()]
    }),
    ("highest number by -1", || {
        [quotient(&highest(), &constant(-1)), lowest()]
    }),
    ("lowest number by -1", || {
        [quotient(&lowest(), &constant(-1)), highest()]
    }),
    ("lowest number by the highest", || {
        [quotient(&lowest(), &highest()), constant(-1)]
    }),
    ("remainder of the lowest number by -1", || {
        [remainder(&lowest(), &constant(-1)), constant(0)]
    }),
    ("remainder of the highest number by the lowest", || {
        [remainder(&highest(), &lowest()), constant(0)]
    }),
];

fn at_the_ends(trials: &mut Vec<Trial>) {
    for &(label, equal) in ENDS {
        let label = format!("accepted: {label}");
        add(trials, label, Accepted, move |r| {
            let [left, right] = equal();
            let kind = *r.pick(&[0xA7, 0xA8, 0xA9]);
            let mut draft = single().free();
            draft.insert(law(kind, &[&node(0x20, &[&left, &right])]));
            (draft, vec![1])
        });
    }
}

/// Effects with a trouble beside another fault, by their expressions.
type Effects = (&'static str, Expect, fn() -> Vec<Vec<u8>>);

const EFFECTS: &[Effects] = &[
    ("highest number for a fluent", Broken(5), || vec![highest()]),
    ("lowest number for a fluent", Broken(5), || vec![lowest()]),
    (
        "out of numbers behind a value out of range",
        Broken(OUT_OF_NUMBERS),
        || vec![highest(), square(&constant(1))],
    ),
    (
        "zero divisor behind a value out of range",
        Broken(ZERO_DIVISOR),
        || vec![lowest(), quotient(&lowest(), &constant(0))],
    ),
    ("out of numbers behind a disagreement", Broken(4), || {
        vec![constant(1), constant(2), square(&constant(1))]
    }),
    (
        "out of numbers before a disagreement",
        Broken(OUT_OF_NUMBERS),
        || vec![constant(1), square(&constant(1)), constant(2)],
    ),
    (
        "out of numbers in both of two effects",
        Broken(OUT_OF_NUMBERS),
        || vec![square(&constant(1)); 2],
    ),
];

fn among_effects(trials: &mut Vec<Trial>) {
    for &(label, expect, values) in EFFECTS {
        add(trials, label.to_string(), expect, move |_| {
            let mut draft = single().free();
            for value in values() {
                draft.insert(effect(0, 0, &value));
            }
            (draft, vec![0, 1])
        });
    }
}

/// Trials that are put before every call that judges.
pub fn trials() -> Vec<Trial> {
    let mut trials = Vec::new();
    in_each_place(&mut trials, CAUSES);
    both_parts(&mut trials);
    none_met(&mut trials, CAUSES);
    trials
}

/// Trials of which each is put before one call only, since they are many.
pub fn further() -> Vec<Trial> {
    let mut trials = Vec::new();
    in_each_place(&mut trials, FINER);
    in_each_place(&mut trials, COMPOUNDS);
    pairs(&mut trials, AT_ONCE, <[u8]>::to_vec);
    pairs(&mut trials, LATER, tamed);
    two_laws(&mut trials);
    none_met(&mut trials, FINER);
    at_the_ends(&mut trials);
    among_effects(&mut trials);
    trials
}
