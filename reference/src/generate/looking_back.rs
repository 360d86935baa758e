//! Laws that look back over the whole sheet, by codes 2B and 2C. A course decides
//! what holds at which position, and what comes of it is stated by hand.

use super::aims::Expect::{self, Accepted, Broken, Goal};
use super::course::{level, Comes, Course, Place, PLACES};
use super::draft::{law, mask_frame, Draft};
use super::laws::{
    always, and, constant, difference, node, not, or, product, quotient, reified, remainder,
    sometime, sum, ALWAYS, FALSE, SOMETIME, TRUE,
};
use super::random::Random;
use super::shapes::sized_constraint;
use super::troubles::{about, add, highest};
use super::verdicts::{counting, read, single, Made, Trial};
use crate::judge::{OUT_OF_NUMBERS, ZERO_DIVISOR};
use crate::line::MAX_PAYLOAD;

pub(super) const CODES: [u8; 2] = [ALWAYS, SOMETIME];

const T: Comes = Comes::To(true);
const F: Comes = Comes::To(false);
const Z: Comes = Comes::Without(ZERO_DIVISOR);
const N: Comes = Comes::Without(OUT_OF_NUMBERS);

/// Level 0 compared with a number.
fn compared(code: u8, value: i16) -> Vec<u8> {
    node(code, &[&level(0), &constant(value)])
}

fn is(value: i16) -> Vec<u8> {
    compared(0x20, value)
}

/// What holds at each position of a course, and what comes of it under 2B and 2C: t
/// is true, f is false, 7 and 9 are the kinds of trouble.
type Held = (&'static str, [Comes; 2]);

/// Positions alone, and each two.
const SHORT: &[Held] = &[
    ("t", [T, T]),
    ("f", [F, F]),
    ("7", [Z, Z]),
    ("9", [N, N]),
    ("tt", [T, T]),
    ("tf", [F, T]),
    ("ft", [F, T]),
    ("ff", [F, F]),
    ("t7", [Z, Z]),
    ("7t", [Z, Z]),
    ("f7", [Z, Z]),
    ("7f", [Z, Z]),
    ("t9", [N, N]),
    ("9t", [N, N]),
    ("f9", [N, N]),
    ("9f", [N, N]),
    ("77", [Z, Z]),
    ("79", [Z, Z]),
    ("97", [N, N]),
    ("99", [N, N]),
];

const LONGER: &[Held] = &[
    ("ttt", [T, T]),
    ("ttf", [F, T]),
    ("tft", [F, T]),
    ("ftt", [F, T]),
    ("tff", [F, T]),
    ("ftf", [F, T]),
    ("fft", [F, T]),
    ("fff", [F, F]),
    ("tf7", [Z, Z]),
    ("t7f", [Z, Z]),
    ("f9t", [N, N]),
    ("ft9", [N, N]),
    ("7ft", [Z, Z]),
    ("9tf", [N, N]),
    ("t79", [Z, Z]),
    ("f97", [N, N]),
    ("7t9", [Z, Z]),
    ("9f7", [N, N]),
    ("79f", [Z, Z]),
    ("97t", [N, N]),
    ("ff9tt7", [N, N]),
    ("tt7ff9", [Z, Z]),
];

/// The same of a sheet of 64 steps: what holds at most positions, and at the first,
/// one between, the last but one and the last.
const WHOLE_SHEETS: &[([&str; 5], [Comes; 2])] = &[
    (["t", "t", "t", "t", "t"], [T, T]),
    (["f", "f", "f", "f", "f"], [F, F]),
    (["t", "f", "t", "t", "t"], [F, T]),
    (["t", "t", "f", "t", "t"], [F, T]),
    (["t", "t", "t", "f", "t"], [F, T]),
    (["t", "t", "t", "t", "f"], [F, T]),
    (["f", "t", "f", "f", "f"], [F, T]),
    (["f", "f", "t", "f", "f"], [F, T]),
    (["f", "f", "f", "t", "f"], [F, T]),
    (["f", "f", "f", "f", "t"], [F, T]),
    (["t", "7", "t", "t", "t"], [Z, Z]),
    (["t", "t", "t", "9", "t"], [N, N]),
    (["f", "t", "t", "f", "9"], [N, N]),
    (["f", "f", "9", "7", "7"], [N, N]),
    (["t", "7", "f", "t", "9"], [Z, Z]),
];

/// Level 0 where it holds what a letter says.
fn level_of(letter: char) -> u8 {
    match letter {
        'f' => 0,
        't' => 1,
        '7' => 2,
        _ => 3,
    }
}

fn levels_of(held: &str) -> Vec<u8> {
    held.chars().map(level_of).collect()
}

/// An expression without value where level 0 is 2.
fn zero_divisor(r: &mut Random) -> Vec<u8> {
    let divisor = difference(&level(0), &constant(2));
    match r.below(3) {
        0 => quotient(&constant(7), &divisor),
        1 => remainder(&level(0), &divisor),
        _ => quotient(&constant(7), &reified(&compared(0x21, 2))),
    }
}

/// One without value where level 0 is 3: 31,623 squared is out of numbers.
fn out_of_numbers(r: &mut Random) -> Vec<u8> {
    let factor = sum(&level(0), &constant(31_620));
    match r.below(3) {
        0 => sum(&highest(), &reified(&is(3))),
        _ => product(&factor, &factor),
    }
}

/// A constraint that is true if the expression has a value.
fn valued(r: &mut Random, part: &[u8]) -> Vec<u8> {
    match r.below(3) {
        0 => or(TRUE, &about(part)),
        1 => or(&about(part), TRUE),
        _ => about(&product(part, &constant(0))),
    }
}

/// Two constraints joined by "and", in either order.
fn with(r: &mut Random, one: &[u8], other: &[u8]) -> Vec<u8> {
    match r.one_in(2) {
        true => and(one, other),
        false => and(other, one),
    }
}

/// Makes an expression that has no value where level 0 is this.
type Trouble = (u8, fn(&mut Random) -> Vec<u8>);

const TROUBLES: [Trouble; 2] = [(2, zero_divisor), (3, out_of_numbers)];

/// A constraint that holds where level 0 is 1 and not where it is 0. Where it is 2 or
/// 3 it has no value, if these occur.
fn held(r: &mut Random, levels: &[u8]) -> Vec<u8> {
    let mut all = match r.below(4) {
        0 => compared(0x24, 0),
        1 => not(&compared(0x21, 1)),
        2 => node(0x20, &[&constant(1), &level(0)]),
        _ => is(1),
    };
    for (at, trouble) in TROUBLES {
        if levels.contains(&at) {
            let part = trouble(r);
            let valued = valued(r, &part);
            all = with(r, &all, &valued);
        }
    }
    all
}

/// What looks back, and something around it that does not change it.
fn dressed(r: &mut Random, code: u8, held: &[u8]) -> Vec<u8> {
    let whole = node(code, &[held]);
    match r.below(6) {
        0 => not(&not(&whole)),
        1 => with(r, TRUE, &whole),
        2 => or(&whole, FALSE),
        3 => node(0x21, &[&reified(&whole), &constant(0)]),
        _ => whole,
    }
}

/// A law about the last state of a course with these levels, which looks back at what
/// was held.
fn looked_back(r: &mut Random, place: &Place, code: u8, levels: &[u8]) -> Made {
    let held = held(r, levels);
    let constraint = dressed(r, code, &held);
    place.at_last(&Course::through(r, levels), &constraint)
}

/// All places that fit, over and over.
fn in_turns(fits: fn(&Place) -> bool) -> impl Iterator<Item = &'static Place> {
    PLACES.iter().filter(move |place| fits(place)).cycle()
}

/// Adds both codes, by what comes of them, in so many of the next places each.
fn in_next(
    turns: &mut impl Iterator<Item = &'static Place>,
    places: usize,
    comes: [Comes; 2],
    mut add: impl FnMut(u8, &'static Place, Expect),
) {
    for (code, comes) in CODES.into_iter().zip(comes) {
        for place in turns.by_ref().take(places) {
            add(code, place, place.verdict(comes));
        }
    }
    // What follows comes to other places.
    turns.next();
}

fn held_in_turns(trials: &mut Vec<Trial>, all: &[Held], places: usize) {
    let mut turns = in_turns(|_| true);
    for &(letters, comes) in all {
        in_next(&mut turns, places, comes, |code, place, expect| {
            let label = format!("{code:X} in {} over {letters}", place.name);
            add(trials, label, expect, move |r| {
                looked_back(r, place, code, &levels_of(letters))
            });
        });
    }
}

/// Two troubles of which the earlier is given can only be met where nothing is read
/// before the last state.
fn earliest(trials: &mut Vec<Trial>) {
    let two = |(letters, _): &&Held| letters.contains('7') && letters.contains('9');
    let all = SHORT.iter().chain(LONGER).filter(two);
    for &(letters, comes) in all {
        for (code, comes) in CODES.into_iter().zip(comes) {
            for place in PLACES.iter().filter(|place| !place.always_read()) {
                let label = format!("{code:X} in {}, first of {letters}", place.name);
                add(trials, label, place.verdict(comes), move |r| {
                    looked_back(r, place, code, &levels_of(letters))
                });
            }
        }
    }
}

fn over_whole_sheets(trials: &mut Vec<Trial>) {
    let mut turns = in_turns(|_| true);
    for &(letters, comes) in WHOLE_SHEETS {
        let [most, first, between, last_but_one, last] = letters;
        in_next(&mut turns, 2, comes, |code, place, expect| {
            let name = place.name;
            let held = format!("{most}, and {first}, {between}, {last_but_one}, {last}");
            let label = format!("64 steps, {code:X} in {name} over {held}");
            add(trials, label, expect, move |r| {
                let end = place.longest() - 1;
                let mut levels = levels_of(&most.repeat(end + 1));
                let places = [0, r.from_to(1, end - 2), end - 1, end];
                let letters = [first, between, last_but_one, last];
                for (at, letter) in places.into_iter().zip(letters) {
                    levels[at] = levels_of(letter)[0];
                }
                looked_back(r, place, code, &levels)
            });
        });
    }
}

/// A constraint with lags, the levels of a course, and what comes of it.
type Lagged = (&'static str, fn() -> Vec<u8>, &'static [u8], [Comes; 2]);

/// Level 0 was 1 so many states before.
fn was(lag: u8) -> Vec<u8> {
    node(0x20, &[&level(lag), &constant(1)])
}

const LAGGED: &[Lagged] = &[
    ("lag 1", || was(1), &[1, 0], [T, T]),
    ("lag 1", || was(1), &[0, 1], [F, F]),
    ("lag 1", || was(1), &[1, 0, 0], [F, T]),
    ("lag 1", || was(1), &[0, 1, 0], [F, T]),
    ("lag 1", || was(1), &[0, 0, 1], [F, F]),
    ("lag 1", || was(1), &[1, 1, 0], [T, T]),
    ("lag 1", || was(1), &[1, 0, 1, 1, 1], [F, T]),
    ("lag 2", || was(2), &[1, 0, 0], [T, T]),
    ("lag 2", || was(2), &[0, 1, 1], [F, F]),
    ("lag 2", || was(2), &[1, 0, 0, 0], [F, T]),
    ("lag 2", || was(2), &[0, 1, 0, 0], [F, T]),
    ("lag 3", || was(3), &[1, 0, 2, 0], [T, T]),
    ("lag 63", || was(63), &[1, 0, 0, 0, 0], [T, T]),
    ("lag 63", || was(63), &[0, 1, 1, 1, 1], [F, F]),
    ("lag 5 alone", || was(5), &[1], [T, T]),
    (
        "no fall",
        || node(0x25, &[&level(0), &level(1)]),
        &[0, 1, 1, 3],
        [T, T],
    ),
    (
        "no fall",
        || node(0x25, &[&level(0), &level(1)]),
        &[0, 3, 2, 3],
        [F, T],
    ),
    (
        "a rise",
        || node(0x24, &[&level(0), &level(1)]),
        &[3, 2, 1, 2],
        [F, T],
    ),
    (
        "a rise",
        || node(0x24, &[&level(0), &level(1)]),
        &[3, 2, 2, 0],
        [F, F],
    ),
    (
        "two more than two states before",
        || node(0x20, &[&difference(&level(0), &level(2)), &constant(2)]),
        &[1, 2, 3, 2],
        [F, T],
    ),
];

fn lags(trials: &mut Vec<Trial>) {
    let mut turns = in_turns(|_| true);
    for &(name, constraint, levels, comes) in LAGGED {
        in_next(&mut turns, 2, comes, |code, place, expect| {
            let label = format!("{code:X} in {}, {name} over {levels:?}", place.name);
            add(trials, label, expect, move |r| {
                let constraint = dressed(r, code, &constraint());
                place.at_last(&Course::through(r, levels), &constraint)
            });
        });
    }
}

/// A constraint about the first action of agent 0, the steps in which it is taken
/// (x), the last of which is the present one, and what comes of it.
type Occurring = (
    &'static str,
    fn(u8) -> Vec<u8>,
    u8,
    &'static str,
    [Comes; 2],
);

fn occurs(lag: u8) -> Vec<u8> {
    vec![0x29, 0, lag]
}

fn spares(lag: u8) -> Vec<u8> {
    not(&occurs(lag))
}

const OCCURRING: &[Occurring] = &[
    ("29", occurs, 0, "x", [T, T]),
    ("29", occurs, 0, ".", [F, F]),
    ("29", occurs, 1, "x", [F, F]),
    ("29", occurs, 63, "x", [F, F]),
    ("29", occurs, 0, "xx", [T, T]),
    ("29", occurs, 0, "x.", [F, T]),
    ("29", occurs, 0, ".x", [F, T]),
    ("29", occurs, 0, "..", [F, F]),
    ("29", occurs, 0, ".x.", [F, T]),
    ("29", occurs, 1, "xx", [F, T]),
    ("29", occurs, 1, "x.", [F, T]),
    ("29", occurs, 1, ".x", [F, F]),
    ("29", occurs, 1, ".x.", [F, T]),
    ("29", occurs, 2, "x..", [F, T]),
    ("29", occurs, 2, ".xx", [F, F]),
    ("29", occurs, 3, "xxx", [F, F]),
    ("28 of 29", spares, 0, "..", [T, T]),
    ("28 of 29", spares, 0, ".x", [F, T]),
    ("28 of 29", spares, 0, "x.", [F, T]),
    ("28 of 29", spares, 0, "xx", [F, F]),
    ("28 of 29", spares, 1, ".x", [T, T]),
    ("28 of 29", spares, 1, "xx", [F, T]),
    ("28 of 29", spares, 1, "x", [T, T]),
];

/// A course in which agent 0 takes the first action in these steps, and in others
/// another one or none.
fn taking(r: &mut Random, steps: &str) -> Course {
    let name = |step| match step {
        'x' => 1,
        _ => *r.pick(&[0, 2]),
    };
    let mut names: Vec<u8> = steps.chars().map(name).collect();
    let then = names.pop().unwrap_or(0);
    Course {
        start: r.below(4) as u8,
        names,
        then,
    }
}

fn occurrences(trials: &mut Vec<Trial>) {
    let mut turns = in_turns(Place::in_a_step);
    for &(name, constraint, lag, steps, comes) in OCCURRING {
        in_next(&mut turns, 2, comes, |code, place, expect| {
            let at = place.name;
            let label = format!("{code:X} of {name} in {at}, lag {lag} over {steps}");
            add(trials, label, expect, move |r| {
                let constraint = dressed(r, code, &constraint(lag));
                place.at_last(&taking(r, steps), &constraint)
            });
        });
    }
    // Of 64 steps the one in which the action is taken, and a lag: only position 63
    // looks at the first step so.
    for (taken, lag) in [(1, 0), (30, 0), (64, 0), (1, 63)] {
        in_next(&mut turns, 1, [F, T], |code, place, expect| {
            let at = place.name;
            let label = format!("64 steps, {code:X} of 29 in {at}, lag {lag}, in step {taken}");
            add(trials, label, expect, move |r| {
                let [before, after] = [taken - 1, 64 - taken].map(|idle| ".".repeat(idle));
                let course = taking(r, &format!("{before}x{after}"));
                place.at_last(&course, &node(code, &[&occurs(lag)]))
            });
        });
    }
}

/// A constraint that comes to this under a code, over levels of 1 and then 0; only one
/// of the two positions decides where that can be.
pub(super) fn deciding(code: u8, truth: bool) -> Vec<u8> {
    match (code, truth) {
        (ALWAYS, true) => compared(0x23, 1),
        (ALWAYS, false) => is(0),
        (_, true) => is(1),
        (_, false) => is(3),
    }
}

/// A constraint made of two others.
pub(super) type OfTwo = (&'static str, fn(&[u8], &[u8]) -> Vec<u8>);

/// Two that look back side by side: true if both are.
pub(super) const BESIDE: &[OfTwo] = &[
    ("under 26", and),
    ("under 27, denied", |a, b| {
        let [a, b] = [a, b].map(not);
        not(&or(&a, &b))
    }),
    ("under 12", |a, b| {
        let both = sum(&reified(a), &reified(b));
        node(0x20, &[&both, &constant(2)])
    }),
    ("under 22", |a, b| {
        let denied = not(a);
        node(0x22, &[&reified(&denied), &reified(b)])
    }),
    ("under 26, the first deeper", |a, b| {
        and(&and(TRUE, &and(a, TRUE)), b)
    }),
    ("under 26, the second deeper", |a, b| {
        and(a, &not(&not(&and(TRUE, b))))
    }),
    ("under 14, and the first again", |a, b| {
        let both = product(&reified(a), &reified(b));
        and(&node(0x24, &[&both, &constant(0)]), a)
    }),
];

/// Each two codes, as first and second.
pub(super) fn pairs() -> impl Iterator<Item = [u8; 2]> {
    CODES
        .into_iter()
        .flat_map(|one| CODES.map(|other| [one, other]))
}

fn side_by_side(trials: &mut Vec<Trial>) {
    let mut turns = in_turns(|_| true);
    for (row, &(form, beside)) in BESIDE.iter().enumerate() {
        for (at, codes) in pairs().enumerate() {
            let truth = (row + at / 2) % 2 == 0;
            for place in turns.by_ref().take(1) {
                let [one, other] = codes;
                let label = format!("{one:X} and {other:X} in {} {form}, {truth}", place.name);
                add(trials, label, place.verdict(Comes::To(truth)), move |r| {
                    let truths = match truth {
                        true => [true; 2],
                        false => *r.pick(&[[true, false], [false, true], [false; 2]]),
                    };
                    let side = |at: usize| node(codes[at], &[&deciding(codes[at], truths[at])]);
                    let course = Course::through(r, &[1, 0]);
                    place.at_last(&course, &beside(&side(0), &side(1)))
                });
            }
        }
        turns.next();
    }
}

/// Of an effect law the constraint and the expression may both look back.
fn both_parts(trials: &mut Vec<Trial>) {
    for [one, other] in pairs() {
        let label =
            format!("accepted: {one:X} in the constraint of A6, {other:X} in its expression");
        add(trials, label, Accepted, move |_| {
            let mut draft = counting();
            let condition = node(one, &[&compared(0x24, 4)]);
            let value = sum(&constant(5), &reified(&node(other, &[&compared(0x23, 5)])));
            draft.insert(law(0xA6, &[&[0], &condition, &[0], &value]));
            (draft, vec![1])
        });
    }
}

/// What looks back and something beside it, by two constraints: at each position
/// whether the left one has no value, or the right one, and the sides.
type Sides = (
    &'static str,
    [bool; 3],
    fn(u8, &[u8], &[u8]) -> [Vec<u8>; 2],
);

const SIDES: &[Sides] = &[
    (
        "beside another",
        [false, false, true],
        |code, one, other| [node(code, &[one]), node(code, &[other])],
    ),
    (
        "before a present one",
        [true, true, false],
        |code, one, other| [node(code, &[one]), other.to_vec()],
    ),
    (
        "behind a present one",
        [false, false, true],
        |code, one, other| [one.to_vec(), node(code, &[other])],
    ),
];

const JOINTS: &[OfTwo] = &[("under 26", and), ("under 27", or), ("under 20", alike)];

/// All of the left side, at every position, comes before the right side.
fn left_to_right(trials: &mut Vec<Trial>) {
    let mut turns = in_turns(|place| !place.always_read());
    for sides in SIDES {
        for joint in JOINTS {
            for kind in [ZERO_DIVISOR, OUT_OF_NUMBERS] {
                let comes = [Comes::Without(kind); 2];
                in_next(&mut turns, 1, comes, |code, place, expect| {
                    let (form, joined) = (sides.0, joint.0);
                    let label = format!("{code:X} in {} {joined} {form}, {kind} left", place.name);
                    add(trials, label, expect, move |r| {
                        left_first(r, place, code, sides, joint.1, kind)
                    });
                });
            }
        }
    }
}

/// A law of two sides without value, the left one by a trouble of this kind and the
/// right one by the other.
fn left_first(
    r: &mut Random,
    place: &Place,
    code: u8,
    &(_, at_left, sides): &Sides,
    joined: fn(&[u8], &[u8]) -> Vec<u8>,
    kind: u8,
) -> Made {
    let mut troubles = [TROUBLES[0], TROUBLES[1]];
    if kind == OUT_OF_NUMBERS {
        troubles.reverse();
    }
    let levels = at_left.map(|left| troubles[usize::from(!left)].0);
    let [one, other] = troubles.map(|(_, trouble)| {
        let part = trouble(r);
        valued(r, &part)
    });
    let [left, right] = sides(code, &one, &other);
    place.at_last(&Course::through(r, &levels), &joined(&left, &right))
}

fn implies(one: &[u8], other: &[u8]) -> Vec<u8> {
    or(&not(one), other)
}

fn alike(one: &[u8], other: &[u8]) -> Vec<u8> {
    node(0x20, &[&reified(one), &reified(other)])
}

/// What is true of any course.
const BONDS: &[OfTwo] = &[
    ("2B is that 2C of the contrary is not", |a, _| {
        alike(&always(a), &not(&sometime(&not(a))))
    }),
    ("2C is that 2B of the contrary is not", |a, _| {
        alike(&sometime(a), &not(&always(&not(a))))
    }),
    ("2B implies the present", |a, _| implies(&always(a), a)),
    ("the present implies 2C", |a, _| implies(a, &sometime(a))),
    ("2B of two is each one's", |a, b| {
        alike(&always(&and(a, b)), &and(&always(a), &always(b)))
    }),
    ("2C of one of two is one of theirs", |a, b| {
        alike(&sometime(&or(a, b)), &or(&sometime(a), &sometime(b)))
    }),
    ("2B of what is true, 2C of what is not", |_, _| {
        and(&always(TRUE), &not(&sometime(FALSE)))
    }),
];

fn bound(trials: &mut Vec<Trial>) {
    for &(bond_label, bond) in BONDS {
        let label = format!("accepted: {bond_label}");
        add(trials, label, Accepted, move |r| {
            let parts = [is(0), is(1), compared(0x24, 1), was(1), was(2)];
            let (one, other) = (r.pick(&parts), r.pick(&parts));
            let states = r.from_to(1, 9);
            let levels: Vec<_> = (0..states).map(|_| r.below(4) as u8).collect();
            let course = Course::through(r, &levels);
            r.pick(PLACES).throughout(&course, &bond(one, other))
        });
    }
}

/// Ways to name a fluent under a code.
type Naming = (&'static str, fn(u8) -> Vec<u8>);

const NAMINGS: &[Naming] = &[
    ("", |fluent| about(&read(fluent, 0))),
    (" at a lag", |fluent| about(&read(fluent, 9))),
    (" behind a true side", |fluent| {
        or(TRUE, &about(&read(fluent, 0)))
    }),
    (" under 19", |fluent| {
        about(&reified(&not(&about(&read(fluent, 0)))))
    }),
    (" as a divisor", |fluent| {
        about(&quotient(&constant(0), &read(fluent, 0)))
    }),
];

/// One action by one of two agents, who knows this many of two levels. Both are 0.
fn knowing(levels: u8) -> Draft {
    let mut draft = Draft::new(2, &[[0, 9, 0]; 2], &[(1, 0b01)]);
    for fluent in 0..2 {
        let mask = if fluent < levels { 0b11 } else { 0b10 };
        draft.insert(mask_frame(0xA3, fluent, mask));
    }
    draft
}

/// A law that names a fluent under 2B or 2C names it.
fn unknown(trials: &mut Vec<Trial>) {
    for code in CODES {
        for &(way, naming) in NAMINGS {
            let label = format!("unknown fluent under {code:X}{way}");
            add(trials, label, Broken(2), move |r| {
                let mut draft = knowing(1);
                let known = about(&read(0, 0));
                let looking = node(code, &[&naming(1)]);
                let constraint = match r.below(3) {
                    0 => or(&known, &looking),
                    1 => node(code, &[&or(&known, &naming(1))]),
                    _ => looking,
                };
                draft.insert(law(0xA5, &[&[0], &constraint]));
                (draft, vec![0, 0, 1, 0])
            });
            let label = format!("accepted: later law, unknown fluent under {code:X}{way}");
            add(trials, label, Accepted, move |_| {
                let mut draft = knowing(1);
                draft.insert(law(0xA5, &[&[0], &node(code, &[&naming(1)])]));
                draft.insert(law(0xA5, &[&[0], &node(code, &[&about(&read(0, 0))])]));
                (draft, vec![0, 0, 1, 0])
            });
        }
        let label = format!("accepted: known fluents under {code:X}");
        add(trials, label, Accepted, move |_| {
            let mut draft = knowing(2);
            let both = and(&about(&read(0, 0)), &about(&read(1, 0)));
            draft.insert(law(0xA5, &[&[0], &node(code, &[&both])]));
            (draft, vec![1, 0, 1, 0])
        });
        let label = format!("accepted: unknown fluent under {code:X} in other laws");
        add(trials, label, Accepted, move |_| {
            let mut draft = knowing(0).free();
            let looking = node(code, &[&about(&read(1, 0))]);
            for kind in 0xA7..=0xA9 {
                draft.insert(law(kind, &[&looking]));
            }
            let same = difference(&reified(&looking), &constant(1));
            draft.insert(law(0xA6, &[&[0], &looking, &[0], &same]));
            (draft, vec![1, 0, 1, 0])
        });
    }
}

/// Laws that fill their lines.
fn full_lines(trials: &mut Vec<Trial>) {
    for code in CODES {
        for kind in [0xA5, 0xA7, 0xA8, 0xA9] {
            let label = format!("accepted: {code:X} fills a line of {kind:X}");
            add(trials, label, Accepted, move |r| {
                let mut draft = counting();
                let before: &[u8] = if kind == 0xA5 { &[0] } else { &[] };
                // Three codes stand before what was held.
                let size = MAX_PAYLOAD - before.len() - 3;
                let held = sized_constraint(r, &draft, size);
                draft.insert(law(kind, &[before, &or(TRUE, &node(code, &[&held]))]));
                (draft, vec![1, 0, 1])
            });
        }
    }
}

/// A tug that may not go if the weir gate has been opened, by what the two do: t is
/// the tug, g the gate, b both.
fn tug(code: u8, occurrence: bool, steps: &str) -> Made {
    let mut draft = Draft::new(2, &[[0, 1, 0]], &[(1, 0b01), (2, 0b10)]);
    draft.insert(mask_frame(0xA3, 0, 0b11));
    let opened = match occurrence {
        true => vec![0x29, 1, 0],
        false => is(1),
    };
    let never = match code {
        ALWAYS => always(&not(&opened)),
        _ => not(&sometime(&opened)),
    };
    draft.insert(law(0xA5, &[&[0], &never]));
    draft.insert(law(0xA5, &[&[1, 0x2A]]));
    // The gate is closed again by whoever opens it twice.
    draft.insert(law(
        0xA6,
        &[&[1, 0x2A, 0], &difference(&constant(1), &level(0))],
    ));
    let names = |step| match step {
        't' => [1, 0],
        'g' => [0, 2],
        'b' => [1, 2],
        _ => [0, 0],
    };
    (draft, steps.chars().flat_map(names).collect())
}

/// Label, verdict, whether the law is about the action or about the level, steps.
const TUGS: &[(&str, Expect, bool, &str)] = &[
    ("accepted: gate never opened", Accepted, true, "t.tt"),
    ("gate opened before", Broken(2), true, ".g.t"),
    ("gate opened at once", Broken(2), true, "t.b"),
    ("accepted: gate opened after", Accepted, true, "t.tg"),
    ("gate opened and closed", Broken(2), false, "tgg.t"),
    ("accepted: gate opens at once", Accepted, false, "t.b"),
];

/// Trials that are put before every call that judges.
pub fn trials() -> Vec<Trial> {
    let mut trials = Vec::new();
    for (&(label, expect, occurrence, steps), code) in TUGS.iter().zip(CODES.into_iter().cycle()) {
        let label = format!("{label}, {code:X}");
        add(&mut trials, label, expect, move |_| {
            tug(code, occurrence, steps)
        });
    }
    let label = "goal missed in the past".to_string();
    add(&mut trials, label, Goal(8), |r| {
        let mut draft = single().free();
        draft.insert(mask_frame(0xA3, 0, 1));
        draft.insert(law(0xA6, &[&[0, 0x2A, 0], &constant(9)]));
        draft.insert(law(0xA9, &[&always(&compared(0x24, 5))]));
        (draft, vec![1; r.from_to(1, 64)])
    });
    trials
}

/// Trials of which each is put before one call only, since they are many.
pub fn further() -> Vec<Trial> {
    let mut trials = Vec::new();
    held_in_turns(&mut trials, SHORT, 3);
    held_in_turns(&mut trials, LONGER, 2);
    earliest(&mut trials);
    over_whole_sheets(&mut trials);
    lags(&mut trials);
    occurrences(&mut trials);
    side_by_side(&mut trials);
    both_parts(&mut trials);
    left_to_right(&mut trials);
    bound(&mut trials);
    unknown(&mut trials);
    full_lines(&mut trials);
    trials
}
