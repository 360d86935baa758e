//! Divisions that decide a verdict: quotients are rounded down, and remainders have
//! the divisor's sign or are 0. What is right is not found by dividing: quotient,
//! remainder and divisor are chosen and the dividend follows from them, or all four
//! are stated by hand.

use super::aims::Expect::{self, Accepted, Broken, Goal};
use super::draft::{law, mask_frame, Draft};
use super::laws::{
    and, constant, difference, negation, node, or, product, quotient, reified, remainder, sum,
};
use super::random::Random;
use super::troubles::{add, highest, in_each_place, lowest, Cause};
use super::verdicts::{effect, read, Made, Trial};
use crate::judge::{OUT_OF_NUMBERS, ZERO_DIVISOR};
use crate::number::BOUND;
use std::rc::Rc;

/// A division and what comes of it.
#[derive(Clone, Copy, Debug)]
pub struct Division {
    pub dividend: i64,
    pub divisor: i64,
    pub quotient: i64,
    pub remainder: i64,
}

impl Division {
    /// The one of this divisor that has these results.
    fn leaving(quotient: i64, remainder: i64, divisor: i64) -> Self {
        Division {
            dividend: quotient * divisor + remainder,
            divisor,
            quotient,
            remainder,
        }
    }

    fn stated([dividend, divisor, quotient, remainder]: [i64; 4]) -> Self {
        Division {
            dividend,
            divisor,
            quotient,
            remainder,
        }
    }

    /// What the code gives.
    fn result(self, code: u8) -> i64 {
        match code {
            QUOTIENT => self.quotient,
            _ => self.remainder,
        }
    }
}

const QUOTIENT: u8 = 0x15;
const REMAINDER: u8 = 0x16;
const CODES: [u8; 2] = [QUOTIENT, REMAINDER];

/// Size of a divisor that is not 1.
fn size(r: &mut Random) -> i64 {
    let size = match r.below(4) {
        0 => 96,
        1 => r.from_to(2, 30_000),
        _ => r.from_to(2, 9),
    };
    size as i64
}

/// How often a divisor of this size goes into a dividend: twice or more.
fn times(r: &mut Random, size: i64) -> i64 {
    let most = match r.below(4) {
        0 => BOUND / size - 1,
        _ => 9,
    };
    r.from_to(2, most as usize) as i64
}

/// Size of a remainder that is not 0.
fn part(r: &mut Random, size: i64) -> i64 {
    r.from_to(1, size as usize - 1) as i64
}

/// Size of a divisor; and quotient and size of the remainder, where dividend and
/// divisor have one sign and where they have two.
type Shape = (&'static str, fn(&mut Random) -> (i64, [[i64; 2]; 2]));

const SHAPES: &[Shape] = &[
    ("with a remainder", |r| {
        let size = size(r);
        let [one, two] = [1, -1].map(|sign| [sign * times(r, size), part(r, size)]);
        (size, [one, two])
    }),
    ("without remainder", |r| {
        let size = size(r);
        let times = times(r, size);
        (size, [[times, 0], [-times, 0]])
    }),
    ("dividend less than the divisor", |r| {
        let size = size(r);
        let part = part(r, size);
        (size, [[0, part], [-1, part]])
    }),
    ("dividend as large as the divisor", |r| {
        (size(r), [[1, 0], [-1, 0]])
    }),
    ("dividend one less than the divisor", |r| {
        let size = size(r);
        (size, [[0, size - 1], [-1, 1]])
    }),
    ("dividend one more than the divisor", |r| {
        let size = size(r);
        (size, [[1, 1], [-2, size - 1]])
    }),
    ("1", |r| {
        let size = size(r);
        (size, [[0, 1], [-1, size - 1]])
    }),
    ("by 1", |r| {
        let times = times(r, 1);
        (1, [[times, 0], [-times, 0]])
    }),
];

/// The signs of dividend and divisor: whether there are two, and the divisor's.
const SIGNS: &[(&str, usize, i64)] = &[
    ("above 0 by above 0", 0, 1),
    ("below 0 by above 0", 1, 1),
    ("above 0 by below 0", 1, -1),
    ("below 0 by below 0", 0, -1),
];

/// Dividend, divisor, quotient and remainder, worked out by hand: those of the
/// request, quarter hours before midnight, and 0.
const FIGURES: &[[i64; 4]] = &[
    [-7, 2, -4, 1],
    [7, -2, -4, -1],
    [-8, 2, -4, 0],
    [-1, 96, -1, 95],
    [-96, 96, -1, 0],
    [-97, 96, -2, 95],
    [0, 7, 0, 0],
    [0, -7, 0, 0],
];

/// The same at the ends of the number range.
const ENDS: &[[i64; 4]] = &[
    [BOUND, 3, 333_333_333, 1],
    [-BOUND, 3, -333_333_334, 2],
    [BOUND, -3, -333_333_334, -2],
    [-BOUND, -3, 333_333_333, -1],
    [-BOUND, 2, -500_000_000, 0],
    [BOUND, -2, -500_000_000, 0],
    [BOUND, 1, BOUND, 0],
    [-BOUND, 1, -BOUND, 0],
    [BOUND, -1, -BOUND, 0],
    [-BOUND, -1, BOUND, 0],
    [BOUND, BOUND, 1, 0],
    [-BOUND, BOUND, -1, 0],
    [BOUND, -BOUND, -1, 0],
    [-BOUND, -BOUND, 1, 0],
    [1, BOUND, 0, 1],
    [-1, BOUND, -1, 999_999_999],
    [1, -BOUND, -1, -999_999_999],
    [-1, -BOUND, 0, -1],
    [0, BOUND, 0, 0],
    [0, -BOUND, 0, 0],
    [999_999_999, BOUND, 0, 999_999_999],
    [-999_999_999, BOUND, -1, 1],
    [999_999_999, -BOUND, -1, -1],
    [-999_999_999, -BOUND, 0, -999_999_999],
    [BOUND, 999_999_999, 1, 1],
    [-BOUND, 999_999_999, -2, 999_999_998],
    [BOUND, -999_999_999, -2, -999_999_998],
    [-BOUND, -999_999_999, 1, -1],
];

/// Divisions of one sort.
type Sort = (String, Rc<dyn Fn(&mut Random) -> Division>);

fn stated(figures: &[[i64; 4]]) -> Vec<Sort> {
    let sort = |&figures: &[i64; 4]| -> Sort {
        let [dividend, divisor, ..] = figures;
        let division = Division::stated(figures);
        (
            format!("{dividend} by {divisor}"),
            Rc::new(move |_: &mut Random| division),
        )
    };
    figures.iter().map(sort).collect()
}

/// Each shape with each pair of signs.
fn shaped() -> Vec<Sort> {
    let mut sorts: Vec<Sort> = Vec::new();
    for &(shape, sizes) in SHAPES {
        for &(signs, two, sign) in SIGNS {
            let make = move |r: &mut Random| {
                let (size, results) = sizes(r);
                let [quotient, remainder] = results[two];
                Division::leaving(quotient, sign * remainder, sign * size)
            };
            sorts.push((format!("{signs}, {shape}"), Rc::new(make)));
        }
    }
    sorts
}

/// All sorts, for tests that look at the divisions themselves.
pub fn sorts() -> Vec<Sort> {
    [shaped(), stated(FIGURES), stated(ENDS)].concat()
}

/// A number as an expression of constants. None of its parts is further from 0 than
/// the number itself, so nothing on the way is out of numbers.
pub fn number(value: i64) -> Vec<u8> {
    let small = i16::try_from(value).map(constant);
    small.unwrap_or_else(|_| {
        let [high, low] = [value / 32_000, value % 32_000].map(|digit| constant(digit as i16));
        sum(&product(&high, &constant(32_000)), &low)
    })
}

/// A level that an expression reads: its start value, and the one that the action
/// gives it, if that is another.
struct Level {
    start: i16,
    set: Option<i16>,
}

/// Writes the operands of divisions, and keeps the levels that they read.
struct Writer {
    levels: Vec<Level>,
    /// Levels are what they should be only once the action was taken.
    moving: bool,
}

impl Writer {
    fn new(moving: bool) -> Self {
        let levels = Vec::new();
        Writer { levels, moving }
    }

    fn reading(&mut self, level: Level, lag: u8) -> Vec<u8> {
        self.levels.push(level);
        // Level 0 is none of them.
        read(self.levels.len() as u8, lag)
    }

    /// The number as a present level, if it can be one.
    fn level(&mut self, value: i64) -> Vec<u8> {
        let Ok(value) = i16::try_from(value) else {
            return number(value);
        };
        // Before the action one further from 0, as far as there is one: no divisor
        // is ever 0.
        let before = match value {
            i16::MIN | 0.. => value.checked_add(1).unwrap_or(value - 1),
            _ => value - 1,
        };
        let level = match self.moving {
            true => Level {
                start: before,
                set: Some(value),
            },
            false => Level {
                start: value,
                set: None,
            },
        };
        self.reading(level, 0)
    }

    /// The number as a level that stays what it is, at any lag.
    fn lasting(&mut self, value: i64, lag: u8) -> Vec<u8> {
        match i16::try_from(value) {
            Ok(start) => self.reading(Level { start, set: None }, lag),
            Err(_) => number(value),
        }
    }

    /// A division of which the number is the result, by this code.
    fn nested(&mut self, r: &mut Random, code: u8, inner: Division) -> Vec<u8> {
        let dividend = match r.one_in(2) {
            true => self.lasting(inner.dividend, 0),
            false => number(inner.dividend),
        };
        node(code, &[&dividend, &number(inner.divisor)])
    }

    fn division(&mut self, r: &mut Random, code: u8, division: Division) -> Vec<u8> {
        let [dividend, divisor] = [(); 2].map(|()| r.pick(WAYS).1);
        let left = dividend(r, self, division.dividend);
        let right = divisor(r, self, division.divisor);
        node(code, &[&left, &right])
    }

    /// A domain of one action with these levels, known to whoever acts, and a level
    /// 0 that is 5 in the beginning.
    fn draft(&self) -> Draft {
        let whole = |start| [i16::MIN, i16::MAX, start];
        let mut fluents = vec![whole(5)];
        fluents.extend(self.levels.iter().map(|level| whole(level.start)));
        let mut draft = Draft::new(1, &fluents, &[(1, 1)]);
        for fluent in 0..fluents.len() {
            draft.insert(mask_frame(0xA3, fluent as u8, 1));
        }
        for (fluent, level) in (1..).zip(&self.levels) {
            if let Some(value) = level.set {
                draft.insert(effect(0, fluent, &constant(value)));
            }
        }
        draft
    }
}

/// A sign, by chance.
fn sign(r: &mut Random) -> i64 {
    [1, -1][r.below(2)]
}

/// A small divisor, and a remainder that it can leave.
fn small(r: &mut Random) -> [i64; 2] {
    let (size, sign) = (r.from_to(2, 9), sign(r));
    [size, r.below(size)].map(|number| sign * number as i64)
}

/// Ways to write a number. One that is too large for a way is written with constants.
type Way = (&'static str, fn(&mut Random, &mut Writer, i64) -> Vec<u8>);

const WAYS: &[Way] = &[
    ("a constant", |_, _, value| number(value)),
    ("a level", |_, writer, value| writer.level(value)),
    ("a level at a lag", |r, writer, value| {
        let lag = r.from_to(1, 63) as u8;
        writer.lasting(value, lag)
    }),
    ("a negation", |_, _, value| negation(&number(-value))),
    ("a quotient", |r, writer, value| {
        let [divisor, left] = small(r);
        match value.abs() < BOUND / 10 {
            true => writer.nested(r, QUOTIENT, Division::leaving(value, left, divisor)),
            false => number(value),
        }
    }),
    ("a remainder", |r, writer, value| {
        let more = value.abs() + r.from_to(1, 50) as i64;
        let divisor = match value {
            0 => sign(r) * more,
            _ => value.signum() * more,
        };
        let times = r.below(19) as i64 - 9;
        // The dividend is at most nine divisors and the value.
        match value.abs() < BOUND / 10 - 50 {
            true => writer.nested(r, REMAINDER, Division::leaving(times, value, divisor)),
            false => number(value),
        }
    }),
];

/// A constraint that is true where an expression has this value and no other.
fn pinned(r: &mut Random, part: &[u8], value: i64) -> Vec<u8> {
    let equal = node(0x20, &[part, &number(value)]);
    // Written twice, the longest would not fit.
    let fits = part.len() < 30 && value.abs() < BOUND;
    match r.below(6) {
        0 => node(0x20, &[&number(value), part]),
        1 => node(0x28, &[&node(0x21, &[part, &number(value)])]),
        2 if fits => {
            let most = node(0x23, &[part, &number(value)]);
            and(&most, &node(0x25, &[part, &number(value)]))
        }
        3 if fits => {
            let above = node(0x24, &[part, &number(value - 1)]);
            and(&above, &node(0x22, &[part, &number(value + 1)]))
        }
        4 => node(0x21, &[&reified(&equal), &constant(0)]),
        _ => equal,
    }
}

/// The same, or what is false exactly there.
fn claimed(r: &mut Random, part: &[u8], value: i64, truth: bool) -> Vec<u8> {
    let pinned = pinned(r, part, value);
    said(&pinned, truth)
}

fn said(constraint: &[u8], truth: bool) -> Vec<u8> {
    match truth {
        true => constraint.to_vec(),
        false => node(0x28, &[constraint]),
    }
}

/// Where a constraint is read: the verdict if it is true and if it is false,
/// whether it is read after the action was taken, and domain and sheet.
struct Place {
    name: &'static str,
    verdicts: [Expect; 2],
    moving: bool,
    make: fn(&mut Random, Draft, &[u8]) -> Made,
}

impl Place {
    fn verdict(&self, truth: bool) -> Expect {
        self.verdicts[usize::from(!truth)]
    }
}

/// Steps in one of which the action is taken.
fn once(r: &mut Random) -> Vec<u8> {
    r.pick(&[vec![1], vec![0, 1], vec![1, 0]]).clone()
}

const PLACES: &[Place] = &[
    Place {
        name: "A5",
        verdicts: [Accepted, Broken(2)],
        moving: false,
        make: |r, mut draft, constraint| {
            draft.insert(law(0xA5, &[&[0], constraint]));
            (draft, once(r))
        },
    },
    Place {
        name: "A8",
        verdicts: [Accepted, Broken(3)],
        moving: false,
        make: |_, draft, constraint| {
            let mut draft = draft.free();
            draft.insert(law(0xA8, &[constraint]));
            (draft, vec![0])
        },
    },
    Place {
        name: "the constraint of A6",
        verdicts: [Accepted, Goal(8)],
        moving: false,
        make: |r, draft, constraint| {
            let mut draft = draft.free();
            draft.insert(law(0xA6, &[&[0], constraint, &[0], &constant(6)]));
            draft.insert(law(0xA9, &[&node(0x20, &[&read(0, 0), &constant(6)])]));
            (draft, once(r))
        },
    },
    Place {
        name: "A7 at step 0",
        verdicts: [Accepted, Broken(6)],
        moving: false,
        make: |r, draft, constraint| {
            let mut draft = draft.free();
            draft.insert(law(0xA7, &[constraint]));
            (draft, vec![0; r.below(3)])
        },
    },
    Place {
        name: "A7 later",
        verdicts: [Accepted, Broken(6)],
        moving: true,
        make: |r, draft, constraint| {
            let mut draft = draft.free();
            draft.insert(effect(0, 0, &constant(6)));
            let before = node(0x20, &[&read(0, 0), &constant(5)]);
            draft.insert(law(0xA7, &[&or(&before, constraint)]));
            (draft, once(r))
        },
    },
    Place {
        name: "A9",
        verdicts: [Accepted, Goal(8)],
        moving: true,
        make: |r, draft, constraint| {
            let mut draft = draft.free();
            draft.insert(law(0xA9, &[constraint]));
            (draft, once(r))
        },
    },
    Place {
        name: "A8, under 19",
        verdicts: [Accepted, Broken(3)],
        moving: false,
        make: |_, draft, constraint| {
            let mut draft = draft.free();
            let more = sum(&reified(constraint), &constant(1));
            draft.insert(law(0xA8, &[&node(0x20, &[&more, &constant(2)])]));
            (draft, vec![0])
        },
    },
];

/// Where a result decides: under a constraint in one of the places, or as the level
/// that an effect sets and a goal looks at, for which there is none.
type Read = Option<&'static Place>;

fn reads() -> impl Iterator<Item = Read> {
    PLACES.iter().map(Some).chain([None])
}

fn decided(trials: &mut Vec<Trial>, sort: &Sort, code: u8, read: Read, truth: bool) {
    let (label, division) = (&sort.0, sort.1.clone());
    let name = read.map_or("the expression of A6", |place| place.name);
    let label = format!("{code:X} in {name} {}: {label}", is(truth));
    let expect = read.map_or([Goal(8), Accepted][usize::from(truth)], |place| {
        place.verdict(truth)
    });
    add(trials, label, expect, move |r| {
        let division = division(r);
        let mut writer = Writer::new(read.is_some_and(|place| place.moving));
        let part = writer.division(r, code, division);
        let value = division.result(code);
        match read {
            Some(place) => {
                let constraint = claimed(r, &part, value, truth);
                (place.make)(r, writer.draft(), &constraint)
            }
            None => set(writer.draft(), &part, value, truth),
        }
    });
}

fn is(truth: bool) -> &'static str {
    match truth {
        true => "right",
        false => "denied",
    }
}

/// The action sets level 0 to the value of the expression, if it can be a level, and
/// else to how far it is from what it should be. A goal says what it is then, or
/// denies it.
fn set(draft: Draft, part: &[u8], value: i64, truth: bool) -> Made {
    let (part, level) = match i16::try_from(value) {
        Ok(level) => (part.to_vec(), level),
        Err(_) => (difference(part, &number(value)), 0),
    };
    let mut draft = draft.free();
    draft.insert(effect(0, 0, &part));
    let equal = node(0x20, &[&read(0, 0), &constant(level)]);
    draft.insert(law(0xA9, &[&said(&equal, truth)]));
    (draft, vec![1])
}

/// Each sort wherever a result decides, in turns right and denied.
fn everywhere(trials: &mut Vec<Trial>, sorts: &[Sort]) {
    for (number, sort) in sorts.iter().enumerate() {
        for code in CODES {
            for (place, read) in reads().enumerate() {
                let truth = (number + usize::from(code) + place) % 2 == 0;
                decided(trials, sort, code, read, truth);
            }
        }
    }
}

/// Each sort right in one place and denied in another, which are taken in turns.
fn in_turns(trials: &mut Vec<Trial>, sorts: &[Sort]) {
    let reads: Vec<_> = reads().collect();
    let mut turns = (0..).map(|turn| reads[turn % reads.len()]);
    for sort in sorts {
        for code in CODES {
            for (truth, read) in [true, false].into_iter().zip(&mut turns) {
                decided(trials, sort, code, read, truth);
            }
        }
        // The next one comes to other places.
        turns.next();
    }
}

/// Operands written in each two ways. Their sizes are such that all ways can be
/// taken.
fn written(trials: &mut Vec<Trial>) {
    for code in CODES {
        for &(dividend_name, dividend) in WAYS {
            for &(divisor_name, divisor) in WAYS {
                let label = format!("accepted: {code:X} of {dividend_name} by {divisor_name}");
                add(trials, label, Accepted, move |r| {
                    let size = r.from_to(2, 96) as i64;
                    let (part, sign) = (part(r, size), sign(r));
                    let quotient = r.below(19) as i64 - 9;
                    let division = Division::leaving(quotient, sign * part, sign * size);
                    let place = r.pick(PLACES);
                    let mut writer = Writer::new(place.moving);
                    let left = dividend(r, &mut writer, division.dividend);
                    let right = divisor(r, &mut writer, division.divisor);
                    let result = node(code, &[&left, &right]);
                    let constraint = claimed(r, &result, division.result(code), true);
                    (place.make)(r, writer.draft(), &constraint)
                });
            }
        }
    }
}

/// What holds of dividend, divisor, quotient and remainder, as a constraint.
type Bond = (&'static str, fn([&[u8]; 4]) -> Vec<u8>);

const BONDS: &[Bond] = &[
    (
        "dividend is quotient times divisor and remainder",
        |[a, b, q, m]| node(0x20, &[a, &sum(&product(q, b), m)]),
    ),
    (
        "remainder is what the quotient leaves of the dividend",
        |[a, b, q, m]| node(0x20, &[m, &difference(a, &product(q, b))]),
    ),
    ("remainder has the divisor's sign or is 0", |[_, b, _, m]| {
        node(0x25, &[&product(m, b), &constant(0)])
    }),
    ("remainder is smaller than the divisor", |[_, b, _, m]| {
        node(0x22, &[&node(0x18, &[m]), &node(0x18, &[b])])
    }),
];

fn bound(trials: &mut Vec<Trial>) {
    for &(bond_label, bond) in BONDS {
        for &(signs, two, sign) in SIGNS {
            let label = format!("accepted: {bond_label}, {signs}");
            add(trials, label, Accepted, move |r| {
                let size = r.from_to(2, 9_000) as i64;
                let (times, part) = (r.below(4) as i64, part(r, size));
                let times = [times, -1 - times][two];
                let division = Division::leaving(times, sign * part, sign * size);
                let mut writer = Writer::new(false);
                let [a, b] = [division.dividend, division.divisor].map(|value| writer.level(value));
                let place = r.pick(PLACES);
                let constraint = bond([&a, &b, &quotient(&a, &b), &remainder(&a, &b)]);
                (place.make)(r, writer.draft(), &constraint)
            });
        }
    }
}

/// Troubles that depend on how a division comes out.
const CAUSES: &[Cause] = &[
    ("by a quotient of -1 by 2, and 1", ZERO_DIVISOR, |seed| {
        let minus = quotient(&constant(-1), &constant(2));
        quotient(&constant(7), &sum(&minus, seed))
    }),
    (
        "by a remainder of -1 by 96, less 95",
        ZERO_DIVISOR,
        |seed| {
            let late = remainder(&constant(-1), &constant(96));
            let divisor = difference(&difference(&late, &constant(94)), seed);
            remainder(&constant(7), &divisor)
        },
    ),
    ("by a remainder of 0", ZERO_DIVISOR, |seed| {
        let dividend = difference(&constant(-7), seed);
        quotient(&constant(7), &remainder(&dividend, &constant(2)))
    }),
    ("by a quotient of 0 by -2", ZERO_DIVISOR, |seed| {
        let dividend = difference(&constant(1), seed);
        remainder(&constant(7), &quotient(&dividend, &constant(-2)))
    }),
    (
        "highest number and a remainder of -1",
        OUT_OF_NUMBERS,
        |seed| sum(&highest(), &remainder(&negation(seed), &constant(96))),
    ),
    (
        "highest number less a remainder of 1",
        OUT_OF_NUMBERS,
        |seed| difference(&highest(), &remainder(seed, &constant(-96))),
    ),
    (
        "lowest number and a quotient of -1",
        OUT_OF_NUMBERS,
        |seed| sum(&quotient(&negation(seed), &constant(2)), &lowest()),
    ),
    // Twice 999,999,999, which is more than the dividend is away from 0.
    (
        "lowest number's quotient times its divisor",
        OUT_OF_NUMBERS,
        |seed| {
            let divisor = difference(&highest(), seed);
            product(&quotient(&lowest(), &divisor), &divisor)
        },
    ),
];

/// Levels that effects set: by their range, expressions, and what comes of it.
type Setting = (&'static str, Expect, [i16; 2], fn() -> Vec<Vec<u8>>);

const SETTINGS: &[Setting] = &[
    ("accepted: quotient in the range", Accepted, [-4, 5], || {
        vec![quotient(&constant(-7), &constant(2))]
    }),
    ("quotient below the range", Broken(5), [-3, 5], || {
        vec![quotient(&constant(7), &constant(-2))]
    }),
    (
        "accepted: remainder in the range",
        Accepted,
        [0, 95],
        || vec![remainder(&constant(-1), &constant(96))],
    ),
    ("remainder above the range", Broken(5), [-95, 94], || {
        vec![remainder(&constant(-1), &constant(96))]
    }),
    ("remainder below the range", Broken(5), [-94, 95], || {
        vec![remainder(&constant(1), &constant(-96))]
    }),
    ("accepted: quotient set twice", Accepted, [-9, 9], || {
        vec![quotient(&constant(-7), &constant(2)), constant(-4)]
    }),
    ("quotient and one more", Broken(4), [-9, 9], || {
        vec![constant(-3), quotient(&constant(-7), &constant(2))]
    }),
    ("accepted: remainder set twice", Accepted, [-9, 9], || {
        vec![constant(1), remainder(&constant(-7), &constant(2))]
    }),
    (
        "remainder and one less the divisor",
        Broken(4),
        [-9, 9],
        || vec![remainder(&constant(-7), &constant(2)), constant(-1)],
    ),
];

fn settings(trials: &mut Vec<Trial>) {
    for &(label, expect, [lowest, highest], values) in SETTINGS {
        add(trials, label.to_string(), expect, move |r| {
            let mut draft = Draft::new(1, &[[lowest, highest, 5]], &[(1, 1)]).free();
            for value in values() {
                draft.insert(effect(0, 0, &value));
            }
            (draft, once(r))
        });
    }
}

/// Quarter hours that run below zero: each step leads to the one before, and sets
/// shift and day anew. The shift has this range.
fn quarters(r: &mut Random, [lowest, highest]: [i16; 2]) -> Made {
    let start = r.from_to(2, 40) as i16;
    let fluents = [
        [-100, 100, start],
        [lowest, highest, start],
        [i16::MIN, i16::MAX, 0],
    ];
    let mut draft = Draft::new(1, &fluents, &[(1, 1)]).free();
    let (count, shift, day, all) = (read(0, 0), read(1, 0), read(2, 0), constant(96));
    let before = difference(&count, &constant(1));
    draft.insert(effect(0, 0, &before));
    draft.insert(effect(0, 1, &remainder(&before, &all)));
    draft.insert(effect(0, 2, &quotient(&before, &all)));
    let whole = sum(&product(&day, &all), &shift);
    draft.insert(law(0xA7, &[&node(0x20, &[&count, &whole])]));
    let last = node(0x20, &[&day, &constant(-1)]);
    let none = node(0x20, &[&count, &constant(start)]);
    draft.insert(law(0xA9, &[&or(&last, &none)]));
    (draft, vec![1; 64])
}

/// Both results of one of the request's divisions in one law.
fn both(trials: &mut Vec<Trial>, figures: [i64; 4], place: &'static Place, truth: bool) {
    let division = Division::stated(figures);
    let (dividend, divisor) = (division.dividend, division.divisor);
    let label = format!(
        "{dividend} by {divisor} in {}, both {}",
        place.name,
        is(truth)
    );
    add(trials, label, place.verdict(truth), move |r| {
        let mut writer = Writer::new(false);
        let [left, right] = [dividend, divisor].map(|value| writer.level(value));
        let [one, other] = CODES.map(|code| {
            let part = node(code, &[&left, &right]);
            node(0x20, &[&part, &number(division.result(code))])
        });
        (place.make)(r, writer.draft(), &said(&and(&one, &other), truth))
    });
}

/// Trials that are put before every call that judges.
pub fn trials() -> Vec<Trial> {
    let mut trials = Vec::new();
    // None of these places needs the action to be taken before.
    for (number, &figures) in FIGURES[..3].iter().enumerate() {
        both(&mut trials, figures, &PLACES[number], true);
        both(&mut trials, figures, &PLACES[number + 1], false);
    }
    let label = "accepted: shifts before midnight".to_string();
    add(&mut trials, label, Accepted, |r| quarters(r, [0, 95]));
    let label = "shifts before midnight out of range".to_string();
    add(&mut trials, label, Broken(5), |r| quarters(r, [-95, 94]));
    trials
}

/// Trials of which each is put before one call only, since they are many.
pub fn further() -> Vec<Trial> {
    let mut trials = Vec::new();
    everywhere(&mut trials, &shaped());
    everywhere(&mut trials, &stated(FIGURES));
    in_turns(&mut trials, &stated(ENDS));
    written(&mut trials);
    bound(&mut trials);
    in_each_place(&mut trials, CAUSES);
    settings(&mut trials);
    trials
}
