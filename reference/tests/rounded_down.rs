//! Quotients rounded down, and remainders of the divisor's sign: document 02, K3,
//! sentence by sentence. What is printed was worked out by hand, and the plain judge
//! is held to it as well.

mod common;

use common::{judged, judged_alone, read_frames};
use waroth_reference::generate::divisions::{self, number, Division};
use waroth_reference::generate::draft::{law, mask_frame, replacement, text_of, Draft};
use waroth_reference::generate::laws::{constant, node};
use waroth_reference::generate::random::Random;
use waroth_reference::judge::{Judged, Verdict, LEVELS};
use waroth_reference::number::{self, Trouble::ZeroDivisor, BOUND};
use waroth_reference::program::Program;
use waroth_reference::Session;

fn level(fluent: u8) -> Vec<u8> {
    vec![0x11, fluent, 0]
}

const WHOLE: [i16; 2] = [i16::MIN, i16::MAX];

/// Two levels and an action that divides them: level 2 is the quotient then, and
/// level 3 the remainder.
fn dividing(a: i16, b: i16) -> Draft {
    let [lowest, highest] = WHOLE;
    let fluents = [a, b, 0, 0].map(|start| [lowest, highest, start]);
    let mut draft = Draft::new(1, &fluents, &[(1, 1)]).free();
    for (fluent, code) in [(2, 0x15), (3, 0x16)] {
        let value = node(code, &[&level(0), &level(1)]);
        draft.insert(law(0xA6, &[&[0, 0x2A, fluent], &value]));
    }
    draft
}

/// Quotient and remainder of two levels, as both judges set them; the kind of fault,
/// if there is one.
fn set(a: i16, b: i16) -> Result<[i64; 2], u8> {
    let (judged, levels) = judged_alone(&dividing(a, b), &[1]);
    match judged.verdict {
        Verdict::Accepted => Ok([levels[6].into(), levels[7].into()]),
        Verdict::Broken { kind, .. } => Err(kind),
    }
}

/// What a goal comes to on an empty sheet, as both judges say: 0 where it is met.
fn goal(constraint: &[u8]) -> u8 {
    let mut draft = Draft::new(1, &[[0, 9, 5]], &[(1, 1)]).free();
    draft.insert(law(0xA9, &[constraint]));
    match judged_alone(&draft, &[]).0.verdict {
        Verdict::Accepted => 0,
        Verdict::Broken { kind, .. } => kind,
    }
}

/// Quotient and remainder are these: by themselves, and as both judges compare
/// expressions of constants.
#[track_caller]
fn gives(a: i64, b: i64, [quotient, remainder]: [i64; 2]) {
    assert_eq!(number::quotient(a, b), Ok(quotient), "{a} by {b}");
    assert_eq!(number::remainder(a, b), Ok(remainder), "{a} by {b}");
    for (code, value) in [(0x15, quotient), (0x16, remainder)] {
        let result = node(code, &[&number(a), &number(b)]);
        let equal = node(0x20, &[&result, &number(value)]);
        assert_eq!(goal(&equal), 0, "{a} by {b}: {code:X}");
    }
}

/// The two conditions, as the request has them: the identity, and the remainder's
/// sign. A remainder is smaller than its divisor, or more could be divided.
fn fulfils(a: i64, b: i64, [quotient, remainder]: [i64; 2]) -> bool {
    let of_the_divisor = match b > 0 {
        true => 0 <= remainder && remainder < b,
        false => b < remainder && remainder <= 0,
    };
    quotient * b + remainder == a && of_the_divisor
}

/// Whether a whole number is at most the exact quotient.
fn at_most(q: i64, a: i64, b: i64) -> bool {
    match b > 0 {
        true => q * b <= a,
        false => q * b >= a,
    }
}

/// Rounded down: the greatest whole number that is at most the exact quotient,
/// looked for and not divided.
fn found(a: i64, b: i64) -> i64 {
    let (mut low, mut high) = (-BOUND - 1, BOUND + 1);
    while high - low > 1 {
        let middle = low + (high - low) / 2;
        match at_most(middle, a, b) {
            true => low = middle,
            false => high = middle,
        }
    }
    low
}

#[test]
fn the_figures_of_the_request() {
    // "−7 by 2 gives −4 and 1; 7 by −2 gives −4 and −1; −8 by 2 gives −4 and 0."
    for (a, b, results) in [(-7, 2, [-4, 1]), (7, -2, [-4, -1]), (-8, 2, [-4, 0])] {
        gives(a.into(), b.into(), results);
        assert_eq!(set(a, b), Ok(results));
    }
}

#[test]
fn the_figures_as_lines() {
    // The same as a law writer writes them: a level of -7, goals about both codes.
    let domain = "A10101\nA206FF9C0064FFF9\nA403010001\nA502002A\n";
    let goals = |quotient: &str, remainder: &str| {
        let of = |code: u8, value: &str| format!("A90B20{code:02X}110000100002{value}\n");
        let text = format!("{domain}{}{}", of(0x15, quotient), of(0x16, remainder));
        String::from_utf8(Program::Waroth.run(text.as_bytes())).expect("text")
    };
    assert_eq!(goals("10FFFC", "100001"), "S 0 -7\nACCEPTED\n");
    // What it was before: -3 and -1; one of the two is not enough.
    assert_eq!(goals("10FFFD", "10FFFF"), "S 0 -7\nBROKEN 8 0 1\n");
    assert_eq!(goals("10FFFC", "10FFFF"), "S 0 -7\nBROKEN 8 0 2\n");
    assert_eq!(goals("10FFFD", "100001"), "S 0 -7\nBROKEN 8 0 1\n");
}

#[test]
fn the_four_signs() {
    // With a remainder, ...
    gives(7, 2, [3, 1]);
    gives(-7, 2, [-4, 1]);
    gives(7, -2, [-4, -1]);
    gives(-7, -2, [3, -1]);
    gives(100, 7, [14, 2]);
    gives(-100, 7, [-15, 5]);
    gives(100, -7, [-15, -5]);
    gives(-100, -7, [14, -2]);
    // ... without, ...
    gives(8, 2, [4, 0]);
    gives(-8, 2, [-4, 0]);
    gives(8, -2, [-4, 0]);
    gives(-8, -2, [4, 0]);
    // ... smaller than the divisor, as large, and one more.
    gives(3, 5, [0, 3]);
    gives(-3, 5, [-1, 2]);
    gives(3, -5, [-1, -2]);
    gives(-3, -5, [0, -3]);
    gives(5, 5, [1, 0]);
    gives(-5, 5, [-1, 0]);
    gives(5, -5, [-1, 0]);
    gives(-5, -5, [1, 0]);
    gives(6, 5, [1, 1]);
    gives(-6, 5, [-2, 4]);
    gives(6, -5, [-2, -4]);
    gives(-6, -5, [1, -1]);
}

#[test]
fn zero_and_one() {
    // "or is 0": 0 by anything leaves nothing, and has no sign.
    for b in [1, -1, 2, -2, 96, -96, BOUND, -BOUND] {
        gives(0, b, [0, 0]);
    }
    // By 1 and -1 nothing remains.
    for a in [1, -1, 5, -5, 32_767, -32_768, BOUND, -BOUND] {
        gives(a, 1, [a, 0]);
        gives(a, -1, [-a, 0]);
    }
    gives(1, 96, [0, 1]);
    gives(-1, 96, [-1, 95]);
    gives(1, -96, [-1, -95]);
    gives(-1, -96, [0, -1]);
}

#[test]
fn the_ends_of_the_number_range() {
    gives(-BOUND, -1, [BOUND, 0]);
    gives(BOUND, -1, [-BOUND, 0]);
    gives(BOUND, 7, [142_857_142, 6]);
    gives(-BOUND, 7, [-142_857_143, 1]);
    gives(BOUND, -7, [-142_857_143, -1]);
    gives(-BOUND, -7, [142_857_142, -6]);
    gives(-BOUND, 32, [-31_250_000, 0]);
    gives(BOUND, BOUND, [1, 0]);
    gives(-BOUND, BOUND, [-1, 0]);
    gives(BOUND, -BOUND, [-1, 0]);
    gives(-BOUND, -BOUND, [1, 0]);
    gives(1, BOUND, [0, 1]);
    gives(-1, BOUND, [-1, 999_999_999]);
    gives(1, -BOUND, [-1, -999_999_999]);
    gives(-1, -BOUND, [0, -1]);
    gives(999_999_999, -BOUND, [-1, -1]);
    gives(-999_999_999, BOUND, [-1, 1]);
    gives(BOUND, -999_999_999, [-2, -999_999_998]);
    gives(-BOUND, 999_999_999, [-2, 999_999_998]);
    gives(-BOUND, 2, [-500_000_000, 0]);
    gives(-999_999_999, 2, [-500_000_000, 1]);
    // The ends of a level.
    assert_eq!(set(i16::MIN, i16::MAX), Ok([-2, 32_766]));
    assert_eq!(set(i16::MAX, i16::MIN), Ok([-1, -1]));
    assert_eq!(set(i16::MIN, 96), Ok([-342, 64]));
    assert_eq!(set(i16::MIN, i16::MIN), Ok([1, 0]));
    // 32,768 is a number, but no level.
    assert_eq!(set(i16::MIN, -1), Err(5));
}

#[test]
fn every_small_division() {
    // "Dividend equals quotient × divisor + remainder wherever both have values", and
    // "the remainder takes the divisor's sign or is 0"; by 0 neither has a value.
    for a in -60..=60 {
        for b in -25..=25 {
            let (x, y) = (i64::from(a), i64::from(b));
            let numbers = (number::quotient(x, y), number::remainder(x, y));
            if b == 0 {
                assert_eq!(numbers, (Err(ZeroDivisor), Err(ZeroDivisor)));
                assert_eq!(set(a, b), Err(7));
                continue;
            }
            let results = set(a, b).expect("values");
            assert_eq!(numbers, (Ok(results[0]), Ok(results[1])));
            assert!(fulfils(x, y, results), "{a} by {b}: {results:?}");
            // One after another, without search by halves.
            let down = (-61..=61).rfind(|&q| at_most(q, x, y));
            assert_eq!(down, Some(results[0]), "{a} by {b}");
        }
    }
}

#[test]
fn no_other_pair_fulfils_both() {
    for a in -24..=24 {
        for b in (-11..=11).filter(|&b| b != 0) {
            let quotients = -30..=30;
            let mut pairs = quotients.flat_map(|q| (-30..=30).map(move |m| [q, m]));
            let only = pairs.find(|&pair| fulfils(a, b, pair));
            let [quotient, remainder] = only.expect("one pair");
            assert_eq!(number::quotient(a, b), Ok(quotient));
            assert_eq!(number::remainder(a, b), Ok(remainder));
            assert!(!pairs.any(|pair| fulfils(a, b, pair)), "{a} by {b}");
        }
    }
}

/// A number of any size up to the end of the range.
fn any_size(r: &mut Random) -> i64 {
    let bits = r.below(31);
    let size = ((r.draw() as i64) & ((1 << bits) - 1)).min(BOUND);
    [size, -size][r.below(2)]
}

#[test]
fn large_divisions() {
    let mut r = Random::seeded(31);
    for _ in 0..300_000 {
        let b = match any_size(&mut r) {
            0 => BOUND,
            b => b,
        };
        // Any dividend, and those around a multiple.
        let most = BOUND / b.abs();
        let multiple = (r.below(2 * most as usize + 1) as i64 - most) * b;
        for a in [any_size(&mut r), multiple - 1, multiple, multiple + 1] {
            let a = a.clamp(-BOUND, BOUND);
            let quotient = number::quotient(a, b).expect("a value");
            let remainder = number::remainder(a, b).expect("a value");
            assert!(fulfils(a, b, [quotient, remainder]), "{a} by {b}");
            assert_eq!(found(a, b), quotient, "{a} by {b}");
            assert!(quotient.abs() <= BOUND);
        }
    }
}

#[test]
fn large_divisions_by_both_judges() {
    let mut r = Random::seeded(32);
    for _ in 0..3_000 {
        let b = match any_size(&mut r) {
            0 => -BOUND,
            b => b,
        };
        let a = any_size(&mut r);
        let quotient = found(a, b);
        gives(a, b, [quotient, a - quotient * b]);
    }
}

#[test]
fn what_the_generator_states() {
    // Its figures, against the two conditions; and each sort is what it is called.
    let mut r = Random::seeded(33);
    for (label, division) in divisions::sorts() {
        for _ in 0..50 {
            let Division {
                dividend: a,
                divisor: b,
                quotient,
                remainder,
            } = division(&mut r);
            assert!(fulfils(a, b, [quotient, remainder]), "{label}: {a} by {b}");
            assert!(a.abs() <= BOUND && b.abs() <= BOUND, "{label}: {a} by {b}");
            gives(a, b, [quotient, remainder]);
            let Some((signs, shape)) = label.split_once(", ") else {
                assert_eq!(label, format!("{a} by {b}"));
                continue;
            };
            let side = |number: i64| ["above 0", "below 0"][usize::from(number < 0)];
            assert_eq!(signs, format!("{} by {}", side(a), side(b)));
            let [dividend, divisor] = [a.abs(), b.abs()];
            let holds = match shape {
                "with a remainder" => remainder != 0 && dividend > divisor,
                "without remainder" => remainder == 0 && dividend > divisor,
                "dividend less than the divisor" => 0 < dividend && dividend < divisor,
                "dividend as large as the divisor" => dividend == divisor,
                "dividend one less than the divisor" => dividend == divisor - 1,
                "dividend one more than the divisor" => dividend == divisor + 1,
                "1" => dividend == 1,
                "by 1" => divisor == 1,
                other => panic!("{other}"),
            };
            assert!(holds, "{label}: {a} by {b}");
        }
    }
}

#[test]
fn a_zero_divisor_is_as_before() {
    for a in [-7, 0, 7, BOUND, -BOUND] {
        for code in [0x15, 0x16] {
            let result = node(code, &[&number(a), &constant(0)]);
            assert_eq!(goal(&node(0x20, &[&result, &result])), 7);
        }
    }
    // What is rounded down can be 0, or not be: 1 by 2, and -1 by 2, as divisors.
    let by_half = |half: i16| {
        let divisor = node(0x15, &[&constant(half), &constant(2)]);
        node(0x15, &[&constant(7), &divisor])
    };
    assert_eq!(goal(&node(0x20, &[&by_half(1), &constant(0)])), 7);
    assert_eq!(goal(&node(0x20, &[&by_half(-1), &constant(-7)])), 0);
    // 1,000,000,000 and 95 is out of numbers; with -1, as it was before, the sum had
    // a value.
    let late = node(0x16, &[&constant(-1), &constant(96)]);
    let sum = node(0x12, &[&number(BOUND), &late]);
    assert_eq!(goal(&node(0x20, &[&sum, &sum])), 9);
}

#[test]
fn the_identity_as_a_law() {
    // It is about numbers: as a law it has a value where the product has one. Rounded
    // down, quotient times divisor can be further from 0 than the dividend.
    let identity = |a: i64, b: i64| {
        let [a, b] = [a, b].map(number);
        let [quotient, remainder] = [0x15, 0x16].map(|code| node(code, &[&a, &b]));
        let product = node(0x14, &[&quotient, &b]);
        goal(&node(0x20, &[&a, &node(0x12, &[&product, &remainder])]))
    };
    for (a, b) in [(-7, 2), (7, -2), (-8, 2), (7, 2), (-7, -2), (0, -2)] {
        assert_eq!(identity(a, b), 0);
    }
    assert_eq!(identity(-BOUND, 7), 9);
    assert_eq!(identity(-BOUND, 8), 0);
    assert_eq!(identity(BOUND, -7), 9);
    assert_eq!(identity(BOUND, 7), 0);
    assert_eq!(identity(-BOUND, 999_999_999), 9);
    assert_eq!(identity(7, 0), 7);
}

#[test]
fn divisions_in_divisions() {
    // Rounded down twice is rounded down once: a by b by c is a by b times c, for a
    // c above 0. This holds of truncated quotients too; the figures after it do not.
    for a in [-1_000, -97, -96, -95, -1, 0, 1, 95, 96, 97, 1_000] {
        for b in [-96, -7, -1, 1, 7, 96] {
            for c in [1, 2, 5] {
                let [a, b, c] = [a, b, c].map(constant);
                let twice = node(0x15, &[&node(0x15, &[&a, &b]), &c]);
                let once = node(0x15, &[&a, &node(0x14, &[&b, &c])]);
                assert_eq!(goal(&node(0x20, &[&twice, &once])), 0);
                // A remainder's remainder is itself.
                let remainder = node(0x16, &[&a, &b]);
                let again = node(0x16, &[&remainder, &b]);
                assert_eq!(goal(&node(0x20, &[&again, &remainder])), 0);
            }
        }
    }
    // -100 by 7 is -15, whose remainder by 4 is 1; the remainder 5 by -3 is -2.
    let quotient = node(0x15, &[&constant(-100), &constant(7)]);
    let remainder = node(0x16, &[&constant(-100), &constant(7)]);
    let outer = node(0x16, &[&quotient, &constant(4)]);
    assert_eq!(goal(&node(0x20, &[&outer, &constant(1)])), 0);
    let outer = node(0x15, &[&remainder, &constant(-3)]);
    assert_eq!(goal(&node(0x20, &[&outer, &constant(-2)])), 0);
    // 7 by the remainder of 1 by -3, which is -2.
    let divisor = node(0x16, &[&constant(1), &constant(-3)]);
    let outer = node(0x15, &[&constant(7), &divisor]);
    assert_eq!(goal(&node(0x20, &[&outer, &constant(-4)])), 0);
}

/// Quarter hours: a count that starts here and that the action takes down by one,
/// and the quarter hour of the day, which it sets.
fn quarters(start: i16) -> Draft {
    let quarter = start.rem_euclid(96);
    let fluents = [[-200, 200, start], [0, 95, quarter]];
    let mut draft = Draft::new(1, &fluents, &[(1, 1)]);
    draft.insert(mask_frame(0xA3, 0, 1));
    let before = node(0x13, &[&level(0), &constant(1)]);
    draft.insert(law(0xA6, &[&[0, 0x2A, 0], &before]));
    let quarter = node(0x16, &[&before, &constant(96)]);
    draft.insert(law(0xA6, &[&[0, 0x2A, 1], &quarter]));
    draft
}

/// The quarter hour of the day that the count is at, compared with another.
fn quarter(code: u8, than: i16) -> Vec<u8> {
    let quarter = node(0x16, &[&level(0), &constant(96)]);
    node(code, &[&quarter, &constant(than)])
}

/// The verdict, and the levels of the states reached.
fn outcome(draft: &Draft, sheet: &[u8]) -> (Verdict, Vec<i16>) {
    let (Judged { verdict, states }, levels) = judged_alone(draft, sheet);
    (verdict, levels[..states * draft.fluents.len()].to_vec())
}

fn broken(kind: u8, step: u8, number: u8) -> Verdict {
    Verdict::Broken { kind, step, number }
}

#[test]
fn shifts_before_midnight() {
    // "Shift laws use the remainder by 96 on counts that run below zero": from 2 down
    // to -2, quarter hours 2, 1, 0, 95, 94. Truncated, step 3 would be kind 5.
    let draft = quarters(2).free();
    let levels = vec![2, 2, 1, 1, 0, 0, -1, 95, -2, 94];
    assert_eq!(outcome(&draft, &[1; 4]), (Verdict::Accepted, levels));
    // Another midnight: -95, -96, -97.
    let draft = quarters(-95).free();
    let levels = vec![-95, 1, -96, 0, -97, 95];
    assert_eq!(outcome(&draft, &[1; 2]), (Verdict::Accepted, levels));
}

#[test]
fn the_shift_in_each_kind_of_law() {
    // The late shift has quarter hours 88 to 95. A5: it alone may act; -1 is 95, -8
    // is 88, -9 is 87, and 0 is 0.
    let late = |start| {
        let mut draft = quarters(start);
        draft.insert(law(0xA5, &[&[0], &quarter(0x25, 88)]));
        draft
    };
    let levels = vec![-7, 89, -8, 88, -9, 87];
    assert_eq!(outcome(&late(-7), &[1; 3]), (broken(2, 3, 0), levels));
    assert_eq!(outcome(&late(0), &[1]), (broken(2, 1, 0), vec![0, 0]));
    // A8: nobody but the late shift, which is law 3 here.
    let with = |kind: u8, start: i16, constraint: &[u8]| {
        let mut draft = quarters(start).free();
        draft.insert(law(kind, &[constraint]));
        draft
    };
    let draft = with(0xA8, -8, &quarter(0x25, 88));
    assert_eq!(outcome(&draft, &[0]).0, Verdict::Accepted);
    assert_eq!(outcome(&draft, &[1, 0]).0, broken(3, 2, 3));
    // A7: a shift is never negative; and it comes to 95, in step 2, or is 95 at step 0.
    let draft = with(0xA7, 1, &quarter(0x25, 0));
    assert_eq!(outcome(&draft, &[1; 64]).0, Verdict::Accepted);
    let draft = with(0xA7, 1, &quarter(0x22, 95));
    assert_eq!(outcome(&draft, &[1; 64]).0, broken(6, 2, 3));
    let draft = with(0xA7, -1, &quarter(0x22, 95));
    assert_eq!(outcome(&draft, &[]), (broken(6, 0, 3), vec![]));
    // A9: the day before, which is day -1.
    let day = node(0x15, &[&level(0), &constant(96)]);
    let draft = with(0xA9, 1, &node(0x20, &[&day, &constant(-1)]));
    assert_eq!(outcome(&draft, &[1; 2]).0, Verdict::Accepted);
    assert_eq!(outcome(&draft, &[1]).0, broken(8, 1, 3));
    // A6: only the late shift lowers the other level, by its constraint, or by as
    // much as a reified constraint says.
    for reified in [false, true] {
        let [lowest, highest] = WHOLE;
        let fluents = [[lowest, highest, -3], [0, 9, 5]];
        let mut draft = Draft::new(1, &fluents, &[(1, 1)]).free();
        let late = quarter(0x25, 88);
        let (constraint, less) = match reified {
            false => (late, constant(1)),
            true => (vec![0x2A], node(0x19, &[&late])),
        };
        let lowered = node(0x13, &[&level(1), &less]);
        draft.insert(law(0xA6, &[&[0], &constraint, &[1], &lowered]));
        let earlier = node(0x13, &[&level(0), &constant(5)]);
        draft.insert(law(0xA6, &[&[0, 0x2A, 0], &earlier]));
        let levels = vec![-3, 5, -8, 4, -13, 3, -18, 3];
        assert_eq!(outcome(&draft, &[1; 3]), (Verdict::Accepted, levels));
    }
}

#[test]
fn the_shift_of_an_earlier_count() {
    // At lags: the count two steps ago, or the first where there is none.
    let mut draft = quarters(1).free();
    let past = node(0x16, &[&[0x11, 0, 2], &constant(96)]);
    draft.insert(law(0xA7, &[&node(0x21, &[&past, &constant(95)])]));
    // -1 is reached in step 2, and seen in step 4.
    assert_eq!(outcome(&draft, &[1; 3]).0, Verdict::Accepted);
    assert_eq!(outcome(&draft, &[1; 5]).0, broken(6, 4, 3));
}

#[test]
fn under_a_supplement_in_a_session_and_in_a_report() {
    // Law 3, a goal, is replaced by one about the quarter hour 95.
    let mut draft = quarters(0).free();
    draft.insert(law(0xA9, &[&[0x28, 0x2A]]));
    let midnight = law(0xA9, &[&quarter(0x20, 95)]);
    let frames = [replacement(3, &midnight)];
    let supplement = read_frames(&draft, &frames).expect("a supplement");
    let expected = Judged {
        verdict: Verdict::Accepted,
        states: 2,
    };
    assert_eq!(judged_alone(&draft, &[1]).0.verdict, broken(8, 1, 3));
    assert_eq!(judged(&draft, &supplement, &[1]).0, expected);
    let lines = [draft.text(), text_of(&frames), b"B10101\n".to_vec()];
    let out = Program::LowWater.run(&lines.concat());
    assert_eq!(out, b"S 0 0 0\nS 1 -1 95\nACCEPTED\n");
    let replaced = draft.with_law(3, &midnight);
    let mut session = Session::closed();
    assert_eq!(session.open(&replaced.bytes()), Ok(()));
    assert_eq!(session.enter(&[1]), Ok(()));
    let mut levels = vec![0; LEVELS];
    let verdict = session.verdict(&replaced.bytes(), &mut levels);
    assert_eq!(verdict, Ok(expected));
    // One step more is quarter hour 94, one less 0: only the first sheet is accepted.
    let sheets = b"B000\nB10101\nB000\nB10101\nB10101\nB000\n";
    let out = Program::Report.run(&[&replaced.text(), &sheets[..]].concat());
    assert_eq!(out, b"SHEETS 1 2\nF 0 -1 0 -1 2\nF 1 0 95 95 2\n");
}
