//! Laws that look back over the whole sheet: document 02, K4, sentence by sentence.
//! What is expected was worked out by hand, and the plain judge is held to it as well.

mod common;

use common::{judged, judged_alone, read, read_frames};
use waroth_reference::generate::draft::{law, mask_frame, replacement, sheet_text, Draft};
use waroth_reference::generate::laws::{
    always, and, constant, node, not, or, reified, sometime, wrapped, ALWAYS, SOMETIME,
};
use waroth_reference::generate::random::Random;
use waroth_reference::judge::{Verdict, LEVELS};
use waroth_reference::program::Program;
use waroth_reference::{lay, Session};

const CODES: [u8; 2] = [ALWAYS, SOMETIME];

fn level(lag: u8) -> Vec<u8> {
    vec![0x11, 0, lag]
}

fn is(value: i16) -> Vec<u8> {
    was(0, value)
}

fn was(lag: u8, value: i16) -> Vec<u8> {
    node(0x20, &[&level(lag), &constant(value)])
}

/// One agent, who knows a level from 0 to 5. Action 1 sets it to 0, and so on up to
/// action 6. Action 7 does nothing and is entry 6.
fn setting(start: i16) -> Draft {
    let entries: Vec<_> = (1..=7).map(|name| (name, 1)).collect();
    let mut draft = Draft::new(1, &[[0, 5, start]], &entries);
    draft.insert(mask_frame(0xA3, 0, 1));
    for entry in 0..6 {
        draft.insert(law(0xA5, &[&[entry, 0x2A]]));
        draft.insert(law(0xA6, &[&[entry, 0x2A, 0], &constant(entry.into())]));
    }
    draft
}

const ASKING: u8 = 7;

/// Steps through these levels, behind the first.
fn steps(levels: &[i16]) -> Vec<u8> {
    levels[1..].iter().map(|&level| level as u8 + 1).collect()
}

/// The kind of fault and its step; kind 0 is none.
fn fault(draft: &Draft, sheet: &[u8]) -> (u8, u8) {
    match judged_alone(draft, sheet).0.verdict {
        Verdict::Accepted => (0, sheet.len() as u8),
        Verdict::Broken { kind, step, .. } => (kind, step),
    }
}

/// What a goal comes to after these levels: kind 0 where it is met.
fn goal(levels: &[i16], constraint: &[u8]) -> u8 {
    let mut draft = setting(levels[0]);
    draft.insert(law(0xA5, &[&[6, 0x2A]]));
    draft.insert(law(0xA9, &[constraint]));
    let (kind, step) = fault(&draft, &steps(levels));
    assert_eq!(usize::from(step), levels.len() - 1);
    kind
}

/// What the law of action 7 comes to in a step after these levels.
fn asked(levels: &[i16], constraint: &[u8]) -> u8 {
    let mut draft = setting(levels[0]);
    draft.insert(law(0xA5, &[&[6], constraint]));
    let (kind, step) = fault(&draft, &[steps(levels), vec![ASKING]].concat());
    assert_eq!(usize::from(step), levels.len());
    kind
}

/// Both codes over a constraint come to these, as a goal and as a condition.
#[track_caller]
fn comes_to(levels: &[i16], held: &[u8], truths: [bool; 2]) {
    for (code, truth) in CODES.into_iter().zip(truths) {
        let whole = node(code, &[held]);
        let missed = u8::from(!truth);
        assert_eq!(goal(levels, &whole), 8 * missed, "{code:X} over {levels:?}");
        assert_eq!(
            asked(levels, &whole),
            2 * missed,
            "{code:X} over {levels:?}"
        );
        // And denied.
        assert_eq!(goal(levels, &not(&whole)), 8 - 8 * missed);
    }
}

/// Neither code has a value over a constraint, for this reason.
#[track_caller]
fn has_none(levels: &[i16], held: &[u8], kind: u8) {
    for code in CODES {
        let whole = node(code, &[held]);
        for around in [&whole, &not(&whole), &or(&[0x2A], &whole)] {
            assert_eq!(goal(levels, around), kind, "{code:X} over {levels:?}");
            assert_eq!(asked(levels, around), kind, "{code:X} over {levels:?}");
        }
    }
}

/// A comparison without value, by a zero divisor, where the level is this.
fn divides(level_is: i16) -> Vec<u8> {
    let divisor = node(0x13, &[&level(0), &constant(level_is)]);
    node(
        0x20,
        &[&node(0x15, &[&constant(7), &divisor]), &constant(0)],
    )
}

/// One without value where the level is 3: 31,623 squared is out of numbers.
fn squares() -> Vec<u8> {
    let factor = node(0x12, &[&level(0), &constant(31_620)]);
    node(0x20, &[&node(0x14, &[&factor, &factor]), &constant(0)])
}

/// True where the level is 1, false where it is 0, of kind 7 where it is 2 and of kind
/// 9 where it is 3.
fn troubled() -> Vec<u8> {
    let valued = |part: &[u8]| or(&[0x2A], part);
    and(&is(1), &and(&valued(&divides(2)), &valued(&squares())))
}

/// What a program prints for lines of a domain and a sheet.
fn printed(text: &str) -> String {
    String::from_utf8(Program::Waroth.run(text.as_bytes())).expect("text")
}

/// A gate, which agent 1 opens by action 2; the tug of agent 0 is action 1, under this
/// condition.
fn tug(condition: &str, sheet: &str) -> String {
    let count = 1 + condition.len() / 2;
    printed(&format!(
        "A10102\nA206000000010000\nA303000003\nA403010001\nA403020002\n\
         A5{count:02X}00{condition}\nA502012A\nA606012A00100001\n{sheet}"
    ))
}

#[test]
fn not_if_the_gate_has_been_opened() {
    // "not if the weir gate has been opened at any time today"
    let never = "282C290100";
    let out = tug(never, "B1020100\nB1020000\nB1020100\n");
    assert_eq!(out, "S 0 0\nS 1 0\nS 2 0\nS 3 0\nACCEPTED\n");
    let out = tug(never, "B1020100\nB1020002\nB1020000\nB1020100\n");
    assert_eq!(out, "S 0 0\nS 1 0\nS 2 1\nS 3 1\nBROKEN 2 4 0\n");
    // In the same step, which is the present one; and after it.
    assert_eq!(tug(never, "B1020102\n"), "S 0 0\nBROKEN 2 1 0\n");
    let out = tug(never, "B1020100\nB1020002\n");
    assert_eq!(out, "S 0 0\nS 1 0\nS 2 1\nACCEPTED\n");
    // The same by 2B, and about the level, which is 0 before the present step.
    let always_shut = "2B28290100";
    assert_eq!(tug(always_shut, "B1020102\n"), "S 0 0\nBROKEN 2 1 0\n");
    let shut = "2B20110000100000";
    assert_eq!(tug(shut, "B1020102\n"), "S 0 0\nS 1 1\nACCEPTED\n");
    let out = tug(shut, "B1020002\nB1020100\n");
    assert_eq!(out, "S 0 0\nS 1 1\nBROKEN 2 2 0\n");
}

#[test]
fn every_position_and_one_or_more() {
    // "2B, its constraint held at every position from 0 to the present one, and 2C,
    // at one or more of them"
    comes_to(&[1, 1, 1], &is(1), [true, true]);
    comes_to(&[0, 0, 0], &is(1), [false, false]);
    comes_to(&[1, 0, 1], &is(1), [false, true]);
    comes_to(&[0, 1, 0], &is(1), [false, true]);
    comes_to(&[0, 1, 1, 0, 1], &is(1), [false, true]);
    comes_to(&[0, 1, 2, 3, 4, 5], &is(5), [false, true]);
    comes_to(&[0, 1, 2, 3, 4, 5], &is(0), [false, true]);
    comes_to(&[0, 1, 2, 3, 4, 5], &not(&is(6)), [true, true]);
}

#[test]
fn both_include_the_present() {
    // Only the present decides.
    comes_to(&[1, 1, 0], &is(1), [false, true]);
    comes_to(&[0, 0, 1], &is(1), [false, true]);
    comes_to(&[1, 0], &is(1), [false, true]);
    comes_to(&[0, 1], &is(1), [false, true]);
}

#[test]
fn both_include_position_0() {
    // Only position 0 decides, which is a state before any step.
    comes_to(&[0, 1, 1], &is(1), [false, true]);
    comes_to(&[1, 0, 0], &is(1), [false, true]);
    // It is the only one on an empty sheet, and in the first step.
    comes_to(&[1], &is(1), [true, true]);
    comes_to(&[0], &is(1), [false, false]);
}

/// What a law of this kind, without entry, comes to: the fault and its step.
fn lawful(kind: u8, levels: &[i16], constraint: &[u8]) -> (u8, u8) {
    let mut draft = setting(levels[0]);
    draft.insert(law(0xA5, &[&[6, 0x2A]]));
    draft.insert(law(kind, &[constraint]));
    fault(&draft, &steps(levels))
}

#[test]
fn positions_of_static_laws() {
    // A7 is read at position 0 before step 1, and at position k after step k.
    let levels = [1, 1, 0, 1];
    assert_eq!(lawful(0xA7, &levels, &always(&is(1))), (6, 2));
    assert_eq!(lawful(0xA7, &levels, &sometime(&is(1))), (0, 3));
    assert_eq!(lawful(0xA7, &levels, &sometime(&is(0))), (6, 0));
    assert_eq!(lawful(0xA7, &levels, &not(&sometime(&is(0)))), (6, 2));
    assert_eq!(lawful(0xA7, &levels, &always(&is(0))), (6, 0));
}

#[test]
fn positions_of_concurrency_laws() {
    // A8 is read at position k - 1 in step k, and does not see the state after it.
    let levels = [1, 1, 0, 1];
    assert_eq!(lawful(0xA8, &levels, &always(&is(1))), (3, 3));
    assert_eq!(lawful(0xA8, &levels[..3], &always(&is(1))), (0, 2));
    assert_eq!(lawful(0xA8, &levels, &sometime(&is(0))), (3, 1));
    // Once the level was 5, it has to have been 2.
    let late = or(&not(&sometime(&is(5))), &sometime(&is(2)));
    assert_eq!(lawful(0xA8, &[0, 1, 5, 1], &late), (3, 3));
    assert_eq!(lawful(0xA8, &[0, 2, 5, 1], &late), (0, 3));
}

#[test]
fn positions_of_effect_laws() {
    // Levels 1 and 2 show in each step whether level 0 was always 1 until then, and
    // whether it ever was 0, by constraint and by expression.
    let mut draft = Draft::new(1, &[[0, 1, 1], [0, 9, 0], [0, 9, 0]], &[(1, 1), (2, 1)]).free();
    for entry in 0..2 {
        draft.insert(law(0xA6, &[&[entry, 0x2A, 0], &constant(entry.into())]));
        let more = node(0x12, &[&[0x11, 1, 0], &constant(1)]);
        draft.insert(law(0xA6, &[&[entry], &always(&is(1)), &[1], &more]));
        let more = node(0x12, &[&[0x11, 2, 0], &reified(&sometime(&is(0)))]);
        draft.insert(law(0xA6, &[&[entry, 0x2A, 2], &more]));
    }
    // Level 0 is 1, 1, 0, 1, 1: two steps start before it was ever 0.
    let (judged, levels) = judged_alone(&draft, &[2, 1, 2, 2]);
    assert_eq!(judged.verdict, Verdict::Accepted);
    assert_eq!(levels[..15], [1, 0, 0, 1, 1, 0, 0, 2, 0, 1, 2, 1, 1, 2, 2]);
}

#[test]
fn every_position_is_read() {
    // "Every position is read, so one without a value leaves the whole without value"
    let held = troubled();
    for levels in [
        &[2][..],
        &[2, 1],
        &[1, 2],
        &[1, 2, 1],
        &[1, 1, 2],
        &[2, 1, 1],
    ] {
        has_none(levels, &held, 7);
    }
    for levels in [
        &[3][..],
        &[3, 1],
        &[1, 3],
        &[1, 3, 1],
        &[1, 1, 3],
        &[3, 1, 1],
    ] {
        has_none(levels, &held, 9);
    }
    // Without them it has a value.
    comes_to(&[1, 0, 1], &held, [false, true]);
    comes_to(&[1, 1, 1], &held, [true, true]);
    comes_to(&[0, 0, 0], &held, [false, false]);
}

#[test]
fn a_clear_answer_hides_nothing() {
    // False under 2B and true under 2C, before and behind the position without value.
    let held = troubled();
    for levels in [
        &[0, 2][..],
        &[2, 0],
        &[1, 2, 0],
        &[0, 1, 2],
        &[1, 0, 0, 1, 2],
    ] {
        has_none(levels, &held, 7);
    }
    for levels in [&[0, 3][..], &[3, 0], &[0, 3, 1], &[1, 0, 3], &[3, 0, 1, 0]] {
        has_none(levels, &held, 9);
    }
}

#[test]
fn the_earliest_reason() {
    // "where K2's two reasons occur, the earliest position's is given"
    let held = troubled();
    for levels in [
        &[2, 3][..],
        &[2, 1, 3],
        &[0, 2, 3],
        &[1, 2, 0, 3],
        &[2, 3, 2, 3],
    ] {
        has_none(levels, &held, 7);
    }
    for levels in [
        &[3, 2][..],
        &[3, 1, 2],
        &[0, 3, 2],
        &[1, 3, 0, 2],
        &[3, 3, 2, 2],
    ] {
        has_none(levels, &held, 9);
    }
    // The later position's stands left in the constraint: the earlier one's is given.
    has_none(&[3, 2], &and(&divides(2), &squares()), 9);
    has_none(&[2, 3], &and(&squares(), &divides(2)), 7);
    // At one position it is the left one's.
    has_none(&[0, 3], &and(&divides(3), &squares()), 7);
    has_none(&[0, 3], &and(&squares(), &divides(3)), 9);
}

#[test]
fn all_positions_of_one_side_before_the_other_side() {
    // The left operand at the last position comes before the right one at the first.
    let (seven, nine) = (divides(2), squares());
    for one in CODES {
        for other in CODES {
            let [seven, nine] = [node(one, &[&seven]), node(other, &[&nine])];
            for code in [0x26, 0x27] {
                assert_eq!(goal(&[2, 0, 3], &node(code, &[&nine, &seven])), 9);
                assert_eq!(goal(&[3, 0, 2], &node(code, &[&seven, &nine])), 7);
            }
            let compared = node(0x21, &[&reified(&nine), &reified(&seven)]);
            assert_eq!(asked(&[2, 0, 3], &compared), 9);
        }
    }
    // Beside the present alone.
    assert_eq!(goal(&[2, 3], &and(&nine, &always(&seven))), 9);
    assert_eq!(goal(&[2, 3], &and(&always(&seven), &nine)), 7);
    assert_eq!(goal(&[2, 0], &and(&nine, &always(&seven))), 7);
}

#[test]
fn lags_count_from_the_position_looked_at() {
    // Positions 0, 1 and 2 look at states 0, 0 and 1.
    comes_to(&[1, 1, 0], &was(1, 1), [true, true]);
    comes_to(&[1, 0, 0], &was(1, 1), [false, true]);
    comes_to(&[0, 1, 0], &was(1, 1), [false, true]);
    comes_to(&[0, 0, 1], &was(1, 1), [false, false]);
    // With lag 2 all three look at state 0, and the fourth at state 1.
    comes_to(&[1, 0, 0], &was(2, 1), [true, true]);
    comes_to(&[0, 1, 1], &was(2, 1), [false, false]);
    comes_to(&[0, 1, 0, 0], &was(2, 1), [false, true]);
    comes_to(&[1, 0, 1, 1], &was(2, 1), [false, true]);
    comes_to(&[1, 0, 0, 0], &was(63, 1), [true, true]);
    // A level that never fell, and one that rose; at position 0 nothing is compared.
    let no_fall = node(0x25, &[&level(0), &level(1)]);
    comes_to(&[1, 1, 2, 5], &no_fall, [true, true]);
    comes_to(&[1, 3, 2, 5], &no_fall, [false, true]);
    let rise = node(0x24, &[&level(0), &level(1)]);
    comes_to(&[1, 2, 3], &rise, [false, true]);
    comes_to(&[3, 3, 1], &rise, [false, false]);
    comes_to(&[3], &rise, [false, false]);
}

/// What a law of this kind comes to: of two agents one takes action 7, which an A5 law
/// is of, in the last step, and the other takes action 8 in the steps with an x. The
/// second action's entry is 1.
fn occurring(kind: u8, steps: &str, constraint: &[u8]) -> (u8, u8) {
    let mut draft = Draft::new(2, &[[0, 9, 0]], &[(7, 0b01), (8, 0b10)]);
    let (condition, other) = match kind {
        0xA5 => (constraint, law(0xA8, &[&[0x2A]])),
        _ => (&[0x2A][..], law(kind, &[constraint])),
    };
    draft.insert(law(0xA5, &[&[0], condition]));
    draft.insert(law(0xA5, &[&[1, 0x2A]]));
    draft.insert(other);
    let last = steps.len() - 1;
    let names = |(at, step)| [7 * u8::from(at == last), if step == 'x' { 8 } else { 0 }];
    let sheet: Vec<u8> = steps.chars().enumerate().flat_map(names).collect();
    match judged_alone(&draft, &sheet).0.verdict {
        Verdict::Accepted => (0, 0),
        Verdict::Broken { kind, step, .. } => (kind, step),
    }
}

#[track_caller]
fn occurs(steps: &str, lag: u8, truths: [bool; 2]) {
    for (code, truth) in CODES.into_iter().zip(truths) {
        let (kind, _) = occurring(0xA5, steps, &node(code, &[&[0x29, 1, lag]]));
        assert_eq!(kind, 2 * u8::from(!truth), "{code:X}, lag {lag}: {steps}");
    }
}

#[test]
fn code_29_looks_at_the_step_of_the_position() {
    // Position p looks at step p + 1, the last position at the present step.
    occurs("x", 0, [true, true]);
    occurs(".", 0, [false, false]);
    occurs("xxx", 0, [true, true]);
    occurs("x..", 0, [false, true]);
    occurs(".x.", 0, [false, true]);
    occurs("..x", 0, [false, true]);
    occurs(".xx", 0, [false, true]);
    occurs("xx.", 0, [false, true]);
    // With lag 1 position 0 looks at no step, and nothing occurs there.
    occurs("x", 1, [false, false]);
    occurs("xxx", 1, [false, true]);
    occurs("x..", 1, [false, true]);
    occurs("..x", 1, [false, false]);
    occurs(".x.", 2, [false, false]);
    occurs("x..", 2, [false, true]);
    occurs("xxx", 3, [false, false]);
    // The concurrency law is read in each step: it is false where the action occurs
    // first, and where it occurred before.
    let never = not(&sometime(&[0x29, 1, 0]));
    assert_eq!(occurring(0xA8, "..x.", &never), (3, 3));
    let never = always(&not(&[0x29, 1, 1]));
    assert_eq!(occurring(0xA8, "..x.", &never), (3, 4));
    assert_eq!(occurring(0xA8, "...x", &never), (0, 0));
}

#[test]
fn side_by_side() {
    // Over 1, 0: always at most 1, and sometime 1; not always 1.
    let most = node(0x23, &[&level(0), &constant(1)]);
    assert_eq!(goal(&[1, 0], &and(&always(&most), &sometime(&is(1)))), 0);
    assert_eq!(goal(&[1, 0], &and(&sometime(&is(1)), &always(&is(1)))), 8);
    assert_eq!(goal(&[1, 0], &or(&always(&is(1)), &always(&most))), 0);
    let both = node(
        0x12,
        &[&reified(&sometime(&is(1))), &reified(&sometime(&is(0)))],
    );
    assert_eq!(goal(&[1, 0], &node(0x20, &[&both, &constant(2)])), 0);
    // Constraint and expression of one effect.
    let mut draft = setting(1);
    let value = node(0x12, &[&constant(2), &reified(&sometime(&is(1)))]);
    draft.insert(law(0xA5, &[&[6, 0x2A]]));
    draft.insert(law(0xA6, &[&[6], &always(&most), &[0], &value]));
    assert_eq!(judged_alone(&draft, &[1, ASKING]).1[..3], [1, 0, 3]);
    assert_eq!(judged_alone(&draft, &[3, ASKING]).1[..3], [1, 2, 2]);
}

#[test]
fn a_law_of_16_levels() {
    // The level was never 1, by negations: 6, 2B, 7, and a comparison's two.
    let whole = wrapped(0x28, 6, &always(&wrapped(0x28, 7, &is(1))));
    assert_eq!(goal(&[0, 2], &whole), 0);
    assert_eq!(goal(&[1, 0], &whole), 8);
    assert_eq!(goal(&[0, 1], &whole), 8);
}

#[test]
fn what_it_names_counts_as_named() {
    // Level 1 is known to agent 1 alone, and agent 0 acts.
    let asked = |constraint: &[u8], entries: &[(u8, u16)]| {
        let mut draft = Draft::new(2, &[[0, 9, 0]; 2], entries);
        draft.insert(mask_frame(0xA3, 0, 0b01));
        draft.insert(mask_frame(0xA3, 1, 0b10));
        draft.insert(law(0xA5, &[&[0], constraint]));
        let names = entries[0].1;
        let sheet = [names & 1, names >> 1].map(|member| member as u8);
        judged_alone(&draft, &sheet).0.verdict
    };
    let barred = Verdict::Broken {
        kind: 2,
        step: 1,
        number: 0,
    };
    let unknown = [0x20, 0x11, 1, 0, 0x10, 0, 0];
    for code in CODES {
        let through = node(0x20, &[&reified(&unknown), &constant(1)]);
        let divided = node(0x15, &[&constant(1), &[0x11, 1, 0]]);
        for held in [
            unknown.to_vec(),
            not(&not(&unknown)),
            or(&is(0), &unknown),
            through,
            // Not read, so there is no trouble either.
            node(0x20, &[&divided, &constant(0)]),
        ] {
            let whole = node(code, &[&held]);
            assert_eq!(asked(&whole, &[(1, 0b01)]), barred);
            assert_eq!(asked(&or(&is(0), &whole), &[(1, 0b01)]), barred);
        }
        // Known to one of the crew; and not named.
        let known = node(code, &[&or(&is(0), &unknown)]);
        assert_eq!(asked(&known, &[(1, 0b11)]), Verdict::Accepted);
        assert_eq!(
            asked(&node(code, &[&is(0)]), &[(1, 0b01)]),
            Verdict::Accepted
        );
    }
}

#[test]
fn sheets_of_64_steps() {
    // A goal looks at 65 positions, and a condition in step 64 at 64.
    let with = |len: usize, at: usize, level: i16| {
        let mut levels = vec![1; len];
        levels[at] = level;
        levels
    };
    for at in [0, 1, 31, 62, 63, 64] {
        assert_eq!(goal(&with(65, at, 0), &always(&is(1))), 8);
        assert_eq!(goal(&with(65, at, 4), &sometime(&is(4))), 0);
        assert_eq!(goal(&with(65, at, 2), &always(&troubled())), 7);
        assert_eq!(goal(&with(65, at, 3), &sometime(&troubled())), 9);
    }
    for at in [0, 1, 31, 62, 63] {
        assert_eq!(asked(&with(64, at, 0), &always(&is(1))), 2);
        assert_eq!(asked(&with(64, at, 4), &sometime(&is(4))), 0);
        assert_eq!(asked(&with(64, at, 3), &always(&troubled())), 9);
    }
    assert_eq!(goal(&[1; 65], &always(&is(1))), 0);
    assert_eq!(goal(&[1; 65], &sometime(&is(0))), 8);
    // Lag 63 reaches state 1 from position 64 alone.
    assert_eq!(goal(&with(65, 1, 0), &sometime(&was(63, 0))), 0);
    assert_eq!(goal(&with(65, 2, 0), &sometime(&was(63, 0))), 8);
    // Static laws that look back are read 65 times.
    let mut draft = setting(1);
    draft.insert(law(0xA5, &[&[6, 0x2A]]));
    for _ in 0..20 {
        draft.insert(law(0xA7, &[&always(&is(1))]));
    }
    assert_eq!(fault(&draft, &[2; 64]), (0, 64));
    let mut sheet = [2; 64];
    sheet[63] = 1;
    assert_eq!(fault(&draft, &sheet), (6, 64));
}

#[test]
fn in_a_supplement() {
    // The pool's goal is that 280 is left at the end; in its place, always or ever.
    let draft = Draft::pool();
    let goal = |code: &str| format!("AF0A04A9{code}25110000100118\n");
    let held = |code: &str, sheet: &[u8]| {
        let supplement = read(&draft, goal(code).as_bytes()).expect(code);
        judged(&draft, &supplement, sheet).0.verdict
    };
    let missed = Verdict::Broken {
        kind: 8,
        step: 2,
        number: 4,
    };
    assert_eq!(held("2B", &[1, 0, 0, 2]), Verdict::Accepted);
    assert_eq!(held("2B", &[1, 0, 1, 0]), missed);
    assert_eq!(held("2C", &[1, 0, 1, 0]), Verdict::Accepted);
    // Nested, or with code 29: 4, in its line.
    for law in [
        "04A92B2B2A",
        "04A92C2C2A",
        "04A92B282C2A",
        "04A92C262A2B2A",
        "04A92C20192B2A100000",
        "04A92B290000",
        "00A5002B2C2A",
        "02A6002B2C2A00100001",
        "02A6002A00192C2B2A",
    ] {
        let line = format!("AF{:02X}{law}\n", law.len() / 2);
        assert_eq!(read(&draft, line.as_bytes()), Err((4, 1)), "{law}");
        let second = format!("AF0401A5012A\n{line}");
        assert_eq!(read(&draft, second.as_bytes()), Err((4, 2)), "{law}");
    }
    // An upper one that looks back wins.
    let lines = |code| vec![replacement(4, &law(0xA9, &[&[code, 0x28, 0x2A]]))];
    let lower = read_frames(&draft, &lines(0x28)).expect("a supplement");
    let upper = read_frames(&draft, &lines(ALWAYS)).expect("a supplement");
    let mut result = vec![0; 16_000];
    assert_eq!(
        lay(&draft.bytes(), &lower, &upper, &mut result),
        Ok(upper.len())
    );
    assert_eq!(
        judged(&draft, &result, &[]).0.verdict,
        judged(&draft, &upper, &[]).0.verdict
    );
    assert_ne!(
        judged(&draft, &lower, &[]).0.verdict,
        judged(&draft, &upper, &[]).0.verdict
    );
}

#[test]
fn sessions_and_reports() {
    let mut draft = setting(1);
    draft.insert(law(0xA5, &[&[6, 0x2A]]));
    draft.insert(law(0xA9, &[&always(&is(1))]));
    let store = draft.store();
    let mut session = Session::closed();
    assert_eq!(session.open(&store), Ok(()));
    let verdict = |session: &Session| {
        let judged = session
            .verdict(&store, &mut [0; LEVELS])
            .expect("a verdict");
        judged.verdict == Verdict::Accepted
    };
    assert!(verdict(&session));
    assert_eq!(session.enter(&[1]), Ok(()));
    assert_eq!(session.enter(&[2]), Ok(()));
    assert!(!verdict(&session));
    // What was looked back at is what stands now.
    assert_eq!(session.amend(1, &[2]), Ok(()));
    assert!(verdict(&session));
    assert_eq!(session.undo(), Ok(()));
    assert!(!verdict(&session));
    // Sheets of a report do not look back at each other.
    let sheets = [&[1, 2][..], &[2, 2], &[], &[2, 1], &[2]];
    let mut text = draft.text();
    for sheet in sheets {
        text.extend(b"B000\n");
        text.extend(sheet_text(sheet, 1));
    }
    let out = String::from_utf8(Program::Report.run(&text)).expect("text");
    assert_eq!(out, "SHEETS 3 2\nF 0 1 1 6 6\n");
}

/// A small constraint whose lags are all so much greater: it says of a position what
/// the first says of one that is so much earlier.
fn lagging(r: &mut Random, by: u8) -> Vec<u8> {
    let lag = by + r.below(3) as u8;
    let other = by + r.below(2) as u8;
    let value = r.below(4) as i16;
    let code = r.from_to(0x20, 0x25) as u8;
    match r.below(4) {
        0 => vec![0x29, r.below(6) as u8, lag],
        1 => node(code, &[&level(lag), &level(other)]),
        2 => {
            // Each side may be without value, the right one where the level is 3 or 4.
            let divisor = node(0x13, &[&level(lag), &constant(value)]);
            let quotient = node(0x15, &[&constant(9), &divisor]);
            let factor = node(0x12, &[&level(other), &constant(31_620)]);
            let square = node(0x14, &[&factor, &factor]);
            node(code, &[&quotient, &square])
        }
        _ => node(code, &[&level(lag), &constant(value)]),
    }
}

#[test]
fn as_if_each_position_were_written_out() {
    // At position j, with lags greater by j - p, a constraint says what it says at
    // position p. So 2B is an "and" of j + 1 of them, and 2C an "or", the earliest
    // position on the left.
    let mut kinds = [0; 10];
    for seed in 0..6_000 {
        let mut r = Random::seeded(seed);
        let states = r.from_to(1, 4);
        let levels: Vec<_> = (0..states).map(|_| r.below(5) as i16).collect();
        let seeds = r.draw();
        let held = |by: usize| lagging(&mut Random::seeded(seeds), by as u8);
        for (code, joint) in [(ALWAYS, 0x26), (SOMETIME, 0x27)] {
            let first = held(states - 1);
            let written = (1..states).fold(first, |all, position| {
                node(joint, &[&all, &held(states - 1 - position)])
            });
            let looking = node(code, &[&held(0)]);
            let kind = asked(&levels, &looking);
            assert_eq!(kind, asked(&levels, &written), "{code:X} over {levels:?}");
            kinds[usize::from(kind)] += 1;
        }
    }
    let met = [0, 2, 7, 9].map(|kind| kinds[kind]);
    assert!(met.iter().all(|&met| met > 100), "{met:?}");
}
