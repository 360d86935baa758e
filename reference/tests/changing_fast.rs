//! Levels that may not change fast: document 02, K6, sentence by sentence. What is
//! expected was worked out by hand, and the plain judge is held to it as well.

mod common;

use common::{judged, judged_alone, read, read_frames};
use waroth_reference::generate::changing_fast::restless;
use waroth_reference::generate::draft::{
    fluent_frame, frame, law, limited_frame, mask_frame, replacement, text_of, Draft,
};
use waroth_reference::generate::laws::{constant, node, product, sum};
use waroth_reference::generate::random::Random;
use waroth_reference::generate::sheets;
use waroth_reference::judge::{Judged, Verdict, LEVELS};
use waroth_reference::program::Program;
use waroth_reference::store::STORE_BYTES;
use waroth_reference::{accepted, counts, lay, read_domain, write_domain, FrameReader, Session};

/// From one end of two bytes to the other.
const ANY: [i16; 2] = [i16::MIN, i16::MAX];

/// One agent, who knows all levels. Each level is its range, its start and its limit, 0
/// for none. Action 1 sets levels by the first list of numbers and expressions, action 2
/// by the second.
fn pools(levels: &[([i16; 2], i16, u16)], actions: &[&[(u8, Vec<u8>)]]) -> Draft {
    let fluents: Vec<_> = levels
        .iter()
        .map(|&([lowest, highest], start, _)| [lowest, highest, start])
        .collect();
    let entries: Vec<_> = (1..=actions.len() as u8).map(|name| (name, 1)).collect();
    let mut draft = Draft::new(1, &fluents, &entries).free();
    for (fluent, &(_, _, limit)) in levels.iter().enumerate() {
        draft.insert(mask_frame(0xA3, fluent as u8, 1));
        if limit > 0 {
            draft.limit(fluent, limit);
        }
    }
    for (entry, settings) in actions.iter().enumerate() {
        for (fluent, value) in *settings {
            draft.insert(law(0xA6, &[&[entry as u8, 0x2A, *fluent], value]));
        }
    }
    draft
}

/// Levels that may be anything, each with its start, its limit and what action 1 sets
/// it to.
fn leap(levels: &[(i16, u16, i16)]) -> Draft {
    let fluents: Vec<_> = levels
        .iter()
        .map(|&(start, limit, _)| (ANY, start, limit))
        .collect();
    let numbers = levels.iter().zip(0..);
    let settings: Vec<_> = numbers.map(|(&(_, _, to), f)| (f, constant(to))).collect();
    pools(&fluents, &[&settings])
}

/// A level that each action changes by so much.
fn stepping(start: i16, limit: u16, changes: &[i16]) -> Draft {
    let changed = |&by: &i16| vec![(0, sum(&[0x11, 0, 0], &constant(by)))];
    let actions: Vec<_> = changes.iter().map(changed).collect();
    let actions: Vec<_> = actions.iter().map(|settings| &settings[..]).collect();
    pools(&[(ANY, start, limit)], &actions)
}

/// Kind, step and number of the fault; all 0 if there is none. The states written are
/// those before the step, and nothing is written behind them.
fn fault(draft: &Draft, sheet: &[u8]) -> (u8, u8, u8) {
    let (Judged { verdict, states }, levels) = judged_alone(draft, sheet);
    let written = states * draft.fluents.len();
    assert!(levels[written..].iter().all(|&level| level == -777));
    match verdict {
        Verdict::Accepted => {
            assert_eq!(states, sheet.len() / draft.agents + 1);
            (0, 0, 0)
        }
        Verdict::Broken { kind, step, number } => {
            if kind == 10 {
                assert_eq!(states, usize::from(step));
            }
            (kind, step, number)
        }
    }
}

const FINE: (u8, u8, u8) = (0, 0, 0);

/// What comes of one step of action 1.
fn once(draft: &Draft) -> (u8, u8, u8) {
    fault(draft, &[1])
}

/// The bytes used, or refusal and line; the store is zero where nothing was put.
fn domain(text: &[u8]) -> Result<usize, (u8, usize)> {
    let mut store = vec![0xEE; STORE_BYTES];
    let read = read_domain(text, &mut store);
    assert!(store[read.unwrap_or(0)..].iter().all(|&byte| byte == 0));
    assert_eq!(accepted(&store), read.is_ok());
    read
}

/// A domain of one agent, this frame and an action.
fn around(fluent: &[u8]) -> Vec<u8> {
    let lines = [
        frame(0xA1, &[1]),
        fluent.to_vec(),
        mask_frame(0xA4, 1, 1),
        frame(0xA5, &[0, 0x2A]),
    ];
    text_of(&lines)
}

fn printed(program: Program, text: &str) -> String {
    String::from_utf8(program.run(text.as_bytes())).expect("text")
}

/// The paper's pool, its A2 line being this, and a sheet.
fn pool(fluent: &str, sheet: &str) -> String {
    let text = String::from_utf8(Draft::pool().text()).expect("text");
    printed(
        Program::Waroth,
        &(text.replace("A20600C80140012C\n", fluent) + sheet),
    )
}

#[test]
fn the_papers_pool() {
    // Action 1 lets out 14 and action 2 lets out 6.
    let (fourteen, thirteen) = ("A20800C80140012C000E\n", "A20800C80140012C000D\n");
    let out = pool(fourteen, "B1020100\nB1020002\n");
    assert_eq!(out, "S 0 300\nS 1 286\nS 2 280\nACCEPTED\n");
    assert_eq!(pool(thirteen, "B1020100\n"), "S 0 300\nBROKEN 10 1 0\n");
    let out = pool(thirteen, "B1020002\nB1020000\nB1020100\n");
    assert_eq!(out, "S 0 300\nS 1 294\nS 2 294\nBROKEN 10 3 0\n");
    assert_eq!(pool(thirteen, ""), "S 0 300\nACCEPTED\n");
    // The goal, which is missed behind two steps, is not reached.
    let out = pool(thirteen, "B1020100\nB1020100\n");
    assert_eq!(out, "S 0 300\nBROKEN 10 1 0\n");
    for limit in ["0000", "8000", "FFFF", "00"] {
        let count = 6 + limit.len() / 2;
        let fluent = format!("A2{count:02X}00C80140012C{limit}\n");
        let out = pool(&fluent, "B1020100\n");
        assert_eq!(out, "REFUSED 4 2\n", "{limit}");
    }
}

#[test]
fn a_change_larger_than_the_limit() {
    // "a change larger than the limit in either direction": the limit itself is allowed.
    for limit in (1..=32_767).step_by(31).chain([2, 255, 256, 32_766]) {
        let by = limit as i16;
        for start in [-5, 0, 3] {
            for to in [start - by / 2, start + by / 2] {
                assert_eq!(once(&leap(&[(start, limit, to)])), FINE);
            }
        }
        for (from, sign) in [(i16::MIN, 1), (i16::MAX, -1), (0, 1), (0, -1)] {
            let to = from + sign * by;
            assert_eq!(once(&leap(&[(from, limit, to)])), FINE, "{from} to {to}");
            let Some(past) = to.checked_add(sign) else {
                continue;
            };
            let draft = leap(&[(from, limit, past)]);
            assert_eq!(once(&draft), (10, 1, 0), "{from} to {past}");
        }
    }
    // From one sign to the other.
    assert_eq!(once(&leap(&[(-3, 7, 4)])), FINE);
    assert_eq!(once(&leap(&[(-3, 7, 5)])), (10, 1, 0));
    assert_eq!(once(&leap(&[(3, 7, -4)])), FINE);
    assert_eq!(once(&leap(&[(3, 7, -5)])), (10, 1, 0));
}

#[test]
fn limits_1_and_32767() {
    for (from, to) in [(9, 10), (9, 8), (9, 9)] {
        assert_eq!(once(&leap(&[(from, 1, to)])), FINE);
    }
    for (from, to) in [(9, 11), (9, 7), (0, i16::MAX), (0, i16::MIN)] {
        assert_eq!(once(&leap(&[(from, 1, to)])), (10, 1, 0));
    }
    for (from, to) in [(0, 32_767), (32_767, 0), (-1, -32_768), (-32_768, -1)] {
        assert_eq!(once(&leap(&[(from, 32_767, to)])), FINE);
    }
    for (from, to) in [(-1, 32_767), (32_767, -1), (0, -32_768), (-32_768, 0)] {
        assert_eq!(once(&leap(&[(from, 32_767, to)])), (10, 1, 0));
    }
}

#[test]
fn no_change_is_cut_to_two_bytes() {
    // −32,768 to 32,767 is a change of 65,535, larger than any limit; in two bytes it
    // would be 1, and the others would be other changes, too.
    let ways = [
        (i16::MIN, i16::MAX),
        (i16::MIN, i16::MAX - 1),
        (i16::MIN + 1, i16::MAX - 1),
        (i16::MIN, 0),
        (i16::MIN, 1),
        (-16_384, 16_384),
        (-20_000, 20_000),
    ];
    for (from, to) in ways {
        for limit in (1..=32_767).step_by(63).chain([2, 3, 32_766]) {
            assert_eq!(once(&leap(&[(from, limit, to)])), (10, 1, 0));
            assert_eq!(once(&leap(&[(to, limit, from)])), (10, 1, 0));
        }
        assert_eq!(once(&leap(&[(from, 0, to)])), FINE);
        assert_eq!(once(&leap(&[(to, 0, from)])), FINE);
    }
}

#[test]
fn frames_of_6_bytes_mean_no_limit() {
    // "frames of 6 bytes stay valid and mean no such limit"
    let draft = leap(&[(i16::MIN, 0, i16::MAX)]);
    assert_eq!(draft.frames[1].len(), 8);
    assert_eq!(once(&draft), FINE);
    // Beside one with a limit, on either side of it, the limit is that one's alone.
    let far = (0, 0, 30_000);
    assert_eq!(once(&leap(&[far, (0, 9, 9)])), FINE);
    assert_eq!(once(&leap(&[(0, 9, -9), far])), FINE);
    assert_eq!(once(&leap(&[far, (0, 9, 10)])), (10, 1, 1));
    assert_eq!(once(&leap(&[(0, 9, -10), far])), (10, 1, 0));
    assert_eq!(once(&leap(&[far, (0, 9, 9), far, (0, 8, 9)])), (10, 1, 3));
}

#[test]
fn every_limit_is_accepted_or_refused() {
    // "1 to 32,767"; "Refusals: 4 for a limit outside 1 to 32,767."
    for limit in 0..=u16::MAX {
        let text = around(&limited_frame([0, 9, 5], limit));
        let expected = match limit {
            1..=32_767 => Ok(3 + 10 + 5 + 4),
            _ => Err((4, 2)),
        };
        assert_eq!(domain(&text), expected, "{limit}");
    }
}

#[test]
fn every_length_is_accepted_or_refused() {
    // "may have 8 payload bytes"; "frames of 6 bytes stay valid"; 8 bytes that would be
    // accepted, cut or with more behind them.
    for filling in [0x00, 0x01, 0x7F, 0xFF] {
        for length in 0..=120 {
            let mut payload = vec![0, 0, 0, 9, 0, 5, 1, 1];
            payload.resize(length, filling);
            let expected = match length {
                6 | 8 => Ok(3 + 2 + length + 5 + 4),
                _ => Err((4, 2)),
            };
            assert_eq!(
                domain(&around(&frame(0xA2, &payload))),
                expected,
                "{length}"
            );
        }
    }
}

#[test]
fn a_limited_fluents_range_is_as_before() {
    for limit in [0, 1, 32_767] {
        let line = |range| match limit {
            0 => around(&fluent_frame(range)),
            _ => around(&limited_frame(range, limit)),
        };
        for range in [[5, 9, 5], [5, 9, 9], [7, 7, 7], [i16::MIN, i16::MAX, 0]] {
            assert!(domain(&line(range)).is_ok());
        }
        for range in [[5, 9, 4], [5, 9, 10], [9, 5, 7], [1, -1, 0]] {
            assert_eq!(domain(&line(range)), Err((4, 2)));
        }
    }
    // A limit wider than the range, and of a level that cannot change.
    let wide = pools(&[([0, 9], 0, 32_767)], &[&[(0, constant(9))]]);
    assert_eq!(once(&wide), FINE);
    let still = pools(&[([7, 7], 7, 1)], &[&[(0, constant(7))]]);
    assert_eq!(once(&still), FINE);
}

#[test]
fn where_4_stands_in_its_line() {
    let bad = limited_frame([0, 9, 5], 0);
    // 1 and 2 go before: digits and count are looked at first.
    assert_eq!(domain(b"A10101\nA2080000000900050x00\n"), Err((1, 2)));
    assert_eq!(domain(b"A10101\nA20800000009000500\n"), Err((2, 2)));
    assert_eq!(domain(b"A10101\nA207000000090005000A\n"), Err((2, 2)));
    // So does 3, ...
    let lines = [frame(0xA1, &[1]), mask_frame(0xA4, 1, 1), bad.clone()];
    assert_eq!(domain(&text_of(&lines)), Err((3, 3)));
    // ... and 5, but 7 comes behind.
    let mut lines = vec![frame(0xA1, &[1])];
    lines.extend(vec![limited_frame([0, 9, 5], 1); 32]);
    lines.push(bad.clone());
    assert_eq!(domain(&text_of(&lines)), Err((5, 34)));
    lines.remove(1);
    assert_eq!(domain(&text_of(&lines)), Err((4, 33)));
    assert_eq!(domain(&text_of(&[bad])), Err((4, 1)));
}

/// A level from 0 to 100 that may change by 10, from 50.
const GAUGE: ([i16; 2], i16, u16) = ([0, 100], 50, 10);

/// What comes of setting gauges, the first to the first number, and so on.
fn set(gauges: &[i16]) -> (u8, u8, u8) {
    let numbers = gauges.iter().zip(0..);
    let settings: Vec<_> = numbers.map(|(&to, f)| (f, constant(to))).collect();
    let forward = once(&pools(&vec![GAUGE; gauges.len()], &[&settings]));
    // The order of the laws is no matter.
    let back: Vec<_> = settings.into_iter().rev().collect();
    let backward = once(&pools(&vec![GAUGE; gauges.len()], &[&back]));
    assert_eq!(forward, backward);
    forward
}

#[test]
fn after_the_range_check_and_before_the_next_fluent() {
    assert_eq!(set(&[60, 40]), FINE);
    // Too fast, and the next out of range, too fast or in order.
    for next in [101, -1, 61, 100, 60] {
        assert_eq!(set(&[61, next]), (10, 1, 0));
        assert_eq!(set(&[0, next]), (10, 1, 0));
    }
    // Out of range and too fast, whatever the next is.
    for next in [101, -1, 61, 100, 60] {
        assert_eq!(set(&[101, next]), (5, 1, 0));
        assert_eq!(set(&[-1, next]), (5, 1, 0));
    }
    // The first in order, the next not.
    assert_eq!(set(&[60, 61]), (10, 1, 1));
    assert_eq!(set(&[40, 39]), (10, 1, 1));
    assert_eq!(set(&[60, 101]), (5, 1, 1));
    assert_eq!(set(&[50, 50, 60, 39, 101]), (10, 1, 3));
    assert_eq!(set(&[50, 50, 60, 101, 39]), (5, 1, 3));
    // Out of range, but not too fast.
    let near = pools(
        &[([0, 100], 95, 10), GAUGE],
        &[&[(0, constant(101)), (1, constant(0))]],
    );
    assert_eq!(once(&near), (5, 1, 0));
}

#[test]
fn each_of_32_fluents() {
    for number in 0..32 {
        let mut all = [60; 32];
        all[number] = 61;
        assert_eq!(set(&all), (10, 1, number as u8));
        all[number + 1..].fill(101);
        assert_eq!(set(&all), (10, 1, number as u8));
        all[number] = 101;
        all[number + 1..].fill(61);
        assert_eq!(set(&all), (5, 1, number as u8));
    }
}

#[test]
fn a_value_beyond_two_bytes_is_out_of_range() {
    // 65,536 + 50 would be 50 again in two bytes.
    for more in [0, 5, 11] {
        let value = sum(
            &product(&constant(256), &constant(256)),
            &constant(50 + more),
        );
        assert_eq!(once(&pools(&[GAUGE], &[&[(0, value)]])), (5, 1, 0));
    }
    let value = node(0x17, &[&product(&constant(256), &constant(256))]);
    assert_eq!(once(&pools(&[(ANY, 0, 1)], &[&[(0, value)]])), (5, 1, 0));
}

/// A gauge that action 1 sets to 100, and a law more.
fn with_law(kind: u8, parts: &[&[u8]]) -> (u8, u8, u8) {
    let mut draft = pools(&[GAUGE, (ANY, 0, 0)], &[&[(0, constant(100))]]);
    draft.insert(law(kind, parts));
    once(&draft)
}

const FALSE: &[u8] = &[0x28, 0x2A];
const BY_ZERO: &[u8] = &[0x15, 0x10, 0, 1, 0x10, 0, 0];
const BEYOND: &[u8] = &[0x14, 0x10, 0x7B, 0x87, 0x10, 0x7B, 0x87];

#[test]
fn what_is_looked_at_before() {
    // Law 0 is the condition and law 1 the effect, so the law more is number 2; but a
    // concurrency law is looked at before.
    assert_eq!(with_law(0xA8, &[FALSE]), (3, 1, 2));
    assert_eq!(with_law(0xA6, &[&[0, 0x2A, 0], &constant(50)]), (4, 1, 2));
    assert_eq!(with_law(0xA6, &[&[0, 0x2A, 1], BY_ZERO]), (7, 1, 2));
    assert_eq!(with_law(0xA6, &[&[0, 0x2A, 1], BEYOND]), (9, 1, 2));
    let compared = node(0x20, &[BY_ZERO, &constant(1)]);
    assert_eq!(
        with_law(0xA6, &[&[0], &compared, &[1], &constant(0)]),
        (7, 1, 2)
    );
    // A condition false, and a name that is not taken up beside the fast action.
    let mut draft = Draft::new(2, &[[0, 100, 50]], &[(1, 1)]);
    draft.limit(0, 10);
    draft.insert(law(0xA6, &[&[0, 0x2A, 0], &constant(100)]));
    let mut barred = draft.clone();
    barred.insert(law(0xA5, &[&[0], FALSE]));
    assert_eq!(fault(&barred, &[1, 0]), (2, 1, 0));
    let free = draft.free();
    assert_eq!(fault(&free, &[1, 0]), (10, 1, 0));
    assert_eq!(fault(&free, &[1, 9]), (1, 1, 1));
}

#[test]
fn what_is_looked_at_behind() {
    // Static laws that are true on state 0 and false, or without value, on the next.
    let rest = node(0x13, &[&[0x11, 0, 0], &constant(100)]);
    let divided = node(0x20, &[&node(0x15, &[&constant(1), &rest]), &constant(0)]);
    let fallen = node(0x20, &[&[0x11, 0, 0], &constant(50)]);
    for constraint in [&fallen, &node(0x27, &[&[0x2A], &divided])] {
        assert_eq!(with_law(0xA7, &[constraint]), (10, 1, 0));
    }
    // A goal is read after the last step.
    assert_eq!(with_law(0xA9, &[FALSE]), (10, 1, 0));
    // Before step 1 there is no change: what is wrong there is the static law.
    assert_eq!(with_law(0xA7, &[FALSE]), (6, 0, 2));
}

#[test]
fn a_level_that_no_law_sets() {
    // It changes by 0.
    let draft = pools(&[(ANY, -9, 1), (ANY, 0, 0)], &[&[(1, constant(7))]]);
    assert_eq!(fault(&draft, &[1, 0, 1, 0]), FINE);
    // Nor is it changed by a law whose condition is false, or whose entry does not occur.
    let mut draft = pools(&[(ANY, 0, 1)], &[&[]]);
    draft.insert(law(0xA6, &[&[0], FALSE, &[0], &constant(99)]));
    assert_eq!(fault(&draft, &[1, 0, 1]), FINE);
    let draft = pools(&[(ANY, 0, 1)], &[&[], &[(0, constant(2))]]);
    assert_eq!(fault(&draft, &[1, 1, 0]), FINE);
    assert_eq!(fault(&draft, &[1, 1, 0, 2]), (10, 4, 0));
    // Far from its start, where another is set and where none is.
    let raised = sum(&[0x11, 0, 0], &constant(10));
    let far = pools(
        &[(ANY, 0, 10), (ANY, 0, 0)],
        &[&[(0, raised)], &[(1, constant(99))]],
    );
    assert_eq!(fault(&far, &[1, 1, 1, 2, 0, 2]), FINE);
    // A level that is set to what it was.
    assert_eq!(once(&leap(&[(500, 1, 500)])), FINE);
}

#[test]
fn state_0_is_not_asked() {
    // A level starts wherever it starts, at an end of its range or far from 0.
    for start in [i16::MIN, -2, 0, 2, i16::MAX] {
        let draft = leap(&[(start, 1, start)]);
        assert_eq!(fault(&draft, &[]), FINE);
        assert_eq!(fault(&draft, &[0, 0]), FINE);
        assert_eq!(once(&draft), FINE);
    }
    assert_eq!(fault(&stepping(100, 1, &[1]), &[1; 64]), FINE);
}

#[test]
fn from_the_state_before() {
    // "in one step": a long way is allowed if each step is, ...
    for (by, sheet) in [(10, [1; 64]), (-10, [1; 64]), (10, [2; 64])] {
        let draft = stepping(0, 10, &[by, -by]);
        assert_eq!(fault(&draft, &sheet), FINE);
        let (_, levels) = judged_alone(&draft, &sheet);
        assert_eq!(levels[64].abs(), 640);
    }
    // ... there and back, ...
    let draft = stepping(0, 10, &[10, -10, -11, 11]);
    assert_eq!(fault(&draft, &[1, 2, 2, 1, 0, 1, 1, 2]), FINE);
    // ... but not back too fast, to a level that is near the first.
    assert_eq!(fault(&draft, &[1, 3]), (10, 2, 0));
    assert_eq!(fault(&draft, &[2, 4]), (10, 2, 0));
    assert_eq!(fault(&draft, &[1, 0, 0, 3]), (10, 4, 0));
    // Nor is a step made up for by an idle one.
    assert_eq!(fault(&draft, &[0, 0, 4]), (10, 3, 0));
    assert_eq!(fault(&draft, &[4, 0]), (10, 1, 0));
}

#[test]
fn in_each_step() {
    let draft = stepping(0, 10, &[10, -10, 11, -11]);
    for step in 1..=64 {
        for fast in [3, 4] {
            let mut sheet: Vec<u8> = (0..64).map(|step| 1 + step % 2).collect();
            sheet[step - 1] = fast;
            assert_eq!(fault(&draft, &sheet), (10, step as u8, 0));
            // All states before the step are written, and no other.
            let (Judged { states, .. }, levels) = judged_alone(&draft, &sheet);
            let walked: Vec<i16> = (0..step as i16).map(|state| 10 * (state % 2)).collect();
            assert_eq!((states, &levels[..step]), (step, &walked[..]));
        }
    }
}

#[test]
fn the_change_is_the_states() {
    // Laws that agree set one value: the number is the fluent's, not a law's.
    let both = [(1, constant(61)), (1, constant(61))];
    assert_eq!(once(&pools(&[GAUGE, GAUGE], &[&both])), (10, 1, 1));
    // Two entries at once, each with a level of its own.
    let mut draft = Draft::new(2, &[[0, 100, 50]; 2], &[(1, 1), (2, 2)]).free();
    draft.limit(0, 10).limit(1, 10);
    draft.insert(law(0xA6, &[&[0, 0x2A, 1], &constant(60)]));
    draft.insert(law(0xA6, &[&[1, 0x2A, 0], &constant(39)]));
    assert_eq!(fault(&draft, &[1, 0]), FINE);
    assert_eq!(fault(&draft, &[1, 0, 1, 2]), (10, 2, 0));
    // Nobody has to know the level.
    assert_eq!(fault(&draft, &[0, 2]), (10, 1, 0));
}

#[test]
fn under_a_supplement() {
    // The domain's effect, law 1, falls by 11; the supplement's by 10.
    let draft = stepping(0, 10, &[-11]);
    let effect = |by| law(0xA6, &[&[0, 0x2A, 0], &sum(&[0x11, 0, 0], &constant(by))]);
    let verdict = |supplement: &[u8]| judged(&draft, supplement, &[1, 1]).0;
    let slow = read_frames(&draft, &[replacement(1, &effect(-10))]).expect("a supplement");
    let fast = read_frames(&draft, &[replacement(1, &effect(12))]).expect("a supplement");
    let broken = Judged {
        verdict: Verdict::Broken {
            kind: 10,
            step: 1,
            number: 0,
        },
        states: 1,
    };
    assert_eq!(verdict(&[]), broken);
    assert_eq!(verdict(&fast), broken);
    assert_eq!(verdict(&slow).verdict, Verdict::Accepted);
    let mut result = vec![0; 16_000];
    for (lower, upper, fine) in [(&slow, &fast, false), (&fast, &slow, true)] {
        let used = lay(&draft.bytes(), lower, upper, &mut result).expect("room");
        let accepted = verdict(&result[..used]).verdict == Verdict::Accepted;
        assert_eq!(accepted, fine);
    }
    // A supplement replaces laws: a fluent's line is none of it.
    let fluent = text_of(&[limited_frame([i16::MIN, i16::MAX, 0], 20)]);
    assert_eq!(read(&draft, &fluent), Err((3, 1)));
    let text = String::from_utf8([draft.text(), text_of(&[replacement(1, &effect(-10))])].concat());
    let out = printed(Program::LowWater, &(text.expect("text") + "B10101\n"));
    assert_eq!(out, "S 0 0\nS 1 -10\nACCEPTED\n");
    let text = String::from_utf8(draft.text()).expect("text");
    let out = printed(Program::LowWater, &(text + "B10100\nB10101\n"));
    assert_eq!(out, "S 0 0\nS 1 0\nBROKEN 10 2 0\n");
}

#[test]
fn in_a_session() {
    let draft = stepping(0, 10, &[10, 11]);
    let (store, mut session) = (draft.store(), Session::closed());
    assert_eq!(session.open(&store), Ok(()));
    let verdict = |session: &Session| {
        let mut levels = vec![-777; LEVELS];
        let judged = session.verdict(&store, &mut levels).expect("no refusal");
        (judged.verdict, levels[..3].to_vec())
    };
    let broken = |step| Verdict::Broken {
        kind: 10,
        step,
        number: 0,
    };
    assert_eq!(session.enter(&[1]), Ok(()));
    assert_eq!(session.enter(&[2]), Ok(()));
    assert_eq!(verdict(&session), (broken(2), vec![0, 10, -777]));
    assert_eq!(session.amend(2, &[1]), Ok(()));
    assert_eq!(verdict(&session), (Verdict::Accepted, vec![0, 10, 20]));
    assert_eq!(session.undo(), Ok(()));
    assert_eq!(verdict(&session), (broken(2), vec![0, 10, -777]));
    assert_eq!(session.undo(), Ok(()));
    assert_eq!(verdict(&session), (Verdict::Accepted, vec![0, 10, -777]));
    assert_eq!(session.amend(1, &[2]), Ok(()));
    assert_eq!(verdict(&session), (broken(1), vec![0, -777, -777]));
}

#[test]
fn in_a_report() {
    let text = String::from_utf8(stepping(0, 10, &[10, 11]).text()).expect("text");
    let report = |sheets: &str| printed(Program::Report, &format!("{text}{sheets}"));
    assert_eq!(report("B000\nB10102\n"), "SHEETS 0 1\n");
    // No level of a broken sheet counts, not even those before its fault.
    let out = report("B000\nB10101\nB000\nB10101\nB10101\nB10102\nB000\n");
    assert_eq!(out, "SHEETS 2 1\nF 0 0 10 10 3\n");
    // Each sheet starts anew.
    let out = report("B000\nB10101\nB10101\nB000\nB10101\n");
    assert_eq!(out, "SHEETS 2 0\nF 0 0 20 40 5\n");
    let refused = text.replace("000A\n", "8000\n");
    assert_eq!(printed(Program::Report, &refused), "REFUSED 4 2\n");
}

#[test]
fn lines_of_both_lengths() {
    let mut r = Random::seeded(61);
    for _ in 0..200 {
        let fluents = vec![[-9, 9, 0]; r.from_to(1, 32)];
        let mut draft = Draft::new(1, &fluents, &[(1, 1)]).free();
        let mut lengths = Vec::new();
        for fluent in 0..fluents.len() {
            let limited = r.one_in(2);
            if limited {
                draft.limit(fluent, r.from_to(1, 32_767) as u16);
            }
            lengths.push(if limited { 10 } else { 8 });
        }
        // What was read is written as it was, and handed out frame by frame.
        let (text, mut store) = (draft.text(), vec![1; STORE_BYTES]);
        let used = read_domain(&text, &mut store).expect("a domain");
        assert_eq!(store[..used], draft.bytes());
        let mut again = vec![b'?'; text.len() + 1];
        assert_eq!(write_domain(&store, &mut again[..text.len() - 1]), Err(10));
        assert_eq!(write_domain(&store, &mut again), Ok(text.len()));
        assert_eq!(again.pop(), Some(b'?'));
        assert_eq!(again, text);
        let frames: Vec<_> = FrameReader::start(&store).expect("a domain").collect();
        let fluent_lengths = frames[1..].iter().map(|frame| frame.len());
        assert!(fluent_lengths.take(lengths.len()).eq(lengths));
        assert_eq!(counts(&store).map(|c| c.fluents), Ok(fluents.len()));
        // A store is accepted as its lines are: not with a limit of 0 or cut.
        let last = 3 + (1..=fluents.len()).map(|f| frames[f].len()).sum::<usize>();
        if frames[fluents.len()].len() == 10 {
            let mut zero = store.clone();
            zero[last - 2..last].fill(0);
            assert!(!accepted(&zero));
            zero[last - 2] = 0x80;
            assert!(!accepted(&zero));
            zero[last - 2..last].copy_from_slice(&[0x7F, 0xFF]);
            assert!(accepted(&zero));
        }
    }
}

/// The domain without its limits.
fn unlimited(draft: &Draft) -> Draft {
    let mut other = draft.clone();
    for (fluent, &range) in draft.fluents.iter().enumerate() {
        other.frames[1 + fluent] = fluent_frame(range);
    }
    other
}

/// The first step and fluent whose change is larger than its limit, in these states.
fn too_fast(draft: &Draft, states: &[&[i16]]) -> Option<(u8, u8)> {
    let limit = |fluent: usize| match draft.frames[1 + fluent][8..] {
        [high, low] => 256 * i32::from(high) + i32::from(low),
        _ => i32::MAX,
    };
    for (step, pair) in (1..).zip(states.windows(2)) {
        for fluent in 0..pair[0].len() {
            let [before, after] = [pair[0], pair[1]].map(|state| i32::from(state[fluent]));
            if before - after > limit(fluent) || after - before > limit(fluent) {
                return Some((step, fluent as u8));
            }
        }
    }
    None
}

#[test]
fn random_domains_with_limits_and_without() {
    // What a domain says follows from what it says without its limits: up to the first
    // change that is too large nothing differs.
    let mut r = Random::seeded(62);
    let mut met = [0; 3];
    for turn in 0..6_000 {
        let draft = match turn % 2 {
            0 => restless(&mut r),
            _ => Draft::random(&mut r),
        };
        let other = unlimited(&draft);
        let sheet = sheets::sheet(&mut r, &other);
        let (Judged { verdict, states }, levels) = judged_alone(&other, &sheet);
        let (limited, others) = judged_alone(&draft, &sheet);
        let width = draft.fluents.len();
        let reached: Vec<_> = levels.chunks(width).take(states).collect();
        let expected = match too_fast(&draft, &reached) {
            Some((step, number)) => {
                met[0] += 1;
                let kind = 10;
                let verdict = Verdict::Broken { kind, step, number };
                let states = step.into();
                Judged { verdict, states }
            }
            // In the step of a fault of range or state, a change may be what is found.
            None => match (verdict, limited.verdict) {
                (
                    Verdict::Broken {
                        kind: 5 | 6 | 7 | 9,
                        step,
                        ..
                    },
                    Verdict::Broken {
                        kind: 10, step: at, ..
                    },
                ) if step == at && step > 0 => {
                    met[1] += 1;
                    limited
                }
                _ => {
                    met[2] += 1;
                    Judged { verdict, states }
                }
            },
        };
        assert_eq!(limited, expected);
        let written = limited.states * width;
        assert_eq!(others[..written], levels[..written]);
    }
    assert!(met.iter().all(|&times| times > 20), "{met:?}");
}
