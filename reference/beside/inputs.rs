//! What the benchmark runs on: accepted domains, and sheets for them that are accepted, of 64 steps but for one; and two
//! supplements.

use waroth_reference::generate::draft::{law, mask_frame, replacement, Draft};
use waroth_reference::generate::faults::Lines;
use waroth_reference::generate::laws::{constant, node, wrapped};
use waroth_reference::generate::random::Random;
use waroth_reference::generate::shapes::longest;
use waroth_reference::generate::supplements::{longest_lines, LONGEST_LAW};
use waroth_reference::law::MAX_DEPTH;
use waroth_reference::line::MAX_PAYLOAD;

const STEPS: usize = 64;

pub struct Input {
    pub name: &'static str,
    pub draft: Draft,
    pub sheet: Vec<u8>,
}

/// A supplement by which at most so many laws, spread over the domain, are replaced by themselves: all is judged as without
/// it, from other bytes.
pub fn repeated(draft: &Draft, most: usize) -> Vec<Vec<u8>> {
    let fits = |number: &usize| draft.law(*number).len() <= 2 + LONGEST_LAW;
    let laws: Vec<_> = (0..draft.laws()).filter(fits).collect();
    let apart = laws.len().div_ceil(most).max(1);
    let lines = laws.iter().step_by(apart);
    lines.map(|&n| replacement(n, draft.law(n))).collect()
}

fn fluent(number: usize) -> Vec<u8> {
    vec![0x11, number as u8, 0]
}

fn at_least(expression: &[u8], least: i16) -> Vec<u8> {
    node(0x25, &[expression, &constant(least)])
}

/// The paper's pool, and nobody acts.
pub fn pool() -> Input {
    Input {
        name: "pool, 64 idle steps",
        draft: Draft::pool(),
        sheet: vec![0; 2 * STEPS],
    }
}

/// The paper's pool, and the sheet that it accepts.
pub fn two_steps() -> Input {
    Input {
        name: "pool, 2 steps",
        draft: Draft::pool(),
        sheet: vec![1, 0, 0, 2],
    }
}

/// As many of everything as is allowed; in each step each agent acts.
pub fn full() -> Input {
    let mut draft = Draft::crowded();
    for entry in 0..64usize {
        let condition = at_least(&fluent(entry % 32), -1000);
        draft.insert(law(0xA5, &[&[entry as u8], &condition]));
    }
    for effect in 0..40u8 {
        let raised = node(0x12, &[&fluent(effect as usize % 32), &constant(7)]);
        let value = node(0x16, &[&raised, &constant(1000)]);
        draft.insert(law(0xA6, &[&[effect], &[0x2A], &[effect % 32], &value]));
    }
    for number in 0..8usize {
        let both = node(0x12, &[&fluent(number), &fluent(number + 8)]);
        draft.insert(law(0xA7, &[&at_least(&both, -2000)]));
        let never = node(0x28, &[&[0x29, number as u8, 0]]);
        let either = node(0x27, &[&never, &at_least(&fluent(number), -1000)]);
        draft.insert(law(0xA8, &[&either]));
        draft.insert(law(0xA9, &[&at_least(&fluent(number), -1000)]));
    }
    let mut sheet = Vec::new();
    for step in 0..STEPS {
        sheet.extend((0..16).map(|agent| 1 + ((agent + step) % 4) as u8));
    }
    let name = "full, 64 steps";
    Input { name, draft, sheet }
}

/// The same, and each level may change by just as much as it does.
pub fn full_of_limits() -> Input {
    let mut input = full();
    for fluent in 0..input.draft.fluents.len() {
        input.draft.limit(fluent, 7);
    }
    Input {
        name: "full of limits, 64 steps",
        ..input
    }
}

/// An expression of this depth over one fluent, a reified constraint at every third.
fn nested(depth: usize) -> Vec<u8> {
    match depth {
        1 => fluent(0),
        _ if depth % 3 == 0 => node(0x19, &[&at_least(&nested(depth - 2), 0)]),
        _ => node(0x12, &[&nested(depth - 1), &constant(1)]),
    }
}

/// Laws that are nested 16 deep, 60 of them, and nobody acts.
pub fn deep() -> Input {
    let mut draft = Draft::new(1, &[[0, 100, 1]], &[(1, 1)]).free();
    for _ in 0..60 {
        let side = at_least(&nested(14), 0);
        draft.insert(law(0xA7, &[&node(0x26, &[&side, &side])]));
    }
    Input {
        name: "deep laws, 64 steps",
        draft,
        sheet: vec![0; STEPS],
    }
}

/// A constraint of so many bytes, 15 to 120, that is true: comparisons of fluents, this many of which there are, joined
/// by "and", and the absolute value in the last as often as is needed.
fn long(bytes: usize, fluents: usize, least: i16) -> Vec<u8> {
    let compared = |place, wraps| {
        let read = wrapped(0x18, wraps, &fluent(place % fluents));
        at_least(&read, least)
    };
    let (joints, wraps) = ((bytes - 7) / 8, (bytes - 7) % 8);
    let (first, last) = (compared(0, 0), compared(joints, wraps));
    let most = (1..joints).fold(first, |all, place| node(0x26, &[&all, &compared(place, 0)]));
    node(0x26, &[&most, &last])
}

/// As many laws as is allowed, each as long as a supplement can give it, and nobody acts.
pub fn long_laws() -> Input {
    let mut draft = Draft::new(1, &[[0, 100, 1]], &[(1, 1)]);
    draft.insert(law(0xA5, &[&[0], &long(LONGEST_LAW - 1, 1, 0)]));
    for _ in 1..128 {
        draft.insert(law(0xA7, &[&long(LONGEST_LAW, 1, 0)]));
    }
    Input {
        name: "118 bytes each, 64 steps",
        draft,
        sheet: vec![0; STEPS],
    }
}

/// Two of 16 agents as masks, 64 times, no two alike; each agent is among them.
fn pairs() -> impl Iterator<Item = u16> {
    let all = (0..16)
        .rev()
        .flat_map(|high| (0..high).map(move |low| 1 << high | 1 << low));
    all.take(64)
}

/// As many agents, fluents, entries and laws as is allowed, and every law fills its line. All entries have one name: where
/// everybody gives it, all of them occur and all laws are read; where nobody acts, none is.
pub fn filled(acting: bool) -> Input {
    let entries: Vec<_> = pairs().map(|crew| (1, crew)).collect();
    let mut draft = Draft::new(16, &[[-1000, 1000, 0]; 32], &entries);
    for fluent in 0..32 {
        draft.insert(mask_frame(0xA3, fluent, 0xFFFF));
    }
    for entry in 0..64u8 {
        let condition = long(MAX_PAYLOAD - 1, 32, -1000);
        draft.insert(law(0xA5, &[&[entry], &condition]));
        let set = entry % 32;
        let raised = node(0x12, &[&fluent(set.into()), &constant(7)]);
        let value = node(0x16, &[&raised, &constant(1000)]);
        let condition = long(MAX_PAYLOAD - 2 - value.len(), 32, -1000);
        draft.insert(law(0xA6, &[&[entry], &condition, &[set], &value]));
    }
    Input {
        name: match acting {
            true => "128 full lines, all read, 64 steps",
            false => "128 full lines, 64 idle steps",
        },
        draft,
        sheet: vec![acting.into(); 16 * STEPS],
    }
}

/// An expression of at most so many levels and bytes that always has a value: every code, by chance.
fn mixed_value(r: &mut Random, depth: usize, room: usize) -> Vec<u8> {
    let some = |r: &mut Random| vec![0x11, r.below(32) as u8, r.below(4) as u8];
    let small = |r: &mut Random| constant(r.below(9) as i16 + 1);
    if depth <= 2 || room < 12 || r.one_in(5) {
        return if r.one_in(3) { small(r) } else { some(r) };
    }
    match r.below(9) {
        code @ 0..=1 => node(0x17 + code as u8, &[&mixed_value(r, depth - 1, room - 1)]),
        2 => node(0x19, &[&mixed_truth(r, depth - 1, room - 1)]),
        code @ 3..=4 => {
            let divided = mixed_value(r, depth - 1, room - 4);
            node(0x12 + code as u8, &[&divided, &small(r)])
        }
        5 => {
            let rest = node(0x16, &[&mixed_value(r, depth - 2, room - 8), &constant(7)]);
            node(0x14, &[&rest, &some(r)])
        }
        code => {
            let first = mixed_value(r, depth - 1, room / 2);
            let second = mixed_value(r, depth - 1, room - 1 - first.len());
            node(0x12 + code as u8 % 2, &[&first, &second])
        }
    }
}

/// A constraint that always has a truth.
fn mixed_truth(r: &mut Random, depth: usize, room: usize) -> Vec<u8> {
    if depth <= 2 || room < 16 {
        return match room {
            0..7 => vec![0x2A],
            _ => vec![0x29, 0, r.below(3) as u8],
        };
    }
    match r.below(6) {
        0 => node(0x28, &[&mixed_truth(r, depth - 1, room - 1)]),
        1..=2 => {
            let first = mixed_truth(r, depth - 1, room / 2);
            let second = mixed_truth(r, depth - 1, room - 1 - first.len());
            node(0x26 + r.below(2) as u8, &[&first, &second])
        }
        _ => {
            let first = mixed_value(r, depth - 1, room / 2);
            let second = mixed_value(r, depth - 1, room - 1 - first.len());
            node(0x20 + r.below(6) as u8, &[&first, &second])
        }
    }
}

/// As many laws as is allowed, no two alike, which fill their lines or nearly do, and all are read in each step: no habit of
/// one law helps a processor to guess what the next does.
pub fn mixed() -> Input {
    let mut r = Random::seeded(11);
    let fluents: Vec<_> = (0..32).map(|number| [0, 1000, 3 * number + 1]).collect();
    let mut draft = Draft::new(16, &fluents, &[(1, 1)]).free();
    while draft.laws() < 128 {
        let condition = mixed_truth(&mut r, MAX_DEPTH - 2, MAX_PAYLOAD - 2);
        if condition.len() >= 90 {
            draft.insert(law(0xA8, &[&node(0x27, &[&condition, &[0x2A]])]));
        }
    }
    Input {
        name: "128 laws that differ, all read, 64 steps",
        draft,
        sheet: vec![0; 16 * STEPS],
    }
}

/// A sum of this many quotients and remainders, of levels by small divisors, both of either sign.
fn divisions(r: &mut Random, count: usize) -> Vec<u8> {
    let mut division = || {
        let size = 2 + r.below(99) as i16;
        let divisor = constant(if r.one_in(2) { size } else { -size });
        let code = 0x15 + r.below(2) as u8;
        node(code, &[&fluent(r.below(32)), &divisor])
    };
    let first = division();
    (1..count).fold(first, |sum, _| node(0x12, &[&sum, &division()]))
}

/// As many laws as is allowed, all of quotients and remainders, and all are read in each step; which of them have to be
/// rounded down differs from one to the next.
pub fn divided() -> Input {
    let mut r = Random::seeded(13);
    let fluents: Vec<_> = (0..32)
        .map(|number| [-1000, 1000, 61 * number - 950])
        .collect();
    let mut draft = Draft::new(16, &fluents, &[(1, 1)]).free();
    while draft.laws() < 128 {
        let sum = divisions(&mut r, MAX_DEPTH - 3);
        draft.insert(law(0xA8, &[&at_least(&sum, i16::MIN)]));
    }
    Input {
        name: "128 laws that divide, all read, 64 steps",
        draft,
        sheet: vec![0; 16 * STEPS],
    }
}

/// One of the codes that look back, in turns.
fn looking_back(number: usize, held: &[u8]) -> Vec<u8> {
    node(0x2B + (number % 2) as u8, &[held])
}

/// A tug that may not go if the weir gate has been opened, and goes in each step; its pool was never low, and has been high.
pub fn tug() -> Input {
    let mut draft = Draft::new(2, &[[200, 320, 300]], &[(1, 1), (2, 2)]);
    draft.insert(mask_frame(0xA3, 0, 3));
    let opened = [0x29, 1, 0];
    let condition = node(0x28, &[&node(0x2C, &[&opened])]);
    draft.insert(law(0xA5, &[&[0], &condition]));
    draft.insert(law(0xA5, &[&[1, 0x2A]]));
    for (number, least) in [220, 290].into_iter().enumerate() {
        let held = looking_back(number, &at_least(&fluent(0), least));
        draft.insert(law(0xA7, &[&held]));
    }
    Input {
        name: "a tug and a gate, 64 steps",
        draft,
        sheet: [1, 0].repeat(STEPS),
    }
}

/// As many laws as is allowed; all but the one A5 law are a comparison at all positions so far, and are read in each step.
pub fn all_look_back() -> Input {
    let mut draft = Draft::new(16, &[[-1000, 1000, 0]; 32], &[(1, 1)]).free();
    for number in draft.laws()..128 {
        let held = at_least(&fluent(number % 32), -1000);
        draft.insert(law(0xA8, &[&looking_back(number, &held)]));
    }
    Input {
        name: "127 laws that look back, 64 steps",
        draft,
        sheet: vec![0; 16 * STEPS],
    }
}

/// A few laws that look back and fill their lines or nearly do, no two alike.
pub fn long_look_back() -> Input {
    let mut r = Random::seeded(17);
    let fluents: Vec<_> = (0..32).map(|number| [0, 1000, 3 * number + 1]).collect();
    let mut draft = Draft::new(16, &fluents, &[(1, 1)]).free();
    while draft.laws() < 17 {
        let held = mixed_truth(&mut r, MAX_DEPTH - 3, MAX_PAYLOAD - 3);
        if held.len() >= 90 {
            let whole = looking_back(draft.laws(), &held);
            draft.insert(law(0xA8, &[&node(0x27, &[&whole, &[0x2A]])]));
        }
    }
    Input {
        name: "16 long laws that look back, 64 steps",
        draft,
        sheet: vec![0; 16 * STEPS],
    }
}

/// Who names what: 16 agents who all act, and 64 entries with 14 of them in each crew. All crews are complete, so that
/// whoever compares agent by agent has to compare all; laws are short and few.
pub fn large_crews() -> Input {
    let entries: Vec<_> = pairs().map(|absent| (1, !absent)).collect();
    Input {
        name: "who names what, 64 crews of 14",
        draft: Draft::new(16, &[[0, 100, 1]], &entries).free(),
        sheet: vec![1; 16 * STEPS],
    }
}

/// The same, but every second entry has another action, and the agents name the two in turns: no step has the names of the
/// one before.
pub fn crews_in_turns() -> Input {
    let entries: Vec<_> = pairs()
        .zip([1, 2].into_iter().cycle())
        .map(|(absent, action)| (action, !absent))
        .collect();
    Input {
        name: "who names what in turns, 64 crews of 14",
        draft: Draft::new(16, &[[0, 100, 1]], &entries).free(),
        sheet: [[1; 16], [2; 16]].concat().repeat(STEPS / 2),
    }
}

/// A domain and two supplements for it.
pub struct Two {
    pub name: &'static str,
    pub draft: Draft,
    pub lower: Lines,
    pub upper: Lines,
}

/// Three laws of the pool over two, one of them of both.
pub fn few_laws() -> Two {
    let draft = Draft::pool();
    let again = |number| replacement(number, draft.law(number));
    let (lower, upper) = ([4, 2].map(again).to_vec(), [3, 0, 4].map(again).to_vec());
    Two {
        name: "3 laws over 2, pool",
        draft,
        lower,
        upper,
    }
}

/// The longest supplement over another, for the longest domain.
pub fn longest_laws() -> Two {
    let mut r = Random::seeded(9);
    let draft = longest(&mut r);
    let [lower, upper] = [(); 2].map(|()| longest_lines(&mut r, &draft));
    Two {
        name: "128 laws of 118 bytes over 128",
        draft,
        lower,
        upper,
    }
}

/// A domain with the longest text, and nobody acts.
pub fn long_text() -> Input {
    Input {
        name: "longest text",
        draft: longest(&mut Random::seeded(8)),
        sheet: vec![0; 16 * STEPS],
    }
}
