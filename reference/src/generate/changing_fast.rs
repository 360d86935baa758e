//! Levels that may not change fast: lines of fluents with a limit, good and bad, and
//! steps that change levels by as much as is allowed, by more, or beyond their range.

use super::aims::Expect::{self, Accepted, At};
use super::draft::{frame, law, limited_frame, Draft};
use super::faults::{roomy, Lines};
use super::laws::{constant, node, product, quotient, sum, FALSE};
use super::random::Random;
use super::verdicts::{effect, read, Made, Trial};
use crate::domain::{Domain, Fluent};
use crate::refusal::PAYLOAD;
use crate::sheet::MAX_STEPS;
use std::rc::Rc;

/// A fluent's line, its limit being the last two of 8 bytes: as many bytes of it as
/// are wanted, and any others behind them.
#[derive(Clone, Copy, Debug)]
pub struct FluentLine {
    range: [i16; 3],
    limit: u16,
    length: usize,
    /// Its number, in a domain of 32 fluents; else it is one more, anywhere.
    number: Option<usize>,
}

impl FluentLine {
    fn limited(limit: u16) -> Self {
        FluentLine {
            range: [0, 9, 5],
            limit,
            length: 8,
            number: None,
        }
    }

    fn of_length(length: usize) -> Self {
        FluentLine {
            length,
            ..FluentLine::limited(300)
        }
    }

    fn numbered(self, number: usize) -> Self {
        FluentLine {
            number: Some(number),
            ..self
        }
    }

    fn frame(self, r: &mut Random) -> Vec<u8> {
        let mut payload = limited_frame(self.range, self.limit).split_off(2);
        payload.truncate(self.length);
        payload.extend(r.bytes(self.length - payload.len()));
        frame(0xA2, &payload)
    }

    /// A domain in which all other lines are in order.
    pub fn in_domain(self, r: &mut Random) -> Lines {
        let others = match self.number {
            None => roomy(r),
            Some(_) => Draft::new(1, &[[0, 9, 5]; Domain::MAX_FLUENTS - 1], &[(1, 1)]).free(),
        };
        let fluents = others.fluents.len();
        let number = self.number.unwrap_or_else(|| r.from_to(0, fluents));
        let mut lines = others.frames;
        lines.insert(1 + number, self.frame(r));
        lines
    }
}

/// Label, refusal (0: accepted), and the line.
pub type Line = (String, u8, FluentLine);

/// Limits just short of what is refused, and such as would not be accepted, or not be
/// the same, with their bytes exchanged.
const LIMITS: &[u16] = &[1, 128, 255, 256, 32_512, 32_766, 32_767];
const NO_LIMITS: &[u16] = &[0, 32_768, 32_896, 65_280, 65_535];

/// Every length up to two more than a line may have, and the greatest.
const LENGTHS: &[usize] = &[0, 1, 2, 3, 4, 5, 6, 7, 8, 9, 10, 120];

/// Lines that are put before every call that reads domains.
pub fn lines() -> Vec<Line> {
    let mut lines = Vec::new();
    for &limit in LIMITS {
        let label = format!("edge: A2 with limit {limit}");
        lines.push((label, 0, FluentLine::limited(limit)));
    }
    for &limit in NO_LIMITS {
        let label = format!("A2 with limit {limit}");
        lines.push((label, PAYLOAD, FluentLine::limited(limit)));
    }
    for &length in LENGTHS {
        let (edge, refusal) = match length {
            6 | 8 => ("edge: ", 0),
            _ => ("", PAYLOAD),
        };
        let label = format!("{edge}A2 of {length} bytes");
        lines.push((label, refusal, FluentLine::of_length(length)));
    }
    for (label, range) in [
        ("start below lowest, limit", [5, 9, 4]),
        ("start above highest, limit", [5, 9, 10]),
        ("lowest above highest, limit", [9, 5, 7]),
    ] {
        let line = FluentLine {
            range,
            ..FluentLine::limited(9)
        };
        lines.push((label.to_string(), PAYLOAD, line));
    }
    lines
}

/// Lines of the first, the second and the last fluent of 32, each of which is put
/// before one call only.
pub fn numbered_lines() -> Vec<Line> {
    let mut lines = Vec::new();
    for number in [0, 1, Domain::MAX_FLUENTS - 1] {
        for (label, refusal, line) in [
            ("limit 0", PAYLOAD, FluentLine::limited(0)),
            ("limit 32768", PAYLOAD, FluentLine::limited(32_768)),
            ("7 bytes", PAYLOAD, FluentLine::of_length(7)),
            ("9 bytes", PAYLOAD, FluentLine::of_length(9)),
            ("edge: limit 1", 0, FluentLine::limited(1)),
        ] {
            let label = format!("{label}, of A2 number {number}");
            lines.push((label, refusal, line.numbered(number)));
        }
    }
    lines
}

/// A level and what a step makes of it.
#[derive(Clone, Copy, Debug)]
struct Level {
    /// Lowest and highest.
    range: [i16; 2],
    limit: Option<u16>,
    from: i16,
    /// What an effect sets it to, if one does.
    to: Option<i32>,
}

impl Level {
    /// It may have any value.
    fn free(from: i16, to: i32) -> Self {
        Level {
            range: [i16::MIN, i16::MAX],
            limit: None,
            from,
            to: Some(to),
        }
    }

    fn limited(limit: u16, from: i16, to: i32) -> Self {
        Level {
            limit: Some(limit),
            ..Level::free(from, to)
        }
    }

    /// It changes by so much, from wherever it may.
    fn changing(r: &mut Random, limit: u16, by: i32) -> Self {
        let room = usize::from(u16::MAX) - by.unsigned_abs() as usize;
        let lower = i32::from(i16::MIN) + r.from_to(0, room) as i32;
        let from = if by < 0 { lower - by } else { lower };
        Level::limited(limit, from as i16, from + by)
    }

    fn within(self, lowest: i16, highest: i16) -> Self {
        Level {
            range: [lowest, highest],
            ..self
        }
    }

    fn unlimited(self) -> Self {
        Level {
            limit: None,
            ..self
        }
    }

    fn unset(self) -> Self {
        Level { to: None, ..self }
    }
}

/// What is wrong with a level after a step.
#[derive(Clone, Copy, PartialEq, Eq, Debug)]
enum Wrong {
    Nothing,
    Range,
    Change,
    Both,
}

impl Wrong {
    /// A level from 0 to 100 that may change by 10, from 50 to such a value; or one of
    /// which the limit allows more than the range does.
    fn level(self, r: &mut Random) -> Level {
        let (limit, to) = match self {
            Wrong::Nothing => (10, r.from_to(40, 60) as i32),
            Wrong::Change => (10, *r.pick(&[0, 39, 61, 100])),
            Wrong::Both => (10, *r.pick(&[-1, 101, -40_000, 65_536 + 50, 65_536 + 60])),
            Wrong::Range => (60, *r.pick(&[-10, -1, 101, 110])),
        };
        Level::limited(limit, 50, to).within(0, 100)
    }

    fn kind(self) -> u8 {
        match self {
            Wrong::Range | Wrong::Both => 5,
            _ => 10,
        }
    }
}

/// An expression for any number up to some hundred thousand.
fn number(value: i32) -> Vec<u8> {
    match i16::try_from(value) {
        Ok(value) => constant(value),
        Err(_) => {
            let (high, low) = (value.div_euclid(256) as i16, value.rem_euclid(256) as i16);
            sum(&product(&constant(high), &constant(256)), &constant(low))
        }
    }
}

/// An expression for what a level is set to: the number, or the change added.
fn setting(r: &mut Random, fluent: u8, from: i16, to: i32) -> Vec<u8> {
    match r.one_in(2) {
        true => number(to),
        false => sum(&read(fluent, 0), &number(to - i32::from(from))),
    }
}

/// One agent, whose action 1 sets the levels, by laws in any order.
fn levels(r: &mut Random, levels: &[Level]) -> Draft {
    let fluents: Vec<_> = levels
        .iter()
        .map(|level| [level.range[0], level.range[1], level.from])
        .collect();
    let mut draft = Draft::new(1, &fluents, &[(1, 1)]);
    let mut effects = Vec::new();
    for (fluent, level) in levels.iter().enumerate() {
        if let Some(limit) = level.limit {
            draft.limit(fluent, limit);
        }
        if let Some(to) = level.to {
            let value = setting(r, fluent as u8, level.from, to);
            let place = r.below(effects.len() + 1);
            effects.insert(place, effect(0, fluent as u8, &value));
        }
    }
    for effect in effects {
        draft.insert(effect);
    }
    draft
}

/// The action is taken in step 1, and may be.
fn at_once(r: &mut Random, of: &[Level]) -> Made {
    (levels(r, of).free(), vec![1])
}

/// One level, free but for its limit, changes by so much in each step; 0 is an idle
/// step. There are few different changes.
fn walk(limit: u16, start: i16, changes: &[i32]) -> Made {
    let mut different: Vec<_> = changes.iter().copied().filter(|&by| by != 0).collect();
    different.sort();
    different.dedup();
    let entries: Vec<_> = (1..=different.len().max(1))
        .map(|name| (name as u8, 1))
        .collect();
    let mut draft = Draft::new(1, &[[i16::MIN, i16::MAX, start]], &entries).free();
    draft.limit(0, limit);
    for (entry, &by) in different.iter().enumerate() {
        let raised = sum(&read(0, 0), &number(by));
        draft.insert(effect(entry as u8, 0, &raised));
    }
    let name = |by| different.iter().position(|held| held == by);
    let sheet = changes
        .iter()
        .map(|by| name(by).map_or(0, |entry| 1 + entry as u8));
    (draft, sheet.collect())
}

fn add(
    trials: &mut Vec<Trial>,
    label: impl Into<String>,
    expect: Expect,
    make: impl Fn(&mut Random) -> Made + 'static,
) {
    trials.push((label.into(), expect, Rc::new(make)));
}

/// A fall and a rise, with the sign of each.
const WAYS: [(&str, i32); 2] = [("falls", -1), ("rises", 1)];

/// A limit, mostly a small one.
fn any_limit(r: &mut Random) -> u16 {
    match r.one_in(2) {
        true => r.from_to(1, 40) as u16,
        false => r.from_to(1, Fluent::MAX_LIMIT.into()) as u16,
    }
}

fn up_to_the_limit(trials: &mut Vec<Trial>) {
    for (way, sign) in WAYS {
        let label = format!("accepted: a level {way} by its limit");
        add(trials, label, Accepted, move |r| {
            let limit = any_limit(r);
            let level = Level::changing(r, limit, sign * i32::from(limit));
            at_once(r, &[level])
        });
        let label = format!("a level {way} by one more than its limit");
        add(trials, label, At(10, 1, 0), move |r| {
            let limit = any_limit(r);
            let level = Level::changing(r, limit, sign * (i32::from(limit) + 1));
            at_once(r, &[level])
        });
        let label = format!("accepted: a level without limit {way} by 65535");
        add(trials, label, Accepted, move |r| {
            let level = Level::changing(r, 1, sign * 65_535).unlimited();
            at_once(r, &[level])
        });
        let label = format!("a level {way} by 65535, limit 1");
        add(trials, label, At(10, 1, 0), move |r| {
            let level = Level::changing(r, 1, sign * 65_535);
            at_once(r, &[level])
        });
    }
}

/// Range and change of one level and of the next.
fn one_by_one(trials: &mut Vec<Trial>) {
    for (label, expect, wrong) in [
        (
            "too fast, the next out of range",
            At(10, 1, 0),
            [Wrong::Change, Wrong::Range],
        ),
        (
            "out of range, the next too fast",
            At(5, 1, 0),
            [Wrong::Range, Wrong::Change],
        ),
        (
            "out of range and too fast",
            At(5, 1, 0),
            [Wrong::Both, Wrong::Nothing],
        ),
        (
            "slow, the next too fast",
            At(10, 1, 1),
            [Wrong::Nothing, Wrong::Change],
        ),
        (
            "too fast, and the next",
            At(10, 1, 0),
            [Wrong::Change, Wrong::Change],
        ),
    ] {
        add(trials, format!("order: {label}"), expect, move |r| {
            let both = wrong.map(|wrong| wrong.level(r));
            at_once(r, &both)
        });
    }
}

/// A level that is too fast, and a law of this kind that is at fault as well.
fn beside(r: &mut Random, kind: u8, constraint: &[u8]) -> Made {
    let level = Wrong::Change.level(r);
    let mut draft = levels(r, &[level]).free();
    draft.insert(law(kind, &[constraint]));
    (draft, vec![1])
}

/// The same with an effect law more, of another level: read behind the others, and before
/// any level is looked at.
fn beside_effect(r: &mut Random, expression: &[u8]) -> Made {
    let level = Wrong::Change.level(r);
    let mut draft = levels(r, &[level, Level::free(0, 0).unset()]).free();
    draft.insert(effect(0, 1, expression));
    (draft, vec![1])
}

/// True at first, and false where level 0 is no longer 50.
fn still_50() -> Vec<u8> {
    node(0x20, &[&read(0, 0), &constant(50)])
}

fn beside_other_faults(trials: &mut Vec<Trial>) {
    add(
        trials,
        "order: too fast, a static law false",
        At(10, 1, 0),
        |r| beside(r, 0xA7, &still_50()),
    );
    // Law 0 is the condition, and law 1 sets the first level.
    add(
        trials,
        "order: too fast, effects disagree",
        At(4, 1, 2),
        |r| {
            let level = Wrong::Change.level(r);
            let mut draft = levels(r, &[level]).free();
            draft.insert(effect(0, 0, &constant(50)));
            (draft, vec![1])
        },
    );
    add(
        trials,
        "order: too fast, an effect by zero",
        At(7, 1, 2),
        |r| beside_effect(r, &quotient(&constant(1), &constant(0))),
    );
    add(
        trials,
        "order: too fast, an effect out of numbers",
        At(9, 1, 2),
        |r| beside_effect(r, &product(&constant(31_623), &constant(31_623))),
    );
}

fn beside_further_faults(trials: &mut Vec<Trial>) {
    let by_zero = || {
        let divisor = node(0x19, &[&still_50()]);
        node(0x20, &[&quotient(&constant(1), &divisor), &constant(1)])
    };
    add(
        trials,
        "order: too fast, a static law by zero",
        At(10, 1, 0),
        move |r| beside(r, 0xA7, &by_zero()),
    );
    add(
        trials,
        "order: too fast, a goal missed",
        At(10, 1, 0),
        |r| beside(r, 0xA9, FALSE),
    );
    add(
        trials,
        "order: too fast, a concurrency law false",
        At(3, 1, 2),
        |r| beside(r, 0xA8, FALSE),
    );
    add(
        trials,
        "order: too fast, a condition false",
        At(2, 1, 0),
        |r| {
            let level = Wrong::Change.level(r);
            let mut draft = levels(r, &[level]);
            draft.insert(law(0xA5, &[&[0], FALSE]));
            (draft, vec![1])
        },
    );
    add(
        trials,
        "order: too fast, a name without entry",
        At(1, 1, 1),
        |_| {
            let mut draft = Draft::new(2, &[[0, 100, 50]], &[(1, 0b01)]).free();
            draft.limit(0, 10).insert(effect(0, 0, &constant(0)));
            (draft, vec![1, 9])
        },
    );
}

/// Levels that have no limit, are not set, or are set to what they were.
fn beside_others(trials: &mut Vec<Trial>) {
    add(
        trials,
        "accepted: limit 1, no law sets the level",
        Accepted,
        |r| {
            let from = r.value();
            let still = Level::limited(1, from, 0).unset();
            at_once(r, &[still, Level::free(-300, 300)])
        },
    );
    add(
        trials,
        "accepted: limit 1, the level is set to itself",
        Accepted,
        |r| {
            let from = r.value();
            at_once(r, &[Level::limited(1, from, from.into())])
        },
    );
    add(
        trials,
        "too fast behind one without limit",
        At(10, 1, 1),
        |r| at_once(r, &[Level::free(0, 900), Level::limited(899, 0, 900)]),
    );
    add(
        trials,
        "accepted: one with a limit and one without",
        Accepted,
        |r| {
            let mut both = [Level::free(0, 901), Level::limited(900, 0, 900)];
            if r.one_in(2) {
                both.reverse();
            }
            at_once(r, &both)
        },
    );
    add(
        trials,
        "effects agree on a level that is too fast",
        At(10, 1, 0),
        |r| {
            let level = Level::limited(9, 0, 10);
            let mut draft = levels(r, &[level]).free();
            draft.insert(effect(0, 0, &constant(10)));
            (draft, vec![1])
        },
    );
    add(
        trials,
        "fluent 31 too fast, the others by their limits",
        At(10, 1, 31),
        |r| {
            let mut all = Vec::new();
            for number in 0..32 {
                let limit = r.from_to(1, 99) as u16;
                let by = i32::from(limit) + i32::from(number == 31);
                all.push(Level::limited(limit, 0, *r.pick(&[-by, by])));
            }
            at_once(r, &all)
        },
    );
}

/// What a change is measured from.
fn from_step_to_step(trials: &mut Vec<Trial>) {
    add(trials, "accepted: a long way by the limit", Accepted, |r| {
        let limit = r.from_to(1, 500) as u16;
        let by = *r.pick(&[-1, 1]) * i32::from(limit);
        walk(limit, r.from_to(0, 200) as i16 - 100, &[by; MAX_STEPS])
    });
    add(
        trials,
        "accepted: there and back by the limit",
        Accepted,
        |r| {
            let limit = r.from_to(1, 500) as u16;
            let by = *r.pick(&[-1, 1]) * i32::from(limit);
            walk(limit, 7, &[by, 0, -by, -by, by])
        },
    );
    add(
        trials,
        "accepted: far from its start, and no law sets it",
        Accepted,
        |r| {
            let limit = r.from_to(1, 500) as u16;
            let by = *r.pick(&[-1, 1]) * i32::from(limit);
            let any = [i16::MIN, i16::MAX, 7];
            let mut draft = Draft::new(1, &[any, any], &[(1, 1), (2, 1)]).free();
            draft.limit(0, limit);
            draft.insert(effect(0, 0, &sum(&read(0, 0), &number(by))));
            // Then the other level is set, and then none.
            draft.insert(effect(1, 1, &constant(9)));
            (draft, vec![1, 1, 1, 2, 0])
        },
    );
    add(
        trials,
        "back too fast, near the level at first",
        At(10, 2, 0),
        |r| {
            let limit = r.from_to(1, 500) as u16;
            let by = *r.pick(&[-1, 1]) * i32::from(limit);
            walk(limit, 7, &[by, -by - by.signum()])
        },
    );
    add(
        trials,
        "accepted: start at an end of the range, limit 1",
        Accepted,
        |r| {
            let end = *r.pick(&[i16::MIN, i16::MAX]);
            let level = Level::limited(1, end, 0).unset();
            (levels(r, &[level]).free(), vec![])
        },
    );
    add(
        trials,
        "accepted: a limit wider than the range",
        Accepted,
        |r| {
            let (lowest, highest) = (
                -r.value().saturating_abs() / 3,
                r.value().saturating_abs() / 3,
            );
            let level = Level::limited(Fluent::MAX_LIMIT, lowest, highest.into());
            at_once(r, &[level.within(lowest, highest)])
        },
    );
}

/// Each limit of some, reached and passed, from anywhere; and from an end of two bytes.
fn each_limit(trials: &mut Vec<Trial>) {
    for &limit in LIMITS {
        for (way, sign) in WAYS {
            for past in [0, 1] {
                let size = i32::from(limit) + past;
                let (before, expect) = match past {
                    0 => ("accepted: ", Accepted),
                    _ => ("", At(10, 1, 0)),
                };
                let label = format!("{before}limit {limit}, the level {way} by {size}");
                add(trials, label.clone(), expect, move |r| {
                    let level = Level::changing(r, limit, sign * size);
                    at_once(r, &[level])
                });
                if ![1, 256, Fluent::MAX_LIMIT].contains(&limit) {
                    continue;
                }
                let end = if sign < 0 { i16::MAX } else { i16::MIN };
                add(trials, format!("{label} from {end}"), expect, move |r| {
                    let level = Level::limited(limit, end, i32::from(end) + sign * size);
                    at_once(r, &[level])
                });
            }
        }
    }
}

/// Changes that two bytes do not hold.
fn large_changes(trials: &mut Vec<Trial>) {
    for size in [32_768, 32_769, 65_534, 65_535] {
        for (way, sign) in WAYS {
            for limit in [1, 2, Fluent::MAX_LIMIT] {
                let label = format!("limit {limit}, the level {way} by {size} at once");
                add(trials, label, At(10, 1, 0), move |r| {
                    let level = Level::changing(r, limit, sign * size);
                    at_once(r, &[level])
                });
            }
            let label = format!("accepted: no limit, the level {way} by {size}");
            add(trials, label, Accepted, move |r| {
                let level = Level::changing(r, 1, sign * size).unlimited();
                at_once(r, &[level])
            });
        }
    }
}

/// Too fast in each step, after others that were not.
fn each_step(trials: &mut Vec<Trial>) {
    for step in 1..=MAX_STEPS {
        let label = format!("too fast in step {step}");
        add(trials, label, At(10, step, 0), move |r| {
            let limit = r.from_to(1, 400) as u16;
            let by = i32::from(limit);
            let mut changes: Vec<_> = (1..step).map(|_| *r.pick(&[-by, 0, by])).collect();
            changes.push(*r.pick(&[-by - 1, by + 1]));
            // What follows is not looked at.
            changes.extend(vec![0; r.from_to(0, MAX_STEPS - step)]);
            walk(limit, 7, &changes)
        });
    }
}

/// Each fluent too fast, all before it in order, and behind it anything.
fn each_fluent(trials: &mut Vec<Trial>) {
    for number in 0..Domain::MAX_FLUENTS {
        let label = format!("fluent {number} too fast");
        add(trials, label, At(10, 1, number), move |r| {
            let level = |place| match place {
                _ if place == number => Wrong::Change.level(r),
                _ if r.one_in(3) => Level::free(0, *r.pick(&[-999, 0, 999])),
                _ if r.one_in(3) => Level::limited(1, 0, 0).unset(),
                _ if place < number => Wrong::Nothing.level(r),
                _ => r.pick(&[Wrong::Range, Wrong::Change, Wrong::Both]).level(r),
            };
            let all: Vec<Level> = (0..Domain::MAX_FLUENTS).map(level).collect();
            at_once(r, &all)
        });
    }
}

/// Two fluents of which something is wrong, the first two, or of 32 the first and the last
/// or the last two: the first one's counts.
fn each_two(trials: &mut Vec<Trial>) {
    let all = [Wrong::Nothing, Wrong::Range, Wrong::Change, Wrong::Both];
    for (one, other) in [(0, 1), (0, 31), (30, 31)] {
        for first in all {
            for second in all {
                let expect = match (first, second) {
                    (Wrong::Nothing, Wrong::Nothing) => continue,
                    (Wrong::Nothing, _) => At(second.kind(), 1, other),
                    _ => At(first.kind(), 1, one),
                };
                let label = format!("order: {one} {first:?}, {other} {second:?}");
                add(trials, label, expect, move |r| {
                    let mut all = vec![Level::limited(1, 7, 8); other + 1];
                    all[one] = first.level(r);
                    all[other] = second.level(r);
                    at_once(r, &all)
                });
            }
        }
    }
}

/// Trials that are put before every call that judges.
pub fn trials() -> Vec<Trial> {
    let mut trials = Vec::new();
    up_to_the_limit(&mut trials);
    one_by_one(&mut trials);
    beside_other_faults(&mut trials);
    beside_others(&mut trials);
    from_step_to_step(&mut trials);
    trials
}

/// Trials of which each is put before one call only, since they are many.
pub fn further() -> Vec<Trial> {
    let mut trials = Vec::new();
    each_limit(&mut trials);
    large_changes(&mut trials);
    each_step(&mut trials);
    each_fluent(&mut trials);
    each_two(&mut trials);
    beside_further_faults(&mut trials);
    trials
}

/// A domain whose fluents have a limit and none in turn.
pub fn both_lengths() -> Draft {
    let mut draft = Draft::new(1, &[[0, 9, 5]; Domain::MAX_FLUENTS], &[(1, 1)]).free();
    for fluent in (0..Domain::MAX_FLUENTS).step_by(2) {
        draft.limit(fluent, 1 + fluent as u16);
    }
    draft
}

/// A random domain of levels that change by about as much as they may: two agents with
/// two actions each, every one of which is about some levels. Some levels are held off
/// an end of two bytes by a static law.
pub fn restless(r: &mut Random) -> Draft {
    let count = if r.one_in(8) { 32 } else { r.from_to(1, 4) };
    let mut fluents = Vec::new();
    for _ in 0..count {
        let lowest = *r.pick(&[i16::MIN, -100, -100, -20]);
        let highest = *r.pick(&[i16::MAX, 100, 100, 20]);
        fluents.push([lowest, highest, r.below(41) as i16 - 20]);
    }
    let mut draft = Draft::new(2, &fluents, &[(1, 1), (2, 1), (3, 2), (4, 2)]).free();
    for fluent in 0..count {
        let limit = match r.one_in(4) {
            true => any_limit(r),
            false => r.from_to(1, 12) as u16,
        };
        if !r.one_in(4) {
            draft.limit(fluent, limit);
        }
        for _ in 0..r.from_to(0, 2) {
            let size = i32::from(limit) + *r.pick(&[-1, 0, 0, 0, 1]);
            let value = match r.below(4) {
                0 => constant(r.below(41) as i16 - 20),
                _ => sum(&read(fluent as u8, 0), &number(*r.pick(&[-size, size]))),
            };
            draft.insert(effect(r.below(4) as u8, fluent as u8, &value));
        }
        if r.one_in(4) {
            let near = node(0x22, &[&read(fluent as u8, 0), &constant(32_000)]);
            draft.insert(law(0xA7, &[&near]));
        }
    }
    draft
}
