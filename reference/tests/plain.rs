//! The judge against one as one would write it first, on the same random sheets.

use waroth_reference::generate::draft::{law, Draft};
use waroth_reference::generate::laws::{constant, node};
use waroth_reference::generate::random::Random;
use waroth_reference::generate::{
    changing_fast, divisions, looking_back, nesting, sheets, troubles, verdicts, Expect,
};
use waroth_reference::judge::{judge, Judged, Verdict, LEVELS};
use waroth_reference::plain;

/// The two judge alike, and as many states are written as they say.
fn compare(draft: &Draft, sheet: &[u8]) -> Judged {
    let (store, mut levels, mut others) = (draft.bytes(), vec![-777; LEVELS], vec![778; LEVELS]);
    let judged = judge(&store, sheet, &mut levels).expect("a sheet of the domain");
    assert_eq!(plain::judge(&store, sheet, &mut others), Ok(judged));
    let written = judged.states * draft.fluents.len();
    assert!(levels[..written] == others[..written]);
    assert!(levels[written..].iter().all(|&level| level == -777));
    assert!(others[written..].iter().all(|&level| level == 778));
    judged
}

#[test]
fn random_sheets() {
    let mut r = Random::seeded(21);
    let mut kinds = [0; 11];
    for turn in 0..4_000 {
        let draft = match turn % 4 {
            0 => changing_fast::restless(&mut r),
            _ => Draft::random(&mut r),
        };
        let sheet = sheets::sheet(&mut r, &draft);
        let Judged { verdict, states } = compare(&draft, &sheet);
        let all = sheet.len() / draft.agents + 1;
        let (kind, possible) = match verdict {
            Verdict::Accepted => (0, [all, all]),
            Verdict::Broken { kind, step, .. } => {
                let before = usize::from(step);
                match kind {
                    7 | 9 if before + 1 == all => (kind, [before, all]),
                    8 => (8, [all, all]),
                    kind => (kind, [before, before]),
                }
            }
        };
        assert!(possible.contains(&states), "{verdict:?}, {states} states");
        kinds[kind as usize] += 1;
    }
    assert!(kinds.iter().all(|&met| met > 0), "{kinds:?}");
}

#[test]
fn wanted_verdicts() {
    let mut r = Random::seeded(22);
    let trials = verdicts::trials().into_iter().chain(troubles::further());
    let trials = trials.chain(divisions::further());
    let trials = trials.chain(looking_back::further());
    let trials = trials.chain(nesting::further());
    let trials = trials.chain(changing_fast::further());
    for (label, expect, make) in trials {
        for _ in 0..10 {
            let (draft, sheet) = make(&mut r);
            let Judged { verdict, states } = compare(&draft, &sheet);
            let met = match verdict {
                Verdict::Accepted => Expect::Accepted,
                Verdict::Broken { kind, step, .. } if states > step.into() => Expect::Goal(kind),
                Verdict::Broken { kind, step, number } => match expect {
                    Expect::At(..) => Expect::At(kind, step.into(), number.into()),
                    _ => Expect::Broken(kind),
                },
            };
            assert_eq!(met, expect, "{label}");
        }
    }
}

/// The value of an expression as both judges have it after three steps, over a
/// fluent that rises from 6 by one a step; the fault, if it has none.
fn both(expression: &[u8]) -> Result<i16, u8> {
    let mut draft = Draft::new(1, &[[6, 9, 6], [i16::MIN, i16::MAX, 0]], &[(1, 1)]).free();
    let next = node(0x12, &[&[0x11, 0, 0], &constant(1)]);
    for (fluent, value) in [(0, &next[..]), (1, expression)] {
        draft.insert(law(0xA6, &[&[0, 0x2A, fluent], value]));
    }
    let sheet = [1; 3];
    match compare(&draft, &sheet).verdict {
        Verdict::Accepted => {
            let mut levels = [0; LEVELS];
            judge(&draft.bytes(), &sheet, &mut levels).expect("a sheet of the domain");
            Ok(levels[2 * sheet.len() + 1])
        }
        Verdict::Broken { kind, .. } => Err(kind),
    }
}

#[test]
fn operands_of_every_shape() {
    let fluent = [0x11, 0, 0];
    let sum = node(0x12, &[&fluent, &constant(-9)]);
    let expressions = [
        constant(0),
        constant(-3),
        fluent.to_vec(),
        vec![0x11, 0, 2],
        sum.clone(),
        node(0x17, &[&fluent]),
        node(0x14, &[&fluent, &fluent]),
        node(0x15, &[&fluent, &constant(0)]),
        node(0x14, &[&constant(31_623), &constant(31_623)]),
    ];
    let constraints = [
        vec![0x2A],
        vec![0x28, 0x2A],
        vec![0x29, 0, 1],
        node(0x22, &[&fluent, &constant(7)]),
        node(0x25, &[&constant(7), &sum]),
        node(0x20, &[&expressions[7], &fluent]),
        node(0x20, &[&fluent, &expressions[8]]),
    ];
    let binary = |codes: std::ops::RangeInclusive<u8>, operands: &[Vec<u8>]| {
        let mut parts = Vec::new();
        for code in codes {
            for left in operands {
                parts.extend(operands.iter().map(|right| node(code, &[left, right])));
            }
        }
        parts
    };
    let reified = |constraint: &Vec<u8>| node(0x19, &[constraint]);
    let mut parts = binary(0x12..=0x16, &expressions);
    parts.extend(binary(0x20..=0x25, &expressions).iter().map(reified));
    parts.extend(binary(0x26..=0x27, &constraints).iter().map(reified));
    let mut met = [false; 10];
    for part in &parts {
        for whole in [
            part.clone(),
            node(0x18, &[part]),
            node(0x13, &[&fluent, part]),
        ] {
            met[usize::from(both(&whole).err().unwrap_or(0))] = true;
        }
    }
    assert!(met[0] && met[7] && met[9]);
    assert_eq!(both(&node(0x13, &[&constant(2), &sum])), Ok(3));
    assert_eq!(both(&node(0x15, &[&sum, &constant(0)])), Err(7));
    assert_eq!(both(&expressions[8]), Err(9));
}
