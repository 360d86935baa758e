//! Where codes 2B and 2C may stand: document 02, K4, what it refuses and what not.

use waroth_reference::generate::draft::{law, Draft};
use waroth_reference::generate::laws::{
    always, and, constant, node, not, or, reified, wrapped, ALWAYS, SOMETIME,
};
use waroth_reference::generate::random::Random;
use waroth_reference::store::STORE_BYTES;
use waroth_reference::{accepted, read_domain};

const CODES: [u8; 2] = [ALWAYS, SOMETIME];

fn level() -> Vec<u8> {
    vec![0x11, 0, 0]
}

fn is(value: i16) -> Vec<u8> {
    node(0x20, &[&level(), &constant(value)])
}

/// What the domain reader says to a law around a constraint: refusal and line, if it
/// is refused.
fn refused_in(kind: u8, constraint: &[u8]) -> Option<(u8, usize)> {
    refused(match kind {
        0xA5 => law(kind, &[&[0], constraint]),
        0xA6 => law(kind, &[&[0], constraint, &[0], &constant(1)]),
        _ => law(kind, &[constraint]),
    })
}

/// The same of an effect's expression.
fn refused_expression(expression: &[u8]) -> Option<(u8, usize)> {
    refused(law(0xA6, &[&[0, 0x2A, 0], expression]))
}

/// A domain with this law is refused in its line, if it is, and as a store as well.
fn refused(added: Vec<u8>) -> Option<(u8, usize)> {
    let mut draft = Draft::of_each_kind();
    draft.insert(added.clone());
    let refused = read_domain(&draft.text(), &mut vec![0; STORE_BYTES]).err();
    assert_eq!(accepted(&draft.bytes()), refused.is_none());
    if let Some((_, line)) = refused {
        assert_eq!(draft.frames[line - 1], added);
    }
    refused
}

/// Refusal 4, or none, in every law.
#[track_caller]
fn all_refused(constraint: &[u8], whether: bool) {
    for kind in 0xA5..=0xA9 {
        let number = refused_in(kind, constraint).map(|(number, _)| number);
        assert_eq!(number, whether.then_some(4), "{kind:X}: {constraint:02X?}");
    }
    let number = refused_expression(&reified(constraint)).map(|(number, _)| number);
    assert_eq!(number, whether.then_some(4), "{constraint:02X?}");
}

#[test]
fn neither_inside_the_other_or_itself() {
    // "Neither may stand inside the other or itself." "Refusals: 4"
    for outer in CODES {
        for inner in CODES {
            let inner = node(inner, &[&is(1)]);
            let compared = node(0x20, &[&reified(&inner), &constant(1)]);
            let turned = node(0x23, &[&level(), &reified(&inner)]);
            let sum = node(0x12, &[&level(), &reified(&inner)]);
            for held in [
                inner.clone(),
                not(&inner),
                wrapped(0x28, 9, &inner),
                and(&inner, &is(0)),
                and(&is(0), &inner),
                or(&inner, &[0x2A]),
                or(&[0x2A], &inner),
                and(&and(&is(0), &is(1)), &or(&is(2), &inner)),
                // Through 19.
                compared.clone(),
                turned.clone(),
                node(0x22, &[&sum, &constant(3)]),
                node(0x22, &[&constant(3), &node(0x17, &[&sum])]),
                node(0x20, &[&reified(&compared), &reified(&[0x2A])]),
                not(&and(
                    &is(0),
                    &node(0x21, &[&constant(0), &reified(&turned)]),
                )),
            ] {
                all_refused(&node(outer, &[&held]), true);
                all_refused(&and(&node(outer, &[&is(0)]), &node(outer, &[&held])), true);
                all_refused(&not(&or(&node(outer, &[&held]), &is(1))), true);
            }
        }
    }
}

#[test]
fn side_by_side() {
    // That is not inside.
    for one in CODES {
        for other in CODES {
            let [one, other] = [one, other].map(|code| node(code, &[&is(1)]));
            all_refused(&and(&one, &other), false);
            all_refused(&or(&not(&one), &and(&is(0), &other)), false);
            all_refused(&and(&and(&and(&one, &is(0)), &other), &one), false);
            all_refused(&node(0x20, &[&reified(&one), &reified(&other)]), false);
            let sum = node(0x12, &[&reified(&one), &reified(&other)]);
            all_refused(&node(0x22, &[&sum, &reified(&one)]), false);
        }
    }
}

#[test]
fn a_level_of_depth() {
    // 2A at depth 16 under a code at depth 15, and one deeper.
    for code in CODES {
        let deepest = node(code, &[&[0x2A]]);
        for kind in 0xA5..=0xA9 {
            assert_eq!(refused_in(kind, &wrapped(0x28, 14, &deepest)), None);
            assert!(refused_in(kind, &wrapped(0x28, 15, &deepest)).is_some());
            // The code at each depth of a law of 16 levels, and of 17.
            for above in 0..15 {
                let of = |levels| {
                    let held = wrapped(0x28, levels - above - 2, &[0x2A]);
                    wrapped(0x28, above, &node(code, &[&held]))
                };
                assert_eq!(refused_in(kind, &of(16)), None, "{kind:X}, {above}");
                let refused = refused_in(kind, &of(17)).map(|(number, _)| number);
                assert_eq!(refused, Some(4), "{kind:X}, {above}");
            }
        }
        // Under 19, which is a level, too.
        assert_eq!(
            refused_expression(&reified(&wrapped(0x28, 13, &deepest))),
            None
        );
        let refused = refused_expression(&reified(&wrapped(0x28, 14, &deepest)));
        assert_eq!(refused.map(|(number, _)| number), Some(4));
        // A comparison below: its expressions are one level further down.
        let compared = node(code, &[&is(1)]);
        assert_eq!(refused_in(0xA9, &wrapped(0x28, 13, &compared)), None);
        assert!(refused_in(0xA9, &wrapped(0x28, 14, &compared)).is_some());
    }
    // The second side of "and" has its own levels.
    let deep = wrapped(0x28, 14, &[0x2A]);
    assert_eq!(
        refused_in(0xA7, &and(&deep, &always(&wrapped(0x28, 13, &[0x2A])))),
        None
    );
    assert!(refused_in(0xA7, &and(&deep, &always(&deep))).is_some());
}

#[test]
fn code_29_inside_stays_refused_in_a7_and_a9() {
    for code in CODES {
        let occurs = [0x29, 0, 0];
        for held in [
            occurs.to_vec(),
            not(&occurs),
            and(&[0x2A], &occurs),
            node(0x20, &[&reified(&occurs), &constant(0)]),
        ] {
            let whole = node(code, &[&held]);
            for kind in [0xA7, 0xA9] {
                let refused = refused_in(kind, &whole).map(|(number, _)| number);
                assert_eq!(refused, Some(4), "{kind:X}");
            }
            for kind in [0xA5, 0xA6, 0xA8] {
                assert_eq!(refused_in(kind, &whole), None, "{kind:X}");
            }
            assert_eq!(refused_expression(&reified(&whole)), None);
        }
        // Entry and lag are looked at.
        assert!(refused_in(0xA8, &[code, 0x29, 1, 0]).is_some());
        assert!(refused_in(0xA8, &[code, 0x29, 0, 64]).is_some());
        assert!(refused_in(0xA8, &[code, 0x20, 0x11, 1, 0, 0x10, 0, 0]).is_some());
    }
}

#[test]
fn one_operand() {
    for code in CODES {
        all_refused(&[code], true);
        all_refused(&[code, 0x2A], false);
        all_refused(&[code, 0x2A, 0x2A], true);
        // An expression, and the code where an expression is looked for.
        all_refused(&[code, 0x10, 0, 0], true);
        all_refused(&[0x20, code, 0x2A, 0x10, 0, 0], true);
        assert!(refused_expression(&[code, 0x2A]).is_some());
        assert_eq!(refused_expression(&[0x19, code, 0x2A]), None);
    }
    // Every other code is refused still.
    for code in (0x00..=0x1F).chain(0x2D..=0xFF) {
        all_refused(&[code, 0x2A], true);
        all_refused(&[ALWAYS, code, 0x2A], true);
    }
}

/// A constraint or expression, and what is known of it without reading it again.
struct Tree {
    bytes: Vec<u8>,
    depth: usize,
    /// Whether it has 2B or 2C in it, one inside another, and code 29.
    looks_back: bool,
    nested: bool,
    occurs: bool,
}

impl Tree {
    fn leaf(bytes: &[u8]) -> Self {
        Tree {
            bytes: bytes.to_vec(),
            depth: 1,
            looks_back: false,
            nested: false,
            occurs: bytes[0] == 0x29,
        }
    }

    fn over(code: u8, parts: &[Tree]) -> Self {
        let any = |of: fn(&Tree) -> bool| parts.iter().any(of);
        let looks_back = any(|part| part.looks_back);
        let mut bytes = vec![code];
        parts.iter().for_each(|part| bytes.extend(&part.bytes));
        Tree {
            bytes,
            depth: 1 + parts.iter().map(|part| part.depth).max().unwrap_or(0),
            looks_back: looks_back || CODES.contains(&code),
            nested: any(|part| part.nested) || looks_back && CODES.contains(&code),
            occurs: any(|part| part.occurs),
        }
    }

    fn constraint(r: &mut Random, levels: usize) -> Self {
        let below = levels.saturating_sub(1);
        match r.below(12) {
            _ if levels < 2 => {
                let occurs = r.one_in(2);
                Tree::leaf(if occurs { &[0x29, 0, 0] } else { &[0x2A] })
            }
            0..=2 => Tree::over(0x28, &[Tree::constraint(r, below)]),
            3 | 4 => {
                let (left, right) = (Tree::constraint(r, below), Tree::constraint(r, 2));
                Tree::over(r.from_to(0x26, 0x27) as u8, &[left, right])
            }
            5 => {
                let (left, right) = (Tree::constraint(r, 2), Tree::constraint(r, below));
                Tree::over(r.from_to(0x26, 0x27) as u8, &[left, right])
            }
            6 | 7 => {
                let (left, right) = (Tree::expression(r, below), Tree::expression(r, 1));
                Tree::over(r.from_to(0x20, 0x25) as u8, &[left, right])
            }
            8 => Tree::leaf(&[0x2A]),
            _ => Tree::over(*r.pick(&CODES), &[Tree::constraint(r, below)]),
        }
    }

    fn expression(r: &mut Random, levels: usize) -> Self {
        let below = levels.saturating_sub(1);
        match r.below(5) {
            _ if levels < 2 => Tree::leaf(&level()),
            0 => Tree::over(r.from_to(0x17, 0x18) as u8, &[Tree::expression(r, below)]),
            1 => {
                let (left, right) = (Tree::expression(r, 2), Tree::expression(r, below));
                Tree::over(r.from_to(0x12, 0x16) as u8, &[left, right])
            }
            _ => Tree::over(0x19, &[Tree::constraint(r, below)]),
        }
    }
}

#[test]
fn random_laws_are_refused_for_what_they_are_made_of() {
    let mut r = Random::seeded(41);
    let mut met = [0; 4];
    for _ in 0..60_000 {
        let levels = r.from_to(1, 20);
        let tree = Tree::constraint(&mut r, levels);
        if tree.bytes.len() > 110 {
            continue;
        }
        for (kind, occurs) in [(0xA7, false), (0xA8, true)] {
            let wrong = tree.depth > 16 || tree.nested || tree.occurs && !occurs;
            let number = refused_in(kind, &tree.bytes).map(|(number, _)| number);
            assert_eq!(number, wrong.then_some(4), "{kind:X}: {:02X?}", tree.bytes);
        }
        let deep = tree.depth > 16;
        met[usize::from(deep) + 2 * usize::from(tree.nested)] += 1;
    }
    assert!(met.iter().all(|&met| met > 100), "{met:?}");
}
