//! Cases of the calls that take a supplement, and of the program that does,
//! made for one answer each.

use super::aims::Expect::{self, Accepted, Count, Fine, Law, Laws, Refused, Silent};
use super::aims::{
    enough, enough_levels, over_both, printing_by, reading, stored, stored_supplement,
    too_few_levels, too_short,
};
use super::calls::CallAim;
use super::case::Case;
use super::draft::{frame, replacement, sheet_text, text_of, Draft};
use super::faults::Lines;
use super::random::Random;
use super::sheets;
use super::supplements::{all_replaced, full, longest_of_both, many_laws, some_lines, LONGEST_LAW};
use crate::line::MAX_FRAME;
use crate::program::{Program, MAX_INPUT, OUTPUT_BYTES};
use crate::refusal::*;
use crate::store::STORE_BYTES;
use crate::supplement::{LawInForce, SUPPLEMENT_BYTES};

/// The pool's goal replaced by one that is always met, and its line.
pub(super) const FREE_GOAL: &[u8] = &[0xAF, 3, 4, 0xA9, 0x2A];
const FREE_GOAL_LINE: &[u8] = b"AF0304A92A\n";

/// A sheet that the pool accepts, and one that it accepts without its goal.
const ACCEPTED: &[u8] = &[1, 0, 0, 2];
pub(super) const LOW: &[u8] = &[1, 0, 1, 0];

/// Bytes and zeros, an odd number together.
pub(super) fn odd(r: &mut Random, mut bytes: Vec<u8>) -> Vec<u8> {
    let more = 2 * r.below(60) + 1 - bytes.len() % 2;
    bytes.resize(bytes.len() + more, 0);
    bytes
}

/// Bytes that are neither a domain's store nor a supplement's.
pub(super) fn neither(r: &mut Random) -> Vec<u8> {
    let length = *r.pick(&[1, 2, 30, 1000]);
    let mut bytes = r.likely_bytes(length);
    bytes[0] = r.from_to(1, 0x9F) as u8;
    bytes
}

/// No longer the frames that it was: other bytes, cut off, or a byte after.
pub(super) fn spoilt(r: &mut Random, mut bytes: Vec<u8>) -> Vec<u8> {
    match r.below(3) {
        0 => bytes = neither(r),
        1 => drop(bytes.pop()),
        _ => bytes.extend([0, r.from_to(1, 255) as u8]),
    }
    bytes
}

fn pool_under(r: &mut Random, supplement: Vec<u8>, sheet: &[u8]) -> Case {
    Case::JudgeUnder {
        store: stored(r, Draft::pool().bytes()),
        supplement,
        sheet: sheet.to_vec(),
        levels: enough_levels(r),
    }
}

fn asking(r: &mut Random, draft: &Draft, supplement: Vec<u8>, numbers: Vec<usize>) -> Case {
    Case::Laws {
        store: stored(r, draft.bytes()),
        supplement: stored_supplement(r, supplement),
        numbers,
    }
}

/// Numbers that no law has, among them ones that are a law's if cut to fewer
/// bits.
pub(super) const BEYOND: &[usize] = &[
    256,
    257,
    1 << 16,
    (1 << 16) + 1,
    1 << 32,
    (1 << 32) + 1,
    1 << 63,
    (1 << 63) + 1,
    usize::MAX - 255,
    usize::MAX,
];

/// Every number of a byte and those beyond.
pub(super) fn with_beyond() -> Vec<usize> {
    (0..256).chain(BEYOND.iter().copied()).collect()
}

/// All of these numbers, over a domain of 128 laws of which
/// so many are replaced.
fn every_number(r: &mut Random, replaced: usize) -> Case {
    let draft = many_laws(r);
    let lines = all_replaced(r, &draft, (0..replaced).rev());
    asking(r, &draft, lines.concat(), with_beyond())
}

/// Lines for those of five laws that the mask has.
pub(super) fn of_mask(r: &mut Random, draft: &Draft, mask: u8) -> Lines {
    let numbers = (0..5).filter(|number| (mask >> number) & 1 == 1);
    all_replaced(r, draft, numbers)
}

/// The five laws of a domain of each kind; those of the mask are replaced.
fn each_kind(r: &mut Random, mask: u8) -> Case {
    let draft = Draft::of_each_kind();
    let lines = of_mask(r, &draft, mask);
    asking(r, &draft, lines.concat(), (0..6).collect())
}

pub(super) const fn laws(own: usize, replaced: usize) -> Expect {
    Laws { own, replaced }
}

pub(super) const fn law_at(replaced: bool, place: usize, size: usize) -> Expect {
    Law(LawInForce {
        replaced,
        place,
        size,
    })
}

fn printing(r: &mut Random, parts: &[&[u8]]) -> Case {
    printing_by(Program::LowWater, r, parts.concat())
}

/// The pool's text.
fn pool() -> Vec<u8> {
    Draft::pool().text()
}

/// A supplement of two frames for the pool, damaged in one byte: a frame's kind,
/// count or law number, or the law's kind, entry or first code.
fn damaged(r: &mut Random) -> Vec<u8> {
    let mut bytes = [FREE_GOAL, &frame(0xAF, &[0, 0xA5, 0, 0x2A])].concat();
    let place = *r.pick(&[0, 1, 3, 4, 5, 6, 8, 9, 10]);
    bytes[place] ^= *r.pick(&[0x01, 0x40, 0x80]);
    bytes
}

pub const LOW_WATER: &[CallAim] = &[
    ("read_supplement: buffer short", Refused(BUFFER), |r| {
        let (draft, lines) = some_lines(r);
        let (store, text) = match r.below(3) {
            0 => (neither(r), text_of(&lines)),
            1 => (draft.bytes(), r.bytes(20)),
            _ => (draft.bytes(), text_of(&lines)),
        };
        let buffer = too_short(r, SUPPLEMENT_BYTES);
        Case::ReadSupplement {
            store,
            text,
            buffer,
        }
    }),
    ("read_supplement: no domain", Refused(STORE), |r| {
        let (draft, lines) = some_lines(r);
        Case::ReadSupplement {
            store: spoilt(r, draft.bytes()),
            text: text_of(&lines),
            buffer: enough(r, SUPPLEMENT_BYTES),
        }
    }),
    (
        "read_supplement: order: no domain and a bad line",
        Refused(STORE),
        |r| Case::ReadSupplement {
            store: neither(r),
            text: r.bytes(9),
            buffer: enough(r, SUPPLEMENT_BYTES),
        },
    ),
    (
        "read_supplement: domain's store of odd length",
        Count(FREE_GOAL.len()),
        |r| Case::ReadSupplement {
            store: odd(r, Draft::pool().bytes()),
            text: FREE_GOAL_LINE.to_vec(),
            buffer: enough(r, SUPPLEMENT_BYTES),
        },
    ),
    (
        "read_supplement: longest supplement of the longest domain",
        Count(128 * MAX_FRAME),
        |r| {
            let (draft, lines) = longest_of_both(r);
            reading(r, &draft, text_of(&lines))
        },
    ),
    ("judge_under: levels short", Refused(BUFFER), |r| {
        let pool = Draft::pool().bytes();
        let (store, supplement) = match r.below(3) {
            0 => (neither(r), FREE_GOAL.to_vec()),
            1 => (pool, neither(r)),
            _ => (pool, FREE_GOAL.to_vec()),
        };
        Case::JudgeUnder {
            store,
            supplement,
            sheet: r.bytes(3),
            levels: too_few_levels(r),
        }
    }),
    ("judge_under: not whole steps", Refused(NOT_WHOLE), |r| {
        let length = 1 + 2 * r.below(80);
        pool_under(r, FREE_GOAL.to_vec(), &vec![0; length])
    }),
    ("judge_under: 65 steps", Refused(STEP_65), |r| {
        let length = 130 + 2 * r.below(10);
        pool_under(r, FREE_GOAL.to_vec(), &vec![0; length])
    }),
    (
        "judge_under: order: no supplement and not whole steps",
        Refused(STORE),
        |r| {
            let supplement = neither(r);
            pool_under(r, supplement, &[0; 3])
        },
    ),
    ("judge_under: goal replaced", Accepted, |r| {
        let supplement = stored_supplement(r, FREE_GOAL.to_vec());
        pool_under(r, supplement, LOW)
    }),
    ("judge_under: goal not replaced", Expect::Goal(8), |r| {
        let supplement = stored_supplement(r, vec![]);
        pool_under(r, supplement, LOW)
    }),
    ("judge_under: supplement of length 0", Accepted, |r| {
        pool_under(r, vec![], ACCEPTED)
    }),
    ("judge_under: supplement of zeros", Accepted, |r| {
        let length = *r.pick(&[1, 2, 3, SUPPLEMENT_BYTES, SUPPLEMENT_BYTES + 1]);
        pool_under(r, vec![0; length], ACCEPTED)
    }),
    ("judge_under: two stores of odd lengths", Accepted, |r| {
        Case::JudgeUnder {
            store: odd(r, Draft::pool().bytes()),
            supplement: odd(r, FREE_GOAL.to_vec()),
            sheet: LOW.to_vec(),
            levels: enough_levels(r),
        }
    }),
    ("judge_under: stores longer than asked", Accepted, |r| {
        let mut store = Draft::pool().store();
        store.resize(STORE_BYTES + r.from_to(1, 9_000), 0);
        let mut supplement = FREE_GOAL.to_vec();
        supplement.resize(SUPPLEMENT_BYTES + r.from_to(1, 9_000), 0);
        Case::JudgeUnder {
            store,
            supplement,
            sheet: LOW.to_vec(),
            levels: enough_levels(r),
        }
    }),
    (
        "judge_under: longest supplement of the longest domain",
        Fine,
        |r| {
            let (draft, lines) = longest_of_both(r);
            let sheet = (0..64).flat_map(|_| sheets::step(r, &draft)).collect();
            Case::JudgeUnder {
                store: draft.store(),
                supplement: lines.concat(),
                sheet,
                levels: enough_levels(r),
            }
        },
    ),
    ("supplement: no domain", Refused(STORE), |r| {
        let store = neither(r);
        over_both(r, store, FREE_GOAL.to_vec())
    }),
    (
        "supplement: neither is what it should be",
        Refused(STORE),
        |r| {
            let (store, supplement) = (neither(r), neither(r));
            over_both(r, store, supplement)
        },
    ),
    ("supplement: stores exchanged", Refused(STORE), |r| {
        let (draft, lines) = some_lines(r);
        over_both(r, lines.concat(), draft.bytes())
    }),
    ("supplement: of another domain", Refused(STORE), |r| {
        // The pool's law 1 is an A5, law 4 a goal.
        let lines = [replacement(1, Draft::pool().law(1)), FREE_GOAL.to_vec()];
        let store = stored(r, Draft::of_each_kind().bytes());
        let supplement = stored_supplement(r, lines.concat());
        over_both(r, store, supplement)
    }),
    ("supplement: damaged in one byte", Refused(STORE), |r| {
        let bytes = damaged(r);
        let supplement = stored_supplement(r, bytes);
        over_both(r, Draft::pool().store(), supplement)
    }),
    ("supplement: cut off", Refused(STORE), |r| {
        let (draft, lines) = some_lines(r);
        let mut supplement = lines.concat();
        supplement.pop();
        let store = stored(r, draft.bytes());
        over_both(r, store, supplement)
    }),
    ("supplement: nonzero after the zeros", Refused(STORE), |r| {
        let (draft, lines) = some_lines(r);
        let mut supplement = lines.concat();
        let zeros = *r.pick(&[1, 2, 255, 256, 3000]);
        supplement.resize(supplement.len() + zeros, 0);
        supplement.push(r.from_to(1, 255) as u8);
        let more = r.below(50);
        supplement.resize(supplement.len() + more, 0);
        let store = stored(r, draft.bytes());
        over_both(r, store, supplement)
    }),
    ("supplement: zeros before it", Refused(STORE), |r| {
        let zeros = vec![0; r.from_to(1, 9)];
        over_both(r, Draft::pool().store(), [&zeros, FREE_GOAL].concat())
    }),
    ("law: the domain's", law_at(false, 72, 7), |r| {
        asking(r, &Draft::pool(), vec![], vec![4])
    }),
    ("law: the supplement's", law_at(true, 4, 1), |r| {
        asking(r, &Draft::pool(), FREE_GOAL.to_vec(), vec![4])
    }),
    (
        "law: the supplement's, of equal bytes",
        law_at(true, 9, 8),
        |r| {
            let equal = replacement(1, Draft::pool().law(1));
            let supplement = [FREE_GOAL, &equal].concat();
            asking(r, &Draft::pool(), supplement, vec![1])
        },
    ),
    (
        "law: the domain's, equal to another",
        law_at(false, 22, 2),
        |r| {
            let mut draft = Draft::of_each_kind();
            draft.insert(frame(0xA5, &[0, 0x2A]));
            asking(r, &draft, vec![], vec![1])
        },
    ),
    (
        "law: the supplement's, of 118 bytes for 120",
        law_at(true, 4, LONGEST_LAW),
        |r| {
            let (draft, lines) = longest_of_both(r);
            let first = lines[0][2].into();
            asking(r, &draft, lines.concat(), vec![first])
        },
    ),
    ("law: each kind, none replaced", laws(5, 0), |r| {
        each_kind(r, 0)
    }),
    ("law: each kind, all replaced", laws(0, 5), |r| {
        each_kind(r, 0x1F)
    }),
    ("law: each kind, A5 replaced", laws(4, 1), |r| {
        each_kind(r, 0x01)
    }),
    ("law: each kind, A6 replaced", laws(4, 1), |r| {
        each_kind(r, 0x02)
    }),
    ("law: each kind, A7 replaced", laws(4, 1), |r| {
        each_kind(r, 0x04)
    }),
    ("law: each kind, A8 replaced", laws(4, 1), |r| {
        each_kind(r, 0x08)
    }),
    ("law: each kind, A9 replaced", laws(4, 1), |r| {
        each_kind(r, 0x10)
    }),
    ("law: two stores of odd lengths", law_at(true, 4, 1), |r| {
        Case::Laws {
            store: odd(r, Draft::pool().bytes()),
            supplement: odd(r, FREE_GOAL.to_vec()),
            numbers: vec![4],
        }
    }),
    ("law: every number, none replaced", laws(128, 0), |r| {
        every_number(r, 0)
    }),
    ("law: every number, some replaced", laws(91, 37), |r| {
        every_number(r, 37)
    }),
    ("law: every number, all replaced", laws(0, 128), |r| {
        every_number(r, 128)
    }),
    ("law: as many as there are laws", Refused(OTHER_LAW), |r| {
        let (draft, lines) = some_lines(r);
        let number = draft.laws();
        asking(r, &draft, lines.concat(), vec![number])
    }),
    ("law: a number beyond a byte", Refused(OTHER_LAW), |r| {
        let (draft, lines) = some_lines(r);
        let number = *r.pick(BEYOND);
        asking(r, &draft, lines.concat(), vec![number])
    }),
    (
        "law: order: no domain and no such law",
        Refused(STORE),
        |r| Case::Laws {
            store: neither(r),
            supplement: FREE_GOAL.to_vec(),
            numbers: vec![*r.pick(&[5, 255, usize::MAX])],
        },
    ),
    (
        "law: order: no supplement and no such law",
        Refused(STORE),
        |r| Case::Laws {
            store: Draft::pool().store(),
            supplement: neither(r),
            numbers: vec![*r.pick(&[5, 255, usize::MAX])],
        },
    ),
    ("low_water: input over 60,000 bytes", Refused(INPUT), |r| {
        let starts = [vec![], pool(), FREE_GOAL_LINE.to_vec(), b"B1".to_vec()];
        let mut input = r.pick(&starts).clone();
        input.resize(MAX_INPUT + r.from_to(1, 3), *r.pick(b"\nA1g"));
        printing(r, &[&input])
    }),
    ("low_water: longest texts of all", Refused(INPUT), |r| {
        let (draft, lines) = longest_of_both(r);
        let sheet = sheet_text(&r.bytes(1024), 16);
        printing(r, &[&draft.text(), &text_of(&lines), &sheet])
    }),
    (
        "low_water: domain of 60,000 bytes in all",
        Refused(LINE),
        |r| {
            let mut input = pool();
            input.resize(MAX_INPUT, *r.pick(b"\ng"));
            printing(r, &[&input])
        },
    ),
    (
        "low_water: supplement of 60,000 bytes in all",
        Refused(LINE),
        |r| {
            let mut input = [&pool(), FREE_GOAL_LINE].concat();
            input.resize(MAX_INPUT, *r.pick(b"\ng"));
            printing(r, &[&input])
        },
    ),
    (
        "low_water: sheet of 60,000 bytes in all",
        Refused(LINE),
        |r| {
            let mut input = [&pool(), FREE_GOAL_LINE, b"B1020000\n"].concat();
            input.resize(MAX_INPUT, *r.pick(b"\ng"));
            printing(r, &[&input])
        },
    ),
    ("low_water: output too short", Silent, |r| Case::Program {
        program: Program::LowWater,
        input: [&pool(), FREE_GOAL_LINE].concat(),
        output: too_short(r, OUTPUT_BYTES),
    }),
    ("low_water: goal replaced", Accepted, |r| {
        printing(r, &[&pool(), FREE_GOAL_LINE, &sheet_text(LOW, 2)])
    }),
    ("low_water: no AF line", Expect::Goal(8), |r| {
        printing(r, &[&pool(), &sheet_text(LOW, 2)])
    }),
    ("low_water: no B1 line", Accepted, |r| {
        printing(r, &[&pool(), FREE_GOAL_LINE])
    }),
    ("low_water: neither AF nor B1 line", Accepted, |r| {
        printing(r, &[&pool()])
    }),
    ("low_water: AF line first", Refused(INCOMPLETE), |r| {
        printing(r, &[FREE_GOAL_LINE, &pool()])
    }),
    ("low_water: AF line after a B1 line", Refused(KIND), |r| {
        let first: &[u8] = if r.one_in(2) { FREE_GOAL_LINE } else { b"" };
        let step = b"B1020000\n";
        printing(r, &[&pool(), first, step, FREE_GOAL_LINE, step])
    }),
    (
        "low_water: a domain's line after an AF line",
        Refused(KIND),
        |r| printing(r, &[&pool(), FREE_GOAL_LINE, b"A9012A\n", b"B1020000\n"]),
    ),
    (
        "low_water: order: supplement before sheet",
        Refused(OTHER_LAW),
        |r| {
            printing(
                r,
                &[&pool(), FREE_GOAL_LINE, FREE_GOAL_LINE, b"B100\n", b"x"],
            )
        },
    ),
    (
        "low_water: 128 lines of 120 bytes and 64 steps",
        Fine,
        |r| {
            let (draft, lines) = full(r);
            let names: Vec<_> = (0..64).flat_map(|_| sheets::step(r, &draft)).collect();
            let sheet = sheet_text(&names, draft.agents);
            printing(r, &[&draft.text(), &text_of(&lines), &sheet])
        },
    ),
];
