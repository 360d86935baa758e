//! Cases of supplements laid one over another, made for one answer each.

use super::aims::Expect::{Accepted, Count, Fine, Goal, Refused, Same};
use super::aims::{enough_levels, laid, laid_into, laying, stored, stored_supplement, too_short};
use super::calls::CallAim;
use super::case::{Case, SupplementCall};
use super::draft::{replacement, Draft};
use super::faults::Lines;
use super::low_water::{
    law_at, laws, neither, odd, of_mask, spoilt, with_beyond, BEYOND, FREE_GOAL, LOW,
};
use super::random::Random;
use super::supplements::{
    all_replaced, longest_lines, many_laws, some_lines, supplement, two, Meeting,
};
use super::{shapes, sheets};
use crate::line::MAX_FRAME;
use crate::refusal::*;
use crate::store::STORE_BYTES;
use crate::supplement::SUPPLEMENT_BYTES;

/// The pool's goal replaced by one that is never met.
const NO_GOAL: &[u8] = &[0xAF, 4, 4, 0xA9, 0x28, 0x2A];

/// Bytes of the longest supplement.
const LONGEST: usize = 128 * MAX_FRAME;

fn any_two(r: &mut Random) -> (Draft, [Lines; 2]) {
    let meetings = [Meeting::Disjoint, Meeting::Overlapping, Meeting::Equal];
    let meeting = *r.pick(&meetings);
    two(r, meeting)
}

/// Which of domain, lower and upper one are not what they should be.
pub type Wrong = (&'static str, [bool; 3]);

pub const WRONG: &[Wrong] = &[
    ("no domain", [true, false, false]),
    ("no lower one", [false, true, false]),
    ("no upper one", [false, false, true]),
    ("neither domain nor lower one", [true, true, false]),
    ("neither domain nor upper one", [true, false, true]),
    ("neither lower nor upper one", [false, true, true]),
    ("neither domain, lower nor upper one", [true; 3]),
];

/// A laying with these parts spoilt.
pub fn wrong(r: &mut Random, spoil: [bool; 3], result: Vec<u8>) -> Case {
    let (draft, [lower, upper]) = any_two(r);
    let mut parts = [draft.bytes(), lower.concat(), upper.concat()];
    for (part, spoil) in parts.iter_mut().zip(spoil) {
        if spoil {
            *part = spoilt(r, std::mem::take(part));
        }
    }
    let [store, lower, upper] = parts;
    laid_into(result, store, lower, upper)
}

/// A result of so many bytes for two supplements of the pool.
fn with_room(r: &mut Random, room: usize) -> Case {
    let store = stored(r, Draft::pool().bytes());
    laid_into(r.bytes(room), store, NO_GOAL.to_vec(), FREE_GOAL.to_vec())
}

fn pool_laid(r: &mut Random, lower: &[u8], upper: &[u8]) -> Case {
    let store = stored(r, Draft::pool().bytes());
    let [lower, upper] = [lower, upper].map(|bytes| stored_supplement(r, bytes.to_vec()));
    laid(r, store, lower, upper)
}

/// A supplement with a byte after it, at once or after zeros.
fn with_byte_after(r: &mut Random, mut bytes: Vec<u8>) -> Vec<u8> {
    let zeros = *r.pick(&[0, 1, 2, 255, 256, 3000]);
    bytes.resize(bytes.len() + zeros, 0);
    bytes.push(r.from_to(1, 255) as u8);
    bytes
}

/// Layings one after another, of supplements by their places in the list, with
/// results of one length.
fn series(
    r: &mut Random,
    draft: &Draft,
    supplements: &[Lines],
    places: &[(usize, usize)],
    whole: fn(&mut Random) -> bool,
) -> Case {
    let room = SUPPLEMENT_BYTES + r.below(40);
    let call = |r: &mut Random, (lower, upper)| SupplementCall::Lay {
        lower,
        upper,
        result: r.bytes(room),
        whole: whole(r),
    };
    Case::Supplements {
        store: stored(r, draft.bytes()),
        supplements: in_stores(r, supplements),
        calls: places.iter().map(|&place| call(r, place)).collect(),
    }
}

fn in_stores(r: &mut Random, supplements: &[Lines]) -> Vec<Vec<u8>> {
    let stores = supplements.iter();
    stores
        .map(|lines| stored_supplement(r, lines.concat()))
        .collect()
}

fn either_way(r: &mut Random) -> bool {
    r.one_in(2)
}

/// Three laid, and which pair is first makes no difference: of the places 0, 1
/// and 2, both pairs and then each with the third.
const THREE: &[(usize, usize)] = &[(0, 1), (1, 2), (3, 2), (0, 4)];

fn three(r: &mut Random, whole: fn(&mut Random) -> bool) -> Case {
    let draft = Draft::random(r);
    let supplements = [(); 3].map(|()| supplement(r, &draft));
    series(r, &draft, &supplements, THREE, whole)
}

/// A supplement and the empty one, laid by their places 0 and 1.
fn with_empty(r: &mut Random, places: &[(usize, usize)]) -> Case {
    let (draft, lines) = some_lines(r);
    series(r, &draft, &[lines, vec![]], places, either_way)
}

/// Two supplements and the empty one, laid by their places 0, 1 and 2.
fn two_with_empty(r: &mut Random, meeting: Meeting, places: &[(usize, usize)]) -> Case {
    let (draft, [lower, upper]) = two(r, meeting);
    series(r, &draft, &[lower, upper, vec![]], places, either_way)
}

/// The lower one's law numbers and the upper one's, over a domain of 128 laws.
fn of_numbers(r: &mut Random, numbers: [std::ops::Range<usize>; 2]) -> (Draft, [Lines; 2]) {
    let draft = many_laws(r);
    let lines = numbers.map(|numbers| all_replaced(r, &draft, numbers.rev()));
    (draft, lines)
}

/// Two laid over each other, then another call on the result.
fn then(
    r: &mut Random,
    draft: &Draft,
    supplements: &[Lines],
    call: impl FnOnce(usize) -> SupplementCall,
) -> Case {
    Case::Supplements {
        store: stored(r, draft.bytes()),
        supplements: in_stores(r, supplements),
        calls: vec![laying(r, 0, 1), call(supplements.len())],
    }
}

/// Two laid over each other, and the laws in force of these numbers.
fn then_laws(r: &mut Random, draft: &Draft, supplements: &[Lines], numbers: Vec<usize>) -> Case {
    then(r, draft, supplements, |supplement| SupplementCall::Laws {
        supplement,
        numbers,
    })
}

/// Two laid over each other, and a sheet judged under them.
fn then_judge(r: &mut Random, draft: &Draft, supplements: &[Lines], sheet: &[u8]) -> Case {
    let levels = enough_levels(r);
    then(r, draft, supplements, |supplement| SupplementCall::Judge {
        supplement,
        sheet: sheet.to_vec(),
        levels,
    })
}

/// The pool's goals, one over the other.
fn goals(lower: &[u8], upper: &[u8]) -> [Lines; 2] {
    [vec![lower.to_vec()], vec![upper.to_vec()]]
}

/// The five laws of a domain of each kind in force, those of the masks being
/// given by the lower and by the upper one.
fn each_kind(r: &mut Random, masks: [u8; 2]) -> Case {
    let draft = Draft::of_each_kind();
    let lines = masks.map(|mask| of_mask(r, &draft, mask));
    then_laws(r, &draft, &lines, (0..6).collect())
}

/// The longest domain, and so many of the longest supplements for it.
fn longest<const N: usize>(r: &mut Random) -> (Draft, [Lines; N]) {
    let draft = shapes::longest(r);
    let supplements = [(); N].map(|()| longest_lines(r, &draft));
    (draft, supplements)
}

/// A laying that is refused, then the pool judged under its result, which was a
/// supplement before.
fn refused_then_judge(r: &mut Random, lower: Vec<u8>, upper: Vec<u8>, room: usize) -> Case {
    let mut result = FREE_GOAL.to_vec();
    result.resize(room, 0);
    Case::Supplements {
        store: stored(r, Draft::pool().bytes()),
        supplements: vec![lower, upper],
        calls: vec![
            SupplementCall::Lay {
                lower: 0,
                upper: 1,
                result,
                whole: true,
            },
            SupplementCall::Judge {
                supplement: 2,
                sheet: LOW.to_vec(),
                levels: enough_levels(r),
            },
        ],
    }
}

pub const LAYING: &[CallAim] = &[
    ("lay: result short", Refused(BUFFER), |r| {
        let result = too_short(r, SUPPLEMENT_BYTES);
        wrong(r, [false; 3], result)
    }),
    ("lay: result of no bytes", Refused(BUFFER), |r| {
        with_room(r, 0)
    }),
    ("lay: result of 15,999 bytes", Refused(BUFFER), |r| {
        with_room(r, 15_999)
    }),
    ("lay: result of 16,000 bytes", Count(FREE_GOAL.len()), |r| {
        with_room(r, 16_000)
    }),
    ("lay: result of 16,001 bytes", Count(FREE_GOAL.len()), |r| {
        with_room(r, 16_001)
    }),
    ("lay: longer result", Count(FREE_GOAL.len()), |r| {
        let room = r.from_to(16_002, 60_000);
        with_room(r, room)
    }),
    ("lay: stores exchanged", Refused(STORE), |r| {
        let (draft, [lower, upper]) = any_two(r);
        let [lower, upper] = [lower, upper].map(|lines| lines.concat());
        match r.one_in(2) {
            true => laid(r, lower, draft.bytes(), upper),
            false => laid(r, upper, lower, draft.bytes()),
        }
    }),
    ("lay: lower one of another domain", Refused(STORE), |r| {
        // The pool's law 1 is an A5.
        let other = replacement(1, Draft::of_each_kind().law(1));
        pool_laid(r, &other, FREE_GOAL)
    }),
    ("lay: upper one of another domain", Refused(STORE), |r| {
        let other = replacement(1, Draft::of_each_kind().law(1));
        pool_laid(r, FREE_GOAL, &other)
    }),
    ("lay: both of another domain", Refused(STORE), |r| {
        let other = replacement(1, Draft::of_each_kind().law(1));
        pool_laid(r, &other, &other)
    }),
    ("lay: number twice in the lower one", Refused(STORE), |r| {
        let twice = [FREE_GOAL, NO_GOAL].concat();
        pool_laid(r, &twice, FREE_GOAL)
    }),
    ("lay: number twice in the upper one", Refused(STORE), |r| {
        let twice = [FREE_GOAL, FREE_GOAL].concat();
        pool_laid(r, FREE_GOAL, &twice)
    }),
    ("lay: byte after the lower one", Refused(STORE), |r| {
        let lower = with_byte_after(r, FREE_GOAL.to_vec());
        pool_laid(r, &lower, NO_GOAL)
    }),
    ("lay: byte after the upper one", Refused(STORE), |r| {
        let upper = with_byte_after(r, FREE_GOAL.to_vec());
        pool_laid(r, NO_GOAL, &upper)
    }),
    ("lay: byte after an empty lower one", Refused(STORE), |r| {
        let lower = with_byte_after(r, vec![0]);
        pool_laid(r, &lower, FREE_GOAL)
    }),
    ("lay: byte after an empty upper one", Refused(STORE), |r| {
        let upper = with_byte_after(r, vec![0]);
        pool_laid(r, FREE_GOAL, &upper)
    }),
    (
        "lay: number in both, once each",
        Count(NO_GOAL.len()),
        |r| pool_laid(r, FREE_GOAL, NO_GOAL),
    ),
    (
        "lay: equal laws of one number",
        Count(FREE_GOAL.len()),
        |r| pool_laid(r, FREE_GOAL, FREE_GOAL),
    ),
    ("lay: both of length 0", Count(0), |r| {
        let store = stored(r, Draft::pool().bytes());
        laid(r, store, vec![], vec![])
    }),
    ("lay: both of zeros", Count(0), |r| {
        let lengths = [1, 2, 3, SUPPLEMENT_BYTES, SUPPLEMENT_BYTES + 1];
        let [lower, upper] = [(); 2].map(|()| vec![0; *r.pick(&lengths)]);
        laid(r, Draft::pool().store(), lower, upper)
    }),
    ("lay: disjoint numbers", Fine, |r| {
        two_with_empty(r, Meeting::Disjoint, &[(0, 1)])
    }),
    ("lay: overlapping numbers", Fine, |r| {
        two_with_empty(r, Meeting::Overlapping, &[(0, 1)])
    }),
    ("lay: equal numbers", Fine, |r| {
        two_with_empty(r, Meeting::Equal, &[(0, 1)])
    }),
    ("lay: over length 0", Count(FREE_GOAL.len()), |r| {
        let store = stored(r, Draft::pool().bytes());
        laid(r, store, vec![], FREE_GOAL.to_vec())
    }),
    ("lay: under length 0", Count(FREE_GOAL.len()), |r| {
        let store = stored(r, Draft::pool().bytes());
        laid(r, store, FREE_GOAL.to_vec(), vec![])
    }),
    ("lay: over zeros", Count(FREE_GOAL.len()), |r| {
        let store = stored(r, Draft::pool().bytes());
        laid(r, store, vec![0; 7], FREE_GOAL.to_vec())
    }),
    ("lay: under zeros", Count(FREE_GOAL.len()), |r| {
        let store = stored(r, Draft::pool().bytes());
        laid(r, store, FREE_GOAL.to_vec(), vec![0; 7])
    }),
    (
        "lay: three stores of odd lengths",
        Count(FREE_GOAL.len()),
        |r| {
            let store = odd(r, Draft::pool().bytes());
            let [lower, upper] = [NO_GOAL, FREE_GOAL].map(|bytes| odd(r, bytes.to_vec()));
            laid(r, store, lower, upper)
        },
    ),
    (
        "lay: stores longer than asked",
        Count(FREE_GOAL.len()),
        |r| {
            let mut longer = |mut bytes: Vec<u8>, named: usize| {
                bytes.resize(named + r.from_to(1, 9_000), 0);
                bytes
            };
            let store = longer(Draft::pool().bytes(), STORE_BYTES);
            let lower = longer(NO_GOAL.to_vec(), SUPPLEMENT_BYTES);
            let upper = longer(FREE_GOAL.to_vec(), SUPPLEMENT_BYTES);
            laid(r, store, lower, upper)
        },
    ),
    ("lay: empty over another and under it", Same, |r| {
        with_empty(r, &[(0, 1), (1, 0)])
    }),
    ("lay: over itself and under the empty one", Same, |r| {
        with_empty(r, &[(0, 1), (0, 0)])
    }),
    ("lay: in order already", Same, |r| {
        with_empty(r, &[(0, 1), (2, 1)])
    }),
    ("lay: result over itself", Same, |r| {
        with_empty(r, &[(1, 0), (2, 2)])
    }),
    ("lay: in falling and in rising order", Same, |r| {
        let (draft, mut lines) = some_lines(r);
        lines.sort_by_key(|line| line[2]);
        let rising = lines.clone();
        lines.reverse();
        let supplements = [lines, rising, vec![]];
        series(r, &draft, &supplements, &[(0, 2), (1, 2)], either_way)
    }),
    ("lay: disjoint numbers, either one upper", Same, |r| {
        two_with_empty(r, Meeting::Disjoint, &[(0, 1), (1, 0)])
    }),
    ("lay: equal numbers hide the lower one", Same, |r| {
        two_with_empty(r, Meeting::Equal, &[(0, 1), (2, 1)])
    }),
    ("lay: result under the upper one again", Same, |r| {
        two_with_empty(r, Meeting::Overlapping, &[(0, 1), (3, 1)])
    }),
    ("lay: result over the lower one again", Same, |r| {
        two_with_empty(r, Meeting::Overlapping, &[(0, 1), (0, 3)])
    }),
    ("lay: three, whole results handed on", Same, |r| {
        three(r, |_| true)
    }),
    ("lay: three, bytes used handed on", Same, |r| {
        three(r, |_| false)
    }),
    ("lay: three, handed on one way or the other", Same, |r| {
        three(r, either_way)
    }),
    ("lay: three, one of them twice", Same, |r| {
        let (draft, [lower, upper]) = any_two(r);
        let supplements = [lower.clone(), upper, lower];
        series(r, &draft, &supplements, THREE, either_way)
    }),
    ("lay: three, one of them empty", Same, |r| {
        let (draft, [lower, upper]) = any_two(r);
        let mut supplements = [lower, upper, vec![]];
        supplements.rotate_right(r.below(3));
        series(r, &draft, &supplements, THREE, either_way)
    }),
    ("lay: four, from below and from above", Same, |r| {
        let draft = Draft::random(r);
        let supplements = [(); 4].map(|()| supplement(r, &draft));
        let places = [(0, 1), (2, 3), (4, 2), (1, 5), (6, 3), (0, 7)];
        series(r, &draft, &supplements, &places, either_way)
    }),
    ("lay: the longest over the longest", Count(LONGEST), |r| {
        let (draft, supplements) = longest::<2>(r);
        series(r, &draft, &supplements, &[(0, 1)], either_way)
    }),
    ("lay: three of the longest", Same, |r| {
        let (draft, supplements) = longest::<3>(r);
        series(r, &draft, &supplements, THREE, either_way)
    }),
    ("lay: the longest in two halves", Count(LONGEST), |r| {
        let (draft, [mut lower]) = longest(r);
        let upper = lower.split_off(r.from_to(1, 127));
        series(r, &draft, &[lower, upper], &[(0, 1)], either_way)
    }),
    ("lay: some of the longest over all", Count(LONGEST), |r| {
        let (draft, [lower, mut upper]) = longest(r);
        upper.truncate(r.from_to(1, 127));
        series(r, &draft, &[lower, upper], &[(0, 1)], either_way)
    }),
    ("lay: all of the longest over some", Count(LONGEST), |r| {
        let (draft, [mut lower, upper]) = longest(r);
        lower.truncate(r.from_to(1, 127));
        series(r, &draft, &[lower, upper], &[(0, 1)], either_way)
    }),
    ("lay: 129 lines for the lower one", Refused(STORE), |r| {
        let (draft, [mut lower, upper]) = longest(r);
        lower.push(lower[0].clone());
        series(r, &draft, &[lower, upper], &[(0, 1)], either_way)
    }),
    ("lay: 129 lines for the upper one", Refused(STORE), |r| {
        let (draft, [lower, mut upper]) = longest(r);
        upper.push(upper[0].clone());
        series(r, &draft, &[lower, upper], &[(0, 1)], either_way)
    }),
    ("lay and judge_under: no room, result kept", Accepted, |r| {
        let room = r.from_to(FREE_GOAL.len(), SUPPLEMENT_BYTES - 1);
        refused_then_judge(r, NO_GOAL.to_vec(), vec![], room)
    }),
    (
        "lay and judge_under: no lower one, result kept",
        Accepted,
        |r| {
            let lower = neither(r);
            refused_then_judge(r, lower, NO_GOAL.to_vec(), SUPPLEMENT_BYTES)
        },
    ),
    (
        "lay and judge_under: no upper one, result kept",
        Accepted,
        |r| {
            let upper = neither(r);
            refused_then_judge(r, NO_GOAL.to_vec(), upper, SUPPLEMENT_BYTES)
        },
    ),
    (
        "lay and judge_under: goal of the upper one",
        Accepted,
        |r| then_judge(r, &Draft::pool(), &goals(NO_GOAL, FREE_GOAL), LOW),
    ),
    (
        "lay and judge_under: goal of the lower one hidden",
        Goal(8),
        |r| then_judge(r, &Draft::pool(), &goals(FREE_GOAL, NO_GOAL), LOW),
    ),
    (
        "lay and judge_under: goal of the domain again",
        Goal(8),
        |r| {
            let own = replacement(4, Draft::pool().law(4));
            then_judge(r, &Draft::pool(), &goals(FREE_GOAL, &own), LOW)
        },
    ),
    (
        "lay and judge_under: goal of the lower one alone",
        Accepted,
        |r| {
            let other = replacement(0, Draft::pool().law(0));
            then_judge(r, &Draft::pool(), &goals(FREE_GOAL, &other), LOW)
        },
    ),
    ("lay and judge_under: random sheets", Fine, |r| {
        let (draft, lines) = any_two(r);
        let [lower, upper] = &lines;
        let replaced = draft.clone().replaced_by(lower).replaced_by(upper);
        let sheet = sheets::sheet(r, &replaced);
        then_judge(r, &draft, &lines, &sheet)
    }),
    ("lay and judge_under: the longest", Fine, |r| {
        let (draft, supplements) = longest::<2>(r);
        let sheet: Vec<_> = (0..64).flat_map(|_| sheets::step(r, &draft)).collect();
        then_judge(r, &draft, &supplements, &sheet)
    }),
    ("lay and law: the upper one's", law_at(true, 4, 2), |r| {
        then_laws(r, &Draft::pool(), &goals(FREE_GOAL, NO_GOAL), vec![4])
    }),
    (
        "lay and law: the upper one's, shorter",
        law_at(true, 4, 1),
        |r| then_laws(r, &Draft::pool(), &goals(NO_GOAL, FREE_GOAL), vec![4]),
    ),
    (
        "lay and law: the lower one's, now first",
        law_at(true, 4, 8),
        |r| {
            let first = replacement(0, Draft::pool().law(0));
            let lower = vec![FREE_GOAL.to_vec(), first];
            then_laws(r, &Draft::pool(), &[lower, vec![]], vec![0])
        },
    ),
    (
        "lay and law: the lower one's, now last",
        law_at(true, 16, 1),
        |r| {
            let first = replacement(0, Draft::pool().law(0));
            then_laws(r, &Draft::pool(), &goals(FREE_GOAL, &first), vec![4])
        },
    ),
    ("lay and law: the domain's", law_at(false, 72, 7), |r| {
        let first = replacement(0, Draft::pool().law(0));
        then_laws(r, &Draft::pool(), &goals(&first, &first), vec![4])
    }),
    ("lay and law: no such law", Refused(OTHER_LAW), |r| {
        let number = *r.pick(&[5, 6, 255, BEYOND[0]]);
        then_laws(r, &Draft::pool(), &goals(FREE_GOAL, NO_GOAL), vec![number])
    }),
    ("lay and law: every number, disjoint", laws(68, 60), |r| {
        let (draft, lines) = of_numbers(r, [20..50, 90..120]);
        then_laws(r, &draft, &lines, with_beyond())
    }),
    (
        "lay and law: every number, overlapping",
        laws(28, 100),
        |r| {
            let (draft, lines) = of_numbers(r, [0..60, 40..100]);
            then_laws(r, &draft, &lines, with_beyond())
        },
    ),
    (
        "lay and law: every number, all in both",
        laws(0, 128),
        |r| {
            let (draft, lines) = of_numbers(r, [0..128, 0..128]);
            then_laws(r, &draft, &lines, with_beyond())
        },
    ),
    ("lay and law: each kind in the lower one", laws(0, 5), |r| {
        each_kind(r, [0x1F, 0])
    }),
    ("lay and law: each kind in the upper one", laws(0, 5), |r| {
        each_kind(r, [0, 0x1F])
    }),
    ("lay and law: each kind in both", laws(0, 5), |r| {
        each_kind(r, [0x1F, 0x1F])
    }),
    (
        "lay and law: kinds of one and of the other",
        laws(1, 4),
        |r| each_kind(r, [0x03, 0x18]),
    ),
    ("lay and law: a kind of both", laws(2, 3), |r| {
        each_kind(r, [0x06, 0x0C])
    }),
];
