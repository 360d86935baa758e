//! Cases of the report, made for one answer each.

use super::aims::Expect::{self, Figures, Fine, Printed, Refused, Sheets, Silent};
use super::aims::{printing_by, too_short, Aim};
use super::calls::CallAim;
use super::case::Case;
use super::draft::{frame, law, sheet_text, text_of, Draft};
use super::laws::constant;
use super::random::Random;
use super::shapes::{longest, sized};
use super::sheets;
use crate::judge::{judge, Verdict, LEVELS};
use crate::line::MAX_PAYLOAD;
use crate::program::{Program, MAX_INPUT, OUTPUT_BYTES};
use crate::refusal::*;
use crate::report::{LONGEST_INPUT, MARK, MAX_SHEETS};
use crate::sheet::MAX_STEPS;

/// A domain's text and sheets' texts, each behind its mark.
pub fn input_of(domain: &[u8], sheets: &[Vec<u8>]) -> Vec<u8> {
    let mut input = domain.to_vec();
    for sheet in sheets {
        input.extend(MARK);
        input.extend(sheet);
    }
    input
}

/// The report's call on an input, with room for what it prints.
pub fn reporting(r: &mut Random, input: Vec<u8>) -> Case {
    printing_by(Program::Report, r, input)
}

/// Whether a mark stands in a text.
pub fn has_mark(text: &[u8]) -> bool {
    let mut lines = text.split_inclusive(|&character| character == b'\n');
    lines.any(|line| line == MARK)
}

/// Whether a domain accepts the sheet of no steps.
pub fn accepts_empty(draft: &Draft) -> bool {
    let judged = judge(&draft.bytes(), &[], &mut [0; LEVELS]);
    judged.is_ok_and(|judged| judged.verdict == Verdict::Accepted)
}

/// Where a sheet stands among others.
#[derive(Clone, Copy, PartialEq, Eq)]
pub enum Place {
    First,
    Middle,
    Last,
}

pub const PLACES: &[(&str, Place)] = &[
    ("first", Place::First),
    ("middle", Place::Middle),
    ("last", Place::Last),
];

/// A sheet's text at its place among others that are made so. Where it is refused,
/// what stands behind it may be anything.
pub fn among(
    r: &mut Random,
    place: Place,
    text: Vec<u8>,
    refused: bool,
    other: impl Fn(&mut Random) -> Vec<u8>,
) -> Vec<Vec<u8>> {
    let (before, behind) = match place {
        Place::First => (0, r.from_to(1, 3)),
        Place::Middle => (r.from_to(1, 3), r.from_to(1, 3)),
        Place::Last => (*r.pick(&[0, 1, 2, MAX_SHEETS - 1]), 0),
    };
    let mut sheets: Vec<_> = (0..before).map(|_| other(r)).collect();
    sheets.push(text);
    for _ in 0..behind {
        let any: [&[u8]; 4] = [b"x\n", b"\n", b"B100\n", b"A10102\n"];
        sheets.push(match refused && r.one_in(2) {
            true => r.pick(&any).to_vec(),
            false => other(r),
        });
    }
    sheets
}

/// The pool's text.
fn pool() -> Vec<u8> {
    Draft::pool().text()
}

/// Sheets that the pool accepts, and some that it does not: kinds 4, 1, 8 and 2.
const ACCEPTED: &[&[u8]] = &[&[], &[0, 0], &[1, 0], &[1, 0, 0, 2], &[0, 2, 0, 2, 0, 2]];
const BROKEN: &[&[u8]] = &[&[1, 2], &[0, 0, 2, 0], &[1, 0, 1, 0], &SEVEN];
const SEVEN: [u8; 14] = [1, 0, 1, 0, 1, 0, 1, 0, 1, 0, 1, 0, 1, 0];

fn accepted(r: &mut Random) -> Vec<u8> {
    sheet_text(r.pick::<&[u8]>(ACCEPTED), 2)
}

fn broken(r: &mut Random) -> Vec<u8> {
    sheet_text(r.pick::<&[u8]>(BROKEN), 2)
}

fn accepted_or_broken(r: &mut Random) -> Vec<u8> {
    match r.one_in(2) {
        true => accepted(r),
        false => broken(r),
    }
}

/// So many sheets of the pool.
fn some(r: &mut Random, sheets: usize) -> Vec<Vec<u8>> {
    (0..sheets).map(|_| accepted_or_broken(r)).collect()
}

/// The pool and so many accepted and broken sheets, in any order.
fn of_each(r: &mut Random, to_accept: usize, to_break: usize) -> Case {
    let mut left = [to_accept, to_break];
    let mut sheets = Vec::new();
    while left != [0, 0] {
        let which = usize::from(left[0] == 0 || (left[1] > 0 && r.one_in(2)));
        left[which] -= 1;
        sheets.push(if which == 0 { accepted(r) } else { broken(r) });
    }
    reporting(r, input_of(&pool(), &sheets))
}

/// The pool and these sheets of it.
fn over_pool(r: &mut Random, sheets: &[Vec<u8>]) -> Case {
    reporting(r, input_of(&pool(), sheets))
}

/// The pool and sheets, one of which, by its number from 1, has this text.
fn with_sheet(r: &mut Random, sheets: usize, number: usize, text: Vec<u8>) -> Case {
    let mut all = some(r, sheets);
    all[number - 1] = text;
    over_pool(r, &all)
}

/// A sheet's text that is refused, with 18 if it is too long.
fn refused_text(r: &mut Random, too_long: bool) -> Vec<u8> {
    match too_long {
        true => sized_text(b"", b"x", MAX_INPUT + r.from_to(1, 3), true),
        false => b"B102010\n".to_vec(),
    }
}

/// A text that begins so and then has this again and again, up to a size.
fn sized_text(start: &[u8], again: &[u8], size: usize, ends_line: bool) -> Vec<u8> {
    let mut text = start.to_vec();
    text.extend(again.iter().cycle().take(size - start.len()));
    text[size - 1] = if ends_line { b'\n' } else { b'0' };
    text
}

/// What a text consists of, and the refusal if it is not too long.
type Filling = (&'static str, u8, fn(&mut Random) -> Vec<u8>);

/// Behind the pool's lines.
const OF_A_DOMAIN: &[Filling] = &[
    ("empty lines", LINE, |_| b"\n".to_vec()),
    ("short lines", TOO_MANY, |_| b"A9012A\n".to_vec()),
    ("long lines", TOO_MANY, |r| {
        text_of(&[sized(r, &Draft::pool(), 0xA9, 0, MAX_PAYLOAD)])
    }),
    ("one line", LINE, |_| b"x".to_vec()),
    ("lines that end as a mark does", LINE, |_| {
        b"xB000\n".to_vec()
    }),
    ("lines that begin as a mark does", LINE, |_| {
        b"B000\r\n".to_vec()
    }),
];

const OF_A_SHEET: &[Filling] = &[
    ("empty lines", LINE, |_| b"\n".to_vec()),
    ("lines of a byte", COUNT, |_| b"B1\n".to_vec()),
    ("lines of a domain", KIND, |_| b"A10102\n".to_vec()),
    ("steps", STEP_65, |_| b"B1020000\n".to_vec()),
    ("long lines", NOT_WHOLE, |r| {
        text_of(&[frame(0xB1, &r.bytes(MAX_PAYLOAD))])
    }),
    ("one line", LINE, |_| b"x".to_vec()),
    ("lines that end as a mark does", COUNT, |_| {
        b"00B000\n".to_vec()
    }),
    ("lines that begin as a mark does", LINE, |_| {
        b"B0000\n".to_vec()
    }),
];

/// How a text ends.
#[derive(Clone, Copy, PartialEq, Eq)]
enum End {
    Marked,
    Last,
    NoLf,
}

const ENDS: &[(&str, End)] = &[
    ("before a mark", End::Marked),
    ("at the input's end", End::Last),
    ("without LF", End::NoLf),
];

/// Texts of the most bytes that are allowed and of one more.
fn sizes(aims: &mut Vec<Aim>) {
    for (size, too_long) in [(MAX_INPUT, false), (MAX_INPUT + 1, true)] {
        for &(end_label, end) in ENDS {
            let ends_line = end != End::NoLf;
            let expect = |number| Refused(if too_long { INPUT } else { number });
            for &(label, number, filling) in OF_A_DOMAIN {
                let label = format!("report: domain of {size} bytes, {label}, {end_label}");
                add(aims, label, expect(number), move |r| {
                    let text = sized_text(&pool(), &filling(r), size, ends_line);
                    let behind = usize::from(end == End::Marked) * r.from_to(1, 3);
                    let sheets = some(r, behind);
                    reporting(r, input_of(&text, &sheets))
                });
            }
            for &(label, number, filling) in OF_A_SHEET {
                let label = format!("report: sheet of {size} bytes, {label}, {end_label}");
                add(aims, label, expect(number), move |r| {
                    let text = sized_text(b"", &filling(r), size, ends_line);
                    let place = match end {
                        End::Marked => *r.pick(&[Place::First, Place::Middle]),
                        _ => Place::Last,
                    };
                    let sheets = among(r, place, text, true, accepted_or_broken);
                    over_pool(r, &sheets)
                });
            }
        }
    }
}

/// Lines that are nearly marks, and the refusal of each in a domain as in a sheet.
pub const NEARLY_MARKS: &[(&str, u8, &[u8])] = &[
    ("lower case", LINE, b"b000\n"),
    ("carriage return", LINE, b"B000\r\n"),
    ("space behind", LINE, b"B000 \n"),
    ("space before", LINE, b" B000\n"),
    ("space inside", LINE, b"B0 00\n"),
    ("tab before", LINE, b"\tB000\n"),
    ("byte 0 behind", LINE, b"B000\0\n"),
    ("byte order mark before", LINE, b"\xEF\xBB\xBFB000\n"),
    ("letters O", LINE, b"BOOO\n"),
    ("a digit too many", LINE, b"B0000\n"),
    ("a digit too few", LINE, b"B00\n"),
    ("a digit before", LINE, b"0B000\n"),
    ("empty line before", LINE, b"\nB000\n"),
    ("a byte too many", COUNT, b"B00000\n"),
    ("a byte too few", COUNT, b"B0\n"),
    ("a byte before", COUNT, b"00B000\n"),
    ("bytes exchanged", COUNT, b"00B0\n"),
    ("twice in a line", COUNT, b"B000B000\n"),
    ("a payload", KIND, b"B00100\n"),
    ("the kind of a supplement", KIND, b"AF00\n"),
    ("another kind", KIND, b"B200\n"),
];

/// A line that is nearly a mark, where a mark should stand.
fn nearly_marks(aims: &mut Vec<Aim>) {
    for &(label, number, line) in NEARLY_MARKS {
        let in_domain = format!("report: for the first mark, {label}");
        add(aims, in_domain, Refused(number), move |r| {
            let sheets = r.below(3);
            let (first, more) = (accepted_or_broken(r), some(r, sheets));
            let domain = [&pool(), line, &first].concat();
            reporting(r, input_of(&domain, &more))
        });
        let in_sheet = format!("report: for a later mark, {label}");
        add(aims, in_sheet, Refused(number), move |r| {
            let (first, second) = (accepted_or_broken(r), accepted_or_broken(r));
            let text = [&first, line, &second].concat();
            let place = r.pick(PLACES).1;
            let sheets = among(r, place, text, true, accepted_or_broken);
            over_pool(r, &sheets)
        });
    }
}

/// So many sheets, all accepted, all broken, and both.
fn numbers_of_sheets(aims: &mut Vec<Aim>) {
    for sheets in [0, 1, 2, MAX_SHEETS - 1, MAX_SHEETS] {
        let mut accepted = vec![0, sheets / 2, sheets];
        accepted.dedup();
        for accepted in accepted {
            let broken = sheets - accepted;
            let label = format!("report: {accepted} accepted and {broken} broken sheets");
            let expect = Sheets { accepted, broken };
            add(aims, label, expect, move |r| of_each(r, accepted, broken));
        }
    }
    for sheets in [MAX_SHEETS + 1, MAX_SHEETS + 2] {
        let label = format!("report: {sheets} sheets");
        add(aims, label, Refused(SHEET_41), move |r| {
            let all = some(r, sheets);
            over_pool(r, &all)
        });
    }
}

fn add(
    aims: &mut Vec<Aim>,
    label: String,
    expect: Expect,
    make: impl Fn(&mut Random) -> Case + 'static,
) {
    let make = Box::new(make);
    aims.push(Aim {
        label,
        expect,
        make,
    });
}

pub fn aims() -> Vec<Aim> {
    let mut aims = Vec::new();
    numbers_of_sheets(&mut aims);
    nearly_marks(&mut aims);
    sizes(&mut aims);
    for &(label, expect, make) in REPORT {
        add(&mut aims, label.to_string(), expect, make);
    }
    aims
}

/// One agent, an action 1, and fluents that start so and may have any value; the
/// action sets the first of them.
fn any_levels(starts: &[i16], set: i16) -> Draft {
    let fluents: Vec<_> = starts.iter().map(|&s| [i16::MIN, i16::MAX, s]).collect();
    let mut draft = Draft::new(1, &fluents, &[(1, 1)]).free();
    draft.insert(law(0xA6, &[&[0, 0x2A, 0], &constant(set)]));
    draft
}

/// A domain and sheets of it, given by their names.
fn of_names(r: &mut Random, draft: &Draft, sheets: &[Vec<u8>]) -> Case {
    let texts: Vec<_> = sheets
        .iter()
        .map(|names| sheet_text(names, draft.agents))
        .collect();
    reporting(r, input_of(&draft.text(), &texts))
}

/// As many sheets and steps as is allowed, of as many agents, fluents and entries;
/// in each step each agent acts.
fn most_steps(r: &mut Random) -> Case {
    let draft = Draft::crowded().free();
    let names = |place: usize| 1 + ((place + place / 16) % 4) as u8;
    let sheet: Vec<_> = (0..16 * MAX_STEPS).map(names).collect();
    of_names(r, &draft, &vec![sheet; MAX_SHEETS])
}

const REPORT: &[CallAim] = &[
    (
        "report: the paper's two sheets",
        Printed("SHEETS 1 1\nF 0 286 300 586 2\n"),
        |r| over_pool(r, &[b"B1020100\n".to_vec(), b"B1020102\n".to_vec()]),
    ),
    ("report: no mark", Printed("SHEETS 0 0\n"), |r| {
        reporting(r, pool())
    }),
    (
        "report: a mark and nothing behind it",
        Printed("SHEETS 1 0\nF 0 300 300 300 1\n"),
        |r| over_pool(r, &[vec![]]),
    ),
    (
        "report: empty sheets",
        Printed("SHEETS 3 0\nF 0 300 300 900 3\n"),
        |r| over_pool(r, &[vec![], vec![], vec![]]),
    ),
    ("report: sheets all broken", Printed("SHEETS 0 2\n"), |r| {
        over_pool(r, &[b"B1020102\n".to_vec(), b"B1020200\n".to_vec()])
    }),
    (
        "report: broken at the goal, and no value of it counts",
        Printed("SHEETS 2 1\nF 0 286 300 886 3\n"),
        |r| {
            let [one, low] = [&[1, 0][..], &[1, 0, 1, 0]].map(|names| sheet_text(names, 2));
            over_pool(r, &[one, low, vec![]])
        },
    ),
    ("report: no bytes", Refused(INCOMPLETE), |r| {
        reporting(r, vec![])
    }),
    ("report: a mark first", Refused(INCOMPLETE), |r| {
        let sheets = some(r, 2);
        reporting(r, input_of(b"", &sheets))
    }),
    ("report: first mark without LF", Refused(LINE), |r| {
        reporting(r, [&pool(), &b"B000"[..]].concat())
    }),
    ("report: later mark without LF", Refused(LINE), |r| {
        let text = [&accepted_or_broken(r), &b"B000"[..]].concat();
        let sheets = among(r, Place::Last, text, true, accepted_or_broken);
        over_pool(r, &sheets)
    }),
    ("report: 41st mark without LF", Refused(LINE), |r| {
        with_sheet(r, MAX_SHEETS, MAX_SHEETS, b"B000".to_vec())
    }),
    (
        "report: 41st mark alone at the end",
        Refused(SHEET_41),
        |r| with_sheet(r, MAX_SHEETS + 1, MAX_SHEETS + 1, vec![]),
    ),
    ("report: a step before the first mark", Refused(KIND), |r| {
        let sheets = some(r, 2);
        let domain = [&pool(), &b"B1020000\n"[..]].concat();
        reporting(r, input_of(&domain, &sheets))
    }),
    (
        "report: a step of no names before the first mark",
        Refused(KIND),
        |r| {
            let sheets = some(r, 2);
            reporting(r, input_of(&[&pool(), &b"B100\n"[..]].concat(), &sheets))
        },
    ),
    ("report: a step of no names", Refused(NOT_WHOLE), |r| {
        with_sheet(r, 3, 2, b"B100\n".to_vec())
    }),
    (
        "report: a supplement's line before the first mark",
        Refused(KIND),
        |r| {
            let sheets = some(r, 2);
            let domain = [&pool(), &b"AF0304A92A\n"[..]].concat();
            reporting(r, input_of(&domain, &sheets))
        },
    ),
    (
        "report: digits of a mark inside a line",
        Sheets {
            accepted: 1,
            broken: 1,
        },
        |r| {
            let draft = Draft::new(4, &[[0, 9, 5]], &[(0xB0, 1), (0xB0, 4)]).free();
            of_names(r, &draft, &[vec![0xB0, 0, 0xB0, 0], vec![0, 0xB0, 0, 0xB0]])
        },
    ),
    (
        "report: lowest level in all states of all sheets, and highest",
        Printed("SHEETS 40 0\nF 0 -32768 -32768 -85196800 2600\nF 1 32767 32767 85194200 2600\n"),
        |r| {
            let draft = any_levels(&[i16::MIN, i16::MAX], 0);
            of_names(r, &draft, &vec![vec![0; MAX_STEPS]; MAX_SHEETS])
        },
    ),
    (
        "report: from the lowest level to the highest",
        Printed("SHEETS 1 0\nF 0 -32768 32767 -1 2\n"),
        |r| of_names(r, &any_levels(&[i16::MIN], i16::MAX), &[vec![1]]),
    ),
    (
        "report: from the highest level to the lowest",
        Printed("SHEETS 2 0\nF 0 -32768 32767 -2 4\n"),
        |r| {
            let draft = any_levels(&[i16::MAX], i16::MIN);
            of_names(r, &draft, &[vec![1], vec![1]])
        },
    ),
    (
        "report: negative levels and sums",
        Printed("SHEETS 2 0\nF 0 -9 -3 -27 5\nF 1 -1 -1 -5 5\nF 2 0 0 0 5\n"),
        |r| {
            let draft = any_levels(&[-3, -1, 0], -9);
            of_names(r, &draft, &[vec![0, 1, 0], vec![]])
        },
    ),
    (
        "report: levels of both signs, sum 0",
        Printed("SHEETS 2 0\nF 0 -7 7 0 4\n"),
        |r| of_names(r, &any_levels(&[-7], 7), &[vec![1], vec![1]]),
    ),
    (
        "report: each sheet from the start values",
        Printed("SHEETS 3 0\nF 0 5 9 33 5\n"),
        |r| of_names(r, &any_levels(&[5], 9), &[vec![1], vec![], vec![1]]),
    ),
    (
        "report: 40 sheets of 64 steps, everybody acts",
        Sheets {
            accepted: MAX_SHEETS,
            broken: 0,
        },
        most_steps,
    ),
    ("report: 32 fluents", Figures(32), most_steps),
    ("report: one fluent", Figures(1), |r| of_each(r, 1, 1)),
    (
        "report: 40 of the longest sheets, longest domain",
        Fine,
        |r| {
            let draft = longest(r);
            let steps = |r: &mut Random| {
                (0..MAX_STEPS)
                    .flat_map(|_| sheets::step(r, &draft))
                    .collect()
            };
            let sheets: Vec<_> = (0..MAX_SHEETS).map(|_| steps(r)).collect();
            of_names(r, &draft, &sheets)
        },
    ),
    (
        "report: third sheet refused, and a 41st",
        Refused(LINE),
        |r| {
            let text = refused_text(r, false);
            with_sheet(r, MAX_SHEETS + 1, 3, text)
        },
    ),
    (
        "report: third sheet too long, and a 41st",
        Refused(INPUT),
        |r| {
            let text = refused_text(r, true);
            with_sheet(r, MAX_SHEETS + 1, 3, text)
        },
    ),
    (
        "report: 40th sheet refused, and a 41st",
        Refused(LINE),
        |r| {
            let text = refused_text(r, false);
            with_sheet(r, MAX_SHEETS + 1, MAX_SHEETS, text)
        },
    ),
    (
        "report: 40th sheet too long, and a 41st",
        Refused(INPUT),
        |r| {
            let text = refused_text(r, true);
            with_sheet(r, MAX_SHEETS + 1, MAX_SHEETS, text)
        },
    ),
    (
        "report: order: 41st sheet refused",
        Refused(SHEET_41),
        |r| {
            let text = refused_text(r, false);
            with_sheet(r, MAX_SHEETS + 1, MAX_SHEETS + 1, text)
        },
    ),
    (
        "report: order: 41st sheet too long",
        Refused(SHEET_41),
        |r| {
            let text = refused_text(r, true);
            with_sheet(r, MAX_SHEETS + 1, MAX_SHEETS + 1, text)
        },
    ),
    (
        "report: order: first sheet refused, second too long",
        Refused(LINE),
        |r| {
            let sheets = [false, true].map(|too_long| refused_text(r, too_long));
            over_pool(r, &sheets)
        },
    ),
    (
        "report: order: first sheet too long, second refused",
        Refused(INPUT),
        |r| {
            let sheets = [true, false].map(|too_long| refused_text(r, too_long));
            over_pool(r, &sheets)
        },
    ),
    (
        "report: order: domain refused, sheet too long",
        Refused(INCOMPLETE),
        |r| {
            let sheet = refused_text(r, true);
            reporting(r, input_of(b"A10102\n", &[sheet]))
        },
    ),
    (
        "report: order: domain refused, 41 sheets",
        Refused(INCOMPLETE),
        |r| {
            let sheets = some(r, MAX_SHEETS + 1);
            reporting(r, input_of(b"A10102\n", &sheets))
        },
    ),
    (
        "report: order: domain too long, 41 sheets",
        Refused(INPUT),
        |r| {
            let domain = sized_text(&pool(), b"x", MAX_INPUT + 1, true);
            let sheets = some(r, MAX_SHEETS + 1);
            reporting(r, input_of(&domain, &sheets))
        },
    ),
    (
        "report: domain of 60000 bytes, then no mark but nearly one",
        Refused(INPUT),
        |r| {
            let mut input = sized_text(&pool(), b"x", MAX_INPUT, true);
            let lines: [&[u8]; 4] = [b"B000", b"B000\r\n", b"b000\n", b"B000 \n"];
            input.extend(*r.pick(&lines));
            reporting(r, input)
        },
    ),
    (
        "report: sheet of 60000 bytes, then no mark but nearly one",
        Refused(INPUT),
        |r| {
            let mut text = sized_text(b"", b"B1020000\n", MAX_INPUT, true);
            let lines: [&[u8]; 4] = [b"B000", b"B000\r\n", b"b000\n", b"B000 \n"];
            text.extend(*r.pick(&lines));
            with_sheet(r, 2, 2, text)
        },
    ),
    ("report: sheet of some million bytes", Refused(INPUT), |r| {
        let size = *r.pick(&[1_000_000, LONGEST_INPUT, 3_000_000]);
        let text = sized_text(b"", b"B1020000\n", size, true);
        with_sheet(r, 2, 1, text)
    }),
    (
        "report: 41st sheet of some million bytes",
        Refused(SHEET_41),
        |r| {
            let text = sized_text(b"", b"\n", LONGEST_INPUT, true);
            with_sheet(r, MAX_SHEETS + 1, MAX_SHEETS + 1, text)
        },
    ),
    ("report: output too short", Silent, |r| Case::Program {
        program: Program::Report,
        input: input_of(&pool(), &some(r, 2)),
        output: too_short(r, OUTPUT_BYTES),
    }),
    ("report: output a byte too short", Silent, |r| {
        Case::Program {
            program: Program::Report,
            input: r.pick(&[pool(), vec![], b"x".to_vec()]).clone(),
            output: r.bytes(OUTPUT_BYTES - 1),
        }
    }),
    ("report: output just long enough", Fine, |r| Case::Program {
        program: Program::Report,
        input: input_of(&pool(), &some(r, 2)),
        output: r.bytes(OUTPUT_BYTES),
    }),
];
