//! Cases without aim: random ones of every call, arguments good and bad mixed.

use super::aims::{
    enough, enough_levels, on, over_store, printing, printing_by, stored, stored_supplement,
    too_short, Aim,
};
use super::case::{Call, Case, SupplementCall};
use super::changing_fast::restless;
use super::draft::{sheet_text, text_of, Draft};
use super::random::Random;
use super::report::NEARLY_MARKS;
use super::{sheets, supplements};
use crate::judge::LEVELS;
use crate::line::line_length;
use crate::program::Program;
use crate::report::{MARK, MAX_SHEETS};
use crate::session::Session;
use crate::sheet::SHEET_BYTES;
use crate::store::STORE_BYTES;
use crate::supplement::SUPPLEMENT_BYTES;

/// Mostly long enough.
fn buffer(r: &mut Random, named: usize) -> Vec<u8> {
    match named > 0 && r.one_in(16) {
        true => too_short(r, named),
        false => enough(r, named),
    }
}

fn levels(r: &mut Random) -> Vec<i16> {
    match r.one_in(16) {
        true => {
            let length = r.below(LEVELS);
            r.values(length)
        }
        false => enough_levels(r),
    }
}

/// A few alterations at random places.
fn damaged(r: &mut Random, mut bytes: Vec<u8>, likely: &[u8]) -> Vec<u8> {
    for _ in 0..r.from_to(1, 3) {
        if bytes.is_empty() {
            return bytes;
        }
        let place = r.below(bytes.len());
        let other = if r.one_in(4) {
            r.byte()
        } else {
            *r.pick(likely)
        };
        match r.below(6) {
            0 => bytes.insert(place, other),
            1 => drop(bytes.remove(place)),
            2 => bytes.truncate(place),
            3 => bytes[place] ^= 1 << r.below(8),
            _ => bytes[place] = other,
        }
    }
    bytes
}

/// Lines of a domain swapped, doubled, dropped or with bytes altered.
fn shuffled(r: &mut Random, mut lines: Vec<Vec<u8>>) -> Vec<Vec<u8>> {
    for _ in 0..r.from_to(1, 2) {
        let (a, b) = (r.below(lines.len()), r.below(lines.len()));
        match r.below(5) {
            0 => lines.swap(a, b),
            1 => lines.insert(b, lines[a].clone()),
            2 if lines.len() > 1 => drop(lines.remove(a)),
            _ => {
                let line = &mut lines[a];
                let place = r.below(line.len());
                line[place] = r.likely_bytes(1)[0];
            }
        }
    }
    lines
}

fn domain_text(r: &mut Random) -> Vec<u8> {
    let draft = Draft::random(r);
    match r.below(10) {
        0..=4 => draft.text(),
        5 | 6 => damaged(r, draft.text(), b"0123456789ABCDEF\n\r ag"),
        7 | 8 => text_of(&shuffled(r, draft.frames)),
        _ => {
            let length = r.below(80);
            let mut text = r.bytes(length);
            text.iter_mut()
                .for_each(|byte| *byte = b"0123456789ABCDEF\n\n"[*byte as usize % 18]);
            text
        }
    }
}

fn any_store(r: &mut Random) -> Vec<u8> {
    let draft = Draft::random(r);
    let likely = [0, 1, 2, 3, 0x10, 0x11, 0x29, 0x2A, 0x2B, 0x2C, 0xA5, 0xA9];
    let bytes = match r.below(10) {
        0..=5 => draft.bytes(),
        6 | 7 => damaged(r, draft.bytes(), &likely),
        8 => shuffled(r, draft.frames).concat(),
        _ => {
            let length = r.below(100);
            r.likely_bytes(length)
        }
    };
    stored(r, bytes)
}

/// A random domain to be judged over.
fn some_domain(r: &mut Random) -> Draft {
    match r.one_in(6) {
        true => restless(r),
        false => Draft::random(r),
    }
}

fn judged(r: &mut Random) -> Case {
    let draft = some_domain(r);
    let mut sheet = sheets::sheet(r, &draft);
    if r.one_in(20) {
        let length = r.below(70 * draft.agents);
        sheet.resize(length, 0);
    }
    Case::Judge {
        store: mostly_own(r, &draft),
        sheet,
        levels: levels(r),
    }
}

fn sheet_case(r: &mut Random) -> Case {
    let agents = r.from_to(1, 16);
    let steps = *r.pick(&[0, 1, 2, 5, 63, 64, 65]);
    let sheet = r.bytes(steps * agents);
    let handed = if r.one_in(12) { r.below(20) } else { agents };
    if r.one_in(2) {
        let mut text = sheet_text(&sheet, agents);
        if r.one_in(2) {
            text = damaged(r, text, b"0123456789ABCDEF\n\r ag");
        }
        return Case::ReadSheet {
            text,
            agents: handed,
            buffer: buffer(r, SHEET_BYTES),
        };
    }
    let text = buffer(r, steps.min(64) * line_length(2 + agents));
    Case::WriteSheet {
        sheet,
        agents: handed,
        text,
    }
}

/// A session by random calls; the calls go on until the log was full or not.
fn series(r: &mut Random) -> Case {
    let draft = Draft::random(r);
    let agents = draft.agents;
    let mut calls = vec![Call::Open {
        store: draft.bytes(),
    }];
    if r.one_in(3) {
        calls.extend(sheets::there_and_back(r, agents));
    } else {
        let mut session = sheets::opened(agents);
        let length = *r.pick(&[5, 20, 60, 60, 450]);
        for _ in 0..length {
            let call = sheets::call(r, &session, agents);
            sheets::apply(&mut session, &call);
            calls.push(call);
        }
    }
    calls.push(Call::Verdict {
        store: draft.bytes(),
        levels: levels(r),
    });
    Case::Session {
        session: Box::new(Session::closed()),
        calls,
    }
}

/// One call on a session that is sound, nearly sound, or anything.
fn single(r: &mut Random) -> Case {
    let draft = some_domain(r);
    let length = r.below(40);
    let mut session = match r.one_in(3) {
        true => sheets::session_of(&sheets::sheet(r, &draft), draft.agents),
        false => sheets::session(r, draft.agents, length),
    };
    if r.one_in(4) {
        let place = r.below(Session::BYTES);
        let mut bytes = session.to_bytes();
        bytes[place] = r.byte();
        if let Some(all) = bytes.first_chunk() {
            session = Session::from_bytes(all);
        }
    }
    let call = match r.below(4) {
        0 => Call::Open {
            store: any_store(r),
        },
        1 => {
            let other = if r.one_in(12) {
                any_store(r)
            } else {
                draft.bytes()
            };
            Call::Verdict {
                store: other,
                levels: levels(r),
            }
        }
        _ => sheets::call(r, &session, draft.agents),
    };
    on(session, call)
}

/// A case of the program: what some aim gave another call, as text.
fn program(r: &mut Random, aims: &[Aim]) -> Case {
    let mut input = Vec::new();
    let aim = r.pick(aims);
    let mut agents = 2;
    match (aim.make)(r) {
        Case::ReadDomain { text, .. } => input = text,
        Case::ReadSheet {
            text,
            agents: handed,
            ..
        } if (1..=16).contains(&handed) => {
            input = Draft::new(handed, &[[0, 9, 5]], &[(1, 1)]).free().text();
            input.extend(text);
        }
        Case::Judge { store, sheet, .. } => {
            let mut text = vec![0; 40_000];
            let length = crate::write_domain(&store, &mut text).unwrap_or(0);
            input.extend(&text[..length]);
            agents = store.get(2).map_or(1, |&n| n.clamp(1, 16)) as usize;
            input.extend(sheet_text(&sheet, agents));
        }
        _ => {
            let draft = some_domain(r);
            input = draft.text();
            agents = draft.agents;
            input.extend(sheet_text(&sheets::sheet(r, &draft), agents));
        }
    }
    if r.one_in(4) {
        let names = sheets::names(r, agents);
        input.extend(sheet_text(&names, agents));
    }
    if r.one_in(8) {
        input = damaged(r, input, b"0123456789ABCDEF\n\r ag");
    }
    printing(r, input)
}

/// What begins a sheet: now and then not quite a mark.
fn mark(r: &mut Random) -> &'static [u8] {
    match r.one_in(40) {
        true => r.pick(NEARLY_MARKS).2,
        false => MARK,
    }
}

/// A report's input: a domain's text and sheets for it, good and bad, among them
/// what some aim gave the sheet reader.
fn report(r: &mut Random, aims: &[Aim]) -> Case {
    let draft = some_domain(r);
    let mut texts = Vec::new();
    for _ in 0..r.from_to(1, 4) {
        let text = sheet_text(&sheets::sheet(r, &draft), draft.agents);
        texts.push(match r.below(24) {
            0 => damaged(r, text, b"0123456789ABCDEF\n\r ag"),
            1 => match (r.pick(aims).make)(r) {
                Case::ReadSheet { text, .. } => text,
                _ => Vec::new(),
            },
            _ => text,
        });
    }
    let sheets = match r.below(12) {
        0 => 0,
        1 => r.from_to(MAX_SHEETS - 1, MAX_SHEETS + 2),
        _ => texts.len(),
    };
    let mut input = match r.one_in(12) {
        true => domain_text(r),
        false => draft.text(),
    };
    for _ in 0..sheets {
        input.extend(mark(r));
        input.extend(r.pick(&texts));
    }
    if r.one_in(16) {
        input = damaged(r, input, b"0123456789ABCDEF\n\r ag");
    }
    printing_by(Program::Report, r, input)
}

/// A supplement's bytes, good or bad, for a domain.
fn any_supplement(r: &mut Random, draft: &Draft) -> Vec<u8> {
    let lines = supplements::supplement(r, draft);
    let likely = [
        0, 1, 2, 3, 0x10, 0x11, 0x29, 0x2A, 0x2B, 0x2C, 0xA5, 0xA9, 0xAF,
    ];
    let bytes = match r.below(10) {
        0..=6 => lines.concat(),
        7 if !lines.is_empty() => shuffled(r, lines).concat(),
        // Of another domain.
        8 => supplements::some_lines(r).1.concat(),
        _ => damaged(r, lines.concat(), &likely),
    };
    stored_supplement(r, bytes)
}

fn supplement_text(r: &mut Random, draft: &Draft) -> Vec<u8> {
    let lines = supplements::supplement(r, draft);
    match r.below(10) {
        0..=5 => text_of(&lines),
        6 | 7 if !lines.is_empty() => text_of(&shuffled(r, lines)),
        _ => damaged(r, text_of(&lines), b"0123456789ABCDEF\n\r ag"),
    }
}

/// The domain's store; now and then another.
fn mostly_own(r: &mut Random, draft: &Draft) -> Vec<u8> {
    match r.one_in(16) {
        true => any_store(r),
        false => stored(r, draft.bytes()),
    }
}

/// Layings, verdicts and laws in force over supplements and over what was laid.
fn supplement_calls(r: &mut Random) -> Case {
    let draft = some_domain(r);
    let mut held = r.from_to(1, 3);
    let supplements = (0..held).map(|_| any_supplement(r, &draft)).collect();
    let mut calls = Vec::new();
    for _ in 0..r.from_to(1, 5) {
        let supplement = r.below(held);
        calls.push(match r.below(8) {
            0 => SupplementCall::Judge {
                supplement,
                sheet: sheets::sheet(r, &draft),
                levels: levels(r),
            },
            1 => SupplementCall::Laws {
                supplement,
                numbers: (0..draft.laws() + 1).collect(),
            },
            _ => {
                let upper = r.below(held);
                held += 1;
                SupplementCall::Lay {
                    lower: supplement,
                    upper,
                    result: buffer(r, SUPPLEMENT_BYTES),
                    whole: r.one_in(2),
                }
            }
        });
    }
    Case::Supplements {
        store: mostly_own(r, &draft),
        supplements,
        calls,
    }
}

/// A call that takes a supplement's text or store, or the program that does.
fn under(r: &mut Random) -> Case {
    let draft = some_domain(r);
    match r.below(8) {
        0 | 1 => Case::ReadSupplement {
            store: mostly_own(r, &draft),
            text: supplement_text(r, &draft),
            buffer: buffer(r, SUPPLEMENT_BYTES),
        },
        2..=4 => {
            let mut sheet = sheets::sheet(r, &draft);
            if r.one_in(20) {
                sheet.resize(r.below(70 * draft.agents), 0);
            }
            Case::JudgeUnder {
                store: mostly_own(r, &draft),
                supplement: any_supplement(r, &draft),
                sheet,
                levels: levels(r),
            }
        }
        5 => {
            let laws = draft.laws();
            Case::Laws {
                store: mostly_own(r, &draft),
                supplement: any_supplement(r, &draft),
                numbers: (0..4).map(|_| r.below(laws + 2)).collect(),
            }
        }
        _ => {
            let sheet = sheet_text(&sheets::sheet(r, &draft), draft.agents);
            let mut input = [draft.text(), supplement_text(r, &draft), sheet].concat();
            if r.one_in(8) {
                input = damaged(r, input, b"0123456789ABCDEF\n\r ag");
            }
            printing_by(Program::LowWater, r, input)
        }
    }
}

/// A session whose sheet some aim gave to the judge.
fn verdict(r: &mut Random, aims: &[Aim]) -> Case {
    for _ in 0..12 {
        let aim = r.pick(aims);
        if let Case::Judge {
            store,
            sheet,
            levels,
        } = (aim.make)(r)
        {
            let agents = store.get(2).map_or(1, |&n| n.clamp(1, 16)) as usize;
            let session = sheets::session_of(&sheet, agents);
            return on(session, Call::Verdict { store, levels });
        }
    }
    single(r)
}

/// A random case of any call.
pub fn any(r: &mut Random, aims: &[Aim]) -> Case {
    match r.below(28) {
        0 | 1 => Case::ReadDomain {
            text: domain_text(r),
            store: buffer(r, STORE_BYTES),
        },
        2 => {
            let draft = Draft::random(r);
            let text = buffer(r, draft.text().len());
            let bytes = draft.bytes();
            Case::WriteDomain {
                store: stored(r, bytes),
                text,
            }
        }
        3 => {
            let store = any_store(r);
            over_store(r, store)
        }
        4 => {
            let store = any_store(r);
            let place = r.below(store.len().min(600) + 4);
            Case::FrameAt { store, place }
        }
        5 | 6 => sheet_case(r),
        7..=12 => judged(r),
        13 => series(r),
        14 | 15 => single(r),
        16 | 17 => verdict(r, aims),
        18 | 19 => program(r, aims),
        20..=24 => under(r),
        25 => supplement_calls(r),
        _ => report(r, aims),
    }
}
