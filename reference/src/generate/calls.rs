//! Cases of each call made for one refusal, or for the edge just before it.

use super::aims::Expect::{self, Count, Fine, Refused, Silent};
use super::aims::{
    enough, enough_levels, on, over_store, printing, stored, too_few_levels, too_short,
};
use super::case::{Call, Case};
use super::changing_fast::both_lengths;
use super::draft::{frame, sheet_text, text_of, Draft};
use super::faults::roomy;
use super::random::Random;
use super::shapes::longest;
use super::sheets;
use crate::domain::Counts;
use crate::line::line_length;
use crate::program::{Program, OUTPUT_BYTES};
use crate::refusal::*;
use crate::sheet::{self, SHEET_BYTES};
use crate::store::{self, STORE_BYTES};

const fn counts(agents: usize, fluents: usize, entries: usize, laws: usize) -> Expect {
    Expect::Counts(Counts {
        agents,
        fluents,
        entries,
        laws,
    })
}

const COUNTS_OF_POOL: Expect = counts(2, 1, 2, 5);

/// Asks for the counts of a domain that so far lacks its A5 laws.
fn counted(r: &mut Random, draft: Draft) -> Case {
    let bytes = draft.free().bytes();
    Case::Counts {
        store: stored(r, bytes),
    }
}

/// Bytes of 16 fluents with a limit and 16 without, of one agent, an entry and its law:
/// 35 lines in all.
const BOTH_LENGTHS: usize = 16 * 10 + 16 * 8 + 3 + 5 + 4;

pub type CallAim = (&'static str, Expect, fn(&mut Random) -> Case);

pub const CALLS: &[CallAim] = &[
    ("read_domain: store short", Refused(BUFFER), |r| {
        Case::ReadDomain {
            text: if r.one_in(2) {
                r.bytes(20)
            } else {
                Draft::random(r).text()
            },
            store: too_short(r, STORE_BYTES),
        }
    }),
    ("read_sheet: buffer short", Refused(BUFFER), |r| {
        Case::ReadSheet {
            text: if r.one_in(2) { r.bytes(20) } else { vec![] },
            agents: r.below(20),
            buffer: too_short(r, SHEET_BYTES),
        }
    }),
    ("read_sheet: agents not 1 to 16", Refused(PAYLOAD), |r| {
        Case::ReadSheet {
            text: if r.one_in(2) { r.bytes(20) } else { vec![] },
            agents: *r.pick(&[0, 17, 255, 256, 257, usize::MAX]),
            buffer: enough(r, SHEET_BYTES),
        }
    }),
    ("write_sheet: agents not 1 to 16", Refused(PAYLOAD), |r| {
        Case::WriteSheet {
            sheet: r.bytes(17),
            agents: *r.pick(&[0, 17, 255, 256, 257, usize::MAX]),
            text: r.bytes(50),
        }
    }),
    ("write_sheet: not whole steps", Refused(NOT_WHOLE), |r| {
        let agents = r.from_to(2, 16);
        let length = r.from_to(0, 80) * agents + r.from_to(1, agents - 1);
        Case::WriteSheet {
            sheet: r.bytes(length),
            agents,
            text: r.bytes(50),
        }
    }),
    ("write_sheet: 65 steps", Refused(STEP_65), |r| {
        let agents = r.from_to(1, 16);
        Case::WriteSheet {
            sheet: r.bytes(65 * agents),
            agents,
            text: r.bytes(50),
        }
    }),
    ("write_sheet: text short", Refused(BUFFER), |r| {
        let (agents, steps) = (r.from_to(1, 16), r.from_to(1, 64));
        let text = too_short(r, steps * line_length(2 + agents));
        Case::WriteSheet {
            sheet: r.bytes(steps * agents),
            agents,
            text,
        }
    }),
    ("write_sheet: text just long enough", Fine, |r| {
        let (agents, steps) = (r.from_to(1, 16), *r.pick(&[0, 1, 63, 64]));
        let text = enough(r, steps * line_length(2 + agents));
        Case::WriteSheet {
            sheet: r.bytes(steps * agents),
            agents,
            text,
        }
    }),
    ("write_domain: text short", Refused(BUFFER), |r| {
        let draft = Draft::random(r);
        let text = too_short(r, draft.text().len());
        Case::WriteDomain {
            store: stored(r, draft.bytes()),
            text,
        }
    }),
    ("write_domain: text just long enough", Fine, |r| {
        let draft = Draft::random(r);
        let text = enough(r, draft.text().len());
        Case::WriteDomain {
            store: stored(r, draft.bytes()),
            text,
        }
    }),
    ("read_domain: longest text", Fine, |r| Case::ReadDomain {
        text: longest(r).text(),
        store: enough(r, STORE_BYTES),
    }),
    (
        "write_domain: longest text",
        Count(store::LONGEST_TEXT),
        |r| Case::WriteDomain {
            store: longest(r).store(),
            text: r.bytes(store::LONGEST_TEXT),
        },
    ),
    (
        "write_domain: a byte less than the longest text",
        Refused(BUFFER),
        |r| Case::WriteDomain {
            store: longest(r).store(),
            text: r.bytes(store::LONGEST_TEXT - 1),
        },
    ),
    (
        "read_domain: fluents with a limit and without",
        Count(BOTH_LENGTHS),
        |r| Case::ReadDomain {
            text: both_lengths().text(),
            store: enough(r, STORE_BYTES),
        },
    ),
    (
        "write_domain: fluents with a limit and without",
        Count(2 * BOTH_LENGTHS + 35),
        |r| Case::WriteDomain {
            store: both_lengths().store(),
            text: enough(r, 2 * BOTH_LENGTHS + 35),
        },
    ),
    ("frames: fluents with a limit and without", Fine, |_| {
        Case::Frames {
            store: both_lengths().store(),
        }
    }),
    (
        "write_sheet: longest text",
        Count(sheet::LONGEST_TEXT),
        |r| Case::WriteSheet {
            sheet: r.bytes(SHEET_BYTES),
            agents: 16,
            text: r.bytes(sheet::LONGEST_TEXT),
        },
    ),
    (
        "write_sheet: a byte less than the longest text",
        Refused(BUFFER),
        |r| Case::WriteSheet {
            sheet: r.bytes(SHEET_BYTES),
            agents: 16,
            text: r.bytes(sheet::LONGEST_TEXT - 1),
        },
    ),
    ("program: longest texts", Fine, |r| {
        let draft = longest(r);
        let names: Vec<_> = (0..64).flat_map(|_| sheets::step(r, &draft)).collect();
        let input = [draft.text(), sheet_text(&names, draft.agents)].concat();
        printing(r, input)
    }),
    ("counts: smallest domain", counts(1, 1, 1, 1), |r| {
        counted(r, Draft::new(1, &[[0, 0, 0]], &[(1, 1)]))
    }),
    ("counts: 16 agents", counts(16, 1, 1, 1), |r| {
        counted(r, Draft::new(16, &[[0, 9, 5]], &[(1, 0xFFFF)]))
    }),
    ("counts: 32 fluents", counts(1, 32, 1, 1), |r| {
        counted(r, Draft::new(1, &[[0, 9, 5]; 32], &[(1, 1)]))
    }),
    ("counts: 64 entries", counts(1, 1, 64, 64), |r| {
        let entries: Vec<_> = (1..=64).map(|name| (name, 1)).collect();
        counted(r, Draft::new(1, &[[0, 9, 5]], &entries))
    }),
    ("counts: 128 laws", counts(1, 1, 1, 128), |r| {
        let mut draft = Draft::new(1, &[[0, 9, 5]], &[(1, 1)]);
        for _ in 1..128 {
            let kind = r.from_to(0xA7, 0xA9) as u8;
            draft.insert(frame(kind, &[0x2A]));
        }
        counted(r, draft)
    }),
    ("counts: every limit", counts(16, 32, 64, 128), |r| {
        let bytes = longest(r).bytes();
        Case::Counts {
            store: stored(r, bytes),
        }
    }),
    ("counts: store over 36,000 bytes", COUNTS_OF_POOL, |r| {
        let mut store = Draft::pool().store();
        store.resize(STORE_BYTES + r.from_to(1, 40_000), 0);
        Case::Counts { store }
    }),
    ("counts: store under 36,000 bytes", COUNTS_OF_POOL, |r| {
        let mut store = Draft::pool().store();
        let used = Draft::pool().bytes().len();
        store.truncate(r.from_to(used, STORE_BYTES - 1));
        Case::Counts { store }
    }),
    ("counts: byte after the frames", Refused(STORE), |r| {
        let mut store = Draft::pool().store();
        let used = Draft::pool().bytes().len();
        let place = *r.pick(&[used, used + 1, STORE_BYTES - 1]);
        store[place] = r.from_to(1, 255) as u8;
        Case::Counts { store }
    }),
    ("counts: empty store", Refused(STORE), |r| Case::Counts {
        store: vec![0; *r.pick(&[0, 1, STORE_BYTES])],
    }),
    ("judge: levels short", Refused(BUFFER), |r| {
        let store = if r.one_in(2) {
            r.bytes(30)
        } else {
            Draft::pool().store()
        };
        let sheet = r.bytes(3);
        Case::Judge {
            store,
            sheet,
            levels: too_few_levels(r),
        }
    }),
    ("judge: not whole steps", Refused(NOT_WHOLE), |r| {
        let length = 1 + 2 * r.below(80);
        Case::Judge {
            store: Draft::pool().store(),
            sheet: vec![0; length],
            levels: enough_levels(r),
        }
    }),
    ("judge: 65 steps", Refused(STEP_65), |r| {
        let length = 130 + 2 * r.below(10);
        Case::Judge {
            store: Draft::pool().store(),
            sheet: vec![0; length],
            levels: enough_levels(r),
        }
    }),
    ("verdict: levels short", Refused(BUFFER), |r| {
        let store = if r.one_in(2) {
            r.bytes(30)
        } else {
            Draft::pool().store()
        };
        let levels = too_few_levels(r);
        on(
            sheets::opened(r.from_to(1, 16)),
            Call::Verdict { store, levels },
        )
    }),
    (
        "verdict: another number of agents",
        Refused(AGENTS_DIFFER),
        |r| {
            let agents = *r.pick(&[1, 3, 16]);
            let session = sheets::session(r, agents, 5);
            let levels = enough_levels(r);
            on(
                session,
                Call::Verdict {
                    store: Draft::pool().store(),
                    levels,
                },
            )
        },
    ),
    ("store: nonzero after the zeros", Refused(STORE), |r| {
        let mut store = Draft::random(r).bytes();
        let more = r.from_to(1, 3000);
        store.resize(store.len() + more, 0);
        store.push(r.from_to(1, 255) as u8);
        let more = r.below(50);
        store.resize(store.len() + more, 0);
        over_store(r, store)
    }),
    ("store: cut off", Refused(STORE), |r| {
        let mut store = Draft::random(r).bytes();
        // Whatever follows the last A5 may be missing; cut inside a frame.
        store.pop();
        over_store(r, store)
    }),
    ("store: arbitrary bytes", Refused(STORE), |r| {
        let length = *r.pick(&[1, 2, 30, 1000, STORE_BYTES]);
        let store = if r.one_in(2) {
            r.bytes(length)
        } else {
            r.likely_bytes(length)
        };
        over_store(r, store)
    }),
    ("enter: log full", Refused(LOG_FULL), |r| {
        let agents = r.from_to(1, 16);
        let length = if r.one_in(3) { agents + 1 } else { agents };
        on(
            sheets::full(r, agents),
            Call::Enter {
                names: r.bytes(length),
            },
        )
    }),
    ("strike: log full", Refused(LOG_FULL), |r| {
        on(sheets::full(r, 3), Call::Strike)
    }),
    ("amend: log full", Refused(LOG_FULL), |r| {
        let (agents, step) = (r.from_to(1, 16), r.below(3) as u64);
        on(
            sheets::full(r, agents),
            Call::Amend {
                step,
                names: r.bytes(agents),
            },
        )
    }),
    ("enter: 200th edit", Fine, |r| {
        let mut session = sheets::full(r, 2);
        let _ = session.undo();
        match session.steps {
            64 => on(session, Call::Strike),
            _ => on(session, Call::Enter { names: r.bytes(2) }),
        }
    }),
    ("enter: step of another length", Refused(NOT_WHOLE), |r| {
        let agents = r.from_to(1, 16);
        let length = *r.pick(&[0, agents - 1, agents + 1, 17, 300]);
        let calls = r.below(20);
        on(
            sheets::session(r, agents, calls),
            Call::Enter {
                names: r.bytes(length),
            },
        )
    }),
    ("enter: 65th step", Refused(STEP_65), |r| {
        let agents = r.from_to(1, 16);
        let sheet = r.bytes(64 * agents);
        on(
            sheets::session_of(&sheet, agents),
            Call::Enter {
                names: r.bytes(agents),
            },
        )
    }),
    ("enter: 64th step", Fine, |r| {
        let agents = r.from_to(1, 16);
        let sheet = r.bytes(63 * agents);
        on(
            sheets::session_of(&sheet, agents),
            Call::Enter {
                names: r.bytes(agents),
            },
        )
    }),
    ("strike: empty sheet", Refused(NO_STEP), |r| {
        on(sheets::opened(r.from_to(1, 16)), Call::Strike)
    }),
    ("strike: sheet struck empty", Refused(NO_STEP), |r| {
        let mut session = sheets::session_of(&[1, 2], 2);
        let _ = session.strike();
        on(
            session,
            [
                Call::Strike,
                Call::Amend {
                    step: 1,
                    names: vec![0; 2],
                },
            ][r.below(2)]
            .clone(),
        )
    }),
    ("amend: step of another length", Refused(NOT_WHOLE), |r| {
        let length = *r.pick(&[0, 3, 5, 300]);
        let step = r.below(5) as u64;
        on(
            sheets::session(r, 4, 10),
            Call::Amend {
                step,
                names: r.bytes(length),
            },
        )
    }),
    ("amend: step not there", Refused(NO_STEP), |r| {
        let calls = r.below(20);
        let session = sheets::session(r, 4, calls);
        let step = *r.pick(&[0, session.steps + 1, 65, 256, 257, u64::MAX]);
        on(
            session,
            Call::Amend {
                step,
                names: r.bytes(4),
            },
        )
    }),
    ("amend: step to itself", Fine, |r| {
        let sheet = r.bytes(3 * 64);
        let step = r.from_to(1, 64);
        let names = sheet[3 * (step - 1)..3 * step].to_vec();
        on(
            sheets::session_of(&sheet, 3),
            Call::Amend {
                step: step as u64,
                names,
            },
        )
    }),
    ("undo: no standing edit", Refused(NO_UNDO), |r| {
        let mut session = sheets::session_of(&r.bytes(9), 3);
        if r.one_in(3) {
            session = sheets::opened(3);
        }
        while session.undo().is_ok() {}
        on(session, Call::Undo)
    }),
    ("redo: no undone edit", Refused(NO_REDO), |r| {
        let mut session = sheets::session(r, 3, 12);
        while session.redo().is_ok() {}
        on(session, Call::Redo)
    }),
    ("redo: undone edits dropped", Refused(NO_REDO), |r| {
        let mut session = sheets::session_of(&r.bytes(9), 3);
        let _ = session.undo();
        let _ = session.enter(&r.bytes(3));
        on(session, Call::Redo)
    }),
    ("open: over an open session", Fine, |r| {
        let store = Draft::random(r).bytes();
        on(
            sheets::session(r, 2, 30),
            Call::Open {
                store: stored(r, store),
            },
        )
    }),
    ("program: input over 60,000 bytes", Refused(INPUT), |r| {
        let mut input = if r.one_in(2) {
            Draft::pool().text()
        } else {
            vec![]
        };
        let length = r.from_to(60_001, 60_003);
        input.resize(length, *r.pick(b"\nA1g"));
        printing(r, input)
    }),
    ("program: input of 60,000 bytes", Refused(LINE), |r| {
        let mut input = Draft::pool().text();
        input.resize(60_000, *r.pick(b"\nAg"));
        printing(r, input)
    }),
    ("program: output too short", Silent, |r| {
        let input = Draft::pool().text();
        let output = too_short(r, OUTPUT_BYTES);
        Case::Program {
            program: Program::Waroth,
            input,
            output,
        }
    }),
    (
        "program: A line after the first B1 line",
        Refused(KIND),
        |r| {
            let draft = roomy(r);
            let mut input = draft.text();
            input.extend(text_of(&[
                frame(0xB1, &vec![0; draft.agents]),
                frame(0xA9, &[0x2A]),
            ]));
            printing(r, input)
        },
    ),
];
