//! Random sheets and sessions.

use super::case::Call;
use super::draft::Draft;
use super::random::Random;
use crate::domain::Domain;
use crate::judge::{self, Verdict, GOAL_MISSED, LEVELS};
use crate::session::{Session, EDIT_BYTES, MAX_EDITS};
use crate::sheet::MAX_STEPS;
use crate::supplement::InForce;

/// A step in which some random entries occur, now and then with a slip.
pub fn step(r: &mut Random, draft: &Draft) -> Vec<u8> {
    let mut names = vec![0; draft.agents];
    for _ in 0..r.from_to(0, 1 + draft.agents / 2) {
        let &(name, crew) = r.pick(&draft.entries);
        let members = (0..draft.agents).filter(|agent| (crew >> agent) & 1 == 1);
        // A crew whose members are idle or already do the same.
        if members
            .clone()
            .all(|agent| [0, name].contains(&names[agent]))
        {
            members.for_each(|agent| names[agent] = name);
        }
    }
    if r.one_in(25) {
        let agent = r.below(names.len());
        names[agent] = r.byte();
    }
    names
}

/// A sheet that mostly stays without fault, and sometimes ends with one.
pub fn sheet(r: &mut Random, draft: &Draft) -> Vec<u8> {
    let wanted = match r.below(20) {
        0 => 0,
        1..=13 => r.from_to(1, 6),
        14..=17 => r.from_to(7, 20),
        _ => MAX_STEPS,
    };
    let (mut domain, store) = (Domain::EMPTY, draft.bytes());
    let Some(laws) = InForce::of(&mut domain, &store, &[]) else {
        return Vec::new();
    };
    let mut levels = [0; LEVELS];
    let mut sheet = Vec::new();
    for _ in 0..wanted {
        let length = sheet.len();
        for attempt in 0.. {
            sheet.truncate(length);
            sheet.extend(step(r, draft));
            match judge::run(&laws, &sheet, &mut levels).verdict {
                Verdict::Accepted => break,
                Verdict::Broken { kind, .. } if kind == GOAL_MISSED => break,
                // Give up: the fault is what this sheet is about.
                _ if attempt == 4 || r.one_in(8) => return sheet,
                _ => {}
            }
        }
    }
    sheet
}

/// Names of the right number, of any value or ones that are used.
pub fn names(r: &mut Random, agents: usize) -> Vec<u8> {
    match r.one_in(4) {
        true => r.bytes(agents),
        false => (0..agents).map(|_| r.below(4) as u8).collect(),
    }
}

/// A random edit, undo or redo that is in most cases not refused.
pub fn call(r: &mut Random, session: &Session, agents: usize) -> Call {
    let length = match r.below(40) {
        0 => agents - 1,
        1 => agents + 1,
        _ => agents,
    };
    let names = names(r, length);
    let steps = session.steps as usize;
    match r.below(20) {
        0..=8 => Call::Enter { names },
        9..=11 => Call::Strike,
        12..=15 => {
            let step = match r.below(12) {
                0 => *r.pick(&[0, steps + 1, 64, 65, 255, 256, 257, usize::MAX]),
                _ => r.from_to(steps.min(1), steps),
            } as u64;
            Call::Amend { step, names }
        }
        16 | 17 => Call::Undo,
        _ => Call::Redo,
    }
}

pub fn apply(session: &mut Session, call: &Call) {
    let _ = match call {
        Call::Open { store } => session.open(store),
        Call::Enter { names } => session.enter(names),
        Call::Strike => session.strike(),
        Call::Amend { step, names } => session.amend(*step, names),
        Call::Undo => session.undo(),
        Call::Redo => session.redo(),
        Call::Verdict { .. } => Ok(()),
    };
}

pub fn opened(agents: usize) -> Session {
    let mut session = Session::closed();
    session.agents = agents as u64;
    session
}

/// A sound session after about so many random calls.
pub fn session(r: &mut Random, agents: usize, calls: usize) -> Session {
    let mut session = opened(agents);
    for _ in 0..calls {
        let call = call(r, &session, agents);
        apply(&mut session, &call);
    }
    session
}

/// A session whose sheet is this one, entered step by step.
pub fn session_of(sheet: &[u8], agents: usize) -> Session {
    let mut session = opened(agents);
    for names in sheet.chunks_exact(agents) {
        let _ = session.enter(names);
    }
    session
}

/// A session in which 200 edits stand.
pub fn full(r: &mut Random, agents: usize) -> Session {
    let mut session = opened(agents);
    while session.standing < MAX_EDITS as u64 {
        let call = match r.below(3) {
            0 => Call::Strike,
            _ => Call::Enter {
                names: names(r, agents),
            },
        };
        apply(&mut session, &call);
    }
    session
}

/// Calls that undo everything, bring some of it back, then edit and go on.
pub fn there_and_back(r: &mut Random, agents: usize) -> Vec<Call> {
    let mut calls = Vec::new();
    let edits = *r.pick(&[1, 3, 20, 199, 200, 201]);
    for number in 0..edits {
        calls.push(match number % 4 {
            3 => Call::Strike,
            2 => Call::Amend {
                step: 1,
                names: names(r, agents),
            },
            _ => Call::Enter {
                names: names(r, agents),
            },
        });
    }
    // Half of them go down to the bottom and once too often.
    let back = match r.one_in(2) {
        true => edits + 1,
        false => r.from_to(1, edits),
    };
    calls.extend(vec![Call::Undo; back]);
    calls.extend(vec![Call::Redo; r.from_to(0, back)]);
    for _ in 0..r.below(4) {
        calls.push(Call::Enter {
            names: names(r, agents),
        });
    }
    calls.extend(vec![Call::Redo; 2]);
    calls.extend(vec![Call::Undo; r.below(6)]);
    calls
}

pub type SessionFault = (&'static str, fn(&mut Random) -> Session);

/// Some sound session with a few edits standing, some undone, some steps.
fn busy(r: &mut Random) -> Session {
    loop {
        let agents = r.from_to(1, 15);
        let calls = r.from_to(4, 60);
        let mut session = session(r, agents, calls);
        let _ = session.undo();
        let undone = session.total > session.standing;
        if session.steps > 0 && session.standing > 0 && undone && session.total < 200 {
            return session;
        }
    }
}

fn with(r: &mut Random, alter: impl Fn(&mut Random, &mut Session)) -> Session {
    let mut session = busy(r);
    alter(r, &mut session);
    session
}

fn write_edit(session: &mut Session, number: usize, edit: &[u8]) {
    session.log[number * EDIT_BYTES..][..edit.len()].copy_from_slice(edit);
}

/// Sessions that no accepted opening and calls after it could leave.
pub const SESSION_FAULTS: &[SessionFault] = &[
    ("closed", |_| Session::closed()),
    ("closed with edits", |r| with(r, |_, s| s.agents = 0)),
    ("more than 16 agents", |r| {
        with(r, |r, s| {
            s.agents = *r.pick(&[17, 18, 255, 1 << 32, u64::MAX])
        })
    }),
    ("another number of steps", |r| {
        with(r, |r, s| {
            s.steps = *r.pick(&[s.steps + 1, s.steps - 1, 65, u64::MAX])
        })
    }),
    ("sheet altered", |r| {
        with(r, |r, s| {
            let used = (s.steps * s.agents) as usize;
            s.sheet[r.below(used)] ^= 1 << r.below(8);
        })
    }),
    ("byte after the sheet", |r| {
        with(r, |r, s| {
            let used = (s.steps * s.agents) as usize;
            s.sheet[r.from_to(used, 1023)] = r.from_to(1, 255) as u8;
        })
    }),
    ("more edits standing than there are", |r| {
        with(r, |r, s| {
            s.standing = *r.pick(&[s.total + 1, 200, 201, u64::MAX])
        })
    }),
    ("more edits than the log has room for", |r| {
        with(r, |r, s| s.total = *r.pick(&[201, 202, 1 << 40, u64::MAX]))
    }),
    ("more edits than were logged", |r| {
        with(r, |_, s| s.total += 1)
    }),
    ("fewer edits than were logged", |r| {
        with(r, |_, s| s.total -= 1)
    }),
    ("edit of another kind", |r| {
        with(r, |r, s| {
            let edit = r.below(s.total as usize);
            s.log[edit * EDIT_BYTES] = *r.pick(&[0, 4, 255]);
        })
    }),
    ("names beyond the agents", |r| {
        with(r, |r, s| {
            let edit = r.below(s.total as usize);
            s.log[edit * EDIT_BYTES + 2 + r.from_to(s.agents as usize, 15)] = 7;
        })
    }),
    ("byte after the log", |r| {
        with(r, |r, s| {
            let used = s.total as usize * EDIT_BYTES;
            s.log[r.from_to(used, 3599)] = r.from_to(1, 255) as u8;
        })
    }),
    ("enter with a step number", |r| {
        with(r, |_, s| {
            // The first edit is always an enter.
            s.log[1] = 1;
        })
    }),
    ("undone strike with names", |r| {
        with(r, |_, s| {
            let number = s.standing as usize;
            write_edit(s, number, &[2, 0, 1]);
            s.total = s.standing + 1;
            s.log[(number + 1) * EDIT_BYTES..].fill(0);
        })
    }),
    ("undone amend of a step not there", |r| {
        with(r, |r, s| {
            let number = s.standing as usize;
            let step = *r.pick(&[0, s.steps as u8 + 1, 65, 255]);
            s.log[number * EDIT_BYTES..].fill(0);
            write_edit(s, number, &[3, step]);
            s.total = s.standing + 1;
        })
    }),
    ("strike of an empty sheet", |r| {
        let mut session = opened(r.from_to(1, 16));
        session.total = 1;
        session.log[0] = 2;
        session.standing = r.below(2) as u64;
        session
    }),
    ("65th step", |r| {
        let mut session = session_of(&[1; 64], 1);
        write_edit(&mut session, 64, &[1, 0, 1]);
        session.total = 65;
        session.standing = r.from_to(0, 65) as u64;
        session.steps = session.standing.min(64);
        session.sheet = [0; 1024];
        session.sheet[..session.steps as usize].fill(1);
        session
    }),
    ("arbitrary bytes", |r| {
        let bytes = match r.one_in(2) {
            true => r.bytes(Session::BYTES),
            false => r.likely_bytes(Session::BYTES),
        };
        let mut session = Session::closed();
        if let Some(all) = bytes.first_chunk::<{ Session::BYTES }>() {
            session = Session::from_bytes(all);
        }
        session
    }),
    ("arbitrary log", |r| {
        let mut session = opened(r.from_to(1, 16));
        session.total = r.from_to(2, 200) as u64;
        session.standing = r.from_to(0, session.total as usize) as u64;
        let used = session.total as usize * EDIT_BYTES;
        let bytes = r.bytes(used);
        session.log[..used].copy_from_slice(&bytes);
        session
    }),
];
