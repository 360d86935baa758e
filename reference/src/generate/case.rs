//! A case: one public call, or a series of calls on a session or on supplements,
//! with all that it is given; and what comes of it.

use crate::domain::Counts;
use crate::judge::{self, Judged};
use crate::program::Program;
use crate::session::Session;
use crate::sheet;
use crate::store::{self, FrameReader};
use crate::supplement::{self, LawInForce};

/// A call of a session.
#[derive(Clone, PartialEq, Eq, Debug)]
pub enum Call {
    Open { store: Vec<u8> },
    Enter { names: Vec<u8> },
    Strike,
    Amend { step: u64, names: Vec<u8> },
    Undo,
    Redo,
    Verdict { store: Vec<u8>, levels: Vec<i16> },
}

/// A call that takes supplements of one domain, each named by its place in a
/// list.
#[derive(Clone, PartialEq, Eq, Debug)]
pub enum SupplementCall {
    /// Lays one over another and puts the result behind the last of the list.
    Lay {
        lower: usize,
        upper: usize,
        result: Vec<u8>,
        /// The whole buffer is handed on, else only the bytes used.
        whole: bool,
    },
    Judge {
        supplement: usize,
        sheet: Vec<u8>,
        levels: Vec<i16>,
    },
    Laws {
        supplement: usize,
        numbers: Vec<usize>,
    },
}

/// Buffers to be written are given with the contents they have before the call.
#[derive(Clone, PartialEq, Eq, Debug)]
pub enum Case {
    ReadDomain {
        text: Vec<u8>,
        store: Vec<u8>,
    },
    Accepted {
        store: Vec<u8>,
    },
    Counts {
        store: Vec<u8>,
    },
    WriteDomain {
        store: Vec<u8>,
        text: Vec<u8>,
    },
    /// Starts a frame reader and asks it until it has said "no more" twice.
    Frames {
        store: Vec<u8>,
    },
    /// The frame at a place of any bytes.
    FrameAt {
        store: Vec<u8>,
        place: usize,
    },
    ReadSheet {
        text: Vec<u8>,
        agents: usize,
        buffer: Vec<u8>,
    },
    WriteSheet {
        sheet: Vec<u8>,
        agents: usize,
        text: Vec<u8>,
    },
    Judge {
        store: Vec<u8>,
        sheet: Vec<u8>,
        levels: Vec<i16>,
    },
    ReadSupplement {
        store: Vec<u8>,
        text: Vec<u8>,
        buffer: Vec<u8>,
    },
    JudgeUnder {
        store: Vec<u8>,
        supplement: Vec<u8>,
        sheet: Vec<u8>,
        levels: Vec<i16>,
    },
    /// Asks for the laws in force of these numbers, one after another.
    Laws {
        store: Vec<u8>,
        supplement: Vec<u8>,
        numbers: Vec<usize>,
    },
    /// Calls one after another over a domain and these supplements.
    Supplements {
        store: Vec<u8>,
        supplements: Vec<Vec<u8>>,
        calls: Vec<SupplementCall>,
    },
    /// Calls one after another on the session given.
    Session {
        session: Box<Session>,
        calls: Vec<Call>,
    },
    Program {
        program: Program,
        input: Vec<u8>,
        output: Vec<u8>,
    },
}

#[derive(Clone, PartialEq, Eq, Debug)]
pub enum Answer {
    Done,
    Truth(bool),
    /// Bytes used or written, or steps.
    Count(usize),
    /// Where the frame given stands in the store; an empty part is "no more".
    Frame {
        start: usize,
        bytes: Vec<u8>,
    },
    Judged(Judged),
    Counts(Counts),
    Law(LawInForce),
    Printed(Vec<u8>),
    /// Line 0 also where the call reports no line.
    Refused {
        number: u8,
        line: usize,
    },
    /// A number that no call answers by; this implementation gives none.
    Unreadable(u64),
}

/// The answer of each call made, under its name, and every buffer after it.
#[derive(Clone, Default, PartialEq, Eq, Debug)]
pub struct Outcome {
    pub answers: Vec<(&'static str, Answer)>,
    /// Store, text or sheet buffer that was lent to be written.
    pub bytes: Vec<u8>,
    /// The result after each laying.
    pub laid: Vec<Vec<u8>>,
    /// Levels after each call that was lent some.
    pub levels: Vec<Vec<i16>>,
    /// The session after each call.
    pub sessions: Vec<Session>,
}

fn plain<T>(result: Result<T, u8>, answer: impl Fn(T) -> Answer) -> Answer {
    result.map_or_else(|number| Answer::Refused { number, line: 0 }, answer)
}

fn lined(result: Result<usize, (u8, usize)>) -> Answer {
    result.map_or_else(
        |(number, line)| Answer::Refused { number, line },
        Answer::Count,
    )
}

/// Runs this implementation on a case.
pub fn run_reference(case: &Case) -> Outcome {
    let mut outcome = Outcome::default();
    match case {
        Case::ReadDomain { text, store } => {
            outcome.bytes = store.clone();
            let answer = lined(store::read_domain(text, &mut outcome.bytes));
            outcome.answers.push(("read_domain", answer));
        }
        Case::Accepted { store } => {
            let answer = Answer::Truth(store::accepted(store));
            outcome.answers.push(("accepted", answer));
        }
        Case::Counts { store } => {
            let answer = plain(store::counts(store), Answer::Counts);
            outcome.answers.push(("counts", answer));
        }
        Case::WriteDomain { store, text } => {
            outcome.bytes = text.clone();
            let written = store::write_domain(store, &mut outcome.bytes);
            let answer = plain(written, Answer::Count);
            outcome.answers.push(("write_domain", answer));
        }
        Case::Frames { store } => frames(store, &mut outcome),
        Case::FrameAt { store, place } => {
            let bytes = store::frame_at(store, *place).unwrap_or_default().to_vec();
            let start = *place;
            let answer = Answer::Frame { start, bytes };
            outcome.answers.push(("frame_at", answer));
        }
        Case::ReadSheet {
            text,
            agents,
            buffer,
        } => {
            outcome.bytes = buffer.clone();
            let answer = lined(sheet::read_sheet(text, *agents, &mut outcome.bytes));
            outcome.answers.push(("read_sheet", answer));
        }
        Case::WriteSheet {
            sheet,
            agents,
            text,
        } => {
            outcome.bytes = text.clone();
            let written = sheet::write_sheet(sheet, *agents, &mut outcome.bytes);
            let answer = plain(written, Answer::Count);
            outcome.answers.push(("write_sheet", answer));
        }
        Case::Judge {
            store,
            sheet,
            levels,
        } => {
            let mut levels = levels.clone();
            let judged = judge::judge(store, sheet, &mut levels);
            let answer = plain(judged, Answer::Judged);
            outcome.answers.push(("judge", answer));
            outcome.levels.push(levels);
        }
        Case::ReadSupplement {
            store,
            text,
            buffer,
        } => {
            outcome.bytes = buffer.clone();
            let read = supplement::read_supplement(store, text, &mut outcome.bytes);
            outcome.answers.push(("read_supplement", lined(read)));
        }
        Case::JudgeUnder {
            store,
            supplement,
            sheet,
            levels,
        } => {
            judge_under(store, supplement, sheet, levels, &mut outcome);
        }
        Case::Laws {
            store,
            supplement,
            numbers,
        } => laws(store, supplement, numbers, &mut outcome),
        Case::Supplements {
            store,
            supplements,
            calls,
        } => {
            let mut supplements = supplements.clone();
            for call in calls {
                over(call, store, &mut supplements, &mut outcome);
            }
        }
        Case::Session { session, calls } => {
            let mut session = session.clone();
            for call in calls {
                make(call, &mut session, &mut outcome);
                outcome.sessions.push((*session).clone());
            }
        }
        Case::Program {
            program,
            input,
            output,
        } => {
            outcome.bytes = output.clone();
            let written = program.answer(input, &mut outcome.bytes);
            let answer = Answer::Printed(outcome.bytes[..written].to_vec());
            outcome.answers.push((program_name(*program), answer));
        }
    }
    outcome
}

/// What a program's call is counted under.
pub fn program_name(program: Program) -> &'static str {
    match program {
        Program::Waroth => "program",
        Program::LowWater => "low_water",
        Program::Report => "report",
    }
}

fn frames(store: &[u8], outcome: &mut Outcome) {
    let started = FrameReader::start(store);
    let answer = plain(started.as_ref().map_err(|&number| number), |_| Answer::Done);
    outcome.answers.push(("frames", answer));
    let mut reader = started.unwrap_or(FrameReader::over_nothing());
    let mut no_more = 0;
    while no_more < 2 {
        let start = reader.place();
        let bytes = reader.next().unwrap_or_default().to_vec();
        no_more += bytes.is_empty() as usize;
        let answer = Answer::Frame { start, bytes };
        outcome.answers.push(("frames", answer));
    }
}

fn judge_under(
    store: &[u8],
    supplement: &[u8],
    sheet: &[u8],
    levels: &[i16],
    outcome: &mut Outcome,
) {
    let mut levels = levels.to_vec();
    let judged = judge::judge_under(store, supplement, sheet, &mut levels);
    let answer = plain(judged, Answer::Judged);
    outcome.answers.push(("judge_under", answer));
    outcome.levels.push(levels);
}

fn laws(store: &[u8], supplement: &[u8], numbers: &[usize], outcome: &mut Outcome) {
    for &number in numbers {
        let law = supplement::law_in_force(store, supplement, number);
        outcome.answers.push(("law", plain(law, Answer::Law)));
    }
}

/// What is handed on of a laying's result: all of it, or the bytes used, which
/// are none where it was refused.
pub fn handed_on(answer: &Answer, mut result: Vec<u8>, whole: bool) -> Vec<u8> {
    match answer {
        _ if whole => {}
        Answer::Count(used) => result.truncate(*used),
        _ => result.clear(),
    }
    result
}

fn over(
    call: &SupplementCall,
    store: &[u8],
    supplements: &mut Vec<Vec<u8>>,
    outcome: &mut Outcome,
) {
    match call {
        SupplementCall::Lay {
            lower,
            upper,
            result,
            whole,
        } => {
            let mut result = result.clone();
            let (lower, upper) = (&supplements[*lower], &supplements[*upper]);
            let used = supplement::lay(store, lower, upper, &mut result);
            let answer = plain(used, Answer::Count);
            supplements.push(handed_on(&answer, result.clone(), *whole));
            outcome.answers.push(("lay", answer));
            outcome.laid.push(result);
        }
        SupplementCall::Judge {
            supplement,
            sheet,
            levels,
        } => judge_under(store, &supplements[*supplement], sheet, levels, outcome),
        SupplementCall::Laws {
            supplement,
            numbers,
        } => laws(store, &supplements[*supplement], numbers, outcome),
    }
}

fn make(call: &Call, session: &mut Session, outcome: &mut Outcome) {
    let (name, result) = match call {
        Call::Open { store } => ("open", session.open(store)),
        Call::Enter { names } => ("enter", session.enter(names)),
        Call::Strike => ("strike", session.strike()),
        Call::Amend { step, names } => ("amend", session.amend(*step, names)),
        Call::Undo => ("undo", session.undo()),
        Call::Redo => ("redo", session.redo()),
        Call::Verdict { store, levels } => {
            let mut levels = levels.clone();
            let judged = session.verdict(store, &mut levels);
            let answer = plain(judged, Answer::Judged);
            outcome.answers.push(("verdict", answer));
            outcome.levels.push(levels);
            return;
        }
    };
    let answer = plain(result, |()| Answer::Done);
    outcome.answers.push((name, answer));
}
