//! Runs the proved library on a case, as `run_reference` runs the second judge.

use crate::desk;
use crate::lent::Lent;
use waroth_reference::generate::{
    handed_on, program_name, Answer, Call, Case, Outcome, SupplementCall,
};
use waroth_reference::Session;

const WRITTEN: &str = "a buffer that was lent to be read was written";

/// The answers and every buffer after the call; what was lent only to be read has to be as it was.
pub fn run_library(case: &Case) -> Result<Outcome, String> {
    let mut outcome = Outcome::default();
    let given = case.clone();
    match &given {
        Case::ReadDomain { text, store } => {
            let mut store = Lent::of(store);
            let answer = desk::read_domain(text, store.part());
            outcome.answers.push(("read_domain", answer));
            outcome.bytes = store.back()?;
        }
        Case::Accepted { store } => {
            let mut session = Session::closed();
            let opened = desk::open(&mut session, store);
            let answer = Answer::Truth(opened == Answer::Done);
            outcome.answers.push(("accepted", answer));
        }
        Case::Counts { store } => outcome.answers.push(("counts", desk::counts(store))),
        Case::WriteDomain { store, text } => {
            let mut text = Lent::of(text);
            let answer = desk::write_domain(store, text.part());
            outcome.answers.push(("write_domain", answer));
            outcome.bytes = text.back()?;
        }
        Case::Frames { store } => frames(store, &mut outcome),
        Case::FrameAt { store, place } => {
            let (start, bytes) = (*place, frame(store, *place));
            let answer = Answer::Frame { start, bytes };
            outcome.answers.push(("frame_at", answer));
        }
        Case::ReadSheet {
            text,
            agents,
            buffer,
        } => {
            let mut buffer = Lent::of(buffer);
            let answer = desk::read_sheet(text, *agents, buffer.part());
            outcome.answers.push(("read_sheet", answer));
            outcome.bytes = buffer.back()?;
        }
        Case::WriteSheet {
            sheet,
            agents,
            text,
        } => {
            let mut text = Lent::of(text);
            let answer = desk::write_sheet(sheet, *agents, text.part());
            outcome.answers.push(("write_sheet", answer));
            outcome.bytes = text.back()?;
        }
        Case::Judge {
            store,
            sheet,
            levels,
        } => {
            let mut levels = Lent::of(levels);
            let answer = desk::judge(store, sheet, levels.part());
            outcome.answers.push(("judge", answer));
            outcome.levels.push(levels.back()?);
        }
        Case::ReadSupplement {
            store,
            text,
            buffer,
        } => {
            let mut buffer = Lent::of(buffer);
            let answer = desk::read_supplement(store, text, buffer.part());
            outcome.answers.push(("read_supplement", answer));
            outcome.bytes = buffer.back()?;
        }
        Case::JudgeUnder {
            store,
            supplement,
            sheet,
            levels,
        } => {
            judge_under(store, supplement, sheet, levels, &mut outcome)?;
        }
        Case::Laws {
            store,
            supplement,
            numbers,
        } => laws(store, supplement, numbers, &mut outcome),
        Case::Supplements {
            store,
            supplements,
            calls,
        } => {
            let mut held = supplements.clone();
            for call in calls {
                let before = held.clone();
                let laid = over(call, store, &held, &mut outcome)?;
                if held != before {
                    return Err(WRITTEN.into());
                }
                held.extend(laid);
            }
        }
        Case::Session { session, calls } => {
            let mut session = session.clone();
            for call in calls {
                make(call, &mut session, &mut outcome)?;
                outcome.sessions.push((*session).clone());
            }
        }
        Case::Program {
            program,
            input,
            output,
        } => {
            let mut output = Lent::of(output);
            let written = desk::answer(*program, input, output.part());
            outcome.bytes = output.back()?;
            let answer = Answer::Printed(outcome.bytes[..written].to_vec());
            outcome.answers.push((program_name(*program), answer));
        }
    }
    match given == *case {
        true => Ok(outcome),
        false => Err(WRITTEN.into()),
    }
}

/// The bytes of the frame at a place.
fn frame(store: &[u8], place: usize) -> Vec<u8> {
    match desk::frame(store, place) {
        0 => Vec::new(),
        size => store[place..][..size].to_vec(),
    }
}

/// The frames one after another, as the frame reader hands them out over an accepted domain.
fn frames(store: &[u8], outcome: &mut Outcome) {
    let mut session = Session::closed();
    let started = desk::open(&mut session, store);
    let store = if started == Answer::Done { store } else { &[] };
    outcome.answers.push(("frames", started));
    let (mut start, mut no_more) = (0, 0);
    while no_more < 2 {
        let bytes = frame(store, start);
        let size = bytes.len();
        no_more += bytes.is_empty() as usize;
        let answer = Answer::Frame { start, bytes };
        outcome.answers.push(("frames", answer));
        start += size;
    }
}

fn judge_under(
    store: &[u8],
    supplement: &[u8],
    sheet: &[u8],
    levels: &[i16],
    outcome: &mut Outcome,
) -> Result<(), String> {
    let mut levels = Lent::of(levels);
    let answer = desk::judge_under(store, supplement, sheet, levels.part());
    outcome.answers.push(("judge_under", answer));
    outcome.levels.push(levels.back()?);
    Ok(())
}

fn laws(store: &[u8], supplement: &[u8], numbers: &[usize], outcome: &mut Outcome) {
    for &number in numbers {
        let answer = desk::law(store, supplement, number);
        outcome.answers.push(("law", answer));
    }
}

/// A call over the supplements held, and what it adds to them.
fn over(
    call: &SupplementCall,
    store: &[u8],
    held: &[Vec<u8>],
    outcome: &mut Outcome,
) -> Result<Option<Vec<u8>>, String> {
    match call {
        SupplementCall::Lay {
            lower,
            upper,
            result,
            whole,
        } => {
            let mut result = Lent::of(result);
            let answer = desk::lay(store, &held[*lower], &held[*upper], result.part());
            let result = result.back()?;
            let laid = handed_on(&answer, result.clone(), *whole);
            outcome.answers.push(("lay", answer));
            outcome.laid.push(result);
            return Ok(Some(laid));
        }
        SupplementCall::Judge {
            supplement,
            sheet,
            levels,
        } => judge_under(store, &held[*supplement], sheet, levels, outcome)?,
        SupplementCall::Laws {
            supplement,
            numbers,
        } => laws(store, &held[*supplement], numbers, outcome),
    }
    Ok(None)
}

fn make(call: &Call, session: &mut Session, outcome: &mut Outcome) -> Result<(), String> {
    let answer = match call {
        Call::Open { store } => ("open", desk::open(session, store)),
        Call::Enter { names } => ("enter", desk::enter(session, names)),
        Call::Strike => ("strike", desk::strike(session)),
        Call::Amend { step, names } => ("amend", desk::amend(session, *step as usize, names)),
        Call::Undo => ("undo", desk::undo(session)),
        Call::Redo => ("redo", desk::redo(session)),
        Call::Verdict { store, levels } => {
            let mut levels = Lent::of(levels);
            let answer = desk::verdict_of(session, store, levels.part());
            outcome.levels.push(levels.back()?);
            ("verdict", answer)
        }
    };
    outcome.answers.push(answer);
    Ok(())
}
