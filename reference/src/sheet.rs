//! Sheets: one name (or 0) per agent, step after step.

use crate::domain::Domain;
use crate::line::{line_length, write_line, Line, Lines, MAX_PAYLOAD};
use crate::refusal;

pub const STEP: u8 = 0xB1;
pub const MAX_STEPS: usize = 64;

/// Bytes that the sheet reader asks of its buffer: the longest sheet.
pub const SHEET_BYTES: usize = MAX_STEPS * Domain::MAX_AGENTS;

/// Bytes of the longest text.
pub const LONGEST_TEXT: usize = MAX_STEPS * line_length(2 + Domain::MAX_AGENTS);

fn check_agents(agents: usize) -> Result<(), u8> {
    let known = (1..=Domain::MAX_AGENTS).contains(&agents);
    known.then_some(()).ok_or(refusal::PAYLOAD)
}

/// The number of steps of a sheet; refusals 8 and 9.
pub fn steps_of(sheet: &[u8], agents: usize) -> Result<usize, u8> {
    if sheet.len() % agents != 0 {
        return Err(refusal::NOT_WHOLE);
    }
    let steps = sheet.len() / agents;
    if steps > MAX_STEPS {
        return Err(refusal::STEP_65);
    }
    Ok(steps)
}

/// Reads a sheet text into the buffer and returns the number of steps, or the
/// refusal and its line.
pub fn read_sheet(text: &[u8], agents: usize, buffer: &mut [u8]) -> Result<usize, (u8, usize)> {
    read_lines(&mut Lines::of(text), |_| false, agents, buffer)
}

/// Reads lines as [`read_sheet`] does, until they have ended so or at all.
pub(crate) fn read_lines(
    lines: &mut Lines,
    ended: impl Fn(&Lines) -> bool,
    agents: usize,
    buffer: &mut [u8],
) -> Result<usize, (u8, usize)> {
    if buffer.len() < SHEET_BYTES {
        return Err((refusal::BUFFER, 0));
    }
    let read = match check_agents(agents) {
        Ok(()) => fill(lines, ended, agents, buffer).map_err(|number| (number, lines.number())),
        Err(number) => Err((number, 0)),
    };
    let used = read.map_or(0, |steps| steps * agents);
    buffer[used..].fill(0);
    read
}

/// Each step goes from its line straight to its place.
fn fill(
    lines: &mut Lines,
    ended: impl Fn(&Lines) -> bool,
    agents: usize,
    buffer: &mut [u8],
) -> Result<usize, u8> {
    let mut places = buffer.chunks_exact_mut(agents).take(MAX_STEPS);
    let mut steps = 0;
    while !ended(lines) {
        let Some(line) = lines.next_line() else { break };
        let line = line?;
        match places.next() {
            Some(place) if line.kind == STEP && line.count() == agents => line.read(place)?,
            place => return Err(refused(&line, place.is_none())),
        }
        steps += 1;
    }
    Ok(steps)
}

/// The refusal of a line that is not a further step: 1, 3, 9 or 8, in this order.
#[cold]
fn refused(line: &Line, full: bool) -> u8 {
    match line.read(&mut [0; MAX_PAYLOAD][..line.count()]) {
        Err(number) => number,
        Ok(()) if line.kind != STEP => refusal::KIND,
        Ok(()) if full => refusal::STEP_65,
        Ok(()) => refusal::NOT_WHOLE,
    }
}

/// Writes the text of a sheet and returns the bytes written.
pub fn write_sheet(sheet: &[u8], agents: usize, text: &mut [u8]) -> Result<usize, u8> {
    check_agents(agents)?;
    let steps = steps_of(sheet, agents)?;
    if text.len() < steps * line_length(2 + agents) {
        return Err(refusal::BUFFER);
    }
    let mut place = 0;
    for names in sheet.chunks_exact(agents) {
        place += write_line(STEP, names, &mut text[place..]);
    }
    Ok(place)
}
