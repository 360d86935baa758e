//! The proved library's calls as include/waroth.h declares them, behind functions with Rust's own types.

use waroth_reference::generate::Answer;
use waroth_reference::judge::{Judged, Verdict};
use waroth_reference::program::Program;
use waroth_reference::{Counts, LawInForce, Session};

// The header's size_t has 64 bits, as the numbers of a session have here, and nothing stands between a session's parts.
const _: () = assert!(size_of::<usize>() == 8 && size_of::<Session>() == Session::BYTES);

#[link(name = "desk", kind = "static")]
extern "C" {
    fn waroth_read_domain(text: *const u8, length: usize, store: *mut u8, room: usize) -> u64;
    fn waroth_write_domain(store: *const u8, length: usize, text: *mut u8, room: usize) -> u64;
    fn waroth_counts(store: *const u8, length: usize) -> u64;
    fn waroth_frame(store: *const u8, length: usize, place: usize) -> u64;
    fn waroth_read_sheet(
        text: *const u8,
        length: usize,
        agents: usize,
        buffer: *mut u8,
        room: usize,
    ) -> u64;
    fn waroth_write_sheet(
        sheet: *const u8,
        length: usize,
        agents: usize,
        text: *mut u8,
        room: usize,
    ) -> u64;
    fn waroth_judge(
        store: *const u8,
        length: usize,
        sheet: *const u8,
        names: usize,
        levels: *mut i16,
        room: usize,
    ) -> u64;
    fn waroth_read_supplement(
        store: *const u8,
        length: usize,
        text: *const u8,
        characters: usize,
        supplement: *mut u8,
        room: usize,
    ) -> u64;
    fn waroth_judge_under(
        store: *const u8,
        length: usize,
        supplement: *const u8,
        replacing: usize,
        sheet: *const u8,
        names: usize,
        levels: *mut i16,
        room: usize,
    ) -> u64;
    fn waroth_law(
        store: *const u8,
        length: usize,
        supplement: *const u8,
        replacing: usize,
        law: usize,
    ) -> u64;
    fn waroth_lay(
        store: *const u8,
        length: usize,
        lower: *const u8,
        lower_length: usize,
        upper: *const u8,
        upper_length: usize,
        result: *mut u8,
        room: usize,
    ) -> u64;
    fn waroth_open(session: *mut Session, store: *const u8, length: usize) -> u64;
    fn waroth_enter(session: *mut Session, names: *const u8, length: usize) -> u64;
    fn waroth_strike(session: *mut Session) -> u64;
    fn waroth_amend(session: *mut Session, step: usize, names: *const u8, length: usize) -> u64;
    fn waroth_undo(session: *mut Session) -> u64;
    fn waroth_redo(session: *mut Session) -> u64;
    fn waroth_verdict(
        session: Session,
        store: *const u8,
        length: usize,
        levels: *mut i16,
        room: usize,
    ) -> u64;
    fn waroth_answer(input: *const u8, length: usize, output: *mut u8, room: usize) -> u64;
    fn waroth_low_water(input: *const u8, length: usize, output: *mut u8, room: usize) -> u64;
    fn waroth_report(input: *const u8, length: usize, output: *mut u8, room: usize) -> u64;
}

/// What include/waroth.h calls WAROTH_ACCEPTED and WAROTH_REFUSED.
const ACCEPTED: u64 = 128;
const REFUSED: u64 = 255;

/// What the header's functions read from an answer, if that makes up the whole of it: any bit besides is a difference.
fn whole(answer: u64, parts: u64, read: Answer) -> Answer {
    match answer == parts {
        true => read,
        false => Answer::Unreadable(answer),
    }
}

/// The byte of an answer whose lowest bit is this one.
fn byte(answer: u64, lowest: u32) -> u8 {
    (answer >> lowest) as u8
}

/// A refusal's number in the upper half; in the lower bit 31, and this beside it.
fn refused(answer: u64, line: u64, beside: u64) -> Answer {
    let parts = u64::from(byte(answer, 32)) << 32 | 1 << 31 | beside;
    let read = Answer::Refused {
        number: byte(answer, 32),
        line: line as usize,
    };
    whole(answer, parts, read)
}

/// A refusal of a call that knows no lines: its number stands in the lowest byte too, and this above it.
fn alone(answer: u64, above: u64) -> Answer {
    refused(answer, 0, above | u64::from(byte(answer, 32)))
}

/// Bytes or steps, or a refusal and its line.
fn counted(answer: u64) -> Answer {
    let below = answer & 0x7FFF_FFFF;
    match answer >> 32 {
        0 => whole(answer, below, Answer::Count(below as usize)),
        _ => refused(answer, below, below),
    }
}

/// Bytes, or a refusal that has no line.
fn written(answer: u64) -> Answer {
    match answer >> 32 {
        0 => counted(answer),
        _ => refused(answer, 0, 0),
    }
}

/// Kind, step and number, and above them the states.
fn judged(answer: u64) -> Answer {
    let (kind, states) = (byte(answer, 16), answer >> 24 & 0x7F);
    let (verdict, below) = match u64::from(kind) {
        _ if answer >> 32 != 0 => return alone(answer, REFUSED << 16),
        ACCEPTED => (Verdict::Accepted, 0),
        _ => {
            let (step, number) = (byte(answer, 8), byte(answer, 0));
            let below = u64::from(step) << 8 | u64::from(number);
            (Verdict::Broken { kind, step, number }, below)
        }
    };
    let judged = Judged {
        verdict,
        states: states as usize,
    };
    let parts = states << 24 | u64::from(kind) << 16 | below;
    whole(answer, parts, Answer::Judged(judged))
}

/// Agents, fluents, entries and laws, a byte each.
fn numbered(answer: u64) -> Answer {
    let count = |lowest| usize::from(byte(answer, lowest));
    let counts = Counts {
        agents: count(24),
        fluents: count(16),
        entries: count(8),
        laws: count(0),
    };
    match answer >> 32 {
        0 => whole(answer, answer & 0x7FFF_FFFF, Answer::Counts(counts)),
        _ => alone(answer, 0),
    }
}

/// Which store, above two bytes of the place and one of the size.
fn found(answer: u64) -> Answer {
    let law = LawInForce {
        replaced: answer >> 24 & 1 == 1,
        place: (answer >> 8 & 0xFFFF) as usize,
        size: byte(answer, 0).into(),
    };
    match answer >> 32 {
        0 => whole(answer, answer & 0x1FF_FFFF, Answer::Law(law)),
        _ => alone(answer, 0),
    }
}

/// 0, or a refusal.
fn done(answer: u64) -> Answer {
    match answer {
        0 => Answer::Done,
        _ => alone(answer, 0),
    }
}

pub fn read_domain(text: &[u8], store: &mut [u8]) -> Answer {
    counted(unsafe {
        waroth_read_domain(text.as_ptr(), text.len(), store.as_mut_ptr(), store.len())
    })
}

pub fn write_domain(store: &[u8], text: &mut [u8]) -> Answer {
    written(unsafe {
        waroth_write_domain(store.as_ptr(), store.len(), text.as_mut_ptr(), text.len())
    })
}

pub fn counts(store: &[u8]) -> Answer {
    numbered(unsafe { waroth_counts(store.as_ptr(), store.len()) })
}

/// The size of the frame at a place, 0 where none stands.
pub fn frame(store: &[u8], place: usize) -> usize {
    unsafe { waroth_frame(store.as_ptr(), store.len(), place) as usize }
}

pub fn read_sheet(text: &[u8], agents: usize, buffer: &mut [u8]) -> Answer {
    let (room, to) = (buffer.len(), buffer.as_mut_ptr());
    counted(unsafe { waroth_read_sheet(text.as_ptr(), text.len(), agents, to, room) })
}

pub fn write_sheet(sheet: &[u8], agents: usize, text: &mut [u8]) -> Answer {
    let (room, to) = (text.len(), text.as_mut_ptr());
    written(unsafe { waroth_write_sheet(sheet.as_ptr(), sheet.len(), agents, to, room) })
}

pub fn judge(store: &[u8], sheet: &[u8], levels: &mut [i16]) -> Answer {
    judged(unsafe {
        waroth_judge(
            store.as_ptr(),
            store.len(),
            sheet.as_ptr(),
            sheet.len(),
            levels.as_mut_ptr(),
            levels.len(),
        )
    })
}

pub fn read_supplement(store: &[u8], text: &[u8], supplement: &mut [u8]) -> Answer {
    counted(unsafe {
        waroth_read_supplement(
            store.as_ptr(),
            store.len(),
            text.as_ptr(),
            text.len(),
            supplement.as_mut_ptr(),
            supplement.len(),
        )
    })
}

pub fn judge_under(store: &[u8], supplement: &[u8], sheet: &[u8], levels: &mut [i16]) -> Answer {
    judged(unsafe {
        waroth_judge_under(
            store.as_ptr(),
            store.len(),
            supplement.as_ptr(),
            supplement.len(),
            sheet.as_ptr(),
            sheet.len(),
            levels.as_mut_ptr(),
            levels.len(),
        )
    })
}

pub fn law(store: &[u8], supplement: &[u8], law: usize) -> Answer {
    let (replacing, from) = (supplement.len(), supplement.as_ptr());
    found(unsafe { waroth_law(store.as_ptr(), store.len(), from, replacing, law) })
}

pub fn lay(store: &[u8], lower: &[u8], upper: &[u8], result: &mut [u8]) -> Answer {
    written(unsafe {
        waroth_lay(
            store.as_ptr(),
            store.len(),
            lower.as_ptr(),
            lower.len(),
            upper.as_ptr(),
            upper.len(),
            result.as_mut_ptr(),
            result.len(),
        )
    })
}

pub fn open(session: &mut Session, store: &[u8]) -> Answer {
    done(unsafe { waroth_open(session, store.as_ptr(), store.len()) })
}

pub fn enter(session: &mut Session, names: &[u8]) -> Answer {
    done(unsafe { waroth_enter(session, names.as_ptr(), names.len()) })
}

pub fn strike(session: &mut Session) -> Answer {
    done(unsafe { waroth_strike(session) })
}

pub fn amend(session: &mut Session, step: usize, names: &[u8]) -> Answer {
    done(unsafe { waroth_amend(session, step, names.as_ptr(), names.len()) })
}

pub fn undo(session: &mut Session) -> Answer {
    done(unsafe { waroth_undo(session) })
}

pub fn redo(session: &mut Session) -> Answer {
    done(unsafe { waroth_redo(session) })
}

pub fn verdict_of(session: &Session, store: &[u8], levels: &mut [i16]) -> Answer {
    let (room, to) = (levels.len(), levels.as_mut_ptr());
    let session = session.clone();
    judged(unsafe { waroth_verdict(session, store.as_ptr(), store.len(), to, room) })
}

/// What a program prints for an input: the bytes written to the front of the output.
pub fn answer(program: Program, input: &[u8], output: &mut [u8]) -> usize {
    let call = match program {
        Program::Waroth => waroth_answer,
        Program::LowWater => waroth_low_water,
        Program::Report => waroth_report,
    };
    let (room, to) = (output.len(), output.as_mut_ptr());
    unsafe { call(input.as_ptr(), input.len(), to, room) as usize }
}
