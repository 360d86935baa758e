//! The editing session: a sheet and the log of the edits that made it.
//!
//! The log holds what each edit said, not what it replaced, so the sheet is
//! what the standing edits make of an empty one. That makes both questions
//! easy: undoing is replaying all but the newest standing edit, and a session
//! is sound exactly if replaying its log gives its sheet.

use crate::domain::Domain;
use crate::judge::{self, Judged, LEVELS};
use crate::refusal;
use crate::sheet::{MAX_STEPS, SHEET_BYTES};
use crate::store::{self, all_zero};
use crate::supplement::InForce;

pub const MAX_EDITS: usize = 200;
const NAMES: usize = Domain::MAX_AGENTS;
/// Kind, step number (0 unless amend), names padded with zeros.
pub const EDIT_BYTES: usize = 2 + NAMES;
pub const LOG_BYTES: usize = MAX_EDITS * EDIT_BYTES;

pub const ENTER: u8 = 1;
pub const STRIKE: u8 = 2;
pub const AMEND: u8 = 3;

/// A plain value: any numbers and bytes may stand in it, and each call first
/// asks whether they are ones that an opening and calls after it could leave.
#[derive(Clone, PartialEq, Eq, Debug)]
#[repr(C)]
pub struct Session {
    pub agents: u64,
    pub steps: u64,
    /// Step after step, one byte per agent, zeros after.
    pub sheet: [u8; SHEET_BYTES],
    /// Number of standing edits.
    pub standing: u64,
    /// Number of standing and undone edits.
    pub total: u64,
    pub log: [u8; LOG_BYTES],
}

/// A sheet while edits are applied to it. Each step has room for 16 names, so
/// that an edit is one copy of fixed size.
#[derive(Clone, Copy)]
struct Sheet {
    agents: usize,
    steps: usize,
    names: [[u8; NAMES]; MAX_STEPS],
}

type Edit = [u8; EDIT_BYTES];

impl Sheet {
    fn empty(agents: usize) -> Self {
        Sheet {
            agents,
            steps: 0,
            names: [[0; NAMES]; MAX_STEPS],
        }
    }

    /// Applies an edit; `None` if it is none that could be made here.
    #[inline]
    fn apply(&mut self, edit: &Edit) -> Option<()> {
        let &[kind, step, ref names @ ..] = edit;
        let step = usize::from(step);
        let all_names = u128::from_le_bytes(*names);
        let free = 8 * (NAMES - self.agents) as u32;
        if all_names.leading_zeros() < free {
            return None;
        }
        match kind {
            ENTER if step == 0 && self.steps < MAX_STEPS => {
                self.names[self.steps] = *names;
                self.steps += 1;
            }
            STRIKE if step == 0 && self.steps > 0 && all_names == 0 => self.steps -= 1,
            AMEND if (1..=self.steps).contains(&step) => self.names[step - 1] = *names,
            _ => return None,
        }
        Some(())
    }

    /// Step after step, one byte per agent, zeros after. What a step has room for
    /// besides its names is zero, and the next one's place.
    fn packed(&self) -> [u8; SHEET_BYTES] {
        let mut bytes = [0; SHEET_BYTES];
        let places = (0..).step_by(self.agents);
        for (place, names) in places.zip(&self.names[..self.steps]) {
            bytes[place..][..NAMES].copy_from_slice(names);
        }
        bytes
    }
}

impl Default for Session {
    fn default() -> Self {
        Session::closed()
    }
}

impl Session {
    pub const BYTES: usize = 4 * 8 + SHEET_BYTES + LOG_BYTES;

    pub const fn closed() -> Self {
        Session {
            agents: 0,
            steps: 0,
            sheet: [0; SHEET_BYTES],
            standing: 0,
            total: 0,
            log: [0; LOG_BYTES],
        }
    }

    /// Opens over a domain; refusal 15 leaves the session closed.
    pub fn open(&mut self, store: &[u8]) -> Result<(), u8> {
        *self = Session::closed();
        self.agents = store::counts(store)?.agents as u64;
        Ok(())
    }

    pub fn enter(&mut self, names: &[u8]) -> Result<(), u8> {
        let sheet = self.sheet_for_edit()?;
        let edit = edit_of(ENTER, 0, names, sheet.agents)?;
        self.record(sheet, &edit, refusal::STEP_65)
    }

    pub fn strike(&mut self) -> Result<(), u8> {
        let sheet = self.sheet_for_edit()?;
        let mut edit = [0; EDIT_BYTES];
        edit[0] = STRIKE;
        self.record(sheet, &edit, refusal::NO_STEP)
    }

    pub fn amend(&mut self, step: u64, names: &[u8]) -> Result<(), u8> {
        let sheet = self.sheet_for_edit()?;
        // A step number over 255 is no step either; 0 is what stands for that.
        let edit = edit_of(AMEND, u8::try_from(step).unwrap_or(0), names, sheet.agents)?;
        self.record(sheet, &edit, refusal::NO_STEP)
    }

    pub fn undo(&mut self) -> Result<(), u8> {
        let left = self.standing.checked_sub(1);
        let sheet = self.after(left.unwrap_or(0))?;
        self.standing = left.ok_or(refusal::NO_UNDO)?;
        self.show(&sheet);
        Ok(())
    }

    pub fn redo(&mut self) -> Result<(), u8> {
        let more = self.standing.saturating_add(1);
        let sheet = self.after(more.min(self.total))?;
        if more > self.total {
            return Err(refusal::NO_REDO);
        }
        self.standing = more;
        self.show(&sheet);
        Ok(())
    }

    /// The judge's verdict on the sheet. Refusals 17, 10, 15 and 16.
    pub fn verdict(&self, store: &[u8], levels: &mut [i16]) -> Result<Judged, u8> {
        let sheet = self.after(self.standing)?;
        if levels.len() < LEVELS {
            return Err(refusal::BUFFER);
        }
        let mut domain = Domain::EMPTY;
        let laws = InForce::of(&mut domain, store, &[]).ok_or(refusal::STORE)?;
        if laws.domain.agents() != sheet.agents {
            return Err(refusal::AGENTS_DIFFER);
        }
        let names = &self.sheet[..sheet.steps * sheet.agents];
        Ok(judge::run(&laws, names, levels))
    }

    /// Whether an accepted opening and calls after it could leave this session.
    pub fn is_sound(&self) -> bool {
        self.after(self.standing).is_ok()
    }

    /// The sheet after so many of its edits, if the session is sound, or refusal
    /// 17.
    ///
    /// Each edit of the log, undone ones included, was once made on the sheet
    /// that the edits before it made; and undoing can stop at each of them.
    fn after(&self, edits: u64) -> Result<Sheet, u8> {
        self.replayed(edits).ok_or(refusal::SESSION)
    }

    fn replayed(&self, edits: u64) -> Option<Sheet> {
        let known = (1..=NAMES as u64).contains(&self.agents);
        if !known || self.standing > self.total || self.total > MAX_EDITS as u64 {
            return None;
        }
        let (log, rest) = self.log.split_at(self.total as usize * EDIT_BYTES);
        let mut log = log
            .chunks_exact(EDIT_BYTES)
            .filter_map(|edit| edit.first_chunk());
        let mut sheet = Sheet::empty(self.agents as usize);
        let mut wanted = sheet;
        for made in 0..=self.total {
            if made == edits {
                wanted = sheet;
            }
            if made == self.standing && !self.shows(&sheet) {
                return None;
            }
            if let Some(edit) = log.next() {
                sheet.apply(edit)?;
            }
        }
        all_zero(rest).then_some(wanted)
    }

    /// Refusals 17 and 14, which every edit begins with.
    fn sheet_for_edit(&self) -> Result<Sheet, u8> {
        let sheet = self.after(self.standing)?;
        if self.standing == MAX_EDITS as u64 {
            return Err(refusal::LOG_FULL);
        }
        Ok(sheet)
    }

    /// Makes an edit and drops the undone ones, or gives the refusal.
    fn record(&mut self, mut sheet: Sheet, edit: &Edit, refused: u8) -> Result<(), u8> {
        sheet.apply(edit).ok_or(refused)?;
        let place = self.standing as usize * EDIT_BYTES;
        self.log[place..self.total as usize * EDIT_BYTES].fill(0);
        self.log[place..place + EDIT_BYTES].copy_from_slice(edit);
        self.standing += 1;
        self.total = self.standing;
        self.show(&sheet);
        Ok(())
    }

    fn shows(&self, sheet: &Sheet) -> bool {
        self.steps == sheet.steps as u64 && self.sheet == sheet.packed()
    }

    fn show(&mut self, sheet: &Sheet) {
        self.steps = sheet.steps as u64;
        self.sheet = sheet.packed();
    }

    /// The bytes of the session in the order of its parts, numbers low byte
    /// first, so that it can be handed to another program.
    pub fn to_bytes(&self) -> Vec<u8> {
        let mut bytes = Vec::with_capacity(Session::BYTES);
        bytes.extend(self.agents.to_le_bytes());
        bytes.extend(self.steps.to_le_bytes());
        bytes.extend(self.sheet);
        bytes.extend(self.standing.to_le_bytes());
        bytes.extend(self.total.to_le_bytes());
        bytes.extend(self.log);
        bytes
    }

    /// The session that those bytes stand for, sound or not.
    pub fn from_bytes(bytes: &[u8; Session::BYTES]) -> Self {
        let number = |at: usize| {
            let mut eight = [0; 8];
            eight.copy_from_slice(&bytes[at..at + 8]);
            u64::from_le_bytes(eight)
        };
        let mut session = Session::closed();
        session.agents = number(0);
        session.steps = number(8);
        session.sheet.copy_from_slice(&bytes[16..16 + SHEET_BYTES]);
        session.standing = number(16 + SHEET_BYTES);
        session.total = number(24 + SHEET_BYTES);
        session.log.copy_from_slice(&bytes[32 + SHEET_BYTES..]);
        session
    }
}

/// The log's bytes of an edit with names; refusal 8.
fn edit_of(kind: u8, step: u8, names: &[u8], agents: usize) -> Result<Edit, u8> {
    if names.len() != agents {
        return Err(refusal::NOT_WHOLE);
    }
    let mut edit = [0; EDIT_BYTES];
    edit[0] = kind;
    edit[1] = step;
    edit[2..2 + agents].copy_from_slice(names);
    Ok(edit)
}
