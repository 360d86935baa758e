//! The morning's figures: a domain and many sheets in; how many of them are
//! accepted, and what values the fluents have in these.

use crate::domain::Domain;
use crate::judge::{self, Trial, Verdict, LEVELS};
use crate::line::Lines;
use crate::page::Page;
use crate::program::MAX_INPUT;
use crate::refusal;
use crate::sheet::{self, SHEET_BYTES};
use crate::store::{self, STORE_BYTES};
use crate::supplement::InForce;

/// The line that begins a sheet.
pub const MARK: &[u8] = b"B000\n";

pub const MAX_SHEETS: usize = 40;

/// What stands behind so many bytes changes nothing: before it there is a 41st
/// sheet's mark, or a text that is too long.
pub const LONGEST_INPUT: usize = (1 + MAX_SHEETS) * (MAX_INPUT + MARK.len());

/// A refusal is given before anything is printed. What this takes of the stack is
/// not taken for the other programs.
#[inline(never)]
pub(crate) fn print(input: &[u8], page: &mut Page) -> Result<(), (u8, usize)> {
    let mut lines = Lines::of(input);
    let (mut domain, mut store) = (Domain::EMPTY, [0; STORE_BYTES]);
    let read = store::read_frames(&mut domain, &mut lines, &[MARK], &mut store);
    read.map_err(|refused| of_text(input, refused))?;
    let laws = InForce {
        domain: &domain,
        store: &store,
        supplement: &[],
        replaced: 0,
    };
    let mut levels = [0; LEVELS];
    let figures = judge::over(&laws, &mut levels, |trial| {
        Figures::of(&domain, &mut lines, trial)
    })?;
    figures.print(domain.fluents().len(), page);
    Ok(())
}

/// The refusal of a text that begins so, where one was found: 18 goes before all
/// others. A text in which none is found is far from being too long.
#[cold]
fn of_text(text: &[u8], found: (u8, usize)) -> (u8, usize) {
    let lines = text.split_inclusive(|&character| character == b'\n');
    let before_mark = lines.take_while(|&line| line != MARK);
    match before_mark.map(<[u8]>::len).sum::<usize>() > MAX_INPUT {
        true => (refusal::INPUT, 0),
        false => found,
    }
}

/// The number of sheets, and for each fluent what is printed of it, over all
/// states of the accepted ones.
struct Figures {
    accepted: i32,
    broken: i32,
    lowest: [i16; Domain::MAX_FLUENTS],
    highest: [i16; Domain::MAX_FLUENTS],
    sum: [i32; Domain::MAX_FLUENTS],
    states: i32,
}

impl Figures {
    const NONE: Figures = Figures {
        accepted: 0,
        broken: 0,
        lowest: [i16::MAX; Domain::MAX_FLUENTS],
        highest: [i16::MIN; Domain::MAX_FLUENTS],
        sum: [0; Domain::MAX_FLUENTS],
        states: 0,
    };

    /// Judges the sheets that lines hold from a mark on, if there is one.
    fn of(domain: &Domain, lines: &mut Lines, trial: &mut Trial) -> Result<Self, (u8, usize)> {
        let (agents, width) = (domain.agents(), domain.fluents().len());
        let mut figures = Figures::NONE;
        let mut names = [0; SHEET_BYTES];
        // Whatever was read before ended at a mark or with the input.
        while lines.next_line().is_some() {
            if figures.accepted + figures.broken == MAX_SHEETS as i32 {
                return Err((refusal::SHEET_41, lines.number()));
            }
            let text = lines.rest();
            let at_mark = |lines: &Lines| lines.at(&[MARK]);
            let read = sheet::read_lines(lines, at_mark, agents, &mut names);
            let steps = read.map_err(|refused| of_text(text, refused))?;
            let judged = trial.run(&names[..steps * agents]);
            match judged.verdict {
                Verdict::Accepted => figures.add(width, &trial.levels()[..judged.states * width]),
                Verdict::Broken { .. } => figures.broken += 1,
            }
        }
        Ok(figures)
    }

    /// Adds the states of an accepted sheet.
    fn add(&mut self, width: usize, levels: &[i16]) {
        self.accepted += 1;
        for state in levels.chunks_exact(width) {
            self.states += 1;
            let bounds = self.lowest.iter_mut().zip(&mut self.highest);
            for ((lowest, highest), &level) in bounds.zip(state) {
                *lowest = level.min(*lowest);
                *highest = level.max(*highest);
            }
            for (sum, &level) in self.sum.iter_mut().zip(state) {
                *sum += i32::from(level);
            }
        }
    }

    fn print(&self, fluents: usize, page: &mut Page) {
        page.line("SHEETS", [self.accepted, self.broken]);
        if self.accepted == 0 {
            return;
        }
        for fluent in 0..fluents {
            let (lowest, highest) = (self.lowest[fluent], self.highest[fluent]);
            let figures = [
                fluent as i32,
                lowest.into(),
                highest.into(),
                self.sum[fluent],
                self.states,
            ];
            page.line("F", figures);
        }
    }
}
