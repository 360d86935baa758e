//! The programs: a domain and a sheet in, states and a verdict out; the second
//! takes a supplement between the two; the third takes many sheets and gives
//! figures over them.

use crate::domain::Domain;
use crate::judge::{self, Judged, Verdict, LEVELS};
use crate::line::Lines;
use crate::page::Page;
use crate::refusal;
use crate::report;
use crate::sheet::{self, MAX_STEPS, SHEET_BYTES};
use crate::store;
use crate::supplement::{self, InForce};
use std::io::{self, Read, Write};

/// What the lines of a supplement and of a sheet start with.
const SUPPLEMENT: &[u8] = b"AF";
const SHEET: &[u8] = b"B1";

/// The most bytes of an input; of the third program's, of the domain's text and
/// of each sheet's.
pub const MAX_INPUT: usize = 60_000;

/// Bytes that each call asks of its output, as include/waroth.h names them: room
/// for a line of every state and for the last line. A number takes up to 21
/// bytes with the space before it, a level 7.
pub const OUTPUT_BYTES: usize =
    (MAX_STEPS + 1) * (1 + 21 + 7 * Domain::MAX_FLUENTS + 1) + (6 + 3 * 21 + 1);

#[derive(Clone, Copy, PartialEq, Eq, Debug)]
pub enum Program {
    /// A domain's lines, then a sheet's.
    Waroth,
    /// A domain's lines, a supplement's, then a sheet's.
    LowWater,
    /// A domain's lines, then sheets, each with a mark before its lines.
    Report,
}

impl Program {
    /// Prints to the front of the output and returns how many bytes that were;
    /// an output that is too short is left as it is.
    pub fn answer(self, input: &[u8], output: &mut [u8]) -> usize {
        if output.len() < OUTPUT_BYTES {
            return 0;
        }
        let mut page = Page::over(output);
        let printed = match self {
            Program::Waroth => print(input, &[SHEET], &mut page),
            Program::LowWater => print(input, &[SUPPLEMENT, SHEET], &mut page),
            Program::Report => report::print(input, &mut page),
        };
        if let Err((number, line)) = printed {
            page.line("REFUSED", [number.into(), line as i32]);
        }
        page.used()
    }

    /// What the program prints for its whole input.
    pub fn run(self, input: &[u8]) -> Vec<u8> {
        let mut output = vec![0; OUTPUT_BYTES];
        let printed = self.answer(input, &mut output);
        output.truncate(printed);
        output
    }

    /// From standard input to standard output. No more is read than can change
    /// the answer: of two programs, a byte more than their input may have.
    pub fn main(self) -> io::Result<()> {
        let most = match self {
            Program::Waroth | Program::LowWater => MAX_INPUT + 1,
            Program::Report => report::LONGEST_INPUT,
        };
        let mut input = Vec::new();
        let stdin = io::stdin().lock();
        stdin.take(most as u64).read_to_end(&mut input)?;
        io::stdout().lock().write_all(&self.run(&input))
    }
}

/// The sheet begins at the first line that starts with [`SHEET`], and the
/// supplement, where the domain may end at one, at the first before it that
/// starts with [`SUPPLEMENT`]. A refusal is given before anything is printed.
fn print(input: &[u8], ends: &[&[u8]], page: &mut Page) -> Result<(), (u8, usize)> {
    if input.len() > MAX_INPUT {
        return Err((refusal::INPUT, 0));
    }
    let mut lines = Lines::of(input);
    let (mut domain, mut frames) = (Domain::EMPTY, [0; MAX_INPUT / 2]);
    let used = store::read_frames(&mut domain, &mut lines, ends, &mut frames)?;
    let (store, supplement) = frames.split_at_mut(used);
    let (replaced, _) = supplement::read_frames(&mut domain, &mut lines, &[SHEET], supplement)?;
    let laws = InForce {
        domain: &domain,
        store,
        supplement,
        replaced,
    };
    judged(&laws, &mut lines, page)
}

/// Reads the sheet, judges it and prints states and verdict.
fn judged(laws: &InForce, lines: &mut Lines, page: &mut Page) -> Result<(), (u8, usize)> {
    let (agents, width) = (laws.domain.agents(), laws.domain.fluents().len());
    let mut sheet = [0; SHEET_BYTES];
    let steps = sheet::read_lines(lines, |_| false, agents, &mut sheet)?;
    let mut levels = [0; LEVELS];
    let Judged { verdict, states } = judge::run(laws, &sheet[..steps * agents], &mut levels);
    for (number, state) in levels.chunks_exact(width).take(states).enumerate() {
        page.byte(b'S');
        page.number(number as i32);
        state.iter().for_each(|&level| page.number(level.into()));
        page.byte(b'\n');
    }
    match verdict {
        Verdict::Accepted => page.line("ACCEPTED", []),
        Verdict::Broken { kind, step, number } => {
            page.line("BROKEN", [kind, step, number].map(i32::from));
        }
    }
    Ok(())
}
