//! Cases made for one answer each: every refusal by every cause that the
//! paper's table names, every kind of fault, and the edges of every limit.

use super::calls::CALLS;
use super::case::{Call, Case, SupplementCall};
use super::changing_fast;
use super::codes::{self, Part};
use super::divisions;
use super::draft::{sheet_text, text_of, Draft};
use super::faults::{Lines, LINE_FAULTS};
use super::laying::{self, LAYING, WRONG};
use super::looking_back;
use super::low_water::LOW_WATER;
use super::nesting::{self, Shaped};
use super::random::Random;
use super::report::{self, has_mark, input_of, reporting};
use super::sheets::{self, SESSION_FAULTS};
use super::supplements::{self, Place, PLACES};
use super::texts::{damaged_line, CHARACTER_FAULTS, ORDER_FAULTS, SHEET_FAULTS};
use super::troubles;
use super::verdicts::{self, Trial};
use crate::domain::Counts;
use crate::judge::LEVELS;
use crate::program::{Program, OUTPUT_BYTES};
use crate::refusal::*;
use crate::session::Session;
use crate::sheet::SHEET_BYTES;
use crate::store::STORE_BYTES;
use crate::supplement::{LawInForce, SUPPLEMENT_BYTES};

#[derive(Clone, Copy, PartialEq, Eq, Debug)]
pub enum Expect {
    /// The last call is refused with this number.
    Refused(u8),
    /// The verdict is this kind of fault, and the states are those before it.
    Broken(u8),
    /// The same in this step and of this number.
    At(u8, usize, usize),
    /// The verdict is this kind of fault of a goal law, and all states are
    /// there.
    Goal(u8),
    /// The verdict is Accepted.
    Accepted,
    /// So many agents, fluents, entries and laws.
    Counts(Counts),
    /// Of all the laws asked for, so many stand in the domain and so many in the
    /// supplement.
    Laws { own: usize, replaced: usize },
    /// The law in force stands here.
    Law(LawInForce),
    /// So many bytes or steps.
    Count(usize),
    /// The last two layings leave the same bytes in results of one length.
    Same,
    /// The program's call prints nothing.
    Silent,
    /// The report counts so many sheets.
    Sheets { accepted: usize, broken: usize },
    /// The report has figures of so many fluents.
    Figures(usize),
    /// The program's call prints this.
    Printed(&'static str),
    /// The last call is not refused.
    Fine,
}

pub struct Aim {
    pub label: String,
    pub expect: Expect,
    pub make: Box<dyn Fn(&mut Random) -> Case>,
}

/// Contents of a buffer that is long enough, sometimes exactly.
pub fn enough(r: &mut Random, named: usize) -> Vec<u8> {
    let more = if r.one_in(3) { r.from_to(1, 40) } else { 0 };
    r.bytes(named + more)
}

/// A program's call on an input, with room for what it prints.
pub fn printing_by(program: Program, r: &mut Random, input: Vec<u8>) -> Case {
    Case::Program {
        program,
        input,
        output: enough(r, OUTPUT_BYTES),
    }
}

pub fn printing(r: &mut Random, input: Vec<u8>) -> Case {
    printing_by(Program::Waroth, r, input)
}

pub fn too_short(r: &mut Random, named: usize) -> Vec<u8> {
    let length = match r.below(4) {
        0 => 0,
        1 => r.below(named),
        _ => named - 1,
    };
    r.bytes(length)
}

pub fn enough_levels(r: &mut Random) -> Vec<i16> {
    let more = if r.one_in(3) { r.from_to(1, 40) } else { 0 };
    r.values(LEVELS + more)
}

pub fn too_few_levels(r: &mut Random) -> Vec<i16> {
    let length = *r.pick(&[0, 1, LEVELS - 1]);
    r.values(length)
}

/// Bytes with some zeros after them, or none; mostly so many in all.
fn padded(r: &mut Random, mut bytes: Vec<u8>, mostly: usize) -> Vec<u8> {
    let length = match r.below(4) {
        0 => bytes.len(),
        1 => bytes.len() + r.below(200),
        _ => mostly.max(bytes.len()),
    };
    bytes.resize(length, 0);
    bytes
}

/// A domain's frames in a store.
pub fn stored(r: &mut Random, bytes: Vec<u8>) -> Vec<u8> {
    padded(r, bytes, STORE_BYTES)
}

/// A supplement's frames in a store.
pub fn stored_supplement(r: &mut Random, bytes: Vec<u8>) -> Vec<u8> {
    padded(r, bytes, SUPPLEMENT_BYTES)
}

/// A session and one call on it.
pub fn on(session: Session, call: Call) -> Case {
    Case::Session {
        session: Box::new(session),
        calls: vec![call],
    }
}

/// Some call that reads the store.
pub fn over_store(r: &mut Random, store: Vec<u8>) -> Case {
    match r.below(7) {
        0 => Case::WriteDomain {
            store,
            text: r.bytes(40_000),
        },
        1 => Case::Frames { store },
        2 => Case::Judge {
            store,
            sheet: vec![],
            levels: enough_levels(r),
        },
        3 => {
            let calls = r.below(8);
            on(sheets::session(r, 3, calls), Call::Open { store })
        }
        4 => Case::Accepted { store },
        5 => Case::Counts { store },
        _ => {
            let agents = store.get(2).map_or(1, |&n| n.clamp(1, 16)) as usize;
            let levels = enough_levels(r);
            on(sheets::opened(agents), Call::Verdict { store, levels })
        }
    }
}

/// The supplement reader's call on a text, with room for what it reads.
pub fn reading(r: &mut Random, draft: &Draft, text: Vec<u8>) -> Case {
    Case::ReadSupplement {
        store: stored(r, draft.bytes()),
        text,
        buffer: enough(r, SUPPLEMENT_BYTES),
    }
}

/// Some call that reads both stores.
pub fn over_both(r: &mut Random, store: Vec<u8>, supplement: Vec<u8>) -> Case {
    match r.one_in(2) {
        true => Case::JudgeUnder {
            store,
            supplement,
            sheet: vec![],
            levels: enough_levels(r),
        },
        // Every domain has a law 0.
        false => Case::Laws {
            store,
            supplement,
            numbers: vec![0],
        },
    }
}

/// The call that lays one supplement of a list over another, with room for the
/// result.
pub fn laying(r: &mut Random, lower: usize, upper: usize) -> SupplementCall {
    SupplementCall::Lay {
        lower,
        upper,
        result: enough(r, SUPPLEMENT_BYTES),
        whole: r.one_in(2),
    }
}

/// One supplement laid over another, the only call.
pub fn laid(r: &mut Random, store: Vec<u8>, lower: Vec<u8>, upper: Vec<u8>) -> Case {
    laid_into(enough(r, SUPPLEMENT_BYTES), store, lower, upper)
}

pub fn laid_into(result: Vec<u8>, store: Vec<u8>, lower: Vec<u8>, upper: Vec<u8>) -> Case {
    Case::Supplements {
        store,
        supplements: vec![lower, upper],
        calls: vec![SupplementCall::Lay {
            lower: 0,
            upper: 1,
            result,
            whole: true,
        }],
    }
}

/// Some call on the session; edits are in order as far as that can be known.
fn any_call(r: &mut Random, session: &Session) -> Call {
    let agents = session.agents.clamp(1, 16) as usize;
    let names = sheets::names(r, agents);
    match r.below(6) {
        0 => Call::Enter { names },
        1 => Call::Strike,
        2 => Call::Amend { step: 1, names },
        3 => Call::Undo,
        4 => Call::Redo,
        _ => Call::Verdict {
            store: Draft::pool().store(),
            levels: enough_levels(r),
        },
    }
}

use Expect::{Fine, Refused};

fn refused_or_fine(number: u8) -> Expect {
    match number {
        0 => Fine,
        _ => Refused(number),
    }
}

/// The same of a store, where every fault is one refusal.
fn stored_or_fine(number: u8) -> Expect {
    refused_or_fine(if number == 0 { 0 } else { STORE })
}

#[derive(Default)]
struct Aims(Vec<Aim>);

impl Aims {
    fn add(&mut self, label: String, expect: Expect, make: impl Fn(&mut Random) -> Case + 'static) {
        let make = Box::new(make);
        self.0.push(Aim {
            label,
            expect,
            make,
        });
    }

    /// A domain text, read by the reader and by the programs.
    fn domain_text(&mut self, label: &str, number: u8, text: impl MakesText) {
        self.read_domain(label, number, text);
        self.report_over(label, number, text);
        // For the other programs a B1 line ends the domain.
        if label != "B1 in a domain" {
            self.program(label, number, text);
            self.low_water_over(label, number, text);
        }
    }

    fn read_domain(&mut self, label: &str, number: u8, text: impl MakesText) {
        let expect = refused_or_fine(number);
        self.add(format!("read_domain: {label}"), expect, move |r| {
            Case::ReadDomain {
                text: text(r),
                store: enough(r, STORE_BYTES),
            }
        });
    }

    fn program(&mut self, label: &str, number: u8, text: impl MakesText) {
        let expect = refused_or_fine(number);
        self.add(format!("program: {label}"), expect, move |r| {
            let input = text(r);
            printing(r, input)
        });
    }

    fn low_water_over(&mut self, label: &str, number: u8, text: impl MakesText) {
        let expect = refused_or_fine(number);
        self.add(format!("low_water: {label}"), expect, move |r| {
            let mut input = text(r);
            // A spoilt line that starts so would end the domain.
            while input.split(|&c| c == b'\n').any(|l| l.starts_with(b"AF")) {
                input = text(r);
            }
            // The domain's refusals go before the supplement's and the sheet's.
            if number != 0 && input.ends_with(b"\n") {
                input.extend(b"AF00\nB100\n");
            }
            printing_by(Program::LowWater, r, input)
        });
    }

    fn report_over(&mut self, label: &str, number: u8, text: impl MakesText) {
        let expect = refused_or_fine(number);
        self.add(format!("report: {label}"), expect, move |r| {
            let mut domain = text(r);
            // A spoilt line that is a mark would end the domain.
            while has_mark(&domain) {
                domain = text(r);
            }
            // The domain's refusals go before the sheets'.
            let sheets = match number {
                0 => vec![vec![]; r.below(3)],
                _ if domain.ends_with(b"\n") => vec![b"x\n".to_vec(); *r.pick(&[0, 1, 41])],
                _ => vec![],
            };
            reporting(r, input_of(&domain, &sheets))
        });
    }

    /// The bytes of a domain's lines, before some call that reads the store.
    fn store(&mut self, label: &str, number: u8, lines: impl Fn(&mut Random) -> Lines + 'static) {
        let expect = stored_or_fine(number);
        self.add(format!("store: {label}"), expect, move |r| {
            let bytes = lines(r).concat();
            let store = stored(r, bytes);
            over_store(r, store)
        });
    }

    /// A sheet text for so many agents, read by the reader and, after a
    /// domain, by the program.
    fn sheet_text(
        &mut self,
        label: &str,
        number: u8,
        text: impl Fn(&mut Random, usize) -> Vec<u8> + Copy + 'static,
    ) {
        let expect = refused_or_fine(number);
        self.add(format!("read_sheet: {label}"), expect, move |r| {
            let agents = r.from_to(1, 16);
            Case::ReadSheet {
                text: text(r, agents),
                agents,
                buffer: enough(r, SHEET_BYTES),
            }
        });
        self.add(format!("program: sheet with {label}"), expect, move |r| {
            let agents = r.from_to(1, 16);
            let mut input = Draft::new(agents, &[[0, 9, 5]], &[(1, 1)]).free().text();
            input.extend(text(r, agents));
            printing(r, input)
        });
        self.add(format!("low_water: sheet with {label}"), expect, move |r| {
            let agents = r.from_to(1, 16);
            let draft = Draft::new(agents, &[[0, 9, 5]], &[(1, 1)]).free();
            let lines = supplements::supplement(r, &draft);
            let input = [draft.text(), text_of(&lines), text(r, agents)].concat();
            printing_by(Program::LowWater, r, input)
        });
        for &(at, place) in report::PLACES {
            // Behind a text without LF no mark can stand.
            if label.starts_with("missing LF") && place != report::Place::Last {
                continue;
            }
            let label = format!("report: {at} sheet with {label}");
            self.add(label, expect, move |r| {
                let agents = r.from_to(1, 16);
                let draft = Draft::new(agents, &[[0, 9, 5]], &[(1, 1)]).free();
                let other = |r: &mut Random| {
                    let steps = r.below(3);
                    sheet_text(&vec![0; steps * agents], agents)
                };
                let sheet = text(r, agents);
                let sheets = report::among(r, place, sheet, number != 0, other);
                reporting(r, input_of(&draft.text(), &sheets))
            });
        }
    }

    /// A supplement for a domain: its text before the reader, its bytes before
    /// the calls that take them.
    fn supplement(&mut self, label: &str, number: u8, make: impl MakesSupplement) {
        self.read_supplement(label, number, make);
        self.over_supplement(label, number, make);
        self.lay(label, number, make);
    }

    fn read_supplement(&mut self, label: &str, number: u8, make: impl MakesSupplement) {
        let expect = refused_or_fine(number);
        self.add(format!("read_supplement: {label}"), expect, move |r| {
            let (draft, lines) = make(r);
            reading(r, &draft, text_of(&lines))
        });
    }

    fn over_supplement(&mut self, label: &str, number: u8, make: impl MakesSupplement) {
        let expect = stored_or_fine(number);
        self.add(format!("supplement: {label}"), expect, move |r| {
            let (draft, lines) = make(r);
            let store = stored(r, draft.bytes());
            let supplement = stored_supplement(r, lines.concat());
            over_both(r, store, supplement)
        });
    }

    fn lay(&mut self, label: &str, number: u8, make: impl MakesSupplement) {
        let expect = stored_or_fine(number);
        self.add(format!("lay: {label}"), expect, move |r| {
            let (draft, lines) = make(r);
            let store = stored(r, draft.bytes());
            let supplement = stored_supplement(r, lines.concat());
            let other = supplements::supplement(r, &draft).concat();
            let other = stored_supplement(r, other);
            match r.one_in(2) {
                true => laid(r, store, supplement, other),
                false => laid(r, store, other, supplement),
            }
        });
    }

    /// The same as a part of the second program's input.
    fn low_water(&mut self, label: &str, number: u8, make: impl MakesSupplement) {
        let expect = refused_or_fine(number);
        self.add(format!("low_water: AF, {label}"), expect, move |r| {
            let (draft, lines) = make(r);
            let steps = r.below(3);
            let names: Vec<_> = (0..steps).flat_map(|_| sheets::step(r, &draft)).collect();
            let sheet = sheet_text(&names, draft.agents);
            let input = [draft.text(), text_of(&lines), sheet].concat();
            printing_by(Program::LowWater, r, input)
        });
    }

    /// A part of a law, in a domain and in a supplement: before the reader, and
    /// before one of the other calls. These, and spots for the two, are taken in
    /// turn.
    fn part(&mut self, turn: usize, label: &str, number: u8, part: Part) {
        let spots = part.spots();
        let in_spot = |at: usize| {
            let (name, spot) = spots[at % spots.len()];
            (format!("{label}, {name}"), spot)
        };
        // Every sixth turn has the same operands, and should not have the same call.
        let other = 1 + (turn + turn / 6) % 3;
        for (call, at) in [(0, 2 * turn), (other, 2 * turn + 1)] {
            let (label, spot) = in_spot(at);
            self.lines_in(call, &label, number, move |r| part.in_domain(r, spot));
            let (label, spot) = in_spot(at + 2);
            self.supplement_in(call, &label, number, move |r| part.in_supplement(r, spot));
        }
    }

    /// A domain before the reader or before one of the other calls, by number.
    fn lines_in(
        &mut self,
        call: usize,
        label: &str,
        number: u8,
        lines: impl Fn(&mut Random) -> Lines + Copy + 'static,
    ) {
        let text = move |r: &mut Random| text_of(&lines(r));
        match call {
            0 => self.read_domain(label, number, text),
            1 => self.program(label, number, text),
            2 => self.low_water_over(label, number, text),
            _ => self.store(label, number, lines),
        }
    }

    /// The same of a supplement.
    fn supplement_in(&mut self, call: usize, label: &str, number: u8, make: impl MakesSupplement) {
        match call {
            0 => self.read_supplement(label, number, make),
            1 => self.over_supplement(label, number, make),
            2 => self.lay(label, number, make),
            _ => self.low_water(label, number, make),
        }
    }

    /// A law that looks back, in a domain and in a supplement, each before one call;
    /// calls are taken in turn. What is too deep is put in one of the two.
    fn shaped(&mut self, turn: usize, label: &str, number: u8, law: Shaped) {
        // Every sixth law is in the same place, and should not have the same call.
        let call = turn + turn / 6;
        let second = (turn + turn / 24) % 2 == 1;
        if !law.too_deep() || !second {
            self.lines_in(call % 4, label, number, move |r| law.in_domain(r));
        }
        if !law.too_deep() || second {
            self.supplement_in((call + 1) % 4, label, number, move |r| law.in_supplement(r));
        }
    }

    /// A trial before all calls that judge, and as sheets of a report.
    fn trial(&mut self, trial: Trial) {
        JUDGING.iter().for_each(|call| self.tried(call, &trial));
        self.reported(trial);
    }

    /// A trial before one of the calls that give its verdict, which are taken in
    /// turn.
    fn trial_in_turn(&mut self, turn: usize, trial: &Trial) {
        // Trials come in rows of six, eight and twelve, which should not keep their calls.
        let calls = JUDGING.len();
        let call = turn + turn / calls + turn / (calls * calls);
        self.tried(&JUDGING[call % calls], trial);
    }

    fn tried(&mut self, &(name, judging): &(&str, Judging), (label, expect, make): &Trial) {
        let make = make.clone();
        self.add(format!("{name}: {label}"), *expect, move |r| {
            let (draft, sheet) = make(r);
            judging(r, draft, sheet)
        });
    }

    /// Twice as a sheet of a report, and twice an empty sheet, which almost every
    /// trial's domain accepts.
    fn reported(&mut self, (label, expect, make): Trial) {
        let empty = report::accepts_empty(&make(&mut Random::seeded(1)).0);
        let accepted = 2 * usize::from(expect == Expect::Accepted) + 2 * usize::from(empty);
        let broken = 4 - accepted;
        let counted = Expect::Sheets { accepted, broken };
        self.add(format!("report: {label}"), counted, move |r| {
            let (draft, sheet) = make(r);
            let mut sheets = vec![vec![]; 2];
            for _ in 0..2 {
                let place = r.below(sheets.len() + 1);
                sheets.insert(place, sheet_text(&sheet, draft.agents));
            }
            reporting(r, input_of(&draft.text(), &sheets))
        });
    }
}

/// Puts a domain and a sheet before a call that judges.
type Judging = fn(&mut Random, Draft, Vec<u8>) -> Case;

/// Before the judge, as a session and as a program's input; with laws that only a
/// supplement has, or two that are laid one over the other.
const JUDGING: &[(&str, Judging)] = &[
    ("judge", |r, draft, sheet| Case::Judge {
        store: stored(r, draft.bytes()),
        sheet,
        levels: enough_levels(r),
    }),
    ("verdict", |r, draft, sheet| {
        let store = draft.bytes();
        let levels = enough_levels(r);
        let session = sheets::session_of(&sheet, draft.agents);
        on(session, Call::Verdict { store, levels })
    }),
    ("program", |r, draft, sheet| {
        let mut input = draft.text();
        input.extend(sheet_text(&sheet, draft.agents));
        printing(r, input)
    }),
    ("judge_under", |r, draft, sheet| {
        let (other, lines) = supplements::behind(r, &draft);
        Case::JudgeUnder {
            store: stored(r, other.bytes()),
            supplement: stored_supplement(r, lines.concat()),
            sheet,
            levels: enough_levels(r),
        }
    }),
    ("lay and judge_under", |r, draft, sheet| {
        let (other, lines) = supplements::behind_two(r, &draft);
        let judging = SupplementCall::Judge {
            supplement: 2,
            sheet,
            levels: enough_levels(r),
        };
        Case::Supplements {
            store: stored(r, other.bytes()),
            supplements: lines
                .map(|lines| stored_supplement(r, lines.concat()))
                .to_vec(),
            calls: vec![laying(r, 0, 1), judging],
        }
    }),
    ("low_water", |r, draft, sheet| {
        let (other, lines) = supplements::behind(r, &draft);
        let sheet = sheet_text(&sheet, draft.agents);
        let input = [other.text(), text_of(&lines), sheet].concat();
        printing_by(Program::LowWater, r, input)
    }),
];

/// Makes a domain's text.
trait MakesText: Fn(&mut Random) -> Vec<u8> + Copy + 'static {}

impl<F: Fn(&mut Random) -> Vec<u8> + Copy + 'static> MakesText for F {}

/// Makes a domain and a supplement's lines for it.
trait MakesSupplement: Fn(&mut Random) -> (Draft, Lines) + Copy + 'static {}

impl<F: Fn(&mut Random) -> (Draft, Lines) + Copy + 'static> MakesSupplement for F {}

/// All aims, in a fixed order.
pub fn aims() -> Vec<Aim> {
    let mut aims = Aims::default();
    for &(label, number, lines) in LINE_FAULTS.iter().chain(ORDER_FAULTS) {
        aims.domain_text(label, number, move |r| text_of(&lines(r)));
        // A frame of kind 00 at the end of a store is just zeros.
        if label != "kind 00" {
            aims.store(label, number, lines);
        }
    }
    for (label, number, line) in changing_fast::lines() {
        aims.domain_text(&label, number, move |r| text_of(&line.in_domain(r)));
        aims.store(&label, number, move |r| line.in_domain(r));
    }
    for (turn, (label, number, line)) in changing_fast::numbered_lines().into_iter().enumerate() {
        aims.lines_in(turn % 4, &label, number, move |r| line.in_domain(r));
    }
    for &(label, spoil) in CHARACTER_FAULTS {
        aims.domain_text(label, LINE, move |r| {
            let text = Draft::random(r).text();
            spoil(r, text)
        });
        aims.sheet_text(label, LINE, move |r, agents| {
            let steps = r.from_to(1, 64);
            let text = sheet_text(&r.bytes(steps * agents), agents);
            spoil(r, text)
        });
    }
    for &(label, number, steps, spoil) in SHEET_FAULTS {
        aims.sheet_text(label, number, move |r, agents| {
            text_of(&damaged_line(r, agents, steps, spoil))
        });
    }
    for &(label, number, kind, line) in supplements::LINE_FAULTS {
        for &(at, place) in PLACES {
            let label = format!("{label}, {at}");
            let make = move |r: &mut Random| supplements::with_line(r, place, kind, line);
            aims.supplement(&label, number, make);
            // A first line of another kind belongs to the domain.
            if number != KIND || place != Place::First {
                aims.low_water(&label, number, make);
            }
        }
    }
    for &(label, number, make) in supplements::WHOLE {
        aims.supplement(label, number, make);
        aims.low_water(label, number, make);
    }
    for (turn, (label, number, part)) in codes::parts().into_iter().enumerate() {
        aims.part(turn, &label, number, part);
    }
    for (turn, (label, number, law)) in nesting::laws().into_iter().enumerate() {
        aims.shaped(turn, &label, number, law);
    }
    for &(label, spoil) in CHARACTER_FAULTS {
        aims.add(
            format!("read_supplement: {label}"),
            Refused(LINE),
            move |r| {
                let (draft, lines) = supplements::some_lines(r);
                let text = spoil(r, text_of(&lines));
                reading(r, &draft, text)
            },
        );
        aims.add(format!("low_water: AF, {label}"), Refused(LINE), move |r| {
            let (draft, lines) = supplements::some_lines(r);
            let text = spoil(r, text_of(&lines));
            printing_by(Program::LowWater, r, [draft.text(), text].concat())
        });
    }
    for &(label, session) in SESSION_FAULTS {
        aims.add(format!("session: {label}"), Refused(SESSION), move |r| {
            let session = session(r);
            let call = any_call(r, &session);
            on(session, call)
        });
    }
    for &(label, expect, make) in CALLS.iter().chain(LOW_WATER).chain(LAYING) {
        aims.add(label.to_string(), expect, make);
    }
    for &(label, spoil) in WRONG {
        aims.add(format!("lay: {label}"), Refused(STORE), move |r| {
            let result = enough(r, SUPPLEMENT_BYTES);
            laying::wrong(r, spoil, result)
        });
        let label = format!("lay: order: {label} and no room");
        aims.add(label, Refused(BUFFER), move |r| {
            let result = too_short(r, SUPPLEMENT_BYTES);
            laying::wrong(r, spoil, result)
        });
    }
    aims.0.extend(report::aims());
    verdicts::trials()
        .into_iter()
        .for_each(|trial| aims.trial(trial));
    for trials in [
        troubles::further(),
        divisions::further(),
        looking_back::further(),
        nesting::further(),
        changing_fast::further(),
    ] {
        for (turn, trial) in trials.iter().enumerate() {
            aims.trial_in_turn(turn, trial);
        }
    }
    aims.0
}
