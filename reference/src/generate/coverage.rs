//! How often each answer was met, and what was never met.

use super::aims::{Aim, Expect};
use super::case::{Answer, Outcome};
use crate::domain::Counts;
use crate::judge::{Judged, Verdict};
use crate::sheet::MAX_STEPS;
use crate::supplement::LawInForce;
use std::collections::{BTreeMap, BTreeSet};
use std::fmt;

/// The refusals of each call, in the paper's order.
pub const ORDERS: &[(&str, &[u8])] = &[
    ("read_domain", &[10, 1, 2, 3, 5, 4, 6, 7]),
    ("read_sheet", &[10, 4, 1, 2, 3, 9, 8]),
    ("counts", &[15]),
    ("judge", &[10, 15, 8, 9]),
    ("read_supplement", &[10, 15, 1, 2, 3, 20, 4]),
    ("judge_under", &[10, 15, 8, 9]),
    ("law", &[15, 20]),
    ("lay", &[10, 15]),
    ("open", &[15]),
    ("enter", &[17, 14, 8, 9]),
    ("strike", &[17, 14, 11]),
    ("amend", &[17, 14, 8, 11]),
    ("undo", &[17, 12]),
    ("redo", &[17, 13]),
    ("verdict", &[17, 10, 15, 16]),
    ("frames", &[15]),
    ("write_domain", &[15, 10]),
    ("write_sheet", &[4, 8, 9, 10]),
    ("program", &[18, 1, 2, 3, 5, 4, 6, 7, 9, 8]),
    ("low_water", &[18, 1, 2, 3, 5, 4, 6, 7, 20, 9, 8]),
    ("report", &[18, 1, 2, 3, 5, 4, 6, 7, 9, 8, 19]),
];

/// Calls that are never refused.
const NEVER_REFUSED: &[&str] = &["accepted", "frame_at"];

/// Calls that give a verdict.
const JUDGES: &[&str] = &["judge", "judge_under", "verdict", "program", "low_water"];

/// Kind of a fault, and whether it leaves the state that its step led to: a
/// goal law's fault does.
type Fault = (u8, bool);

const FAULTS: &[Fault] = &[
    (1, false),
    (2, false),
    (3, false),
    (4, false),
    (5, false),
    (6, false),
    (7, false),
    (7, true),
    (8, true),
    (9, false),
    (9, true),
    (10, false),
];

/// Those that are possible before step 1.
const FAULTS_AT_START: &[Fault] = &[
    (6, false),
    (7, false),
    (7, true),
    (8, true),
    (9, false),
    (9, true),
];

fn named((kind, of_goal): Fault) -> String {
    format!("{kind}{}", if of_goal { " of a goal" } else { "" })
}

/// What an answer comes to.
#[derive(Clone, Copy, PartialEq, Eq, Debug)]
enum Sense {
    Refused(u8),
    Broken {
        kind: u8,
        step: usize,
        number: usize,
        states: usize,
    },
    Accepted {
        states: usize,
    },
    Counts(Counts),
    Law(LawInForce),
    Count(usize),
    /// Sheets, and fluents of which there are figures.
    Report {
        accepted: usize,
        broken: usize,
        fluents: usize,
    },
    /// The program's call had no room and printed nothing.
    Silent,
    Other,
}

/// Reads again what a program printed, so that its answers count as well: the
/// last line, and a report's first.
fn sense(answer: &Answer) -> Sense {
    match answer {
        Answer::Refused { number, .. } => Sense::Refused(*number),
        &Answer::Judged(Judged { verdict, states }) => match verdict {
            Verdict::Accepted => Sense::Accepted { states },
            Verdict::Broken { kind, step, number } => Sense::Broken {
                kind,
                step: step.into(),
                number: number.into(),
                states,
            },
        },
        Answer::Counts(counts) => Sense::Counts(*counts),
        Answer::Law(law) => Sense::Law(*law),
        Answer::Count(count) => Sense::Count(*count),
        // An unaccepted store is refusal 15 in all calls but this question.
        Answer::Truth(false) => Sense::Refused(15),
        Answer::Printed(text) if text.is_empty() => Sense::Silent,
        Answer::Printed(text) => {
            let text = String::from_utf8_lossy(text);
            let more = text.lines().count() - 1;
            let first = Words::of(text.lines().next());
            let last = Words::of(text.lines().last());
            match (first.word(), last.word()) {
                ("SHEETS", _) => Sense::Report {
                    accepted: first.number(1),
                    broken: first.number(2),
                    fluents: more,
                },
                (_, "REFUSED") => Sense::Refused(last.number(1) as u8),
                (_, "BROKEN") => Sense::Broken {
                    kind: last.number(1) as u8,
                    step: last.number(2),
                    number: last.number(3),
                    states: more,
                },
                _ => Sense::Accepted { states: more },
            }
        }
        _ => Sense::Other,
    }
}

/// A printed line: a word and numbers.
struct Words<'a>(Vec<&'a str>);

impl<'a> Words<'a> {
    fn of(line: Option<&'a str>) -> Self {
        Words(line.unwrap_or("").split(' ').collect())
    }

    fn word(&self) -> &'a str {
        self.0[0]
    }

    fn number(&self, at: usize) -> usize {
        let word = self.0.get(at);
        word.and_then(|word| word.parse().ok()).unwrap_or(0)
    }
}

/// How many laws were found in the domain and in the supplement.
fn found(answers: &[(&str, Answer)]) -> [usize; 2] {
    let count = |wanted: bool| {
        let replaced = |answer| matches!(sense(answer), Sense::Law(l) if l.replaced == wanted);
        answers
            .iter()
            .filter(|(_, answer)| replaced(answer))
            .count()
    };
    [count(false), count(true)]
}

/// Whether the last two calls were layings that left the same bytes and say so.
fn same(outcome: &Outcome) -> bool {
    let [.., (_, first), (_, second)] = &outcome.answers[..] else {
        return false;
    };
    let [.., one, other] = &outcome.laid[..] else {
        return false;
    };
    first == second && one == other
}

#[derive(Default)]
pub struct Coverage {
    cases: usize,
    /// By call: refusals, faults and acceptances met.
    refused: BTreeMap<(&'static str, u8), usize>,
    broken: BTreeMap<(&'static str, Fault), usize>,
    accepted: BTreeMap<&'static str, usize>,
    /// By call: the numbers of states that an accepted sheet left.
    accepted_states: BTreeSet<(&'static str, usize)>,
    calls: BTreeMap<&'static str, usize>,
    /// Faults at step 0.
    at_start: BTreeMap<Fault, usize>,
    /// Faults that left neither the states before their step nor all.
    odd_states: usize,
    /// Reports with figures of no accepted sheet, or without those of one.
    odd_reports: usize,
    /// By aim: how often tried and met.
    aims: Vec<(String, usize, usize)>,
}

impl Coverage {
    pub fn of(aims: &[Aim]) -> Self {
        Coverage {
            aims: aims.iter().map(|aim| (aim.label.clone(), 0, 0)).collect(),
            ..Coverage::default()
        }
    }

    /// Counts an outcome; `aim` is what its case was made for.
    pub fn count(&mut self, outcome: &Outcome, aim: Option<(usize, Expect)>) {
        self.cases += 1;
        for (call, answer) in &outcome.answers {
            let call = *call;
            *self.calls.entry(call).or_default() += 1;
            match sense(answer) {
                // Only the question itself was asked, nothing was refused.
                Sense::Refused(_) if NEVER_REFUSED.contains(&call) => {}
                Sense::Refused(number) => *self.refused.entry((call, number)).or_default() += 1,
                Sense::Broken {
                    kind, step, states, ..
                } => {
                    let fault = (kind, states > step);
                    self.odd_states += (states != step + fault.1 as usize) as usize;
                    *self.broken.entry((call, fault)).or_default() += 1;
                    if step == 0 {
                        *self.at_start.entry(fault).or_default() += 1;
                    }
                }
                Sense::Accepted { states } => {
                    *self.accepted.entry(call).or_default() += 1;
                    self.accepted_states.insert((call, states));
                }
                Sense::Report {
                    accepted, fluents, ..
                } => {
                    let figures = fluents > 0;
                    self.odd_reports += (figures != (accepted > 0)) as usize;
                    *self.accepted.entry(call).or_default() += figures as usize;
                }
                Sense::Counts(_)
                | Sense::Law(_)
                | Sense::Count(_)
                | Sense::Silent
                | Sense::Other => {}
            }
        }
        let Some((aim, expect)) = aim else { return };
        // A frame reader's first answer is the one that may be a refusal.
        let answer = match outcome.answers.first() {
            Some(("frames", first)) => Some(first),
            _ => outcome.answers.last().map(|(_, last)| last),
        };
        let met = answer.is_some_and(|answer| match (expect, sense(answer)) {
            (Expect::Laws { own, replaced }, _) => [own, replaced] == found(&outcome.answers),
            (Expect::Same, Sense::Count(_)) => same(outcome),
            (Expect::Refused(wanted), Sense::Refused(number)) => wanted == number,
            (
                Expect::Broken(wanted),
                Sense::Broken {
                    kind, step, states, ..
                },
            ) => (wanted, step) == (kind, states),
            (
                Expect::Goal(wanted),
                Sense::Broken {
                    kind, step, states, ..
                },
            ) => (wanted, step + 1) == (kind, states),
            (
                Expect::At(wanted, at, of),
                Sense::Broken {
                    kind,
                    step,
                    number,
                    states,
                },
            ) => (wanted, at, of, at) == (kind, step, number, states),
            (Expect::Accepted, Sense::Accepted { .. }) => true,
            (Expect::Counts(wanted), Sense::Counts(counts)) => wanted == counts,
            (Expect::Law(wanted), Sense::Law(law)) => wanted == law,
            (Expect::Count(wanted), Sense::Count(count)) => wanted == count,
            (Expect::Silent, Sense::Silent) => true,
            (
                Expect::Sheets { accepted, broken },
                Sense::Report {
                    accepted: a,
                    broken: b,
                    ..
                },
            ) => (accepted, broken) == (a, b),
            (Expect::Figures(wanted), Sense::Report { fluents, .. }) => wanted == fluents,
            (Expect::Printed(wanted), _) => {
                matches!(answer, Answer::Printed(text) if text == wanted.as_bytes())
            }
            (Expect::Fine, Sense::Refused(_)) => false,
            (Expect::Fine, _) => true,
            _ => false,
        });
        self.aims[aim].1 += 1;
        self.aims[aim].2 += met as usize;
    }

    fn refusals(&self, number: u8) -> usize {
        let met = self.refused.iter().filter(|((_, met), _)| *met == number);
        met.map(|(_, count)| count).sum()
    }

    fn faults(&self, fault: Fault) -> usize {
        let met = self.broken.iter().filter(|((_, met), _)| *met == fault);
        met.map(|(_, count)| count).sum()
    }

    /// Everything that should have been met and was not, or should not have
    /// been met and was.
    pub fn complaints(&self) -> Vec<String> {
        let mut complaints = Vec::new();
        for &(call, order) in ORDERS {
            for number in order {
                if !self.refused.contains_key(&(call, *number)) {
                    complaints.push(format!("{call}: refusal {number} never met"));
                }
            }
        }
        for &(call, number) in self.refused.keys() {
            let order = ORDERS.iter().find(|(known, _)| *known == call);
            if !order.is_some_and(|(_, order)| order.contains(&number)) {
                complaints.push(format!("{call}: refusal {number} is none of its own"));
            }
        }
        for call in JUDGES {
            for &fault in FAULTS {
                if !self.broken.contains_key(&(*call, fault)) {
                    complaints.push(format!("{call}: fault {} never met", named(fault)));
                }
            }
            for states in [1, MAX_STEPS + 1] {
                if !self.accepted_states.contains(&(*call, states)) {
                    complaints.push(format!("{call}: nothing accepted with {states} states"));
                }
            }
        }
        for &fault in FAULTS_AT_START {
            if !self.at_start.contains_key(&fault) {
                complaints.push(format!("fault {} never met at step 0", named(fault)));
            }
        }
        let met = self.broken.keys().map(|&(_, fault)| (fault, FAULTS));
        let at_start = self.at_start.keys().map(|&f| (f, FAULTS_AT_START));
        for (fault, possible) in met.chain(at_start) {
            if !possible.contains(&fault) {
                complaints.push(format!("fault {} is none", named(fault)));
            }
        }
        for (call, states) in &self.accepted_states {
            if !(1..=MAX_STEPS + 1).contains(states) {
                complaints.push(format!("{call}: accepted with {states} states"));
            }
        }
        if self.odd_states > 0 {
            let number = self.odd_states;
            complaints.push(format!("{number} faults left another number of states"));
        }
        if self.odd_reports > 0 {
            let number = self.odd_reports;
            complaints.push(format!("{number} reports have other figures"));
        }
        for (label, tried, met) in &self.aims {
            if met < tried || *tried == 0 {
                complaints.push(format!("aim \"{label}\" met {met} of {tried} times"));
            }
        }
        complaints
    }

    /// The aims and how often each was met.
    pub fn aims(&self) -> impl Iterator<Item = (&str, usize)> {
        self.aims
            .iter()
            .map(|(label, _, met)| (label.as_str(), *met))
    }
}

impl fmt::Display for Coverage {
    fn fmt(&self, f: &mut fmt::Formatter) -> fmt::Result {
        writeln!(f, "{} cases", self.cases)?;
        let numbers: BTreeSet<u8> = ORDERS
            .iter()
            .flat_map(|(_, order)| *order)
            .copied()
            .collect();
        for number in numbers {
            let count = self.refusals(number);
            let by_call = self.refused.iter().filter(|((_, met), _)| *met == number);
            let by_call: Vec<_> = by_call
                .map(|((call, _), n)| format!("{call} {n}"))
                .collect();
            writeln!(f, "refusal {number:2} {count:7}  {}", by_call.join(", "))?;
        }
        for &fault in FAULTS {
            let by_call = self.broken.iter().filter(|((_, met), _)| *met == fault);
            let by_call: Vec<_> = by_call
                .map(|((call, _), n)| format!("{call} {n}"))
                .collect();
            let start = self.at_start.get(&fault).copied().unwrap_or(0);
            let (name, count) = (named(fault), self.faults(fault));
            writeln!(
                f,
                "fault {name:11} {count:7}  {}; at step 0 {start}",
                by_call.join(", ")
            )?;
        }
        for (call, count) in &self.calls {
            let accepted = self
                .accepted
                .get(call)
                .map_or(String::new(), |n| format!(", accepted {n}"));
            writeln!(f, "calls of {call}: {count}{accepted}")?;
        }
        let met = self
            .aims
            .iter()
            .filter(|(_, tried, met)| *tried > 0 && tried == met);
        writeln!(f, "aims met {} of {}", met.count(), self.aims.len())
    }
}
