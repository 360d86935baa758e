//! Both programs on the same inputs in one run: calls a second, and the ratio of the proved library to the second judge;
//! for verdicts also to the judge that was written without regard to speed, and for verdicts under a supplement to the
//! library's own without it.
//! Each figure is the best of several short runs, which other work on the machine disturbs least; the runs of the two
//! take turns.

#[allow(dead_code)]
mod desk;
mod inputs;

use inputs::{Input, Two};
use std::hint::black_box;
use std::time::{Duration, Instant};
use waroth_reference::generate::draft::sheet_text;
use waroth_reference::generate::report::input_of;
use waroth_reference::generate::{random::Random, sheets, Answer};
use waroth_reference::judge::{Judged, Verdict, LEVELS};
use waroth_reference::program::{Program, OUTPUT_BYTES};
use waroth_reference::report::MAX_SHEETS;
use waroth_reference::sheet::SHEET_BYTES;
use waroth_reference::store::STORE_BYTES;
use waroth_reference::supplement::SUPPLEMENT_BYTES;
use waroth_reference::{judge, judge_under, lay, plain, read_domain, read_sheet, Session};

const RUNS: usize = 9;
const RUN: Duration = Duration::from_millis(60);

/// Calls a second in one short run.
fn rate(call: &mut dyn FnMut()) -> f64 {
    let (start, mut calls) = (Instant::now(), 0u32);
    while start.elapsed() < RUN {
        for _ in 0..8 {
            call();
        }
        calls += 8;
    }
    f64::from(calls) / start.elapsed().as_secs_f64()
}

/// The best rate of each call; their runs take turns.
fn best<const N: usize>(mut calls: [&mut dyn FnMut(); N]) -> [f64; N] {
    let mut best = [0f64; N];
    for _ in 0..RUNS {
        for (best, call) in best.iter_mut().zip(&mut calls) {
            *best = best.max(rate(call));
        }
    }
    best
}

fn compared(name: &str, mut library: impl FnMut(), mut peer: impl FnMut()) {
    let [library, peer] = best([&mut library, &mut peer]);
    let ratio = library / peer;
    println!("{name:46} {library:12.0} {peer:12.0} {ratio:8.2}");
}

fn verdicts(input: &Input) {
    let (store, sheet) = (input.draft.store(), &input.sheet);
    let mut levels = [(); 3].map(|()| vec![0; LEVELS]);
    let [ours, theirs, plains] = &mut levels;
    let accepted = Judged {
        verdict: Verdict::Accepted,
        states: sheet.len() / input.draft.agents + 1,
    };
    assert_eq!(judge(&store, sheet, theirs), Ok(accepted));
    assert_eq!(plain::judge(&store, sheet, plains), Ok(accepted));
    let answer = desk::judge(&store, sheet, ours);
    assert_eq!(answer, Answer::Judged(accepted));
    let [library, second, plain] = best([
        &mut || {
            black_box(desk::judge(black_box(&store), sheet, ours));
        },
        &mut || {
            let _ = black_box(judge(black_box(&store), sheet, theirs));
        },
        &mut || {
            let _ = black_box(plain::judge(black_box(&store), sheet, plains));
        },
    ]);
    let same = levels.iter().all(|numbers| *numbers == levels[0]);
    assert!(same, "the levels differ");
    let name = format!("verdicts: {}", input.name);
    let (tuned, straight) = (library / second, library / plain);
    println!("{name:46} {library:12.0} {second:12.0} {tuned:8.2} {plain:12.0} {straight:8.2}");
}

/// A supplement as its reader leaves it.
fn in_store(lines: &[Vec<u8>]) -> Vec<u8> {
    let mut supplement = lines.concat();
    supplement.resize(SUPPLEMENT_BYTES, 0);
    supplement
}

/// Verdicts under a supplement that gives so many laws again: the judgement is the one without it.
fn verdicts_under(input: &Input, laws: usize) {
    let (store, sheet) = (input.draft.store(), &input.sheet);
    let lines = inputs::repeated(&input.draft, laws);
    let supplement = in_store(&lines);
    let mut levels = [(); 3].map(|()| vec![0; LEVELS]);
    let [ours, theirs, without] = &mut levels;
    let judged = judge_under(&store, &supplement, sheet, theirs).expect("a sheet that is judged");
    assert_eq!(judge(&store, sheet, theirs), Ok(judged));
    let answer = desk::judge_under(&store, &supplement, sheet, ours);
    assert_eq!(answer, Answer::Judged(judged));
    let [library, second, alone] = best([
        &mut || {
            let under = black_box(&supplement);
            black_box(desk::judge_under(black_box(&store), under, sheet, ours));
        },
        &mut || {
            let under = black_box(&supplement);
            let _ = black_box(judge_under(black_box(&store), under, sheet, theirs));
        },
        &mut || {
            black_box(desk::judge(black_box(&store), sheet, without));
        },
    ]);
    let same = levels.iter().all(|numbers| *numbers == levels[0]);
    assert!(same, "the levels differ");
    let name = format!("under {} laws: {}", lines.len(), input.name);
    let (tuned, kept) = (library / second, library / alone);
    println!("{name:46} {library:12.0} {second:12.0} {tuned:8.2} {alone:12.0} {kept:8.2}");
}

fn domain_texts(input: &Input) {
    let text = input.draft.text();
    let mut store = vec![0; STORE_BYTES];
    let used = read_domain(&text, &mut store).expect("a domain that is read");
    assert_eq!(desk::read_domain(&text, &mut store), Answer::Count(used));
    let mut other = store.clone();
    compared(
        &format!("domain texts of {} bytes", text.len()),
        || {
            black_box(desk::read_domain(black_box(&text), &mut store));
        },
        || {
            let _ = black_box(read_domain(black_box(&text), &mut other));
        },
    );
}

fn sheet_texts(input: &Input) {
    let agents = input.draft.agents;
    let text = sheet_text(&input.sheet, agents);
    let mut buffer = [0; SHEET_BYTES];
    let steps = read_sheet(&text, agents, &mut buffer).expect("a sheet that is read");
    let answer = desk::read_sheet(&text, agents, &mut buffer);
    assert_eq!(answer, Answer::Count(steps));
    let mut other = buffer;
    compared(
        &format!("sheet texts of {steps} steps, {agents} agents"),
        || {
            black_box(desk::read_sheet(black_box(&text), agents, &mut buffer));
        },
        || {
            let _ = black_box(read_sheet(black_box(&text), agents, &mut other));
        },
    );
}

/// From a program's input to its output.
fn programs(input: &Input) {
    let sheet = sheet_text(&input.sheet, input.draft.agents);
    let text = [input.draft.text(), sheet].concat();
    let printed = printed_by(Program::Waroth, &format!("program: {}", input.name), &text);
    assert!(printed.ends_with(b"ACCEPTED\n"));
}

/// The same of the report, over as many sheets as it takes.
fn reports(input: &Input) {
    let sheet = sheet_text(&input.sheet, input.draft.agents);
    let text = input_of(&input.draft.text(), &vec![sheet; MAX_SHEETS]);
    let name = format!("report: {MAX_SHEETS} sheets, {}", input.name);
    let printed = printed_by(Program::Report, &name, &text);
    assert!(printed.starts_with(format!("SHEETS {MAX_SHEETS} 0\n").as_bytes()));
}

/// Compares a program on an input, and hands out what it prints.
fn printed_by(program: Program, name: &str, text: &[u8]) -> Vec<u8> {
    let (mut output, mut other) = (vec![0; OUTPUT_BYTES], vec![0; OUTPUT_BYTES]);
    let printed = program.answer(text, &mut other);
    let answer = desk::answer(program, text, &mut output);
    assert!(answer == printed && output == other, "the outputs differ");
    compared(
        name,
        || {
            black_box(desk::answer(program, black_box(text), &mut output));
        },
        || {
            black_box(program.answer(black_box(text), &mut other));
        },
    );
    output.truncate(printed);
    output
}

/// Verdicts of a session into which the sheet was entered.
fn session_verdicts(input: &Input) {
    let store = input.draft.store();
    let mut session = Session::closed();
    assert_eq!(session.open(&store), Ok(()));
    for names in input.sheet.chunks_exact(input.draft.agents) {
        assert_eq!(session.enter(names), Ok(()));
    }
    let (mut levels, mut others) = (vec![0; LEVELS], vec![0; LEVELS]);
    let judged = session.verdict(&store, &mut others).expect("a verdict");
    let answer = desk::verdict_of(&session, &store, &mut levels);
    assert_eq!(answer, Answer::Judged(judged));
    assert!(levels == others, "the levels differ");
    compared(
        &format!("session's verdict: {}", input.name),
        || {
            black_box(desk::verdict_of(black_box(&session), &store, &mut levels));
        },
        || {
            let _ = black_box(black_box(&session).verdict(&store, &mut others));
        },
    );
}

/// Undo and amend in turn, so that the log is full after each second edit.
fn edits() {
    let agents = 16;
    let mut session = sheets::full(&mut Random::seeded(7), agents);
    let names = [1; 16];
    for _ in 0..2 {
        assert_eq!(desk::undo(&mut session), Answer::Done);
        assert_eq!(desk::amend(&mut session, 1, &names), Answer::Done);
    }
    let mut other = session.clone();
    compared(
        "session edits, undo and amend, full log",
        || {
            black_box(desk::undo(&mut session));
            black_box(desk::amend(&mut session, 1, &names));
        },
        || {
            let _ = black_box(other.undo());
            let _ = black_box(other.amend(1, &names));
        },
    );
    assert!(session == other, "the sessions differ");
}

/// One supplement laid over another.
fn layings(two: &Two) {
    let store = two.draft.store();
    let (lower, upper) = (in_store(&two.lower), in_store(&two.upper));
    let (mut result, mut other) = (vec![1; SUPPLEMENT_BYTES], vec![2; SUPPLEMENT_BYTES]);
    let used = lay(&store, &lower, &upper, &mut other).expect("two supplements");
    let answer = desk::lay(&store, &lower, &upper, &mut result);
    assert_eq!(answer, Answer::Count(used));
    assert!(result == other, "the results differ");
    compared(
        &format!("laying: {}", two.name),
        || {
            black_box(desk::lay(black_box(&store), &lower, &upper, &mut result));
        },
        || {
            let _ = black_box(lay(black_box(&store), &lower, &upper, &mut other));
        },
    );
}

fn main() {
    println!(
        "{:46} {:>12} {:>12} {:>8} {:>12} {:>8}",
        "a second", "library", "second", "ratio", "plain", "ratio"
    );
    let (pool, two_steps, deep) = (inputs::pool(), inputs::two_steps(), inputs::deep());
    let (full, filled, idle) = (inputs::full(), inputs::filled(true), inputs::filled(false));
    let (mixed, divided) = (inputs::mixed(), inputs::divided());
    let (crews, in_turns) = (inputs::large_crews(), inputs::crews_in_turns());
    for input in [
        &pool, &two_steps, &deep, &full, &filled, &idle, &mixed, &divided, &crews, &in_turns,
    ] {
        verdicts(input);
    }
    // Laws under 2B and 2C, which are read at all positions so far.
    for input in [
        inputs::tug(),
        inputs::all_look_back(),
        inputs::long_look_back(),
    ] {
        verdicts(&input);
    }
    // Levels that may not change fast.
    verdicts(&inputs::full_of_limits());
    for input in [&inputs::long_text(), &filled, &mixed] {
        domain_texts(input);
    }
    for input in [&pool, &full] {
        sheet_texts(input);
    }
    for input in [&two_steps, &pool, &full, &filled] {
        programs(input);
    }
    for input in [&two_steps, &pool, &full] {
        reports(input);
    }
    for input in [&pool, &full] {
        session_verdicts(input);
    }
    edits();
    for two in [inputs::few_laws(), inputs::longest_laws()] {
        layings(&two);
    }
    println!(
        "{:46} {:>12} {:>12} {:>8} {:>12} {:>8}",
        "verdicts under a supplement, a second", "library", "second", "ratio", "without", "ratio"
    );
    for input in [pool, deep, full, inputs::long_laws()] {
        verdicts_under(&input, 5);
        if input.draft.laws() > 5 {
            verdicts_under(&input, usize::MAX);
        }
    }
}
