//! Document 02, K1, sentence by sentence; and the report against one that is made
//! sheet by sheet with the plain judge.

use std::collections::BTreeSet;
use waroth_reference::generate::draft::{law, sheet_text, Draft};
use waroth_reference::generate::laws::{constant, node};
use waroth_reference::generate::random::Random;
use waroth_reference::generate::report::{input_of, NEARLY_MARKS};
use waroth_reference::generate::{troubles, verdicts, Case, Expect, Generator};
use waroth_reference::judge::{Verdict, LEVELS};
use waroth_reference::program::{Program, OUTPUT_BYTES};
use waroth_reference::report::LONGEST_INPUT;
use waroth_reference::sheet::SHEET_BYTES;
use waroth_reference::store::STORE_BYTES;
use waroth_reference::{counts, judge, plain, read_domain, read_sheet};

const P: &str = "\
A10102
A20600C80140012C
A303000003
A403010001
A403020002
A50800241100001000DC
A50801241100001000DC
A60A002A001311000010000E
A60A012A0013110000100006
A90725110000100118
";

/// The lines of P.
const LINES: usize = 10;

/// What the report prints.
fn report(input: impl AsRef<[u8]>) -> String {
    String::from_utf8(Program::Report.run(input.as_ref())).expect("text")
}

/// P and sheets, each behind its mark.
fn over_p(sheets: &[&str]) -> String {
    let sheets: String = sheets.iter().map(|text| format!("B000\n{text}")).collect();
    report(format!("{P}{sheets}"))
}

#[test]
fn the_papers_own_case() {
    // "P with the sheets (1,0) and (1,2) gives "SHEETS 1 1" and "F 0 286 300 586 2"."
    let out = over_p(&["B1020100\n", "B1020102\n"]);
    assert_eq!(out, "SHEETS 1 1\nF 0 286 300 586 2\n");
    let out = over_p(&["B1020102\n", "B1020100\n"]);
    assert_eq!(out, "SHEETS 1 1\nF 0 286 300 586 2\n");
}

#[test]
fn a_domain_then_sheets() {
    // "input is a domain, then sheets, each begun by a line of exactly B000 and LF"
    assert_eq!(report(P), "SHEETS 0 0\n");
    assert_eq!(over_p(&[""]), "SHEETS 1 0\nF 0 300 300 300 1\n");
    assert_eq!(over_p(&["", ""]), "SHEETS 2 0\nF 0 300 300 600 2\n");
    let out = over_p(&["B1020100\nB1020002\n", ""]);
    assert_eq!(out, "SHEETS 2 0\nF 0 280 300 1166 4\n");
    // The line without its LF is no mark, and a line of the text that it ends.
    assert_eq!(report(format!("{P}B000")), "REFUSED 1 11\n");
    assert_eq!(over_p(&["B1020100\n", "B000"]), "REFUSED 1 14\n");
    // Steps before the first mark are lines of the domain.
    assert_eq!(report(format!("{P}B1020100\n")), "REFUSED 3 11\n");
    let out = report(format!("{P}B1020100\nB000\nB1020100\n"));
    assert_eq!(out, "REFUSED 3 11\n");
}

#[test]
fn lines_that_are_nearly_marks() {
    for &(label, number, line) in NEARLY_MARKS {
        let in_domain = [P.as_bytes(), line, b"B1020100\n"].concat();
        assert_eq!(
            report(in_domain),
            format!("REFUSED {number} 11\n"),
            "{label}"
        );
        let in_sheet = [P.as_bytes(), b"B000\nB1020100\n", line].concat();
        assert_eq!(
            report(in_sheet),
            format!("REFUSED {number} 13\n"),
            "{label}"
        );
    }
    // The digits of a mark as names: a step like any other.
    assert_eq!(over_p(&["B102B000\n"]), "SHEETS 0 1\n");
}

#[test]
fn counts_of_sheets() {
    // "It prints a line SHEETS with the count of accepted and of broken sheets."
    let broken = ["B1020102\n", "B1020200\n", "B1020100\nB1020100\n"];
    assert_eq!(over_p(&broken), "SHEETS 0 3\n");
    let out = over_p(&["B1020100\n", "B1020102\n", "", "B1020200\n", "B1020002\n"]);
    assert_eq!(out, "SHEETS 3 2\nF 0 286 300 1480 5\n");
    // Of the whole sheet that misses its goal no state counts, 272 neither.
    let out = over_p(&["B1020100\n", "B1020100\nB1020100\n"]);
    assert_eq!(out, "SHEETS 1 1\nF 0 286 300 586 2\n");
}

#[test]
fn figures_of_each_fluent() {
    // "for each fluent a line F with its number, lowest value, highest value, sum
    // and count of values, over all states of all accepted sheets"
    let mut draft = Draft::new(1, &[[-9, 9, -4], [-9, 9, 9], [0, 0, 0]], &[(1, 1)]).free();
    let raised = node(0x12, &[&[0x11, 0, 0], &constant(3)]);
    let negated = node(0x17, &[&[0x11, 1, 0]]);
    for (fluent, value) in [(0, raised), (1, negated)] {
        draft.insert(law(0xA6, &[&[0, 0x2A, fluent], &value]));
    }
    // -4, -1, 2, 2 and 9, -9, 9, 9; then -4 and 9.
    let sheets = [vec![1, 1, 0], vec![]].map(|names| sheet_text(&names, 1));
    let out = report(input_of(&draft.text(), &sheets));
    let figures = "F 0 -4 2 -5 5\nF 1 -9 9 27 5\nF 2 0 0 0 5\n";
    assert_eq!(out, format!("SHEETS 2 0\n{figures}"));
}

#[test]
fn the_most_that_can_be_summed_up() {
    let fluents = [[i16::MIN; 3], [i16::MAX; 3]].repeat(16);
    let draft = Draft::new(16, &fluents, &[(1, 1)]).free();
    let sheets = vec![sheet_text(&[0; 1024], 16); 40];
    let out = report(input_of(&draft.text(), &sheets));
    let mut expected = "SHEETS 40 0\n".to_string();
    for pair in 0..16 {
        let (low, high) = (2 * pair, 2 * pair + 1);
        expected += &format!("F {low} -32768 -32768 -85196800 2600\n");
        expected += &format!("F {high} 32767 32767 85194200 2600\n");
    }
    assert_eq!(out, expected);
    assert!(out.len() <= OUTPUT_BYTES);
}

#[test]
fn the_first_refusal_in_input_order() {
    // "The first refusal in input order gives the REFUSED line alone, lines counted
    // from the input's first."
    assert_eq!(report(""), "REFUSED 7 0\n");
    assert_eq!(report("B000\n"), "REFUSED 7 0\n");
    assert_eq!(report("A10102\nB000\nB1020100\n"), "REFUSED 7 1\n");
    assert_eq!(report("A10111\nx\nB000\nx\n"), "REFUSED 4 1\n");
    let out = over_p(&["B1020100\n", "B1020100\nB10201\n", "x\n"]);
    assert_eq!(out, "REFUSED 2 15\n");
    assert_eq!(over_p(&["", "A10102\n"]), "REFUSED 3 13\n");
    assert_eq!(over_p(&["B10101\n"]), "REFUSED 8 12\n");
    assert_eq!(over_p(&["\n"]), "REFUSED 1 12\n");
    // A broken sheet does not end the reading.
    assert_eq!(over_p(&["B1020102\n", "B1020102\nx"]), "REFUSED 1 15\n");
    let (steps, one_more) = ("B1020000\n".repeat(64), "B1020000\n".repeat(65));
    let out = over_p(&[&steps]);
    assert_eq!(out, "SHEETS 1 0\nF 0 300 300 19500 65\n");
    assert_eq!(over_p(&["", &one_more]), "REFUSED 9 77\n");
    assert_eq!(over_p(&[&one_more, ""]), "REFUSED 9 76\n");
}

#[test]
fn the_other_programs_take_no_mark() {
    // "The program of document 01 stays beside it and does not take B000."
    let run = |program: Program, input: &str| {
        String::from_utf8(program.run(input.as_bytes())).expect("text")
    };
    for program in [Program::Waroth, Program::LowWater] {
        let out = run(program, &format!("{P}B000\nB1020100\n"));
        assert_eq!(out, "REFUSED 3 11\n");
        let out = run(program, &format!("{P}B1020100\nB000\nB1020100\n"));
        assert_eq!(out, "REFUSED 3 12\n");
        let out = run(program, &format!("{P}B1020100\nB1020002\n"));
        assert_eq!(out, "S 0 300\nS 1 286\nS 2 280\nACCEPTED\n");
    }
}

/// A text that begins so, of exactly so many bytes, the last of them LF.
fn of_size(start: &str, again: &str, size: usize) -> String {
    let mut text = start.to_string();
    text.extend(again.chars().cycle().take(size - 1 - start.len()));
    text.push('\n');
    text
}

#[test]
fn texts_that_are_too_long() {
    // "18 (line 0) holds for the domain's text and for each sheet's text by itself,
    // before the others of that text"
    let domain = |again, size| of_size(P, again, size);
    let sheet = |again, size| of_size("", again, size);
    for (again, number, line) in [("\n", 1, 11), ("x", 1, 11), ("A9012A\n", 5, 134)] {
        let refused = format!("REFUSED {number} {line}\n");
        for behind in ["", "B000\n", "B000\nx\n"] {
            let just = domain(again, 60_000) + behind;
            assert_eq!(report(just), refused);
            let over = domain(again, 60_001) + behind;
            assert_eq!(report(over), "REFUSED 18 0\n");
        }
    }
    // The mark is no part of a sheet's text.
    for (again, number, line) in [("\n", 1, 12), ("x", 1, 12), ("B1020000\n", 9, 76)] {
        let (just, over) = (sheet(again, 60_000), sheet(again, 60_001));
        assert_eq!(over_p(&[&just]), format!("REFUSED {number} {line}\n"));
        assert_eq!(over_p(&[&over]), "REFUSED 18 0\n");
        let later = format!("REFUSED {number} {}\n", line + 2);
        assert_eq!(over_p(&["B1020102\n", &just, "x"]), later);
        assert_eq!(over_p(&["B1020102\n", &over, "x"]), "REFUSED 18 0\n");
        // A byte more instead of the last LF counts just so.
        let without = format!("{}00", &just[..59_999]);
        assert_eq!(over_p(&["", &without]), "REFUSED 18 0\n");
        let without = format!("{}0", &just[..59_999]);
        assert_eq!(
            over_p(&["", &without]),
            format!("REFUSED {number} {}\n", line + 1)
        );
    }
    // What belongs to no text before it is not counted with it ...
    assert_eq!(report(domain("x", 60_000) + "B000\n"), "REFUSED 1 11\n");
    // ... and what looks like a mark is.
    assert_eq!(report(domain("x", 60_000) + "B000"), "REFUSED 18 0\n");
    assert_eq!(report(domain("x", 60_000) + "b000\n"), "REFUSED 18 0\n");
    assert_eq!(report(domain("x", 59_995) + "B000"), "REFUSED 1 11\n");
}

#[test]
fn texts_that_are_too_long_after_earlier_refusals() {
    let long = of_size("", "x", 60_001);
    assert_eq!(report(format!("A10102\nB000\n{long}")), "REFUSED 7 1\n");
    assert_eq!(over_p(&["x\n", &long]), "REFUSED 1 12\n");
    assert_eq!(over_p(&[&long, "x\n"]), "REFUSED 18 0\n");
    assert_eq!(report(format!("{long}B000\n{long}")), "REFUSED 18 0\n");
}

#[test]
fn a_41st_sheet() {
    // "19 for a 41st sheet, at its B000 line, before all else of it"
    let sheets = |number: usize| vec!["B1020000\n"; number];
    let out = over_p(&sheets(39));
    assert_eq!(out, "SHEETS 39 0\nF 0 300 300 23400 78\n");
    let out = over_p(&sheets(40));
    assert_eq!(out, "SHEETS 40 0\nF 0 300 300 24000 80\n");
    let mark = LINES + 2 * 40 + 1;
    let refused = format!("REFUSED 19 {mark}\n");
    assert_eq!(over_p(&sheets(41)), refused);
    assert_eq!(over_p(&sheets(42)), refused);
    assert_eq!(over_p(&[""; 41]), "REFUSED 19 51\n");
    let last = |text| over_p(&[sheets(40), vec![text]].concat());
    let long = of_size("", "x", 60_001);
    assert_eq!(last(""), refused);
    assert_eq!(last("x"), refused);
    assert_eq!(last(&long), refused);
    // Without its LF it is no 41st, but a line of the 40th.
    let mut all = sheets(40);
    all[39] = "B000";
    assert_eq!(over_p(&all), format!("REFUSED 1 {}\n", mark - 1));
}

#[test]
fn a_41st_sheet_after_earlier_refusals() {
    let long = of_size("", "x", 60_001);
    for number in [1, 3, 40] {
        let with = |text| {
            let mut sheets = vec!["B1020102\n"; 41];
            sheets[number - 1] = text;
            over_p(&sheets)
        };
        let line = LINES + 2 * number;
        assert_eq!(with("B102010\n"), format!("REFUSED 1 {line}\n"));
        assert_eq!(with("B10101\n"), format!("REFUSED 8 {line}\n"));
        assert_eq!(with(&long), "REFUSED 18 0\n");
    }
    let marks = "B000\n".repeat(41);
    assert_eq!(report(&marks), "REFUSED 7 0\n");
    assert_eq!(report(format!("{long}{marks}")), "REFUSED 18 0\n");
}

#[test]
fn every_length_of_the_input() {
    // Far over 60,000 bytes in all, no text of them.
    let draft = Draft::new(16, &[[0, 9, 5]], &[(1, 1)]).free();
    let sheets = vec![sheet_text(&[0; 1024], 16); 40];
    let input = input_of(&draft.text(), &sheets);
    assert!(input.len() > 90_000);
    assert_eq!(report(input), "SHEETS 40 0\nF 0 5 5 13000 2600\n");
    let long = of_size("", "\n", 3_000_000);
    assert_eq!(over_p(&["", &long]), "REFUSED 18 0\n");
    // What the program does not read any more would change nothing.
    for behind in ["", "x", "B000\n", "\nB000\n"] {
        for number in [40, 41] {
            let mut sheets = vec![sheet_text(&[0; 128], 2); number];
            sheets[number - 1] = long.clone().into_bytes();
            let mut input = input_of(P.as_bytes(), &sheets);
            input.extend(behind.bytes());
            assert_eq!(report(&input), report(&input[..LONGEST_INPUT]));
        }
    }
}

#[test]
fn the_output() {
    let inputs = [P.to_string(), format!("{P}B000\nB1020100\n"), "x".into()];
    for input in &inputs {
        let expected = report(input);
        for room in [0, expected.len(), OUTPUT_BYTES - 1] {
            let mut output = vec![0xEE; room];
            assert_eq!(Program::Report.answer(input.as_bytes(), &mut output), 0);
            assert!(output.iter().all(|&byte| byte == 0xEE));
        }
        for room in [OUTPUT_BYTES, OUTPUT_BYTES + 7] {
            let mut output = vec![0xEE; room];
            let used = Program::Report.answer(input.as_bytes(), &mut output);
            assert_eq!(&output[..used], expected.as_bytes());
            assert!(output[used..].iter().all(|&byte| byte == 0xEE));
        }
    }
}

/// The report as one would write it first: the input cut into texts, each read and
/// judged by itself.
fn sheet_by_sheet(input: &[u8]) -> String {
    let mut texts = vec![(0, Vec::new())];
    for (number, line) in input.split_inclusive(|&c| c == b'\n').enumerate() {
        match texts.last_mut() {
            Some((_, text)) if line != b"B000\n" => text.extend_from_slice(line),
            _ => texts.push((number + 1, Vec::new())),
        }
    }
    let mut store = vec![0; STORE_BYTES];
    let (mut accepted, mut broken) = (0, 0);
    let mut values: Vec<Vec<i64>> = Vec::new();
    for (sheet, (mark, text)) in texts.iter().enumerate() {
        if sheet > 40 {
            return format!("REFUSED 19 {mark}\n");
        }
        if text.len() > 60_000 {
            return "REFUSED 18 0\n".to_string();
        }
        if sheet == 0 {
            if let Err((number, line)) = read_domain(text, &mut store) {
                return format!("REFUSED {number} {line}\n");
            }
            values = vec![Vec::new(); counts(&store).expect("a domain").fluents];
            continue;
        }
        let agents = counts(&store).expect("a domain").agents;
        let mut names = vec![0; SHEET_BYTES];
        let steps = match read_sheet(text, agents, &mut names) {
            Ok(steps) => steps,
            Err((number, line)) => return format!("REFUSED {number} {}\n", mark + line),
        };
        let mut levels = vec![0; LEVELS];
        let judged = plain::judge(&store, &names[..steps * agents], &mut levels);
        let judged = judged.expect("a sheet of the domain");
        if judged.verdict != Verdict::Accepted {
            broken += 1;
            continue;
        }
        accepted += 1;
        for (place, &level) in levels[..judged.states * values.len()].iter().enumerate() {
            let fluent = place % values.len();
            values[fluent].push(level.into());
        }
    }
    let mut out = format!("SHEETS {accepted} {broken}\n");
    for (fluent, values) in values.iter().enumerate() {
        if let (Some(lowest), Some(highest)) = (values.iter().min(), values.iter().max()) {
            let (sum, count) = (values.iter().sum::<i64>(), values.len());
            out += &format!("F {fluent} {lowest} {highest} {sum} {count}\n");
        }
    }
    out
}

#[test]
fn as_sheet_by_sheet_with_the_plain_judge() {
    let mut generator = Generator::seeded(31);
    let rounds = 3 * 2 * generator.aims().len();
    let (mut refused, mut with_figures, mut without) = (0, 0, 0);
    for made in generator.by_ref().take(rounds) {
        let Case::Program { program, input, .. } = made.case else {
            continue;
        };
        if program != Program::Report {
            continue;
        }
        let out = report(&input);
        assert_eq!(out, sheet_by_sheet(&input));
        match (out.starts_with("REFUSED"), out.contains('F')) {
            (true, _) => refused += 1,
            (false, true) => with_figures += 1,
            (false, false) => without += 1,
        }
    }
    let met = [refused, with_figures, without];
    assert!(met.iter().all(|&times| times > 50), "{met:?}");
}

#[test]
fn every_kind_of_fault_stands_among_accepted_sheets() {
    // The generator puts each trial's sheet between empty ones.
    let mut r = Random::seeded(32);
    let mut kinds = BTreeSet::new();
    let trials = verdicts::trials().into_iter().chain(troubles::further());
    for (label, expect, make) in trials {
        let (draft, sheet) = make(&mut r);
        let text = sheet_text(&sheet, draft.agents);
        let out = report(input_of(&draft.text(), &[vec![], text, vec![]]));
        let empty = judge(&draft.bytes(), &[], &mut [0; LEVELS]).expect("a domain");
        let accepts = empty.verdict == Verdict::Accepted;
        let accepted = 2 * u8::from(accepts) + u8::from(expect == Expect::Accepted);
        let counted = format!("SHEETS {accepted} {}\n", 3 - accepted);
        assert!(out.starts_with(&counted), "{label}: {out}");
        match expect {
            Expect::Broken(kind) if accepts => kinds.insert((kind, false)),
            Expect::Goal(kind) if accepts => kinds.insert((kind, true)),
            _ => false,
        };
    }
    let of_steps = (1..=7).chain([9]).map(|kind| (kind, false));
    let of_goals = (7..=9).map(|kind| (kind, true));
    assert_eq!(kinds, of_steps.chain(of_goals).collect());
}
