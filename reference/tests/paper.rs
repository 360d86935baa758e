//! The paper's own cases: the river of one pool, starred and unstarred.

use waroth_reference::code::{Compiler, Op};
use waroth_reference::generate::draft::{mask_frame, Draft};
use waroth_reference::generate::laws::{constant, node};
use waroth_reference::history::History;
use waroth_reference::judge::{judge, Judged, Verdict, LEVELS};
use waroth_reference::law::Checker;
use waroth_reference::number::{
    Reckoned,
    Trouble::{OutOfNumbers, ZeroDivisor},
};
use waroth_reference::program::Program;
use waroth_reference::store::STORE_BYTES;
use waroth_reference::{number, read_domain, read_sheet};

const P: &str = "\
A10102
A20600C80140012C
A303000003
A403010001
A403020002
A50800241100001000DC
A50801241100001000DC
A60A002A001311000010000E
A60A012A0013110000100006
A90725110000100118
";

const UNTOUCHED: i16 = -999;

fn pool() -> Vec<u8> {
    let mut store = vec![0xEE; STORE_BYTES];
    let used = read_domain(P.as_bytes(), &mut store).expect("P is accepted");
    assert_eq!(used, (P.len() - 10) / 2);
    store
}

/// The verdict on a sheet of P, and the states written.
fn judged(sheet: &[u8]) -> (Verdict, Vec<i16>) {
    let mut levels = vec![UNTOUCHED; LEVELS];
    let judged = judge(&pool(), sheet, &mut levels).expect("no refusal");
    let written = levels.iter().position(|&level| level == UNTOUCHED);
    let (states, rest) = levels.split_at(written.unwrap_or(LEVELS));
    assert!(rest.iter().all(|&level| level == UNTOUCHED));
    assert_eq!(judged.states, states.len());
    (judged.verdict, states.to_vec())
}

fn broken(kind: u8, step: u8, number: u8) -> Verdict {
    Verdict::Broken { kind, step, number }
}

#[test]
fn the_draft_of_p_is_p() {
    assert_eq!(Draft::pool().text(), P.as_bytes());
}

#[test]
fn starred_sheets() {
    assert_eq!(judged(&[]), (Verdict::Accepted, vec![300]));
    assert_eq!(judged(&[1, 0]), (Verdict::Accepted, vec![300, 286]));
    let two = judged(&[1, 0, 0, 2]);
    assert_eq!(two, (Verdict::Accepted, vec![300, 286, 280]));
    assert_eq!(judged(&[1, 2]), (broken(4, 1, 3), vec![300]));
    assert_eq!(judged(&[2, 0]), (broken(1, 1, 0), vec![300]));
    assert_eq!(judged(&[9, 0]), (broken(1, 1, 0), vec![300]));
    let twice = judged(&[1, 0, 1, 0]);
    assert_eq!(twice, (broken(8, 2, 4), vec![300, 286, 272]));
    let six = judged(&[1, 0].repeat(6));
    let states = vec![300, 286, 272, 258, 244, 230, 216];
    assert_eq!(six, (broken(8, 6, 4), states.clone()));
    let seven = judged(&[1, 0].repeat(7));
    assert_eq!(seven, (broken(2, 7, 0), states));
}

/// Value of an expression over one fluent with these states, at the last of them.
fn value(bytes: &[u8], states: &[i16]) -> Reckoned {
    let (fluents, entries) = (1, 0);
    let checker = Checker {
        fluents,
        entries,
        looking_back: false,
    };
    assert_eq!(checker.expression(bytes), Some(&[][..]));
    let mut code = vec![Op::NONE; bytes.len()];
    let mut compiler = Compiler::of(bytes, &mut code, 0);
    compiler.expression();
    let used = compiler.used();
    let mut levels = [0; LEVELS];
    let mut history = History::start(1, &mut levels);
    for (number, &state) in states.iter().enumerate() {
        if number > 0 {
            history.reach();
            history.advance();
        }
        history.set(0, state);
    }
    history.evaluate(&code[..used])
}

#[test]
fn starred_arithmetic() {
    let on = |code, a, b| value(&node(code, &[&constant(a), &constant(b)]), &[0]);
    // K3 changed these from -3 and -1, and those of 7 by -2 below from -3 and 1.
    assert_eq!(on(0x15, -7, 2), Ok(-4));
    assert_eq!(on(0x16, -7, 2), Ok(1));
    assert_eq!(on(0x15, 5, 0), Err(ZeroDivisor));
    assert_eq!(on(0x16, 5, 0), Err(ZeroDivisor));
    assert_eq!(on(0x14, 31_622, 31_622), Ok(999_950_884));
    assert_eq!(on(0x14, 31_623, 31_623), Err(OutOfNumbers));
    assert_eq!(number::quotient(7, -2), Ok(-4));
    assert_eq!(number::remainder(7, -2), Ok(-1));
    assert_eq!(number::sum(999_999_999, 1), Ok(1_000_000_000));
    assert_eq!(number::sum(1_000_000_000, 1), Err(OutOfNumbers));
    let lowest = number::difference(-999_999_999, 1);
    assert_eq!(lowest, Ok(-1_000_000_000));
    let below = number::difference(-1_000_000_000, 1);
    assert_eq!(below, Err(OutOfNumbers));
}

#[test]
fn starred_lag() {
    assert_eq!(value(&[0x11, 0, 3], &[42]), Ok(42));
    assert_eq!(value(&[0x11, 0, 3], &[42, 1, 2]), Ok(42));
    assert_eq!(value(&[0x11, 0, 1], &[42, 1, 2]), Ok(1));
    assert_eq!(value(&[0x11, 0, 0], &[42, 1, 2]), Ok(2));
}

#[test]
fn unstarred_texts() {
    let mut store = vec![7; STORE_BYTES + 3];
    let lower = P.replace("A10102", "a10102");
    assert_eq!(read_domain(lower.as_bytes(), &mut store), Err((1, 1)));
    assert!(store.iter().all(|&byte| byte == 0));
    store.fill(7);
    assert_eq!(read_domain(b"", &mut store), Err((7, 0)));
    assert!(store.iter().all(|&byte| byte == 0));
    let mut buffer = [7; 1024];
    assert_eq!(read_sheet(b"", 2, &mut buffer), Ok(0));
    assert_eq!(buffer, [0; 1024]);
}

fn printed(input: &str) -> String {
    String::from_utf8(Program::Waroth.run(input.as_bytes())).expect("text")
}

#[test]
fn program_of_the_paper() {
    let out = printed(&format!("{P}B1020100\nB1020002\n"));
    assert_eq!(out, "S 0 300\nS 1 286\nS 2 280\nACCEPTED\n");
    assert_eq!(printed(P), "S 0 300\nACCEPTED\n");
    let out = printed(&format!("{P}B1020102\n"));
    assert_eq!(out, "S 0 300\nBROKEN 4 1 3\n");
    let out = printed(&format!("{P}B1020100\nB1020100\n"));
    assert_eq!(out, "S 0 300\nS 1 286\nS 2 272\nBROKEN 8 2 4\n");
}

#[test]
fn program_lines_and_order() {
    assert_eq!(printed(""), "REFUSED 7 0\n");
    // Lines of the sheet count from the input's first.
    assert_eq!(printed(&format!("{P}B1020100\nB10201\n")), "REFUSED 2 12\n");
    assert_eq!(printed(&format!("{P}B1020100\nA10102\n")), "REFUSED 3 12\n");
    // Only the domain's lines count for 7.
    assert_eq!(printed("A10102\nB1020100\n"), "REFUSED 7 1\n");
    assert_eq!(printed("B1020100\n"), "REFUSED 7 0\n");
    // The domain's refusals come first, also before those of an earlier cause.
    assert_eq!(printed("A10111\nB1\n"), "REFUSED 4 1\n");
    let long = |length: usize| {
        let mut input = P.to_string();
        input.push_str(&"G".repeat(length - P.len()));
        printed(&input)
    };
    assert_eq!(long(60_001), "REFUSED 18 0\n");
    assert_eq!(long(60_000), "REFUSED 1 11\n");
}

#[test]
fn no_states_for_a_static_fault_at_the_start() {
    let text = P.replace("A90725", "A70725").replace("0118\n", "012D\n");
    assert_eq!(printed(&text), "BROKEN 6 0 4\n");
    // Law 4 divides by 0: kind 7, without states as a static law at step 0, ...
    let text = P.replace("A90725110000100118", "A70B2015100001100000100000");
    assert_eq!(printed(&text), "BROKEN 7 0 4\n");
    // ... with all states as a goal.
    let text = P.replace("A90725110000100118", "A90B2015100001100000100000");
    assert_eq!(printed(&text), "S 0 300\nBROKEN 7 0 4\n");
}

#[test]
fn errors_that_look_reasonable() {
    // Known to nobody in the crew: one such fluent is enough.
    let mut draft = Draft::new(1, &[[0, 9, 5], [0, 9, 5]], &[(1, 1)]);
    draft.insert(mask_frame(0xA3, 0, 1));
    let both = [
        &[0, 0x26][..],
        &node(0x20, &[&[0x11, 0, 0], &constant(5)]),
        &node(0x20, &[&[0x11, 1, 0], &constant(5)]),
    ];
    draft.insert(waroth_reference::generate::draft::law(0xA5, &both));
    let mut levels = vec![UNTOUCHED; LEVELS];
    let (verdict, states) = (broken(2, 1, 0), 1);
    let judged = judge(&draft.bytes(), &[1], &mut levels);
    assert_eq!(judged, Ok(Judged { verdict, states }));
    assert_eq!(levels[..3], [5, 5, UNTOUCHED]);
}
