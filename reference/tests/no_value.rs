//! Why a law had no value: document 02, K2, sentence by sentence. What is printed
//! was worked out by hand, and the plain judge is held to it as well.

mod common;

use common::{judged, judged_alone, read_frames};
use waroth_reference::generate::draft::{law, replacement, text_of, Draft};
use waroth_reference::generate::laws::{constant, node};
use waroth_reference::generate::random::Random;
use waroth_reference::judge::{Judged, Verdict, LEVELS};
use waroth_reference::line::MAX_PAYLOAD;
use waroth_reference::program::Program;
use waroth_reference::sheet::SHEET_BYTES;
use waroth_reference::store::STORE_BYTES;
use waroth_reference::{accepted, counts, plain, read_domain, read_sheet, Session};

/// One agent, a fluent from 0 to 9 that is 5, known to the agent, and an action 1.
const D: &str = "A10101\nA206000000090005\nA303000001\nA403010001\n";

/// The action may always be taken.
const FREE: &str = "A502002A\n";

/// It adds one to the fluent.
const COUNT: &str = "A60A002A0012110000100001\n";

const IDLE: &str = "B10100\n";
const ACT: &str = "B10101\n";

/// 1 by 0, and 31,623 times 31,623.
const BY_ZERO: &str = "15100001100000";
const SQUARE: &str = "14107B87107B87";

/// The ends of the number range: 31,250 times 32,000, and -31,250 times 32,000.
const HIGHEST: &str = "14107A12107D00";
const LOWEST: &str = "141085EE107D00";

/// Whether an expression is 0.
fn is_zero(expression: &str) -> String {
    format!("20{expression}100000")
}

/// A law's line: kind, and payload without its count.
fn line(kind: &str, payload: &str) -> String {
    format!("{kind}{:02X}{payload}\n", payload.len() / 2)
}

/// What the program prints, and the plain judge would.
fn printed(text: &str) -> String {
    let out = String::from_utf8(Program::Waroth.run(text.as_bytes())).expect("text");
    assert_eq!(out, by_the_plain_judge(text), "{text}");
    out
}

fn by_the_plain_judge(text: &str) -> String {
    let end = text.find("\nB1").map_or(text.len(), |place| place + 1);
    let (domain, sheet) = text.split_at(end);
    let (mut store, mut names) = (vec![0; STORE_BYTES], vec![0; SHEET_BYTES]);
    read_domain(domain.as_bytes(), &mut store).expect(text);
    let counts = counts(&store).expect(text);
    let steps = read_sheet(sheet.as_bytes(), counts.agents, &mut names).expect(text);
    let mut levels = vec![0; LEVELS];
    let judged = plain::judge(&store, &names[..steps * counts.agents], &mut levels);
    let Judged { verdict, states } = judged.expect(text);
    let mut out = String::new();
    for (number, state) in levels.chunks(counts.fluents).take(states).enumerate() {
        let levels: String = state.iter().map(|level| format!(" {level}")).collect();
        out += &format!("S {number}{levels}\n");
    }
    out + &match verdict {
        Verdict::Accepted => "ACCEPTED\n".to_string(),
        Verdict::Broken { kind, step, number } => format!("BROKEN {kind} {step} {number}\n"),
    }
}

/// What a goal comes to on an empty sheet: 0 where it is met.
fn goal(constraint: &str) -> u8 {
    match &printed(&format!("{D}{FREE}{}", line("A9", constraint)))[..] {
        "S 0 5\nACCEPTED\n" => 0,
        "S 0 5\nBROKEN 7 0 1\n" => 7,
        "S 0 5\nBROKEN 8 0 1\n" => 8,
        "S 0 5\nBROKEN 9 0 1\n" => 9,
        other => panic!("{other}"),
    }
}

/// The same of a goal about the value of an expression.
fn value(expression: &str) -> u8 {
    goal(&format!("26{}2A", is_zero(expression)))
}

#[test]
fn the_pool_with_a_quotient_and_a_product() {
    // "Kind 7 sends the law writer to look at every quotient when the trouble was a
    // product": the level by 2, and 31,623 squared, make no goal of at least 280.
    let pool = String::from_utf8(Draft::pool().text()).expect("text");
    let with = |goal: &str| {
        let text = pool.replace("A90725110000100118", goal);
        printed(&format!("{text}B1020100\n"))
    };
    let out = with("A91325121511000010000214107B87107B87100118");
    assert_eq!(out, "S 0 300\nS 1 286\nBROKEN 9 1 4\n");
    // 31,622 squared; and by 0 instead of 2.
    let out = with("A91325121511000010000214107B86107B86100118");
    assert_eq!(out, "S 0 300\nS 1 286\nACCEPTED\n");
    let out = with("A91325121511000010000014107B86107B86100118");
    assert_eq!(out, "S 0 300\nS 1 286\nBROKEN 7 1 4\n");
    // Both: the quotient stands left of the product.
    let out = with("A91325121511000010000014107B87107B87100118");
    assert_eq!(out, "S 0 300\nS 1 286\nBROKEN 7 1 4\n");
}

#[test]
fn a_zero_divisor_stays_kind_7() {
    // "A zero divisor stays kind 7": 5 by 0, and its remainder; 0 by 0.
    assert_eq!(value("15100005100000"), 7);
    assert_eq!(value("16100005100000"), 7);
    assert_eq!(value("15100000100000"), 7);
    // A divisor that comes out as 0: the fluent less 5, and a falsehood.
    assert_eq!(value("1510000113110000100005"), 7);
    assert_eq!(value("1610000119282A"), 7);
    // The ends of the number range are dividends as any other.
    assert_eq!(value(&format!("15{HIGHEST}100000")), 7);
    assert_eq!(value(&format!("16{LOWEST}100000")), 7);
}

#[test]
fn a_result_beyond_the_number_range_becomes_kind_9() {
    // 1,000,000,000 + 1 and + 0; -1,000,000,000 + -1.
    assert_eq!(value(&format!("12{HIGHEST}100001")), 9);
    assert_eq!(goal(&format!("2012{HIGHEST}100000{HIGHEST}")), 0);
    assert_eq!(value(&format!("12{LOWEST}10FFFF")), 9);
    assert_eq!(goal(&format!("2012{LOWEST}100000{LOWEST}")), 0);
    // -1,000,000,000 - 1; 1,000,000,000 - -1; 0 - 1,000,000,000 is a value.
    assert_eq!(value(&format!("13{LOWEST}100001")), 9);
    assert_eq!(value(&format!("13{HIGHEST}10FFFF")), 9);
    assert_eq!(goal(&format!("2013100000{HIGHEST}{LOWEST}")), 0);
    // 19,019 times 52,579 is 1,000,000,001; times 52,578 it is 999,980,982, which
    // is 1,000,000,000 less 19,018.
    assert_eq!(value("14104A4B121066B11066B2"), 9);
    let less = format!("2014104A4B121066B11066B113{HIGHEST}104A4A");
    assert_eq!(goal(&less), 0);
    assert_eq!(value("1410B5B5121066B11066B2"), 9);
    // The paper's own: 31,623 squared, and 31,622, which is 49,116 below the end.
    assert_eq!(value(SQUARE), 9);
    let less = format!("2014107B86107B8613{HIGHEST}12105FDC106000");
    assert_eq!(goal(&less), 0);
}

#[test]
fn far_beyond_is_kind_9_as_well() {
    // Twice an end, its square, and 2 to the power of 32, which is 0 in 32 bits.
    let power = "14100100100100";
    assert_eq!(value(&format!("12{HIGHEST}{HIGHEST}")), 9);
    assert_eq!(value(&format!("12{LOWEST}{LOWEST}")), 9);
    assert_eq!(value(&format!("13{HIGHEST}{LOWEST}")), 9);
    assert_eq!(value(&format!("13{LOWEST}{HIGHEST}")), 9);
    assert_eq!(value(&format!("14{HIGHEST}{HIGHEST}")), 9);
    assert_eq!(value(&format!("14{HIGHEST}{LOWEST}")), 9);
    assert_eq!(value(&format!("14{power}{power}")), 9);
    assert_eq!(value(&format!("14{power}17{power}")), 9);
}

#[test]
fn no_other_operation_leaves_the_range() {
    // Negation, absolute value, quotient and remainder of both ends.
    let equal = |left: String, right: &str| assert_eq!(goal(&format!("20{left}{right}")), 0);
    equal(format!("17{HIGHEST}"), LOWEST);
    equal(format!("17{LOWEST}"), HIGHEST);
    equal(format!("18{LOWEST}"), HIGHEST);
    equal(format!("15{HIGHEST}10FFFF"), LOWEST);
    equal(format!("15{LOWEST}10FFFF"), HIGHEST);
    equal(format!("15{LOWEST}{HIGHEST}"), "10FFFF");
    equal(format!("16{HIGHEST}10FFFF"), "100000");
    equal(format!("16{LOWEST}{HIGHEST}"), "100000");
    equal(format!("14{LOWEST}10FFFF"), HIGHEST);
    equal(format!("12{LOWEST}{HIGHEST}"), "100000");
}

#[test]
fn a_result_on_the_way_counts_too() {
    // "a result beyond the number range": 1,000,000,000 + 1 - 1,000,000,000; a
    // square times 0; the remainder of a square.
    assert_eq!(value(&format!("1312{HIGHEST}100001{HIGHEST}")), 9);
    assert_eq!(value(&format!("14{SQUARE}100000")), 9);
    assert_eq!(value(&format!("14100000{SQUARE}")), 9);
    assert_eq!(value(&format!("16{SQUARE}100007")), 9);
    // The other way round nothing leaves the range: less the end, plus 1.
    assert_eq!(value(&format!("1213{HIGHEST}{HIGHEST}100001")), 8);
}

#[test]
fn the_two_wherever_a_law_is_read() {
    // The same step, number and states, whatever the trouble is.
    for (kind, expression) in [(7, BY_ZERO), (9, SQUARE)] {
        let zero = is_zero(expression);
        // A7 at step 0, without states, whatever the sheet is.
        let text = format!("{D}{FREE}{}", line("A7", &zero));
        assert_eq!(printed(&text), format!("BROKEN {kind} 0 1\n"));
        let text = format!("{text}{ACT}");
        assert_eq!(printed(&text), format!("BROKEN {kind} 0 1\n"));
        // A5, law 0, where its entry occurs; a later one that is true is no help.
        let text = format!("{D}{}{FREE}{IDLE}", line("A5", &format!("00{zero}")));
        assert_eq!(printed(&text), "S 0 5\nS 1 5\nACCEPTED\n");
        let text = format!("{text}{ACT}");
        let out = format!("S 0 5\nS 1 5\nBROKEN {kind} 2 0\n");
        assert_eq!(printed(&text), out);
        // A8, also where nobody acts.
        let text = format!("{D}{FREE}{}{IDLE}", line("A8", &zero));
        assert_eq!(printed(&text), format!("S 0 5\nBROKEN {kind} 1 1\n"));
        // A6, by its constraint and by its expression.
        let effect = line("A6", &format!("00{zero}00100001"));
        let text = format!("{D}{FREE}{effect}{IDLE}{ACT}{IDLE}");
        assert_eq!(printed(&text), format!("S 0 5\nS 1 5\nBROKEN {kind} 2 1\n"));
        let effect = line("A6", &format!("002A00{expression}"));
        let text = format!("{D}{FREE}{effect}{IDLE}{ACT}{IDLE}");
        assert_eq!(printed(&text), format!("S 0 5\nS 1 5\nBROKEN {kind} 2 1\n"));
        // A9, with all states.
        let text = format!("{D}{FREE}{}{ACT}", line("A9", &zero));
        let out = format!("S 0 5\nS 1 5\nBROKEN {kind} 1 1\n");
        assert_eq!(printed(&text), out);
    }
}

#[test]
fn the_two_where_a_law_has_a_value_for_some_steps() {
    // 1 by the fluent less 6, and the fluent and 31,617 squared, are not 5, until
    // the fluent is 6.
    let by_zero = "211510000113110000100006100005";
    let square = "211412107B8111000012107B81110000100005";
    for (kind, constraint) in [(7, by_zero), (9, square)] {
        let text = format!("{D}{FREE}{COUNT}{}", line("A7", constraint));
        assert_eq!(printed(&text), "S 0 5\nACCEPTED\n");
        let text = format!("{text}{IDLE}{ACT}{IDLE}");
        assert_eq!(printed(&text), format!("S 0 5\nS 1 5\nBROKEN {kind} 2 2\n"));
        let text = format!("{D}{FREE}{COUNT}{}{IDLE}{ACT}", line("A9", constraint));
        let out = format!("S 0 5\nS 1 5\nS 2 6\nBROKEN {kind} 2 2\n");
        assert_eq!(printed(&text), out);
    }
}

/// Both troubles, each way round: what is found first, and what is behind it.
const WAYS: [(u8, &str, &str); 2] = [(7, BY_ZERO, SQUARE), (9, SQUARE, BY_ZERO)];

#[test]
fn operands_from_left_to_right() {
    // "Operands are worked out left to right": of arithmetic and of comparisons.
    for (first, left, right) in WAYS {
        for code in 0x12..=0x16 {
            assert_eq!(value(&format!("{code:02X}{left}{right}")), first);
        }
        for code in 0x20..=0x25 {
            assert_eq!(goal(&format!("{code:02X}{left}{right}")), first);
        }
        // How deep they are does not matter, nor how often they come.
        assert_eq!(value(&format!("12171817{left}{right}")), first);
        assert_eq!(value(&format!("13{left}181718{right}")), first);
        assert_eq!(value(&format!("12100001{left}")), first);
        assert_eq!(value(&format!("1212100001{left}{right}")), first);
        assert_eq!(value(&format!("1212{left}{right}{left}")), first);
        assert_eq!(value(&format!("12{left}12{right}{left}")), first);
    }
}

#[test]
fn each_operand_before_its_operation() {
    // "each before its operation": the dividend is out of numbers, and so it does not
    // come to the divisor being 0.
    assert_eq!(value(&format!("15{SQUARE}100000")), 9);
    assert_eq!(value(&format!("16{SQUARE}100000")), 9);
    assert_eq!(value(&format!("1512{HIGHEST}100001100000")), 9);
    assert_eq!(value(&format!("15{HIGHEST}100000")), 7);
    // The divisor is without value, which is not 0.
    assert_eq!(value(&format!("15100001{SQUARE}")), 9);
    assert_eq!(value(&format!("15{BY_ZERO}{SQUARE}")), 7);
    assert_eq!(value(&format!("15{SQUARE}{BY_ZERO}")), 9);
    // A factor is without value, so that nothing is multiplied.
    assert_eq!(value(&format!("14{BY_ZERO}{SQUARE}")), 7);
    assert_eq!(value(&format!("14{HIGHEST}12{HIGHEST}{BY_ZERO}")), 7);
    assert_eq!(value(&format!("14{HIGHEST}12{BY_ZERO}{HIGHEST}")), 7);
    // The operation's own comes before what stands right of it.
    assert_eq!(value(&format!("12{SQUARE}{BY_ZERO}")), 9);
    assert_eq!(value(&format!("1214{HIGHEST}100002{BY_ZERO}")), 9);
}

#[test]
fn both_sides_of_and_and_or_are_read() {
    // 01: "and" and "or" read both sides, so what one side says hides nothing of the
    // other. 282A is false.
    for (kind, expression) in [(7, BY_ZERO), (9, SQUARE)] {
        let zero = is_zero(expression);
        for around in ["272A*", "27*2A", "26282A*", "26*282A", "27282A*", "262A*"] {
            assert_eq!(goal(&around.replace('*', &zero)), kind, "{around}");
        }
        assert_eq!(goal(&format!("28{zero}")), kind);
        assert_eq!(goal(&format!("27282728{zero}2A2A")), kind);
    }
    for (first, left, right) in WAYS {
        let (left, right) = (is_zero(left), is_zero(right));
        for shape in [
            "26<>",
            "27<>",
            "2826<>",
            "272A26<>",
            "272A27<>",
            "26282A27<>",
            "26282A26<>",
            "26272A<>",
            "2627<2A>",
            "2726282A<>",
            "2726<282A>",
            "27<272A>",
            "26<26282A>",
            "27<26282A27>2A",
        ] {
            let constraint = shape.replace('<', &left).replace('>', &right);
            assert_eq!(goal(&constraint), first, "{shape}");
        }
    }
}

#[test]
fn constraints_inside_expressions() {
    // Under 19, and a constraint in an expression in a constraint.
    for (first, left, right) in WAYS {
        let (one, other) = (is_zero(left), is_zero(right));
        assert_eq!(value(&format!("1920{left}{right}")), first);
        assert_eq!(value(&format!("1926{one}{other}")), first);
        assert_eq!(value(&format!("19272A27{one}{other}")), first);
        assert_eq!(value(&format!("1219{one}19{other}")), first);
        assert_eq!(value(&format!("1219{one}{right}")), first);
        assert_eq!(value(&format!("12{left}19{other}")), first);
        assert_eq!(value(&format!("1419282A19{one}")), first);
        let inner = is_zero(&format!("19{one}"));
        assert_eq!(value(&format!("1926{inner}{other}")), first);
    }
}

#[test]
fn an_effect_by_its_constraint_before_its_expression() {
    // 01: "constraint, and if true, expression".
    let judged = |constraint: &str, expression: &str| {
        let effect = line("A6", &format!("00{constraint}00{expression}"));
        printed(&format!("{D}{FREE}{effect}{ACT}"))
    };
    for (first, left, right) in WAYS {
        let broken = format!("S 0 5\nBROKEN {first} 1 1\n");
        assert_eq!(judged(&is_zero(left), right), broken);
        assert_eq!(judged("2A", left), broken);
        assert_eq!(judged("2A", &format!("12{left}{right}")), broken);
        assert_eq!(judged(&is_zero(left), "100001"), broken);
        // A constraint that is false leaves the expression unread.
        assert_eq!(judged("282A", left), "S 0 5\nS 1 5\nACCEPTED\n");
    }
}

#[test]
fn the_law_that_is_read_first() {
    // 01: "First fault wins". Laws of one kind by their numbers.
    for (first, left, right) in WAYS {
        let [one, other] = [left, right].map(is_zero);
        for kind in ["A7", "A8", "A9"] {
            let laws = [line(kind, &one), line(kind, &other)].concat();
            let out = match kind {
                "A7" => format!("BROKEN {first} 0 1\n"),
                "A8" => format!("S 0 5\nBROKEN {first} 1 1\n"),
                _ => format!("S 0 5\nS 1 5\nBROKEN {first} 1 1\n"),
            };
            assert_eq!(printed(&format!("{D}{FREE}{laws}{IDLE}")), out);
        }
        let broken = |number: u8| format!("S 0 5\nBROKEN {first} 1 {number}\n");
        // Two of A5, and one before an A8; the A8 before an A6.
        let [first_a5, second_a5] = [&one, &other].map(|c| line("A5", &format!("00{c}")));
        assert_eq!(
            printed(&format!("{D}{first_a5}{second_a5}{ACT}")),
            broken(0)
        );
        let a8 = line("A8", &other);
        assert_eq!(printed(&format!("{D}{first_a5}{a8}{ACT}")), broken(0));
        let (a6, a8) = (line("A6", &format!("002A00{right}")), line("A8", &one));
        assert_eq!(printed(&format!("{D}{FREE}{a6}{a8}{ACT}")), broken(2));
        // Two of A6: the first one's expression before the second one's constraint.
        let a6 = line("A6", &format!("002A00{left}")) + &line("A6", &format!("00{other}00100001"));
        assert_eq!(printed(&format!("{D}{FREE}{a6}{ACT}")), broken(1));
        // Two crews: the first entry's law, though the second entry's has a lower
        // number.
        let entries = "A10102\nA206000000090005\nA403010001\nA403020002\n";
        let [of_first, of_second] = [("00", &one), ("01", &other)]
            .map(|(entry, constraint)| line("A5", &format!("{entry}{constraint}")));
        let text = format!("{entries}{of_second}{of_first}B1020102\n");
        assert_eq!(printed(&text), broken(1));
    }
}

#[test]
fn laws_that_are_not_read() {
    for expression in [BY_ZERO, SQUARE] {
        let zero = is_zero(expression);
        // Behind a true one of its entry; of an entry that does not occur.
        let a5 = line("A5", &format!("00{zero}"));
        let accepted = "S 0 5\nS 1 5\nACCEPTED\n";
        assert_eq!(printed(&format!("{D}{FREE}{a5}{ACT}")), accepted);
        assert_eq!(printed(&format!("{D}{a5}{IDLE}")), accepted);
        // About a fluent that the crew does not know, though the trouble is not there.
        let unknown = D.replace("A303000001\n", "");
        let about = line("A5", &format!("0026{zero}20110000100005"));
        let text = format!("{unknown}{about}{ACT}");
        assert_eq!(printed(&text), "S 0 5\nBROKEN 2 1 0\n");
        assert_eq!(
            printed(&format!("{D}{about}{ACT}")),
            format!("S 0 5\nBROKEN {} 1 0\n", value(expression))
        );
    }
}

#[test]
fn a_fluents_range_is_another() {
    // 1,000,000,000 is a number, but no level: kind 5, fluent. One more is none.
    let a6 = line("A6", &format!("002A00{HIGHEST}"));
    let text = format!("{D}{FREE}{a6}{ACT}");
    assert_eq!(printed(&text), "S 0 5\nBROKEN 5 1 0\n");
    let beyond = line("A6", &format!("002A0012{HIGHEST}100001"));
    let text = format!("{D}{FREE}{beyond}{ACT}");
    assert_eq!(printed(&text), "S 0 5\nBROKEN 9 1 1\n");
    // All effect laws are read before the ranges.
    let text = format!("{D}{FREE}{a6}{beyond}{ACT}");
    assert_eq!(printed(&text), "S 0 5\nBROKEN 9 1 2\n");
    // The disagreement of an earlier law comes first.
    let text = format!("{D}{FREE}{COUNT}{a6}{beyond}{ACT}");
    assert_eq!(printed(&text), "S 0 5\nBROKEN 4 1 2\n");
    let text = format!("{D}{FREE}{COUNT}{beyond}{a6}{ACT}");
    assert_eq!(printed(&text), "S 0 5\nBROKEN 9 1 2\n");
}

#[test]
fn under_a_supplement_in_a_session_and_in_a_report() {
    let mut draft = Draft::of_each_kind();
    draft.insert(law(0xA9, &[&[0x2A]]));
    let accepted = judged_alone(&draft, &[1]);
    assert_eq!(accepted.0.verdict, Verdict::Accepted);
    let square = node(0x14, &[&constant(31_623), &constant(31_623)]);
    let by_zero = node(0x15, &[&square, &constant(0)]);
    for part in [square, by_zero] {
        let beyond = law(0xA9, &[&node(0x20, &[&part, &constant(0)])]);
        let (verdict, states) = (
            Verdict::Broken {
                kind: 9,
                step: 1,
                number: 5,
            },
            2,
        );
        let expected = Judged { verdict, states };
        let frames = [replacement(5, &beyond)];
        let supplement = read_frames(&draft, &frames).expect("a supplement");
        assert_eq!(judged(&draft, &supplement, &[1]).0, expected);
        let replaced = draft.clone().with_law(5, &beyond);
        assert_eq!(judged_alone(&replaced, &[1]).0, expected);
        let mut session = Session::closed();
        assert_eq!(session.open(&replaced.bytes()), Ok(()));
        assert_eq!(session.enter(&[1]), Ok(()));
        let mut levels = vec![0; LEVELS];
        assert_eq!(
            session.verdict(&replaced.bytes(), &mut levels),
            Ok(expected)
        );
        // The program under the supplement, and the report, where it is broken.
        let lines = [draft.text(), text_of(&frames), ACT.as_bytes().to_vec()];
        let out = Program::LowWater.run(&lines.concat());
        assert_eq!(out, b"S 0 5\nS 1 6\nBROKEN 9 1 5\n");
        let sheets = format!("B000\n{ACT}B000\n{IDLE}");
        let out = Program::Report.run(&[&replaced.text(), sheets.as_bytes()].concat());
        assert_eq!(out, b"SHEETS 0 2\n");
    }
}

/// A part of a law, and the first trouble in it, if there is one.
type Grown = (Vec<u8>, Option<u8>);

/// Two parts under a code: what stands further left is found first.
fn joined(code: u8, (left, first): Grown, (right, second): Grown) -> Grown {
    (node(code, &[&left, &right]), first.or(second))
}

fn wrapped((part, trouble): Grown, wrap: impl Fn(&[u8]) -> Vec<u8>) -> Grown {
    (wrap(&part), trouble)
}

/// A random expression at most so many levels deep over those of its leaves. These
/// are small, or without value by themselves; no operation on small ones is.
fn expression(r: &mut Random, levels: usize) -> Grown {
    if levels == 0 || r.one_in(4) {
        let large = constant(31_623);
        return match r.below(12) {
            0 => (node(0x15, &[&constant(2), &constant(0)]), Some(7)),
            1 => (node(0x16, &[&[0x11, 0, 0], &constant(0)]), Some(7)),
            2 => (node(0x14, &[&large, &large]), Some(9)),
            3 => (node(0x14, &[&large, &node(0x17, &[&large])]), Some(9)),
            4..=7 => (constant(r.below(5) as i16 - 2), None),
            _ => (vec![0x11, 0, r.below(3) as u8], None),
        };
    }
    let first = expression(r, levels - 1);
    match r.below(8) {
        code @ 0..=2 => joined(0x12 + code as u8, first, expression(r, levels - 1)),
        code @ 3..=4 => {
            // A divisor that is not 0.
            let divisor = wrapped(expression(r, levels - 1), |part| {
                node(0x12, &[&node(0x18, &[part]), &constant(1)])
            });
            joined(0x12 + code as u8, first, divisor)
        }
        code @ 5..=6 => wrapped(first, |part| node(0x12 + code as u8, &[part])),
        _ => wrapped(constraint(r, levels - 1), |part| node(0x19, &[part])),
    }
}

fn constraint(r: &mut Random, levels: usize) -> Grown {
    if levels == 0 {
        return (vec![0x2A], None);
    }
    match r.below(5) {
        code @ 0..=1 => {
            let left = constraint(r, levels - 1);
            joined(0x26 + code as u8, left, constraint(r, levels - 1))
        }
        2 => wrapped(constraint(r, levels - 1), |part| node(0x28, &[part])),
        _ => {
            let left = expression(r, levels - 1);
            let code = r.from_to(0x20, 0x25) as u8;
            joined(code, left, expression(r, levels - 1))
        }
    }
}

#[test]
fn the_first_trouble_is_the_one_furthest_left() {
    // "the first trouble found is the one given": where parts are without value by
    // themselves, it is the one that stands first among the law's bytes.
    let mut r = Random::seeded(71);
    let mut met = [0; 3];
    for _ in 0..20_000 {
        let (part, trouble) = constraint(&mut r, 5);
        // Whether it is true does not matter.
        let either = node(0x27, &[&[0x2A], &part]);
        if either.len() > MAX_PAYLOAD {
            continue;
        }
        let mut draft = Draft::new(1, &[[0, 2, 2]], &[(1, 1)]).free();
        draft.insert(law(*r.pick(&[0xA7, 0xA8, 0xA9]), &[&either]));
        if !accepted(&draft.bytes()) {
            // Too deep.
            continue;
        }
        let found = match judged_alone(&draft, &[0]).0.verdict {
            Verdict::Accepted => None,
            Verdict::Broken { kind, number, .. } => {
                assert_eq!(number, 1);
                Some(kind)
            }
        };
        assert_eq!(found, trouble, "{:02X?}", draft.law(1));
        met[trouble.map_or(0, |kind| usize::from(kind) / 4)] += 1;
    }
    assert!(met.iter().all(|&times| times > 1_000), "{met:?}");
}
