//! Supplements: document 02, K7, sentence after sentence.

mod common;

use common::{judged, judged_alone, read, read_frames};
use waroth_reference::generate::draft::{frame, law, replacement, sheet_text, text_of, Draft};
use waroth_reference::generate::laws::{constant, node, wrapped};
use waroth_reference::generate::random::Random;
use waroth_reference::generate::shapes::sized;
use waroth_reference::generate::sheets;
use waroth_reference::generate::supplements::{longest_of_both, stand_in, LONGEST_LAW};
use waroth_reference::judge::{judge_under, Judged, Verdict, LEVELS};
use waroth_reference::line::write_line;
use waroth_reference::program::{Program, OUTPUT_BYTES};
use waroth_reference::store::frame_at;
use waroth_reference::supplement::SUPPLEMENT_BYTES;
use waroth_reference::{law_in_force, read_supplement, LawInForce};

/// The reader's answer over the pool, whose laws are A5 of entry 0, A5 of entry
/// 1, A6 of entry 0, A6 of entry 1 and A9.
fn pool(text: &str) -> Result<usize, (u8, usize)> {
    read(&Draft::pool(), text.as_bytes()).map(|bytes| bytes.len())
}

fn verdict(draft: &Draft, supplement: &[Vec<u8>], sheet: &[u8]) -> (Verdict, usize) {
    let Judged { verdict, states } = judged(draft, &supplement.concat(), sheet).0;
    (verdict, states)
}

fn broken(kind: u8, step: u8, number: u8) -> Verdict {
    Verdict::Broken { kind, step, number }
}

#[test]
fn the_reader_puts_frames_end_to_end() {
    // Less water for the first crew, a lower goal; numbers in any order.
    let text = "AF0904A92511000010010E\nAF0C02A6002A001311000010000A\n";
    let mut frames = vec![0xAF, 9, 4, 0xA9, 0x25, 0x11, 0, 0, 0x10, 1, 14];
    frames.extend([0xAF, 12, 2, 0xA6, 0, 0x2A, 0, 0x13, 0x11, 0, 0, 0x10, 0, 10]);
    assert_eq!(read(&Draft::pool(), text.as_bytes()), Ok(frames));
}

#[test]
fn an_empty_supplement_changes_nothing() {
    assert_eq!(pool(""), Ok(0));
    let mut r = Random::seeded(31);
    for _ in 0..300 {
        let draft = Draft::random(&mut r);
        let sheet = sheets::sheet(&mut r, &draft);
        let alone = judged_alone(&draft, &sheet);
        for zeros in [0, 1, 2, 7, SUPPLEMENT_BYTES, SUPPLEMENT_BYTES + 1] {
            assert!(judged(&draft, &vec![0; zeros], &sheet) == alone);
        }
    }
}

#[test]
fn no_room_keeps_the_buffer() {
    for (store, text) in [(Draft::pool().store(), "AF"), (vec![1], "")] {
        let mut buffer = vec![0xEE; SUPPLEMENT_BYTES - 1];
        let read = read_supplement(&store, text.as_bytes(), &mut buffer);
        assert_eq!(read, Err((10, 0)));
        assert!(buffer.iter().all(|&byte| byte == 0xEE));
        assert_eq!(read_supplement(&store, b"x", &mut []), Err((10, 0)));
    }
}

#[test]
fn no_domain_zeroes_the_buffer() {
    let mut store = Draft::pool().store();
    store.push(1);
    for text in ["", "x", "AF00\n", "AF0304A92A\n"] {
        let mut buffer = vec![0xEE; SUPPLEMENT_BYTES + 1];
        let read = read_supplement(&store, text.as_bytes(), &mut buffer);
        assert_eq!(read, Err((15, 0)));
        assert!(buffer.iter().all(|&byte| byte == 0));
    }
    // A store that is only read may have any length.
    let mut buffer = vec![0xEE; SUPPLEMENT_BYTES];
    for more in [0, 1, 3] {
        let mut store = Draft::pool().bytes();
        store.resize(store.len() + more, 0);
        assert_eq!(read_supplement(&store, b"AF0304A92A\n", &mut buffer), Ok(5));
    }
}

#[test]
fn lines_1_2_and_3() {
    let fine = "AF0304A92A\n";
    assert_eq!(pool(fine), Ok(5));
    for line in [
        "AF0304A92A",
        "af0304A92A\n",
        "AF0304A92\n",
        "\n",
        "AF0304A92A\r\n",
        "x\n",
    ] {
        assert_eq!(pool(line), Err((1, 1)), "{line}");
        assert_eq!(pool(&format!("{fine}{line}")), Err((1, 2)), "{line}");
    }
    // 2 before 3; a count over 120 with its bytes.
    let long = format!("AF79{}\n", "04A9".repeat(60) + "2A");
    for line in [
        "AF\n",
        "A9\n",
        "A9012A2A\n",
        "AF0404A92A\n",
        "AF0204A92A\n",
        &long,
    ] {
        assert_eq!(pool(line), Err((2, 1)), "{line}");
    }
    // 3 before 4 and 20: any kind but AF.
    for kind in (0..=255u8).filter(|&kind| kind != 0xAF) {
        for payload in ["00", "0304A92A", "03FFA92A", "0300A501"] {
            assert_eq!(pool(&format!("{kind:02X}{payload}\n")), Err((3, 1)));
        }
    }
}

#[test]
fn a_payload_under_3_bytes_is_4_and_not_20() {
    // No law 255, no kind FF, a law given before: none of it is looked at.
    for line in [
        "AF00\n",
        "AF01FF\n",
        "AF0104\n",
        "AF02FFFF\n",
        "AF0204A9\n",
        "AF0200A5\n",
    ] {
        assert_eq!(pool(line), Err((4, 1)), "{line}");
        assert_eq!(pool(&format!("AF0304A92A\n{line}")), Err((4, 2)), "{line}");
    }
}

#[test]
fn every_cause_of_20() {
    // A law number not in the domain.
    for number in 5..=255u8 {
        assert_eq!(pool(&format!("AF03{number:02X}A92A\n")), Err((20, 1)));
    }
    // Another kind, a law's or not.
    for kind in (0..=255u8).filter(|&kind| kind != 0xA9) {
        assert_eq!(pool(&format!("AF0304{kind:02X}2A\n")), Err((20, 1)));
    }
    for kind in (0..=255u8).filter(|&kind| kind != 0xA5) {
        assert_eq!(pool(&format!("AF0400{kind:02X}002A\n")), Err((20, 1)));
    }
    // Another entry, there or not.
    for entry in 1..=255u8 {
        assert_eq!(pool(&format!("AF0400A5{entry:02X}2A\n")), Err((20, 1)));
        assert_eq!(
            pool(&format!("AF0802A6{entry:02X}2A00100000\n")),
            Err((20, 1))
        );
    }
    assert_eq!(pool("AF0400A5002A\n"), Ok(6));
    assert_eq!(pool("AF0802A6002A00100000\n"), Ok(10));
    // Given before, by the same line, another law or a bad one.
    for again in ["AF0304A92A\n", "AF0404A9282A\n", "AF0304A9FF\n"] {
        assert_eq!(pool(&format!("AF0304A92A\n{again}")), Err((20, 2)));
        assert_eq!(
            pool(&format!("AF0304A92A\nAF0400A5002A\n{again}")),
            Err((20, 3))
        );
    }
}

#[test]
fn the_rest_of_the_law_is_4_after_20() {
    // Of three bytes the last is the entry; nothing is left for a constraint.
    assert_eq!(pool("AF0300A500\n"), Err((4, 1)));
    assert_eq!(pool("AF0300A501\n"), Err((20, 1)));
    assert_eq!(pool("AF0302A600\n"), Err((4, 1)));
    assert_eq!(pool("AF0302A601\n"), Err((20, 1)));
    // Code, length, fluent, entry, lag.
    let laws = [
        "04A9FF",
        "04A92A2A",
        "04A920",
        "00A5002F",
        "00A500290200",
        "00A500290040",
    ];
    for law in laws {
        let line = format!("AF{:02X}{law}\n", law.len() / 2);
        assert_eq!(pool(&line), Err((4, 1)), "{line}");
        let other = line.replacen("04A9", "05A9", 1).replacen("00A5", "01A5", 1);
        assert_eq!(pool(&other), Err((20, 1)), "{other}");
    }
    for (fluent, answer) in [(0, Ok(10)), (1, Err((4, 1))), (255, Err((4, 1)))] {
        assert_eq!(pool(&format!("AF0802A6002A{fluent:02X}100000\n")), answer);
    }
    // Depth 16 and 17; the domain accepts as much.
    for (depth, answer) in [(16, true), (17, false)] {
        let law = frame(0xA9, &wrapped(0x28, depth - 1, &[0x2A]));
        let read = read_frames(&Draft::pool(), &[replacement(4, &law)]);
        assert_eq!(read.is_ok(), answer);
    }
}

#[test]
fn occurrences_only_where_the_kind_allows_them() {
    let draft = Draft::of_each_kind();
    let lines = [(0, vec![0, 0x29, 0, 0]), (3, vec![0x29, 0, 0])];
    for (number, payload) in lines {
        let law = frame(draft.law(number)[0], &payload);
        assert!(read_frames(&draft, &[replacement(number, &law)]).is_ok());
    }
    for number in [2, 4] {
        let kind = draft.law(number)[0];
        for constraint in [vec![0x29, 0, 0], vec![0x28, 0x29, 0, 1]] {
            let law = frame(kind, &constraint);
            assert_eq!(
                read_frames(&draft, &[replacement(number, &law)]),
                Err((4, 1))
            );
        }
    }
}

#[test]
fn each_kind_replaced() {
    let draft = Draft::of_each_kind();
    assert_eq!(verdict(&draft, &[], &[1]), (Verdict::Accepted, 2));
    let never = [0x28, 0x2A];
    let cases = [
        (frame(0xA5, &[0, 0x28, 0x2A]), (broken(2, 1, 0), 1)),
        (
            law(0xA6, &[&[0, 0x2A, 0], &constant(10)]),
            (broken(5, 1, 0), 1),
        ),
        (frame(0xA7, &never), (broken(6, 0, 2), 0)),
        (frame(0xA8, &never), (broken(3, 1, 3), 1)),
        (frame(0xA9, &never), (broken(8, 1, 4), 2)),
    ];
    for (number, (law, expected)) in cases.iter().enumerate() {
        let supplement = [replacement(number, law)];
        assert!(read_frames(&draft, &supplement).is_ok());
        assert_eq!(verdict(&draft, &supplement, &[1]), *expected);
    }
    // The effect's value, seen in the levels.
    let seven = replacement(1, &law(0xA6, &[&[0, 0x2A, 0], &constant(7)]));
    let (_, levels) = judged(&draft, &seven, &[1, 1]);
    assert_eq!(levels[..4], [5, 7, 7, -777]);
}

#[test]
fn what_a_crew_knows_is_asked_of_the_law_in_force() {
    // Nobody knows the fluent.
    let draft = Draft::new(1, &[[0, 9, 5]], &[(1, 1)]).free();
    let about = law(0xA5, &[&[0], &node(0x20, &[&[0x11, 0, 0], &constant(5)])]);
    let supplement = [replacement(0, &about)];
    assert_eq!(verdict(&draft, &supplement, &[1]), (broken(2, 1, 0), 1));
    let unknown = draft.clone().with_law(0, &about);
    let free = [replacement(0, draft.law(0))];
    assert_eq!(verdict(&unknown, &[], &[1]), (broken(2, 1, 0), 1));
    assert_eq!(verdict(&unknown, &free, &[1]), (Verdict::Accepted, 2));
}

/// A random law that may stand in for the one with this number, or a long one.
fn another(r: &mut Random, draft: &Draft, number: usize) -> Vec<u8> {
    let own = draft.law(number);
    match r.one_in(4) {
        true => sized(r, draft, own[0], own[2], LONGEST_LAW),
        false => stand_in(r, draft, number),
    }
}

#[test]
fn judging_under_is_judging_the_domain_with_the_laws_replaced() {
    let mut r = Random::seeded(32);
    let mut differ = 0;
    for _ in 0..2_000 {
        let draft = Draft::random(&mut r);
        let mut replaced = draft.clone();
        let mut frames = Vec::new();
        for number in (0..draft.laws()).rev() {
            if r.one_in(3) {
                let law = another(&mut r, &draft, number);
                replaced = replaced.with_law(number, &law);
                frames.push(replacement(number, &law));
            }
        }
        let sheet = sheets::sheet(&mut r, &replaced);
        let bytes = read_frames(&draft, &frames).expect("a supplement");
        let alone = judged_alone(&replaced, &sheet);
        assert!(judged(&draft, &bytes, &sheet) == alone);
        differ += (judged_alone(&draft, &sheet) != alone) as usize;
    }
    assert!(differ > 200, "{differ}");
}

#[test]
fn a_long_law_is_replaced_by_one_of_118_bytes() {
    let mut r = Random::seeded(33);
    for kind in 0xA5..=0xA9 {
        for size in [118, 119, 120] {
            let mut draft = Draft::of_each_kind();
            let number = usize::from(kind - 0xA5);
            let long = sized(&mut r, &draft, kind, 0, size);
            draft = draft.with_law(number, &long);
            for size in [16, 117, 118] {
                let law = sized(&mut r, &draft, kind, 0, size);
                let frames = [replacement(number, &law)];
                let bytes = read_frames(&draft, &frames).expect("a supplement");
                assert_eq!(bytes.len(), 4 + size);
                let replaced = draft.clone().with_law(number, &law);
                let expected = judged_alone(&replaced, &[1, 0, 1]);
                assert!(judged(&draft, &bytes, &[1, 0, 1]) == expected);
            }
            // Longer ones do not fit a line.
            let frames = [replacement(number, &sized(&mut r, &draft, kind, 0, 119))];
            assert_eq!(read_frames(&draft, &frames), Err((2, 1)));
        }
    }
}

#[test]
fn the_longest_supplement() {
    let mut r = Random::seeded(34);
    let (draft, mut frames) = longest_of_both(&mut r);
    let bytes = read_frames(&draft, &frames).expect("a supplement");
    assert_eq!(bytes.len(), 128 * 122);
    assert!(bytes.len() <= SUPPLEMENT_BYTES);
    let replaced = draft.clone().replaced_by(&frames);
    let sheet = vec![0; 16 * 64];
    assert!(judged(&draft, &bytes, &sheet) == judged_alone(&replaced, &sheet));
    frames.push(frames[0].clone());
    assert_eq!(read_frames(&draft, &frames), Err((20, 129)));
}

#[test]
fn refusals_by_their_lines() {
    let mut r = Random::seeded(35);
    let (draft, frames) = longest_of_both(&mut r);
    let faulty: [(u8, &[u8]); 6] = [
        (1, b"AF0\n"),
        (2, b"AF0100A5\n"),
        (3, b"A9012A\n"),
        (4, b"AF02FFFF\n"),
        (20, b"AF0380A92A\n"),
        (20, b"AF0300A92A\n"),
    ];
    for (number, line) in faulty {
        for place in [0, 1, 63, 127, 128] {
            let mut text = text_of(&frames[..place]);
            text.extend(line);
            text.extend(text_of(&frames[place..]));
            assert_eq!(read(&draft, &text), Err((number, place + 1)));
        }
    }
}

#[test]
fn judging_in_order() {
    let (draft, free) = (Draft::pool(), frame(0xAF, &[4, 0xA9, 0x2A]));
    let store = draft.store();
    let mut levels = vec![5; LEVELS];
    let short = &mut levels[1..];
    assert_eq!(judge_under(&[1], &[1], &[0], short), Err(10));
    assert_eq!(judge_under(&store[1..], &free, &[0], &mut levels), Err(15));
    assert_eq!(judge_under(&store, &free[1..], &[0], &mut levels), Err(15));
    assert_eq!(judge_under(&store, &free, &[0; 131], &mut levels), Err(8));
    assert_eq!(judge_under(&store, &free, &[0; 130], &mut levels), Err(9));
    assert!(levels.iter().all(|&level| level == 5));
    assert!(judge_under(&store, &free, &[0; 128], &mut levels).is_ok());
    assert_eq!(levels[64..67], [300, 5, 5]);
}

/// What judging and asking say of a supplement's store.
fn accepted(draft: &Draft, supplement: &[u8]) -> bool {
    let store = draft.bytes();
    let judged = judge_under(&store, supplement, &[], &mut [0; LEVELS]);
    let asked = law_in_force(&store, supplement, 0);
    assert_eq!(judged.err(), asked.err());
    assert!(matches!(asked, Ok(_) | Err(15)));
    asked.is_ok()
}

#[test]
fn supplement_stores_of_any_length() {
    let (draft, free) = (Draft::pool(), frame(0xAF, &[4, 0xA9, 0x2A]));
    for more in [0, 1, 2, 3, 255, 256, 257, SUPPLEMENT_BYTES, 70_001] {
        let mut store = free.clone();
        store.resize(store.len() + more, 0);
        assert!(accepted(&draft, &store));
        for place in free.len()..store.len().min(free.len() + 4) {
            let mut store = store.clone();
            store[place] = 1;
            assert!(!accepted(&draft, &store));
        }
        store.push(1);
        assert!(!accepted(&draft, &store));
        assert!(!accepted(&draft, &store[1..]));
    }
    for cut in 1..free.len() {
        assert!(!accepted(&draft, &free[..cut]));
    }
    // Zeros before it, a domain's frames, a supplement of another domain.
    assert!(!accepted(&draft, &[&[0], &free[..]].concat()));
    assert!(!accepted(&draft, &draft.bytes()));
    assert!(!accepted(
        &Draft::of_each_kind(),
        &frame(0xAF, &[4, 0xA8, 0x2A])
    ));
    assert!(accepted(&Draft::of_each_kind(), &free));
    let other = replacement(1, draft.law(1));
    assert!(accepted(&draft, &other) && !accepted(&Draft::of_each_kind(), &other));
}

#[test]
fn a_store_is_accepted_exactly_if_its_lines_are() {
    let mut r = Random::seeded(36);
    let (mut yes, mut no) = (0, 0);
    for _ in 0..3_000 {
        let draft = Draft::random(&mut r);
        let number = r.below(draft.laws());
        let mut frames = vec![replacement(number, &another(&mut r, &draft, number))];
        let next = (number + 1) % draft.laws();
        frames.push(replacement(next, &another(&mut r, &draft, next)));
        let which = r.below(2);
        let place = r.from_to(2, frames[which].len() - 1);
        frames[which][place] = r.likely_bytes(1)[0];
        let read = read_frames(&draft, &frames);
        assert_eq!(accepted(&draft, &frames.concat()), read.is_ok());
        yes += read.is_ok() as usize;
        no += read.is_err() as usize;
    }
    assert!(yes > 100 && no > 100, "{yes}, {no}");
}

/// The payload that is handed out, and whether it stands in the supplement.
fn asked<'a>(store: &'a [u8], supplement: &'a [u8], number: usize) -> Option<(bool, &'a [u8])> {
    match law_in_force(store, supplement, number) {
        Ok(LawInForce {
            replaced,
            place,
            size,
        }) => {
            let from = if replaced { supplement } else { store };
            Some((replaced, &from[place..][..size]))
        }
        Err(number) => {
            assert_eq!(number, 20);
            None
        }
    }
}

#[test]
fn the_law_in_force_is_the_bytes_where_they_stand() {
    // Agents, fluent, knowledge and two entries take 26 bytes, then come laws.
    let store = Draft::pool().store();
    let supplement = [
        frame(0xAF, &[4, 0xA9, 0x2A]),
        frame(0xAF, &[0, 0xA5, 0, 0x2A]),
    ]
    .concat();
    let at = |replaced, place, size| {
        Ok(LawInForce {
            replaced,
            place,
            size,
        })
    };
    assert_eq!(law_in_force(&store, &[], 0), at(false, 28, 8));
    assert_eq!(law_in_force(&store, &[0; 3], 4), at(false, 72, 7));
    assert_eq!(law_in_force(&store, &supplement, 0), at(true, 9, 2));
    assert_eq!(law_in_force(&store, &supplement, 1), at(false, 38, 8));
    assert_eq!(law_in_force(&store, &supplement, 2), at(false, 48, 10));
    assert_eq!(law_in_force(&store, &supplement, 3), at(false, 60, 10));
    assert_eq!(law_in_force(&store, &supplement, 4), at(true, 4, 1));
    // Equal bytes, but of the supplement.
    let same = replacement(1, Draft::pool().law(1));
    assert_eq!(law_in_force(&store, &same, 1), at(true, 4, 8));
}

#[test]
fn every_law_number() {
    let mut r = Random::seeded(37);
    let beyond = [
        256,
        257,
        1 << 16,
        1 << 32,
        (1 << 32) + 1,
        1 << 63,
        usize::MAX,
    ];
    for _ in 0..60 {
        let draft = Draft::random(&mut r);
        let replaced: Vec<_> = (0..draft.laws()).filter(|_| r.one_in(2)).collect();
        let laws = replaced
            .iter()
            .map(|&n| replacement(n, &another(&mut r, &draft, n)));
        let mut frames: Vec<_> = laws.collect();
        frames.reverse();
        let (store, supplement) = (draft.store(), frames.concat());
        for number in (0..256).chain(beyond) {
            let expected = match frames.iter().find(|frame| usize::from(frame[2]) == number) {
                Some(frame) => Some((true, &frame[4..])),
                None if number < draft.laws() => Some((false, &draft.law(number)[2..])),
                None => None,
            };
            assert_eq!(asked(&store, &supplement, number), expected);
        }
    }
}

#[test]
fn asking_gives_15_before_20() {
    let (store, free) = (Draft::pool().store(), frame(0xAF, &[4, 0xA9, 0x2A]));
    for number in [0, 4, 5, 255, usize::MAX] {
        assert_eq!(law_in_force(&store[1..], &free, number), Err(15));
        assert_eq!(law_in_force(&[], &[], number), Err(15));
        assert_eq!(law_in_force(&store, &free[1..], number), Err(15));
        let twice = [&free[..], &free[..]].concat();
        assert_eq!(law_in_force(&store, &twice, number), Err(15));
    }
    assert_eq!(law_in_force(&store, &free, 5), Err(20));
}

#[test]
fn written_as_lines_and_read_again_it_is_the_same_bytes() {
    let mut r = Random::seeded(38);
    for _ in 0..200 {
        let draft = Draft::random(&mut r);
        let laws = (0..draft.laws()).map(|n| replacement(n, &another(&mut r, &draft, n)));
        let text = text_of(&laws.collect::<Vec<_>>());
        let bytes = read(&draft, &text).expect("a supplement");
        let (mut again, mut place, mut length) = (vec![0; text.len()], 0, 0);
        while let Some(frame) = frame_at(&bytes, place) {
            length += write_line(frame[0], &frame[2..], &mut again[length..]);
            place += frame.len();
        }
        assert_eq!((place, &again), (bytes.len(), &text));
        assert_eq!(read(&draft, &again), Ok(bytes));
    }
}

fn low_water(input: &str) -> String {
    String::from_utf8(Program::LowWater.run(input.as_bytes())).expect("text")
}

fn p() -> String {
    String::from_utf8(Draft::pool().text()).expect("text")
}

#[test]
fn the_program_judges_under_the_supplement() {
    let (p, sheet) = (p(), "B1020100\nB1020002\n");
    let less = "AF0C02A6002A001311000010000A\n";
    let goal = "AF0904A92511000010012C\n";
    let input = format!("{p}{sheet}");
    assert_eq!(low_water(&input), "S 0 300\nS 1 286\nS 2 280\nACCEPTED\n");
    let input = format!("{p}{less}{sheet}");
    assert_eq!(low_water(&input), "S 0 300\nS 1 290\nS 2 284\nACCEPTED\n");
    let input = format!("{p}{goal}{less}{sheet}");
    assert_eq!(
        low_water(&input),
        "S 0 300\nS 1 290\nS 2 284\nBROKEN 8 2 4\n"
    );
    // Without a sheet, and as the other program takes it.
    assert_eq!(low_water(&format!("{p}{less}")), "S 0 300\nACCEPTED\n");
    let other = Program::Waroth.run(format!("{p}{less}{sheet}").as_bytes());
    assert_eq!(other, b"REFUSED 3 11\n");
}

#[test]
fn without_af_lines_the_programs_are_one() {
    let mut r = Random::seeded(39);
    for _ in 0..300 {
        let draft = Draft::random(&mut r);
        let mut input = draft.text();
        let sheet = sheets::sheet(&mut r, &draft);
        input.extend(sheet_text(&sheet, draft.agents));
        assert_eq!(Program::LowWater.run(&input), Program::Waroth.run(&input));
    }
}

#[test]
fn the_programs_refusals_in_order() {
    let (p, less) = (p(), "AF0C02A6002A001311000010000A\n");
    let (bad_p, bad_af, bad_b1) = (p.replace("A10102", "A10100"), "AF00\n", "B100\n");
    // The domain's, the supplement's, the sheet's, by the input's lines.
    let refused = |input: String| low_water(&input);
    assert_eq!(refused(format!("{bad_p}{bad_af}{bad_b1}")), "REFUSED 4 1\n");
    assert_eq!(refused(format!("{p}{bad_af}{bad_b1}")), "REFUSED 4 11\n");
    assert_eq!(
        refused(format!("{p}{less}{bad_af}{bad_b1}")),
        "REFUSED 4 12\n"
    );
    assert_eq!(
        refused(format!("{p}{less}{less}{bad_b1}")),
        "REFUSED 20 12\n"
    );
    assert_eq!(refused(format!("{p}{less}{bad_b1}")), "REFUSED 8 12\n");
    assert_eq!(refused(format!("{p}{bad_b1}")), "REFUSED 8 11\n");
    // 7 has the count of the domain's lines, whatever follows.
    assert_eq!(refused(String::new()), "REFUSED 7 0\n");
    assert_eq!(refused(format!("{less}{bad_b1}")), "REFUSED 7 0\n");
    assert_eq!(
        refused(format!("A10102\n{bad_af}{bad_b1}")),
        "REFUSED 7 1\n"
    );
    // A domain's line behind the first AF line is the supplement's; an AF line
    // behind the first B1 line is the sheet's.
    assert_eq!(refused(format!("{p}{less}A9012A\n")), "REFUSED 3 12\n");
    assert_eq!(refused(format!("{p}B1020000\n{less}")), "REFUSED 3 12\n");
    assert_eq!(refused(format!("B1020000\n{less}{p}")), "REFUSED 7 0\n");
    // A line that does not start with "AF" is the domain's.
    assert_eq!(
        refused(format!("{p}{}", less.to_lowercase())),
        "REFUSED 1 11\n"
    );
    assert_eq!(refused(format!("{p}AF")), "REFUSED 1 11\n");
    assert_eq!(refused(format!("{p}{less}AF")), "REFUSED 1 12\n");
    assert_eq!(refused(format!("{p}{less}B1")), "REFUSED 1 12\n");
}

#[test]
fn the_programs_longest_input() {
    for start in ["", "AF", "B1", &p()] {
        let lines = start.lines().count();
        let fill = |size: usize| format!("{start}{}", "\n".repeat(size - start.len()));
        assert_eq!(low_water(&fill(60_001)), "REFUSED 18 0\n");
        let refused = match start {
            "AF" | "B1" => "REFUSED 7 0\n".to_string(),
            _ => format!("REFUSED 1 {}\n", lines + 1),
        };
        assert_eq!(low_water(&fill(60_000)), refused);
    }
    // Each part as long as it may be.
    let mut r = Random::seeded(40);
    let (draft, frames) = longest_of_both(&mut r);
    let sheet = sheet_text(&[0; 1024], 16);
    let input = [draft.text(), text_of(&frames), sheet].concat();
    assert!(input.len() > 60_000);
    assert_eq!(Program::LowWater.run(&input), b"REFUSED 18 0\n");
}

#[test]
fn the_programs_output_is_lent() {
    let input = [p().as_bytes(), b"AF0304A92A\nB1020100\n"].concat();
    let mut output = vec![b'?'; OUTPUT_BYTES + 1];
    let short = &mut output[..OUTPUT_BYTES - 1];
    assert_eq!(Program::LowWater.answer(&input, short), 0);
    assert!(output.iter().all(|&byte| byte == b'?'));
    let printed = b"S 0 300\nS 1 286\nACCEPTED\n";
    assert_eq!(Program::LowWater.answer(&input, &mut output), printed.len());
    assert_eq!(output[..printed.len()], printed[..]);
    assert!(output[printed.len()..].iter().all(|&byte| byte == b'?'));
}
