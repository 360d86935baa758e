//! Each refusal's order, the edges of the limits, and what buffers hold after.

use waroth_reference::generate::changing_fast;
use waroth_reference::generate::codes;
use waroth_reference::generate::draft::{frame, mask_frame, text_of, Draft};
use waroth_reference::generate::faults::LINE_FAULTS;
use waroth_reference::generate::random::Random;
use waroth_reference::generate::texts::ORDER_FAULTS;
use waroth_reference::judge::{judge, LEVELS};
use waroth_reference::store::{frame_at, STORE_BYTES};
use waroth_reference::supplement::{read_supplement, SUPPLEMENT_BYTES};
use waroth_reference::{accepted, read_domain, read_sheet, write_domain, write_sheet, FrameReader};

fn domain(text: &[u8]) -> Result<usize, (u8, usize)> {
    let mut store = vec![0xEE; STORE_BYTES + 5];
    let read = read_domain(text, &mut store);
    match read {
        Ok(used) => {
            assert!(accepted(&store));
            assert!(store[used..].iter().all(|&byte| byte == 0));
        }
        Err(_) => assert!(store.iter().all(|&byte| byte == 0)),
    }
    read
}

fn sheet(text: &str, agents: usize) -> Result<usize, (u8, usize)> {
    let mut buffer = vec![0xEE; 1030];
    let read = read_sheet(text.as_bytes(), agents, &mut buffer);
    let used = read.map_or(0, |steps| steps * agents);
    assert!(buffer[used..].iter().all(|&byte| byte == 0));
    read
}

#[test]
fn every_line_fault_has_its_number() {
    let mut r = Random::seeded(7);
    for (label, number, lines) in LINE_FAULTS.iter().chain(ORDER_FAULTS) {
        for _ in 0..20 {
            let lines = lines(&mut r);
            let met = domain(&text_of(&lines)).map_or_else(|(met, _)| met, |_| 0);
            assert_eq!(met, *number, "{label}");
        }
    }
    let lines = changing_fast::lines().into_iter();
    for (label, number, line) in lines.chain(changing_fast::numbered_lines()) {
        for _ in 0..20 {
            let lines = line.in_domain(&mut r);
            let met = domain(&text_of(&lines)).map_or_else(|(met, _)| met, |_| 0);
            assert_eq!(met, number, "{label}");
        }
    }
}

/// What a first line of one step comes to, character after character.
fn one_step(text: &[u8], agents: usize) -> Result<Vec<u8>, u8> {
    let line = text
        .split(|&character| character == b'\n')
        .next()
        .unwrap_or_default();
    let digit = |&character: &u8| match character {
        b'0'..=b'9' => Ok(character - b'0'),
        b'A'..=b'F' => Ok(character - b'A' + 10),
        _ => Err(1),
    };
    let digits: Vec<u8> = line.iter().map(digit).collect::<Result<_, _>>()?;
    if digits.len() % 2 == 1 {
        return Err(1);
    }
    let bytes: Vec<u8> = digits
        .chunks(2)
        .map(|pair| pair[0] << 4 | pair[1])
        .collect();
    match bytes.len() == 2 + agents {
        true => Ok(bytes[2..].to_vec()),
        false => Err(2),
    }
}

#[test]
fn every_part_of_a_law_has_its_number_in_every_spot() {
    let mut r = Random::seeded(8);
    for (label, number, part) in codes::parts() {
        for (spot_label, spot) in part.spots() {
            for _ in 0..4 {
                let lines = part.in_domain(&mut r, spot);
                let met = domain(&text_of(&lines)).map_or_else(|(met, _)| met, |_| 0);
                assert_eq!(met, number, "{label}, {spot_label}");
                let (draft, lines) = part.in_supplement(&mut r, spot);
                let mut buffer = vec![0xEE; SUPPLEMENT_BYTES];
                let read = read_supplement(&draft.store(), &text_of(&lines), &mut buffer);
                let met = read.map_or_else(|(met, _)| met, |_| 0);
                assert_eq!(met, number, "supplement: {label}, {spot_label}");
            }
        }
    }
}

#[test]
fn every_pair_of_characters() {
    // Long lines and short ones are read in different ways.
    for (agents, place) in [(3, 0), (3, 2), (16, 0), (16, 15)] {
        let mut text = format!("B1{agents:02X}{}\n", "5A".repeat(agents)).into_bytes();
        for pair in 0..=u16::MAX {
            text[4 + 2 * place..][..2].copy_from_slice(&pair.to_be_bytes());
            let mut buffer = [0xEE; 1024];
            let read = read_sheet(&text, agents, &mut buffer);
            let names = read.map(|_| buffer[..agents].to_vec());
            let expected = one_step(&text, agents).map_err(|number| (number, 1));
            assert_eq!(names, expected, "{pair:04X} at {place} of {agents}");
        }
    }
}

#[test]
fn two_faults_in_one_line() {
    // 1 before 2: a bad character in a line without count byte.
    assert_eq!(domain(b"A1x\n"), Err((1, 1)));
    assert_eq!(domain(b"A1"), Err((1, 1)));
    // An overlong line is read to its end.
    let overlong = format!("A1FF{}g\n", "00".repeat(300));
    assert_eq!(domain(overlong.as_bytes()), Err((1, 1)));
    // A line ends at its first LF, also where its count asks for a later one.
    assert_eq!(domain(b"A104\nA101011\n"), Err((2, 1)));
    assert_eq!(domain(b"A104x\nA10101\n"), Err((1, 1)));
    assert_eq!(sheet("B103\n00010\n", 3), Err((2, 1)));
    // 2 before 3.
    assert_eq!(domain(b"FF\n"), Err((2, 1)));
    assert_eq!(domain(b"FF0200\n"), Err((2, 1)));
    // 3 before 5 and 4.
    assert_eq!(domain(b"A10101\nA206000000010000\nA10100\n"), Err((3, 3)));
    // 5 before 4.
    assert_eq!(domain(b"A10101\nA10100\n"), Err((5, 2)));
    // 4 before 6.
    let draft = Draft::new(1, &[[0, 1, 0]], &[(1, 1)]);
    let mut lines = draft.frames.clone();
    lines.push(frame(0xA4, &[1, 0, 1, 0]));
    assert_eq!(domain(&text_of(&lines)), Err((4, 4)));
    lines[3] = mask_frame(0xA4, 1, 1);
    assert_eq!(domain(&text_of(&lines)), Err((6, 4)));
    // An earlier line goes first, and 7 comes last.
    assert_eq!(domain(b"A10111\nx"), Err((4, 1)));
    assert_eq!(domain(b"A10101\n"), Err((7, 1)));
    assert_eq!(domain(b"A10101\n\n"), Err((1, 2)));
}

#[test]
fn unknown_agents_without_a1() {
    assert_eq!(domain(b"A206000000010000\nA303000001\n"), Err((4, 2)));
    assert_eq!(domain(b"A403010001\n"), Err((4, 1)));
    assert_eq!(domain(b"A206000000010000\n"), Err((7, 1)));
}

#[test]
fn sheet_reader() {
    assert_eq!(sheet("B1020100\nB1020002\n", 2), Ok(2));
    assert_eq!(sheet("x", 0), Err((4, 0)));
    assert_eq!(sheet("x", 17), Err((4, 0)));
    assert_eq!(sheet("", 16), Ok(0));
    assert_eq!(sheet("B1\r\n", 1), Err((1, 1)));
    assert_eq!(sheet("B2\n", 1), Err((2, 1)));
    assert_eq!(sheet("B2020000\n", 1), Err((3, 1)));
    assert_eq!(sheet("B1020000\n", 1), Err((8, 1)));
    assert_eq!(sheet("B100\n", 1), Err((8, 1)));
    let full = "B10101\n".repeat(64);
    assert_eq!(sheet(&full, 1), Ok(64));
    assert_eq!(sheet(&format!("{full}B10101\n"), 1), Err((9, 65)));
    assert_eq!(sheet(&format!("{full}B1020101\n"), 1), Err((9, 65)));
    assert_eq!(sheet(&format!("{full}A10101\n"), 1), Err((3, 65)));
    assert_eq!(sheet(&format!("{full}A1\n"), 1), Err((2, 65)));
    assert_eq!(sheet(&format!("{full}\n"), 1), Err((1, 65)));
}

#[test]
fn short_buffers_keep_their_bytes() {
    let mut store = vec![0xEE; STORE_BYTES - 1];
    assert_eq!(read_domain(b"x", &mut store), Err((10, 0)));
    assert!(store.iter().all(|&byte| byte == 0xEE));
    let mut buffer = vec![0xEE; 1023];
    assert_eq!(read_sheet(b"x", 0, &mut buffer), Err((10, 0)));
    assert!(buffer.iter().all(|&byte| byte == 0xEE));
    let mut levels = vec![5; LEVELS - 1];
    assert_eq!(judge(&[], &[1], &mut levels), Err(10));
    assert!(levels.iter().all(|&level| level == 5));
}

#[test]
fn judge_in_order() {
    let store = Draft::pool().store();
    let mut levels = vec![5; LEVELS];
    assert_eq!(judge(&store[..10], &[1; 3], &mut levels), Err(15));
    assert_eq!(judge(&store, &[0; 131], &mut levels), Err(8));
    assert_eq!(judge(&store, &[0; 130], &mut levels), Err(9));
    assert!(levels.iter().all(|&level| level == 5));
    assert!(judge(&store, &[0; 128], &mut levels).is_ok());
}

#[test]
fn writers_in_order() {
    let store = Draft::pool().store();
    let length = Draft::pool().text().len();
    let mut text = vec![0xEE; length + 9];
    assert_eq!(write_domain(&store[1..], &mut text), Err(15));
    assert_eq!(write_domain(&store, &mut text[..length - 1]), Err(10));
    assert!(text.iter().all(|&byte| byte == 0xEE));
    assert_eq!(write_domain(&store, &mut text[..length]), Ok(length));
    assert_eq!(text[length..], [0xEE; 9]);

    let mut text = vec![0xEE; 70 * 9];
    assert_eq!(write_sheet(&[0; 3], 0, &mut text), Err(4));
    assert_eq!(write_sheet(&[0; 3], 17, &mut text), Err(4));
    assert_eq!(write_sheet(&[0; 131], 2, &mut text), Err(8));
    assert_eq!(write_sheet(&[0; 130], 2, &mut []), Err(9));
    assert_eq!(write_sheet(&[0; 128], 2, &mut text[..575]), Err(10));
    assert!(text.iter().all(|&byte| byte == 0xEE));
    assert_eq!(write_sheet(&[0; 128], 2, &mut text), Ok(576));
    assert_eq!(text[576..], [0xEE; 54]);
    assert_eq!(write_sheet(&[], 2, &mut []), Ok(0));
}

#[test]
fn frames() {
    let draft = Draft::pool();
    let store = draft.store();
    let mut reader = FrameReader::start(&store).expect("accepted");
    for expected in &draft.frames {
        assert_eq!(reader.next(), Some(&expected[..]));
    }
    let place = reader.place();
    for _ in 0..3 {
        assert_eq!(reader.next(), None);
        assert_eq!(reader.place(), place);
    }
    assert_eq!(FrameReader::start(&[]).err(), Some(15));
    assert_eq!(FrameReader::over_nothing().next(), None);
    // A place in any bytes.
    assert_eq!(frame_at(&[1, 0], 0), Some(&[1, 0][..]));
    assert_eq!(frame_at(&[1], 0), None);
    assert_eq!(frame_at(&[0, 0], 0), None);
    assert_eq!(frame_at(&[1, 2, 3], 0), None);
    assert_eq!(frame_at(&[1; 200], 200), None);
    assert_eq!(frame_at(&[1; 200], usize::MAX), None);
    let mut long = vec![120; 200];
    assert_eq!(frame_at(&long, 3).map(<[u8]>::len), Some(122));
    long[4] = 121;
    assert_eq!(frame_at(&long, 3), None);
}

#[test]
fn stores_of_any_length() {
    let draft = Draft::pool();
    let mut store = draft.bytes();
    assert!(accepted(&store));
    store.push(0);
    assert!(accepted(&store));
    store.push(1);
    assert!(!accepted(&store));
    assert!(!accepted(&draft.bytes()[..draft.bytes().len() - 1]));
    assert!(!accepted(&[]));
    assert!(!accepted(&[0; 40_000]));
}
