//! Writing what was read gives the text again, and reading it the bytes.

use waroth_reference::generate::draft::{sheet_text, Draft};
use waroth_reference::generate::random::Random;
use waroth_reference::generate::shapes::longest;
use waroth_reference::generate::{run_reference, Coverage, Generator};
use waroth_reference::store::{self, STORE_BYTES};
use waroth_reference::{read_domain, read_sheet, sheet, write_domain, write_sheet};

#[test]
fn domains() {
    let mut r = Random::seeded(5);
    for _ in 0..400 {
        let draft = Draft::random(&mut r);
        let text = draft.text();
        let mut store = vec![1; STORE_BYTES];
        let used = read_domain(&text, &mut store).expect("accepted");
        assert_eq!(store[..used], draft.bytes());
        let mut again = vec![b'?'; text.len() + 1];
        assert_eq!(write_domain(&store, &mut again), Ok(text.len()));
        assert_eq!(again[..text.len()], text);
        assert_eq!(again[text.len()], b'?');
    }
}

#[test]
fn sheets() {
    let mut r = Random::seeded(6);
    for _ in 0..400 {
        let (agents, steps) = (r.from_to(1, 16), r.from_to(0, 64));
        let sheet = r.bytes(agents * steps);
        let text = sheet_text(&sheet, agents);
        let mut buffer = vec![1; 1024];
        assert_eq!(read_sheet(&text, agents, &mut buffer), Ok(steps));
        assert_eq!(buffer[..sheet.len()], sheet);
        let mut again = vec![b'?'; text.len() + 1];
        assert_eq!(write_sheet(&sheet, agents, &mut again), Ok(text.len()));
        assert_eq!(again[..text.len()], text);
    }
}

#[test]
fn the_longest_texts() {
    assert_eq!((store::LONGEST_TEXT, sheet::LONGEST_TEXT), (33_447, 2_368));
    let mut r = Random::seeded(9);
    for _ in 0..20 {
        let (domain, names) = (longest(&mut r).store(), r.bytes(1024));
        let mut text = vec![b'?'; 33_447];
        assert_eq!(write_domain(&domain, &mut text[..33_446]), Err(10));
        assert_eq!(write_domain(&domain, &mut text), Ok(33_447));
        assert_eq!(write_sheet(&names, 16, &mut text[..2_367]), Err(10));
        assert_eq!(write_sheet(&names, 16, &mut text[..2_368]), Ok(2_368));
    }
}

#[test]
fn the_generator_repeats_itself() {
    let outcomes = |seed| -> Vec<_> {
        let cases = Generator::seeded(seed).take(300);
        cases.map(|made| run_reference(&made.case)).collect()
    };
    assert!(outcomes(1) == outcomes(1));
    assert!(outcomes(1) != outcomes(2));
}

#[test]
fn the_generator_meets_everything() {
    let mut generator = Generator::seeded(4);
    let mut coverage = Coverage::of(generator.aims());
    for _ in 0..13_000 {
        let made = generator.next().expect("without end");
        let aim = made.aim.map(|aim| (aim, generator.aims()[aim].expect));
        coverage.count(&run_reference(&made.case), aim);
    }
    assert_eq!(coverage.complaints(), Vec::<String>::new());
}
