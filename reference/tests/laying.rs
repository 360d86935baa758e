//! Supplements on top of supplements: document 02, K8, sentence after sentence.

mod common;

use common::{judged, judged_alone, read, read_frames};
use waroth_reference::generate::draft::{frame, replacement, text_of, Draft};
use waroth_reference::generate::faults::Lines;
use waroth_reference::generate::random::Random;
use waroth_reference::generate::sheets;
use waroth_reference::generate::supplements::{
    longest_lines, longest_of_both, supplement, two, Meeting,
};
use waroth_reference::judge::{judge_under, Verdict, LEVELS};
use waroth_reference::line::MAX_FRAME;
use waroth_reference::store::frame_at;
use waroth_reference::supplement::SUPPLEMENT_BYTES;
use waroth_reference::{law_in_force, lay, read_domain, LawInForce};

/// The bytes used of one laid over the other; what is lent behind them is zero.
fn laid(draft: &Draft, lower: &[u8], upper: &[u8]) -> Vec<u8> {
    let mut result = vec![0xEE; SUPPLEMENT_BYTES + 5];
    let used = lay(&draft.store(), lower, upper, &mut result);
    let rest = result.split_off(used.expect("two supplements"));
    assert!(rest.iter().all(|&byte| byte == 0));
    result
}

/// The lines by law number, as they would be sorted by hand.
fn ordered(lines: &[Vec<u8>]) -> Vec<u8> {
    let mut lines = lines.to_vec();
    lines.sort_by_key(|line| line[2]);
    lines.concat()
}

/// The lower one's lines that the upper one has no other for, and the upper
/// one's.
fn of_either(lower: &Lines, upper: &Lines) -> Lines {
    let other = |line: &Vec<u8>| upper.iter().any(|above| above[2] == line[2]);
    let mut lines = lower.clone();
    lines.retain(|line| !other(line));
    lines.extend(upper.clone());
    lines
}

/// The frames of a supplement, one after another.
fn frames(mut supplement: &[u8]) -> Lines {
    let mut lines = Lines::new();
    while let Some(frame) = frame_at(supplement, 0) {
        lines.push(frame.to_vec());
        supplement = &supplement[frame.len()..];
    }
    lines
}

/// Two supplements for a domain, their numbers meeting in each way in turn.
fn pairs(seed: u64, count: usize) -> impl Iterator<Item = (Draft, [Lines; 2])> {
    let mut r = Random::seeded(seed);
    let meetings = [Meeting::Disjoint, Meeting::Overlapping, Meeting::Equal];
    (0..count).map(move |number| two(&mut r, meetings[number % 3]))
}

/// The pool's goal met always, and a goal that is never met.
const FREE_GOAL: &[u8] = &[0xAF, 3, 4, 0xA9, 0x2A];
const NO_GOAL: &[u8] = &[0xAF, 4, 4, 0xA9, 0x28, 0x2A];

#[test]
fn each_number_of_either_and_the_upper_one_wins() {
    let draft = Draft::pool();
    let first_crew = frame(0xAF, &[0, 0xA5, 0, 0x2A]);
    let less = replacement(2, &frame(0xA6, &[0, 0x2A, 0, 0x11, 0, 0]));
    let lower = [FREE_GOAL, &first_crew].concat();
    let upper = [NO_GOAL, &less].concat();
    let over = [&first_crew, &less, NO_GOAL].concat();
    assert_eq!(laid(&draft, &lower, &upper), over);
    let under = [&first_crew, &less, FREE_GOAL].concat();
    assert_eq!(laid(&draft, &upper, &lower), under);
}

#[test]
fn each_number_of_either_once_for_random_ones() {
    for (draft, [lower, upper]) in pairs(51, 1_500) {
        let expected = ordered(&of_either(&lower, &upper));
        assert_eq!(laid(&draft, &lower.concat(), &upper.concat()), expected);
    }
}

#[test]
fn the_result_rises_by_law_number() {
    for (draft, [lower, upper]) in pairs(52, 300) {
        let result = laid(&draft, &lower.concat(), &upper.concat());
        let lines = frames(&result);
        assert_eq!(lines.concat(), result);
        assert!(lines.windows(2).all(|pair| pair[0][2] < pair[1][2]));
    }
}

#[test]
fn zeros_after_to_the_end_of_a_longer_buffer() {
    let store = Draft::pool().store();
    for length in [16_000, 16_001, 16_255, 16_256, 32_000, 70_001] {
        for (lower, upper, used) in [
            (FREE_GOAL, NO_GOAL, 6),
            (NO_GOAL, FREE_GOAL, 5),
            (FREE_GOAL, &[], 5),
            (&[], &[], 0),
        ] {
            let mut result = vec![0xEE; length];
            assert_eq!(lay(&store, lower, upper, &mut result), Ok(used));
            let frames = if upper.is_empty() { lower } else { upper };
            assert_eq!(&result[..used], frames);
            assert!(result[used..].iter().all(|&byte| byte == 0));
        }
    }
}

#[test]
fn laying_three_gives_the_same_whichever_pair_is_first() {
    let mut r = Random::seeded(53);
    for _ in 0..1_500 {
        let draft = Draft::random(&mut r);
        let [a, b, c] = [(); 3].map(|()| supplement(&mut r, &draft).concat());
        let first = laid(&draft, &laid(&draft, &a, &b), &c);
        assert_eq!(laid(&draft, &a, &laid(&draft, &b, &c)), first);
    }
}

#[test]
fn a_result_is_handed_on_whole_or_as_its_bytes_used() {
    for (draft, [lower, upper]) in pairs(54, 100) {
        let (store, third) = (draft.store(), upper[..1].concat());
        let mut whole = vec![0xEE; SUPPLEMENT_BYTES];
        let used = lay(&store, &lower.concat(), &upper.concat(), &mut whole).expect("two");
        let below = laid(&draft, &whole, &third);
        assert_eq!(laid(&draft, &whole[..used], &third), below);
        let above = laid(&draft, &third, &whole);
        assert_eq!(laid(&draft, &third, &whole[..used]), above);
    }
}

/// Supplements of no frames.
fn empties() -> impl Iterator<Item = Vec<u8>> {
    let lengths = [0, 1, 2, 3, SUPPLEMENT_BYTES, SUPPLEMENT_BYTES + 1];
    lengths.into_iter().map(|length| vec![0; length])
}

#[test]
fn the_empty_one_over_or_under_another_only_orders_it() {
    let mut r = Random::seeded(55);
    for _ in 0..200 {
        let draft = Draft::random(&mut r);
        let lines = supplement(&mut r, &draft);
        let (bytes, in_order) = (lines.concat(), ordered(&lines));
        for empty in empties() {
            assert_eq!(laid(&draft, &bytes, &empty), in_order);
            assert_eq!(laid(&draft, &empty, &bytes), in_order);
            assert_eq!(laid(&draft, &empty, &empty), []);
        }
        // What is in order stays as it is.
        assert_eq!(laid(&draft, &in_order, &[]), in_order);
    }
}

#[test]
fn laid_over_itself_it_is_itself_in_order() {
    let mut r = Random::seeded(56);
    for _ in 0..500 {
        let draft = Draft::random(&mut r);
        let lines = supplement(&mut r, &draft);
        let bytes = lines.concat();
        assert_eq!(laid(&draft, &bytes, &bytes), ordered(&lines));
    }
}

#[test]
fn without_a_common_number_either_may_be_the_upper() {
    let mut r = Random::seeded(57);
    for _ in 0..500 {
        let (draft, [a, b]) = two(&mut r, Meeting::Disjoint);
        let (a, b) = (a.concat(), b.concat());
        assert_eq!(laid(&draft, &a, &b), laid(&draft, &b, &a));
    }
    // With one it matters, where their laws differ.
    let draft = Draft::pool();
    let over = laid(&draft, FREE_GOAL, NO_GOAL);
    assert_ne!(laid(&draft, NO_GOAL, FREE_GOAL), over);
}

#[test]
fn laid_again_under_or_over_one_of_the_two_it_stays() {
    for (draft, [lower, upper]) in pairs(58, 300) {
        let (lower, upper) = (lower.concat(), upper.concat());
        let result = laid(&draft, &lower, &upper);
        assert_eq!(laid(&draft, &result, &upper), result);
        assert_eq!(laid(&draft, &lower, &result), result);
    }
}

/// The payload of each law in force.
fn in_force(store: &[u8], supplement: &[u8], laws: usize) -> Vec<Vec<u8>> {
    let payload = |number| {
        let LawInForce {
            replaced,
            place,
            size,
        } = law_in_force(store, supplement, number).expect("a law");
        let from = if replaced { supplement } else { store };
        from[place..][..size].to_vec()
    };
    (0..laws).map(payload).collect()
}

#[test]
fn ordering_changes_no_law_in_force() {
    let mut r = Random::seeded(59);
    for _ in 0..300 {
        let draft = Draft::random(&mut r);
        let supplement = supplement(&mut r, &draft).concat();
        let in_order = laid(&draft, &supplement, &[]);
        let (store, laws) = (draft.store(), draft.laws());
        let own = in_force(&store, &supplement, laws);
        assert_eq!(in_force(&store, &in_order, laws), own);
        let sheet = sheets::sheet(&mut r, &draft);
        assert!(judged(&draft, &in_order, &sheet) == judged(&draft, &supplement, &sheet));
    }
}

#[test]
fn the_law_in_force_is_the_upper_ones_then_the_lower_ones_then_the_domains() {
    for (draft, [lower, upper]) in pairs(60, 300) {
        let result = laid(&draft, &lower.concat(), &upper.concat());
        let laws = in_force(&draft.store(), &result, draft.laws());
        for (number, law) in laws.iter().enumerate() {
            let of_number = |line: &&Vec<u8>| usize::from(line[2]) == number;
            let above = upper.iter().find(of_number);
            let line = above.or(lower.iter().find(of_number));
            let expected = line.map_or(&draft.law(number)[2..], |line| &line[4..]);
            assert_eq!(law, expected);
        }
    }
}

/// The domain that its text says, as the reader has it.
fn read_again(draft: Draft) -> Draft {
    let mut store = vec![0xEE; draft.store().len()];
    let used = read_domain(&draft.text(), &mut store);
    assert_eq!(used, Ok(draft.bytes().len()));
    assert!(store == draft.store());
    draft
}

#[test]
fn judging_under_it_is_judging_the_domain_replaced_by_the_lower_then_by_the_upper() {
    let mut r = Random::seeded(61);
    let mut differ = [0; 3];
    for (draft, [lower, upper]) in pairs(61, 1_500) {
        let by_lower = read_again(draft.clone().replaced_by(&lower));
        // Read against the replaced domain, the upper one is the same bytes.
        let above = read_frames(&by_lower, &upper).expect("a supplement");
        assert_eq!(above, upper.concat());
        let by_both = read_again(by_lower.clone().replaced_by(&upper));
        let sheet = sheets::sheet(&mut r, &by_both);
        let expected = judged_alone(&by_both, &sheet);
        let result = laid(&draft, &lower.concat(), &above);
        assert!(judged(&draft, &result, &sheet) == expected);
        assert!(judged(&by_lower, &above, &sheet) == expected);
        // Neither of the two alone, nor none, is judged like that each time.
        differ[0] += (judged_alone(&draft, &sheet) != expected) as usize;
        differ[1] += (judged_alone(&by_lower, &sheet) != expected) as usize;
        differ[2] += (judged(&draft, &above, &sheet) != expected) as usize;
    }
    assert!(differ.iter().all(|&times| times > 100), "{differ:?}");
}

#[test]
fn the_pool_under_two() {
    let draft = Draft::pool();
    let sheet = [1, 0, 1, 0];
    let verdict = |supplement: &[u8]| judged(&draft, supplement, &sheet).0.verdict;
    let missed = Verdict::Broken {
        kind: 8,
        step: 2,
        number: 4,
    };
    assert_eq!(verdict(&[]), missed);
    assert_eq!(
        verdict(&laid(&draft, NO_GOAL, FREE_GOAL)),
        Verdict::Accepted
    );
    assert_eq!(verdict(&laid(&draft, FREE_GOAL, NO_GOAL)), missed);
    // An upper one that gives the domain's own law again hides the lower one's.
    let own = replacement(4, draft.law(4));
    assert_eq!(laid(&draft, FREE_GOAL, &own), own);
    assert_eq!(verdict(&laid(&draft, FREE_GOAL, &own)), missed);
}

#[test]
fn the_domain_accepts_the_result() {
    for (draft, [lower, upper]) in pairs(62, 300) {
        let result = laid(&draft, &lower.concat(), &upper.concat());
        assert_eq!(read_frames(&draft, &frames(&result)), Ok(result));
    }
}

#[test]
fn the_replaced_domain_accepts_just_what_the_domain_accepts() {
    let mut r = Random::seeded(63);
    let (mut yes, mut no) = (0, 0);
    for (draft, [lower, upper]) in pairs(63, 1_500) {
        let replaced = read_again(draft.clone().replaced_by(&lower));
        let mut text = text_of(&upper);
        if r.one_in(2) {
            let place = r.below(text.len());
            text[place] = *r.pick(b"0123456789ABCDEF");
        }
        let answer = read(&draft, &text);
        assert_eq!(read(&replaced, &text), answer);
        yes += answer.is_ok() as usize;
        no += answer.is_err() as usize;
    }
    assert!(yes > 300 && no > 300, "{yes}, {no}");
}

/// Lays in a buffer of this length and holds that a refusal leaves it as it was.
fn refusal(store: &[u8], lower: &[u8], upper: &[u8], length: usize) -> Option<u8> {
    let mut result = vec![0xEE; length];
    let refused = lay(store, lower, upper, &mut result).err();
    let touched = result.iter().any(|&byte| byte != 0xEE);
    assert_eq!(refused.is_some() || length == 0, !touched);
    refused
}

#[test]
fn refusals_in_order_leave_the_result_untouched() {
    let store = Draft::pool().store();
    let stores = [&store[..], &store[1..], &[]];
    let supplements = [FREE_GOAL, &FREE_GOAL[1..], &FREE_GOAL[..4]];
    for (wrong, &store) in stores.iter().enumerate() {
        for (wrong_below, &lower) in supplements.iter().enumerate() {
            for (wrong_above, &upper) in supplements.iter().enumerate() {
                for length in [0, 1, 15_998, 15_999] {
                    assert_eq!(refusal(store, lower, upper, length), Some(10));
                }
                let fine = wrong + wrong_below + wrong_above == 0;
                for length in [16_000, 16_001, 40_000] {
                    let expected = if fine { None } else { Some(15) };
                    assert_eq!(refusal(store, lower, upper, length), expected);
                }
            }
        }
    }
}

#[test]
fn every_cause_of_15() {
    let draft = Draft::pool();
    let store = draft.store();
    let twice = [FREE_GOAL, FREE_GOAL].concat();
    let other_twice = [FREE_GOAL, NO_GOAL].concat();
    let bad: [&[u8]; 15] = [
        &twice,
        &other_twice,
        &[FREE_GOAL, &[0, 1]].concat(),
        &[FREE_GOAL, &[0; 300], &[1]].concat(),
        &[&[0], FREE_GOAL].concat(),
        &[1],
        &FREE_GOAL[..4],
        &draft.bytes(),
        // Kind, payload under 3 bytes, number, kind and entry of the law, code.
        &frame(0xA9, &[0x2A]),
        &frame(0xAF, &[4, 0xA9]),
        &frame(0xAF, &[5, 0xA9, 0x2A]),
        &frame(0xAF, &[4, 0xA8, 0x2A]),
        &frame(0xAF, &[0, 0xA5, 1, 0x2A]),
        &frame(0xAF, &[4, 0xA9, 0x2D]),
        // Of another domain, whose law 1 is an A6.
        &replacement(1, Draft::of_each_kind().law(1)),
    ];
    let good: [&[u8]; 4] = [&[], &[0; 7], FREE_GOAL, NO_GOAL];
    for bad in bad {
        for good in good {
            assert_eq!(refusal(&store, bad, good, SUPPLEMENT_BYTES), Some(15));
            assert_eq!(refusal(&store, good, bad, SUPPLEMENT_BYTES), Some(15));
            assert_eq!(refusal(&store, good, good, SUPPLEMENT_BYTES), None);
        }
        assert_eq!(refusal(&store, bad, bad, SUPPLEMENT_BYTES), Some(15));
    }
    // A domain's store: one byte after it, a frame cut off, a supplement.
    let mut more = store.clone();
    more.push(1);
    let bytes = draft.bytes();
    for bad in [&more, &bytes[..bytes.len() - 1], FREE_GOAL] {
        assert_eq!(refusal(bad, &[], &[], SUPPLEMENT_BYTES), Some(15));
    }
}

#[test]
fn stores_of_any_length_are_read() {
    let draft = Draft::pool();
    let lengths = [0, 1, 2, 255, 256, 257, SUPPLEMENT_BYTES, 70_001];
    let with_zeros = |bytes: &[u8], zeros| [bytes, &vec![0; zeros]].concat();
    for zeros in lengths {
        let store = with_zeros(&draft.bytes(), zeros);
        for others in lengths {
            let mut result = vec![0xEE; SUPPLEMENT_BYTES];
            let lower = with_zeros(FREE_GOAL, zeros);
            let upper = with_zeros(NO_GOAL, others);
            assert_eq!(lay(&store, &lower, &upper, &mut result), Ok(6));
            assert!(result.starts_with(NO_GOAL));
        }
    }
}

#[test]
fn the_longest() {
    let mut r = Random::seeded(64);
    let (draft, lower) = longest_of_both(&mut r);
    let upper = longest_lines(&mut r, &draft);
    let third = longest_lines(&mut r, &draft);
    for lines in [&lower, &upper, &third] {
        assert_eq!(lines.len(), 128);
        assert!(lines.iter().all(|line| line.len() == 4 + 118));
    }
    let [low, high, top] = [&lower, &upper, &third].map(|lines| lines.concat());
    assert_ne!(ordered(&lower), ordered(&upper));
    let result = laid(&draft, &low, &high);
    assert_eq!(result.len(), 128 * MAX_FRAME);
    assert_eq!(result, ordered(&upper));
    assert_eq!(laid(&draft, &high, &low), ordered(&lower));
    let both = laid(&draft, &result, &top);
    assert_eq!(laid(&draft, &low, &laid(&draft, &high, &top)), both);
    assert_eq!(both, ordered(&third));
    // Each second number of the lower one alone.
    let halves: Lines = upper.iter().step_by(2).cloned().collect();
    let result = laid(&draft, &low, &halves.concat());
    assert_eq!(result, ordered(&of_either(&lower, &halves)));
    let sheet = vec![0; 16 * 64];
    let replaced = draft.clone().replaced_by(&lower).replaced_by(&halves);
    let expected = judged_alone(&replaced, &sheet);
    assert!(judged(&draft, &result, &sheet) == expected);
    // One line more for either is a number given twice.
    let again = [&low, &lower[0][..]].concat();
    let refused = refusal(&draft.store(), &again, &high, SUPPLEMENT_BYTES);
    assert_eq!(refused, Some(15));
    let refused = judge_under(&draft.bytes(), &again, &sheet, &mut [0; LEVELS]);
    assert_eq!(refused, Err(15));
}
