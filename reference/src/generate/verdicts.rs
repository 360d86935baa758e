//! Domains and sheets made for one verdict each.

use super::aims::Expect::{self, Accepted, Broken, Goal};
use super::changing_fast;
use super::divisions;
use super::draft::{frame, law, mask_frame, Draft};
use super::laws::{constant, node};
use super::looking_back;
use super::random::Random;
use super::troubles;
use std::rc::Rc;

/// A domain and a sheet.
pub type Made = (Draft, Vec<u8>);

pub type Trial = (String, Expect, Rc<dyn Fn(&mut Random) -> Made>);

type Plain = (&'static str, Expect, fn(&mut Random) -> Made);

/// One agent, one fluent from 0 to 100 that starts at 5, one action 1.
pub(super) fn single() -> Draft {
    Draft::new(1, &[[0, 100, 5]], &[(1, 1)])
}

pub(super) fn read(fluent: u8, lag: u8) -> Vec<u8> {
    vec![0x11, fluent, lag]
}

fn compare(code: u8, fluent: u8, lag: u8, value: i16) -> Vec<u8> {
    node(code, &[&read(fluent, lag), &constant(value)])
}

pub(super) fn effect(entry: u8, fluent: u8, expression: &[u8]) -> Vec<u8> {
    law(0xA6, &[&[entry, 0x2A, fluent], expression])
}

/// Adds one to the fluent each time.
pub(super) fn counting() -> Draft {
    counting_to(100)
}

fn counting_to(highest: i16) -> Draft {
    let mut draft = Draft::new(1, &[[0, highest, 5]], &[(1, 1)]).free();
    draft.insert(mask_frame(0xA3, 0, 1));
    draft.insert(effect(0, 0, &node(0x12, &[&read(0, 0), &constant(1)])));
    draft
}

const PLAIN: &[Plain] = &[
    ("name without entry", Broken(1), |r| {
        (Draft::pool(), vec![r.from_to(3, 255) as u8, 0])
    }),
    ("name of another agent's entry", Broken(1), |_| {
        (Draft::pool(), vec![1, 0, 0, 1])
    }),
    ("joint crew with a member missing", Broken(1), |_| {
        (
            Draft::new(3, &[[0, 9, 5]], &[(4, 0b101)]).free(),
            vec![4, 0, 0],
        )
    }),
    ("member of no crew names a joint action", Broken(1), |_| {
        (
            Draft::new(3, &[[0, 9, 5]], &[(4, 0b101)]).free(),
            vec![4, 4, 4],
        )
    }),
    ("condition false", Broken(2), |_| {
        (Draft::pool(), [1, 0].repeat(7))
    }),
    ("all conditions false", Broken(2), |_| {
        let mut draft = single();
        draft.insert(mask_frame(0xA3, 0, 1));
        for value in 6..9 {
            draft.insert(law(0xA5, &[&[0], &compare(0x20, 0, 0, value)]));
        }
        (draft, vec![0, 1])
    }),
    ("condition about an unknown fluent", Broken(2), |_| {
        let mut draft = Draft::new(2, &[[0, 9, 5], [0, 9, 5]], &[(1, 1)]);
        draft.insert(mask_frame(0xA3, 0, 3));
        draft.insert(mask_frame(0xA3, 1, 2));
        let both = node(0x27, &[&compare(0x20, 0, 0, 5), &compare(0x20, 1, 0, 5)]);
        draft.insert(law(0xA5, &[&[0], &both]));
        (draft, vec![1, 0])
    }),
    ("two entries at once forbidden", Broken(3), |_| {
        let mut draft = Draft::new(2, &[[0, 9, 5]], &[(1, 1), (1, 2)]).free();
        let both = node(0x26, &[&[0x29, 0, 0], &[0x29, 1, 0]]);
        draft.insert(law(0xA8, &[&[0x28], &both]));
        (draft, vec![1, 0, 0, 1, 1, 1])
    }),
    ("twice in a row forbidden", Broken(3), |_| {
        let mut draft = single().free();
        let both = node(0x26, &[&[0x29, 0, 0], &[0x29, 0, 1]]);
        draft.insert(law(0xA8, &[&[0x28], &both]));
        (draft, vec![1, 0, 1, 1])
    }),
    ("63 steps after the first", Broken(3), |_| {
        let mut draft = single().free();
        draft.insert(law(0xA8, &[&[0x28, 0x29, 0, 63]]));
        let mut sheet = vec![0; 64];
        sheet[0] = 1;
        (draft, sheet)
    }),
    ("effects disagree", Broken(4), |_| {
        (Draft::pool(), vec![1, 2])
    }),
    ("effects of one entry disagree", Broken(4), |_| {
        let mut draft = counting();
        draft.insert(effect(0, 0, &constant(7)));
        (draft, vec![1])
    }),
    ("below the range", Broken(5), |_| {
        let mut draft = single().free();
        draft.insert(effect(0, 0, &constant(-1)));
        (draft, vec![1])
    }),
    ("above the range", Broken(5), |_| {
        (counting_to(20), vec![1; 64])
    }),
    ("beyond two bytes", Broken(5), |_| {
        let mut draft = Draft::new(1, &[[0, 0, 0], [i16::MIN, i16::MAX, 0]], &[(1, 1)]).free();
        let large = node(0x14, &[&constant(256), &constant(256)]);
        draft.insert(effect(0, 1, &large));
        (draft, vec![1])
    }),
    ("static law false at step 0", Broken(6), |r| {
        let mut draft = single().free();
        draft.insert(law(0xA7, &[&compare(0x24, 0, 0, 5)]));
        (draft, vec![0; r.below(3)])
    }),
    ("static law false later", Broken(6), |_| {
        let mut draft = counting();
        draft.insert(law(0xA7, &[&compare(0x22, 0, 0, 8)]));
        (draft, vec![1, 0, 1, 1, 1])
    }),
    ("static law about the past", Broken(6), |_| {
        let mut draft = counting();
        draft.insert(law(0xA7, &[&compare(0x22, 0, 2, 7)]));
        (draft, vec![1; 6])
    }),
    ("goal missed", Goal(8), |_| {
        (Draft::pool(), vec![1, 0, 1, 0])
    }),
    ("goal missed on an empty sheet", Goal(8), |_| {
        let mut draft = single().free();
        draft.insert(law(0xA9, &[&compare(0x24, 0, 63, 5)]));
        (draft, vec![])
    }),
    ("second goal missed", Goal(8), |_| {
        let mut draft = counting();
        draft.insert(law(0xA9, &[&compare(0x24, 0, 0, 5)]));
        draft.insert(law(0xA9, &[&compare(0x24, 0, 1, 5)]));
        (draft, vec![1])
    }),
    ("accepted: empty sheet", Accepted, |_| {
        (Draft::pool(), vec![])
    }),
    ("accepted: two steps", Accepted, |_| {
        (Draft::pool(), vec![1, 0, 0, 2])
    }),
    ("accepted: later condition true", Accepted, |_| {
        let mut draft = single();
        draft.insert(mask_frame(0xA3, 0, 1));
        draft.insert(law(0xA5, &[&[0], &compare(0x20, 0, 0, 6)]));
        draft.insert(law(0xA5, &[&[0], &compare(0x20, 0, 0, 5)]));
        (draft, vec![1])
    }),
    ("accepted: effects agree", Accepted, |_| {
        let mut draft = counting();
        draft.insert(effect(0, 0, &constant(6)));
        (draft, vec![1])
    }),
    ("accepted: shared members", Accepted, |_| {
        let entries = [(1, 0b011), (1, 0b110), (1, 0b111)];
        (Draft::new(3, &[[0, 9, 5]], &entries).free(), vec![1, 1, 1])
    }),
    ("accepted: known to one of the crew", Accepted, |_| {
        let mut draft = Draft::new(2, &[[0, 9, 5], [0, 9, 5]], &[(1, 3)]);
        draft.insert(mask_frame(0xA3, 0, 1));
        draft.insert(mask_frame(0xA3, 1, 2));
        let both = node(0x26, &[&compare(0x20, 0, 0, 5), &compare(0x20, 1, 0, 5)]);
        draft.insert(law(0xA5, &[&[0], &both]));
        (draft, vec![1, 1])
    }),
    ("accepted: effects read the values before", Accepted, |_| {
        // Two fluents change places.
        let mut draft = Draft::new(1, &[[0, 9, 1], [0, 9, 2]], &[(1, 1)]).free();
        draft.insert(effect(0, 0, &read(1, 0)));
        draft.insert(effect(0, 1, &read(0, 0)));
        draft.insert(law(0xA9, &[&compare(0x20, 0, 0, 2)]));
        draft.insert(law(0xA9, &[&compare(0x20, 1, 0, 1)]));
        (draft, vec![1])
    }),
    ("accepted: lag 63 on 64 steps", Accepted, |_| {
        let mut draft = counting();
        draft.insert(law(0xA9, &[&compare(0x20, 0, 63, 6)]));
        draft.insert(law(0xA9, &[&compare(0x20, 0, 0, 69)]));
        (draft, vec![1; 64])
    }),
    ("accepted: 16 agents, 32 fluents, 64 steps", Accepted, |r| {
        let mut draft = Draft::new(16, &[[-9, 9, 5]; 32], &[(255, 0xFFFF)]);
        draft.insert(frame(0xA5, &[0, 0x2A]));
        for fluent in 0..32 {
            let value = r.from_to(0, 18) as i16 - 9;
            draft.insert(effect(0, fluent, &constant(value)));
        }
        (draft, vec![255; 1024])
    }),
];

/// Trials that are put before every call that judges.
pub fn trials() -> Vec<Trial> {
    let mut trials: Vec<Trial> = Vec::new();
    for &(label, expect, make) in PLAIN {
        trials.push((label.to_string(), expect, Rc::new(make)));
    }
    trials.extend(troubles::trials());
    trials.extend(divisions::trials());
    trials.extend(looking_back::trials());
    trials.extend(changing_fast::trials());
    trials
}
