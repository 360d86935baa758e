//! Texts with a fault in their characters, sheets with a faulty line, and
//! lines with two faults, of which the one that is looked for first counts.

use super::draft::{agents_frame, fluent_frame, frame, limited_frame, mask_frame, Draft};
use super::faults::{roomy, LineFault, Lines};
use super::random::Random;
use crate::refusal::*;

/// Spoils a text of at least one line.
pub type CharacterFault = (&'static str, fn(&mut Random, Vec<u8>) -> Vec<u8>);

/// A place where a digit stands.
fn digit_place(r: &mut Random, text: &[u8]) -> usize {
    loop {
        let place = r.below(text.len());
        if text[place] != b'\n' {
            return place;
        }
    }
}

/// A place where a line begins.
fn line_place(r: &mut Random, text: &[u8]) -> usize {
    let starts: Vec<_> = (0..=text.len())
        .filter(|&place| place == 0 || text[place - 1] == b'\n')
        .collect();
    *r.pick(&starts)
}

pub const CHARACTER_FAULTS: &[CharacterFault] = &[
    ("lower-case digit", |r, mut text| loop {
        let place = r.below(text.len());
        if text[place].is_ascii_uppercase() {
            text[place].make_ascii_lowercase();
            return text;
        }
    }),
    ("no digit", |r, mut text| {
        let place = digit_place(r, &text);
        text[place] = *r.pick(b"Ggz /:@`\r\t\0\x7F\x80\xC1\xFF");
        text
    }),
    ("carriage return", |r, mut text| {
        let end = line_place(r, &text).max(1) - 1;
        text.insert(if text[end] == b'\n' { end } else { 0 }, b'\r');
        text
    }),
    ("odd line, digit missing", |r, mut text| {
        let place = digit_place(r, &text);
        text.remove(place);
        text
    }),
    ("odd line, digit too many", |r, mut text| {
        let place = digit_place(r, &text);
        text.insert(place, *r.pick(b"0123456789ABCDEF"));
        text
    }),
    ("empty line", |r, mut text| {
        let place = line_place(r, &text);
        text.insert(place, b'\n');
        text
    }),
    ("missing LF", |_, mut text| {
        text.pop();
        text
    }),
    ("missing LF, line cut", |r, mut text| {
        let place = digit_place(r, &text);
        text.truncate(place + 1);
        text
    }),
];

/// Label, refusal (0: accepted), number of steps, and how the last is spoilt.
pub type SheetFault = (&'static str, u8, usize, fn(&mut Random, &mut Vec<u8>));

/// A sheet's lines, the last of them spoilt. If there are fewer than the most
/// that a sheet may have, lines in order may follow.
pub fn damaged_line(
    r: &mut Random,
    agents: usize,
    steps: usize,
    spoil: fn(&mut Random, &mut Vec<u8>),
) -> Lines {
    let mut lines: Lines = (0..steps).map(|_| frame(0xB1, &r.bytes(agents))).collect();
    if let Some(last) = lines.last_mut() {
        spoil(r, last);
    }
    if steps < 60 && steps > 0 {
        let more = r.below(3);
        lines.extend((0..more).map(|_| frame(0xB1, &r.bytes(agents))));
    }
    lines
}

fn another_length(r: &mut Random, line: &mut Vec<u8>) {
    let agents = line.len() - 2;
    let length = *r.pick(&[0, agents - 1, agents + 1, 120]);
    line.resize(2 + length, 1);
    line[1] = length as u8;
}

pub const SHEET_FAULTS: &[SheetFault] = &[
    ("no count byte", COUNT, 2, |_, line| line.truncate(1)),
    ("count over 120, bytes present", COUNT, 1, |r, line| {
        line[1] = r.from_to(121, 255) as u8;
        line.resize(2 + line[1] as usize, 0);
    }),
    ("fewer bytes than the count", COUNT, 3, |_, line| {
        line[1] += 1
    }),
    ("more bytes than the count", COUNT, 3, |_, line| {
        line[1] -= 1
    }),
    ("kind unknown", KIND, 5, |r, line| {
        line[0] = *r.pick(&[0x00, 0xB0, 0xB2, 0x1B, 0xFF])
    }),
    ("kind of a domain", KIND, 4, |r, line| {
        line[0] = r.from_to(0xA1, 0xA9) as u8
    }),
    ("step of another length", NOT_WHOLE, 4, another_length),
    ("64th step of another length", NOT_WHOLE, 64, another_length),
    ("65th step", STEP_65, 65, |_, _| ()),
    (
        "order: 65th step of another length",
        STEP_65,
        65,
        another_length,
    ),
    ("order: 65th line of another kind", KIND, 65, |_, line| {
        line[0] = 0xA1
    }),
    ("order: 65th line with wrong count", COUNT, 65, |_, line| {
        line[1] = 119
    }),
    ("edge: 64 steps", 0, 64, |_, _| ()),
    ("edge: one step", 0, 1, |_, _| ()),
    ("edge: no steps", 0, 0, |_, _| ()),
];

fn with_last(mut lines: Lines, last: Vec<u8>) -> Lines {
    lines.push(last);
    lines
}

/// Domains that end in a line with two faults or more.
pub const ORDER_FAULTS: &[LineFault] = &[
    ("order: count and kind", COUNT, |r| {
        with_last(roomy(r).frames, vec![0xFF, 5, 0])
    }),
    ("order: no count and kind out of order", COUNT, |r| {
        with_last(roomy(r).frames, vec![0xA1])
    }),
    ("order: out of order and too many", KIND, |r| {
        with_last(roomy(r).frames, agents_frame(2))
    }),
    ("order: out of order and payload", KIND, |r| {
        with_last(roomy(r).frames, frame(0xA2, &[1]))
    }),
    ("order: second A1 with bad payload", TOO_MANY, |r| {
        let payload = r.bytes(5);
        vec![agents_frame(3), frame(0xA1, &payload)]
    }),
    ("order: 33rd A2 with bad payload", TOO_MANY, |_| {
        let lines = vec![fluent_frame([0, 0, 0]); 32];
        with_last(lines, fluent_frame([1, 0, 0]))
    }),
    ("order: 33rd A2 with limit 0", TOO_MANY, |_| {
        let lines = vec![limited_frame([0, 0, 0], 1); 32];
        with_last(lines, limited_frame([0, 0, 0], 0))
    }),
    ("order: A2 out of order with limit 0", KIND, |r| {
        with_last(roomy(r).frames, limited_frame([0, 9, 5], 0))
    }),
    ("order: incomplete, last line with limit 0", PAYLOAD, |_| {
        vec![agents_frame(1), limited_frame([0, 9, 5], 0)]
    }),
    ("order: 65th A3 with bad payload", TOO_MANY, |_| {
        let mut lines = vec![agents_frame(1), fluent_frame([0, 0, 0])];
        lines.resize(66, mask_frame(0xA3, 0, 1));
        with_last(lines, mask_frame(0xA3, 1, 2))
    }),
    ("order: 65th A4 twice", TOO_MANY, |_| {
        let mut lines = vec![agents_frame(1)];
        lines.extend((1..65).map(|name| mask_frame(0xA4, name, 1)));
        with_last(lines, mask_frame(0xA4, 1, 1))
    }),
    ("order: 129th law with bad payload", TOO_MANY, |_| {
        let mut lines = Draft::new(1, &[[0, 0, 0]], &[(1, 1)]).frames;
        lines.extend(vec![frame(0xA5, &[0, 0x2A]); 128]);
        with_last(lines, frame(0xA9, &[0x29]))
    }),
    ("order: entry twice with bad payload", PAYLOAD, |r| {
        let mut draft = roomy(r);
        let &(name, crew) = r.pick(&draft.entries);
        let [high, low] = crew.to_be_bytes();
        draft
            .insert(frame(0xA4, &[name, high, low, 0]))
            .frames
            .clone()
    }),
    (
        "order: incomplete, last line with bad payload",
        PAYLOAD,
        |_| vec![agents_frame(1), frame(0xA2, &[0, 1, 0, 0, 0, 0])],
    ),
];
