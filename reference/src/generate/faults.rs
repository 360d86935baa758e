//! Lines of domains with one fault each, or just short of one. A fault is made
//! by altering a random accepted domain, so that it stands among lines that
//! are in order. Number 0 means that the domain is still accepted.

use super::draft::{agents_frame, fluent_frame, frame, law, mask_frame, Draft};
use super::random::Random;
use super::shapes::{deep, law_around, law_with, occurrence_under_reified, sized};
use crate::line::MAX_PAYLOAD;
use crate::refusal::*;

pub type Lines = Vec<Vec<u8>>;
pub type LineFault = (&'static str, u8, fn(&mut Random) -> Lines);

/// A random accepted domain with room for one more of each kind.
pub fn roomy(r: &mut Random) -> Draft {
    loop {
        let draft = Draft::random(r);
        let room = draft.fluents.len() < 32 && draft.entries.len() < 64;
        if room && draft.count(0xA3) < 64 && draft.laws() < 128 {
            return draft;
        }
    }
}

/// A random domain with one frame more.
pub fn plus(r: &mut Random, make: impl Fn(&mut Random, &Draft) -> Vec<u8>) -> Lines {
    let mut draft = roomy(r);
    let added = make(r, &draft);
    draft.insert(added).frames.clone()
}

/// Fills a kind up to a number of frames.
fn filled(r: &mut Random, kind: u8, number: usize) -> Lines {
    let mut draft = match kind {
        // Few A5 laws, so that the laws of this kind can be the last ones.
        0xA5..=0xA9 => Draft::pool(),
        _ => roomy(r),
    };
    draft.frames.retain(|held| kind != 0xA4 || held[0] < 0xA4);
    while match kind {
        0xA5..=0xA9 => draft.laws(),
        _ => draft.count(kind),
    } < number
    {
        let next = match kind {
            0xA1 => agents_frame(r.from_to(1, 16)),
            0xA2 => fluent_frame([0, 9, 5]),
            0xA3 => mask_frame(0xA3, 0, 1),
            0xA4 => mask_frame(0xA4, 1 + draft.count(0xA4) as u8, 1),
            _ => law_with(r, &draft, false, &[0x2A]),
        };
        draft.insert(next);
    }
    if kind == 0xA4 {
        for entry in 0..number as u8 {
            draft.insert(frame(0xA5, &[entry, 0x2A]));
        }
    }
    draft.frames
}

/// Every fluent with a limit, or every second one, and the others without.
fn with_limits(mut lines: Lines, each: usize) -> Lines {
    let fluents = lines.iter_mut().filter(|line| line[0] == 0xA2);
    for (number, line) in fluents.enumerate() {
        line.truncate(8);
        if number % each == 0 {
            line.extend([0x7F, number as u8]);
        }
        line[1] = (line.len() - 2) as u8;
    }
    lines
}

/// One frame of the kind with another payload length.
fn resized(r: &mut Random, kind: u8) -> Lines {
    let mut lines = loop {
        let draft = roomy(r);
        if draft.count(kind) > 0 {
            break draft.frames;
        }
    };
    let places: Vec<_> = (0..lines.len()).filter(|&i| lines[i][0] == kind).collect();
    let line = &mut lines[*r.pick(&places)];
    let length = line.len() - 2;
    let other = loop {
        // A law of the greatest length can only get shorter.
        let other = match length == 120 || r.one_in(2) {
            true => r.below(length),
            false => r.from_to(length + 1, 120),
        };
        // A fluent may have a limit or none.
        if kind != 0xA2 || ![6, 8].contains(&other) {
            break other;
        }
    };
    line.truncate(2 + other);
    line.extend(r.bytes(other.saturating_sub(length)));
    line[1] = other as u8;
    lines
}

fn without(r: &mut Random, kinds: std::ops::RangeInclusive<u8>) -> Lines {
    let mut lines = Draft::random(r).frames;
    lines.retain(|line| !kinds.contains(&line[0]));
    lines
}

/// A code that no expression (or no constraint) may begin with.
fn other_code(r: &mut Random, right: std::ops::RangeInclusive<u8>) -> Vec<u8> {
    loop {
        let code = if r.one_in(2) {
            r.byte()
        } else {
            r.from_to(0x0F, 0x2D) as u8
        };
        if !right.contains(&code) {
            let mut bytes = vec![code];
            bytes.extend([0x10, 0, 0, 0x10, 0, 0]);
            return bytes;
        }
    }
}

fn unknown_agent(r: &mut Random, kind: u8) -> Lines {
    loop {
        let mut draft = roomy(r);
        if draft.agents < 16 {
            let mask = r.draw() as u16 | (1 << r.from_to(draft.agents, 15));
            draft.insert(mask_frame(kind, if kind == 0xA3 { 0 } else { 200 }, mask));
            return draft.frames;
        }
    }
}

/// Alters one line of a random domain without regard to its meaning.
pub fn altered(r: &mut Random, mut lines: Lines, alter: fn(&mut Random, &mut Vec<u8>)) -> Lines {
    let place = r.below(lines.len());
    alter(r, &mut lines[place]);
    lines
}

pub const LINE_FAULTS: &[LineFault] = &[
    ("no count byte", COUNT, |r| {
        let lines = roomy(r).frames;
        altered(r, lines, |_, line| line.truncate(1))
    }),
    ("count over 120, bytes present", COUNT, |r| {
        let lines = roomy(r).frames;
        altered(r, lines, |r, line| {
            line[1] = r.from_to(121, 255) as u8;
            line.resize(2 + line[1] as usize, 0x2A);
        })
    }),
    ("fewer bytes than the count", COUNT, |r| {
        let lines = roomy(r).frames;
        altered(r, lines, |r, line| {
            line[1] = r.from_to(line.len() - 1, 255) as u8
        })
    }),
    ("more bytes than the count", COUNT, |r| {
        let lines = roomy(r).frames;
        altered(r, lines, |r, line| {
            let more = *r.pick(&[1, 2, 5, 118, 119, 300]);
            line.resize(line.len() + more, 0x2A);
        })
    }),
    ("kind unknown", KIND, |r| {
        let lines = roomy(r).frames;
        altered(r, lines, |r, line| {
            line[0] = *r.pick(&[0x01, 0x9F, 0xA0, 0xAA, 0xB0, 0xB2, 0xFF])
        })
    }),
    ("kind 00", KIND, |r| {
        let lines = roomy(r).frames;
        altered(r, lines, |_, line| line[0] = 0)
    }),
    ("kind out of order", KIND, |r| {
        let mut lines = roomy(r).frames;
        let last = lines[lines.len() - 1][0];
        let earlier = lines.partition_point(|line| line[0] < last);
        let moved = lines[r.below(earlier)].clone();
        let place = r.from_to(
            lines.partition_point(|line| line[0] <= moved[0]) + 1,
            lines.len(),
        );
        lines.insert(place, moved);
        lines
    }),
    ("B1 in a domain", KIND, |r| {
        let mut lines = roomy(r).frames;
        let place = r.from_to(0, lines.len());
        lines.insert(place, frame(0xB1, &[1, 0]));
        lines
    }),
    ("A1 of another length", PAYLOAD, |r| resized(r, 0xA1)),
    ("A2 of another length", PAYLOAD, |r| resized(r, 0xA2)),
    ("A3 of another length", PAYLOAD, |r| resized(r, 0xA3)),
    ("A4 of another length", PAYLOAD, |r| resized(r, 0xA4)),
    ("A5 of another length", PAYLOAD, |r| resized(r, 0xA5)),
    ("A6 of another length", PAYLOAD, |r| resized(r, 0xA6)),
    ("A7 of another length", PAYLOAD, |r| resized(r, 0xA7)),
    ("A8 of another length", PAYLOAD, |r| resized(r, 0xA8)),
    ("A9 of another length", PAYLOAD, |r| resized(r, 0xA9)),
    ("no agents", PAYLOAD, |_| vec![agents_frame(0)]),
    ("17 agents or more", PAYLOAD, |r| {
        vec![agents_frame(r.from_to(17, 255))]
    }),
    ("start below lowest", PAYLOAD, |r| {
        plus(r, |r, _| fluent_frame([5, 9, *r.pick(&[4, -1, i16::MIN])]))
    }),
    ("start above highest", PAYLOAD, |r| {
        plus(r, |r, _| fluent_frame([5, 9, *r.pick(&[10, i16::MAX])]))
    }),
    ("lowest above highest", PAYLOAD, |r| {
        plus(r, |r, _| fluent_frame([9, 5, r.from_to(4, 10) as i16]))
    }),
    ("A3 with mask 0", PAYLOAD, |r| {
        plus(r, |_, _| mask_frame(0xA3, 0, 0))
    }),
    ("A3 with unknown agent", PAYLOAD, |r| unknown_agent(r, 0xA3)),
    ("A3 with unknown fluent", PAYLOAD, |r| {
        plus(r, |r, draft| {
            let fluent = r.from_to(draft.fluents.len(), 255) as u8;
            mask_frame(0xA3, fluent, draft.everybody())
        })
    }),
    ("A3 without A1", PAYLOAD, |_| {
        vec![fluent_frame([0, 9, 5]), mask_frame(0xA3, 0, 1)]
    }),
    ("A4 without A1", PAYLOAD, |_| vec![mask_frame(0xA4, 1, 1)]),
    ("A4 with name 0", PAYLOAD, |r| {
        plus(r, |_, _| mask_frame(0xA4, 0, 1))
    }),
    ("A4 with mask 0", PAYLOAD, |r| {
        plus(r, |_, _| mask_frame(0xA4, 9, 0))
    }),
    ("A4 with unknown agent", PAYLOAD, |r| unknown_agent(r, 0xA4)),
    ("law of unknown entry", PAYLOAD, |r| {
        plus(r, |r, draft| {
            let entry = r.from_to(draft.entries.len(), 255) as u8;
            match r.one_in(2) {
                true => frame(0xA5, &[entry, 0x2A]),
                false => frame(0xA6, &[entry, 0x2A, 0, 0x10, 0, 0]),
            }
        })
    }),
    ("effect on unknown fluent", PAYLOAD, |r| {
        plus(r, |r, draft| {
            let fluent = r.from_to(draft.fluents.len(), 255) as u8;
            frame(0xA6, &[0, 0x2A, fluent, 0x10, 0, 0])
        })
    }),
    ("code 11 with unknown fluent", PAYLOAD, |r| {
        plus(r, |r, draft| {
            let fluent = r.from_to(draft.fluents.len(), 255) as u8;
            law_around(r, draft, &[0x11, fluent, 0])
        })
    }),
    ("code 29 with unknown entry", PAYLOAD, |r| {
        plus(r, |r, draft| {
            let entry = r.from_to(draft.entries.len(), 255) as u8;
            law_with(r, draft, true, &[0x29, entry, 0])
        })
    }),
    ("no code of an expression", PAYLOAD, |r| {
        plus(r, |r, draft| {
            let part = other_code(r, 0x10..=0x19);
            law_around(r, draft, &part)
        })
    }),
    ("no code of a constraint", PAYLOAD, |r| {
        plus(r, |r, draft| {
            let part = other_code(r, 0x20..=0x2C);
            law_with(r, draft, false, &part)
        })
    }),
    ("code 29 in A7", PAYLOAD, |r| {
        plus(r, |_, _| frame(0xA7, &[0x29, 0, 0]))
    }),
    ("code 29 in A9", PAYLOAD, |r| {
        plus(r, |_, _| frame(0xA9, &[0x28, 0x29, 0, 1]))
    }),
    ("code 29 under 19 in A7", PAYLOAD, |r| {
        plus(r, |_, _| law(0xA7, &[&occurrence_under_reified()]))
    }),
    ("code 29 under 19 in A9", PAYLOAD, |r| {
        plus(r, |_, _| law(0xA9, &[&occurrence_under_reified()]))
    }),
    ("fluent with lag 64 or more", PAYLOAD, |r| {
        plus(r, |r, draft| {
            let lag = r.from_to(64, 255) as u8;
            law_around(r, draft, &[0x11, 0, lag])
        })
    }),
    ("entry with lag 64 or more", PAYLOAD, |r| {
        plus(r, |r, draft| {
            let lag = r.from_to(64, 255) as u8;
            law_with(r, draft, true, &[0x29, 0, lag])
        })
    }),
    ("depth 17", PAYLOAD, |r| {
        plus(r, |r, draft| deep(r, draft, 17))
    }),
    ("depth 18 and more", PAYLOAD, |r| {
        plus(r, |r, draft| {
            let depth = r.from_to(18, 24);
            deep(r, draft, depth)
        })
    }),
    ("second A1", TOO_MANY, |r| filled(r, 0xA1, 2)),
    ("33rd A2", TOO_MANY, |r| filled(r, 0xA2, 33)),
    ("65th A3", TOO_MANY, |r| filled(r, 0xA3, 65)),
    ("65th A4", TOO_MANY, |r| filled(r, 0xA4, 65)),
    ("129th law", TOO_MANY, |r| filled(r, 0xA5, 129)),
    ("entry twice", TWICE, |r| {
        plus(r, |r, draft| {
            let &(name, crew) = r.pick(&draft.entries);
            mask_frame(0xA4, name, crew)
        })
    }),
    ("no lines", INCOMPLETE, |_| vec![]),
    ("no A1", INCOMPLETE, |r| {
        without(r, 0xA3..=0xA9).split_off(1)
    }),
    ("no A2", INCOMPLETE, |_| {
        Draft::new(3, &[], &[(1, 1), (9, 6)]).free().frames
    }),
    ("no A4", INCOMPLETE, |r| without(r, 0xA4..=0xA9)),
    ("no A5", INCOMPLETE, |r| without(r, 0xA5..=0xA9)),
    ("one entry without A5", INCOMPLETE, |r| {
        let mut draft = roomy(r);
        draft.frames.retain(|line| line[0] < 0xA6);
        let unused = (1..=255).find(|&name| !draft.entries.contains(&(name, 1)));
        let added = mask_frame(0xA4, unused.unwrap_or(1), 1);
        draft.insert(added).frames.clone()
    }),
    ("edge: 1 A1 with 16 agents", 0, |_| {
        Draft::new(16, &[[0, 9, 5]], &[(1, 0xFFFF)]).free().frames
    }),
    ("edge: 32 A2", 0, |r| filled(r, 0xA2, 32)),
    ("edge: 32 A2 with limits", 0, |r| {
        with_limits(filled(r, 0xA2, 32), 1)
    }),
    ("edge: 32 A2, every second with a limit", 0, |r| {
        with_limits(filled(r, 0xA2, 32), 2)
    }),
    ("edge: 64 A3", 0, |r| filled(r, 0xA3, 64)),
    ("edge: 64 A4", 0, |r| filled(r, 0xA4, 64)),
    ("edge: 128 laws", 0, |r| filled(r, 0xA5, 128)),
    ("edge: depth 16", 0, |r| {
        plus(r, |r, draft| deep(r, draft, 16))
    }),
    ("edge: fluent with lag 63", 0, |r| {
        plus(r, |r, draft| law_around(r, draft, &[0x11, 0, 63]))
    }),
    ("edge: entry with lag 63", 0, |r| {
        plus(r, |r, draft| law_with(r, draft, true, &[0x29, 0, 63]))
    }),
    ("edge: count 120", 0, |r| {
        plus(r, |r, draft| {
            let kind = r.from_to(0xA5, 0xA9) as u8;
            sized(r, draft, kind, 0, MAX_PAYLOAD)
        })
    }),
    ("edge: names 1 and 255, start at both bounds", 0, |_| {
        Draft::new(
            1,
            &[[3, 3, 3], [i16::MIN, i16::MAX, i16::MIN]],
            &[(1, 1), (255, 1)],
        )
        .free()
        .frames
    }),
];
