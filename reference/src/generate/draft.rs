//! Domains in the making: frames that can still be altered, and random ones.

use super::laws::Ground;
use super::random::Random;
use crate::domain::Fluent;
use crate::line::{line_length, write_line, MAX_PAYLOAD};
use crate::store::STORE_BYTES;

pub fn frame(kind: u8, payload: &[u8]) -> Vec<u8> {
    let mut bytes = vec![kind, payload.len() as u8];
    bytes.extend_from_slice(payload);
    bytes
}

/// Frame of a law: numbers that stand before the constraint, then its parts.
pub fn law(kind: u8, parts: &[&[u8]]) -> Vec<u8> {
    frame(kind, &parts.concat())
}

pub fn agents_frame(agents: usize) -> Vec<u8> {
    frame(0xA1, &[agents as u8])
}

pub fn fluent_frame(range: [i16; 3]) -> Vec<u8> {
    frame(0xA2, &range.map(i16::to_be_bytes).concat())
}

/// The same with a limit to the change in one step.
pub fn limited_frame(range: [i16; 3], limit: u16) -> Vec<u8> {
    let range = range.map(i16::to_be_bytes).concat();
    frame(0xA2, &[&range[..], &limit.to_be_bytes()].concat())
}

/// A3 or A4: a number or name, and a mask.
pub fn mask_frame(kind: u8, first: u8, mask: u16) -> Vec<u8> {
    let [high, low] = mask.to_be_bytes();
    frame(kind, &[first, high, low])
}

/// Frame of a supplement: a law, given as its own frame, stands in for the one
/// with this number.
pub fn replacement(number: usize, law: &[u8]) -> Vec<u8> {
    frame(0xAF, &[&[number as u8, law[0]], &law[2..]].concat())
}

/// Lines of bytes as digits, whatever the bytes are.
pub fn text_of(lines: &[Vec<u8>]) -> Vec<u8> {
    let mut text = Vec::new();
    for line in lines {
        for byte in line {
            text.extend(format!("{byte:02X}").bytes());
        }
        text.push(b'\n');
    }
    text
}

pub fn sheet_text(sheet: &[u8], agents: usize) -> Vec<u8> {
    let mut text = vec![0; sheet.len() / agents * line_length(2 + agents)];
    let mut place = 0;
    for names in sheet.chunks_exact(agents) {
        place += write_line(0xB1, names, &mut text[place..]);
    }
    text
}

#[derive(Clone)]
pub struct Draft {
    pub agents: usize,
    pub fluents: Vec<[i16; 3]>,
    pub entries: Vec<(u8, u16)>,
    pub frames: Vec<Vec<u8>>,
}

impl Draft {
    /// A domain that lacks only its laws.
    pub fn new(agents: usize, fluents: &[[i16; 3]], entries: &[(u8, u16)]) -> Self {
        let mut draft = Draft {
            agents,
            fluents: fluents.to_vec(),
            entries: entries.to_vec(),
            frames: vec![agents_frame(agents)],
        };
        draft
            .frames
            .extend(fluents.iter().map(|&f| fluent_frame(f)));
        for &(name, crew) in entries {
            draft.insert(mask_frame(0xA4, name, crew));
        }
        draft
    }

    /// The paper's river of one pool.
    pub fn pool() -> Self {
        let mut draft = Draft::new(2, &[[200, 320, 300]], &[(1, 1), (2, 2)]);
        draft.insert(mask_frame(0xA3, 0, 3));
        for entry in 0..2 {
            draft.insert(frame(0xA5, &[entry, 0x24, 0x11, 0, 0, 0x10, 0, 0xDC]));
        }
        for (entry, outflow) in [(0, 14), (1, 6)] {
            draft.insert(frame(
                0xA6,
                &[entry, 0x2A, 0, 0x13, 0x11, 0, 0, 0x10, 0, outflow],
            ));
        }
        draft.insert(frame(0xA9, &[0x25, 0x11, 0, 0, 0x10, 1, 0x18]));
        draft
    }

    /// One fluent and one action; laws 0 to 4 are one of each kind, all of them
    /// true, and the effect adds one.
    pub fn of_each_kind() -> Self {
        let mut draft = Draft::new(1, &[[0, 9, 5]], &[(1, 1)]).free();
        draft.insert(frame(0xA6, &[0, 0x2A, 0, 0x12, 0x11, 0, 0, 0x10, 0, 1]));
        for kind in 0xA7..=0xA9 {
            draft.insert(frame(kind, &[0x2A]));
        }
        draft
    }

    /// As many agents, fluents, frames of knowledge and entries as is allowed;
    /// it lacks its laws.
    pub fn crowded() -> Self {
        let entries: Vec<_> = (0..64).map(|e| (1 + e / 16, 1 << (e % 16))).collect();
        let mut draft = Draft::new(16, &[[-1000, 1000, 0]; 32], &entries);
        for mask in [0x00FF, 0xFF00] {
            for fluent in 0..32 {
                draft.insert(mask_frame(0xA3, fluent, mask));
            }
        }
        draft
    }

    /// Gives a fluent a limit to its change in one step.
    pub fn limit(&mut self, fluent: usize, limit: u16) -> &mut Self {
        // Only the number of agents stands before the fluents.
        self.frames[1 + fluent] = limited_frame(self.fluents[fluent], limit);
        self
    }

    /// Puts a frame behind the last one of its kind or a lower one.
    pub fn insert(&mut self, frame: Vec<u8>) -> &mut Self {
        let place = self.frames.partition_point(|held| held[0] <= frame[0]);
        self.frames.insert(place, frame);
        self
    }

    pub fn count(&self, kind: u8) -> usize {
        self.frames.iter().filter(|held| held[0] == kind).count()
    }

    pub fn laws(&self) -> usize {
        (0xA5..=0xA9).map(|kind| self.count(kind)).sum()
    }

    /// The frame of a law. Laws stand behind all else.
    pub fn law(&self, number: usize) -> &Vec<u8> {
        &self.frames[self.frames.len() - self.laws() + number]
    }

    /// The domain with the law of this number replaced.
    pub fn with_law(mut self, number: usize, law: &[u8]) -> Self {
        let place = self.frames.len() - self.laws() + number;
        self.frames[place] = law.to_vec();
        self
    }

    /// The domain with its laws replaced as a supplement's lines say.
    pub fn replaced_by(self, lines: &[Vec<u8>]) -> Self {
        lines.iter().fold(self, |draft, line| {
            draft.with_law(line[2].into(), &frame(line[3], &line[4..]))
        })
    }

    /// Every entry may always be taken up.
    pub fn free(mut self) -> Self {
        for entry in 0..self.entries.len() {
            self.insert(frame(0xA5, &[entry as u8, 0x2A]));
        }
        self
    }

    pub fn everybody(&self) -> u16 {
        (0xFFFFu32 >> (16 - self.agents)) as u16
    }

    pub fn ground(&self, entries: usize) -> Ground<'_> {
        Ground {
            fluents: &self.fluents,
            entries,
            looking_back: false,
        }
    }

    pub fn bytes(&self) -> Vec<u8> {
        self.frames.concat()
    }

    /// A store as the domain reader leaves it.
    pub fn store(&self) -> Vec<u8> {
        let mut store = self.bytes();
        store.resize(STORE_BYTES, 0);
        store
    }

    pub fn text(&self) -> Vec<u8> {
        text_of(&self.frames)
    }

    /// A random accepted domain.
    pub fn random(r: &mut Random) -> Self {
        let big = r.one_in(12);
        let agents = if big {
            r.from_to(1, 16)
        } else {
            r.from_to(1, 4)
        };
        let fluents = if big {
            r.from_to(1, 32)
        } else {
            r.from_to(1, 4)
        };
        let entries = if big {
            r.from_to(1, 64)
        } else {
            r.from_to(1, 6)
        };
        let ranges: Vec<_> = (0..fluents).map(|_| range(r)).collect();
        let everybody = (0xFFFFu32 >> (16 - agents)) as u16;
        let mut crews = Vec::new();
        for _ in 0..entries {
            let name = match r.below(8) {
                0 => r.from_to(1, 255),
                _ => r.from_to(1, 4 + entries / 4),
            } as u8;
            let crew = match r.below(3) {
                0 => r.draw() as u16 & everybody,
                _ => 1 << r.below(agents),
            };
            if crew != 0 && !crews.contains(&(name, crew)) {
                crews.push((name, crew));
            }
        }
        if crews.is_empty() {
            crews.push((r.from_to(1, 255) as u8, 1));
        }
        let mut draft = Draft::new(agents, &ranges, &crews);
        draft.add_limits(r);
        draft.add_knowledge(r, everybody);
        draft.add_laws(r, big);
        draft
    }

    /// Every second domain has limits, for some of its fluents or all.
    fn add_limits(&mut self, r: &mut Random) {
        if r.one_in(2) {
            return;
        }
        let all = r.one_in(2);
        for fluent in 0..self.fluents.len() {
            if all || r.one_in(2) {
                let limit = limit(r, self.fluents[fluent]);
                self.limit(fluent, limit);
            }
        }
    }

    fn add_knowledge(&mut self, r: &mut Random, everybody: u16) {
        for fluent in 0..self.fluents.len() as u8 {
            let mask = match r.below(8) {
                0 => 0,
                1 => r.draw() as u16 & everybody,
                _ => everybody,
            };
            // Several frames add up, so some masks come in two parts.
            let part = if r.one_in(3) {
                r.draw() as u16 & mask
            } else {
                0
            };
            for piece in [part, mask & !part] {
                if piece != 0 {
                    self.insert(mask_frame(0xA3, fluent, piece));
                }
            }
        }
    }

    fn add_laws(&mut self, r: &mut Random, big: bool) {
        let calm = !r.one_in(3);
        let entries = self.entries.len();
        let mut laws = Vec::new();
        for entry in 0..entries as u8 {
            for _ in 0..if r.one_in(4) && entries < 40 { 2 } else { 1 } {
                laws.push(self.random_law(r, 0xA5, entry, calm, MAX_PAYLOAD));
            }
        }
        for _ in 0..r.from_to(0, if big { 40 } else { 6 }) {
            let entry = r.below(entries) as u8;
            laws.push(self.random_law(r, 0xA6, entry, calm, MAX_PAYLOAD));
        }
        for kind in 0xA7..=0xA9 {
            for _ in 0..r.below(if big { 8 } else { 3 }) {
                laws.push(self.random_law(r, kind, 0, calm, MAX_PAYLOAD));
            }
        }
        laws.truncate(128);
        laws.into_iter().for_each(|law| {
            self.insert(law);
        });
    }

    /// A law of the kind, and of the entry where it has one, with a payload of
    /// at most so many bytes; mostly true if it is to be calm.
    pub fn random_law(
        &self,
        r: &mut Random,
        kind: u8,
        entry: u8,
        calm: bool,
        most: usize,
    ) -> Vec<u8> {
        let entries = match kind {
            0xA7 | 0xA9 => 0,
            _ => self.entries.len(),
        };
        let ground = self.ground(entries);
        if kind == 0xA6 {
            let fluent = r.below(self.fluents.len());
            let condition = match r.below(3) {
                0 => ground.wild(r, 50, Ground::constraint),
                1 => vec![0x29, r.below(entries) as u8, super::laws::lag(r)],
                _ => vec![0x2A],
            };
            let value = match calm && !r.one_in(10) {
                true => ground.setting(r, fluent),
                false => ground.wild(r, 50, Ground::expression),
            };
            let parts: [&[u8]; 4] = [&[entry], &condition, &[fluent as u8], &value];
            return law(kind, &parts);
        }
        let constraint = match calm && !r.one_in(12) {
            true => ground.likely(r),
            false => ground.wild(r, most - 1, Ground::constraint),
        };
        match kind {
            0xA5 => law(kind, &[&[entry], &constraint]),
            _ => law(kind, &[&constraint]),
        }
    }
}

/// A random fluent: lowest, highest, start.
fn range(r: &mut Random) -> [i16; 3] {
    let mut bounds = match r.below(6) {
        0 => [i16::MIN, i16::MAX, r.value()],
        1 => [r.value(), r.value(), r.value()],
        2 => [7; 3],
        _ => {
            let low = r.below(200) as i16 - 100;
            let width = r.below(60);
            [low, low + width as i16, low + r.below(width + 1) as i16]
        }
    };
    bounds.sort();
    [bounds[0], bounds[2], bounds[1]]
}

/// A random limit for such a fluent: mostly one that its changes may reach.
fn limit(r: &mut Random, [lowest, highest, _]: [i16; 3]) -> u16 {
    match r.below(8) {
        0..=2 => 1,
        3 | 4 => r.from_to(1, 4) as u16,
        5 => highest.abs_diff(lowest).clamp(1, Fluent::MAX_LIMIT),
        6 => Fluent::MAX_LIMIT,
        _ => r.from_to(1, Fluent::MAX_LIMIT.into()) as u16,
    }
}
