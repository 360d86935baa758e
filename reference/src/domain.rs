//! A domain, built frame after frame with all of the domain reader's checks
//! that look at more than one line's form.

use crate::law::Checker;
use crate::number;
use crate::refusal;
use std::ops::Range;

pub const AGENTS: u8 = 0xA1;
pub const FLUENT: u8 = 0xA2;
pub const KNOWS: u8 = 0xA3;
pub const ENTRY: u8 = 0xA4;
pub const EXECUTABILITY: u8 = 0xA5;
pub const EFFECT: u8 = 0xA6;
pub const STATIC: u8 = 0xA7;
pub const CONCURRENCY: u8 = 0xA8;
pub const GOAL: u8 = 0xA9;

const LAW_KINDS: usize = (GOAL - EXECUTABILITY + 1) as usize;

/// Whether laws of the kind begin with an entry.
pub fn has_entry(kind: u8) -> bool {
    kind == EXECUTABILITY || kind == EFFECT
}

#[derive(Clone, Copy, Debug)]
pub struct Fluent {
    pub lowest: i16,
    pub highest: i16,
    pub start: i16,
    /// The largest change in one step.
    limit: u16,
    /// The agents that know it.
    pub knowers: u16,
}

impl Fluent {
    /// Bytes of the longest payload, which has a limit.
    pub const MAX_PAYLOAD: usize = 8;

    pub const MAX_LIMIT: u16 = 32_767;

    /// Where no limit is given: from one end of two bytes to the other, no change is
    /// larger.
    const NO_LIMIT: u16 = u16::MAX;

    const EMPTY: Fluent = Fluent {
        lowest: 0,
        highest: 0,
        start: 0,
        limit: 0,
        knowers: 0,
    };

    fn of(payload: &[u8]) -> Option<Self> {
        let (&[a, b, c, d, e, f], rest) = payload.split_first_chunk()?;
        let [lowest, highest, start] = [[a, b], [c, d], [e, f]].map(i16::from_be_bytes);
        let limit = match *rest {
            [] => Fluent::NO_LIMIT,
            [high, low] => match u16::from_be_bytes([high, low]) {
                limit @ 1..=Fluent::MAX_LIMIT => limit,
                _ => return None,
            },
            _ => return None,
        };
        let fluent = Fluent {
            lowest,
            highest,
            start,
            limit,
            knowers: 0,
        };
        (lowest..=highest).contains(&start).then_some(fluent)
    }

    /// Whether a number is in its range.
    #[inline]
    pub fn has(&self, number: i64) -> bool {
        (i64::from(self.lowest)..=self.highest.into()).contains(&number)
    }

    /// Whether a step may change it so.
    #[inline]
    pub fn may_change(&self, from: i64, to: i64) -> bool {
        (to - from).abs() <= self.limit.into()
    }
}

/// A name above the crew that it is for, so that entries are compared at once.
#[derive(Clone, Copy, Debug)]
pub struct Entry(u32);

impl Entry {
    fn of(name: u8, crew: u16) -> Self {
        Entry(u32::from(name) << 16 | u32::from(crew))
    }

    pub fn name(self) -> u8 {
        (self.0 >> 16) as u8
    }

    pub fn crew(self) -> u16 {
        self.0 as u16
    }
}

/// What is kept of a law. Only A5 and A6 have an entry; only A6 has a fluent and
/// an expression, both behind its constraint.
#[derive(Clone, Copy, Debug)]
pub struct Law {
    pub entry: u8,
    pub fluent: u8,
    /// Where its constraint stands, in the store that the law came from.
    pub place: u16,
}

/// How many of each a domain has.
#[derive(Clone, Copy, PartialEq, Eq, Debug)]
pub struct Counts {
    pub agents: usize,
    pub fluents: usize,
    pub entries: usize,
    pub laws: usize,
}

/// A domain, finished once [`Domain::finish`] has agreed. What was refused a frame
/// is none any more.
pub struct Domain {
    agents: usize,
    fluents: [Fluent; Domain::MAX_FLUENTS],
    fluent_count: usize,
    knows_count: usize,
    entries: [Entry; Domain::MAX_ENTRIES],
    entry_count: usize,
    laws: [Law; Domain::MAX_LAWS],
    /// Number of the laws of each kind or a lower one.
    laws_up_to: [u8; LAW_KINDS],
    /// The entries that have an A5 law.
    with_law: u64,
    last_kind: u8,
}

impl Domain {
    pub const MAX_AGENTS: usize = 16;
    pub const MAX_FLUENTS: usize = 32;
    pub const MAX_KNOWS: usize = 64;
    pub const MAX_ENTRIES: usize = 64;
    pub const MAX_LAWS: usize = 128;

    pub const EMPTY: Domain = Domain {
        agents: 0,
        fluents: [Fluent::EMPTY; Domain::MAX_FLUENTS],
        fluent_count: 0,
        knows_count: 0,
        entries: [Entry(0); Domain::MAX_ENTRIES],
        entry_count: 0,
        laws: [Law {
            entry: 0,
            fluent: 0,
            place: 0,
        }; Domain::MAX_LAWS],
        laws_up_to: [0; LAW_KINDS],
        with_law: 0,
        last_kind: 0,
    };

    pub fn agents(&self) -> usize {
        self.agents
    }

    pub fn fluents(&self) -> &[Fluent] {
        &self.fluents[..self.fluent_count]
    }

    pub fn entries(&self) -> &[Entry] {
        &self.entries[..self.entry_count]
    }

    pub fn laws(&self) -> &[Law] {
        &self.laws[..self.laws_of(GOAL).end]
    }

    pub fn counts(&self) -> Counts {
        Counts {
            agents: self.agents,
            fluents: self.fluent_count,
            entries: self.entry_count,
            laws: self.laws().len(),
        }
    }

    /// The numbers of the laws of a kind; they follow one another because
    /// kinds never decrease.
    pub fn laws_of(&self, kind: u8) -> Range<usize> {
        let up_to = |kind: u8| usize::from(self.laws_up_to[usize::from(kind - EXECUTABILITY)]);
        match kind {
            EXECUTABILITY => 0..up_to(kind),
            _ => up_to(kind - 1)..up_to(kind),
        }
    }

    /// The kind of the law with this number, if there is one.
    pub fn kind_of(&self, number: usize) -> Option<u8> {
        (EXECUTABILITY..=GOAL).find(|&kind| self.laws_of(kind).contains(&number))
    }

    /// Adds a frame whose count is already known to be right, and which stands
    /// at this place of the store. Refusals 3, 5, 4 and 6, in this order.
    pub fn add(&mut self, frame: &[u8], place: usize) -> Result<(), u8> {
        let (kind, payload) = (frame[0], &frame[2..]);
        if !(AGENTS..=GOAL).contains(&kind) || kind < self.last_kind {
            return Err(refusal::KIND);
        }
        self.last_kind = kind;
        match kind {
            AGENTS => self.add_agents(payload),
            FLUENT => self.add_fluent(payload),
            KNOWS => self.add_knows(payload),
            ENTRY => self.add_entry(payload),
            _ => self.add_law(kind, payload, place + 2),
        }
    }

    /// Refusal 7, if the frames so far do not make a domain.
    pub fn finish(&self) -> Result<(), u8> {
        let complete = self.agents > 0
            && self.fluent_count > 0
            && self.entry_count > 0
            && self.with_law.count_ones() as usize == self.entry_count;
        complete.then_some(()).ok_or(refusal::INCOMPLETE)
    }

    fn add_agents(&mut self, payload: &[u8]) -> Result<(), u8> {
        room(usize::from(self.agents > 0), 1)?;
        self.agents = match *payload {
            [agents] if (1..=Domain::MAX_AGENTS).contains(&agents.into()) => agents.into(),
            _ => return Err(refusal::PAYLOAD),
        };
        Ok(())
    }

    fn add_fluent(&mut self, payload: &[u8]) -> Result<(), u8> {
        room(self.fluent_count, Domain::MAX_FLUENTS)?;
        self.fluents[self.fluent_count] = Fluent::of(payload).ok_or(refusal::PAYLOAD)?;
        self.fluent_count += 1;
        Ok(())
    }

    fn add_knows(&mut self, payload: &[u8]) -> Result<(), u8> {
        room(self.knows_count, Domain::MAX_KNOWS)?;
        let (fluent, knowers) = self.masked(payload).ok_or(refusal::PAYLOAD)?;
        let known = self.fluents[..self.fluent_count].get_mut(usize::from(fluent));
        known.ok_or(refusal::PAYLOAD)?.knowers |= knowers;
        self.knows_count += 1;
        Ok(())
    }

    fn add_entry(&mut self, payload: &[u8]) -> Result<(), u8> {
        room(self.entry_count, Domain::MAX_ENTRIES)?;
        let (name @ 1.., crew) = self.masked(payload).ok_or(refusal::PAYLOAD)? else {
            return Err(refusal::PAYLOAD);
        };
        // Places that hold none yet have no name either.
        let entry = Entry::of(name, crew);
        let same = |seen, held: &Entry| seen | (held.0 == entry.0);
        if self.entries.iter().fold(false, same) {
            return Err(refusal::TWICE);
        }
        self.entries[self.entry_count] = entry;
        self.entry_count += 1;
        Ok(())
    }

    /// A byte, and a mask that names at least one agent and none that is not there.
    fn masked(&self, payload: &[u8]) -> Option<(u8, u16)> {
        let &[first, high, low] = payload else {
            return None;
        };
        let mask = number::mask(high, low);
        (mask != 0 && u32::from(mask) >> self.agents == 0).then_some((first, mask))
    }

    fn add_law(&mut self, kind: u8, payload: &[u8], place: usize) -> Result<(), u8> {
        let number = self.laws().len();
        room(number, Domain::MAX_LAWS)?;
        let set = self.set_law(number, kind, payload, place);
        set.ok_or(refusal::PAYLOAD)?;
        let from_kind = &mut self.laws_up_to[usize::from(kind - EXECUTABILITY)..];
        from_kind.iter_mut().for_each(|laws| *laws += 1);
        Ok(())
    }

    /// Gives the law of this number a payload, which stands at this place of its
    /// store, whether the law had one or not.
    pub(crate) fn set_law(
        &mut self,
        number: usize,
        kind: u8,
        payload: &[u8],
        place: usize,
    ) -> Option<()> {
        let entries = self.entry_count as u8;
        let checker = Checker {
            fluents: self.fluent_count as u8,
            entries: match kind {
                STATIC | GOAL => 0,
                _ => entries,
            },
            looking_back: false,
        };
        let (mut entry, mut fluent, mut rest) = (0, 0, payload);
        if has_entry(kind) {
            (entry, rest) = numbered(rest, entries)?;
        }
        let place = (place + payload.len() - rest.len()) as u16;
        rest = checker.constraint(rest)?;
        if kind == EFFECT {
            (fluent, rest) = numbered(rest, checker.fluents)?;
            rest = checker.expression(rest)?;
        }
        if !rest.is_empty() {
            return None;
        }
        if kind == EXECUTABILITY {
            self.with_law |= 1 << entry;
        }
        self.laws[number] = Law {
            entry,
            fluent,
            place,
        };
        Some(())
    }
}

/// Refusal 5, if as many are held as may be.
fn room(held: usize, most: usize) -> Result<(), u8> {
    (held < most).then_some(()).ok_or(refusal::TOO_MANY)
}

/// A byte that numbers one of so many things, and what follows it.
fn numbered(bytes: &[u8], held: u8) -> Option<(u8, &[u8])> {
    let (&number, rest) = bytes.split_first()?;
    (number < held).then_some((number, rest))
}

/// The numbers of the bits that are set, lowest first.
pub fn bits(mut mask: u64) -> impl Iterator<Item = usize> {
    std::iter::from_fn(move || {
        let bit = (mask != 0).then_some(mask.trailing_zeros() as usize);
        mask &= mask.wrapping_sub(1);
        bit
    })
}
