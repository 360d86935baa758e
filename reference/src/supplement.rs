//! Supplements: laws that stand in for a domain's own, as frames of kind AF.
//! The payload is a law's number, then kind byte and payload of the new law.

use crate::domain::{has_entry, Domain, EXECUTABILITY};
use crate::line::Lines;
use crate::refusal;
use crate::store::{self, FrameReader};

pub const REPLACEMENT: u8 = 0xAF;

/// Bytes that reading and laying ask of their buffer. Each law is replaced once
/// at most, so the frames always fit.
pub const SUPPLEMENT_BYTES: usize = 16_000;

/// Replaces a law of a domain as a frame says, which stands at this place of its
/// store. Refusals 3, 4 for a payload under 3 bytes, 20, and 4 for everything
/// else, in this order.
fn add(domain: &mut Domain, replaced: &mut u128, frame: &[u8], place: usize) -> Result<(), u8> {
    if frame[0] != REPLACEMENT {
        return Err(refusal::KIND);
    }
    let &[_, _, number, kind, first, ..] = frame else {
        return Err(refusal::PAYLOAD);
    };
    let number = usize::from(number);
    let stands_for = domain.kind_of(number) == Some(kind)
        && (!has_entry(kind) || domain.laws()[number].entry == first);
    if !stands_for || *replaced >> number & 1 == 1 {
        return Err(refusal::OTHER_LAW);
    }
    *replaced |= 1 << number;
    let set = domain.set_law(number, kind, &frame[4..], place + 4);
    set.ok_or(refusal::PAYLOAD)
}

/// Reads a supplement's text against the domain of a store and returns the
/// bytes used, or the refusal and its line. Refusals 10, 15, both with line 0,
/// then line by line.
pub fn read_supplement(store: &[u8], text: &[u8], buffer: &mut [u8]) -> Result<usize, (u8, usize)> {
    if buffer.len() < SUPPLEMENT_BYTES {
        return Err((refusal::BUFFER, 0));
    }
    let mut domain = Domain::EMPTY;
    let read = match store::gather(&mut domain, store) {
        Some(()) => read_frames(&mut domain, &mut Lines::of(text), &[], buffer),
        None => Err((refusal::STORE, 0)),
    };
    let read = read.map(|(_, used)| used);
    buffer[read.unwrap_or(0)..].fill(0);
    read
}

/// Replaces a domain's laws as lines say, up to one that starts as given, and
/// returns the mask of those replaced and the bytes used.
pub(crate) fn read_frames(
    domain: &mut Domain,
    lines: &mut Lines,
    ends: &[&[u8]],
    buffer: &mut [u8],
) -> Result<(u128, usize), (u8, usize)> {
    let mut replaced = 0;
    let take = |frame: &[u8], place| add(domain, &mut replaced, frame, place);
    let used = store::fill(lines, ends, buffer, take)?;
    Ok((replaced, used))
}

/// Replaces the domain's laws and returns the mask of those replaced; `None`
/// unless the supplement is one that it accepts, followed by zeros.
pub fn replace(domain: &mut Domain, supplement: &[u8]) -> Option<u128> {
    let mut replaced = 0;
    let take = |frame: &[u8], place| add(domain, &mut replaced, frame, place);
    store::take_all(supplement, take)?;
    Some(replaced)
}

/// A domain with some of its laws replaced, and the stores that they stand in.
pub struct InForce<'a> {
    pub domain: &'a Domain,
    pub store: &'a [u8],
    pub supplement: &'a [u8],
    /// Mask of the laws that stand in the supplement.
    pub replaced: u128,
}

impl<'a> InForce<'a> {
    /// Fills an empty domain; `None` unless the store is an accepted one and the
    /// supplement one that it accepts, both followed by zeros.
    pub fn of(domain: &'a mut Domain, store: &'a [u8], supplement: &'a [u8]) -> Option<Self> {
        store::gather(domain, store)?;
        let replaced = replace(domain, supplement)?;
        Some(InForce {
            domain,
            store,
            supplement,
            replaced,
        })
    }

    /// The law of this number, from its constraint on.
    pub fn bytes(&self, number: usize) -> &'a [u8] {
        let store = match self.replaced >> number & 1 {
            0 => self.store,
            _ => self.supplement,
        };
        &store[self.domain.laws()[number].place.into()..]
    }
}

/// Lays one supplement over another of the same domain: of each law number that
/// either has one frame, the upper one's where both have it, in the order of the
/// numbers. Returns the bytes used. Refusals 10, and 15 for the domain's store or
/// for either supplement's; both leave the result as it is.
pub fn lay(store: &[u8], lower: &[u8], upper: &[u8], result: &mut [u8]) -> Result<usize, u8> {
    if result.len() < SUPPLEMENT_BYTES {
        return Err(refusal::BUFFER);
    }
    let mut domain = Domain::EMPTY;
    store::gather(&mut domain, store).ok_or(refusal::STORE)?;
    let mut frames: [&[u8]; Domain::MAX_LAWS] = [&[]; Domain::MAX_LAWS];
    for supplement in [lower, upper] {
        // A law that was replaced keeps its kind and entry, so that the upper one
        // is accepted just where the domain itself accepts it.
        replace(&mut domain, supplement).ok_or(refusal::STORE)?;
        for frame in FrameReader::over(supplement) {
            frames[usize::from(frame[2])] = frame;
        }
    }
    let mut used = 0;
    for frame in frames {
        result[used..][..frame.len()].copy_from_slice(frame);
        used += frame.len();
    }
    result[used..].fill(0);
    Ok(used)
}

/// Where the payload of a law in force stands.
#[derive(Clone, Copy, PartialEq, Eq, Debug)]
pub struct LawInForce {
    /// In the supplement's store, else in the domain's.
    pub replaced: bool,
    pub place: usize,
    pub size: usize,
}

/// The law in force of this number. Refusals 15, for either store, and 20.
pub fn law_in_force(store: &[u8], supplement: &[u8], number: usize) -> Result<LawInForce, u8> {
    let mut domain = Domain::EMPTY;
    store::gather(&mut domain, store).ok_or(refusal::STORE)?;
    replace(&mut domain, supplement).ok_or(refusal::STORE)?;
    let mut frames = FrameReader::over(store);
    let mut laws = frames.by_ref().filter(|frame| frame[0] >= EXECUTABILITY);
    let own = laws.nth(number).ok_or(refusal::OTHER_LAW)?;
    let mut others = FrameReader::over(supplement);
    let other = others.find(|frame| usize::from(frame[2]) == number);
    // Each reader stands behind the frame that it found.
    Ok(match other {
        Some(frame) => LawInForce::ending(others.place(), &frame[4..], true),
        None => LawInForce::ending(frames.place(), &own[2..], false),
    })
}

impl LawInForce {
    fn ending(end: usize, payload: &[u8], replaced: bool) -> Self {
        LawInForce {
            replaced,
            place: end - payload.len(),
            size: payload.len(),
        }
    }
}
