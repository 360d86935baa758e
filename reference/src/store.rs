//! The store: a domain's frames end to end, then zeros.

use crate::domain::{Counts, Domain, Fluent};
use crate::line::{line_length, write_line, Lines, MAX_PAYLOAD};
use crate::refusal;

/// Bytes that the domain reader asks of its store.
pub const STORE_BYTES: usize = 36_000;

/// Bytes of the longest text: every limit reached, every fluent with one of its own,
/// every law's line full.
pub const LONGEST_TEXT: usize = line_length(2 + 1)
    + Domain::MAX_FLUENTS * line_length(2 + Fluent::MAX_PAYLOAD)
    + (Domain::MAX_KNOWS + Domain::MAX_ENTRIES) * line_length(2 + 3)
    + Domain::MAX_LAWS * line_length(2 + MAX_PAYLOAD);

/// Reads a domain text into the store and returns the bytes used, or the
/// refusal and its line.
pub fn read_domain(text: &[u8], store: &mut [u8]) -> Result<usize, (u8, usize)> {
    if store.len() < STORE_BYTES {
        return Err((refusal::BUFFER, 0));
    }
    let mut domain = Domain::EMPTY;
    let read = read_frames(&mut domain, &mut Lines::of(text), &[], store);
    store[read.unwrap_or(0)..].fill(0);
    read
}

/// Fills an empty domain from lines, up to one that starts as given or to the
/// end, and returns the bytes used.
pub(crate) fn read_frames(
    domain: &mut Domain,
    lines: &mut Lines,
    ends: &[&[u8]],
    store: &mut [u8],
) -> Result<usize, (u8, usize)> {
    let used = fill(lines, ends, store, |frame, place| domain.add(frame, place))?;
    let finished = domain.finish();
    finished.map_err(|number| (number, lines.number()))?;
    Ok(used)
}

/// Puts the frames of a text end to end as long as they are taken, up to a line
/// that starts as given, and returns the bytes used.
///
/// The limits keep what is taken so short that a further frame always fits.
pub(crate) fn fill(
    lines: &mut Lines,
    ends: &[&[u8]],
    store: &mut [u8],
    mut take: impl FnMut(&[u8], usize) -> Result<(), u8>,
) -> Result<usize, (u8, usize)> {
    let mut used = 0;
    while !lines.at(ends) {
        let Some(line) = lines.next_line() else { break };
        let taken = line.and_then(|line| {
            let frame = &mut store[used..][..2 + line.count()];
            frame[0] = line.kind;
            frame[1] = line.count() as u8;
            line.read(&mut frame[2..])?;
            take(frame, used)?;
            Ok(frame.len())
        });
        used += taken.map_err(|number| (number, lines.number()))?;
    }
    Ok(used)
}

/// The frame at a place of any store: a kind other than 00, a count up to 120
/// and the whole payload.
#[inline]
pub fn frame_at(store: &[u8], place: usize) -> Option<&[u8]> {
    let rest = store.get(place..)?;
    let &[kind, count, ..] = rest else {
        return None;
    };
    if kind == 0 || count as usize > MAX_PAYLOAD {
        return None;
    }
    rest.get(..2 + count as usize)
}

/// Has every frame of a store taken, with its place; `None` where one is not, or
/// where other bytes than zeros follow the last.
pub(crate) fn take_all(
    store: &[u8],
    mut take: impl FnMut(&[u8], usize) -> Result<(), u8>,
) -> Option<()> {
    let mut place = 0;
    while let Some(frame) = frame_at(store, place) {
        take(frame, place).ok()?;
        place += frame.len();
    }
    all_zero(&store[place..]).then_some(())
}

/// Whether all bytes are 0. Most of a store is, so this goes by blocks that begin
/// where those of the memory do, and leaves none before its end.
pub(crate) fn all_zero(bytes: &[u8]) -> bool {
    let none_set = |block: &[u8]| block.iter().fold(0, |seen, byte| seen | byte) == 0;
    let before = bytes.as_ptr().align_offset(64).min(bytes.len());
    let (first, rest) = bytes.split_at(before);
    let mut blocks = rest.chunks_exact(512);
    none_set(first) && blocks.all(none_set) && none_set(blocks.remainder())
}

/// Fills an empty domain from a store; `None` unless it is an accepted one
/// followed by zeros.
pub(crate) fn gather(domain: &mut Domain, store: &[u8]) -> Option<()> {
    take_all(store, |frame, place| domain.add(frame, place))?;
    domain.finish().ok()
}

/// Whether the store is an accepted domain followed by zeros.
pub fn accepted(store: &[u8]) -> bool {
    counts(store).is_ok()
}

/// How many agents, fluents, entries and laws an accepted domain has; refusal
/// 15.
pub fn counts(store: &[u8]) -> Result<Counts, u8> {
    let mut domain = Domain::EMPTY;
    gather(&mut domain, store).ok_or(refusal::STORE)?;
    Ok(domain.counts())
}

/// Writes the text of an accepted domain and returns the bytes written.
pub fn write_domain(store: &[u8], text: &mut [u8]) -> Result<usize, u8> {
    let frames = FrameReader::start(store)?;
    let length: usize = frames.clone().map(|frame| line_length(frame.len())).sum();
    if text.len() < length {
        return Err(refusal::BUFFER);
    }
    let mut place = 0;
    for frame in frames {
        place += write_line(frame[0], &frame[2..], &mut text[place..]);
    }
    Ok(place)
}

/// Hands out the frames of a store, each as the stored bytes themselves. It
/// stays where no frame stands, so it goes on answering `None` there.
#[derive(Clone, Debug)]
pub struct FrameReader<'a> {
    store: &'a [u8],
    place: usize,
}

impl<'a> FrameReader<'a> {
    /// Stands at the first frame of an accepted domain; refusal 15 otherwise.
    pub fn start(store: &'a [u8]) -> Result<Self, u8> {
        if accepted(store) {
            Ok(FrameReader::over(store))
        } else {
            Err(refusal::STORE)
        }
    }

    /// What a refused start leaves: a reader over no bytes.
    pub fn over_nothing() -> Self {
        FrameReader::over(&[])
    }

    /// Stands at the first frame of any bytes.
    pub(crate) fn over(store: &'a [u8]) -> Self {
        FrameReader { store, place: 0 }
    }

    pub fn place(&self) -> usize {
        self.place
    }
}

impl<'a> Iterator for FrameReader<'a> {
    type Item = &'a [u8];

    fn next(&mut self) -> Option<&'a [u8]> {
        let frame = frame_at(self.store, self.place)?;
        self.place += frame.len();
        Some(frame)
    }
}
