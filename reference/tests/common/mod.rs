//! What tests of several files share.

use waroth_reference::generate::draft::{text_of, Draft};
use waroth_reference::judge::{judge, judge_under, Judged, LEVELS};
use waroth_reference::supplement::SUPPLEMENT_BYTES;
use waroth_reference::{plain, read_supplement};

/// The supplement's bytes; what is lent behind them is zero, all of it where
/// the text is refused.
pub fn read(draft: &Draft, text: &[u8]) -> Result<Vec<u8>, (u8, usize)> {
    let mut buffer = vec![0xEE; SUPPLEMENT_BYTES + 5];
    let read = read_supplement(&draft.store(), text, &mut buffer);
    let rest = buffer.split_off(read.unwrap_or(0));
    assert!(rest.iter().all(|&byte| byte == 0));
    read.map(|_| buffer)
}

pub fn read_frames(draft: &Draft, frames: &[Vec<u8>]) -> Result<Vec<u8>, (u8, usize)> {
    read(draft, &text_of(frames))
}

/// The verdict under a supplement, and all levels.
pub fn judged(draft: &Draft, supplement: &[u8], sheet: &[u8]) -> (Judged, Vec<i16>) {
    let mut levels = vec![-777; LEVELS];
    let judged = judge_under(&draft.bytes(), supplement, sheet, &mut levels);
    (judged.expect("no refusal"), levels)
}

/// What the two judges say without one.
pub fn judged_alone(draft: &Draft, sheet: &[u8]) -> (Judged, Vec<i16>) {
    let (mut levels, mut others) = (vec![-777; LEVELS], vec![-777; LEVELS]);
    let judged = judge(&draft.bytes(), sheet, &mut levels);
    assert_eq!(plain::judge(&draft.bytes(), sheet, &mut others), judged);
    assert!(levels == others);
    (judged.expect("no refusal"), levels)
}
