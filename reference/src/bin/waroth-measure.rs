//! Measures verdicts and lines read a second, on three fixed inputs. Each figure is
//! the best of several short runs, which other work on the machine disturbs
//! least.

use std::hint::black_box;
use std::time::{Duration, Instant};
use waroth_reference::generate::draft::{sheet_text, Draft};
use waroth_reference::generate::random::Random;
use waroth_reference::generate::sheets;
use waroth_reference::judge::LEVELS;
use waroth_reference::sheet::SHEET_BYTES;
use waroth_reference::store::STORE_BYTES;
use waroth_reference::{judge, read_domain, read_sheet};

/// Calls a second, best of seven runs of about 60 milliseconds.
fn rate(mut call: impl FnMut()) -> f64 {
    let mut best = 0f64;
    for _ in 0..7 {
        let (start, mut calls) = (Instant::now(), 0u32);
        while start.elapsed() < Duration::from_millis(60) {
            for _ in 0..16 {
                call();
            }
            calls += 16;
        }
        best = best.max(f64::from(calls) / start.elapsed().as_secs_f64());
    }
    best
}

/// The first random domain with many laws and a sheet of 64 steps for it.
fn large() -> (Draft, Vec<u8>) {
    let mut r = Random::seeded(99);
    loop {
        let draft = Draft::random(&mut r);
        if draft.laws() >= 60 {
            let sheet = sheets::sheet(&mut r, &draft);
            if sheet.len() == 64 * draft.agents {
                return (draft, sheet);
            }
        }
    }
}

fn main() {
    let (draft, sheet) = large();
    let inputs = [
        ("pool, 2 steps", Draft::pool(), vec![1, 0, 0, 2]),
        ("pool, 64 steps", Draft::pool(), vec![0; 128]),
        ("large, 64 steps", draft, sheet),
    ];
    for (name, draft, sheet) in inputs {
        let (store, text) = (draft.store(), draft.text());
        let steps = sheet_text(&sheet, draft.agents);
        let mut levels = vec![0; LEVELS];
        let verdicts = rate(|| {
            let _ = black_box(judge(black_box(&store), black_box(&sheet), &mut levels));
        });
        let mut room = vec![0; STORE_BYTES];
        let domains = rate(|| {
            let _ = black_box(read_domain(black_box(&text), &mut room));
        });
        let mut buffer = [0; SHEET_BYTES];
        let sheets = rate(|| {
            let _ = black_box(read_sheet(black_box(&steps), draft.agents, &mut buffer));
        });
        let lines = draft.frames.len() as f64;
        let step_lines = (sheet.len() / draft.agents) as f64;
        println!(
            "{name}: {verdicts:.0} verdicts/s, {:.0} domain lines/s, {:.0} sheet lines/s",
            domains * lines,
            sheets * step_lines
        );
    }
}
