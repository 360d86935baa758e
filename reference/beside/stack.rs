//! Measures by `stack.c` the stack that each call takes on the hardest inputs. The exit code is 1 if one takes more than
//! include/waroth.h says; with an argument the figures are printed.

#[allow(dead_code)]
mod inputs;

use inputs::{repeated, Input};
use waroth_reference::generate::draft::{sheet_text, text_of, Draft};
use waroth_reference::generate::laws::always;
use waroth_reference::generate::random::Random;
use waroth_reference::generate::shapes::{deep, deep_constraint, law_with};
use waroth_reference::generate::supplements::{full, longest_of_both};
use waroth_reference::program::MAX_INPUT;

/// Enough for every shape of such a law in every kind.
const DEEPEST: usize = 100;

/// Lines, as stack.c takes them.
#[repr(C)]
struct Part {
    text: *const u8,
    size: usize,
}

#[link(name = "stack", kind = "static")]
extern "C" {
    fn stack_tried(domain: Part, supplement: Part, sheet: Part) -> i32;
    fn stack_fails(table: i32) -> i32;
}

#[link(name = "desk", kind = "static")]
extern "C" {}

fn tried(domain: &[u8], supplement: &[u8], sheet: &[u8]) -> bool {
    let [domain, supplement, sheet] = [domain, supplement, sheet].map(|text| Part {
        text: text.as_ptr(),
        size: text.len(),
    });
    unsafe { stack_tried(domain, supplement, sheet) != 0 }
}

/// A domain whose one law besides is nested as deep as may be, under 2B in every second. No law that is read before it is at fault.
fn deepest(r: &mut Random) -> Draft {
    let mut draft = Draft::new(1, &[[0, 100, 1]], &[(1, 1)]);
    let law = if r.one_in(2) {
        deep(r, &draft, 16)
    } else {
        let held = deep_constraint(r, 15);
        law_with(r, &draft, false, &always(&held))
    };
    draft.insert(law);
    draft.free()
}

fn main() {
    let input = |Input { draft, sheet, .. }| {
        let lines = repeated(&draft, usize::MAX);
        (draft, lines, sheet)
    };
    let mut inputs = [inputs::pool(), inputs::full(), inputs::deep()]
        .map(input)
        .to_vec();
    inputs.push(input(inputs::long_text()));
    let mut r = Random::seeded(1);
    for (draft, lines) in [full(&mut r), longest_of_both(&mut r)] {
        inputs.push((draft, lines, vec![0; 16 * 64]));
    }
    inputs.extend((0..DEEPEST).map(|_| {
        let draft = deepest(&mut r);
        let lines = repeated(&draft, usize::MAX);
        (draft, lines, vec![1; 64])
    }));
    for (draft, lines, sheet) in inputs {
        let sheet = sheet_text(&sheet, draft.agents);
        let taken = tried(&draft.text(), &text_of(&lines), &sheet);
        assert!(taken, "an input is not taken");
    }
    // No domain is so long.
    assert!(!tried(&[b'A'; MAX_INPUT], &[], &[]));
    let table = std::env::args().nth(1).is_some();
    if unsafe { stack_fails(table as i32) } > 0 {
        std::process::exit(1);
    }
}
