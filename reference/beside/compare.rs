//! The proved library and the second judge on generated cases. Arguments: number of cases (20,000) and seed (1). The
//! exit code is 1 if an answer or a lent byte differs, or if anything that should be met was not.

mod cases;
mod desk;
mod lent;

use std::process::ExitCode;
use waroth_reference::generate::{asked, run_reference, Case, Coverage, Generator, Outcome};

/// Differences that are printed whole.
const SHOWN: usize = 5;

fn main() -> ExitCode {
    let mut arguments = std::env::args().skip(1);
    let Some((cases, seed)) = asked(&mut arguments) else {
        eprintln!("usage: compare [cases [seed]]");
        return ExitCode::from(2);
    };
    let mut generator = Generator::seeded(seed);
    let mut coverage = Coverage::of(generator.aims());
    let mut differences = 0;
    for number in 0..cases {
        let Some(made) = generator.next() else { break };
        let expected = run_reference(&made.case);
        if let Some(difference) = difference(&made.case, &expected) {
            differences += 1;
            if differences <= SHOWN {
                println!("DIFFERENT case {number}: {difference}");
            }
        }
        let aim = made.aim.map(|aim| (aim, generator.aims()[aim].expect));
        coverage.count(&expected, aim);
    }
    print!("{coverage}");
    let complaints = coverage.complaints();
    for complaint in &complaints {
        println!("MISSING {complaint}");
    }
    println!("{cases} cases from seed {seed}: {differences} differ");
    ExitCode::from((differences > 0 || !complaints.is_empty()) as u8)
}

/// What differs first between the library's outcome and the one expected.
fn difference(case: &Case, expected: &Outcome) -> Option<String> {
    let found = match cases::run_library(case) {
        Ok(found) => found,
        Err(broken) => return Some(broken),
    };
    if found == *expected {
        return None;
    }
    let answers = found.answers.iter().zip(&expected.answers);
    if let Some((at, (found, expected))) = answers.enumerate().find(|(_, (f, e))| f != e) {
        return Some(format!("answer {at} is {found:?}, not {expected:?}"));
    }
    let (answers, about) = (found.answers.len(), format!("{case:?}"));
    let (what, at) = if found.bytes != expected.bytes {
        ("byte", first(&found.bytes, &expected.bytes))
    } else if found.laid != expected.laid {
        ("result", first(&found.laid, &expected.laid))
    } else if found.levels != expected.levels {
        ("levels", first(&found.levels, &expected.levels))
    } else {
        ("session", first(&found.sessions, &expected.sessions))
    };
    let about: String = about.chars().take(200).collect();
    Some(format!("{what} {at} after {answers} answers of {about}"))
}

fn first<T: PartialEq>(found: &[T], expected: &[T]) -> usize {
    let differs = found.iter().zip(expected).position(|(f, e)| f != e);
    differs.unwrap_or(found.len().min(expected.len()))
}
