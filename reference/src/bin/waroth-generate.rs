//! Runs the reference on generated cases and prints what was met. Arguments:
//! number of cases (20,000), seed (1), and "aims" to list the aims as well.
//! The exit code is 1 if anything that should be met was not.

use std::process::ExitCode;
use waroth_reference::generate::{asked, run_reference, Coverage, Generator};

fn main() -> ExitCode {
    let mut arguments = std::env::args().skip(1);
    let Some((cases, seed)) = asked(&mut arguments) else {
        eprintln!("usage: waroth-generate [cases [seed [aims]]]");
        return ExitCode::from(2);
    };
    let list = arguments.next().is_some();

    let mut generator = Generator::seeded(seed);
    let mut coverage = Coverage::of(generator.aims());
    for _ in 0..cases {
        let Some(made) = generator.next() else { break };
        let outcome = run_reference(&made.case);
        let aim = made.aim.map(|aim| (aim, generator.aims()[aim].expect));
        coverage.count(&outcome, aim);
    }
    print!("{coverage}");
    if list {
        for (label, met) in coverage.aims() {
            println!("{met:6} {label}");
        }
    }
    let complaints = coverage.complaints();
    for complaint in &complaints {
        println!("MISSING {complaint}");
    }
    ExitCode::from(!complaints.is_empty() as u8)
}
