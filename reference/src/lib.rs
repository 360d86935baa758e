//! A reader and writer of domains and sheets, supplements read and laid one over
//! another, a judge, an editing session and three programs, in plain Rust. See
//! README.md for what it is for.

pub mod code;
pub mod domain;
pub mod generate;
pub mod history;
pub mod judge;
pub mod law;
pub mod line;
pub mod number;
mod page;
pub mod plain;
pub mod program;
pub mod refusal;
pub mod report;
pub mod session;
pub mod sheet;
pub mod store;
pub mod supplement;

pub use domain::{Counts, Domain};
pub use judge::{judge, judge_under, Judged, Verdict};
pub use session::Session;
pub use sheet::{read_sheet, write_sheet};
pub use store::{accepted, counts, read_domain, write_domain, FrameReader};
pub use supplement::{law_in_force, lay, read_supplement, LawInForce};
