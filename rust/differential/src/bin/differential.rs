//! Compares the host library with the published Rust. `--short` takes less than a minute.
//! The last line counts the disagreements; the status is 1 if there is one.

use differential::machine::Library;
use differential::report::Report;
use differential::{compare, reference, FULL, SHORT};
use std::process::ExitCode;

fn main() -> ExitCode {
    let effort = match std::env::args().nth(1).as_deref() {
        None => FULL,
        Some("--short") => SHORT,
        Some(other) => panic!("unknown argument {other}"),
    };
    reference::silence_expected_panics();
    let mut report = Report::new(false);
    compare(&Library, &effort, false, &mut report);
    report.print();
    ExitCode::from((report.disagreements > 0) as u8)
}
