//! The negative control: wrong machines in place of the host library, each of which the comparison
//! must report. The model that they are made from must pass.

use differential::machine::{Machine, Model};
use differential::mistakes::wrong_machines;
use differential::report::Report;
use differential::{compare, reference, CONTROL};
use std::process::ExitCode;

fn report(machine: &dyn Machine) -> Report {
    let mut report = Report::new(true);
    compare(machine, &CONTROL, true, &mut report);
    report
}

fn main() -> ExitCode {
    reference::silence_expected_panics();
    let model = report(&Model);
    println!("the model: {} disagreements", model.disagreements);
    let (mut reported, mut tried) = (0, 0);
    for machine in wrong_machines() {
        tried += 1;
        match report(machine).first {
            None => println!("NOT REPORTED: {}", machine.name),
            Some(first) => {
                reported += 1;
                println!("reported: {} (in {})", machine.name, first.split(':').next().unwrap());
            }
        }
    }
    println!("{reported} of {tried} wrong machines reported");
    ExitCode::from((model.disagreements > 0 || reported < tried) as u8)
}
