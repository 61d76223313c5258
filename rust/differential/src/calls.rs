//! Calls, each with its answer and with what it leaves of what was lent.

use crate::machine::{Machine, Model};
use crate::model::Terms;
use crate::report::Report;
use nilguseg::{Core, LoggedRun, Outcome, Refusal, Run};

/// What may be lent to a call, and the edition that it is handed or, by a load, hands back. The
/// records are a sheet's or a log's.
#[derive(Debug, Clone, PartialEq)]
pub struct Lent {
    pub core: Core,
    pub memory: Vec<u16>,
    pub marks: Vec<u8>,
    pub rights: Option<Vec<u8>>,
    pub edition: u16,
    pub records: Vec<u32>,
}

/// What a call answers, and what it leaves of what was lent.
#[derive(Debug, PartialEq)]
pub struct Called<A> {
    pub answer: A,
    pub left: Lent,
}

/// Lent without rights, in edition 1.
pub fn lent(core: Core, memory: Vec<u16>, marks: usize, records: Vec<u32>) -> Lent {
    Lent { core, memory, marks: vec![0xA4; marks], rights: None, edition: 1, records }
}

pub fn step(machine: &dyn Machine, lent: &mut Lent) -> Outcome {
    machine.step(&mut lent.core, &mut lent.memory, &mut lent.marks, lent.edition)
}

pub fn run(limit: u32) -> impl Fn(&dyn Machine, &mut Lent) -> Run {
    move |machine, Lent { core, memory, marks, rights, edition, .. }| {
        machine.run(core, memory, marks, terms(rights, *edition), limit)
    }
}

/// A run with the records as the room for its log.
pub fn run_logged(limit: u32) -> impl Fn(&dyn Machine, &mut Lent) -> LoggedRun {
    move |machine, Lent { core, memory, marks, rights, edition, records }| {
        machine.run_logged(core, memory, marks, terms(rights, *edition), limit, records)
    }
}

/// A replay of the records.
pub fn replay(size: usize, limit: u32) -> impl Fn(&dyn Machine, &mut Lent) -> Run {
    move |machine, Lent { core, rights, edition, records, .. }| {
        machine.replay(core, size, terms(rights, *edition), limit, records)
    }
}

fn terms(rights: &Option<Vec<u8>>, edition: u16) -> Terms<'_> {
    Terms { rights: rights.as_deref(), edition }
}

pub fn load_sheet(machine: &dyn Machine, lent: &mut Lent) -> Result<(), Refusal> {
    machine.load_sheet(&mut lent.core, &mut lent.edition, &lent.records, &mut lent.memory)
}

pub fn write_sheet(machine: &dyn Machine, lent: &mut Lent) -> Result<usize, Refusal> {
    machine.write_sheet(&lent.core, lent.edition, &lent.memory, &mut lent.records)
}

/// Calls the machine and compares with what is expected.
pub fn expect<A: PartialEq + std::fmt::Debug>(
    machine: &dyn Machine,
    what: &str,
    lent: &Lent,
    call: impl Fn(&dyn Machine, &mut Lent) -> A,
    expected: &Called<A>,
    report: &mut Report,
) {
    let given = called(machine, lent, call);
    if given != *expected {
        report.disagree(what, || details(lent, &given, expected));
    }
}

/// A logged run; the run without a log, as far as there was room; and the replay, for which memory
/// is dropped.
pub fn expect_runs(
    machine: &dyn Machine,
    what: [&str; 3],
    given: &Lent,
    limit: u32,
    expected: &Called<LoggedRun>,
    report: &mut Report,
) {
    expect(machine, what[0], given, run_logged(limit), expected, report);
    let Called { answer: LoggedRun { end, steps, logged }, ref left } = *expected;
    let (end, limit) = if end == Outcome::Log(30) { (Outcome::Limit, steps) } else { (end, limit) };
    let plain = Called { answer: Run { end, steps }, left: Lent { records: given.records.clone(), ..left.clone() } };
    expect(machine, what[1], given, run(limit), &plain, report);
    let log = log_of(given, left.records[..logged].to_vec());
    let replayed = Called { answer: Run { end, steps }, left: Lent { core: left.core, ..log.clone() } };
    expect(machine, what[2], &log, replay(given.memory.len(), limit), &replayed, report);
}

/// What a replay of a log is lent: the core, the rights and the edition of its run, and no memory.
pub fn log_of(given: &Lent, log: Vec<u32>) -> Lent {
    Lent { rights: given.rights.clone(), edition: given.edition, ..lent(given.core, vec![], 0, log) }
}

fn details<A: std::fmt::Debug>(lent: &Lent, given: &Called<A>, expected: &Called<A>) -> String {
    let (words, records) = (lent.memory.len(), lent.records.len());
    if words.max(records) < 20 && lent.rights.is_none() {
        return format!("from {lent:x?}\n  gives {given:x?}\n  expected {expected:x?}");
    }
    let other = (0..records).find(|&at| given.left.records[at] != expected.left.records[at]);
    format!(
        "edition {}, memory of {words} words, {records} records of which the first to differ is {other:?}, {}from {:?}\n  answered {:?} {:?}\n  expected {:?} {:?}",
        lent.edition, told(&lent.rights), lent.core, given.answer, given.left.core, expected.answer, expected.left.core
    )
}

/// Rights in short: how many bytes, and the first of them that do not allow everything, with their
/// pages.
fn told(rights: &Option<Vec<u8>>) -> String {
    let Some(rights) = rights else { return String::new() };
    let less: Vec<(usize, u8)> = rights.iter().copied().enumerate().filter(|(_, byte)| *byte != 7).take(8).collect();
    format!("{} rights, not 7 at {less:?}, ", rights.len())
}

/// Calls the machine and the model with equal arguments and compares. Returns what the model does.
pub fn compare<A: PartialEq + std::fmt::Debug>(
    machine: &dyn Machine,
    what: &str,
    lent: &Lent,
    call: impl Fn(&dyn Machine, &mut Lent) -> A,
    report: &mut Report,
) -> Called<A> {
    let expected = called(&Model, lent, &call);
    expect(machine, what, lent, call, &expected, report);
    expected
}

pub fn called<A>(machine: &dyn Machine, lent: &Lent, call: impl Fn(&dyn Machine, &mut Lent) -> A) -> Called<A> {
    let mut left = lent.clone();
    Called { answer: call(machine, &mut left), left }
}
