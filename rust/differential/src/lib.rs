//! The comparison of a machine with the published Rust, and with the model (model.rs) where there
//! is no Rust. ../README.md says what is compared, and what the words used here mean. The machine
//! is that of docs/MACHINE.md, its numbers are those of docs/NUMBERS.md.

mod assembly;
mod calls;
mod editions;
mod lists;
mod logs;
mod losses;
pub mod machine;
pub mod mistakes;
pub mod model;
mod pair;
pub mod programs;
pub mod random;
pub mod reference;
pub mod report;
mod rights;
mod runs;
mod sheets;
pub mod states;
mod steps;
mod words;
pub mod work;

use machine::Machine;
use report::Report;

/// How much is compared.
pub struct Effort {
    /// States in which each decodable word is stepped, at each memory length.
    pub states: usize,
    /// Of the 65,536 values of an operand, each of these many is taken.
    pub stride: usize,
    /// Steps in lockstep.
    pub lockstep: u64,
    /// Steps of runs with limits.
    pub runs: u64,
    /// Steps of each program of the benchmark, at most.
    pub measured: u32,
    /// Sheets loaded and written.
    pub sheets: usize,
    /// Sheets written in each edition, of which each record is taken out.
    pub losses: usize,
    /// Pairs of word lists drawn.
    pub lists: usize,
    /// Programs run with a log.
    pub logs: usize,
    /// Programs run with rights.
    pub rights: usize,
    /// Of the accesses at borders of pages, one in so many is taken.
    pub borders: usize,
    /// Programs run in edition 2.
    pub editions: usize,
    /// Of the amounts from 64 on, each of these many is taken in both editions.
    pub amounts: usize,
}

/// What `scripts/differential` compares.
pub const FULL: Effort = Effort {
    states: 60,
    stride: 1,
    lockstep: 40_000_000,
    runs: 20_000_000,
    measured: 1_000_000,
    sheets: 400_000,
    losses: 50_000,
    lists: 1_000_000,
    logs: 20_000,
    rights: 60_000,
    borders: 1,
    editions: 40_000,
    amounts: 1,
};

/// What `scripts/differential --short` compares, in less than a minute.
pub const SHORT: Effort = Effort {
    states: 6,
    stride: 16,
    lockstep: 2_000_000,
    runs: 2_000_000,
    measured: 100_000,
    sheets: 40_000,
    losses: 5_000,
    lists: 100_000,
    logs: 1_000,
    rights: 2_000,
    borders: 8,
    editions: 2_000,
    amounts: 1,
};

/// Enough to find a wrong machine.
pub const CONTROL: Effort = Effort {
    states: 4,
    stride: 64,
    lockstep: 300_000,
    runs: 300_000,
    measured: 10_000,
    sheets: 10_000,
    losses: 100,
    lists: 10_000,
    logs: 300,
    rights: 60,
    borders: 32,
    editions: 100,
    amounts: 64,
};

type Part = fn(&dyn Machine, &Effort, &mut Report);

/// By the time that they take, so that most wrong machines are found soon.
const PARTS: [Part; 15] = [
    |machine, _, report| words::decode(machine, report),
    |machine, effort, report| lists::lists(machine, effort.lists, report),
    |machine, effort, report| sheets::sheets(machine, effort.sheets, report),
    |machine, effort, report| losses::lost_records(machine, effort.losses, report),
    |machine, effort, report| steps::every_value(machine, effort.stride, report),
    |machine, effort, report| runs::measured(machine, effort.measured, report),
    |machine, _, report| sheets::refusals(machine, report),
    |machine, effort, report| logs::logs(machine, effort.logs, effort.measured, report),
    |machine, effort, report| {
        let Effort { editions, measured, states, amounts, .. } = *effort;
        editions::editions(machine, editions, measured, states, amounts, report)
    },
    |machine, _, report| steps::every_edge(machine, report),
    |machine, effort, report| runs::limits(machine, effort.runs, report),
    |machine, effort, report| runs::lockstep(machine, effort.lockstep, report),
    |machine, effort, report| rights::rights(machine, effort.rights, effort.measured, effort.borders, report),
    |machine, effort, report| steps::every_word(machine, effort.states, report),
    |machine, _, report| words::encode(machine, report),
];

/// All parts of the comparison; after the first disagreement no further part, where `until_first`
/// is set.
pub fn compare(machine: &dyn Machine, effort: &Effort, until_first: bool, report: &mut Report) {
    for part in PARTS {
        if until_first && report.disagreements > 0 {
            return;
        }
        part(machine, effort, report);
    }
}
