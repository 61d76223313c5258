//! Counts what was compared and tells what disagrees.

use std::ops::Range;

use nilguseg::{kind, Outcome};

/// Disagreements told in full; the rest are only counted.
const TOLD: u64 = 20;

/// What a comparison has found so far.
pub struct Report {
    /// How many disagreements there are.
    pub disagreements: u64,
    /// The first disagreement, in one line.
    pub first: Option<String>,
    /// Compared without their outcome being told: words decoded, triples encoded, lists and sheets.
    pub others: Vec<(&'static str, u64)>,
    steps: Counts,
    runs: Counts,
    run_steps: u64,
    kinds: [u64; 43],
    quiet: bool,
}

/// Counts by outcome: `PLAIN` from 0 on, and faults at their numbers.
#[derive(Default)]
struct Counts([u64; 15]);

const PLAIN: [&str; 3] = ["stepped", "halted", "limit"];

impl Counts {
    fn count(&mut self, outcome: Outcome) {
        let slot = match outcome {
            Outcome::Stepped => 0,
            Outcome::Halted => 1,
            Outcome::Limit => 2,
            Outcome::Fault(fault) => fault.number as usize,
            Outcome::Refused(_) | Outcome::Log(_) => {
                unreachable!("the published Rust refuses nothing and logs nothing")
            }
        };
        self.0[slot] += 1;
    }

    fn total(&self) -> u64 {
        self.0.iter().sum()
    }

    /// Those of `PLAIN` in the range given, then the faults.
    fn listed(&self, plain: Range<usize>) -> String {
        let plain = plain.map(|slot| format!("{} {}", PLAIN[slot], self.0[slot]));
        let faults = (10..15).map(|number| format!("fault {number}: {}", self.0[number]));
        plain.chain(faults).collect::<Vec<_>>().join(", ")
    }
}

impl Report {
    /// A quiet report prints nothing by itself.
    pub fn new(quiet: bool) -> Report {
        Report {
            disagreements: 0,
            first: None,
            others: Vec::new(),
            steps: Counts::default(),
            runs: Counts::default(),
            run_steps: 0,
            kinds: [0; 43],
            quiet,
        }
    }

    /// Counts a disagreement in `what`; its details are asked for only where they are told.
    pub fn disagree(&mut self, what: &str, details: impl FnOnce() -> String) {
        self.disagreements += 1;
        if self.first.is_none() || !self.quiet && self.disagreements <= TOLD {
            let told = format!("{what}: {}", details());
            if !self.quiet {
                println!("DISAGREES in {told}");
            }
            self.first.get_or_insert(told);
        }
    }

    /// Adds to what is compared without its outcome being told.
    pub fn count(&mut self, what: &'static str, more: u64) {
        match self.others.iter_mut().find(|(counted, _)| *counted == what) {
            Some((_, count)) => *count += more,
            None => self.others.push((what, more)),
        }
    }

    /// Counts a single step by how it came out and, unless the core was halted, by its kind, if its
    /// word has one.
    pub fn count_step(&mut self, kind: Option<u8>, step: Outcome) {
        self.steps.count(step);
        if let (Some(kind), false) = (kind, step == Outcome::Halted) {
            self.kinds[kind as usize] += 1;
        }
    }

    /// Counts a run by its end, and its steps.
    pub fn count_run(&mut self, end: Outcome, steps: u32) {
        self.runs.count(end);
        self.run_steps += steps as u64;
    }

    /// How many single steps were counted.
    pub fn steps(&self) -> u64 {
        self.steps.total()
    }

    /// How many steps the counted runs have together.
    pub fn run_steps(&self) -> u64 {
        self.run_steps
    }

    /// Prints all counts; the last line is that of the disagreements.
    pub fn print(&self) {
        for (what, count) in &self.others {
            println!("{count} {what}");
        }
        println!("{} single steps: {}", self.steps(), self.steps.listed(0..2));
        println!("{} runs of {} steps: {}", self.runs.total(), self.run_steps, self.runs.listed(1..3));
        let kinds = kind::NAMES.iter().zip(self.kinds).map(|(name, n)| format!("{} {n}", name.to_lowercase()));
        println!("single steps by kind: {}", kinds.collect::<Vec<_>>().join(", "));
        println!("{} disagreements", self.disagreements);
    }
}
