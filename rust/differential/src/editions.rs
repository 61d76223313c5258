//! The second edition of the instruction set (docs/MACHINE.md, Editions), against the model, for
//! the published Rust has only the first. Where the Rust does not stop by 13 or 14 it measures
//! edition 2 too: the model's run must be the Rust's.

use crate::calls::{
    called, compare, expect_runs, lent, log_of, replay, run, run_logged, step, write_sheet, Called, Lent,
};
use crate::logs::{with_room, Published};
use crate::machine::{Machine, Model};
use crate::model;
use crate::random::Random;
use crate::report::Report;
use crate::rights::used;
use crate::runs::{measured_programs, random_program, structured_program, Program};
use crate::states::{self, edges, word};
use nilguseg::{kind::*, Core, Fault, LoggedRun, Outcome, Refusal, PAGES};

/// Numbers that are handed over as an edition.
const NUMBERS: [u16; 9] = [0, 1, 2, 3, 255, 256, 257, 258, 65535];

struct Editions<'a> {
    machine: &'a dyn Machine,
    random: Random,
    report: &'a mut Report,
}

/// `programs` programs in edition 2, the benchmark's for at most `steps` steps each; every word
/// that decodes in `states` states; and of the amounts from 64 on, each `stride`-th.
pub fn editions(machine: &dyn Machine, programs: usize, steps: u32, states: usize, stride: usize, report: &mut Report) {
    let mut editions = Editions { machine, random: Random::new(12), report };
    editions.refusals();
    editions.amounts(stride);
    editions.words(states);
    for program in measured_programs() {
        editions.program(&program, steps);
    }
    for _ in 0..programs {
        let program = shifting_program(&mut editions.random);
        let limit = editions.random.pick(&[0, 1, 5, 40, 500, 500, 3000]);
        editions.program(&program, limit);
    }
}

impl Editions<'_> {
    /// Every call that is handed an edition, over lengths, rights and buffers that fit or do not.
    fn refusals(&mut self) {
        let rights = [None, Some(vec![7; PAGES]), Some(vec![7; PAGES - 1]), Some(vec![8; PAGES])];
        for edition in NUMBERS {
            for (memory, marks) in [(0, 0), (0, 2), (2, 1), (2, 2), (1, 1)] {
                rights.iter().for_each(|rights| self.refusal(edition, memory, marks, rights.clone()));
            }
            for length in [65536, 65537] {
                self.refusal(edition, length, length, None);
            }
        }
    }

    fn refusal(&mut self, edition: u16, memory: usize, marks: usize, rights: Option<Vec<u8>>) {
        let core = Core { r: [1, 16, 0, 0, 0, 0, 0, 0], ef: self.random.below(2) as u16, ..Core::new() };
        let lent = lent(core, vec![word(SHL, 0, 1); memory], marks, vec![0x5000_0001; 16]);
        let (given, limit) = (Lent { edition, rights, ..lent }, self.random.pick(&[0, 3]));
        let plain = compare(self.machine, "a run handed an edition", &given, run(limit), self.report);
        compare(self.machine, "a step handed an edition", &given, step, self.report);
        compare(self.machine, "a logged run handed an edition", &given, run_logged(limit), self.report);
        compare(self.machine, "a replay handed an edition", &given, replay(memory, limit), self.report);
        for room in [0, 13, 14, 15, 16, 17] {
            let buffer = Lent { records: vec![0xDEAD_BEEF; room], ..given.clone() };
            compare(self.machine, "a writer handed an edition", &buffer, write_sheet, self.report);
        }
        self.report.count("editions handed to every call with lengths and rights", 1);
        self.report.count("of them are refused by 34", (plain.answer.end == Outcome::Refused(Refusal(34))) as u64);
    }

    /// Shl, shr and bitset by each amount, and neg of it, in both editions.
    fn amounts(&mut self, stride: usize) {
        let mut steps = 0;
        for amount in (0..64).chain((64..=0xFFFF).step_by(stride)) {
            for (edition, ef) in [(1, 0), (1, 2), (2, 0), (2, 2)] {
                let core = |r1, r2| Core { r: [7, r1, r2, 7, 7, 7, 7, 7], ef, ..Core::new() };
                self.step(word(NEG, 1, 0), core(amount, 7), edition);
                for register in [0, 1, 0x8000, 0xFFFF, self.random.word()] {
                    for kind in [SHL, SHR, BITSET] {
                        self.step(word(kind, 1, 2), core(register, amount), edition);
                    }
                }
                steps += 16;
            }
        }
        self.report.count("steps of shl, shr, bitset and neg by every amount in both editions", steps);
    }

    /// A step of the word alone in memory, against the model.
    fn step(&mut self, word: u16, start: Core, edition: u16) {
        let [given, expected] = [self.machine, &Model].map(|machine| {
            let (mut core, mut memory, mut marks) = (start, [word], [0xA4]);
            let answer = machine.step(&mut core, &mut memory, &mut marks, edition);
            (answer, core, memory, marks)
        });
        if given != expected {
            let details = || format!("{word:04x} from {start:x?}\n  gives {given:x?}\n  expected {expected:x?}");
            self.report.disagree("a step by an amount", details);
        }
    }

    /// Every word that decodes in `states` states of random cores in memories of 300 words, and
    /// some that do not, in both editions. What is not 13 or 14 in edition 1 is common.
    fn words(&mut self, states: usize) {
        let length = 300;
        let edges = edges(length);
        for word in 0..=0xFFFFu16 {
            let states = if model::decode(word).is_ok() { states } else { self.random.one_in(16) as usize };
            for _ in 0..states {
                let mut core = states::core(&mut self.random, &edges, length);
                core.ip %= length as u16;
                let mut memory: Vec<u16> = (0..length as u16).map(|at| at.wrapping_mul(40503)).collect();
                memory[core.ip as usize] = word;
                let first = lent(core, memory, length, vec![]);
                let second = Lent { edition: 2, ..first.clone() };
                let [first, second] =
                    [first, second].map(|lent| compare(self.machine, "a word in an edition", &lent, step, self.report));
                let stopped = stops(first.answer);
                let common = Called { left: Lent { edition: 2, ..first.left }, ..first };
                assert!(stopped || common == second, "the editions differ only by 13 and 14");
                self.report.count("words stepped in both editions", 1);
                self.report.count("of them stop by 13 or 14 in edition 1", stopped as u64);
            }
        }
    }

    /// Runs of a program in edition 2, guarded and not; and replays of logs of one edition in the
    /// other.
    fn program(&mut self, program: &Program, limit: u32) {
        let published = Published::run(program, limit);
        let stopped = stops(published.run.end);
        let room = if stopped { 4 * limit as usize } else { published.needed } + self.random.below(8);
        let given = Lent { edition: 2, ..with_room(program, room) };
        let second = self.modelled(&given, limit);
        if stopped {
            assert!(second.answer.steps > published.run.steps, "edition 2 goes on past 13 and 14");
        } else {
            assert_eq!(second, published.expected(&given), "edition 2 is the published Rust where that does not panic");
        }
        self.report.count("logged runs, plain ones and replays in edition 2", 1);
        self.report.count("of them stop by 13 or 14 in edition 1, and go on", stopped as u64);
        self.report.count("words in the logs of edition 2", second.answer.logged as u64);

        let log = log_of(&given, second.left.records[..second.answer.logged].to_vec());
        self.guarded(&given, limit, used(&Lent { records: log.records.clone(), ..second.left }));
        let room = self.random.below(second.answer.logged + 4);
        self.modelled(&Lent { edition: 2, ..with_room(program, room) }, limit);

        let size = program.memory.len();
        self.replayed(&Lent { edition: 1, ..log }, size, limit);
        self.replayed(&Lent { records: published.left.records, ..log_of(&given, vec![]) }, size, limit);
    }

    /// Runs with the rights that are used, and with one byte of them changed.
    fn guarded(&mut self, given: &Lent, limit: u32, used: Vec<u8>) {
        let mut changed = used.clone();
        let in_use: Vec<usize> = (0..PAGES).filter(|page| used[*page] > 0).collect();
        if !in_use.is_empty() {
            changed[self.random.pick(&in_use)] = self.random.below(8) as u8;
        }
        for rights in [used, changed] {
            self.modelled(&Lent { rights: Some(rights), ..given.clone() }, limit);
            self.report.count("the same with rights", 1);
        }
    }

    /// A replay in another edition than the run's, against the model.
    fn replayed(&mut self, log: &Lent, size: usize, limit: u32) {
        let what = "a replay in the other edition";
        let Called { answer, .. } = compare(self.machine, what, log, replay(size, limit), self.report);
        self.report.count("replays in the other edition", 1);
        self.report.count("of them are not as the run", (answer.end == Outcome::Log(31)) as u64);
    }

    /// A logged run, the run without a log and the replay, against the model. Returns what the
    /// model does.
    fn modelled(&mut self, given: &Lent, limit: u32) -> Called<LoggedRun> {
        let expected = called(&Model, given, run_logged(limit));
        let what = ["a logged run in edition 2", "a run in edition 2", "a replay in edition 2"];
        expect_runs(self.machine, what, given, limit, &expected, self.report);
        expected
    }
}

/// Whether a step or a run ends by 13 or 14.
fn stops(end: Outcome) -> bool {
    matches!(end, Outcome::Fault(Fault { number: 13 | 14, .. }))
}

/// A random or structured program; in one of two cases shifts and negations stand at places near
/// its beginning.
fn shifting_program(random: &mut Random) -> Program {
    let mut program = match random.one_in(4) {
        true => structured_program(random, 40),
        false => random_program(random),
    };
    if random.one_in(2) {
        for _ in 0..1 + random.below(12) {
            let at = (program.core.ip as usize + random.below(40)) % program.memory.len();
            let [first, second] = [(); 2].map(|()| random.below(8) as u8);
            program.memory[at] = word(random.pick(&[SHL, SHR, BITSET, NEG]), first, second);
        }
    }
    program
}
