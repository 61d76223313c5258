//! Logs of reads (docs/MACHINE.md, Logs and replays): a logged run's against the reads that the
//! published Rust makes, its replay against the run; and against the model what there is no Rust
//! for: changed logs, and too little room. A room is the length of the buffer that is lent for a
//! log.

use crate::calls::{called, compare, expect_runs, lent, replay, run_logged, Called, Lent};
use crate::machine::{Machine, Model};
use crate::model::FETCH;
use crate::random::Random;
use crate::reference::Reference;
use crate::report::Report;
use crate::runs::{measured_programs, random_program, Program};
use crate::states::decodable;
use nilguseg::{Core, LoggedRun, Outcome, Run};

/// What a replay is given.
#[derive(Clone)]
struct Replay {
    core: Core,
    size: usize,
    limit: u32,
    log: Vec<u32>,
}

/// A change of one thing that a replay is given. The number is a place in the log.
type Change = fn(&mut Replay, usize, &mut Random);

/// Changes after which no run has the log. The first two do for an empty log too.
const SPOILS: [Change; 10] = [
    |given, _, random| given.log.push(log_word(random)),
    |given, at, random| given.log.insert(at, log_word(random)),
    |given, at, _| given.log.insert(at, given.log[at]),
    |given, at, _| drop(given.log.drain(at..=at)),
    |given, at, _| given.log.truncate(at),
    |given, at, random| given.log[at] ^= (1 + random.below(15) as u32) << 28,
    |given, at, random| given.log[at & !1] ^= 1 + random.below(0xFFFF) as u32,
    |given, at, _| given.log[at & !1] ^= FETCH,
    |given, at, random| given.log[at & !1] |= 1 << (17 + random.below(11)),
    |given, at, random| given.log[at | 1] |= 1 << (16 + random.below(12)),
];

/// Another word read, which a replay takes as logged.
const WORDS: [Change; 3] = [
    |given, at, random| given.log[at | 1] = 5 << 28 | random.word() as u32,
    |given, at, random| given.log[at | 1] = 5 << 28 | decodable(random) as u32,
    |given, at, random| given.log[at | 1] ^= 1 << random.below(16),
];

/// Another register, size or limit, for an empty log too; a read left out or doubled.
const OTHERS: [Change; 5] = [
    |given, _, random| given.core.r[random.below(8)] ^= 1 << random.below(16),
    |given, _, random| given.size = random.pick(&[1, given.size - 1, given.size + 1, 65536]),
    |given, _, random| given.limit = random.below(given.limit as usize + 2) as u32,
    |given, at, _| drop(given.log.drain(at & !1..=at | 1)),
    |given, at, _| {
        let read = [given.log[at & !1], given.log[at | 1]];
        given.log.splice(at & !1..at & !1, read);
    },
];

/// A word of the kinds of a log.
fn log_word(random: &mut Random) -> u32 {
    random.pick(&[4 << 28, 4 << 28 | FETCH, 5 << 28]) | random.word() as u32
}

/// A logged run by the published Rust: how it ends, what it leaves, its log in the records, and the
/// least room that it needs.
pub struct Published {
    pub run: Run,
    pub left: Lent,
    pub needed: usize,
}

impl Published {
    pub fn run(program: &Program, limit: u32) -> Published {
        let mut reference = Reference::new(program.core, program.memory.clone(), &vec![0; program.memory.len()]);
        let (run, log, needed) = reference.run_logged(limit);
        let left = Lent { marks: reference.marks(), ..lent(reference.registers(), reference.words().to_vec(), 0, log) };
        Published { run, left, needed }
    }

    /// What it comes to where this was lent, with room enough and every right that the run needs.
    pub fn expected(&self, given: &Lent) -> Called<LoggedRun> {
        let Run { end, steps } = self.run;
        let log = &self.left.records;
        let records = [log, &given.records[log.len()..]].concat();
        let left = Lent { rights: given.rights.clone(), edition: given.edition, records, ..self.left.clone() };
        Called { answer: LoggedRun { end, steps, logged: log.len() }, left }
    }
}

struct Logs<'a> {
    machine: &'a dyn Machine,
    random: Random,
    report: &'a mut Report,
}

/// Logged runs of `programs` programs, and of the benchmark's for at most `steps` steps each.
pub fn logs(machine: &dyn Machine, programs: usize, steps: u32, report: &mut Report) {
    let mut logs = Logs { machine, random: Random::new(10), report };
    for program in measured_programs() {
        logs.run(&program, steps);
    }
    for _ in 0..programs {
        let program = random_program(&mut logs.random);
        let limit = logs.random.pick(&[0, 1, 5, 40, 500, 500, 3000]);
        let (log, needed) = logs.run(&program, limit);
        logs.changes(&Replay { core: program.core, size: program.memory.len(), limit, log });
        logs.rooms(&program, limit, needed);
    }
    logs.sizes();
}

impl Logs<'_> {
    /// A run with room enough, against the published Rust. Returns its log and the least room that
    /// is enough.
    fn run(&mut self, program: &Program, limit: u32) -> (Vec<u32>, usize) {
        let published = Published::run(program, limit);
        let given = with_room(program, published.needed + self.random.below(8));
        self.report.count("logged runs compared with the reads of the published Rust", 1);
        self.report.count("words in their logs", published.left.records.len() as u64);
        self.compare(&given, limit, &published.expected(&given));
        (published.left.records, published.needed)
    }

    /// Small rooms, and one below, at and above what is needed, against the model.
    fn rooms(&mut self, program: &Program, limit: u32, needed: usize) {
        for room in (0..=8).chain([needed.saturating_sub(1), needed, needed + 1]) {
            let given = with_room(program, room);
            let expected = called(&Model, &given, run_logged(limit));
            let full = expected.answer.end == Outcome::Log(30);
            assert_eq!(full, room < needed, "the model ends by 30 where room is wanting");
            self.report.count("rooms for a log tried", 1);
            self.report.count("of them are too small", full as u64);
            self.compare(&given, limit, &expected);
        }
    }

    fn compare(&mut self, given: &Lent, limit: u32, expected: &Called<LoggedRun>) {
        let what = ["a logged run", "the run without a log", "a replay"];
        expect_runs(self.machine, what, given, limit, expected, self.report);
        self.report.count("replays of a run's log", 1);
    }

    /// Replays of a changed log or with another change.
    fn changes(&mut self, given: &Replay) {
        let (spoils, words, others) = match given.log[..] {
            [] => (&SPOILS[..2], &WORDS[..0], &OTHERS[..3]),
            _ => (&SPOILS[..], &WORDS[..], &OTHERS[..]),
        };
        let survived = self.replays("replays of spoilt logs", given, spoils);
        assert_eq!(survived, 0, "the model answers every spoilt log by 31");
        let survived = self.replays("replays of logs with a word read changed", given, words);
        self.report.count("of them are not answered by 31", survived);
        self.replays("replays with another change", given, others);
    }

    /// Replays after each of the changes, against the model. How many it does not answer by 31.
    fn replays(&mut self, what: &'static str, given: &Replay, changes: &[Change]) -> u64 {
        let mut survived = 0;
        for change in changes {
            let mut changed = given.clone();
            let at = self.random.below(given.log.len());
            change(&mut changed, at, &mut self.random);
            let Replay { core, size, limit, log } = changed;
            let lent = lent(core, vec![], 0, log);
            let answered = compare(self.machine, what, &lent, replay(size, limit), self.report);
            let none = Called { answer: Run { end: Outcome::Log(31), steps: 0 }, left: lent };
            survived += (answered != none) as u64;
        }
        self.report.count(what, changes.len() as u64);
        survived
    }

    /// Sizes about the least and the greatest, and such as a shorter number cannot hold.
    fn sizes(&mut self) {
        let halted = lent(Core { ef: 1, ..Core::new() }, vec![], 0, vec![]);
        for size in [0, 1, 65536, 65537, 1 << 32, (1 << 32) + 1, usize::MAX] {
            compare(self.machine, "a replay's size", &halted, replay(size, 1), self.report);
        }
    }
}

/// What a run of the program is lent, with so many words for its log.
pub fn with_room(program: &Program, room: usize) -> Lent {
    lent(program.core, program.memory.clone(), program.memory.len(), vec![0xDEAD_BEEF; room])
}
