//! Rights over memory pages (docs/MACHINE.md, Rights): where every access has its right, against
//! the published Rust, which knows no rights; else against the model. Each case is a run, a logged
//! run and a replay.

use crate::calls::{called, compare, expect_runs, lent, log_of, replay, run, run_logged, Called, Lent};
use crate::logs::{with_room, Published};
use crate::machine::{Machine, Model};
use crate::model::FETCH;
use crate::random::Random;
use crate::report::Report;
use crate::runs::{measured_programs, random_program, Program};
use crate::states::word;
use nilguseg::{kind::*, right, Core, LoggedRun, Outcome, Refusal, PAGES};

/// Every right on every page.
const ALL: [u8; PAGES] = [7; PAGES];

/// Lengths of memory shorter than a page, about one page and two, and the longest.
const LENGTHS: [usize; 11] = [1, 2, 100, 255, 256, 257, 511, 512, 513, 65535, 65536];
/// Addresses about the borders of pages and of those lengths.
const BORDERS: [u16; 16] = [0, 1, 2, 99, 100, 254, 255, 256, 257, 511, 512, 513, 0xFEFF, 0xFF00, 0xFFFE, 0xFFFF];

struct Guarded<'a> {
    machine: &'a dyn Machine,
    random: Random,
    report: &'a mut Report,
}

/// `programs` programs with rights of several sorts, the benchmark's for at most `steps` steps
/// each, and one in `stride` of the accesses at borders.
pub fn rights(machine: &dyn Machine, programs: usize, steps: u32, stride: usize, report: &mut Report) {
    let mut guarded = Guarded { machine, random: Random::new(11), report };
    guarded.refusals();
    guarded.borders(stride);
    for program in measured_programs() {
        guarded.allowed(&program, steps);
    }
    for _ in 0..programs {
        guarded.program();
    }
}

impl Guarded<'_> {
    /// A program with rights that allow what it does, with one of them taken away, and with others.
    fn program(&mut self) {
        let program = random_program(&mut self.random);
        let limit = self.random.pick(&[0, 1, 5, 40, 500, 500, 3000]);
        let (used, needed) = self.allowed(&program, limit);
        for (page, need) in rights_in(&used) {
            let mut rights = self.superset(&used);
            rights[page] &= !need;
            let end = self.modelled(&program, limit, rights, needed).answer.end;
            assert!(number(end) == 33, "the model ends by 33 where a right that is used is taken away");
            self.report.count("runs with one right of those used taken away", 1);
        }
        for _ in 0..3 {
            let rights = self.drawn(&used, program.core.ip);
            let LoggedRun { end, steps, logged } = self.modelled(&program, limit, rights.clone(), needed).answer;
            self.report.count("runs with other rights", 1);
            self.report.count("of them end by 33 at their first step", (number(end) == 33 && steps == 0) as u64);
            self.report.count("of them end by 33 later", (number(end) == 33 && steps > 0) as u64);
            self.rooms(&program, limit, rights, logged);
        }
    }

    /// Runs with just the rights that are used, with more, and with all, against the published
    /// Rust. Returns those used, and the room that the log needs.
    fn allowed(&mut self, program: &Program, limit: u32) -> (Vec<u8>, usize) {
        let published = Published::run(program, limit);
        let used = used(&published.left);
        for rights in [used.clone(), self.superset(&used), ALL.to_vec()] {
            let room = published.needed + self.random.below(8);
            let given = Lent { rights: Some(rights), ..with_room(program, room) };
            self.compare(&given, limit, &published.expected(&given));
            self.report.count("guarded runs, logged ones and replays compared with the published Rust", 1);
        }
        (used, published.needed)
    }

    /// A run with enough room for its log, and replays of that with other rights, against the
    /// model. Returns what the model does.
    fn modelled(&mut self, program: &Program, limit: u32, rights: Vec<u8>, room: usize) -> Called<LoggedRun> {
        let given = Lent { rights: Some(rights), ..with_room(program, room) };
        let expected = called(&Model, &given, run_logged(limit));
        self.compare(&given, limit, &expected);
        let log = log_of(&given, expected.left.records[..expected.answer.logged].to_vec());
        for rights in [ALL.to_vec(), self.drawn(log.rights.as_ref().unwrap(), program.core.ip)] {
            let log = Lent { rights: Some(rights), ..log.clone() };
            let what = "a replay with other rights";
            compare(self.machine, what, &log, replay(program.memory.len(), limit), self.report);
            self.report.count("replays with other rights than the run's", 1);
        }
        expected
    }

    /// Rooms about those that the last step needs, of a run that logs so many words, against the
    /// model.
    fn rooms(&mut self, program: &Program, limit: u32, rights: Vec<u8>, logged: usize) {
        for room in [self.random.below(8), logged, logged + 1, logged + 2, logged + 3, logged + 4] {
            let given = Lent { rights: Some(rights.clone()), ..with_room(program, room) };
            let expected = called(&Model, &given, run_logged(limit));
            self.compare(&given, limit, &expected);
            self.report.count("rooms for a guarded log tried", 1);
            self.report.count("of them end by 30", (number(expected.answer.end) == 30) as u64);
        }
    }

    fn compare(&mut self, given: &Lent, limit: u32, expected: &Called<LoggedRun>) {
        let what = ["a guarded logged run", "a guarded run", "a guarded replay"];
        expect_runs(self.machine, what, given, limit, expected, self.report);
    }

    /// More rights than those given, or just these.
    fn superset(&mut self, rights: &[u8]) -> Vec<u8> {
        rights.iter().map(|byte| byte | self.random.below(8) as u8).collect()
    }

    /// Any rights, or just those used or all but on a few pages, mostly pages that are used. The
    /// first fetch is most often allowed.
    fn drawn(&mut self, used: &[u8], ip: u16) -> Vec<u8> {
        let mut rights = match self.random.below(3) {
            0 => self.superset(&[0; PAGES]),
            1 => used.to_vec(),
            _ => ALL.to_vec(),
        };
        let in_use = rights_in(used).count();
        for _ in 0..1 + self.random.below(3) {
            let page = match rights_in(used).nth(self.random.below(in_use + 1)) {
                Some((page, _)) => page,
                None => self.random.below(PAGES),
            };
            rights[page] = self.random.below(8) as u8;
        }
        if !self.random.one_in(4) {
            rights[page(ip)] |= right::EXECUTE;
        }
        rights
    }

    /// Accesses of every kind at every border, in memories of every length, by a word at its
    /// beginning or end, before the address or at it. One in `stride` of them.
    fn borders(&mut self, stride: usize) {
        let (mut refused, mut fetches) = ([0; 6], 0);
        for (length, at) in LENGTHS.iter().flat_map(|length| BORDERS.map(|at| (*length, at))) {
            for (kind, (word, core)) in accesses(at).into_iter().enumerate() {
                for ip in [0, (length - 1) as u16, at.wrapping_sub(1), at] {
                    if self.random.one_in(stride) {
                        let [by_access, by_fetch] = self.border(length, at, word, Core { ip, ..core });
                        refused[kind] += by_access;
                        fetches += by_fetch;
                    }
                }
            }
        }
        let rarest = *refused.iter().min().unwrap();
        assert!(rarest > 0 && fetches > 0, "every kind of access is refused at some border");
        self.report.count("of them end by 33 at their read or write, by the rarest kind", rarest);
        self.report.count("of them end by 33 at their fetch", fetches);
    }

    /// Two steps, the first of the word, which makes an access at the address, with every byte
    /// there, against the model. How many end by 33 at that access, and at the word's fetch.
    fn border(&mut self, length: usize, at: u16, word: u16, core: Core) -> [u64; 2] {
        let mut program = Program { core, memory: vec![0; length] };
        if let Some(first) = program.memory.get_mut(core.ip as usize) {
            *first = word;
        }
        let mut refused = [0; 2];
        for rights in (0..8).flat_map(|byte| around(byte, at, core.ip)) {
            let given = Lent { rights: Some(rights), ..with_room(&program, 8) };
            let expected = called(&Model, &given, run_logged(2));
            self.compare(&given, 2, &expected);
            let LoggedRun { end, steps, logged } = expected.answer;
            self.report.count("accesses at borders of pages", 1);
            self.report.count("of them end by 11", (number(end) == 11) as u64);
            for (count, reads) in refused.iter_mut().zip([2, 0]) {
                *count += (number(end) == 33 && (steps, logged) == (0, reads)) as u64;
            }
        }
        refused
    }

    /// Lists of rights that do not fit, with lengths of memory and marks that fit or do not.
    fn refusals(&mut self) {
        let wrong_bytes = (0..PAGES).flat_map(|page| [8, 9, 128, 255].map(|byte| with(&ALL, page, byte)));
        wrong_bytes.for_each(|rights| self.refusal(2, 2, rights));
        let lengths = [0, 1, 2, 65537];
        for (memory, marks) in lengths.iter().flat_map(|memory| lengths.map(|marks| (*memory, marks))) {
            for count in [0, 1, 255, 256, 257, 512, 65536, 65536 + 256] {
                for byte in [7, 8] {
                    self.refusal(memory, marks, vec![byte; count]);
                }
            }
        }
    }

    /// A guarded run, a logged one and a replay, over what may be refused.
    fn refusal(&mut self, memory: usize, marks: usize, rights: Vec<u8>) {
        let core = Core { ef: self.random.below(2) as u16, ..Core::new() };
        let limit = self.random.pick(&[0, 3]);
        let given = Lent { rights: Some(rights), ..lent(core, vec![0x2000; memory], marks, vec![0x2000_0001; 16]) };
        let plain = compare(self.machine, "a guarded run that may be refused", &given, run(limit), self.report);
        compare(self.machine, "a guarded logged run that may be refused", &given, run_logged(limit), self.report);
        compare(self.machine, "a guarded replay that may be refused", &given, replay(memory, limit), self.report);
        self.report.count("lists of rights tried with lengths of memory and marks", 1);
        self.report.count("of them are refused by 32", (plain.answer.end == Outcome::Refused(Refusal(32))) as u64);
    }
}

fn page(address: u16) -> usize {
    address as usize / 256
}

fn with(rights: &[u8], page: usize, byte: u8) -> Vec<u8> {
    let mut rights = rights.to_vec();
    rights[page] = byte;
    rights
}

/// The number of a fault or of an end by the log; else 0.
fn number(end: Outcome) -> u8 {
    match end {
        Outcome::Fault(fault) => fault.number,
        Outcome::Log(number) => number,
        _ => 0,
    }
}

/// The rights that a run used: those of its reads by the log, those of its writes by the marks.
pub fn used(left: &Lent) -> Vec<u8> {
    let mut used = vec![0; PAGES];
    for read in left.records.chunks(2) {
        used[page(read[0] as u16)] |= if read[0] & FETCH == 0 { right::READ } else { right::EXECUTE };
    }
    for (at, mark) in left.marks.iter().enumerate() {
        used[page(at as u16)] |= if mark & 2 == 0 { 0 } else { right::WRITE };
    }
    used
}

/// Each right of each page.
fn rights_in(rights: &[u8]) -> impl Iterator<Item = (usize, u8)> + '_ {
    let each = |(page, byte): (usize, &u8)| [1, 2, 4].map(|need| (page, byte & need));
    rights.iter().enumerate().flat_map(each).filter(|(_, need)| *need > 0)
}

/// A word of each kind that reads or writes, and a core with which it does so at the address.
fn accesses(at: u16) -> [(u16, Core); 6] {
    let core = |r0, sp| Core { r: [r0, 0x1234, 7, 7, 7, 7, 7, 7], sp, ..Core::new() };
    [
        (word(READ, 2, 0), core(at, 0)),
        (word(WRITE, 0, 1), core(at, 0)),
        (word(SPREAD, 2, 3), core(0, at.wrapping_sub(3))),
        (word(SPWRITE, 15, 1), core(0, at.wrapping_sub(15))),
        (word(PUSH, 1, 0), core(0, at.wrapping_add(1))),
        (word(POP, 2, 0), core(0, at)),
    ]
}

/// Rights with the byte on the page of `at`, and none or all on the others: so that the word at
/// `ip` may be fetched, then so that it may not, unless by a byte of its own page.
fn around(byte: u8, at: u16, ip: u16) -> [Vec<u8>; 4] {
    let [none, all] = [[0; PAGES], ALL].map(|rights| with(&rights, page(at), byte));
    let fetched = |rights: &[u8]| with(rights, page(ip), rights[page(ip)] | right::EXECUTE);
    let unfetched = with(&all, page(ip), all[page(ip)] & !right::EXECUTE);
    [fetched(&none), fetched(&all), none, unfetched]
}
