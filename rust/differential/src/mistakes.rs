//! Wrong machines, each the model with one mistake. The comparison must report every one of them;
//! the first five are mistakes that were met in machines of this kind.

mod counts;
mod editions;
mod rights;

use std::cmp::Ordering;

use crate::machine::Machine;
use crate::model::{self, Guard, Terms, DATA, FETCH};
use nilguseg::{kind::*, Core, Fault, Instruction, LoggedRun, Outcome, Refusal, Run};

/// A machine with one mistake.
pub struct WrongMachine {
    /// What it does wrong.
    pub name: &'static str,
    mistake: Mistake,
}

/// What a machine does in place of, or after, what the model does.
enum Mistake {
    Decode(fn(u16) -> Result<Instruction, Fault>),
    Encode(fn(Instruction) -> Option<u16>),
    Step(fn(&mut Stepped)),
    Run(fn(&mut Core, &mut [u16], &mut [u8], Terms, u32) -> Run),
    RunLogged(RunLogged),
    Logged(fn(&mut LoggedRun, &mut [u32])),
    Replay(Replay),
    Found(model::Found),
    Access(model::Access),
    /// What the machine takes the rights for that it is given.
    Rights(fn(&[u8]) -> Vec<u8>),
    /// The same of the edition that it is handed.
    Edition(fn(u16) -> u16),
    LoadWords(Load<u16>),
    LoadSheet(Load<u32>),
    WriteSheet(Write),
    CountTaken(Taken),
    /// The count that the writer puts at the end, by the records before it.
    CountPut(fn(&[u32]) -> u32),
    Compare(fn(&[u16], &[u16]) -> Ordering),
    Earlier(for<'a> fn(&'a [u16], &'a [u16]) -> &'a [u16]),
}

type RunLogged = fn(&mut Core, &mut [u16], &mut [u8], Terms, u32, &mut [u32]) -> LoggedRun;
type Replay = fn(&mut Core, usize, Terms, u32, &[u32]) -> Run;
type Load<T> = fn(&mut Core, &mut u16, &[T], &mut [u16]) -> Result<(), Refusal>;
type Write = fn(&Core, u16, &[u16], &mut [u32]) -> Result<usize, Refusal>;
/// Whether the count of an end is taken for right, by the records before it.
type Taken = fn(u32, &[u32]) -> bool;

/// A step of the model, to be spoilt.
struct Stepped<'a> {
    edition: u16,
    before: Core,
    /// The kind of the word fetched and its operands; no kind where none was fetched or it is
    /// undecodable.
    kind: Option<u8>,
    first: usize,
    second: usize,
    /// The address of the access after the fetch, and the mark that it had.
    address: usize,
    mark: Option<u8>,
    core: &'a mut Core,
    memory: &'a mut [u16],
    marks: &'a mut [u8],
    /// The log words of its reads.
    log: Vec<u32>,
    answer: Outcome,
}

impl Stepped<'_> {
    fn is(&self, kind: u8) -> bool {
        self.kind == Some(kind) && self.answer == Outcome::Stepped
    }

    fn fault(&self, number: u8) -> bool {
        matches!(self.answer, Outcome::Fault(fault) if fault.number == number)
    }

    /// The first and the second operand's words before the step.
    fn operands(&self) -> (u16, u16) {
        (self.before.r[self.first], self.before.r[self.second])
    }

    fn fetched(&self) -> bool {
        !matches!(self.answer, Outcome::Refused(_) | Outcome::Halted) && (self.before.ip as usize) < self.memory.len()
    }

    fn reads(&self) -> bool {
        self.is(READ) || self.is(SPREAD) || self.is(POP)
    }
}

/// A step spoilt, with the log to which it adds its reads.
fn wrong_step(
    step: fn(&mut Stepped),
    core: &mut Core,
    memory: &mut [u16],
    marks: &mut [u8],
    guard: Guard,
    words: &mut Vec<u32>,
) -> Outcome {
    let before = *core;
    let fetched = memory.get(core.ip as usize).and_then(|word| model::decode(*word).ok());
    let (first, second) = fetched.map_or((0, 0), |i| (i.first as usize % 8, i.second as usize % 8));
    let address = match fetched.map(|instruction| instruction.kind) {
        Some(READ) => before.r[second],
        Some(WRITE) => before.r[first],
        Some(SPREAD) => before.sp.wrapping_add(fetched.unwrap().second as u16),
        Some(PUSH) => before.sp.wrapping_sub(1),
        _ => before.sp,
    } as usize;
    let mark = marks.get(address).copied();
    let mut log = Vec::new();
    let answer = model::step_of_run(core, memory, marks, guard, Some(&mut log));
    let kind = fetched.map(|instruction| instruction.kind);
    let edition = guard.terms.edition;
    let mut stepped = Stepped { edition, before, kind, first, second, address, mark, core, memory, marks, log, answer };
    step(&mut stepped);
    words.extend(stepped.log);
    stepped.answer
}

impl WrongMachine {
    /// What a run is handed, and what its accesses are tested by.
    fn guard<'a>(&self, terms: Terms<'a>) -> Guard<'a> {
        match self.mistake {
            Mistake::Access(access) => Guard { terms, access },
            _ => Guard::of(terms),
        }
    }

    /// A call with what the machine takes the terms for.
    fn taken<A>(&self, terms: Terms, call: impl FnOnce(Terms) -> A) -> A {
        match self.mistake {
            Mistake::Rights(taken) => call(Terms { rights: terms.rights.map(taken).as_deref(), ..terms }),
            Mistake::Edition(taken) => call(Terms { edition: taken(terms.edition), ..terms }),
            _ => call(terms),
        }
    }

    /// A step of a run, which adds its reads to the words.
    fn step_of_run(
        &self,
        core: &mut Core,
        memory: &mut [u16],
        marks: &mut [u8],
        terms: Terms,
        words: &mut Vec<u32>,
    ) -> Outcome {
        let guard = self.guard(terms);
        match self.mistake {
            Mistake::Step(step) => wrong_step(step, core, memory, marks, guard, words),
            _ => model::step_of_run(core, memory, marks, guard, Some(words)),
        }
    }
}

impl Machine for WrongMachine {
    fn decode(&self, word: u16) -> Result<Instruction, Fault> {
        match self.mistake {
            Mistake::Decode(decode) => decode(word),
            _ => model::decode(word),
        }
    }

    fn encode(&self, instruction: Instruction) -> Option<u16> {
        match self.mistake {
            Mistake::Encode(encode) => encode(instruction),
            _ => model::encode(instruction),
        }
    }

    fn step(&self, core: &mut Core, memory: &mut [u16], marks: &mut [u8], edition: u16) -> Outcome {
        let terms = Terms { rights: None, edition };
        match self.mistake {
            Mistake::Step(step) => wrong_step(step, core, memory, marks, Guard::of(terms), &mut Vec::new()),
            _ => self.taken(terms, |terms| model::step(core, memory, marks, terms.edition)),
        }
    }

    fn run(&self, core: &mut Core, memory: &mut [u16], marks: &mut [u8], terms: Terms, limit: u32) -> Run {
        match self.mistake {
            Mistake::Run(run) => run(core, memory, marks, terms, limit),
            Mistake::Step(_) | Mistake::Access(_) => {
                let wrong_steps = |core: &mut Core, memory: &mut [u16], marks: &mut [u8]| {
                    self.step_of_run(core, memory, marks, terms, &mut Vec::new())
                };
                model::run_by(wrong_steps, core, memory, marks, terms, limit)
            }
            _ => self.taken(terms, |terms| model::run(core, memory, marks, terms, limit)),
        }
    }

    fn run_logged(
        &self,
        core: &mut Core,
        memory: &mut [u16],
        marks: &mut [u8],
        terms: Terms,
        limit: u32,
        log: &mut [u32],
    ) -> LoggedRun {
        match self.mistake {
            Mistake::RunLogged(run) => run(core, memory, marks, terms, limit, log),
            Mistake::Logged(spoil) => {
                let mut run = model::run_logged(core, memory, marks, terms, limit, log);
                spoil(&mut run, log);
                run
            }
            Mistake::Step(_) | Mistake::Access(_) => {
                let wrong_steps = |core: &mut Core, memory: &mut [u16], marks: &mut [u8], words: &mut Vec<u32>| {
                    self.step_of_run(core, memory, marks, terms, words)
                };
                model::run_logged_by(wrong_steps, core, memory, marks, terms, limit, log)
            }
            _ => self.taken(terms, |terms| model::run_logged(core, memory, marks, terms, limit, log)),
        }
    }

    fn replay(&self, core: &mut Core, size: usize, terms: Terms, limit: u32, log: &[u32]) -> Run {
        match self.mistake {
            Mistake::Replay(replay) => replay(core, size, terms, limit, log),
            Mistake::Found(found) => model::replay_by(found, Guard::of(terms), core, size, limit, log),
            Mistake::Access(_) => model::replay_by(model::found, self.guard(terms), core, size, limit, log),
            _ => self.taken(terms, |terms| model::replay(core, size, terms, limit, log)),
        }
    }

    fn load_words(&self, core: &mut Core, edition: &mut u16, words: &[u16], memory: &mut [u16]) -> Result<(), Refusal> {
        match self.mistake {
            Mistake::LoadWords(load) => load(core, edition, words, memory),
            _ => model::load_words(core, edition, words, memory),
        }
    }

    fn load_sheet(&self, core: &mut Core, edition: &mut u16, sheet: &[u32], memory: &mut [u16]) -> Result<(), Refusal> {
        match self.mistake {
            Mistake::LoadSheet(load) => load(core, edition, sheet, memory),
            Mistake::CountTaken(taken) => model::load_sheet(core, edition, &counts::decided(taken, sheet), memory),
            _ => model::load_sheet(core, edition, sheet, memory),
        }
    }

    fn write_sheet(&self, core: &Core, edition: u16, memory: &[u16], sheet: &mut [u32]) -> Result<usize, Refusal> {
        match self.mistake {
            Mistake::WriteSheet(write) => write(core, edition, memory, sheet),
            Mistake::CountPut(put) => counts::write(put, core, edition, memory, sheet),
            Mistake::Edition(taken) => model::write_sheet(core, taken(edition), memory, sheet),
            _ => model::write_sheet(core, edition, memory, sheet),
        }
    }

    fn compare(&self, first: &[u16], second: &[u16]) -> Ordering {
        match self.mistake {
            Mistake::Compare(compare) => compare(first, second),
            _ => model::compare(first, second),
        }
    }

    fn earlier<'a>(&self, first: &'a [u16], second: &'a [u16]) -> &'a [u16] {
        match self.mistake {
            Mistake::Earlier(earlier) => earlier(first, second),
            _ => model::earlier(first, second),
        }
    }
}

const fn step(name: &'static str, step: fn(&mut Stepped)) -> WrongMachine {
    WrongMachine { name, mistake: Mistake::Step(step) }
}

const fn logged(name: &'static str, spoil: fn(&mut LoggedRun, &mut [u32])) -> WrongMachine {
    WrongMachine { name, mistake: Mistake::Logged(spoil) }
}

const fn found(name: &'static str, found: model::Found) -> WrongMachine {
    WrongMachine { name, mistake: Mistake::Found(found) }
}

const fn loaded(name: &'static str, load: Load<u32>) -> WrongMachine {
    WrongMachine { name, mistake: Mistake::LoadSheet(load) }
}

const fn other(name: &'static str, mistake: Mistake) -> WrongMachine {
    WrongMachine { name, mistake }
}

/// The sheet with each record changed, which is given with those before it.
fn changed(sheet: &[u32], change: impl Fn(&[u32], u32) -> u32) -> Vec<u32> {
    sheet.iter().enumerate().map(|(at, record)| change(&sheet[..at], *record)).collect()
}

/// All of them.
pub fn wrong_machines() -> impl Iterator<Item = &'static WrongMachine> {
    WRONG_MACHINES.iter().chain(&rights::RIGHTS).chain(&editions::EDITIONS).chain(&counts::COUNTS)
}

const WRONG_MACHINES: [WrongMachine; 80] = [
    step("ip is not advanced on an undecodable word", |s| {
        if s.fault(10) {
            s.core.ip = s.before.ip;
        }
    }),
    step("sp is restored when a push faults", |s| {
        if s.kind == Some(PUSH) && s.fault(11) {
            s.core.sp = s.before.sp;
        }
    }),
    step("movso of ip gives the old ip", |s| {
        if s.is(MOVSO) && s.second == 0 {
            s.core.r[s.first] = s.before.ip;
        }
    }),
    step("a word written first is marked as read later", |s| {
        if s.reads() {
            s.marks[s.address] |= 1;
        }
    }),
    other(
        "limit is reported for a core that just halted",
        Mistake::Run(|core, memory, marks, terms, limit| {
            let run = model::run(core, memory, marks, terms, limit);
            if run.end == Outcome::Halted && run.steps == limit {
                Run { end: Outcome::Limit, ..run }
            } else {
                run
            }
        }),
    ),
    step("a word written first is marked as read when it is fetched", |s| {
        if s.fetched() {
            s.marks[s.before.ip as usize] |= 1;
        }
    }),
    step("a fetch out of range advances ip", |s| {
        if s.fault(11) && s.core.ip == s.before.ip {
            s.core.ip = s.core.ip.wrapping_add(1);
        }
    }),
    step("a halted core still fetches", |s| {
        if s.answer == Outcome::Halted {
            if let Some(mark) = s.marks.get_mut(s.before.ip as usize) {
                *mark |= 1;
            }
        }
    }),
    step("hlt answers halted", |s| {
        if s.is(HLT) {
            s.answer = Outcome::Halted;
        }
    }),
    step("a step clears the other bits of a mark", |s| {
        if s.fetched() {
            s.marks[s.before.ip as usize] &= 3;
        }
    }),
    step("a read of data leaves no mark", |s| {
        if let (true, Some(mark)) = (s.reads(), s.mark) {
            s.marks[s.address] = mark;
        }
    }),
    step("a write clears the mark of a read", |s| {
        if s.is(WRITE) || s.is(PUSH) {
            s.marks[s.address] &= 0xFE;
        }
    }),
    step("a write past the length wraps around", |s| {
        if s.kind == Some(WRITE) && s.fault(11) {
            s.memory[s.address % s.memory.len()] = s.operands().1;
            s.answer = Outcome::Stepped;
        }
    }),
    step("an address out of range is told less one", |s| {
        if let Outcome::Fault(Fault { number: 11, value }) = s.answer {
            s.answer = Outcome::Fault(Fault { number: 11, value: value.wrapping_sub(1) });
        }
    }),
    step("pop raises sp though its read faults", |s| {
        if s.kind == Some(POP) && s.fault(11) {
            s.core.sp = s.core.sp.wrapping_add(1);
        }
    }),
    step("pop into a register loses the word where sp wraps", |s| {
        if s.is(POP) && s.core.sp == 0 {
            s.core.r[s.first] = s.before.r[s.first];
        }
    }),
    step("sub is reversed", |s| {
        if s.is(SUB) {
            s.core.r[s.first] = s.operands().1.wrapping_sub(s.operands().0);
        }
    }),
    step("gt holds for equal words", |s| {
        if s.is(GT) && s.operands().0 == s.operands().1 {
            s.core.ef |= 2;
        }
    }),
    step("gteq is signed", |s| {
        if s.is(GTEQ) {
            let holds = s.operands().0 as i16 >= s.operands().1 as i16;
            s.core.ef = s.core.ef & 0xFFFD | (holds as u16) << 1;
        }
    }),
    step("a comparison clears the other bits of ef", |s| {
        if s.is(EQZ) || s.is(EQ) || s.is(GT) || s.is(GTEQ) || s.is(INV) {
            s.core.ef &= 3;
        }
    }),
    step("booland is bitwise", |s| {
        if s.is(BOOLAND) {
            s.core.r[s.first] = (s.operands().0 & s.operands().1 > 0) as u16;
        }
    }),
    step("a shift by 16 or more gives 0 in edition 1", |s| {
        if s.fault(13) && s.kind != Some(BITSET) {
            s.core.r[s.first] = 0;
            s.answer = Outcome::Stepped;
        }
    }),
    step("a bit's index goes by its low four bits in edition 1", |s| {
        if s.fault(13) && s.kind == Some(BITSET) && s.before.ef & 2 > 0 {
            s.core.r[s.first] |= 1 << (s.operands().1 % 16);
            s.answer = Outcome::Stepped;
        }
    }),
    step("bitset ignores the condition", |s| {
        if s.is(BITSET) {
            s.core.r[s.first] |= 1 << s.operands().1;
        }
    }),
    step("neg of 0x8000 is allowed in edition 1", |s| {
        if s.fault(14) {
            s.answer = Outcome::Stepped;
        }
    }),
    step("dmov, dread and dwrite do nothing", |s| {
        if s.fault(12) {
            s.answer = Outcome::Stepped;
        }
    }),
    step("call saves where it goes", |s| {
        if s.is(CALL) {
            s.core.rp = s.core.ip;
        }
    }),
    step("movsi keeps two bits of ef", |s| {
        if s.is(MOVSI) && s.first == 3 {
            s.core.ef &= 3;
        }
    }),
    step("a jump by the byte 128 goes forward", |s| {
        let taken = s.core.ip == s.before.ip.wrapping_sub(127);
        if s.is(JMPOFF) && taken {
            s.core.ip = s.core.ip.wrapping_add(256);
        }
    }),
    other(
        "a step that faults is counted",
        Mistake::Run(|core, memory, marks, terms, limit| {
            let run = model::run(core, memory, marks, terms, limit);
            if matches!(run.end, Outcome::Fault(_)) {
                Run { steps: run.steps + 1, ..run }
            } else {
                run
            }
        }),
    ),
    other(
        "a run keeps the marks that it finds",
        Mistake::Run(|core, memory, marks, terms, limit| {
            let found = marks.to_vec();
            let run = model::run(core, memory, marks, terms, limit);
            marks.iter_mut().zip(found).for_each(|(mark, found)| *mark |= found);
            run
        }),
    ),
    other(
        "a run goes one step past its limit",
        Mistake::Run(|core, memory, marks, terms, limit| {
            let run = model::run(core, memory, marks, terms, limit);
            if run.end == Outcome::Limit {
                model::step(core, memory, marks, terms.edition);
            }
            run
        }),
    ),
    other(
        "a refused run clears the marks",
        Mistake::Run(|core, memory, marks, terms, limit| {
            marks.fill(0);
            model::run(core, memory, marks, terms, limit)
        }),
    ),
    step("the lengths are tested in another order", |s| {
        if s.answer == Outcome::Refused(Refusal(1)) && s.marks.len() != s.memory.len() {
            s.answer = Outcome::Refused(Refusal(2));
        }
    }),
    other(
        "0x2158 decodes as dmov",
        Mistake::Decode(|word| if word == 0x2158 { model::decode(0x2118) } else { model::decode(word) }),
    ),
    other(
        "putl and puth exchanged",
        Mistake::Decode(|word| model::decode(if word >> 12 == 1 { word ^ 0x0800 } else { word })),
    ),
    other(
        "putl of r7 is undecodable",
        Mistake::Decode(|word| match word {
            0x1700..=0x17FF => Err(Fault { number: 10, value: word }),
            _ => model::decode(word),
        }),
    ),
    other(
        "putl of r7 is puth of r0",
        Mistake::Decode(|word| model::decode(if word >> 8 == 0x17 { word + 0x0100 } else { word })),
    ),
    other(
        "spread refuses an offset above 15",
        Mistake::Encode(|instruction| {
            let refused = instruction.kind == SPREAD && instruction.second > 15;
            if refused {
                None
            } else {
                model::encode(instruction)
            }
        }),
    ),
    other(
        "a word list leaves the words behind it",
        Mistake::LoadWords(|core, edition, words, memory| {
            let found = memory.to_vec();
            model::load_words(core, edition, words, memory)?;
            memory[words.len()..].copy_from_slice(&found[words.len()..]);
            Ok(())
        }),
    ),
    other(
        "records after the end are tested before its count",
        Mistake::LoadSheet(|core, edition, sheet, memory| {
            let refusal = model::load_sheet(core, edition, sheet, memory);
            let end = sheet.iter().position(|record| record >> 28 == 15);
            match (refusal, end) {
                (Err(Refusal(26)), Some(end)) if end + 1 < sheet.len() => Err(Refusal(25)),
                _ => refusal,
            }
        }),
    ),
    other(
        "the load address wraps",
        Mistake::LoadSheet(|core, edition, sheet, memory| {
            let refusal = model::load_sheet(core, edition, sheet, memory);
            if refusal == Err(Refusal(23)) && memory.len() == 65536 {
                Ok(())
            } else {
                refusal
            }
        }),
    ),
    other(
        "a buffer too short is written in part",
        Mistake::WriteSheet(|core, edition, memory, sheet| {
            let refusal = model::write_sheet(core, edition, memory, sheet);
            if let (Err(Refusal(4)), Some(first)) = (refusal, sheet.first_mut()) {
                *first = 0x3000_0000 | core.r[0] as u32;
            }
            refusal
        }),
    ),
    other(
        "the rest of the longer list is not compared",
        Mistake::Compare(|first, second| {
            let both = first.len().min(second.len());
            first[..both].cmp(&second[..both])
        }),
    ),
    other("a list comes before itself with zeros after it", Mistake::Compare(|first, second| first.cmp(second))),
    other("the larger word comes first", Mistake::Compare(|first, second| model::compare(second, first))),
    other(
        "words are compared with a sign",
        Mistake::Compare(|first, second| {
            let signed = |list: Vec<u16>| list.into_iter().map(|word| word as i16).collect::<Vec<_>>();
            let [first, second] = model::padded(first, second).map(signed);
            first.cmp(&second)
        }),
    ),
    other(
        "the part begins one place late",
        Mistake::Earlier(|first, second| {
            let part = model::earlier(first, second);
            part.get(1..).unwrap_or(part)
        }),
    ),
    other(
        "equal lists hand back the end of the second",
        Mistake::Earlier(|first, second| match model::compare(first, second) {
            Ordering::Equal => &second[second.len()..],
            _ => model::earlier(first, second),
        }),
    ),
    other(
        "a list that is over hands back the other's part",
        Mistake::Earlier(|first, second| match model::earlier(first, second) {
            [] if model::compare(first, second).is_lt() => &second[first.len()..],
            part => part,
        }),
    ),
    other(
        "the empty end is of the other list",
        Mistake::Earlier(|first, second| match (model::compare(first, second), model::earlier(first, second)) {
            (Ordering::Less, []) => &second[second.len()..],
            (_, part) => part,
        }),
    ),
    step("a fetch is logged without bit 16", |s| {
        if let Some(fetch) = s.log.first_mut() {
            *fetch &= !FETCH;
        }
    }),
    step("every read is logged with bit 16", |s| {
        if let Some(read) = s.log.get_mut(2) {
            *read |= FETCH;
        }
    }),
    step("the word is logged before the address", |s| s.log.chunks_mut(2).for_each(|read| read.reverse())),
    step("a read out of range is logged", |s| {
        if matches!(s.kind, Some(READ | SPREAD | POP)) && s.fault(11) {
            s.log.extend(model::entry(DATA, s.address as u16, 0));
        }
    }),
    step("a fetch out of range is logged", |s| {
        if s.fault(11) && s.log.is_empty() {
            s.log.extend(model::entry(FETCH, s.before.ip, 0));
        }
    }),
    step("the fetch of an undecodable word is not logged", |s| {
        if s.fault(10) {
            s.log.clear();
        }
    }),
    step("the fetch of a word that faults is not logged", |s| {
        if s.fault(13) {
            s.log.clear();
        }
    }),
    step("writes are logged too", |s| {
        if s.is(WRITE) || s.is(PUSH) {
            s.log.extend(model::entry(DATA, s.address as u16, s.memory[s.address]));
        }
    }),
    logged("the reads are counted and not the log words", |run, _| run.logged /= 2),
    logged("the room is tested before the limit", |run, log| {
        if run.end == Outcome::Limit && log.len() - run.logged < 4 {
            run.end = Outcome::Log(30);
        }
    }),
    logged("the room is tested before halt", |run, log| {
        if run.end == Outcome::Halted && log.len() - run.logged < 4 {
            run.end = Outcome::Log(30);
        }
    }),
    logged("the room past the log is cleared", |run, log| log[run.logged..].fill(0)),
    logged("a refused logged run clears the log", |run, log| {
        if matches!(run.end, Outcome::Refused(_)) {
            log.fill(0);
        }
    }),
    other(
        "room for three words is enough",
        Mistake::RunLogged(|core, memory, marks, terms, limit, log| {
            let mut longer = [&log[..], &[0]].concat();
            let run = model::run_logged(core, memory, marks, terms, limit, &mut longer);
            log.copy_from_slice(&longer[..log.len()]);
            LoggedRun { logged: run.logged.min(log.len()), ..run }
        }),
    ),
    other(
        "room for four words is not enough",
        Mistake::RunLogged(|core, memory, marks, terms, limit, log| {
            let shorter = log.len().saturating_sub(1);
            model::run_logged(core, memory, marks, terms, limit, &mut log[..shorter])
        }),
    ),
    found("a replay does not look at the address", |read, log| match *log {
        [address, ..] if address >> 16 == read >> 16 => model::found(address, log),
        _ => None,
    }),
    found("a replay does not look at bit 16", |read, log| match *log {
        [address, ..] if address | FETCH == read | FETCH => model::found(address, log),
        _ => None,
    }),
    found("a replay does not look at bits 27 to 17 of an address", |read, log| match *log {
        [address, value, ..] => model::found(read, &[address & 0xF001_FFFF, value]),
        _ => None,
    }),
    found("a replay does not look at the kind of a value", |read, log| match *log {
        [address, value, ..] => model::found(read, &[address, value << 4 >> 4 | 5 << 28]),
        _ => None,
    }),
    found("a replay does not look at bits 27 to 16 of a value", |read, log| match *log {
        [address, value, ..] => model::found(read, &[address, value & 0xF000_FFFF]),
        _ => None,
    }),
    found("a replay wants the words of an empty memory", |read, log| model::found(read, log).filter(|word| *word == 0)),
    found("a replay takes 0 where the log is over", |read, log| match log {
        [] | [_] => Some(0),
        _ => model::found(read, log),
    }),
    other(
        "a replay leaves words over",
        Mistake::Replay(|core, size, terms, limit, log| {
            let left = model::follow(model::found, Guard::of(terms), *core, size, limit, log).left;
            model::replay(core, size, terms, limit, &log[..log.len() - left])
        }),
    ),
    other(
        "a replay answered by 31 hands back another core",
        Mistake::Replay(|core, size, terms, limit, log| {
            let followed = model::follow(model::found, Guard::of(terms), *core, size, limit, log);
            let run = model::replay(core, size, terms, limit, log);
            if run.end == Outcome::Log(31) {
                *core = followed.core;
            }
            run
        }),
    ),
    other(
        "a replay answered by 31 has steps",
        Mistake::Replay(|core, size, terms, limit, log| {
            let followed = model::follow(model::found, Guard::of(terms), *core, size, limit, log);
            let run = model::replay(core, size, terms, limit, log);
            match run.end {
                Outcome::Log(31) => Run { steps: followed.run.steps, ..run },
                _ => run,
            }
        }),
    ),
    other(
        "a replay with memory of no word is not refused",
        Mistake::Replay(|core, size, terms, limit, log| model::replay(core, size.max(1), terms, limit, log)),
    ),
    other(
        "a replay goes by the low 32 bits of the size",
        Mistake::Replay(|core, size, terms, limit, log| model::replay(core, size as u32 as usize, terms, limit, log)),
    ),
    other(
        "a replay knows no address out of range",
        Mistake::Replay(|core, size, terms, limit, log| match size {
            1..65536 => model::replay(core, 65536, terms, limit, log),
            _ => model::replay(core, size, terms, limit, log),
        }),
    ),
    other(
        "a replay goes past its limit",
        Mistake::Replay(|core, size, terms, limit, log| {
            model::replay(core, size, terms, limit.max(log.len() as u32), log)
        }),
    ),
];
