//! Machines that are wrong about rights over memory pages (docs/MACHINE.md, Rights).

use super::*;
use crate::model::Rights;
use nilguseg::{right, PAGES};

const fn access(name: &'static str, access: model::Access) -> WrongMachine {
    WrongMachine { name, mistake: Mistake::Access(access) }
}

const fn taken(name: &'static str, taken: fn(&[u8]) -> Vec<u8>) -> WrongMachine {
    WrongMachine { name, mistake: Mistake::Rights(taken) }
}

const fn replay(name: &'static str, replay: Replay) -> WrongMachine {
    WrongMachine { name, mistake: Mistake::Replay(replay) }
}

/// The test of an access by the byte of the page given.
fn on_page(page: usize, at: u16, need: u8, length: usize, rights: Rights) -> Result<(), Fault> {
    let byte = |rights: &[u8]| vec![rights[page % PAGES]; PAGES];
    model::access(at, need, length, rights.map(byte).as_deref())
}

/// The model's test, but for the rights `but`, of which none is asked.
fn unless(but: u8, at: u16, need: u8, length: usize, rights: Rights) -> Result<(), Fault> {
    model::access(at, need, length, if but & need > 0 { None } else { rights })
}

/// Terms whose rights are no rights, once they are tested.
fn without(terms: Terms) -> Terms {
    if model::rights_test(terms.rights).is_ok() {
        Terms { rights: None, ..terms }
    } else {
        terms
    }
}

impl Stepped<'_> {
    /// The address of an access whose right is absent.
    fn refused(&self) -> Option<u16> {
        match self.answer {
            Outcome::Fault(Fault { number: 33, value }) => Some(value),
            _ => None,
        }
    }

    /// The same, where the access is not the fetch, which is logged.
    fn refused_data(&self) -> Option<u16> {
        self.refused().filter(|_| !self.log.is_empty())
    }
}

pub const RIGHTS: [WrongMachine; 46] = [
    access("a fetch needs only read", |at, need, length, rights| {
        model::access(at, if need == right::EXECUTE { right::READ } else { need }, length, rights)
    }),
    access("a fetch needs read and execute", |at, need, length, rights| {
        let also = if need == right::EXECUTE { right::READ } else { need };
        model::access(at, need, length, rights).and_then(|()| model::access(at, also, length, rights))
    }),
    access("a fetch needs any right", |at, need, length, rights| {
        model::access(at, if need == right::EXECUTE { 7 } else { need }, length, rights)
    }),
    access("a read needs execute", |at, need, length, rights| {
        model::access(at, if need == right::READ { right::EXECUTE } else { need }, length, rights)
    }),
    access("what may be written may be read", |at, need, length, rights| {
        model::access(at, if need == right::READ { right::READ | right::WRITE } else { need }, length, rights)
    }),
    access("a write needs read", |at, need, length, rights| {
        model::access(at, if need == right::WRITE { right::READ } else { need }, length, rights)
    }),
    access("a write needs read too", |at, need, length, rights| {
        let also = if need == right::WRITE { right::READ } else { need };
        model::access(at, need, length, rights).and_then(|()| model::access(at, also, length, rights))
    }),
    access("execute and write are exchanged", |at, need, length, rights| {
        let exchanged = [right::READ, right::EXECUTE, right::WRITE][need as usize / 2];
        model::access(at, exchanged, length, rights)
    }),
    access("only reads of data are tested", |at, need, length, rights| {
        unless(right::WRITE | right::EXECUTE, at, need, length, rights)
    }),
    access("writes are not tested", |at, need, length, rights| unless(right::WRITE, at, need, length, rights)),
    access("a page of no right is not looked at", |at, need, length, rights| match rights {
        Some(bytes) if bytes[at as usize / 256] == 0 => model::access(at, need, length, None),
        _ => model::access(at, need, length, rights),
    }),
    access("33 is tested before 11", |at, need, length, rights| {
        model::access(at, need, 65536, rights).and_then(|()| model::access(at, need, length, rights))
    }),
    access("a page is the address modulo 256", |at, need, length, rights| {
        on_page(at as usize % 256, at, need, length, rights)
    }),
    access("a page has 255 addresses", |at, need, length, rights| on_page(at as usize / 255, at, need, length, rights)),
    access("a page has 128 addresses", |at, need, length, rights| on_page(at as usize / 128, at, need, length, rights)),
    access("the pages are numbered from the last", |at, need, length, rights| {
        on_page(255 - at as usize / 256, at, need, length, rights)
    }),
    access("a right absent is told as 11", |at, need, length, rights| {
        model::access(at, need, length, rights).map_err(|fault| Fault { number: 11, ..fault })
    }),
    access("a right absent is told by its page", |at, need, length, rights| {
        model::access(at, need, length, rights).map_err(|fault| match fault.number {
            33 => Fault { value: at / 256, ..fault },
            _ => fault,
        })
    }),
    step("a right absent is told by ip", |s| {
        if s.refused().is_some() {
            s.answer = Outcome::Fault(Fault { number: 33, value: s.before.ip });
        }
    }),
    step("a refused access leaves its mark", |s| {
        if let Some(at) = s.refused() {
            s.marks[at as usize] |= if matches!(s.kind, Some(WRITE | SPWRITE | PUSH)) { 2 } else { 1 };
        }
    }),
    step("a refused fetch leaves its mark", |s| {
        if let (Some(at), true) = (s.refused(), s.log.is_empty()) {
            s.marks[at as usize] |= 1;
        }
    }),
    step("a refused access is logged", |s| {
        if let (Some(at), Some(READ | SPREAD | POP)) = (s.refused_data(), s.kind) {
            s.log.extend(model::entry(DATA, at, s.memory[at as usize]));
        }
    }),
    step("a refused fetch is logged", |s| {
        if let (Some(at), true) = (s.refused(), s.log.is_empty()) {
            s.log.extend(model::entry(FETCH, at, s.memory[at as usize]));
        }
    }),
    step("a refused fetch advances ip", |s| {
        if s.refused().is_some() && s.log.is_empty() {
            s.core.ip = s.core.ip.wrapping_add(1);
        }
    }),
    step("a refused read or write keeps ip", |s| {
        if s.refused_data().is_some() {
            s.core.ip = s.before.ip;
        }
    }),
    step("a refused push restores sp", |s| {
        if s.refused_data().is_some() && s.kind == Some(PUSH) {
            s.core.sp = s.before.sp;
        }
    }),
    step("a refused pop raises sp", |s| {
        if s.refused_data().is_some() && s.kind == Some(POP) {
            s.core.sp = s.core.sp.wrapping_add(1);
        }
    }),
    step("a refused read is done", |s| {
        if let (Some(at), Some(READ)) = (s.refused_data(), s.kind) {
            s.core.r[s.first] = s.memory[at as usize];
        }
    }),
    step("a refused write is done", |s| {
        if let (Some(at), Some(WRITE)) = (s.refused_data(), s.kind) {
            s.memory[at as usize] = s.operands().1;
        }
    }),
    step("a push needs no right", |s| {
        if let (Some(at), Some(PUSH)) = (s.refused_data(), s.kind) {
            s.memory[at as usize] = s.operands().0;
            s.marks[at as usize] |= 2;
            s.answer = Outcome::Stepped;
        }
    }),
    other(
        "a refused access is counted as a step",
        Mistake::Run(|core, memory, marks, terms, limit| {
            let run = model::run(core, memory, marks, terms, limit);
            match run.end {
                Outcome::Fault(Fault { number: 33, .. }) => Run { steps: run.steps + 1, ..run },
                _ => run,
            }
        }),
    ),
    other(
        "32 is tested before 2",
        Mistake::Run(|core, memory, marks, terms, limit| {
            let run = model::run(core, memory, marks, terms, limit);
            match (run.end, model::rights_test(terms.rights)) {
                (Outcome::Refused(Refusal(2)), Err(refusal)) => Run { end: Outcome::Refused(refusal), ..run },
                _ => run,
            }
        }),
    ),
    other(
        "the rights of a halted core are not tested",
        Mistake::Run(|core, memory, marks, terms, limit| {
            let rights = if core.is_halted() { None } else { terms.rights };
            model::run(core, memory, marks, Terms { rights, ..terms }, limit)
        }),
    ),
    other(
        "a run refused by 32 clears the marks",
        Mistake::Run(|core, memory, marks, terms, limit| {
            let run = model::run(core, memory, marks, terms, limit);
            if run.end == Outcome::Refused(Refusal(32)) {
                marks.fill(0);
            }
            run
        }),
    ),
    taken("a rights byte of 8 is accepted", |rights| rights.iter().map(|byte| byte & !8).collect()),
    taken("a rights byte is tested with its sign", |rights| {
        rights.iter().map(|byte| if *byte >= 128 { byte % 8 } else { *byte }).collect()
    }),
    taken("the last rights byte is not tested", |rights| match rights {
        [first @ .., last] => [first, &[last % 8]].concat(),
        [] => vec![],
    }),
    taken("257 rights are accepted", |rights| match rights.len() {
        257 => rights[..PAGES].to_vec(),
        _ => rights.to_vec(),
    }),
    taken("255 rights are accepted", |rights| match rights.len() {
        255 => [rights, &[7]].concat(),
        _ => rights.to_vec(),
    }),
    taken("the number of rights goes by its low 16 bits", |rights| rights[..rights.len() % 65536].to_vec()),
    logged("a logged run refused by 32 has log words", |run, _| {
        if run.end == Outcome::Refused(Refusal(32)) {
            run.logged = 2;
        }
    }),
    other(
        "a logged run does not look at its rights",
        Mistake::RunLogged(|core, memory, marks, terms, limit, log| {
            model::run_logged(core, memory, marks, without(terms), limit, log)
        }),
    ),
    other(
        "a right is tested before the room",
        Mistake::RunLogged(|core, memory, marks, terms, limit, log| {
            let run = model::run_logged(core, memory, marks, terms, limit, log);
            if run.end != Outcome::Log(30) {
                return run;
            }
            let (mut after, mut words, mut left) = (*core, memory.to_vec(), marks.to_vec());
            match model::step_of_run(&mut after, &mut words, &mut left, Guard::of(terms), None) {
                fault @ Outcome::Fault(Fault { number: 33, .. }) => LoggedRun { end: fault, ..run },
                _ => run,
            }
        }),
    ),
    replay("a replay tests its rights before its size", |core, size, terms, limit, log| {
        match model::rights_test(terms.rights) {
            Err(refusal) => Run { end: Outcome::Refused(refusal), steps: 0 },
            Ok(()) => model::replay(core, size, terms, limit, log),
        }
    }),
    replay("a replay does not look at its rights", |core, size, terms, limit, log| {
        model::replay(core, size, without(terms), limit, log)
    }),
    replay("a replay does not test writes", |core, size, terms, limit, log| {
        let access = |at, need, length, rights: Rights| unless(right::WRITE, at, need, length, rights);
        model::replay_by(model::found, Guard { terms, access }, core, size, limit, log)
    }),
];
