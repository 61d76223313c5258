//! Machines that are wrong about the editions of the instruction set (docs/MACHINE.md, Editions).

use super::*;

const fn taken(name: &'static str, taken: fn(u16) -> u16) -> WrongMachine {
    WrongMachine { name, mistake: Mistake::Edition(taken) }
}

const fn written(name: &'static str, write: Write) -> WrongMachine {
    WrongMachine { name, mistake: Mistake::WriteSheet(write) }
}

impl Stepped<'_> {
    /// Whether it is of the kind, by 16 or more in edition 2.
    fn far(&self, kind: u8) -> bool {
        self.edition == 2 && self.is(kind) && self.operands().1 >= 16
    }

    fn neg_of_0x8000(&self) -> bool {
        self.edition == 2 && self.is(NEG) && self.operands().0 == 0x8000
    }
}

/// The terms of edition 1 where they were those of edition 2.
fn ignored(terms: Terms) -> Terms {
    Terms { edition: if terms.edition == 2 { 1 } else { terms.edition }, ..terms }
}

/// The end of a call that tests the edition before another refusal.
fn before(number: u8, end: Outcome, terms: Terms) -> Outcome {
    match (end, model::edition_test(terms.edition)) {
        (Outcome::Refused(Refusal(other)), Err(refusal)) if other == number => Outcome::Refused(refusal),
        _ => end,
    }
}

fn is_edition(record: &u32) -> bool {
    record >> 28 == 7
}

/// Whether it is a record of kind 7 with an edition that is refused.
fn is_refused(record: &u32) -> bool {
    is_edition(record) && model::edition_test(*record as u16).is_err()
}

/// A record with edition 1 where its edition is refused.
fn accepted(_: &[u32], record: u32) -> u32 {
    if is_refused(&record) {
        record & 0xFFFF_0000 | 1
    } else {
        record
    }
}

/// The record by which a sheet is refused, or its end.
fn deciding(sheet: &[u32], length: usize) -> Option<u32> {
    let decided = |count: &usize| model::sheet_test(&sheet[..*count], length) != Err(Refusal(24));
    (1..=sheet.len()).find(decided).map(|count| sheet[count - 1])
}

pub const EDITIONS: [WrongMachine; 47] = [
    step("shr by 16 gives the register", |s| {
        if s.far(SHR) && s.operands().1 == 16 {
            s.core.r[s.first] = s.operands().0;
        }
    }),
    step("shr takes the amount modulo 32", |s| {
        if s.far(SHR) && s.operands().1 % 32 < 16 {
            s.core.r[s.first] = s.operands().0 >> (s.operands().1 % 32);
        }
    }),
    step("shr brings in ones from 16 on", |s| {
        if s.far(SHR) && s.operands().0 >= 0x8000 {
            s.core.r[s.first] = 0xFFFF;
        }
    }),
    step("shl takes the amount modulo 16", |s| {
        if s.far(SHL) {
            s.core.r[s.first] = s.operands().0 << (s.operands().1 % 16);
        }
    }),
    step("shl looks at the amount's low byte", |s| {
        if s.far(SHL) && s.operands().1 % 256 < 16 {
            s.core.r[s.first] = s.operands().0 << (s.operands().1 % 256);
        }
    }),
    step("shl by 65,535 leaves its register", |s| {
        if s.far(SHL) && s.operands().1 == 0xFFFF {
            s.core.r[s.first] = s.operands().0;
        }
    }),
    step("bitset past 15 clears its register", |s| {
        if s.far(BITSET) {
            s.core.r[s.first] = 0;
        }
    }),
    step("bitset past 15 takes the index modulo 16 and sets", |s| {
        if s.far(BITSET) && s.before.ef & 2 > 0 {
            s.core.r[s.first] = s.operands().0 | 1 << (s.operands().1 % 16);
        }
    }),
    step("bitset past 15 takes the index modulo 16 and clears", |s| {
        if s.far(BITSET) && s.before.ef & 2 == 0 {
            s.core.r[s.first] = s.operands().0 & !(1 << (s.operands().1 % 16));
        }
    }),
    step("bitset past 15 leaves its register in edition 1", |s| {
        if s.fault(13) && s.kind == Some(BITSET) {
            s.answer = Outcome::Stepped;
        }
    }),
    step("neg of 0x8000 stops in edition 2", |s| {
        if s.neg_of_0x8000() {
            s.answer = Outcome::Fault(Fault { number: 14, value: 0x8000 });
        }
    }),
    step("neg of 0x8000 gives 0", |s| {
        if s.neg_of_0x8000() {
            s.core.r[s.first] = 0;
        }
    }),
    step("neg of 0x8000 gives 0x7FFF", |s| {
        if s.neg_of_0x8000() {
            s.core.r[s.first] = 0x7FFF;
        }
    }),
    step("there is no stop 12 in edition 2", |s| {
        if s.edition == 2 && s.fault(12) {
            s.answer = Outcome::Stepped;
        }
    }),
    step("a shift by 16 or more in edition 2 is no step", |s| {
        if s.far(SHL) || s.far(SHR) {
            s.core.ip = s.before.ip;
        }
    }),
    step("a step of a halted core does not test its edition", |s| {
        if s.answer == Outcome::Refused(Refusal(34)) && s.core.is_halted() {
            s.answer = Outcome::Halted;
        }
    }),
    step("a step tests its edition before its lengths", |s| {
        let terms = Terms { rights: None, edition: s.edition };
        s.answer = before(1, before(2, s.answer, terms), terms);
    }),
    other(
        "a run ignores its edition",
        Mistake::Run(|core, memory, marks, terms, limit| model::run(core, memory, marks, ignored(terms), limit)),
    ),
    other(
        "a logged run ignores its edition",
        Mistake::RunLogged(|core, memory, marks, terms, limit, log| {
            model::run_logged(core, memory, marks, ignored(terms), limit, log)
        }),
    ),
    other(
        "a replay ignores its edition",
        Mistake::Replay(|core, size, terms, limit, log| model::replay(core, size, ignored(terms), limit, log)),
    ),
    other(
        "a guarded run ignores its edition",
        Mistake::Run(|core, memory, marks, terms, limit| {
            let terms = if terms.rights.is_some() { ignored(terms) } else { terms };
            model::run(core, memory, marks, terms, limit)
        }),
    ),
    other(
        "34 is tested before 1",
        Mistake::Run(|core, memory, marks, terms, limit| {
            let run = model::run(core, memory, marks, terms, limit);
            Run { end: before(1, run.end, terms), ..run }
        }),
    ),
    other(
        "34 is tested before 2",
        Mistake::Run(|core, memory, marks, terms, limit| {
            let run = model::run(core, memory, marks, terms, limit);
            Run { end: before(2, run.end, terms), ..run }
        }),
    ),
    other(
        "34 is tested before 32",
        Mistake::Run(|core, memory, marks, terms, limit| {
            let run = model::run(core, memory, marks, terms, limit);
            Run { end: before(32, run.end, terms), ..run }
        }),
    ),
    other(
        "a logged run tests 34 before 32",
        Mistake::RunLogged(|core, memory, marks, terms, limit, log| {
            let run = model::run_logged(core, memory, marks, terms, limit, log);
            LoggedRun { end: before(32, run.end, terms), ..run }
        }),
    ),
    other(
        "a replay tests 34 before 1",
        Mistake::Replay(|core, size, terms, limit, log| {
            let run = model::replay(core, size, terms, limit, log);
            Run { end: before(1, run.end, terms), ..run }
        }),
    ),
    other(
        "a replay tests 34 before 32",
        Mistake::Replay(|core, size, terms, limit, log| {
            let run = model::replay(core, size, terms, limit, log);
            Run { end: before(32, run.end, terms), ..run }
        }),
    ),
    other(
        "a run refused by 34 clears the marks",
        Mistake::Run(|core, memory, marks, terms, limit| {
            let run = model::run(core, memory, marks, terms, limit);
            if run.end == Outcome::Refused(Refusal(34)) {
                marks.fill(0);
            }
            run
        }),
    ),
    taken("edition 3 is accepted as 2", |edition| if edition == 3 { 2 } else { edition }),
    taken("edition 0 is accepted as 1", |edition| edition.max(1)),
    taken("only the low byte of the edition is looked at", |edition| edition % 256),
    written("4 is tested before 34", |core, edition, memory, sheet| {
        match model::write_sheet(core, edition, memory, sheet) {
            Err(Refusal(34)) => model::write_sheet(core, 1, memory, &mut sheet.to_vec()).and(Err(Refusal(34))),
            written => written,
        }
    }),
    written("34 is tested before 1 by the writer", |core, edition, memory, sheet| {
        model::edition_test(edition)?;
        model::write_sheet(core, edition, memory, sheet)
    }),
    written("the edition stands after the presets", |core, edition, memory, sheet| {
        let count = model::write_sheet(core, edition, memory, sheet)?;
        if edition == 2 {
            sheet[..13].rotate_left(1);
        }
        Ok(count)
    }),
    written("edition 1 is written too", |core, edition, memory, sheet| {
        if edition != 1 {
            return model::write_sheet(core, edition, memory, sheet);
        }
        let count = model::write_sheet(core, 2, memory, sheet)?;
        sheet[0] = 0x7000_0001;
        Ok(count)
    }),
    written("edition 2 is not written", |core, edition, memory, sheet| {
        model::write_sheet(core, if edition == 2 { 1 } else { edition }, memory, sheet)
    }),
    written("the edition is not among the records that a write answers", |core, edition, memory, sheet| {
        let count = model::write_sheet(core, edition, memory, sheet)?;
        Ok(if edition == 2 { count - 1 } else { count })
    }),
    loaded("a refused load returns 2", |core, edition, sheet, memory| {
        let answer = model::load_sheet(core, edition, sheet, memory);
        if answer.is_err() {
            *edition = 2;
        }
        answer
    }),
    loaded("a refused load keeps the edition that it finds", |core, edition, sheet, memory| {
        let mut loaded = 0;
        model::load_sheet(core, &mut loaded, sheet, memory)?;
        *edition = loaded;
        Ok(())
    }),
    other(
        "a word list keeps the edition that it finds",
        Mistake::LoadWords(|core, _, words, memory| model::load_words(core, &mut 1, words, memory)),
    ),
    loaded("34 is tested before 21", |core, edition, sheet, memory| {
        let answer = model::load_sheet(core, edition, sheet, memory);
        match (answer, deciding(sheet, memory.len())) {
            (Err(Refusal(21)), Some(record)) if is_refused(&record) => Err(Refusal(34)),
            _ => answer,
        }
    }),
    loaded("all editions are tested before 22", |core, edition, sheet, memory| {
        let answer = model::load_sheet(core, edition, sheet, memory);
        if answer == Err(Refusal(22)) && sheet.iter().any(is_refused) {
            Err(Refusal(34))
        } else {
            answer
        }
    }),
    loaded("editions are tested after all records", |core, edition, sheet, memory| {
        let answer = model::load_sheet(core, edition, sheet, memory);
        match model::sheet_test(&changed(sheet, accepted), memory.len()) {
            Err(refusal) if answer == Err(Refusal(34)) => Err(refusal),
            _ => answer,
        }
    }),
    loaded("the first edition of a sheet counts", |core, edition, sheet, memory| {
        let answer = model::load_sheet(core, edition, sheet, memory);
        if let (Ok(()), Some(first)) = (answer, sheet.iter().find(|record| is_edition(record))) {
            *edition = *first as u16;
        }
        answer
    }),
    loaded("bits 27 to 16 of an edition are not tested", |core, edition, sheet, memory| {
        let tested = |_: &[u32], record: u32| if is_edition(&record) { record & 0xF000_FFFF } else { record };
        model::load_sheet(core, edition, &changed(sheet, tested), memory)
    }),
    loaded("a record of kind 7 is unknown", |core, edition, sheet, memory| {
        let unknown = |_: &[u32], record: u32| if is_edition(&record) { record << 4 >> 4 } else { record };
        model::load_sheet(core, edition, &changed(sheet, unknown), memory)
    }),
    loaded("an edition that is refused is not looked at", |core, edition, sheet, memory| {
        model::load_sheet(core, edition, &changed(sheet, accepted), memory)
    }),
];
