//! The model: the machine as docs/MACHINE.md, docs/NUMBERS.md and docs/SHEETS.md say it, written
//! apart from the library, plainly and slowly. Decoding looks a word up in a table made by encoding
//! every operand of every row. It is the base of the wrong machines, and the measure for what the
//! published Rust does not have: refusals, sheets, the order of word lists, the room for a log, the
//! replay, rights over memory pages where one is absent, and the second edition of the instruction
//! set.

use std::cmp::Ordering;

use nilguseg::{kind::*, right, Core, Fault, Instruction, LoggedRun, Outcome, Refusal, Run, PAGES};

/// Where an operand stands in a word: how many values it has, and its lowest bit.
struct Operand {
    values: u16,
    shift: u32,
}

const fn bits(values: u16, shift: u32) -> Operand {
    Operand { values, shift }
}

const P: Operand = bits(8, 4);
const Q: Operand = bits(8, 0);
const SPECIAL: Operand = bits(4, 4);
const DECIMAL: Operand = bits(4, 0);
const OFFSET: Operand = bits(16, 0);
const REGISTER: Operand = bits(8, 8);
const BYTE: Operand = bits(256, 0);
const NONE: Operand = bits(1, 0);

struct Row {
    kind: u8,
    base: u16,
    first: Operand,
    second: Operand,
}

const fn row(kind: u8, base: u16, first: Operand, second: Operand) -> Row {
    Row { kind, base, first, second }
}

/// The table of docs/MACHINE.md, Instructions: for each kind its word with all operands 0, and
/// where its operands stand. The operands stand in the order of the published enum's fields; the
/// kinds in its order.
const ROWS: [Row; 43] = [
    row(NOP, 0x0000, NONE, NONE),
    row(HLT, 0xFFFF, NONE, NONE),
    row(MOV, 0x2100, Q, P),
    row(DMOV, 0x2108, DECIMAL, SPECIAL), // src in bits 5..4, where special registers stand
    row(PUTL, 0x1000, REGISTER, BYTE),
    row(PUTH, 0x1800, REGISTER, BYTE),
    row(READ, 0x2000, Q, P),
    row(WRITE, 0x2080, P, Q),
    row(SPREAD, 0x3000, P, OFFSET),
    row(SPWRITE, 0x3080, OFFSET, P),
    row(DREAD, 0x2008, DECIMAL, P),
    row(DWRITE, 0x2088, P, DECIMAL),
    row(PUSH, 0x23D0, Q, NONE),
    row(POP, 0x23D8, Q, NONE),
    row(MOVSO, 0x2180, Q, SPECIAL),
    row(MOVSI, 0x21C0, SPECIAL, Q),
    row(SPADD, 0x21D8, Q, NONE),
    row(SPINC, 0x22D0, NONE, NONE),
    row(SPDEC, 0x22D1, NONE, NONE),
    row(NOT, 0x4000, Q, NONE),
    row(AND, 0x4100, Q, P),
    row(BOOLAND, 0x4180, Q, P),
    row(OR, 0x4200, Q, P),
    row(XOR, 0x4300, Q, P),
    row(SHL, 0x4400, Q, P),
    row(SHR, 0x4500, Q, P),
    row(BITSET, 0x4700, Q, P),
    row(NEG, 0x4800, Q, NONE),
    row(INC, 0x4810, Q, NONE),
    row(DEC, 0x4820, Q, NONE),
    row(ADD, 0x4900, Q, P),
    row(SUB, 0x4A00, Q, P),
    row(MUL, 0x4B00, Q, P),
    row(INV, 0x5000, NONE, NONE),
    row(EQZ, 0x5010, Q, NONE),
    row(EQ, 0x5100, P, Q),
    row(GT, 0x5200, P, Q),
    row(GTEQ, 0x5300, P, Q),
    row(JMPOFF, 0x6000, BYTE, NONE),
    row(CJMPOFF, 0x6100, BYTE, NONE),
    row(CJMP, 0x6300, Q, NONE),
    row(CALL, 0x6210, Q, NONE),
    row(RET, 0x6218, NONE, NONE),
];

const UNDECODABLE: u8 = 43;

/// What each word decodes to, `UNDECODABLE` where no row has it. Two rows that claimed one word
/// would be a compile error.
static DECODED: [Instruction; 65536] = {
    let mut table = [Instruction { kind: UNDECODABLE, first: 0, second: 0 }; 65536];
    let mut k = 0;
    while k < 43 {
        let row = &ROWS[k];
        let mut n = 0;
        while n < row.first.values * row.second.values {
            let (first, second) = (n / row.second.values, n % row.second.values);
            let word = row.base + (first << row.first.shift) + (second << row.second.shift);
            assert!(table[word as usize].kind == UNDECODABLE, "two rows claim one word");
            table[word as usize] = Instruction { kind: row.kind, first: first as u8, second: second as u8 };
            n += 1;
        }
        k += 1;
    }
    table
};

/// The instruction that a word stands for, or stop 10 with the word (docs/MACHINE.md,
/// Instructions).
pub fn decode(word: u16) -> Result<Instruction, Fault> {
    match DECODED[word as usize] {
        Instruction { kind: UNDECODABLE, .. } => Err(Fault { number: 10, value: word }),
        instruction => Ok(instruction),
    }
}

/// The word of an instruction; none where the kind or a register does not exist.
pub fn encode(instruction: Instruction) -> Option<u16> {
    let row = ROWS.get(instruction.kind as usize)?;
    Some(row.base + place(&row.first, instruction.first)? + place(&row.second, instruction.second)?)
}

/// The operand's bits. An offset above 15 goes by its low four bits; a register above the last has
/// none.
fn place(operand: &Operand, value: u8) -> Option<u16> {
    let value = match operand.values {
        1 => 0,
        16 => value as u16 % 16,
        _ => value as u16,
    };
    (value < operand.values).then_some(value << operand.shift)
}

/// The rights bytes of a run, if it was given any.
pub type Rights<'a> = Option<&'a [u8]>;

/// What a run is handed beside what it may change and its limit.
#[derive(Clone, Copy)]
pub struct Terms<'a> {
    /// None where the run has no rights over pages, and so every right.
    pub rights: Rights<'a>,
    /// The edition's number: 1 or 2, where it is not refused.
    pub edition: u16,
}

/// Tests an access by its address, the right that it needs, memory's length and the rights.
pub type Access = fn(u16, u8, usize, Rights) -> Result<(), Fault>;

/// Stop 11 first, then stop 33 (docs/MACHINE.md, Rights).
pub fn access(at: u16, need: u8, length: usize, rights: Rights) -> Result<(), Fault> {
    if at as usize >= length {
        return Err(Fault { number: 11, value: at });
    }
    match rights {
        Some(rights) if rights.get(at as usize / 256).is_none_or(|byte| byte & need == 0) => {
            Err(Fault { number: 33, value: at })
        }
        _ => Ok(()),
    }
}

/// What a run is handed, and what its accesses are tested by.
#[derive(Clone, Copy)]
pub struct Guard<'a> {
    /// What the run is handed.
    pub terms: Terms<'a>,
    /// The test of each access, which a wrong machine replaces.
    pub access: Access,
}

impl<'a> Guard<'a> {
    /// The guard of the model: its test is `access`.
    pub fn of(terms: Terms<'a>) -> Guard<'a> {
        Guard { terms, access }
    }

    fn read(&self, at: u16, purpose: u32, length: usize) -> Result<(), Fault> {
        let need = if purpose == FETCH { right::EXECUTE } else { right::READ };
        (self.access)(at, need, length, self.terms.rights)
    }

    fn write(&self, at: u16, length: usize) -> Result<(), Fault> {
        (self.access)(at, right::WRITE, length, self.terms.rights)
    }
}

/// What a step reads and writes: the memory lent to it, or a log in memory's place.
trait Words {
    /// The purpose is `FETCH` or `DATA`.
    fn read(&mut self, at: u16, purpose: u32) -> Result<u16, Fault>;
    fn write(&mut self, at: u16, word: u16) -> Result<(), Fault>;
}

/// The memory and the marks lent to a step, and the log to which its reads are added, if there is
/// one.
struct Lent<'a> {
    memory: &'a mut [u16],
    marks: &'a mut [u8],
    guard: Guard<'a>,
    log: Option<&'a mut Vec<u32>>,
}

impl Words for Lent<'_> {
    fn read(&mut self, at: u16, purpose: u32) -> Result<u16, Fault> {
        self.guard.read(at, purpose, self.memory.len())?;
        let word = self.memory[at as usize];
        let mark = &mut self.marks[at as usize];
        if *mark & 2 == 0 {
            *mark |= 1;
        }
        if let Some(log) = &mut self.log {
            log.extend(entry(purpose, at, word));
        }
        Ok(word)
    }

    fn write(&mut self, at: u16, word: u16) -> Result<(), Fault> {
        self.guard.write(at, self.memory.len())?;
        self.memory[at as usize] = word;
        self.marks[at as usize] |= 2;
        Ok(())
    }
}

/// What a word is read for, as its log word has it: to be executed.
pub const FETCH: u32 = 1 << 16;
/// The same of every other read.
pub const DATA: u32 = 0;

/// The two log words of a read (docs/MACHINE.md, Logs and replays): kind 4 with the purpose and the
/// address, kind 5 with the word.
pub fn entry(purpose: u32, at: u16, word: u16) -> [u32; 2] {
    [4 << 28 | purpose | at as u32, 5 << 28 | word as u32]
}

/// The first host test that fails on what a step or a run is lent: 1, 2, 32, 34 (docs/NUMBERS.md,
/// The order of the tests).
fn host_test(memory: &[u16], marks: &[u8], terms: Terms) -> Result<(), Refusal> {
    length_test(memory.len())?;
    if marks.len() != memory.len() {
        return Err(Refusal(2));
    }
    terms_test(terms)
}

fn terms_test(terms: Terms) -> Result<(), Refusal> {
    rights_test(terms.rights)?;
    edition_test(terms.edition)
}

/// Test 32: rights are `PAGES` bytes of at most 7.
pub fn rights_test(rights: Rights) -> Result<(), Refusal> {
    match rights {
        Some(rights) if rights.len() != PAGES || rights.iter().any(|byte| *byte > 7) => Err(Refusal(32)),
        _ => Ok(()),
    }
}

/// Test 34: an edition is 1 or 2.
pub fn edition_test(edition: u16) -> Result<(), Refusal> {
    match edition {
        1 | 2 => Ok(()),
        _ => Err(Refusal(34)),
    }
}

/// Test 1: memory has 1 to 65,536 words.
fn length_test(length: usize) -> Result<(), Refusal> {
    if (1..=65536).contains(&length) {
        Ok(())
    } else {
        Err(Refusal(1))
    }
}

/// One step, without rights and without a log (docs/MACHINE.md, One step).
pub fn step(core: &mut Core, memory: &mut [u16], marks: &mut [u8], edition: u16) -> Outcome {
    step_of_run(core, memory, marks, Guard::of(Terms { rights: None, edition }), None)
}

/// A step with a guard, whose rights are tested already, that adds its reads to the log, if there
/// is one.
pub fn step_of_run(
    core: &mut Core,
    memory: &mut [u16],
    marks: &mut [u8],
    guard: Guard,
    log: Option<&mut Vec<u32>>,
) -> Outcome {
    if let Err(refusal) = host_test(memory, marks, Terms { rights: None, ..guard.terms }) {
        return Outcome::Refused(refusal);
    }
    if core.is_halted() {
        return Outcome::Halted;
    }
    turn(core, guard.terms.edition, &mut Lent { memory, marks, guard, log })
}

/// A step of a core that is not halted.
fn turn(core: &mut Core, edition: u16, words: &mut dyn Words) -> Outcome {
    match cycle(core, edition, words) {
        Ok(()) => Outcome::Stepped,
        Err(fault) => Outcome::Fault(fault),
    }
}

/// Fetches at ip, advances ip, decodes and executes.
fn cycle(core: &mut Core, edition: u16, words: &mut dyn Words) -> Result<(), Fault> {
    let word = words.read(core.ip, FETCH)?;
    core.ip = sum(core.ip, 1);
    let instruction = decode(word)?;
    execute(core, instruction, word, edition, words)
}

/// What each instruction does (docs/MACHINE.md, Instructions). `word` is the instruction's, for
/// stop 12.
fn execute(
    core: &mut Core,
    instruction: Instruction,
    word: u16,
    edition: u16,
    words: &mut dyn Words,
) -> Result<(), Fault> {
    let (first, second) = (instruction.first as usize, instruction.second as usize);
    let condition = core.ef / 2 % 2 == 1;
    match instruction.kind {
        NOP => {}
        HLT => core.ef |= 1,
        DMOV | DREAD | DWRITE => return Err(Fault { number: 12, value: word }),
        MOV => core.r[first] = core.r[second],
        PUTL => core.r[first] = core.r[first] / 256 * 256 + second as u16,
        PUTH => core.r[first] = core.r[first] % 256 + second as u16 * 256,
        READ..=POP => load_or_store(core, instruction, words)?,
        MOVSO => core.r[first] = [core.ip, core.rp, core.sp, core.ef][second],
        MOVSI => *[&mut core.ip, &mut core.rp, &mut core.sp, &mut core.ef][first] = core.r[second],
        SPADD => core.sp = sum(core.sp, core.r[first]),
        SPINC => core.sp = sum(core.sp, 1),
        SPDEC => core.sp = difference(core.sp, 1),
        NOT..=MUL => core.r[first] = result(instruction.kind, core.r[first], core.r[second], condition, edition)?,
        INV => set_condition(core, !condition),
        EQZ => set_condition(core, core.r[first] == 0),
        EQ => set_condition(core, core.r[first] == core.r[second]),
        GT => set_condition(core, core.r[first] > core.r[second]),
        GTEQ => set_condition(core, core.r[first] >= core.r[second]),
        JMPOFF => core.ip = jump(core.ip, instruction.first),
        CJMPOFF if condition => core.ip = jump(core.ip, instruction.first),
        CJMP if condition => core.ip = core.r[first],
        CJMPOFF | CJMP => {}
        CALL => (core.rp, core.ip) = (core.ip, core.r[first]),
        RET => core.ip = core.rp,
        UNDECODABLE.. => unreachable!(),
    }
    Ok(())
}

/// The kinds that touch memory.
fn load_or_store(core: &mut Core, instruction: Instruction, words: &mut dyn Words) -> Result<(), Fault> {
    let (first, second) = (instruction.first as usize, instruction.second as usize);
    match instruction.kind {
        READ => core.r[first] = words.read(core.r[second], DATA)?,
        WRITE => words.write(core.r[first], core.r[second])?,
        SPREAD => core.r[first] = words.read(sum(core.sp, second as u16), DATA)?,
        SPWRITE => words.write(sum(core.sp, first as u16), core.r[second])?,
        PUSH => {
            core.sp = difference(core.sp, 1);
            words.write(core.sp, core.r[first])?;
        }
        POP => {
            core.r[first] = words.read(core.sp, DATA)?;
            core.sp = sum(core.sp, 1);
        }
        _ => unreachable!(),
    }
    Ok(())
}

/// The kinds whose result goes to reg; val is the right operand.
fn result(kind: u8, reg: u16, val: u16, condition: bool, edition: u16) -> Result<u16, Fault> {
    if matches!(kind, SHL | SHR | BITSET) && val >= 16 {
        return by_16_or_more(kind, reg, val, edition);
    }
    let place = 2u32.pow(val as u32 % 16);
    Ok(match kind {
        NOT => 65535 - reg,
        AND => reg & val,
        BOOLAND => (reg > 0 && val > 0) as u16,
        OR => reg | val,
        XOR => reg ^ val,
        SHL => low_word(reg as u32 * place),
        SHR => (reg as u32 / place) as u16,
        BITSET if condition => reg | place as u16,
        BITSET => reg & (65535 - place as u16),
        NEG if reg == 0x8000 && edition == 1 => return Err(Fault { number: 14, value: reg }),
        NEG => low_word(65536 - reg as u32),
        INC => sum(reg, 1),
        DEC => difference(reg, 1),
        ADD => sum(reg, val),
        SUB => difference(reg, val),
        MUL => low_word(reg as u32 * val as u32),
        _ => unreachable!(),
    })
}

/// Stop 13 in edition 1. In edition 2 a shift gives 0, and bitset leaves its register
/// (docs/MACHINE.md, Editions).
fn by_16_or_more(kind: u8, reg: u16, val: u16, edition: u16) -> Result<u16, Fault> {
    match (edition, kind) {
        (1, _) => Err(Fault { number: 13, value: val }),
        (_, BITSET) => Ok(reg),
        _ => Ok(0),
    }
}

fn low_word(number: u32) -> u16 {
    (number % 65536) as u16
}

fn sum(a: u16, b: u16) -> u16 {
    low_word(a as u32 + b as u32)
}

fn difference(a: u16, b: u16) -> u16 {
    low_word(65536 + a as u32 - b as u32)
}

/// The byte counts as -128 to 127.
fn jump(ip: u16, byte: u8) -> u16 {
    let forward = sum(ip, byte as u16);
    if byte < 128 {
        forward
    } else {
        difference(forward, 256)
    }
}

fn set_condition(core: &mut Core, condition: bool) {
    core.ef = if condition { core.ef | 0x0002 } else { core.ef & 0xFFFD };
}

/// A run without a log (docs/MACHINE.md, The run).
pub fn run(core: &mut Core, memory: &mut [u16], marks: &mut [u8], terms: Terms, limit: u32) -> Run {
    let guard = Guard::of(terms);
    let step = |core: &mut Core, memory: &mut [u16], marks: &mut [u8]| step_of_run(core, memory, marks, guard, None);
    run_by(step, core, memory, marks, terms, limit)
}

/// A run by the step given, after the host tests.
pub fn run_by(
    mut step: impl FnMut(&mut Core, &mut [u16], &mut [u8]) -> Outcome,
    core: &mut Core,
    memory: &mut [u16],
    marks: &mut [u8],
    terms: Terms,
    limit: u32,
) -> Run {
    if let Err(refusal) = host_test(memory, marks, terms) {
        return Run { end: Outcome::Refused(refusal), steps: 0 };
    }
    marks.fill(0);
    turns(|core| step(core, memory, marks), core, limit)
}

/// Steps until halt, the limit or another answer than stepped.
fn turns(mut step: impl FnMut(&mut Core) -> Outcome, core: &mut Core, limit: u32) -> Run {
    let mut steps = 0;
    let end = loop {
        if core.is_halted() {
            break Outcome::Halted;
        }
        if steps == limit {
            break Outcome::Limit;
        }
        match step(core) {
            Outcome::Stepped => steps += 1,
            end => break end,
        }
    };
    Run { end, steps }
}

/// A run that writes its log to the front of `log` (docs/MACHINE.md, Logs and replays).
pub fn run_logged(
    core: &mut Core,
    memory: &mut [u16],
    marks: &mut [u8],
    terms: Terms,
    limit: u32,
    log: &mut [u32],
) -> LoggedRun {
    let guard = Guard::of(terms);
    let step = |core: &mut Core, memory: &mut [u16], marks: &mut [u8], words: &mut Vec<u32>| {
        step_of_run(core, memory, marks, guard, Some(words))
    };
    run_logged_by(step, core, memory, marks, terms, limit, log)
}

/// A logged run by the step given, which adds its reads to the words logged.
pub fn run_logged_by(
    mut step: impl FnMut(&mut Core, &mut [u16], &mut [u8], &mut Vec<u32>) -> Outcome,
    core: &mut Core,
    memory: &mut [u16],
    marks: &mut [u8],
    terms: Terms,
    limit: u32,
    log: &mut [u32],
) -> LoggedRun {
    let mut words = Vec::new();
    let step_with_room = |core: &mut Core, memory: &mut [u16], marks: &mut [u8]| match log.len() - words.len() {
        0..4 => Outcome::Log(30),
        _ => step(core, memory, marks, &mut words),
    };
    let Run { end, steps } = run_by(step_with_room, core, memory, marks, terms, limit);
    log[..words.len()].copy_from_slice(&words);
    LoggedRun { end, steps, logged: words.len() }
}

/// The word that a log has for a read with the address word given: none where its next two words
/// are not that read.
pub type Found = fn(u32, &[u32]) -> Option<u16>;

/// As the model finds it: the word of the log's next read, if that is the read that is made.
pub fn found(address_word: u32, log: &[u32]) -> Option<u16> {
    match *log {
        [address, value, ..] if address == address_word && value >> 16 == 5 << 12 => Some(value as u16),
        _ => None,
    }
}

/// A log in the place of a memory of `size` words: what of it is still to be read.
struct Tape<'a> {
    size: usize,
    guard: Guard<'a>,
    rest: &'a [u32],
    found: Found,
}

/// The stop of a read that the log does not have.
const MISMATCH: Fault = Fault { number: 31, value: 0 };

impl Words for Tape<'_> {
    fn read(&mut self, at: u16, purpose: u32) -> Result<u16, Fault> {
        self.guard.read(at, purpose, self.size)?;
        let [address_word, _] = entry(purpose, at, 0);
        let word = (self.found)(address_word, self.rest).ok_or(MISMATCH)?;
        self.rest = self.rest.get(2..).unwrap_or_default();
        Ok(word)
    }

    fn write(&mut self, at: u16, _: u16) -> Result<(), Fault> {
        self.guard.write(at, self.size)
    }
}

/// A replay up to its end, or to the first read that the log does not have: the core there, and the
/// words left over.
pub struct Followed {
    /// The core there.
    pub core: Core,
    /// The end and the steps up to there; stop 31 stands for a read that the log does not have.
    pub run: Run,
    /// How many words of the log are left over.
    pub left: usize,
}

/// Follows a log from the core given, in place of a memory of `size` words.
pub fn follow(found: Found, guard: Guard, mut core: Core, size: usize, limit: u32, log: &[u32]) -> Followed {
    let mut tape = Tape { size, guard, rest: log, found };
    let run = turns(|core| turn(core, guard.terms.edition, &mut tape), &mut core, limit);
    Followed { core, run, left: tape.rest.len() }
}

/// A replay, or 1, 32, 34 or 31 with the core unchanged (docs/MACHINE.md, Logs and replays).
pub fn replay(core: &mut Core, size: usize, terms: Terms, limit: u32, log: &[u32]) -> Run {
    replay_by(found, Guard::of(terms), core, size, limit, log)
}

/// A replay that takes the words that `found` finds.
pub fn replay_by(found: Found, guard: Guard, core: &mut Core, size: usize, limit: u32, log: &[u32]) -> Run {
    if let Err(refusal) = length_test(size).and_then(|()| terms_test(guard.terms)) {
        return Run { end: Outcome::Refused(refusal), steps: 0 };
    }
    let followed = follow(found, guard, *core, size, limit, log);
    if followed.run.end == Outcome::Fault(MISMATCH) || followed.left > 0 {
        return Run { end: Outcome::Log(31), steps: 0 };
    }
    *core = followed.core;
    followed.run
}

/// Loads a plain word list (docs/MACHINE.md, Word lists and their order).
pub fn load_words(core: &mut Core, edition: &mut u16, words: &[u16], memory: &mut [u16]) -> Result<(), Refusal> {
    (*core, *edition) = (Core::new(), 1);
    length_test(memory.len())?;
    if words.len() > memory.len() {
        return Err(Refusal(3));
    }
    memory.fill(0);
    memory[..words.len()].copy_from_slice(words);
    Ok(())
}

// The kinds of a sheet's records (docs/SHEETS.md, The records).

/// Bits 15..0 become the load address.
pub const PLACE: u32 = 1;
/// Bits 15..0 go to the load address, which then rises by 1.
pub const WORD: u32 = 2;
/// Bits 19..16 are a register, bits 15..0 its value.
pub const PRESET: u32 = 3;
/// Bits 15..0 are the edition.
pub const EDITION: u32 = 7;
/// Bits 27..0 are the number of all records before it.
pub const END: u32 = 15;

/// Loads a rule sheet, if it passes its tests (docs/SHEETS.md, The records).
pub fn load_sheet(core: &mut Core, edition: &mut u16, sheet: &[u32], memory: &mut [u16]) -> Result<(), Refusal> {
    (*core, *edition) = (Core::new(), 1);
    length_test(memory.len())?;
    sheet_test(sheet, memory.len())?;
    memory.fill(0);
    let mut address = 0;
    for &record in sheet {
        match record >> 28 {
            PLACE => address = record as u16 as usize,
            WORD => {
                memory[address] = record as u16;
                address += 1;
            }
            PRESET => *register(core, (record >> 16) % 16) = record as u16,
            EDITION => *edition = record as u16,
            _ => {}
        }
    }
    Ok(())
}

/// The sheet's tests, record by record (docs/NUMBERS.md, The order of the tests). An end has the
/// number of all records before it.
pub fn sheet_test(sheet: &[u32], length: usize) -> Result<(), Refusal> {
    let mut address = 0;
    for (i, &record) in sheet.iter().enumerate() {
        let kind = record >> 28;
        let free_bits = match kind {
            PLACE | WORD | EDITION => 16,
            PRESET => 20,
            END => 28,
            _ => return Err(Refusal(20)),
        };
        if (record << 4 >> 4) >> free_bits != 0 {
            return Err(Refusal(21));
        }
        match kind {
            PRESET if record >> 16 & 15 > 11 => return Err(Refusal(22)),
            EDITION => edition_test(record as u16)?,
            PLACE => address = record as u16 as usize,
            WORD if address >= length => return Err(Refusal(23)),
            WORD => address += 1,
            END if (record << 4 >> 4) as usize != i => return Err(Refusal(26)),
            END if i + 1 < sheet.len() => return Err(Refusal(25)),
            END => return Ok(()),
            _ => {}
        }
    }
    Err(Refusal(24))
}

/// A register by its number in a preset.
fn register(core: &mut Core, number: u32) -> &mut u16 {
    match number {
        0..=7 => &mut core.r[number as usize],
        8 => &mut core.ip,
        9 => &mut core.rp,
        10 => &mut core.sp,
        _ => &mut core.ef,
    }
}

/// Writes the sheet of a core, an edition and a memory (docs/SHEETS.md, What the writer gives).
pub fn write_sheet(core: &Core, edition: u16, memory: &[u16], sheet: &mut [u32]) -> Result<usize, Refusal> {
    length_test(memory.len())?;
    edition_test(edition)?;
    let before_end = records(core, edition, memory).count();
    if sheet.len() <= before_end {
        return Err(Refusal(4));
    }
    let end = END << 28 | before_end as u32;
    for (place, record) in sheet.iter_mut().zip(records(core, edition, memory).chain([end])) {
        *place = record;
    }
    Ok(before_end + 1)
}

/// What stands before the end: the edition where it is 2, presets 0 to 11, a place before each
/// stretch of nonzero words, those words.
fn records<'a>(core: &Core, edition: u16, memory: &'a [u16]) -> impl Iterator<Item = u32> + 'a {
    let mut core = *core;
    let chosen = (edition == 2).then_some(EDITION << 28 | 2);
    let presets = (0..12).map(move |n| PRESET << 28 | n << 16 | *register(&mut core, n) as u32);
    let words = memory.iter().enumerate().filter(|(_, &word)| word != 0).flat_map(|(at, &word)| {
        let begins = at == 0 || memory[at - 1] == 0;
        let place = begins.then_some(PLACE << 28 | at as u32);
        place.into_iter().chain([WORD << 28 | word as u32])
    });
    chosen.into_iter().chain(presets).chain(words)
}

/// Both lists followed by zeros to one length.
pub fn padded(first: &[u16], second: &[u16]) -> [Vec<u16>; 2] {
    let length = first.len().max(second.len());
    [first, second].map(|list| list.iter().copied().chain(std::iter::repeat(0)).take(length).collect())
}

/// The order of two word lists (docs/MACHINE.md, Word lists and their order): that of the padded
/// lists, word by word.
pub fn compare(first: &[u16], second: &[u16]) -> Ordering {
    let [first, second] = padded(first, second);
    first.cmp(&second)
}

/// The part of the earlier list from the first place where they differ on, or the empty end of the
/// first.
pub fn earlier<'a>(first: &'a [u16], second: &'a [u16]) -> &'a [u16] {
    let [left, right] = padded(first, second);
    let Some(place) = left.iter().zip(&right).position(|(left, right)| left != right) else {
        return &first[first.len()..];
    };
    let earlier = if left[place] < right[place] { first } else { second };
    earlier.get(place..).unwrap_or(&earlier[earlier.len()..])
}
