//! The published Rust: its instructions by number, and its Core over a memory of any length that
//! keeps marks, with its panics turned into the stops that docs/NUMBERS.md has for them.

use std::any::Any;
use std::cell::{Cell, RefCell};
use std::panic::{catch_unwind, AssertUnwindSafe};

use crate::model;
use delta_null_core_emulator::core::{Core as PublishedCore, ExecutionError};
use delta_null_core_emulator::memory::{Memory, MemoryError};
use delta_null_core_instructions::{Encodable, Instruction as Published, DR, GPR, SPR};
use nilguseg::{kind::*, Core, Fault, Instruction, Outcome, Run};

/// The published instruction with these numbers, if there is one.
pub fn published(instruction: Instruction) -> Option<Published> {
    use Published::*;
    let Instruction { kind, first, second } = instruction;
    let general = |number: u8| GPR::decode(number as u16);
    let special = |number: u8| SPR::decode(number as u16);
    let decimal = |number: u8| DR::decode(number as u16);
    Some(match kind {
        NOP => Nop,
        HLT => Hlt,
        MOV => Mov { dest: general(first)?, src: general(second)? },
        DMOV => DMov { dest: decimal(first)?, src: decimal(second)? },
        PUTL => Putl { reg: general(first)?, imm: second },
        PUTH => Puth { reg: general(first)?, imm: second },
        READ => Read { val: general(first)?, addr: general(second)? },
        WRITE => Write { addr: general(first)?, val: general(second)? },
        SPREAD => Spread { val: general(first)?, offset: second },
        SPWRITE => Spwrite { offset: first, val: general(second)? },
        DREAD => DRead { val: decimal(first)?, addr: general(second)? },
        DWRITE => DWrite { addr: general(first)?, val: decimal(second)? },
        PUSH => Push { val: general(first)? },
        POP => Pop { val: general(first)? },
        MOVSO => Movso { dest: general(first)?, src: special(second)? },
        MOVSI => Movsi { dest: special(first)?, src: general(second)? },
        SPADD => Spadd { val: general(first)? },
        SPINC => Spinc,
        SPDEC => Spdec,
        NOT => Not { reg: general(first)? },
        AND => And { reg: general(first)?, val: general(second)? },
        BOOLAND => Booland { reg: general(first)?, val: general(second)? },
        OR => Or { reg: general(first)?, val: general(second)? },
        XOR => Xor { reg: general(first)?, val: general(second)? },
        SHL => Shl { reg: general(first)?, val: general(second)? },
        SHR => Shr { reg: general(first)?, val: general(second)? },
        BITSET => Bitset { reg: general(first)?, idx: general(second)? },
        NEG => Neg { reg: general(first)? },
        INC => Inc { reg: general(first)? },
        DEC => Dec { reg: general(first)? },
        ADD => Add { reg: general(first)?, val: general(second)? },
        SUB => Sub { reg: general(first)?, val: general(second)? },
        MUL => Mul { reg: general(first)?, val: general(second)? },
        INV => Inv,
        EQZ => Eqz { reg: general(first)? },
        EQ => Eq { left: general(first)?, right: general(second)? },
        GT => Gt { left: general(first)?, right: general(second)? },
        GTEQ => Gteq { left: general(first)?, right: general(second)? },
        JMPOFF => Jmpoff { offset: first },
        CJMPOFF => Cjmpoff { offset: first },
        CJMP => Cjmp { src: general(first)? },
        CALL => Call { src: general(first)? },
        RET => Ret,
        _ => return None,
    })
}

/// Memory of any length up to 65,536. It keeps marks (docs/MACHINE.md, Memory and marks) and notes
/// what was touched.
struct Watched {
    words: Vec<u16>,
    marks: Vec<Cell<u8>>,
    /// The addresses of the last step's accesses: a fetch, and at most one more.
    touched: [Cell<u16>; 2],
    touches: Cell<usize>,
    /// The last step's reads in order: the address, and the word there.
    reads: RefCell<Vec<(u16, u16)>>,
    out_of_range: Cell<Option<u16>>,
}

impl Watched {
    /// The mark at `address`, or the error of an address past the length.
    fn touch(&self, address: u16) -> Result<&Cell<u8>, MemoryError> {
        let Some(mark) = self.marks.get(address as usize) else {
            self.out_of_range.set(Some(address));
            return Err(MemoryError::OutOfRange);
        };
        self.touched[self.touches.get()].set(address);
        self.touches.set(self.touches.get() + 1);
        Ok(mark)
    }
}

impl Memory for Watched {
    fn read(&self, address: u16) -> Result<u16, MemoryError> {
        let mark = self.touch(address)?;
        if mark.get() & 2 == 0 {
            mark.set(mark.get() | 1);
        }
        let word = self.words[address as usize];
        self.reads.borrow_mut().push((address, word));
        Ok(word)
    }

    fn write(&mut self, address: u16, value: u16) -> Result<(), MemoryError> {
        let mark = self.touch(address)?;
        mark.set(mark.get() | 2);
        self.words[address as usize] = value;
        Ok(())
    }
}

/// The published Core on its way through a program.
pub struct Reference {
    core: PublishedCore<Watched>,
}

impl Reference {
    /// With these registers, over these words and as many marks.
    pub fn new(core: Core, words: Vec<u16>, marks: &[u8]) -> Reference {
        assert_eq!(words.len(), marks.len());
        let marks = marks.iter().copied().map(Cell::new).collect();
        let watched = Watched {
            words,
            marks,
            touched: Default::default(),
            touches: Cell::new(0),
            reads: RefCell::default(),
            out_of_range: Cell::new(None),
        };
        let mut reference = Reference { core: PublishedCore::new(watched) };
        reference.set_registers(core);
        reference
    }

    /// The registers now.
    pub fn registers(&self) -> Core {
        Core { r: self.core.gprs, ip: self.core.ip, rp: self.core.rp, sp: self.core.sp, ef: self.core.ef }
    }

    /// Gives every register a value.
    pub fn set_registers(&mut self, core: Core) {
        self.core.gprs = core.r;
        (self.core.ip, self.core.rp, self.core.sp, self.core.ef) = (core.ip, core.rp, core.sp, core.ef);
    }

    /// The memory now.
    pub fn words(&self) -> &[u16] {
        &self.core.memory.words
    }

    /// Puts a word at an address, which leaves the mark as it is.
    pub fn set_word(&mut self, address: u16, word: u16) {
        self.core.memory.words[address as usize] = word;
    }

    /// The mark of an address.
    pub fn mark(&self, address: u16) -> u8 {
        self.core.memory.marks[address as usize].get()
    }

    /// All marks.
    pub fn marks(&self) -> Vec<u8> {
        self.core.memory.marks.iter().map(Cell::get).collect()
    }

    /// Gives an address another mark.
    pub fn set_mark(&mut self, address: u16, mark: u8) {
        self.core.memory.marks[address as usize].set(mark);
    }

    /// The addresses that the last step read or wrote.
    pub fn touched(&self) -> impl Iterator<Item = u16> {
        let memory = &self.core.memory;
        let touched = [memory.touched[0].get(), memory.touched[1].get()];
        touched.into_iter().take(memory.touches.get())
    }

    /// `Core::step`, with the numbers of docs/NUMBERS.md.
    pub fn step(&mut self) -> Outcome {
        self.core.memory.touches.set(0);
        self.core.memory.reads.get_mut().clear();
        self.core.memory.out_of_range.set(None);
        let (halted, before) = (self.core.is_halted(), self.registers());
        EXPECTED.set(true);
        let answer = catch_unwind(AssertUnwindSafe(|| self.core.step()));
        EXPECTED.set(false);
        match answer {
            Ok(Ok(())) if halted => Outcome::Halted,
            Ok(Ok(())) => Outcome::Stepped,
            Ok(Err(ExecutionError::DecodeError(word))) => Outcome::Fault(Fault { number: 10, value: word }),
            Ok(Err(ExecutionError::MemoryError(MemoryError::OutOfRange))) => {
                let value = self.core.memory.out_of_range.get().expect("an address was out of range");
                Outcome::Fault(Fault { number: 11, value })
            }
            Ok(Err(error)) => panic!("the published Rust answered {error}"),
            Err(panic) => Outcome::Fault(stop(panic, before, self.words()[before.ip as usize])),
        }
    }

    /// `Core::step` up to a limit: halt first, then the limit, then a step. The marks begin at 0.
    pub fn run(&mut self, limit: u32) -> Run {
        self.run_by(Reference::step, limit)
    }

    /// A run with the log of its reads, and the least room in which each step finds four log words
    /// free. A step's first read is its fetch.
    pub fn run_logged(&mut self, limit: u32) -> (Run, Vec<u32>, usize) {
        let (mut log, mut needed) = (Vec::new(), 0);
        let step = |reference: &mut Reference| {
            needed = log.len() + 4;
            let step = reference.step();
            for (place, &(address, word)) in reference.core.memory.reads.get_mut().iter().enumerate() {
                let purpose = if place == 0 { model::FETCH } else { model::DATA };
                log.extend(model::entry(purpose, address, word));
            }
            step
        };
        let run = self.run_by(step, limit);
        (run, log, needed)
    }

    fn run_by(&mut self, mut step: impl FnMut(&mut Reference) -> Outcome, limit: u32) -> Run {
        self.core.memory.marks.fill(Cell::new(0));
        let mut steps = 0;
        loop {
            if self.core.is_halted() {
                return Run { end: Outcome::Halted, steps };
            }
            if steps == limit {
                return Run { end: Outcome::Limit, steps };
            }
            match step(self) {
                Outcome::Stepped => steps += 1,
                end => return Run { end, steps },
            }
        }
    }
}

/// The stop that docs/NUMBERS.md has for a panic. What the panic says and what the word is must
/// both fit.
fn stop(panic: Box<dyn Any + Send>, before: Core, word: u16) -> Fault {
    use Published::*;
    let text = panic.downcast_ref::<&str>().copied().unwrap_or("another panic");
    let register = |register: GPR| before.r[register.encode() as usize];
    let (number, value) = match (text, Published::decode(word)) {
        ("not yet implemented", Some(DMov { .. } | DRead { .. } | DWrite { .. })) => (12, word),
        ("attempt to shift left with overflow", Some(Shl { val, .. })) => (13, register(val)),
        ("attempt to shift right with overflow", Some(Shr { val, .. })) => (13, register(val)),
        ("attempt to shift left with overflow", Some(Bitset { idx, .. })) => (13, register(idx)),
        ("attempt to negate with overflow", Some(Neg { reg })) => (14, register(reg)),
        other => panic!("docs/NUMBERS.md has no stop for {other:?}"),
    };
    Fault { number, value }
}

thread_local! {
    /// Whether the published Rust is at work, whose panics are answers.
    static EXPECTED: Cell<bool> = const { Cell::new(false) };
}

/// Keeps quiet about the panics that are answers.
pub fn silence_expected_panics() {
    let others = std::panic::take_hook();
    std::panic::set_hook(Box::new(move |info| {
        if !EXPECTED.get() {
            others(info);
        }
    }));
}
