//! What goes into the machine and what comes out, with the numbers of docs/NUMBERS.md.

use core::fmt;
use core::mem::offset_of;

/// The registers (docs/MACHINE.md, Registers), laid out as the header's `nilguseg_core`.
#[derive(Debug, Clone, Copy, PartialEq, Eq)]
#[repr(C)]
pub struct Core {
    /// The general registers, r0 to r7.
    pub r: [u16; 8],
    /// The address of the next instruction.
    pub ip: u16,
    /// Where `ret` goes: `call` puts the address after itself here.
    pub rp: u16,
    /// The address of the top of the stack, which grows downwards: `push` lowers sp and then writes
    /// there, `pop` reads there and then raises sp.
    pub sp: u16,
    /// Flags: bit 0 is halt, bit 1 is condition. No instruction but `movsi` changes the other bits.
    pub ef: u16,
}

const _: () = {
    assert!(offset_of!(Core, r) == 0 && offset_of!(Core, ip) == 16 && offset_of!(Core, rp) == 18);
    assert!(offset_of!(Core, sp) == 20 && offset_of!(Core, ef) == 22 && size_of::<Core>() == 24);
};

impl Core {
    /// A fresh core: all 0 except sp, which is 0xFFFF.
    pub const fn new() -> Core {
        Core { r: [0; 8], ip: 0, rp: 0, sp: 0xFFFF, ef: 0 }
    }

    /// Whether bit 0 of ef is set: then a step and a run change no register, and no word of memory.
    pub const fn is_halted(&self) -> bool {
        self.ef % 2 == 1
    }
}

impl Default for Core {
    fn default() -> Core {
        Core::new()
    }
}

/// A stop that the rule words cause (docs/NUMBERS.md, The numbers): 10 undecodable, 11 out of
/// range, 12 to 14 where the published Rust panics, 33 a right absent. In edition 2 there are no 13
/// and 14.
///
/// Where a step or a run ends by it, memory keeps what earlier steps wrote, ip is advanced, unless
/// 11 or 33 is of the fetch itself, and a push leaves sp lowered. The address that 11 or 33 is of
/// gets no mark.
#[derive(Debug, Clone, Copy, PartialEq, Eq)]
pub struct Fault {
    /// 10 to 14, or 33.
    pub number: u8,
    /// With 10 and 12 the word, with 11 and 33 the address, with 13 the amount or the index, with
    /// 14 the register's word, 0x8000.
    pub value: u16,
}

/// The number by which a call is refused (docs/NUMBERS.md, The numbers): 1 to 4 and 32 the host's,
/// 20 to 26 the sheet's, and 34, an edition neither 1 nor 2, of both.
///
/// The first test that fails gives it (docs/NUMBERS.md, The order of the tests). Nothing that was
/// lent changes then, except that a load leaves a fresh core and edition 1 (docs/NUMBERS.md, What
/// is left unchanged).
#[derive(Debug, Clone, Copy, PartialEq, Eq)]
pub struct Refusal(pub u8);

/// How many rights a run may be given: one byte for each page of 256 addresses, the sum of what is
/// allowed there (docs/MACHINE.md, Rights). The page of an address is the address divided by 256.
pub const PAGES: usize = 256;

/// What a rights byte may allow: a fetch needs `EXECUTE`, every other read `READ`, a write `WRITE`.
pub mod right {
    /// Reads that are no fetch: by `read`, `spread` and `pop`.
    pub const READ: u8 = 1;
    /// Writes: by `write`, `spwrite` and `push`.
    pub const WRITE: u8 = 2;
    /// Fetches: the read of the word at ip with which a step begins.
    pub const EXECUTE: u8 = 4;
}

/// How a step or a run came out.
#[derive(Debug, Clone, Copy, PartialEq, Eq)]
pub enum Outcome {
    /// Of a step: an instruction was executed.
    Stepped,
    /// The core was halted already, or the run halted it.
    Halted,
    /// Of a run: its limit of steps was reached.
    Limit,
    /// The words caused a stop.
    Fault(Fault),
    /// The lengths, the rights or the edition do not fit; nothing was changed.
    Refused(Refusal),
    /// The log ended it: 30, a logged run had fewer than four of its words free before a step, or
    /// 31, a replay's reads are not its words, or words of it are left over.
    Log(u8),
}

/// What a run answers. A step that faults is not counted.
#[derive(Debug, Clone, Copy, PartialEq, Eq)]
pub struct Run {
    /// Never `Stepped`.
    pub end: Outcome,
    /// The steps counted, at most the limit; 0 where the run was refused or the end is 31.
    pub steps: u32,
}

/// What a logged run answers. A step that faults is not counted, though the reads that it made are
/// logged.
#[derive(Debug, Clone, Copy, PartialEq, Eq)]
pub struct LoggedRun {
    /// Never `Stepped`.
    pub end: Outcome,
    /// The steps counted, at most the limit; 0 where the run was refused.
    pub steps: u32,
    /// How many words of the log were written, from its front: two for each read.
    pub logged: usize,
}

/// A decoded word (docs/MACHINE.md, Instructions). The operands stand in the order of the fields of
/// the published enum, which `kind` tells for each kind; 0 where there is none. A register is its
/// number: r0 to r7 are 0 to 7, ip, rp, sp and ef 0 to 3, d0 to d3 0 to 3.
#[derive(Debug, Clone, Copy, PartialEq, Eq)]
pub struct Instruction {
    /// One of the numbers in `kind`.
    pub kind: u8,
    /// The first operand.
    pub first: u8,
    /// The second operand.
    pub second: u8,
}

/// Numbers the names given, from 0. Beside each stand its operands, the first and the second.
macro_rules! numbered {
    ($($name:ident $operands:literal),* $(,)?) => {
        #[allow(non_camel_case_types, clippy::upper_case_acronyms)]
        #[repr(u8)]
        enum Order { $($name),* }
        $(
            #[doc = concat!("Operands: ", $operands, ".")]
            pub const $name: u8 = Order::$name as u8;
        )*
        /// The names, each at its number.
        pub const NAMES: [&str; 43] = [$(stringify!($name)),*];
    };
}

/// The 43 kinds, in the order of the published enum `Instruction`. docs/MACHINE.md, Instructions,
/// says what each does. Unless said otherwise an operand is a general register, and `byte` one of
/// 0 to 255.
pub mod kind {
    numbered! {
        NOP "none",
        HLT "none",
        MOV "dest, src",
        DMOV "dest, src (both decimal registers)",
        PUTL "reg, byte",
        PUTH "reg, byte",
        READ "val, addr",
        WRITE "addr, val",
        SPREAD "val, offset (0 to 15)",
        SPWRITE "offset (0 to 15), val",
        DREAD "val (a decimal register), addr",
        DWRITE "addr, val (a decimal register)",
        PUSH "val",
        POP "val",
        MOVSO "dest, src (a special register)",
        MOVSI "dest (a special register), src",
        SPADD "val",
        SPINC "none",
        SPDEC "none",
        NOT "reg",
        AND "reg, val",
        BOOLAND "reg, val",
        OR "reg, val",
        XOR "reg, val",
        SHL "reg, val",
        SHR "reg, val",
        BITSET "reg, idx",
        NEG "reg",
        INC "reg",
        DEC "reg",
        ADD "reg, val",
        SUB "reg, val",
        MUL "reg, val",
        INV "none",
        EQZ "reg",
        EQ "left, right",
        GT "left, right",
        GTEQ "left, right",
        JMPOFF "byte (read as -128 to 127)",
        CJMPOFF "byte (read as -128 to 127)",
        CJMP "src",
        CALL "src",
        RET "none",
    }
}

impl fmt::Display for Refusal {
    fn fmt(&self, f: &mut fmt::Formatter) -> fmt::Result {
        write!(f, "refused {}", self.0)
    }
}

impl fmt::Display for Fault {
    fn fmt(&self, f: &mut fmt::Formatter) -> fmt::Result {
        write!(f, "fault {} {}", self.number, self.value)
    }
}

impl core::error::Error for Refusal {}
impl core::error::Error for Fault {}
