//! Nilguseg, the proved Delta Null interpreter, for Rust hosts: safe functions over the static
//! library. The machine is that of docs/MACHINE.md, and rule sheets are those of docs/SHEETS.md.
//!
//! Nothing is tested here that the library tests itself: lengths, rights and editions that do not
//! fit are refused by it, with the numbers of docs/NUMBERS.md, and a refused call leaves what was
//! lent unchanged, except that a load leaves a fresh core and edition 1.
//!
//! An edition is a number, 1 or 2: in edition 1 shl, shr and bitset by 16 or more and neg of 0x8000
//! stop, in edition 2 they do not (docs/MACHINE.md, Editions). Memory has 1 to 65,536 words, and
//! there are as many marks (docs/MACHINE.md, Memory and marks). Lengths and sizes count elements,
//! not bytes. A limit is the greatest number of steps.
//!
//! ```
//! use nilguseg::{Core, Outcome};
//! let mut memory = [0x1003, 0xFFFF]; // putl r0 3, hlt
//! let mut marks = [0; 2];
//! let mut core = Core::new();
//! let run = core.run(&mut memory, &mut marks, 1, 2); // in edition 1, at most 2 steps
//! assert_eq!((run.end, run.steps, core.r[0]), (Outcome::Halted, 2, 3));
//! ```

#![warn(missing_docs)]

mod ffi;
mod types;

use core::cmp::Ordering;

pub use types::*;

/// The instruction that a word stands for (docs/MACHINE.md, Instructions). 6,118 words have one;
/// any other is an error, stop 10 with the word.
pub fn decode(word: u16) -> Result<Instruction, Fault> {
    match ffi::nilguseg_decode(word).to_be_bytes() {
        [0, kind, first, second] => Ok(Instruction { kind, first, second }),
        [number, 0, high, low] => Err(Fault { number, value: u16::from_be_bytes([high, low]) }),
        other => panic!("decoding never answers {other:02x?}"),
    }
}

/// The word of an instruction, the inverse of `decode`; none for a kind above 42 or a register
/// operand that does not exist: above 7, or above 3 for special and decimal registers. A spread or
/// spwrite offset above 15 goes by its low four bits; an operand that the kind does not have is
/// ignored.
pub fn encode(instruction: Instruction) -> Option<u16> {
    let Instruction { kind, first, second } = instruction;
    ffi::nilguseg_encode(kind, first, second).try_into().ok()
}

impl Core {
    /// One step: fetches the word at ip, advances ip, decodes and executes (docs/MACHINE.md, One
    /// step). It adds to the marks and clears none: 1 for an address read whose mark has not 2, 2
    /// for one written.
    ///
    /// Answers `Stepped`, also where it executed hlt; `Halted` where the core was halted before,
    /// and then nothing changes; `Fault` by 10 to 14; or `Refused`, with core, memory and marks
    /// unchanged, by 1 (memory is not 1 to 65,536 words), 2 (there are not as many marks) or 34
    /// (`edition` is neither 1 nor 2), tested in this order.
    pub fn step(&mut self, memory: &mut [u16], marks: &mut [u8], edition: u16) -> Outcome {
        // SAFETY: pointers and lengths are those of slices, and Core has the layout of the C
        // struct.
        let answer = unsafe {
            ffi::nilguseg_step(self, memory.as_mut_ptr(), memory.len(), marks.as_mut_ptr(), marks.len(), edition)
        };
        outcome(answer)
    }

    /// Steps until halt, the limit or a fault: halt is tested first, then the limit
    /// (docs/MACHINE.md, The run). First sets all marks to 0. At the end a mark is 0, or the sum of
    /// 1, where the run read before it wrote there, and 2, where it wrote.
    ///
    /// Faults and refusals are those of `step`. A step that faults is not counted. A refused run
    /// changes nothing, the marks included, and has 0 steps.
    pub fn run(&mut self, memory: &mut [u16], marks: &mut [u8], edition: u16, limit: u32) -> Run {
        // SAFETY: as in `step`.
        let answer = unsafe {
            ffi::nilguseg_run(self, memory.as_mut_ptr(), memory.len(), marks.as_mut_ptr(), marks.len(), edition, limit)
        };
        run(answer)
    }

    /// `run` with rights, `PAGES` bytes, one for each page of 256 addresses: the sum of what
    /// `right` has (docs/MACHINE.md, Rights). With 256 bytes of 7 it is `run`.
    ///
    /// An access whose right is absent is fault 33 with its address, tested after 11, and leaves no
    /// mark. Refused too, by 32, tested after 2 and before 34, are rights of another length and a
    /// byte above 7.
    pub fn run_guarded(
        &mut self,
        memory: &mut [u16],
        marks: &mut [u8],
        rights: &[u8],
        edition: u16,
        limit: u32,
    ) -> Run {
        // SAFETY: as in `step`.
        let answer = unsafe {
            ffi::nilguseg_run_guarded(
                self,
                memory.as_mut_ptr(),
                memory.len(),
                marks.as_mut_ptr(),
                marks.len(),
                rights.as_ptr(),
                rights.len(),
                edition,
                limit,
            )
        };
        run(answer)
    }

    /// `run` with a log of its reads (docs/MACHINE.md, Logs and replays): two words each, in order,
    /// at the front of `log`, which is unchanged past them. The first has 4 in bits 31 to 28, the
    /// address in bits 15 to 0, and bit 16 set for a fetch; the second has 5 and the word. A read
    /// out of range is not logged; the fetch of a word that faults is.
    ///
    /// Ends by 30, tested after halt and the limit, where fewer than four words are free before a
    /// step: then core, memory and marks are those of `run` with the limit set to its steps. Four
    /// for each step of the limit always suffice. Any other run leaves what `run` leaves. A refused
    /// one logs nothing.
    pub fn run_logged(
        &mut self,
        memory: &mut [u16],
        marks: &mut [u8],
        edition: u16,
        limit: u32,
        log: &mut [u32],
    ) -> LoggedRun {
        let mut logged = 0;
        // SAFETY: as in `step`, and `logged` is a number of its own.
        let answer = unsafe {
            ffi::nilguseg_run_logged(
                self,
                memory.as_mut_ptr(),
                memory.len(),
                marks.as_mut_ptr(),
                marks.len(),
                edition,
                limit,
                log.as_mut_ptr(),
                log.len(),
                &mut logged,
            )
        };
        logged_run(answer, logged)
    }

    /// `run_logged` with rights, as `run_guarded` has them. A read whose right is absent is not
    /// logged.
    pub fn run_logged_guarded(
        &mut self,
        memory: &mut [u16],
        marks: &mut [u8],
        rights: &[u8],
        edition: u16,
        limit: u32,
        log: &mut [u32],
    ) -> LoggedRun {
        let mut logged = 0;
        // SAFETY: as in `run_logged`.
        let answer = unsafe {
            ffi::nilguseg_run_logged_guarded(
                self,
                memory.as_mut_ptr(),
                memory.len(),
                marks.as_mut_ptr(),
                marks.len(),
                rights.as_ptr(),
                rights.len(),
                edition,
                limit,
                log.as_mut_ptr(),
                log.len(),
                &mut logged,
            )
        };
        logged_run(answer, logged)
    }

    /// A logged run seen again without its memory (docs/MACHINE.md, Logs and replays; docs/LOGS.md
    /// has examples). The core is the one that the run started with, `size` the length of its
    /// memory, in words, and `log` the words that it logged, without the rest of the buffer. If the
    /// run was not refused and did not end by 30, answers its end and steps, and the core becomes
    /// the one that it left. The word of a read is taken as logged.
    ///
    /// Where the next two log words are not the read that is made, the log is over too soon, or
    /// words are left over, the end is 31. Refused by 1 (`size` is not 1 to 65,536) or else 34.
    /// With 31 and where refused the core stays, and there are 0 steps.
    pub fn replay(&mut self, size: usize, edition: u16, limit: u32, log: &[u32]) -> Run {
        // SAFETY: as in `step`.
        run(unsafe { ffi::nilguseg_replay(self, size, edition, limit, log.as_ptr(), log.len()) })
    }

    /// `replay` of a run with rights, which must be those of the run. Refused by 32 too, as
    /// `run_guarded`, tested after 1 and before 34.
    pub fn replay_guarded(&mut self, size: usize, rights: &[u8], edition: u16, limit: u32, log: &[u32]) -> Run {
        let (bytes, count) = (rights.as_ptr(), rights.len());
        // SAFETY: as in `step`.
        run(unsafe { ffi::nilguseg_replay_guarded(self, size, bytes, count, edition, limit, log.as_ptr(), log.len()) })
    }

    /// Zeroes memory and copies the words to its beginning. The core becomes a fresh one and the
    /// edition 1, also where it refuses (docs/MACHINE.md, Word lists and their order).
    ///
    /// Refused, with memory unchanged, by 1 (memory is not 1 to 65,536 words) or 3 (the list is
    /// longer than memory).
    pub fn load_words(&mut self, edition: &mut u16, words: &[u16], memory: &mut [u16]) -> Result<(), Refusal> {
        // SAFETY: as in `step`, and `edition` is a number of its own.
        refusal(unsafe {
            ffi::nilguseg_load_words(self, edition, words.as_ptr(), words.len(), memory.as_mut_ptr(), memory.len())
        })
    }

    /// Sets memory, core and edition as the sheet says, from zero memory, a fresh core and edition
    /// 1 (docs/SHEETS.md, The records). Its end counts all records before it.
    ///
    /// Refused by 1 (memory is not 1 to 65,536 words), then, record by record, by 20, 21, 22, 34,
    /// 23, 26, 25 or 24 (docs/NUMBERS.md, The order of the tests). Then memory is unchanged, and
    /// the core becomes a fresh one and the edition 1.
    pub fn load_sheet(&mut self, edition: &mut u16, sheet: &[u32], memory: &mut [u16]) -> Result<(), Refusal> {
        // SAFETY: as in `load_words`.
        refusal(unsafe {
            ffi::nilguseg_load_sheet(self, edition, sheet.as_ptr(), sheet.len(), memory.as_mut_ptr(), memory.len())
        })
    }

    /// Writes the sheet that restores this core, edition and memory when it is loaded into memory
    /// of the same length (docs/SHEETS.md, What the writer gives). Answers how many records it has,
    /// the end included, which counts all others. The buffer past them is unchanged.
    ///
    /// Refused, with the buffer unchanged, by 1 (memory is not 1 to 65,536 words), 34 (`edition` is
    /// neither 1 nor 2) or 4 (the buffer is shorter than the sheet), tested in this order. A buffer
    /// of 14 + n + (n + 1) / 2 records suffices for n words of memory.
    pub fn write_sheet(&self, edition: u16, memory: &[u16], sheet: &mut [u32]) -> Result<usize, Refusal> {
        let (records, room) = (sheet.as_mut_ptr(), sheet.len());
        // SAFETY: as in `step`.
        let answer = unsafe { ffi::nilguseg_write_sheet(self, edition, memory.as_ptr(), memory.len(), records, room) };
        refusal((answer >> 32) as u32)?;
        Ok(answer as u32 as usize)
    }
}

/// Which of two word lists of any lengths comes first: `Less` where the first does
/// (docs/MACHINE.md, Word lists and their order). They are compared at the first place where they
/// differ, the shorter taken as followed by zeros; the smaller word comes first. So lists that
/// differ only in trailing zeros are equal. The order is total and transitive, so lists may be
/// sorted by it.
pub fn compare(first: &[u16], second: &[u16]) -> Ordering {
    // SAFETY: pointers and lengths are those of slices.
    ordering(unsafe { ffi::nilguseg_compare(first.as_ptr(), first.len(), second.as_ptr(), second.len()) })
}

/// The part of the earlier list, by `compare`, from the first place where they differ on: its empty
/// end where it is over there, and the empty end of the first where they are equal.
pub fn earlier<'a>(first: &'a [u16], second: &'a [u16]) -> &'a [u16] {
    let mut from = 0;
    // SAFETY: as in `compare`, and `from` is a number of its own.
    let answer =
        unsafe { ffi::nilguseg_earlier(first.as_ptr(), first.len(), second.as_ptr(), second.len(), &mut from) };
    match ordering(answer) {
        Ordering::Less | Ordering::Equal => &first[from..],
        Ordering::Greater => &second[from..],
    }
}

fn ordering(answer: u32) -> Ordering {
    match answer {
        ffi::FIRST => Ordering::Less,
        ffi::EQUAL => Ordering::Equal,
        ffi::SECOND => Ordering::Greater,
        other => panic!("no comparison answers {other}"),
    }
}

fn run(answer: u64) -> Run {
    Run { end: outcome((answer >> 32) as u32), steps: answer as u32 }
}

fn logged_run(answer: u64, logged: usize) -> LoggedRun {
    let Run { end, steps } = run(answer);
    LoggedRun { end, steps, logged }
}

fn outcome(answer: u32) -> Outcome {
    let [outcome, number, high, low] = answer.to_be_bytes();
    match (outcome, number, u16::from_be_bytes([high, low])) {
        (ffi::STEPPED, 0, 0) => Outcome::Stepped,
        (ffi::HALTED, 0, 0) => Outcome::Halted,
        (ffi::LIMIT, 0, 0) => Outcome::Limit,
        (ffi::FAULT, number, value) => Outcome::Fault(Fault { number, value }),
        (ffi::REFUSED, number, 0) => Outcome::Refused(Refusal(number)),
        (ffi::LOG, number, 0) => Outcome::Log(number),
        other => panic!("no call answers {other:?}"),
    }
}

fn refusal(number: u32) -> Result<(), Refusal> {
    match number {
        0 => Ok(()),
        number => Err(Refusal(number.try_into().expect("a refusal's number is below 256"))),
    }
}
