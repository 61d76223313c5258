//! What the comparison asks of a machine. What a machine does not say for itself, the model says.

use std::cmp::Ordering;

use crate::model::{self, Terms};
use nilguseg::{Core, Fault, Instruction, LoggedRun, Outcome, Refusal, Run};

/// A machine that can be compared: the model, the library, or a wrong one. Each function is that of
/// the same name in the wrapper, rust/nilguseg, which says what it does; the terms have the edition
/// and, where the wrapper's guarded functions are asked, the rights.
pub trait Machine {
    fn decode(&self, word: u16) -> Result<Instruction, Fault> {
        model::decode(word)
    }

    fn encode(&self, instruction: Instruction) -> Option<u16> {
        model::encode(instruction)
    }

    fn step(&self, core: &mut Core, memory: &mut [u16], marks: &mut [u8], edition: u16) -> Outcome {
        model::step(core, memory, marks, edition)
    }

    fn run(&self, core: &mut Core, memory: &mut [u16], marks: &mut [u8], terms: Terms, limit: u32) -> Run {
        model::run(core, memory, marks, terms, limit)
    }

    fn run_logged(
        &self,
        core: &mut Core,
        memory: &mut [u16],
        marks: &mut [u8],
        terms: Terms,
        limit: u32,
        log: &mut [u32],
    ) -> LoggedRun {
        model::run_logged(core, memory, marks, terms, limit, log)
    }

    fn replay(&self, core: &mut Core, size: usize, terms: Terms, limit: u32, log: &[u32]) -> Run {
        model::replay(core, size, terms, limit, log)
    }

    fn load_words(&self, core: &mut Core, edition: &mut u16, words: &[u16], memory: &mut [u16]) -> Result<(), Refusal> {
        model::load_words(core, edition, words, memory)
    }

    fn load_sheet(&self, core: &mut Core, edition: &mut u16, sheet: &[u32], memory: &mut [u16]) -> Result<(), Refusal> {
        model::load_sheet(core, edition, sheet, memory)
    }

    fn write_sheet(&self, core: &Core, edition: u16, memory: &[u16], sheet: &mut [u32]) -> Result<usize, Refusal> {
        model::write_sheet(core, edition, memory, sheet)
    }

    fn compare(&self, first: &[u16], second: &[u16]) -> Ordering {
        model::compare(first, second)
    }

    fn earlier<'a>(&self, first: &'a [u16], second: &'a [u16]) -> &'a [u16] {
        model::earlier(first, second)
    }
}

/// The model itself.
pub struct Model;

impl Machine for Model {}

/// The host library, through its Rust wrapper.
pub struct Library;

impl Machine for Library {
    fn decode(&self, word: u16) -> Result<Instruction, Fault> {
        nilguseg::decode(word)
    }

    fn encode(&self, instruction: Instruction) -> Option<u16> {
        nilguseg::encode(instruction)
    }

    fn step(&self, core: &mut Core, memory: &mut [u16], marks: &mut [u8], edition: u16) -> Outcome {
        core.step(memory, marks, edition)
    }

    fn run(&self, core: &mut Core, memory: &mut [u16], marks: &mut [u8], terms: Terms, limit: u32) -> Run {
        match terms.rights {
            None => core.run(memory, marks, terms.edition, limit),
            Some(rights) => core.run_guarded(memory, marks, rights, terms.edition, limit),
        }
    }

    fn run_logged(
        &self,
        core: &mut Core,
        memory: &mut [u16],
        marks: &mut [u8],
        terms: Terms,
        limit: u32,
        log: &mut [u32],
    ) -> LoggedRun {
        match terms.rights {
            None => core.run_logged(memory, marks, terms.edition, limit, log),
            Some(rights) => core.run_logged_guarded(memory, marks, rights, terms.edition, limit, log),
        }
    }

    fn replay(&self, core: &mut Core, size: usize, terms: Terms, limit: u32, log: &[u32]) -> Run {
        match terms.rights {
            None => core.replay(size, terms.edition, limit, log),
            Some(rights) => core.replay_guarded(size, rights, terms.edition, limit, log),
        }
    }

    fn load_words(&self, core: &mut Core, edition: &mut u16, words: &[u16], memory: &mut [u16]) -> Result<(), Refusal> {
        core.load_words(edition, words, memory)
    }

    fn load_sheet(&self, core: &mut Core, edition: &mut u16, sheet: &[u32], memory: &mut [u16]) -> Result<(), Refusal> {
        core.load_sheet(edition, sheet, memory)
    }

    fn write_sheet(&self, core: &Core, edition: u16, memory: &[u16], sheet: &mut [u32]) -> Result<usize, Refusal> {
        core.write_sheet(edition, memory, sheet)
    }

    fn compare(&self, first: &[u16], second: &[u16]) -> Ordering {
        nilguseg::compare(first, second)
    }

    fn earlier<'a>(&self, first: &'a [u16], second: &'a [u16]) -> &'a [u16] {
        nilguseg::earlier(first, second)
    }
}
