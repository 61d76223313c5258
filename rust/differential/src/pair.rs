//! A machine in edition 1 and the published Rust, step by step over the same program.

use crate::machine::Machine;
use crate::model;
use crate::reference::Reference;
use crate::report::Report;
use nilguseg::{Core, Outcome};

pub struct Pair<'a> {
    machine: &'a dyn Machine,
    core: Core,
    memory: Vec<u16>,
    marks: Vec<u8>,
    reference: Reference,
}

impl<'a> Pair<'a> {
    pub fn new(machine: &'a dyn Machine, core: Core, memory: Vec<u16>, marks: Vec<u8>) -> Pair<'a> {
        let reference = Reference::new(core, memory.clone(), &marks);
        Pair { machine, core, memory, marks, reference }
    }

    pub fn core(&self) -> Core {
        self.core
    }

    pub fn set_core(&mut self, core: Core) {
        self.core = core;
        self.reference.set_registers(core);
    }

    pub fn set_word(&mut self, address: u16, word: u16) {
        self.memory[address as usize] = word;
        self.reference.set_word(address, word);
    }

    /// Gives the addresses that the last step touched new marks.
    pub fn renew_marks(&mut self, mut mark: impl FnMut() -> u8) {
        for address in self.reference.touched() {
            let mark = mark();
            self.marks[address as usize] = mark;
            self.reference.set_mark(address, mark);
        }
    }

    /// One step of both, compared in answer, registers, and the word and mark at each address that
    /// the published Rust touched. What was touched without need shows in `compare_whole`.
    pub fn step(&mut self, what: &str, report: &mut Report) -> Outcome {
        let before = self.core;
        let word = self.memory.get(before.ip as usize).copied();
        let answer = self.machine.step(&mut self.core, &mut self.memory, &mut self.marks, 1);
        let expected = self.reference.step();
        let kind = word.and_then(|word| model::decode(word).ok()).map(|instruction| instruction.kind);
        report.count_step(kind, expected);
        let same = answer == expected
            && self.core == self.reference.registers()
            && self.reference.touched().all(|address| {
                self.memory[address as usize] == self.reference.words()[address as usize]
                    && self.marks[address as usize] == self.reference.mark(address)
            });
        if !same {
            report.disagree(what, || self.details(before, word, answer, expected));
        }
        expected
    }

    fn details(&self, before: Core, word: Option<u16>, answer: Outcome, expected: Outcome) -> String {
        let touched: Vec<String> = self
            .reference
            .touched()
            .map(|at| {
                let (word, expected) = (self.memory[at as usize], self.reference.words()[at as usize]);
                let (mark, expected_mark) = (self.marks[at as usize], self.reference.mark(at));
                format!("at {at} word {word}, expected {expected}, mark {mark}, expected {expected_mark}")
            })
            .collect();
        format!(
            "word {word:04x?}, memory of {} words, {before:?}\n  answered {answer:?} {:?}\n  expected {expected:?} {:?}\n  {}",
            self.memory.len(),
            self.core,
            self.reference.registers(),
            touched.join("; ")
        )
    }

    /// Compares every word and every mark.
    pub fn compare_whole(&self, what: &str, report: &mut Report) {
        if self.memory != self.reference.words() || self.marks != self.reference.marks() {
            report.disagree(what, || format!("memory or marks differ, memory of {} words", self.memory.len()));
        }
    }
}
