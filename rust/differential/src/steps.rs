//! Single steps: every word in many states, every edge of every operand, every value of one
//! operand.

use crate::machine::Machine;
use crate::model;
use crate::pair::Pair;
use crate::random::Random;
use crate::report::Report;
use crate::states::{self, edges, word, LENGTHS};
use nilguseg::{kind::*, Core};

/// Steps between two comparisons of the whole memory.
const BATCH: usize = 4096;

/// Every word, in `decodable` states where it decodes and in two where not, at each memory length.
pub fn every_word(machine: &dyn Machine, decodable: usize, report: &mut Report) {
    let mut random = Random::new(1);
    for length in LENGTHS {
        let edges = edges(length);
        let mut pair = random_pair(machine, &mut random, length);
        for word in 0..=0xFFFFu16 {
            let states = if model::decode(word).is_ok() { decodable } else { 2 };
            for _ in 0..states {
                pair.set_core(states::core(&mut random, &edges, length));
                step_at(&mut pair, word, length, "a word", report);
                pair.renew_marks(|| random.byte());
            }
            if word as usize % BATCH == BATCH - 1 {
                pair.compare_whole("a batch of words", report);
            }
        }
    }
}

/// Every kind with every pair of edges in its operands, in sp and rp, the condition clear and set.
pub fn every_edge(machine: &dyn Machine, report: &mut Report) {
    let mut random = Random::new(2);
    for length in LENGTHS {
        let edges = edges(length);
        let mut pair = random_pair(machine, &mut random, length);
        for kind in 0..43 {
            let word = sample(kind);
            let pairs = edges.iter().flat_map(|a| edges.iter().map(move |b| (*a, *b)));
            for ((a, b), ef) in pairs.flat_map(|pair| [(pair, 0), (pair, 2)]) {
                let ip = random.below(length) as u16;
                pair.set_core(Core { r: [7, a, b, 7, 7, 7, 7, 7], ip, rp: a, sp: b, ef });
                step_at(&mut pair, word, length, "an edge", report);
                pair.renew_marks(|| random.byte());
            }
            pair.compare_whole("the edges of a kind", report);
        }
    }
}

/// Every kind with each `stride`-th value in its first or second operand, in sp and rp, and at
/// times in ef.
pub fn every_value(machine: &dyn Machine, stride: usize, report: &mut Report) {
    let mut random = Random::new(3);
    let mut pair = random_pair(machine, &mut random, 65536);
    for kind in 0..43 {
        for value in (0..=0xFFFFu16).step_by(stride) {
            let other = if random.one_in(8) { value } else { random.word() };
            let (a, b) = if random.one_in(2) { (value, other) } else { (other, value) };
            let ef = if random.one_in(2) { value & 0xFFFE } else { random.word() & 2 };
            pair.set_core(Core { r: [7, a, b, 7, 7, 7, 7, 7], ip: random.word(), rp: value, sp: value, ef });
            step_at(&mut pair, sample(kind), 65536, "a value", report);
            pair.renew_marks(|| random.byte());
        }
        pair.compare_whole("the values of a kind", report);
    }
}

/// A word of each kind, with r1 and r2 where it has registers.
fn sample(kind: u8) -> u16 {
    match kind {
        PUTL | PUTH => word(kind, 1, 0x80),
        JMPOFF | CJMPOFF => word(kind, 0x80, 0),
        _ => word(kind, 1, 2),
    }
}

fn random_pair<'a>(machine: &'a dyn Machine, random: &mut Random, length: usize) -> Pair<'a> {
    let memory = (0..length).map(|_| random.word()).collect();
    let marks = (0..length).map(|_| random.byte()).collect();
    Pair::new(machine, Core::new(), memory, marks)
}

/// A step with the word where the core fetches, if that is inside memory.
fn step_at(pair: &mut Pair, word: u16, length: usize, what: &str, report: &mut Report) {
    let ip = pair.core().ip;
    if (ip as usize) < length {
        pair.set_word(ip, word);
    }
    pair.step(what, report);
}
