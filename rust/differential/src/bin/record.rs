//! Writes a fixed sample of the published Rust's answers, which are edition 1's, to the file named,
//! to be replayed without Rust.
//!
//! The file is a list of cases of 222 bytes and nothing else: 111 words of 16 bits, the low byte
//! first.
//!
//! | words     | what                                                                         |
//! |-----------|------------------------------------------------------------------------------|
//! | 0         | 0 for one step, 1 for a run                                                  |
//! | 1         | the run's limit; 0 for a step                                                |
//! | 2         | the byte that each of the 32 marks is at the start                           |
//! | 3 to 14   | the registers at the start: r0 to r7, ip, rp, sp, ef                         |
//! | 15 to 46  | the memory at the start: 32 words, which is its length                       |
//! | 47        | the answer, in numbers of this file: of a step 0 stepped, 1 halted, 2 fault; |
//! |           | of a run 0 halted, 1 limit, 2 fault                                          |
//! | 48, 49    | the fault's number and value; 0 where there is none                          |
//! | 50        | the steps counted; 0 for a step                                              |
//! | 51 to 62  | the registers at the end                                                     |
//! | 63 to 94  | the memory at the end                                                        |
//! | 95 to 110 | the marks at the end: 32 bytes in order                                      |
//!
//! Where the Rust panics, the answer is the stop that docs/NUMBERS.md has for it (12, 13 or 14). A
//! mark at the end is what reads and writes seen by the Rust's Memory make of it.
//!
//! Cases are drawn from a fixed seed and kept while there are few of their class.

use std::collections::BTreeMap;

use differential::random::Random;
use differential::reference::{silence_expected_panics, Reference};
use differential::{model, states};
use nilguseg::kind::{CJMPOFF, JMPOFF};
use nilguseg::{Core, Outcome, Run};

const LENGTH: usize = 32;
const DRAWN: usize = 600_000;
const STEPS_OF_A_CLASS: usize = 5;
const RUNS_OF_A_CLASS: usize = 7;

/// What a case is a sample of. An answer here is its class and number.
#[derive(PartialEq, Eq, PartialOrd, Ord)]
enum Class {
    /// `jump` is the byte of a jump, where it is an edge.
    Step { kind: Option<u8>, condition: bool, answer: [u16; 2], jump: Option<u8> },
    /// `magnitude` tells about how many steps it took.
    Run { answer: [u16; 2], magnitude: u32 },
}

struct Start {
    core: Core,
    memory: Vec<u16>,
    mark: u8,
}

fn draw(random: &mut Random) -> Start {
    let edges = states::edges(LENGTH);
    let core = states::core(random, &edges, LENGTH);
    let mut memory = states::content(random, LENGTH, core.ip);
    if let Some(word) = memory.get_mut(core.ip as usize) {
        // most words do not decode
        *word = if random.one_in(8) { random.word() } else { states::decodable(random) };
    }
    Start { core, memory, mark: if random.one_in(2) { 0 } else { random.byte() } }
}

/// The words that tell an answer: its class, its number, its value. `on` and `off` are the classes
/// of a core that goes on and of a halted one.
fn answer_words(outcome: Outcome, on: u16, off: u16) -> [u16; 3] {
    match outcome {
        Outcome::Stepped | Outcome::Limit => [on, 0, 0],
        Outcome::Halted => [off, 0, 0],
        Outcome::Fault(fault) => [2, fault.number as u16, fault.value],
        Outcome::Refused(_) | Outcome::Log(_) => unreachable!("the published Rust refuses nothing and logs nothing"),
    }
}

fn reference(start: &Start) -> Reference {
    Reference::new(start.core, start.memory.clone(), &[start.mark; LENGTH])
}

fn step(start: &Start) -> (Class, [u16; 4], Reference) {
    let mut reference = reference(start);
    let step = reference.step();
    let [class, number, value] = answer_words(step, 0, 1);
    let word = start.memory.get(start.core.ip as usize).filter(|_| step != Outcome::Halted);
    let executed = word.and_then(|word| model::decode(*word).ok());
    let jump = executed.filter(|i| matches!(i.kind, JMPOFF | CJMPOFF)).map(|i| i.first);
    let class_of_step = Class::Step {
        kind: executed.map(|i| i.kind),
        condition: start.core.ef & 2 > 0,
        answer: [class, number],
        jump: jump.filter(|byte| [0x7F, 0x80, 0xFF].contains(byte)),
    };
    (class_of_step, [class, number, value, 0], reference)
}

fn run(start: &Start, limit: u16) -> (Class, [u16; 4], Reference) {
    let mut reference = reference(start);
    let Run { end, steps } = reference.run(limit as u32);
    let [class, number, value] = answer_words(end, 1, 0);
    let class_of_run = Class::Run { answer: [class, number], magnitude: (steps + 1).ilog2() };
    (class_of_run, [class, number, value, steps as u16], reference)
}

fn registers(core: Core) -> impl Iterator<Item = u16> {
    core.r.into_iter().chain([core.ip, core.rp, core.sp, core.ef])
}

/// The case's 222 bytes.
fn bytes(what: u16, limit: u16, start: &Start, answer: [u16; 4], end: &Reference) -> Vec<u8> {
    let mut words = vec![what, limit, start.mark as u16];
    words.extend(registers(start.core));
    words.extend(&start.memory);
    words.extend(answer);
    words.extend(registers(end.registers()));
    words.extend(end.words());
    let mut bytes: Vec<u8> = words.into_iter().flat_map(u16::to_le_bytes).collect();
    bytes.extend(end.marks());
    bytes
}

fn main() {
    let path = std::env::args().nth(1).expect("usage: record FILE");
    silence_expected_panics();
    let mut random = Random::new(8);
    let mut kept: BTreeMap<Class, usize> = BTreeMap::new();
    let mut file = Vec::new();
    for _ in 0..DRAWN {
        let start = draw(&mut random);
        let what = random.below(2) as u16;
        let limit = what * random.pick(&[0, 1, 2, 5, 10, 40, 200, 1000]);
        let (class, answer, end) = if what == 0 { step(&start) } else { run(&start, limit) };
        let room = if what == 0 { STEPS_OF_A_CLASS } else { RUNS_OF_A_CLASS };
        let count = kept.entry(class).or_default();
        if *count < room {
            *count += 1;
            file.extend(bytes(what, limit, &start, answer, &end));
        }
    }
    std::fs::write(&path, &file).unwrap_or_else(|error| panic!("{path}: {error}"));
    let cases: usize = kept.values().sum();
    println!("{cases} cases of {} classes, {} bytes", kept.len(), file.len());
}
