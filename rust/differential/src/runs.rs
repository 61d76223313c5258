//! Whole programs in edition 1: in lockstep, and as runs with limits around the place where they
//! end.

use crate::machine::Machine;
use crate::model::Terms;
use crate::pair::Pair;
use crate::programs::{full_memory, loops, structured};
use crate::random::Random;
use crate::reference::Reference;
use crate::report::Report;
use crate::states::{self, edges};
use crate::work::works;
use nilguseg::{Core, Outcome, Run};

/// Without rights, in the edition that the published Rust measures.
const FIRST: Terms = Terms { rights: None, edition: 1 };

/// A core and a memory to begin with.
pub struct Program {
    pub core: Core,
    pub memory: Vec<u16>,
}

/// Short memories mostly; now and then one of the lengths of `states::LENGTHS`.
fn random_length(random: &mut Random) -> usize {
    match random.below(8) {
        0 => random.pick(&states::LENGTHS),
        1 => random.pick(&[3, 5, 8, 16, 17, 40, 64, 1000, 32767]),
        _ => 1 + random.below(300),
    }
}

/// Random content and a random core; one time in four a structured program and a fresh core.
pub fn random_program(random: &mut Random) -> Program {
    if random.one_in(4) {
        return structured_program(random, 16);
    }
    let length = random_length(random);
    let core = states::core(random, &edges(length), length);
    Program { core, memory: states::content(random, length, core.ip) }
}

/// A structured program that shifts by amounts below the number given, and a fresh core.
pub fn structured_program(random: &mut Random, amounts: usize) -> Program {
    let length = random.pick(&[160, 255, 4096, 32768, 65536]);
    let address = (length - random.below(48)) as u16;
    let words = structured(random, address, amounts);
    let mut memory = vec![0; length];
    memory[..words.len()].copy_from_slice(&words);
    Program { core: Core::new(), memory }
}

/// Programs in lockstep, until `steps` steps are compared. A program goes on after a fault, and now
/// and then a register gets a new value, so that one program meets many states.
pub fn lockstep(machine: &dyn Machine, steps: u64, report: &mut Report) {
    let mut random = Random::new(4);
    let enough = report.steps() + steps;
    while report.steps() < enough {
        let Program { core, memory } = random_program(&mut random);
        let length = memory.len();
        let marks = match random.one_in(3) {
            true => (0..length).map(|_| random.byte()).collect(),
            false => vec![0; length],
        };
        let before = report.disagreements;
        let mut pair = Pair::new(machine, core, memory, marks);
        for _ in 0..if length > 2000 { 2000 } else { 200 } {
            let step = pair.step("lockstep", report);
            if report.disagreements > before || step == Outcome::Halted && !random.one_in(4) {
                break;
            }
            pair.set_core(disturbed(&mut random, pair.core(), step, length));
        }
        pair.compare_whole("the end of a program in lockstep", report);
    }
}

/// The core to go on with: awake where it halted, inside memory where it left it, at times changed.
fn disturbed(random: &mut Random, mut core: Core, step: Outcome, length: usize) -> Core {
    if step == Outcome::Halted {
        core.ef = random.word() & 0xFFFE;
    }
    if core.ip as usize >= length {
        core.ip = random.below(length) as u16;
    }
    if random.one_in(16) {
        core.r[random.below(8)] = states::value(random, &[0, 15, 16, 0x8000, 0xFFFF], length);
    }
    if random.one_in(64) {
        core.sp = states::value(random, &[0, 0xFFFF, (length - 1) as u16, length as u16], length);
    }
    core
}

/// Runs of programs with limits 0 and 1, one before the end, exactly there, one past it and far
/// past it, until `steps` steps are compared.
pub fn limits(machine: &dyn Machine, steps: u64, report: &mut Report) {
    let mut random = Random::new(5);
    let enough = report.run_steps() + steps;
    while report.run_steps() < enough {
        let program = random_program(&mut random);
        let far = if random.one_in(8) { 3000 } else { 500 };
        let end = compare_run(machine, &program, far, report).steps;
        for limit in [0, 1, end.saturating_sub(1), end, end + 1] {
            compare_run(machine, &program, limit, report);
        }
    }
}

/// The programs of the benchmark.
pub fn measured_programs() -> impl Iterator<Item = Program> {
    let works = works().map(|work| work.words);
    let words = loops().map(|(_, words)| words).into_iter().chain(works);
    words.map(|words| Program { core: Core::new(), memory: full_memory(&words) })
}

/// The programs of the benchmark, run for at most `steps` steps each.
pub fn measured(machine: &dyn Machine, steps: u32, report: &mut Report) {
    for program in measured_programs() {
        compare_run(machine, &program, steps, report);
    }
}

/// One run by both; what the published Rust answers.
fn compare_run(machine: &dyn Machine, program: &Program, limit: u32, report: &mut Report) -> Run {
    let length = program.memory.len();
    let mut reference = Reference::new(program.core, program.memory.clone(), &vec![0; length]);
    let expected = reference.run(limit);
    report.count_run(expected.end, expected.steps);

    // marks that the run has to clear first
    let (mut core, mut memory, mut marks) = (program.core, program.memory.clone(), vec![0xA7; length]);
    let run = machine.run(&mut core, &mut memory, &mut marks, FIRST, limit);
    let same_memory = memory == reference.words() && marks == reference.marks();
    if run != expected || core != reference.registers() || !same_memory {
        report.disagree("a run", || {
            format!(
                "limit {limit}, memory of {length} words {}, from {:?}\n  answered {run:?} {core:?}\n  expected {expected:?} {:?}",
                if same_memory { "as expected" } else { "NOT as expected, or its marks" },
                program.core,
                reference.registers()
            )
        });
    }
    expected
}
