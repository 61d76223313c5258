//! What the published Rust has in part or not at all: word lists against
//! `SimpleMemory::with_content`, and sheets (docs/SHEETS.md) and refusals (docs/NUMBERS.md) against
//! the model.

use crate::calls::{compare, lent, load_sheet, replay, run, run_logged, step, write_sheet, Called, Lent};
use crate::machine::Machine;
use crate::random::Random;
use crate::report::Report;
use crate::states::{self, edges};
use delta_null_core_emulator::memory::SimpleMemory;
use nilguseg::{Core, Refusal};

/// Lengths that do not fit: steps, runs, replays, loads and writes that must be refused and change
/// nothing.
pub fn refusals(machine: &dyn Machine, report: &mut Report) {
    let mut random = Random::new(6);
    let lengths = [0, 1, 2, 3, 65535, 65536, 65537, 70000];
    for (memory, other) in lengths.iter().flat_map(|memory| lengths.map(|other| (*memory, other))) {
        let core = Core { ip: 0, ef: 0, ..states::core(&mut random, &[0xFFFF], 3) };
        let lent = lent(core, vec![0x2000; memory], other, vec![0x2000_0001; other]);
        compare(machine, "a step over lent lengths", &lent, step, report);
        compare(machine, "a run over lent lengths", &lent, run(3), report);
        compare(machine, "a logged run over lent lengths", &lent, run_logged(3), report);
        compare(machine, "a replay over lent lengths", &lent, replay(memory, 3), report);
        compare_load_sheet(machine, &lent, report);
        compare(machine, "writing a sheet", &lent, write_sheet, report);
        compare_load_words(machine, core, &vec![0x1234; other], memory, report);
    }
    report.others.push(("pairs of lengths tried on every call", (lengths.len() * lengths.len()) as u64));
}

/// A load of a word list against the model, and the model against the published Rust where it
/// refuses nothing.
fn compare_load_words(machine: &dyn Machine, core: Core, words: &[u16], length: usize, report: &mut Report) {
    let load = |m: &dyn Machine, l: &mut Lent| m.load_words(&mut l.core, &mut l.edition, words, &mut l.memory);
    let lent = Lent { edition: FOUND, ..lent(core, vec![0xBEEF; length], 0, vec![]) };
    let Called { answer, left } = compare(machine, "loading a word list", &lent, load, report);
    if answer.is_ok() && left.memory[..] != SimpleMemory::with_content(words).data[..length] {
        report.disagree("loading a word list", || "with_content gives another memory".to_string());
    }
}

/// The edition that a load finds, and never leaves.
const FOUND: u16 = 7;

pub fn compare_load_sheet(machine: &dyn Machine, lent: &Lent, report: &mut Report) -> Called<Result<(), Refusal>> {
    let lent = Lent { edition: FOUND, ..lent.clone() };
    compare(machine, "loading a sheet", &lent, load_sheet, report)
}

/// A record of kind 7 that is refused, most often: no edition, a bit set that must be 0, or both.
fn odd_edition(random: &mut Random) -> u32 {
    let number = random.pick(&[0, 3, 0x0101, 0x0102, 0x8001, 0x8002, 0xFFFF]);
    let bit = 1 << (16 + random.below(12));
    match random.below(4) {
        0 => 0x7000_0000 | number,
        1 => 0x7000_0000 | bit | random.pick(&[1, 2]),
        2 => 0x7000_0000 | bit | number,
        _ => 0x7000_0000 | random.number() as u32 >> 4,
    }
}

/// Random records, most of them right, with the right count at an end that most often stands last.
fn random_sheet(random: &mut Random, length: usize) -> Vec<u32> {
    let before_end = random.below(12) as u32;
    let mut sheet: Vec<u32> = (0..before_end)
        .map(|before| match random.below(48) {
            0 => random.number() as u32,
            1 => 0xF000_0000 | before,
            2 => 0x3000_0000 | (random.number() as u32 % 0x10_0000),
            3..=12 => 0x3000_0000 | (random.below(12) as u32) << 16 | random.word() as u32,
            13..=18 => 0x1000_0000 | (random.below(length + 1) as u32 % 0x1_0000),
            19..=22 => 0x7000_0000 | random.pick(&[1, 2]),
            23 => odd_edition(random),
            _ => 0x2000_0000 | random.word() as u32,
        })
        .collect();
    match random.below(16) {
        0 => {}
        1 => sheet.push(0xF000_0000 | random.below(12) as u32),
        2 => sheet.extend([0xF000_0000 | before_end, random.number() as u32]),
        _ => sheet.push(0xF000_0000 | before_end),
    }
    if random.one_in(8) && !sheet.is_empty() {
        let at = random.below(sheet.len());
        sheet[at] ^= 1 << random.below(32);
    }
    sheet
}

/// Words placed up to and past the end of long memories, where the load address must not wrap.
fn load_address(machine: &dyn Machine, report: &mut Report) {
    for (length, room) in [(65535, 2), (65535, 3), (65536, 1), (65536, 2), (65536, 3)] {
        let place = 0x1000_0000 | (length - room) as u32;
        let sheet = vec![place, 0x2000_0007, 0x2000_0008, 0x2000_0009, 0xF000_0004];
        compare_load_sheet(machine, &lent(Core::new(), vec![0xBEEF; length], 0, sheet), report);
    }
}

/// `cases` sheets loaded, and as many cores, editions and memories written, into buffers that fit,
/// are too long or too short.
pub fn sheets(machine: &dyn Machine, cases: usize, report: &mut Report) {
    let mut random = Random::new(7);
    let (mut refused, mut editions) = ([0; 35], [0; 3]);
    load_address(machine, report);
    for _ in 0..cases {
        let length = 1 + random.below(12);
        let core = states::core(&mut random, &edges(length), length);
        let sheet = random_sheet(&mut random, length);
        let memory: Vec<u16> = (0..length).map(|_| if random.one_in(2) { 0 } else { random.word() }).collect();
        let loaded = compare_load_sheet(machine, &lent(core, memory.clone(), 0, sheet), report);
        match loaded.answer {
            Err(Refusal(number)) => refused[number as usize] += 1,
            Ok(()) => editions[loaded.left.edition as usize] += 1,
        }
        let (edition, room) = (random.pick(&[0, 1, 1, 1, 2, 2, 2, 3]), 10 + random.below(20));
        compare_written(machine, &Lent { edition, ..lent(core, memory, 0, vec![0xDEAD_BEEF; room]) }, report);
    }
    let rarest = refused[20..27].iter().chain(&refused[34..]).copied().min().unwrap();
    report.others.push(("sheets loaded, and as many written", cases as u64));
    report.others.push(("refusals by the rarest number of 20 to 26 and 34", rarest));
    report.others.push(("sheets that chose edition 2", editions[2]));
}

/// A sheet written, and loaded again where it was not refused.
fn compare_written(machine: &dyn Machine, given: &Lent, report: &mut Report) {
    let written = compare(machine, "writing a sheet", given, write_sheet, report);
    let Ok(count) = written.answer else { return };
    let (length, sheet) = (given.memory.len(), written.left.records[..count].to_vec());
    let restored = compare_load_sheet(machine, &lent(Core::new(), vec![0xBEEF; length], 0, sheet), report).left;
    let [before, after] = [given, &restored].map(|lent| (lent.core, lent.edition, &lent.memory));
    assert!(after == before, "the model restores what it wrote");
}
