//! Sheets that lost a record: one that loads is refused without any one of its records, the end too
//! (docs/SHEETS.md, The records).

use std::fs;

use crate::calls::{called, lent, write_sheet, Called, Lent};
use crate::machine::{Machine, Model};
use crate::random::Random;
use crate::report::Report;
use crate::sheets::compare_load_sheet;
use crate::states::{self, edges};
use nilguseg::{Core, Refusal};

/// The memory that the program berth has.
const BERTH: usize = 32768;

/// The records of a sheet written as text: eight hexadecimal digits a line, and comments from `#`
/// on.
fn records(text: &str) -> Vec<u32> {
    let lines = text.lines().filter_map(|line| line.split('#').next()).map(str::trim);
    let records = lines.filter(|line| !line.is_empty()).map(|line| u32::from_str_radix(line, 16));
    records.collect::<Result<_, _>>().expect("a record of a sample is hexadecimal digits")
}

/// The sheets in the folder samples.
fn samples() -> Vec<Vec<u32>> {
    let folder = concat!(env!("CARGO_MANIFEST_DIR"), "/../../samples");
    let mut paths: Vec<_> = fs::read_dir(folder).unwrap().map(|entry| entry.unwrap().path()).collect();
    paths.retain(|path| path.extension().is_some_and(|extension| extension == "sheet"));
    paths.sort();
    paths.iter().map(|path| records(&fs::read_to_string(path).unwrap())).collect()
}

/// What is written of a random core and memory.
fn written(random: &mut Random, length: usize, edition: u16) -> Vec<u32> {
    let core = states::core(random, &edges(length), length);
    let memory = (0..length).map(|_| if random.one_in(2) { 0 } else { random.word() }).collect();
    let given = Lent { edition, ..lent(core, memory, 0, vec![0; 14 + length + length.div_ceil(2)]) };
    let Called { answer, left } = called(&Model, &given, write_sheet);
    left.records[..answer.expect("the buffer suffices")].to_vec()
}

/// The sheet, and then the sheet without each of its records: it must be refused by 24 without its
/// end, else by one of the numbers given. One that does not load, as samples/refused.sheet, is left
/// at that: without a record it may be right.
fn losses(machine: &dyn Machine, sheet: &[u32], length: usize, numbers: &[u8], report: &mut Report) {
    let whole = lent(Core { r: [9; 8], ..Core::new() }, vec![0xBEEF; length], 0, sheet.to_vec());
    if compare_load_sheet(machine, &whole, report).answer.is_err() {
        return;
    }
    for lost in 0..sheet.len() {
        let given = Lent { records: [&sheet[..lost], &sheet[lost + 1..]].concat(), ..whole.clone() };
        let Called { answer, left } = compare_load_sheet(machine, &given, report);
        let numbers = if lost + 1 < sheet.len() { numbers } else { &[24] };
        let refused = matches!(answer, Err(Refusal(number)) if numbers.contains(&number));
        assert!(refused, "a sheet that lost a record is refused");
        let unchanged = left == Lent { core: Core::new(), ..given };
        assert!(unchanged, "a refused load leaves a fresh core, edition 1 and memory as it was");
    }
    report.count("samples and written sheets that load", 1);
    report.count("the same without one of their records", sheet.len() as u64);
}

/// The samples, and `cases` written sheets of each edition, most of them of few words.
pub fn lost_records(machine: &dyn Machine, cases: usize, report: &mut Report) {
    for sheet in samples() {
        losses(machine, &sheet, BERTH, &[20, 21, 22, 34, 23, 26], report);
    }
    let mut random = Random::new(13);
    for case in 0..cases {
        let length = 1 + random.below(if case % 64 == 0 { 300 } else { 12 });
        for edition in [1, 2] {
            losses(machine, &written(&mut random, length, edition), length, &[26], report);
        }
    }
}
