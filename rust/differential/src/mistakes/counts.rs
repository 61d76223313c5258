//! Machines that are wrong about the count at the end of a sheet (docs/SHEETS.md, The records).

use super::*;
use crate::model::{EDITION, END, PLACE, PRESET, WORD};

const fn taken(name: &'static str, taken: Taken) -> WrongMachine {
    WrongMachine { name, mistake: Mistake::CountTaken(taken) }
}

const fn put(name: &'static str, put: fn(&[u32]) -> u32) -> WrongMachine {
    WrongMachine { name, mistake: Mistake::CountPut(put) }
}

fn end(count: u32) -> u32 {
    END << 28 | count
}

fn all(records: &[u32]) -> u32 {
    records.len() as u32
}

/// How many of the records are of these kinds.
fn of(kinds: &[u32], records: &[u32]) -> u32 {
    records.iter().filter(|record| kinds.contains(&(*record >> 28))).count() as u32
}

/// The sheet with the right count at each end whose count is taken for right, and a wrong one at
/// the others.
pub fn decided(taken: Taken, sheet: &[u32]) -> Vec<u32> {
    changed(sheet, |before, record| match record >> 28 {
        END if taken(record << 4 >> 4, before) => end(all(before)),
        END => end(all(before) + 1),
        _ => record,
    })
}

/// What the writer puts, with the count that `put` has for the records before the end.
pub fn write(
    put: fn(&[u32]) -> u32,
    core: &Core,
    edition: u16,
    memory: &[u16],
    sheet: &mut [u32],
) -> Result<usize, Refusal> {
    let count = model::write_sheet(core, edition, memory, sheet)?;
    sheet[count - 1] = end(put(&sheet[..count - 1]));
    Ok(count)
}

pub const COUNTS: [WrongMachine; 17] = [
    taken("presets are not counted at the end", |count, before| count == of(&[PLACE, WORD, EDITION], before)),
    taken("places are not counted at the end", |count, before| count == of(&[WORD, PRESET, EDITION], before)),
    taken("editions are not counted at the end", |count, before| count == of(&[PLACE, WORD, PRESET], before)),
    taken("words are not counted at the end", |count, before| count == of(&[PLACE, PRESET, EDITION], before)),
    taken("only words are counted at the end", |count, before| count == of(&[WORD], before)),
    taken("the end counts itself", |count, before| count == all(before) + 1),
    taken("a count too great by one is taken", |count, before| count == all(before) || count == all(before) + 1),
    taken("a count too small by one is taken", |count, before| count == all(before) || count + 1 == all(before)),
    taken("any greater count is taken", |count, before| count >= all(before)),
    taken("any smaller count is taken", |count, before| count <= all(before)),
    taken("only the low byte of a count is looked at", |count, before| count % 256 == all(before) % 256),
    loaded("a sheet that lost its end is taken", |core, edition, sheet, memory| {
        match model::load_sheet(core, edition, sheet, memory) {
            Err(Refusal(24)) => model::load_sheet(core, edition, &[sheet, &[end(all(sheet))]].concat(), memory),
            answer => answer,
        }
    }),
    put("the writer does not count presets", |before| of(&[PLACE, WORD, EDITION], before)),
    put("the writer does not count places", |before| of(&[WORD, PRESET, EDITION], before)),
    put("the writer does not count the edition", |before| of(&[PLACE, WORD, PRESET], before)),
    put("the writer counts only words", |before| of(&[WORD], before)),
    put("the writer counts the end too", |before| all(before) + 1),
];
