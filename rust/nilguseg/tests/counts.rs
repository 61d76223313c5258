//! The end of a sheet counts every record before it, of every kind, so that a sheet that lost one
//! is refused (docs/SHEETS.md, The records).

use nilguseg::{Core, Refusal};

const EDITION: u32 = 0x7000_0002;
const PRESET: u32 = 0x3000_0003; // r0: 3
const PLACE: u32 = 0x1000_0001;
const WORD: u32 = 0x2000_FFFF;

/// A core with no register at a value that a load would give it by itself.
const BUSY: Core = Core { r: [1, 2, 3, 4, 5, 6, 7, 8], ip: 0, rp: 9, sp: 10, ef: 0xFFF0 };
const PRESET_CORE: Core = Core { r: [3, 0, 0, 0, 0, 0, 0, 0], ..Core::new() };

/// What a load over a core, an edition and a memory with other values answers and leaves.
fn load(sheet: &[u32]) -> (Result<(), Refusal>, Core, u16, [u16; 3]) {
    let (mut core, mut edition, mut memory) = (BUSY, 7, [0xBEEF; 3]);
    let answer = core.load_sheet(&mut edition, sheet, &mut memory);
    (answer, core, edition, memory)
}

/// That the sheet is refused with `number`, the core fresh, the edition 1 and memory as it was.
fn assert_refused(sheet: &[u32], number: u8) {
    assert_eq!(load(sheet), (Err(Refusal(number)), Core::new(), 1, [0xBEEF; 3]), "{sheet:08x?}");
}

/// That the sheet without any one of its records is refused: by 24 without its end, else by 26.
fn assert_needs_each_record(sheet: &[u32]) {
    for lost in 0..sheet.len() {
        let number = if lost + 1 < sheet.len() { 26 } else { 24 };
        assert_refused(&[&sheet[..lost], &sheet[lost + 1..]].concat(), number);
    }
}

#[test]
fn a_sheet_that_lost_a_record_is_refused() {
    let sheet = [EDITION, PRESET, PLACE, WORD, 0xF000_0004];
    assert_eq!(load(&sheet), (Ok(()), PRESET_CORE, 2, [0, 0xFFFF, 0]));
    assert_needs_each_record(&sheet);
}

#[test]
fn a_written_sheet_that_lost_a_record_is_refused() {
    let memory = [7, 0, 9];
    for edition in [1, 2] {
        let mut sheet = [0; 18];
        let count = BUSY.write_sheet(edition, &memory, &mut sheet).unwrap();
        assert_eq!(load(&sheet[..count]), (Ok(()), BUSY, edition, memory));
        assert_needs_each_record(&sheet[..count]);
    }
}

/// The end used to count word records only; these ends are right by that rule (docs/SHEETS.md, Old
/// sheets).
#[test]
fn an_end_that_counts_words_only_is_refused() {
    let cases: [(&[u32], u32); 6] = [
        (&[PRESET], 0),
        (&[PLACE], 0),
        (&[EDITION], 0),
        (&[PRESET, WORD], 1),
        (&[PLACE, WORD], 1),
        (&[EDITION, PRESET, PRESET, WORD, PLACE, WORD], 2),
    ];
    for (records, words) in cases {
        assert_refused(&[records, &[0xF000_0000 | words]].concat(), 26);
        assert_refused(&[records, &[0xF000_0000 | words, WORD]].concat(), 26);
        let count = records.len() as u32;
        assert_eq!(load(&[records, &[0xF000_0000 | count]].concat()).0, Ok(()), "{records:08x?}");
        assert_refused(&[records, &[0xF000_0000 | count, WORD]].concat(), 25);
    }
    assert_eq!(load(&[WORD, WORD, 0xF000_0002]).0, Ok(()), "a sheet of words only stays right");
}

#[test]
fn any_other_count_is_refused() {
    let others = (0..28).map(|bit| 4 ^ 1 << bit).chain([1, 2, 3, 0xFFF_FFFF]);
    for count in others {
        assert_refused(&[EDITION, PRESET, PLACE, WORD, 0xF000_0000 | count], 26);
    }
}
