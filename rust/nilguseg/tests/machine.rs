//! Known words (docs/MACHINE.md, Known words), the worked example of docs/SHEETS.md, and what a
//! refused call leaves unchanged (docs/NUMBERS.md, What is left unchanged).

use nilguseg::{decode, encode, kind, Core, Fault, Instruction, Outcome, Refusal, Run};

const EXAMPLE: [u16; 2] = [0x1003, 0xFFFF];
const EXAMPLE_SHEET: [u32; 3] = [0x2000_1003, 0x2000_FFFF, 0xF000_0002];

/// A core with no register at a value that a call would give it by itself.
const BUSY: Core = Core { r: [1, 2, 3, 4, 5, 6, 7, 8], ip: 0, rp: 9, sp: 10, ef: 0xFFF0 };

fn instruction(kind: u8, first: u8, second: u8) -> Instruction {
    Instruction { kind, first, second }
}

/// One step of `core` at memory of `length` words that begins with `word`.
fn step_once(mut core: Core, length: usize, word: u16) -> (Outcome, Core) {
    let (mut memory, mut marks) = (vec![0; length], vec![0; length]);
    memory[core.ip as usize] = word;
    let step = core.step(&mut memory, &mut marks, 1);
    (step, core)
}

fn with_registers(r0: u16, r1: u16) -> Core {
    Core { r: [r0, r1, 0, 0, 0, 0, 0, 0], ..Core::new() }
}

#[test]
fn words_decode_and_encode() {
    let mov = instruction(kind::MOV, 3, 5);
    assert_eq!((decode(0x2153), encode(mov)), (Ok(mov), Some(0x2153)));
    assert_eq!(decode(0x2118), Ok(instruction(kind::DMOV, 0, 1)));
    assert_eq!(encode(instruction(kind::SPREAD, 2, 19)), Some(0x3023));
    assert_eq!(encode(instruction(kind::MOVSI, 2, 1)), Some(0x21E1));
    for word in [0x2158, 0x4600, 0x6219] {
        assert_eq!(decode(word), Err(Fault { number: 10, value: word }));
    }
}

#[test]
fn operands_that_do_not_exist_have_no_word() {
    assert_eq!(encode(instruction(43, 0, 0)), None);
    assert_eq!(encode(instruction(kind::MOV, 8, 0)), None);
    assert_eq!(encode(instruction(kind::MOVSO, 0, 4)), None);
    assert_eq!(encode(instruction(kind::DMOV, 4, 0)), None);
    assert_eq!(encode(instruction(kind::PUTL, 7, 255)), Some(0x17FF));
}

#[test]
fn exactly_6118_words_decode_and_encode_to_themselves() {
    let decoded: Vec<u16> = (0..=0xFFFF).filter(|&word| decode(word).is_ok()).collect();
    assert_eq!(decoded.len(), 6118);
    assert!(decoded.iter().all(|&word| encode(decode(word).unwrap()) == Some(word)));
}

#[test]
fn a_push_past_the_end_leaves_sp_lowered() {
    let pushed = Core { sp: 0xFFFE, ip: 1, ..Core::new() };
    assert_eq!(step_once(Core::new(), 65536, 0x23D0), (Outcome::Stepped, pushed));
    let fault = Fault { number: 11, value: 0xFFFE };
    assert_eq!(step_once(Core::new(), 32768, 0x23D0), (Outcome::Fault(fault), pushed));
}

#[test]
fn a_jump_by_minus_one_stays_where_it_is() {
    let core = Core { ip: 5, ..Core::new() };
    assert_eq!(step_once(core, 6, 0x60FF), (Outcome::Stepped, core));
}

#[test]
fn sums_and_products_keep_the_low_word() {
    assert_eq!(step_once(with_registers(0xFFFF, 1), 1, 0x4910).1.r[0], 0);
    assert_eq!(step_once(with_registers(0x0100, 0x0100), 1, 0x4B10).1.r[0], 0);
}

#[test]
fn shifts_and_negation_stop_where_the_rust_panics() {
    assert_eq!(step_once(with_registers(1, 15), 1, 0x4410).1.r[0], 0x8000);
    let after = Core { ip: 1, ..with_registers(1, 16) };
    let fault = Fault { number: 13, value: 16 };
    assert_eq!(step_once(with_registers(1, 16), 1, 0x4410), (Outcome::Fault(fault), after));
    assert_eq!(step_once(with_registers(1, 0), 1, 0x4800).1.r[0], 0xFFFF);
    let fault = Fault { number: 14, value: 0x8000 };
    assert_eq!(step_once(with_registers(0x8000, 0), 1, 0x4800).0, Outcome::Fault(fault));
}

#[test]
fn a_halted_core_is_left_alone() {
    let mut core = Core { ef: 1, ..BUSY };
    let (mut memory, mut marks) = (EXAMPLE, [0xA4; 2]);
    assert_eq!(core.step(&mut memory, &mut marks, 1), Outcome::Halted);
    assert_eq!((core, memory, marks), (Core { ef: 1, ..BUSY }, EXAMPLE, [0xA4; 2]));
    assert_eq!(core.run(&mut memory, &mut marks, 1, 0), Run { end: Outcome::Halted, steps: 0 });
    assert_eq!(marks, [0; 2], "a run clears the marks");
}

#[test]
fn the_example_runs_to_its_end_or_its_limit() {
    let (mut memory, mut marks) = (EXAMPLE, [0xFF; 2]);
    let mut core = Core::new();
    assert_eq!(core.run(&mut memory, &mut marks, 1, 2), Run { end: Outcome::Halted, steps: 2 });
    assert_eq!(core, Core { ip: 2, ef: 1, ..with_registers(3, 0) });
    assert_eq!((memory, marks), (EXAMPLE, [1, 1]));

    let mut core = Core::new();
    assert_eq!(core.run(&mut memory, &mut marks, 1, 1), Run { end: Outcome::Limit, steps: 1 });
    assert_eq!((core.ip, marks), (1, [1, 0]));
}

#[test]
fn a_step_adds_to_the_marks() {
    let mut memory = [0x2081, 0]; // write r1 at the address in r0
    let mut core = with_registers(1, 7);
    let mut marks = [0xA4, 0xA1];
    assert_eq!(core.step(&mut memory, &mut marks, 1), Outcome::Stepped);
    assert_eq!((memory, marks), ([0x2081, 7], [0xA5, 0xA3]));
}

#[test]
fn a_fault_is_not_counted_and_keeps_what_was_written() {
    let mut memory = [0x2081, 0x2158, 0]; // write r1 at the address in r0; undecodable
    let mut marks = [0; 3];
    let mut core = with_registers(2, 7);
    let end = Outcome::Fault(Fault { number: 10, value: 0x2158 });
    assert_eq!(core.run(&mut memory, &mut marks, 1, 9), Run { end, steps: 1 });
    assert_eq!((core.ip, memory, marks), (2, [0x2081, 0x2158, 7], [1, 1, 2]));
}

/// Steps and runs over the lengths given, which must be refused with `number` and change nothing.
fn assert_refused(memory_len: usize, marks_len: usize, number: u8) {
    let (mut memory, mut marks) = (vec![0x1003; memory_len], vec![0xA4; marks_len]);
    let mut core = BUSY;
    assert_eq!(core.step(&mut memory, &mut marks, 1), Outcome::Refused(Refusal(number)));
    let run = core.run(&mut memory, &mut marks, 1, 5);
    assert_eq!(run, Run { end: Outcome::Refused(Refusal(number)), steps: 0 });
    assert_eq!(core, BUSY);
    assert!(memory.iter().all(|&word| word == 0x1003) && marks.iter().all(|&mark| mark == 0xA4));
}

#[test]
fn wrong_lengths_are_refused_in_number_order() {
    assert_refused(0, 0, 1);
    assert_refused(0, 3, 1);
    assert_refused(65537, 65537, 1);
    assert_refused(65537, 2, 1);
    assert_refused(2, 1, 2);
    assert_refused(2, 3, 2);
    assert_refused(65536, 0, 2);
}

#[test]
fn a_word_list_is_loaded_whole_or_not_at_all() {
    let (mut core, mut edition, mut memory) = (BUSY, 7, [0xBEEF; 3]);
    assert_eq!(core.load_words(&mut edition, &EXAMPLE, &mut memory), Ok(()));
    assert_eq!((core, edition, memory), (Core::new(), 1, [0x1003, 0xFFFF, 0]));

    let (mut core, mut edition, mut memory) = (BUSY, 7, [0xBEEF; 1]);
    assert_eq!(core.load_words(&mut edition, &EXAMPLE, &mut memory), Err(Refusal(3)));
    assert_eq!((core, edition, memory), (Core::new(), 1, [0xBEEF]));
    assert_eq!(core.load_words(&mut edition, &EXAMPLE, &mut []), Err(Refusal(1)));
}

#[test]
fn a_sheet_sets_words_and_registers() {
    let (mut core, mut edition, mut memory) = (BUSY, 7, [0xBEEF; 4]);
    assert_eq!(core.load_sheet(&mut edition, &EXAMPLE_SHEET, &mut memory), Ok(()));
    assert_eq!((core, edition, memory), (Core::new(), 1, [0x1003, 0xFFFF, 0, 0]));

    let sheet = [0x1000_0002, 0x2000_0007, 0x3008_0002, 0x300B_0003, 0x3008_0001, 0xF000_0005];
    assert_eq!(core.load_sheet(&mut edition, &sheet, &mut memory), Ok(()));
    assert_eq!((core, memory), (Core { ip: 1, ef: 3, ..Core::new() }, [0, 0, 7, 0]));
}

#[test]
fn a_wrong_sheet_is_refused_and_writes_nothing() {
    let cases: [(&[u32], u8); 11] = [
        (&[0x0000_0000, 0xF000_0001], 20),
        (&[0x4000_0000, 0xF000_0001], 20),
        (&[0x2001_0000, 0xF000_0001], 21),
        (&[0x3010_0000, 0xF000_0001], 21),
        (&[0x300C_0000, 0xF000_0001], 22),
        (&[0x1000_0004, 0x2000_0001, 0xF000_0002], 23),
        (&[0x2000_1003], 24),
        (&[], 24),
        (&[0xF000_0000, 0x0000_0000], 25),
        (&[0x2000_1003, 0xF000_0002], 26),
        (&[0x2000_1003, 0xF000_0000, 0x0000_0000], 26),
    ];
    for (sheet, number) in cases {
        let (mut core, mut edition, mut memory) = (BUSY, 7, [0xBEEF; 4]);
        assert_eq!(core.load_sheet(&mut edition, sheet, &mut memory), Err(Refusal(number)), "{sheet:08x?}");
        assert_eq!((core, edition, memory), (Core::new(), 1, [0xBEEF; 4]));
    }
    let (mut core, mut edition) = (BUSY, 7);
    assert_eq!(core.load_sheet(&mut edition, &EXAMPLE_SHEET, &mut []), Err(Refusal(1)));
}

#[test]
fn a_written_sheet_restores_core_and_memory() {
    let memory = [0, 7, 8, 0, 0, 9];
    let mut sheet = [0xDEAD_BEEF; 20];
    let count = BUSY.write_sheet(1, &memory, &mut sheet).unwrap();
    assert_eq!(count, 18);
    assert_eq!(sheet[0], 0x3000_0001);
    assert_eq!(sheet[12..18], [0x1000_0001, 0x2000_0007, 0x2000_0008, 0x1000_0005, 0x2000_0009, 0xF000_0011]);
    assert_eq!(sheet[18..], [0xDEAD_BEEF; 2]);

    let (mut core, mut edition, mut restored) = (Core::new(), 7, [0xBEEF; 6]);
    assert_eq!(core.load_sheet(&mut edition, &sheet[..count], &mut restored), Ok(()));
    assert_eq!((core, edition, restored), (BUSY, 1, memory));
}

#[test]
fn a_short_buffer_stays_as_it_was() {
    let mut sheet = [0xDEAD_BEEF; 17];
    assert_eq!(BUSY.write_sheet(1, &[0, 7, 8, 0, 0, 9], &mut sheet), Err(Refusal(4)));
    assert_eq!(sheet, [0xDEAD_BEEF; 17]);
    assert_eq!(BUSY.write_sheet(1, &[], &mut sheet), Err(Refusal(1)));
}
