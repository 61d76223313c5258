//! The editions of the instruction set: what edition 2 does where edition 1 stops, what is handed
//! over, and what sheets choose (docs/MACHINE.md, Editions; docs/SHEETS.md, The two editions).

use nilguseg::{Core, Fault, LoggedRun, Outcome, Refusal, Run, PAGES};

const ALL: [u8; PAGES] = [7; PAGES];
/// In the buffers where nothing is written; no log word and no record is this.
const UNUSED: u32 = 0xDEAD_BEEF;
/// Numbers that are no edition; the low byte of three of them is that of one.
const WRONG: [u16; 8] = [0, 3, 255, 256, 257, 258, 0x8001, 0xFFFF];

fn core(r0: u16, r1: u16, ef: u16) -> Core {
    Core { r: [r0, r1, 0, 0, 0, 0, 0, 0], ef, ..Core::new() }
}

/// A step of the word alone in memory. A run of one step must come to the same, guarded, logged or
/// both, and so must its replays.
fn step(start: Core, word: u16, edition: u16) -> (Outcome, Core) {
    let mut stepped = start;
    let outcome = stepped.step(&mut [word], &mut [0], edition);
    let (end, steps) = match outcome {
        Outcome::Stepped => (Outcome::Limit, 1),
        stop => (stop, 0),
    };
    let run = Run { end, steps };

    let [mut plain, mut guarded, mut logged, mut both, mut seen, mut seen_guarded] = [start; 6];
    let mut logs = [[UNUSED; 4]; 2];
    assert_eq!(plain.run(&mut [word], &mut [0], edition, 1), run);
    assert_eq!(guarded.run_guarded(&mut [word], &mut [0], &ALL, edition, 1), run);
    let with_log = LoggedRun { end, steps, logged: 2 };
    assert_eq!(logged.run_logged(&mut [word], &mut [0], edition, 1, &mut logs[0]), with_log);
    assert_eq!(both.run_logged_guarded(&mut [word], &mut [0], &ALL, edition, 1, &mut logs[1]), with_log);
    assert_eq!(seen.replay(1, edition, 1, &logs[0][..2]), run);
    assert_eq!(seen_guarded.replay_guarded(1, &ALL, edition, 1, &logs[1][..2]), run);
    assert_eq!([plain, guarded, logged, both, seen, seen_guarded], [stepped; 6]);
    (outcome, stepped)
}

/// That edition 1 stops by `number` with `value`, and that edition 2 leaves r0 at `result`.
fn assert_differ(start: Core, word: u16, number: u8, value: u16, result: u16) {
    let after = Core { ip: 1, ..start };
    assert_eq!(step(start, word, 1), (Outcome::Fault(Fault { number, value }), after), "{word:04x} of {start:?}");
    let mut second = after;
    second.r[0] = result;
    assert_eq!(step(start, word, 2), (Outcome::Stepped, second), "{word:04x} of {start:?}");
}

const SHL: u16 = 0x4410;
const SHR: u16 = 0x4510;
const BITSET: u16 = 0x4710;
const NEG: u16 = 0x4800;

#[test]
fn a_shift_by_16_or_more_gives_0_in_edition_2() {
    for amount in [16, 17, 31, 32, 48, 255, 256, 0x7FFF, 0x8000, 0xFFF0, 0xFFFF] {
        for word in [SHL, SHR] {
            for register in [0, 1, 0x8000, 0xFFFF] {
                assert_differ(core(register, amount, 0), word, 13, amount, 0);
            }
        }
    }
}

#[test]
fn an_index_of_16_or_more_leaves_its_register_in_edition_2() {
    for index in [16, 17, 31, 32, 255, 256, 0x8000, 0xFFFF] {
        for (register, ef) in [0, 0xFFFF, 0x1234].into_iter().flat_map(|register| [(register, 0), (register, 2)]) {
            assert_differ(core(register, index, ef), BITSET, 13, index, register);
        }
    }
}

#[test]
fn neg_of_0x8000_gives_0x8000_in_edition_2() {
    assert_differ(core(0x8000, 0, 2), NEG, 14, 0x8000, 0x8000);
}

#[test]
fn all_else_is_common() {
    let shifts = (0..16).flat_map(|amount| [SHL, SHR, BITSET].map(|word| (core(0x8421, amount, 2), word)));
    let negations = [0, 1, 0x7FFF, 0x8001, 0xFFFF].map(|register| (core(register, 0, 0), NEG));
    for (start, word) in shifts.chain(negations) {
        let first = step(start, word, 1);
        assert_eq!((first.0, first), (Outcome::Stepped, step(start, word, 2)), "{word:04x} of {start:?}");
    }
    // undecodable, out of range, dmov, dread, dwrite
    for (word, number, value) in
        [(0x4600, 10, 0x4600), (0x2000, 11, 9), (0x2108, 12, 0x2108), (0x2008, 12, 0x2008), (0x2088, 12, 0x2088)]
    {
        let stop = (Outcome::Fault(Fault { number, value }), Core { ip: 1, ..core(9, 16, 0) });
        assert_eq!([1, 2].map(|edition| step(core(9, 16, 0), word, edition)), [stop; 2]);
    }
}

#[test]
fn a_replay_takes_the_edition_of_its_run() {
    let (start, words) = (core(1, 16, 0), [SHL, 0xFFFF]);
    let mut log = [UNUSED; 8];
    let replay = |edition: u16, log: &[u32]| {
        let mut core = start;
        (core.replay(2, edition, 9, log).end, core)
    };
    let log_of = |edition: u16, log: &mut [u32]| {
        let mut core = start;
        let run = core.run_logged(&mut words.clone(), &mut [0; 2], edition, 9, log);
        (run.end, run.logged, core)
    };
    let stopped = (Outcome::Fault(Fault { number: 13, value: 16 }), Core { ip: 1, ..start });
    let halted = (Outcome::Halted, Core { ip: 2, ..core(0, 16, 1) });
    let mismatch = (Outcome::Log(31), start);

    assert_eq!(log_of(1, &mut log), (stopped.0, 2, stopped.1));
    assert_eq!([1, 2].map(|edition| replay(edition, &log[..2])), [stopped, mismatch]);
    assert_eq!(log_of(2, &mut log), (halted.0, 4, halted.1));
    assert_eq!([1, 2].map(|edition| replay(edition, &log[..4])), [mismatch, halted]);
}

/// Every call that is handed an edition, with so much lent. Each must be refused with `number` and
/// change nothing; a replay has no marks, and steps and plain runs have no rights to be refused.
fn assert_refused(edition: u16, memory_len: usize, marks_len: usize, rights: &[u8], number: u8) {
    for (start, limit) in [(Core::new(), 9), (Core::new(), 0), (Core { ef: 1, ..Core::new() }, 9)] {
        let refused = Outcome::Refused(Refusal(number));
        let (mut core, mut memory, mut marks) = (start, vec![0x1003; memory_len], vec![0xA4; marks_len]);
        let mut log = [UNUSED; 8];
        let run = Run { end: refused, steps: 0 };
        let with_log = LoggedRun { end: refused, steps: 0, logged: 0 };
        assert_eq!(core.run_guarded(&mut memory, &mut marks, rights, edition, limit), run);
        assert_eq!(core.run_logged_guarded(&mut memory, &mut marks, rights, edition, limit, &mut log), with_log);
        if number != 2 {
            assert_eq!(core.replay_guarded(memory_len, rights, edition, limit, &log), run);
        }
        if number != 32 {
            assert_eq!(core.step(&mut memory, &mut marks, edition), refused);
            assert_eq!(core.run(&mut memory, &mut marks, edition, limit), run);
            assert_eq!(core.run_logged(&mut memory, &mut marks, edition, limit, &mut log), with_log);
        }
        if number != 2 && number != 32 {
            assert_eq!(core.replay(memory_len, edition, limit, &log), run);
        }
        assert_eq!((core, log), (start, [UNUSED; 8]));
        assert!(memory.iter().all(|&word| word == 0x1003) && marks.iter().all(|&mark| mark == 0xA4));
    }
}

#[test]
fn a_wrong_edition_is_refused_after_wrong_lengths_and_rights() {
    for edition in WRONG {
        assert_refused(edition, 2, 2, &ALL, 34);
        assert_refused(edition, 65536, 65536, &ALL, 34);
        assert_refused(edition, 0, 0, &ALL, 1);
        assert_refused(edition, 0, 2, &ALL[1..], 1);
        assert_refused(edition, 65537, 65537, &ALL, 1);
        assert_refused(edition, 2, 3, &ALL, 2);
        assert_refused(edition, 2, 0, &[8; PAGES], 2);
        assert_refused(edition, 2, 2, &ALL[1..], 32);
        assert_refused(edition, 2, 2, &[8; PAGES], 32);
    }
}

#[test]
fn the_writer_tests_the_edition_before_its_buffer() {
    for (edition, room) in WRONG.into_iter().flat_map(|edition| [0, 13, 14, 15, 40].map(|room| (edition, room))) {
        let mut sheet = vec![UNUSED; room];
        assert_eq!(core(7, 8, 0).write_sheet(edition, &[0; 3], &mut sheet), Err(Refusal(34)));
        assert_eq!(core(7, 8, 0).write_sheet(edition, &[], &mut sheet), Err(Refusal(1)));
        assert_eq!(core(7, 8, 0).write_sheet(edition, &[0; 65537], &mut sheet), Err(Refusal(1)));
        assert_eq!(sheet, vec![UNUSED; room]);
    }
}

#[test]
fn a_written_sheet_restores_the_edition() {
    let start = Core { r: [1, 2, 3, 4, 5, 6, 7, 8], ip: 0, rp: 9, sp: 10, ef: 0xFFF0 };
    let memory = [0, 7, 0];
    let mut sheets = [[UNUSED; 18]; 2];
    assert_eq!(start.write_sheet(1, &memory, &mut sheets[0]), Ok(15));
    assert_eq!(start.write_sheet(2, &memory, &mut sheets[1]), Ok(16));
    assert_eq!((sheets[0][0], sheets[1][0]), (0x3000_0001, 0x7000_0002));
    assert_eq!(sheets[0][..14], sheets[1][1..15], "the edition comes before what edition 1 has");
    assert_eq!((sheets[0][14], sheets[1][15]), (0xF000_000E, 0xF000_000F), "and the end counts it");
    assert_eq!((&sheets[0][15..], &sheets[1][16..]), (&[UNUSED; 3][..], &[UNUSED; 2][..]));
    assert_eq!(start.write_sheet(2, &memory, &mut [UNUSED; 15]), Err(Refusal(4)));

    for (edition, count) in [(1, 15), (2, 16)] {
        let (mut core, mut loaded, mut restored) = (Core::new(), 7, [0xBEEF; 3]);
        assert_eq!(core.load_sheet(&mut loaded, &sheets[edition - 1][..count], &mut restored), Ok(()));
        assert_eq!((core, loaded, restored), (start, edition as u16, memory));
    }
}

/// The sheet of these records: they, and the end that counts them.
fn ended(records: &[u32]) -> Vec<u32> {
    [records, &[0xF000_0000 | records.len() as u32]].concat()
}

/// What a load over a core, an edition and a memory with other values answers and leaves.
fn load(sheet: &[u32]) -> (Result<(), Refusal>, u16, Core, [u16; 2]) {
    let (mut core, mut edition, mut memory) = (core(9, 9, 2), 7, [0xBEEF; 2]);
    let answer = core.load_sheet(&mut edition, sheet, &mut memory);
    (answer, edition, core, memory)
}

#[test]
fn a_sheet_chooses_its_edition() {
    const FIRST: u32 = 0x7000_0001;
    const SECOND: u32 = 0x7000_0002;
    const WORD: u32 = 0x2000_FFFF;
    let cases: [(&[u32], u16); 8] = [
        (&[WORD], 1),
        (&[FIRST, WORD], 1),
        (&[SECOND, WORD], 2),
        (&[WORD, SECOND], 2),
        (&[FIRST, WORD, SECOND], 2),
        (&[SECOND, WORD, FIRST], 1),
        (&[SECOND, FIRST, SECOND, WORD], 2),
        (&[SECOND, SECOND, FIRST, WORD], 1),
    ];
    for (records, edition) in cases {
        assert_eq!(load(&ended(records)), (Ok(()), edition, Core::new(), [0xFFFF, 0]), "{records:08x?}");
    }
}

#[test]
fn a_refused_sheet_has_edition_1() {
    let cases: [(&[u32], u8); 13] = [
        (&[0x7000_0000, 0xF000_0001], 34),
        (&[0x7000_0003, 0xF000_0001], 34),
        (&[0x7000_0101, 0xF000_0001], 34),
        (&[0x7000_FFFF, 0xF000_0001], 34),
        (&[0x7001_0002, 0xF000_0001], 21),
        (&[0x7800_0002, 0xF000_0001], 21),
        (&[0x7001_0000, 0xF000_0001], 21),
        (&[0x7000_0002, 0x300C_0000, 0x7000_0003, 0xF000_0003], 22),
        (&[0x7000_0002, 0x7000_0003, 0x300C_0000, 0xF000_0003], 34),
        (&[0x7000_0002, 0x2000_0007, 0x2000_0008, 0x2000_0009, 0x7000_0003], 23),
        (&[0x7000_0002, 0xF000_0000], 26),
        (&[0x7000_0002, 0xF000_0001, 0x7000_0001], 25),
        (&[0x7000_0002], 24),
    ];
    for (sheet, number) in cases {
        assert_eq!(load(sheet), (Err(Refusal(number)), 1, Core::new(), [0xBEEF; 2]), "{sheet:08x?}");
    }
}

#[test]
fn a_loaded_edition_is_the_one_to_run() {
    // putl r1 16, shl r0 r1, hlt, with 1 in r0
    let rule = [0x3000_0001, 0x2000_1110, 0x2000_4410, 0x2000_FFFF];
    let run = |records: &[u32]| {
        let (mut core, mut edition, mut memory) = (Core::new(), 0, [0; 3]);
        assert_eq!(core.load_sheet(&mut edition, &ended(records), &mut memory), Ok(()));
        (core.run(&mut memory, &mut [0; 3], edition, 9), core.r[0])
    };
    let stopped = Run { end: Outcome::Fault(Fault { number: 13, value: 16 }), steps: 1 };
    assert_eq!(run(&rule), (stopped, 1));
    assert_eq!(run(&[&[0x7000_0002], &rule[..]].concat()), (Run { end: Outcome::Halted, steps: 3 }, 0));
}

#[test]
fn a_word_list_has_edition_1() {
    let (mut core, mut memory) = (Core::new(), [0; 2]);
    for (words, answer) in [(&[7, 8][..], Ok(())), (&[7, 8, 9], Err(Refusal(3)))] {
        let mut edition = 2;
        assert_eq!((core.load_words(&mut edition, words, &mut memory), edition), (answer, 1));
    }
    let mut edition = 2;
    assert_eq!((core.load_words(&mut edition, &[], &mut []), edition), (Err(Refusal(1)), 1));
}
