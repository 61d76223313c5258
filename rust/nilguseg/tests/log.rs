//! The log of a run, the end by 30 where its room is too small, and the run seen again from it
//! (docs/MACHINE.md, Logs and replays).

use nilguseg::{Core, Fault, LoggedRun, Outcome, Refusal, Run};

/// Loads by read, spread and pop, and stores by write and push; halts after 8 steps.
const PROGRAM: [u16; 10] = [
    0x1008, // putl r0 8
    0x2001, // read r1 from the address in r0
    0x4811, // inc r1
    0x2081, // write r1 at the address in r0
    0x23D1, // push r1
    0x3020, // spread r2 0
    0x23DB, // pop r3
    0xFFFF, // hlt
    7,      // read and written
    0,      // the stack
];
const START: Core = Core { sp: 10, ..Core::new() };
/// What each of its steps logs.
const STEPS: [&[u32]; 8] = [
    &[0x4001_0000, 0x5000_1008],
    &[0x4001_0001, 0x5000_2001, 0x4000_0008, 0x5000_0007],
    &[0x4001_0002, 0x5000_4811],
    &[0x4001_0003, 0x5000_2081],
    &[0x4001_0004, 0x5000_23D1],
    &[0x4001_0005, 0x5000_3020, 0x4000_0009, 0x5000_0008],
    &[0x4001_0006, 0x5000_23DB, 0x4000_0009, 0x5000_0008],
    &[0x4001_0007, 0x5000_FFFF],
];
const END: Core = Core { r: [8, 8, 8, 8, 0, 0, 0, 0], ip: 8, ef: 1, ..START };

/// In the buffers where nothing is written; no log word is this.
const UNUSED: u32 = 0xDEAD_BEEF;

const HALTED: Run = Run { end: Outcome::Halted, steps: 8 };
const FULL: Outcome = Outcome::Log(30);
const MISMATCH: Run = Run { end: Outcome::Log(31), steps: 0 };

/// What the program's first steps log.
fn log_of(steps: usize) -> Vec<u32> {
    STEPS[..steps].concat()
}

fn fault(number: u8, value: u16) -> Outcome {
    Outcome::Fault(Fault { number, value })
}

/// A logged run with a buffer of `room` words: how it came out, the core, and the log. It must
/// leave the rest of the buffer unchanged, and be the run without a log; where it ends by 30, the
/// one whose limit is its steps.
fn run_logged(start: Core, memory: &[u16], limit: u32, room: usize) -> (Run, Core, Vec<u32>) {
    let (mut core, mut words, mut marks) = (start, memory.to_vec(), vec![0xA4; memory.len()]);
    let mut log = vec![UNUSED; room];
    let LoggedRun { end, steps, logged } = core.run_logged(&mut words, &mut marks, 1, limit, &mut log);
    assert!(log.drain(logged..).all(|word| word == UNUSED));

    let (mut plain, mut plain_words, mut plain_marks) = (start, memory.to_vec(), vec![0xFF; memory.len()]);
    let (plain_limit, plain_end) = if end == FULL { (steps, Outcome::Limit) } else { (limit, end) };
    let run = plain.run(&mut plain_words, &mut plain_marks, 1, plain_limit);
    assert_eq!(run, Run { end: plain_end, steps });
    assert_eq!((core, words, marks), (plain, plain_words, plain_marks));
    (Run { end, steps }, core, log)
}

fn replay(mut core: Core, size: usize, limit: u32, log: &[u32]) -> (Run, Core) {
    let run = core.replay(size, 1, limit, log);
    (run, core)
}

/// That the log is not the replay's: 31, no step, and the core as it was.
fn assert_mismatch(core: Core, size: usize, limit: u32, log: &[u32]) {
    assert_eq!(replay(core, size, limit, log), (MISMATCH, core), "{log:08x?}");
}

#[test]
fn each_read_is_two_words_in_order() {
    assert_eq!(run_logged(START, &PROGRAM, 100, 40), (HALTED, END, log_of(8)));
}

#[test]
fn the_highest_address_and_words_are_logged_whole() {
    let mut memory = vec![0xFFFF; 65536];
    memory[0xFFFF] = 0x2000; // read r0 from the address in r0
    let core = Core { r: [0xFFFE; 8], ip: 0xFFFF, ..Core::new() };
    let (run, _, log) = run_logged(core, &memory, 9, 40);
    assert_eq!(run, Run { end: Outcome::Halted, steps: 2 });
    assert_eq!(log, [0x4001_FFFF, 0x5000_2000, 0x4000_FFFE, 0x5000_FFFF, 0x4001_0000, 0x5000_FFFF]);
}

#[test]
fn a_word_that_the_run_wrote_is_logged_as_it_is_read() {
    let memory = [0x2081, 0, 0xFFFF]; // write r1 at the address in r0, which is 1
    let core = Core { r: [1, 0x1003, 0, 0, 0, 0, 0, 0], ..Core::new() };
    let (run, after, log) = run_logged(core, &memory, 9, 40);
    assert_eq!((run, after.r[0]), (Run { end: Outcome::Halted, steps: 3 }, 3));
    assert_eq!(log, [0x4001_0000, 0x5000_2081, 0x4001_0001, 0x5000_1003, 0x4001_0002, 0x5000_FFFF]);
    assert_eq!(replay(core, 3, 9, &log), (run, after));
}

#[test]
fn a_fault_leaves_its_fetch_but_no_access_in_the_log() {
    let cases = [
        (0x4600, fault(10, 0x4600)), // undecodable
        (0x2007, fault(11, 9)),      // read r7 from the address in r0
        (0x3070, fault(11, 1)),      // spread r7 0
        (0x23DF, fault(11, 1)),      // pop r7
        (0x2080, fault(11, 9)),      // write r0 at the address in r0
        (0x3081, fault(11, 2)),      // spwrite 1 r0
        (0x2108, fault(12, 0x2108)), // dmov
        (0x2008, fault(12, 0x2008)), // dread
        (0x4421, fault(13, 16)),     // shl r1 by r2
        (0x4803, fault(14, 0x8000)), // neg r3
    ];
    let core = Core { r: [9, 1, 16, 0x8000, 0, 0, 0, 0], sp: 1, ..Core::new() };
    for (word, end) in cases {
        let (run, after, log) = run_logged(core, &[word], 9, 4);
        assert_eq!((run, log.as_slice()), (Run { end, steps: 0 }, &[0x4001_0000, 0x5000_0000 | word as u32][..]));
        assert_eq!(replay(core, 1, 9, &log), (run, after));
    }
}

#[test]
fn a_fetch_out_of_range_is_not_logged() {
    let core = Core { ip: 10, ..START };
    let run = Run { end: fault(11, 10), steps: 0 };
    assert_eq!(run_logged(core, &PROGRAM, 9, 4), (run, core, vec![]));
    assert_eq!(replay(core, 10, 9, &[]), (run, core));

    let run = Run { end: fault(11, 1), steps: 1 };
    let (logged, after, log) = run_logged(Core::new(), &[0x1003], 9, 6);
    assert_eq!((logged, log.as_slice()), (run, &[0x4001_0000, 0x5000_1003][..]));
    assert_eq!(replay(Core::new(), 1, 9, &log), (run, after));
}

#[test]
fn a_step_needs_four_free_words() {
    let ends = [(FULL, 0), (FULL, 0), (FULL, 0), (FULL, 0), (FULL, 1), (FULL, 1)];
    let enough = [(Outcome::Halted, 2); 3];
    for (room, (end, steps)) in ends.into_iter().chain(enough).enumerate() {
        let (run, _, log) = run_logged(Core::new(), &[0x1003, 0xFFFF], 9, room);
        assert_eq!((run, log.len()), (Run { end, steps }, 2 * steps as usize), "room {room}");
    }
}

#[test]
fn a_run_ends_by_30_before_the_step_that_finds_no_room() {
    for room in 0..40 {
        let steps = (0..8).filter(|steps| log_of(*steps).len() + 4 <= room).count();
        let end = if steps == 8 { Outcome::Halted } else { FULL };
        let (run, _, log) = run_logged(START, &PROGRAM, 100, room);
        assert_eq!((run, log), (Run { end, steps: steps as u32 }, log_of(steps)), "room {room}");
    }
    // it logs 22 words, but its last step, after 20, waits for four free ones
    assert_eq!([22, 23, 24].map(|room| run_logged(START, &PROGRAM, 100, room).0.end), [FULL, FULL, Outcome::Halted]);
}

#[test]
fn four_words_for_each_step_suffice() {
    let memory = vec![0x2001; 65536]; // read r1 from the address in r0
    for (room, end, steps) in [(399, FULL, 99), (400, Outcome::Limit, 100), (401, Outcome::Limit, 100)] {
        let (run, _, log) = run_logged(Core::new(), &memory, 100, room);
        assert_eq!((run, log.len()), (Run { end, steps }, 4 * steps as usize));
    }
}

#[test]
fn halt_and_the_limit_are_tested_before_the_room() {
    let halted = Core { ef: 1, ..START };
    let halts = [0, 9].map(|limit| (halted, limit, Outcome::Halted));
    for (core, limit, end) in halts.into_iter().chain([(START, 0, Outcome::Limit), (START, 1, FULL)]) {
        assert_eq!(run_logged(core, &PROGRAM, limit, 0), (Run { end, steps: 0 }, core, vec![]));
    }
    // and where the steps before leave too little
    assert_eq!(run_logged(START, &PROGRAM, 1, 4).0, Run { end: Outcome::Limit, steps: 1 });
    assert_eq!(run_logged(START, &PROGRAM, 2, 6).0, Run { end: Outcome::Limit, steps: 2 });
    assert_eq!(run_logged(Core::new(), &[0xFFFF], 9, 4).0, Run { end: Outcome::Halted, steps: 1 });
}

#[test]
fn a_refused_run_changes_nothing_and_logs_nothing() {
    let lengths = [(0, 0, 1), (0, 3, 1), (65537, 65537, 1), (65537, 2, 1), (2, 1, 2), (2, 3, 2), (65536, 0, 2)];
    for (memory_len, marks_len, number) in lengths {
        for room in [0, 8] {
            let (mut core, mut memory, mut marks) = (START, vec![0x1003; memory_len], vec![0xA4; marks_len]);
            let mut log = vec![UNUSED; room];
            let run = core.run_logged(&mut memory, &mut marks, 1, 5, &mut log);
            assert_eq!(run, LoggedRun { end: Outcome::Refused(Refusal(number)), steps: 0, logged: 0 });
            assert_eq!((core, log), (START, vec![UNUSED; room]));
            assert!(memory.iter().all(|&word| word == 0x1003) && marks.iter().all(|&mark| mark == 0xA4));
        }
    }
}

#[test]
fn a_replay_gives_end_steps_and_core_without_the_memory() {
    let (mut core, mut memory, mut marks, mut log) = (START, PROGRAM, [0; 10], [UNUSED; 40]);
    let run = core.run_logged(&mut memory, &mut marks, 1, 100, &mut log);
    memory.fill(0xBEEF);
    assert_eq!(replay(START, 10, 100, &log[..run.logged]), (HALTED, core));
    assert_eq!(memory, [0xBEEF; 10]);
}

#[test]
fn a_run_of_every_limit_is_seen_again() {
    for limit in 0..10 {
        let (run, core, log) = run_logged(START, &PROGRAM, limit, 4 * limit as usize);
        assert_eq!(run.steps, limit.min(8));
        assert_eq!(replay(START, 10, limit, &log), (run, core));
    }
    let halted = Core { ef: 1, ..START };
    assert_eq!(replay(halted, 10, 9, &[]), (Run { end: Outcome::Halted, steps: 0 }, halted));
}

#[test]
fn a_log_longer_than_any_memory_is_seen_again() {
    let memory = [0x4810, 0x60FE]; // inc r0, and back to it
    let (run, core, log) = run_logged(Core::new(), &memory, 200_001, 800_004);
    assert_eq!((run, core.r[0]), (Run { end: Outcome::Limit, steps: 200_001 }, 34_465));
    assert_eq!(log.len(), 400_002);
    assert_eq!(replay(Core::new(), 2, 200_001, &log), (run, core));
    assert_mismatch(Core::new(), 2, 200_001, &log[..400_000]);
    assert_mismatch(Core::new(), 2, u32::MAX, &log);
}

#[test]
fn a_bit_of_the_log_changed_is_31_but_in_a_word_that_was_read() {
    for at in 0..22 {
        let lowest = if at % 2 == 1 { 16 } else { 0 };
        for bit in lowest..32 {
            let mut log = log_of(8);
            log[at] ^= 1 << bit;
            assert_mismatch(START, 10, 100, &log);
        }
    }
}

#[test]
fn a_word_is_taken_as_logged() {
    let changed = |at: usize, word: u32| {
        let mut log = log_of(8);
        log[at] = 0x5000_0000 | word;
        replay(START, 10, 100, &log)
    };
    // what is stored is not read again: 0x1235 is pushed, and 8 popped as logged
    assert_eq!(changed(5, 0x1234), (HALTED, Core { r: [8, 0x1235, 8, 8, 0, 0, 0, 0], ..END }));
    assert_eq!(changed(15, 0xFFFF), (HALTED, Core { r: [8, 8, 0xFFFF, 8, 0, 0, 0, 0], ..END }));
    // dec r1 instead of inc r1
    assert_eq!(changed(7, 0x4821), (HALTED, Core { r: [8, 6, 8, 8, 0, 0, 0, 0], ..END }));
    // nop instead of read; read, and hlt, instead of write
    assert_eq!([(3, 0x0000), (9, 0x2001), (9, 0xFFFF)].map(|(at, word)| changed(at, word)), [(MISMATCH, START); 3]);
    // an undecodable word instead of hlt
    let after = Core { ip: 8, ef: 0, ..END };
    assert_eq!(changed(21, 0x4600), (Run { end: fault(10, 0x4600), steps: 7 }, after));
}

#[test]
fn a_word_left_out_doubled_or_added_is_31() {
    let log = log_of(8);
    for at in 0..22 {
        assert_mismatch(START, 10, 100, &log[..at]);
        // one word, and a whole read
        for next in [at + 1, (at + 2).min(22)] {
            assert_mismatch(START, 10, 100, &[&log[..at], &log[next..]].concat());
            assert_mismatch(START, 10, 100, &[&log[..next], &log[at..]].concat());
        }
    }
    for added in [0, UNUSED, log[0], log[20], log[21]] {
        assert_mismatch(START, 10, 100, &[&log[..], &[added]].concat());
        assert_mismatch(START, 10, 100, &[&[added], &log[..]].concat());
    }
    assert_mismatch(START, 10, 0, &log[..2]);
    assert_mismatch(Core { ef: 1, ..START }, 10, 9, &log[..2]);
}

#[test]
fn another_limit_is_31_where_it_changes_the_reads() {
    for limit in 0..8 {
        assert_mismatch(START, 10, limit, &log_of(8));
        assert_mismatch(START, 10, limit + 1, &log_of(limit as usize));
    }
    for limit in [8, 9, u32::MAX] {
        assert_eq!(replay(START, 10, limit, &log_of(8)), (HALTED, END));
    }
}

#[test]
fn another_size_is_31_where_it_changes_the_reads() {
    for size in 1..10 {
        assert_mismatch(START, size, 100, &log_of(8));
    }
    for size in [10, 11, 65536] {
        assert_eq!(replay(START, size, 100, &log_of(8)), (HALTED, END));
    }
    // in memory of 9 words the push stops; in a larger one the run goes on
    let (run, core, log) = run_logged(START, &PROGRAM[..9], 100, 40);
    assert_eq!(run, Run { end: fault(11, 9), steps: 4 });
    assert_eq!(replay(START, 9, 100, &log), (run, core));
    assert_mismatch(START, 10, 100, &log);
}

#[test]
fn another_core_is_31_where_it_changes_the_reads() {
    for core in [
        Core { ip: 1, ..START },
        Core { sp: 9, ..START },
        Core { ef: 1, ..START },
        Core { r: [0x0100, 0, 0, 0, 0, 0, 0, 0], ..START },
    ] {
        assert_mismatch(core, 10, 100, &log_of(8));
    }
    let core = Core { r: [0, 0, 0, 0, 5, 0, 0, 0], rp: 6, ef: 2, ..START };
    let after = Core { r: [8, 8, 8, 8, 5, 0, 0, 0], rp: 6, ef: 3, ..END };
    assert_eq!(replay(core, 10, 100, &log_of(8)), (HALTED, after));
}

#[test]
fn a_size_that_no_memory_has_is_refused_first() {
    let refused = Run { end: Outcome::Refused(Refusal(1)), steps: 0 };
    for size in [0, 65537, usize::MAX] {
        for log in [log_of(8), vec![], vec![UNUSED]] {
            assert_eq!(replay(START, size, 100, &log), (refused, START));
            assert_eq!(replay(Core { ef: 1, ..START }, size, 0, &log).0, refused);
        }
    }
}

/// The words of a text's lines: eight hexadecimal digits each, before a comment; other lines have
/// none.
fn words_in(text: &str) -> Vec<u32> {
    let fields = text.lines().filter_map(|line| line.split('#').next()).flat_map(str::split_whitespace);
    fields.filter(|field| field.len() == 8).map_while(|field| u32::from_str_radix(field, 16).ok()).collect()
}

/// The core of a sample, of edition 1, as berth has it, the log of its run, and the core that it
/// leaves.
fn sample(sheet: &str) -> (Core, Vec<u32>, Core) {
    let (mut start, mut memory, mut marks, mut log) = (Core::new(), vec![0; 32768], vec![0; 32768], vec![UNUSED; 64]);
    let mut edition = 0;
    assert_eq!((start.load_sheet(&mut edition, &words_in(sheet), &mut memory), edition), (Ok(()), 1));
    let mut core = start;
    let run = core.run_logged(&mut memory, &mut marks, edition, 1_000_000, &mut log);
    assert_eq!(run.end, Outcome::Halted);
    log.truncate(run.logged);
    (start, log, core)
}

/// docs/LOGS.md shows the logs of two samples, and says what their replays leave.
#[test]
fn the_logs_that_the_page_shows() {
    let page = include_str!("../../../docs/LOGS.md");
    let (before_tie, tie) = page.split_once("## The tie").unwrap();
    let shown =
        |text: &str| words_in(&text.lines().filter(|line| line.starts_with("    4")).collect::<Vec<_>>().join("\n"));

    let (start, mut log, end) = sample(include_str!("../../../samples/leftover.sheet"));
    assert_eq!((shown(before_tie), end.r[1]), (log.clone(), 4));
    log[7] = 0x5000_0007;
    let mut seen = start;
    assert_eq!((seen.replay(32768, 1, 1_000_000, &log).end, seen.r[1]), (Outcome::Halted, 8));

    let (start, log, end) = sample(include_str!("../../../samples/tie.sheet"));
    assert_eq!((shown(tie), end.r[4]), (log.clone(), 1));
    let mut seen = start;
    assert_eq!(seen.replay(32768, 1, 1_000_000, &log), Run { end: Outcome::Halted, steps: 11 });
    assert_eq!(seen, end);
    let mut exchanged = start;
    exchanged.r.swap(2, 3);
    assert_eq!((exchanged.replay(32768, 1, 1_000_000, &log).steps, exchanged.r[4]), (11, 0));
}
