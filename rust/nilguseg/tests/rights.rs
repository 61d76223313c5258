//! Rights over memory pages: what each access needs, what a refused one leaves, and runs with every
//! right (docs/MACHINE.md, Rights).

use nilguseg::right::{EXECUTE, READ, WRITE};
use nilguseg::{Core, Fault, LoggedRun, Outcome, Refusal, Run, PAGES};

/// Every right on every page.
const ALL: [u8; PAGES] = [READ + WRITE + EXECUTE; PAGES];
/// In the buffers where nothing is written; no log word is this.
const UNUSED: u32 = 0xDEAD_BEEF;
/// Enough for every log here.
const ROOM: usize = 40;

/// Rights that are `here` on one page and `elsewhere` on the others.
fn rights(page: usize, here: u8, elsewhere: u8) -> [u8; PAGES] {
    std::array::from_fn(|at| if at == page { here } else { elsewhere })
}

fn fault(number: u8, value: u16) -> Outcome {
    Outcome::Fault(Fault { number, value })
}

/// Memory of `length` words that begins with `words`, zeros after them.
fn memory(length: usize, words: &[u16]) -> Vec<u16> {
    [words, &vec![0; length - words.len()]].concat()
}

/// What a run leaves.
#[derive(Debug, PartialEq)]
struct Left {
    run: Run,
    core: Core,
    memory: Vec<u16>,
    marks: Vec<u8>,
}

impl Left {
    fn marked(&self) -> Vec<(usize, u8)> {
        self.marks.iter().copied().enumerate().filter(|(_, mark)| *mark != 0).collect()
    }
}

/// A run with rights. The same with a log must leave the same, and the replay of its log give the
/// same end, steps and core.
fn run(start: Core, words: &[u16], rights: &[u8], limit: u32) -> Left {
    let lent = || (start, words.to_vec(), vec![0xA4; words.len()]);
    let (mut core, mut memory, mut marks) = lent();
    let run = core.run_guarded(&mut memory, &mut marks, rights, 1, limit);
    let left = Left { run, core, memory, marks };

    let ((mut core, mut memory, mut marks), mut log) = (lent(), [UNUSED; ROOM]);
    let LoggedRun { end, steps, logged } = core.run_logged_guarded(&mut memory, &mut marks, rights, 1, limit, &mut log);
    assert_eq!(Left { run: Run { end, steps }, core, memory, marks }, left);
    assert!(log[logged..].iter().all(|word| *word == UNUSED));

    let mut seen = start;
    assert_eq!(seen.replay_guarded(words.len(), rights, 1, limit, &log[..logged]), left.run);
    assert_eq!(seen, left.core);
    left
}

/// The words of a logged run.
fn log_of(mut core: Core, words: &[u16], rights: &[u8], limit: u32) -> Vec<u32> {
    let (mut memory, mut marks, mut log) = (words.to_vec(), vec![0; words.len()], vec![UNUSED; ROOM]);
    let run = core.run_logged_guarded(&mut memory, &mut marks, rights, 1, limit, &mut log);
    log.truncate(run.logged);
    log
}

/// A word at 0 that makes an access at `at`, with the core that it finds, and the right that it
/// needs.
fn accesses(at: u16) -> [(u16, Core, u8); 6] {
    let core = Core { r: [at, 7, 0, 0, 0, 0, 0, 0], sp: at, ..Core::new() };
    [
        // read r0 from the address in r1
        (0x2010, Core { r: [0, at, 0, 0, 0, 0, 0, 0], ..core }, READ),
        // spread r2 3
        (0x3023, Core { sp: at - 3, ..core }, READ),
        // pop r2
        (0x23DA, core, READ),
        // write r1 at the address in r0
        (0x2081, core, WRITE),
        // spwrite 2 r1
        (0x3092, Core { sp: at - 2, ..core }, WRITE),
        // push r1
        (0x23D1, Core { sp: at + 1, ..core }, WRITE),
    ]
}

#[test]
fn an_access_is_done_where_its_right_is_there() {
    for at in [0x0100, 0x01FF, 0x7F00] {
        for (word, start, need) in accesses(at) {
            let words = memory(0x8000, &[word]);
            let left = run(start, &words, &rights(0, EXECUTE, need), 1);
            assert_eq!(left.run, Run { end: Outcome::Limit, steps: 1 }, "{word:04x} at {at:04x}");
            assert_eq!(left, run(start, &words, &ALL, 1));
            // the marks of a read and of a write are 1 and 2 as well
            assert_eq!(left.marked(), [(0, 1), (at as usize, need)]);
        }
    }
}

#[test]
fn an_access_is_refused_where_its_right_is_absent() {
    for at in [0x0100, 0x01FF, 0x7F00] {
        for (word, start, need) in accesses(at) {
            let words = memory(0x8000, &[word]);
            let left = run(start, &words, &rights(at as usize / 256, 7 - need, 7), 9);
            assert_eq!(left.run, Run { end: fault(33, at), steps: 0 }, "{word:04x} at {at:04x}");
            let sp = if word == 0x23D1 { at } else { start.sp };
            assert_eq!((left.core, &left.memory), (Core { ip: 1, sp, ..start }, &words));
            assert_eq!(left.marked(), [(0, 1)]);
        }
    }
}

#[test]
fn a_fetch_needs_execute_and_nothing_else() {
    let words = memory(0x0200, &[0x1003]);
    for right in 0..8 {
        let left = run(Core::new(), &words, &rights(0, right, 7 - right), 1);
        let (end, ip, marked) = match right & EXECUTE {
            0 => (fault(33, 0), 0, vec![]),
            _ => (Outcome::Limit, 1, vec![(0, 1)]),
        };
        assert_eq!((left.run.end, left.core.ip, left.marked()), (end, ip, marked), "right {right}");
    }
}

#[test]
fn a_run_goes_on_up_to_the_border_of_a_page() {
    let words = memory(0x0300, &[]); // nop
    for page in 1..3 {
        let border = page as u16 * 256;
        let left = run(Core { ip: border - 3, ..Core::new() }, &words, &rights(page, READ + WRITE, EXECUTE), 9);
        assert_eq!(left.run, Run { end: fault(33, border), steps: 3 });
        assert_eq!((left.core.ip, left.marks[border as usize]), (border, 0));
    }
}

#[test]
fn out_of_range_is_tested_first() {
    let none = [0; PAGES];
    for length in [1, 2, 100, 255, 256, 257] {
        let words = memory(length, &[0x2010]);
        let past = length as u16;
        let core = Core { ip: past, ..Core::new() };
        assert_eq!(run(core, &words, &none, 9).run.end, fault(11, past));
        assert_eq!(run(Core { ip: past - 1, ..core }, &words, &none, 9).run.end, fault(33, past - 1));
        for (word, start, _) in accesses(past.max(0x0100)) {
            let left = run(start, &memory(length.min(0x0100), &[word]), &rights(0, EXECUTE, 0), 9);
            assert_eq!(left.run, Run { end: fault(11, past.max(0x0100)), steps: 0 }, "{word:04x}");
        }
    }
}

#[test]
fn the_last_address_has_the_last_right() {
    let words = vec![0x2010; 65536];
    let core = Core { r: [0, 0xFFFF, 0, 0, 0, 0, 0, 0], ..Core::new() };
    assert_eq!(run(core, &words, &rights(255, WRITE + EXECUTE, 7), 9).run.end, fault(33, 0xFFFF));
    assert_eq!(run(core, &words, &rights(255, READ, EXECUTE), 1).core.r[0], 0x2010);
    let core = Core { ip: 0xFFFF, ..core };
    assert_eq!(run(core, &words, &rights(255, READ + WRITE, 7), 9).run.end, fault(33, 0xFFFF));
    assert_eq!(run(core, &words, &rights(255, READ + EXECUTE, 0), 9).run, Run { end: fault(33, 0), steps: 1 });
}

#[test]
fn with_every_right_it_is_the_run_without_rights() {
    // puth r0 1, putl r1 9, write r1 at the address in r0, read r2 from there, push r2, pop r3, hlt
    let words = memory(0x0200, &[0x1801, 0x1109, 0x2081, 0x2002, 0x23D2, 0x23DB, 0xFFFF]);
    let start = Core { sp: 0x0180, ..Core::new() };
    for limit in 0..9 {
        let (mut core, mut memory, mut marks) = (start, words.clone(), vec![0; words.len()]);
        let plain = core.run(&mut memory, &mut marks, 1, limit);
        assert_eq!(run(start, &words, &ALL, limit), Left { run: plain, core, memory, marks });
    }
    assert_eq!(run(start, &words, &ALL, 9).core.r[..4], [0x0100, 9, 9, 9]);
}

#[test]
fn a_refused_access_is_not_logged() {
    let words = memory(0x0200, &[0x2010]);
    let core = Core { r: [0, 0x0100, 0, 0, 0, 0, 0, 0], ..Core::new() };
    let fetch = [0x4001_0000, 0x5000_2010];
    assert_eq!(log_of(core, &words, &rights(1, WRITE, EXECUTE), 9), fetch);
    assert_eq!(log_of(core, &words, &rights(0, READ + WRITE, 7), 9), []);
    assert_eq!(log_of(core, &words, &rights(1, READ, EXECUTE), 1), [&fetch[..], &[0x4000_0100, 0x5000_0000]].concat());
}

#[test]
fn the_room_for_a_log_is_tested_before_the_rights() {
    for (room, end) in [(3, Outcome::Log(30)), (4, fault(33, 0))] {
        let (mut core, mut memory, mut marks, mut log) = (Core::new(), [0; 9], [0; 9], vec![UNUSED; room]);
        let run = core.run_logged_guarded(&mut memory, &mut marks, &[0; PAGES], 1, 9, &mut log);
        assert_eq!(run, LoggedRun { end, steps: 0, logged: 0 });
        assert_eq!((core, marks, log), (Core::new(), [0; 9], vec![UNUSED; room]));
    }
}

#[test]
fn a_replay_takes_the_rights_of_its_run() {
    let words = memory(0x0200, &[0x2010, 0xFFFF]);
    let start = Core { r: [5, 0x0100, 0, 0, 0, 0, 0, 0], ..Core::new() };
    let (kept, open) = (rights(1, 0, EXECUTE), rights(1, READ, EXECUTE));
    let replay = |rights: &[u8], log: &[u32]| {
        let mut core = start;
        (core.replay_guarded(0x0200, rights, 1, 9, log), core)
    };
    let mismatch = (Run { end: Outcome::Log(31), steps: 0 }, start);
    let log = log_of(start, &words, &kept, 9);
    assert_eq!(replay(&kept, &log), (Run { end: fault(33, 0x0100), steps: 0 }, Core { ip: 1, ..start }));
    assert_eq!(replay(&open, &log), mismatch);
    let log = log_of(start, &words, &open, 9);
    assert_eq!(replay(&open, &log).0, Run { end: Outcome::Halted, steps: 2 });
    assert_eq!(replay(&kept, &log), mismatch);
    let mut plain = start;
    assert_eq!(plain.replay(0x0200, 1, 9, &log), replay(&open, &log).0);
}

/// Every call with these rights, which must be refused with `number` and change nothing. The replay
/// has no marks to be refused.
fn assert_refused(memory_len: usize, marks_len: usize, rights: &[u8], number: u8) {
    for (start, limit) in [(Core::new(), 9), (Core::new(), 0), (Core { ef: 1, ..Core::new() }, 9)] {
        let refused = Run { end: Outcome::Refused(Refusal(number)), steps: 0 };
        let (mut core, mut memory, mut marks) = (start, vec![0x1003; memory_len], vec![0xA4; marks_len]);
        let mut log = [UNUSED; 8];
        assert_eq!(core.run_guarded(&mut memory, &mut marks, rights, 1, limit), refused);
        let logged = core.run_logged_guarded(&mut memory, &mut marks, rights, 1, limit, &mut log);
        assert_eq!(logged, LoggedRun { end: refused.end, steps: 0, logged: 0 });
        if number != 2 {
            assert_eq!(core.replay_guarded(memory_len, rights, 1, limit, &log), refused);
        }
        assert_eq!((core, log), (start, [UNUSED; 8]));
        assert!(memory.iter().all(|&word| word == 0x1003) && marks.iter().all(|&mark| mark == 0xA4));
    }
}

#[test]
fn wrong_rights_are_refused_after_wrong_lengths() {
    for length in [0, 1, 255, 257, 512, 65536, 65792] {
        assert_refused(2, 2, &vec![7; length], 32);
    }
    for page in 0..PAGES {
        for byte in [8, 9, 128, 255] {
            assert_refused(2, 2, &rights(page, byte, 7), 32);
        }
    }
    for rights in [&ALL[..], &ALL[1..], &[8; PAGES]] {
        assert_refused(0, 0, rights, 1);
        assert_refused(65537, 2, rights, 1);
        assert_refused(2, 3, rights, 2);
        assert_refused(2, 0, rights, 2);
    }
}
