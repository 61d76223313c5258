//! Measures one machine, once. Its argument is the machine: `published`, the published Rust, or the
//! library by its runs with rights (`guarded`), with a log (`logged`), with both
//! (`logged-guarded`), with neither (`library`, and `library-second` in edition 2), or by its
//! replays (`replay`, `replay-guarded`).
//!
//! Runs the programs of both tables, and prints for each a line: the CPU nanoseconds per step, and
//! a digest of what the run left. All run in edition 1, the Rust's, but `library-second`: no
//! program here does what differs in edition 2. Built twice: with and without overflow checks,
//! which are those of the published Rust.

use std::cell::Cell;
use std::hash::{DefaultHasher, Hash, Hasher};
use std::hint::black_box;

use bench::{cpu_time, tables};
use delta_null_core_emulator::core::Core as PublishedCore;
use delta_null_core_emulator::memory::{Memory, MemoryError};
use differential::programs::full_memory;
use nilguseg::{Core, LoggedRun, Outcome, Run, PAGES};

/// A memory that keeps the marks, as the library does.
struct Marked {
    words: Vec<u16>,
    marks: Vec<Cell<u8>>,
}

impl Memory for Marked {
    fn read(&self, address: u16) -> Result<u16, MemoryError> {
        let word = *self.words.get(address as usize).ok_or(MemoryError::OutOfRange)?;
        let mark = &self.marks[address as usize];
        mark.set(mark.get() | 1 & !(mark.get() >> 1));
        Ok(word)
    }

    fn write(&mut self, address: u16, value: u16) -> Result<(), MemoryError> {
        *self.words.get_mut(address as usize).ok_or(MemoryError::OutOfRange)? = value;
        let mark = &self.marks[address as usize];
        mark.set(mark.get() | 2);
        Ok(())
    }
}

/// What a run leaves, and how long it took.
struct Done {
    time: f64,
    run: Run,
    core: Core,
    memory: Vec<u16>,
    marks: Vec<u8>,
}

fn published(memory: Vec<u16>, limit: u32) -> Done {
    let marks = vec![Cell::new(0); memory.len()];
    let mut core = PublishedCore::new(Marked { words: memory, marks });
    let mut run = Run { end: Outcome::Limit, steps: 0 };
    let start = cpu_time();
    for _ in 0..black_box(limit) {
        core.step().expect("no program here stops");
        run.steps += 1;
        if core.is_halted() {
            run.end = Outcome::Halted;
            break;
        }
    }
    let time = cpu_time() - start;
    let registers = Core { r: core.gprs, ip: core.ip, rp: core.rp, sp: core.sp, ef: core.ef };
    let marks = core.memory.marks.iter().map(Cell::get).collect();
    Done { time, run, core: registers, memory: core.memory.words, marks }
}

type Plain = fn(&mut Core, &mut [u16], &mut [u8], u16, u32) -> Run;
type Logged = fn(&mut Core, &mut [u16], &mut [u8], u16, u32, &mut [u32]) -> LoggedRun;
type Replay = fn(&mut Core, usize, u16, u32, &[u32]) -> Run;

/// Every right on every page.
static RIGHTS: [u8; PAGES] = [7; PAGES];

const GUARDED: Plain =
    |core, memory, marks, edition, limit| core.run_guarded(memory, marks, black_box(&RIGHTS), edition, limit);
const LOGGED_GUARDED: Logged = |core, memory, marks, edition, limit, log| {
    core.run_logged_guarded(memory, marks, black_box(&RIGHTS), edition, limit, log)
};
const REPLAY_GUARDED: Replay =
    |core, size, edition, limit, log| core.replay_guarded(size, black_box(&RIGHTS), edition, limit, log);

fn plain(run: Plain, mut memory: Vec<u16>, edition: u16, limit: u32) -> Done {
    let mut marks = vec![0; memory.len()];
    let mut core = Core::new();
    let start = cpu_time();
    let run = run(&mut core, &mut memory, &mut marks, black_box(edition), black_box(limit));
    let time = cpu_time() - start;
    Done { time, run, core, memory, marks }
}

/// A logged run, and its log.
fn logged(run: Logged, mut memory: Vec<u16>, limit: u32) -> (Done, Vec<u32>) {
    let mut marks = vec![0; memory.len()];
    // enough for any run, and not zeros, whose pages would be made only once the clock runs
    let mut log = vec![u32::MAX; 4 * limit as usize];
    let mut core = Core::new();
    let start = cpu_time();
    let LoggedRun { end, steps, logged } =
        run(&mut core, &mut memory, &mut marks, black_box(1), black_box(limit), &mut log);
    let time = cpu_time() - start;
    log.truncate(logged);
    (Done { time, run: Run { end, steps }, core, memory, marks }, log)
}

/// Memory and marks, which a replay has not, are those of the run that made the log.
fn replay(replay: Replay, memory: Vec<u16>, limit: u32) -> Done {
    let (done, log) = logged(Core::run_logged, memory, limit);
    let mut core = Core::new();
    let start = cpu_time();
    let run = replay(&mut core, done.memory.len(), black_box(1), black_box(limit), &log);
    let time = cpu_time() - start;
    Done { time, run, core, ..done }
}

fn main() {
    let machine: fn(Vec<u16>, u32) -> Done = match std::env::args().nth(1).as_deref() {
        Some("published") => published,
        Some("library") => |memory, limit| plain(Core::run, memory, 1, limit),
        Some("library-second") => |memory, limit| plain(Core::run, memory, 2, limit),
        Some("guarded") => |memory, limit| plain(GUARDED, memory, 1, limit),
        Some("logged") => |memory, limit| logged(Core::run_logged, memory, limit).0,
        Some("logged-guarded") => |memory, limit| logged(LOGGED_GUARDED, memory, limit).0,
        Some("replay") => |memory, limit| replay(Core::replay, memory, limit),
        Some("replay-guarded") => |memory, limit| replay(REPLAY_GUARDED, memory, limit),
        _ => panic!(
            "usage: measure published|library|library-second|guarded|logged|logged-guarded|replay|replay-guarded"
        ),
    };
    for program in tables().into_iter().flatten() {
        let done = machine(full_memory(&program.words), program.limit);
        assert_eq!(done.run.end, program.end, "the end of {}", program.name);
        assert_eq!(done.core.r[..program.result.len()], program.result, "the result of {}", program.name);
        let mut digest = DefaultHasher::new();
        (done.core.r, done.core.ip, done.core.rp, done.core.sp, done.core.ef).hash(&mut digest);
        (done.run.steps, done.memory, done.marks).hash(&mut digest);
        println!("{} {}", done.time / done.run.steps as f64, digest.finish());
    }
}
