//! What both programs of the benchmark need: the clock, and the rule programs that are measured.

use differential::programs::loops;
use differential::work::works;
use nilguseg::Outcome;

#[repr(C)]
struct Timespec {
    seconds: i64,
    nanoseconds: i64,
}

/// Linux's rusage, of which the first two fields are read here: user and system time.
#[repr(C)]
struct Rusage {
    times: [[i64; 2]; 2],
    rest: [i64; 14],
}

unsafe extern "C" {
    fn clock_gettime(clock: i32, time: *mut Timespec) -> i32;
    fn getrusage(who: i32, usage: *mut Rusage) -> i32;
}

const CLOCK_PROCESS_CPUTIME_ID: i32 = 2;
const RUSAGE_CHILDREN: i32 = -1;

/// The CPU time of this process in nanoseconds, which other programs on the machine disturb least.
pub fn cpu_time() -> f64 {
    let mut time = Timespec { seconds: 0, nanoseconds: 0 };
    // SAFETY: the pointer is that of a timespec.
    assert_eq!(unsafe { clock_gettime(CLOCK_PROCESS_CPUTIME_ID, &mut time) }, 0);
    time.seconds as f64 * 1e9 + time.nanoseconds as f64
}

/// The CPU time, in nanoseconds, of the processes that this one started and that have ended.
pub fn children_cpu_time() -> f64 {
    let mut usage = Rusage { times: [[0; 2]; 2], rest: [0; 14] };
    // SAFETY: the pointer is that of a rusage.
    assert_eq!(unsafe { getrusage(RUSAGE_CHILDREN, &mut usage) }, 0);
    usage.times.iter().map(|[seconds, microseconds]| *seconds as f64 * 1e9 + *microseconds as f64 * 1e3).sum()
}

/// A program with the end that its run must have.
pub struct Program {
    /// Its name in docs/PERFORMANCE.md.
    pub name: &'static str,
    /// What it computes; empty for an endless loop.
    pub computes: &'static str,
    /// What stands in memory from address 0 on.
    pub words: Vec<u16>,
    /// The limit of its run.
    pub limit: u32,
    /// How the run ends.
    pub end: Outcome,
    /// What it must leave in r0 and on.
    pub result: Vec<u16>,
}

/// The limit that berth has.
pub const BERTH_LIMIT: u32 = 1_000_000;

/// The two tables: the endless loops, and the programs that do real work.
pub fn tables() -> [Vec<Program>; 2] {
    let endless = loops().map(|(name, words)| Program {
        name,
        computes: "",
        words,
        limit: 2 * BERTH_LIMIT,
        end: Outcome::Limit,
        result: Vec::new(),
    });
    let ending = works().map(|work| Program {
        name: work.name,
        computes: work.computes,
        words: work.words,
        limit: BERTH_LIMIT,
        end: Outcome::Halted,
        result: work.result,
    });
    [endless.into(), ending.into()]
}
