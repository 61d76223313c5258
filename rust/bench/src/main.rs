//! Measures the library, the published Rust and the program berth (docs/PERFORMANCE.md). Its
//! argument is the path of berth.
//!
//! Prints the CPU time per step of the programs of both tables, the speed of sheets and of the
//! order of word lists, and the time of berth from start to line. The machines other than berth are
//! run by the program `measure`, each in a process of its own.

mod berth;

use std::fmt::Display;
use std::hint::black_box;
use std::path::{Path, PathBuf};
use std::process::Command;

use bench::{cpu_time, tables, Program};
use berth::Berth;
use nilguseg::Core;

const ROUNDS: usize = 15;
/// A comparison of lists takes less than a tenth of a millisecond, so that 15 of them may all fall
/// under a neighbour's load.
const LIST_ROUNDS: usize = 2000;

/// What is measured beside berth: its name, the cargo profile it is built in, and the machine.
const MACHINES: [(&str, &str, &str); 9] = [
    ("published Rust, overflow checks off", "unchecked", "published"),
    ("published Rust, overflow checks on", "release", "published"),
    ("library", "release", "library"),
    ("library, edition 2", "release", "library-second"),
    ("library, guarded", "release", "guarded"),
    ("library, logged", "release", "logged"),
    ("library, logged, guarded", "release", "logged-guarded"),
    ("library, replay", "release", "replay"),
    ("library, replay, guarded", "release", "replay-guarded"),
];

/// The least and the median of the rounds.
#[derive(Clone, Copy)]
struct Times {
    least: f64,
    median: f64,
}

fn times(mut rounds: Vec<f64>) -> Times {
    rounds.sort_by(f64::total_cmp);
    Times { least: rounds[0], median: rounds[rounds.len() / 2] }
}

fn main() {
    let path = std::env::args().nth(1).expect("usage: bench BERTH");
    let tables = tables();
    let programs: Vec<&Program> = tables.iter().flatten().collect();
    let mut berth = Path::new(&path).is_file().then(|| Berth::new(&path, &programs));

    let mut rounds = vec![vec![Vec::new(); programs.len()]; MACHINES.len()];
    for _ in 0..ROUNDS {
        round(&mut rounds);
        berth.iter_mut().for_each(Berth::round);
    }

    let mut rows: Vec<(&str, Vec<Times>)> = Vec::new();
    for ((name, _, _), rounds) in MACHINES.iter().zip(rounds) {
        rows.push((name, rounds.into_iter().map(times).collect()));
    }
    rows.extend(berth.iter().map(|berth| ("berth", berth.steps())));
    println!("CPU nanoseconds per step; least and median of {ROUNDS} interleaved rounds; equal final states");
    let mut first = 0;
    for table in &tables {
        print_table(table, &rows, first);
        first += table.len();
    }
    sheets();
    lists();
    match berth {
        Some(berth) => berth.print_start_to_line(),
        None => println!("\nskipped: the program berth, which is not at {path}"),
    }
}

/// Each machine takes its turn, so that a neighbour's load falls on all alike: for each machine and
/// program one time more.
fn round(rounds: &mut [Vec<Vec<f64>>]) {
    let mut digests = Vec::new();
    for (rounds, (_, profile, machine)) in rounds.iter_mut().zip(MACHINES) {
        let (times, digest): (Vec<f64>, Vec<String>) = measured(profile, machine).into_iter().unzip();
        rounds.iter_mut().zip(times).for_each(|(rounds, time)| rounds.push(time));
        digests.push(digest);
    }
    assert!(digests.iter().all(|digest| *digest == digests[0]), "the machines leave different states");
}

/// One child's lines: for each program the time per step, and the digest.
fn measured(profile: &str, machine: &str) -> Vec<(f64, String)> {
    let path = measure(profile);
    let output = Command::new(&path).arg(machine).output();
    let output = output.unwrap_or_else(|error| panic!("{}: {error}", path.display()));
    assert!(output.status.success(), "{}", String::from_utf8_lossy(&output.stderr));
    let lines = String::from_utf8(output.stdout).unwrap();
    let parse = |line: &str| {
        let (time, digest) = line.split_once(' ').unwrap();
        (time.parse().unwrap(), digest.to_string())
    };
    lines.lines().map(parse).collect()
}

/// The program measure of a profile; both stand beside this one.
fn measure(profile: &str) -> PathBuf {
    let this = std::env::current_exe().unwrap();
    this.parent().unwrap().parent().unwrap().join(profile).join("measure")
}

/// The columns of one table, the first of which is column `first` of the rows; and the shares of
/// the first row.
fn print_table(table: &[Program], rows: &[(&str, Vec<Times>)], first: usize) {
    println!();
    print_row("", table.iter().map(|program| program.name));
    let columns = first..first + table.len();
    let cell = |times: &Times| format!("{:.2} {:5.2}", times.least, times.median);
    for (name, times) in rows {
        print_row(name, times[columns.clone()].iter().map(cell));
    }
    let published = &rows[0].1[columns.clone()];
    for (name, times) in &rows[2..] {
        let shares = times[columns.clone()].iter().zip(published).map(|(times, published)| Times {
            least: times.least / published.least,
            median: times.median / published.median,
        });
        print_row(&format!("share of the Rust, checks off: {name}"), shares.map(|share| cell(&share)));
    }
    for program in table.iter().filter(|program| !program.computes.is_empty()) {
        println!("{}: {}", program.name, program.computes);
    }
}

/// A row of the table: a name and its columns.
fn print_row(name: &str, columns: impl IntoIterator<Item = impl Display>) {
    print!("{name:<56}");
    for column in columns {
        print!(" {column:>12}");
    }
    println!();
}

/// A full sheet: 65,536 words, none of them 0.
fn sheets() {
    let memory: Vec<u16> = (0..=0xFFFF).map(|at: u16| at | 1).collect();
    let (mut core, mut edition, mut loaded, mut sheet) = (Core::new(), 0, vec![0; 65536], vec![0; 65550]);
    let (mut writing, mut loading) = (Vec::new(), Vec::new());
    for _ in 0..ROUNDS {
        let start = cpu_time();
        let count = core.write_sheet(1, &memory, &mut sheet);
        let written = cpu_time();
        let answer = core.load_sheet(&mut edition, &sheet, &mut loaded);
        let end = cpu_time();
        assert!(count == Ok(65550) && answer == Ok(()) && edition == 1 && loaded == memory);
        writing.push(written - start);
        loading.push(end - written);
    }
    let speed = |rounds| 65536.0 / times(rounds).least * 1e3;
    println!("\na sheet of 65,536 words, in millions of words per second of CPU time, the best of {ROUNDS}");
    println!("loading {:.1}, writing {:.1}", speed(loading), speed(writing));
}

/// Two lists that are equal: 65,536 words, and the same with as many zeros after them. There is no
/// published Rust for it, so the library stands beside a search written with Rust's iterators.
fn lists() {
    let words: Vec<u16> = (0..=0xFFFF).map(|at: u16| at | 1).collect();
    let longer = [words.clone(), vec![0; 65536]].concat();
    let mut rounds = [Vec::new(), Vec::new()];
    for _ in 0..LIST_ROUNDS {
        let start = cpu_time();
        let order = nilguseg::compare(black_box(&words), black_box(&longer));
        let compared = cpu_time();
        let place = differ(black_box(&words), black_box(&longer));
        let end = cpu_time();
        assert!(order.is_eq() && place.is_none());
        rounds[0].push(compared - start);
        rounds[1].push(end - compared);
    }
    let [library, iterators] = rounds.map(|rounds| times(rounds).least / 131072.0);
    println!("\nequal lists of 65,536 and 131,072 words, CPU nanoseconds per place, the least of {LIST_ROUNDS} rounds");
    println!("library {library:.2}, Rust's iterators {iterators:.2}, share {:.2}", library / iterators);
}

/// The first place where two lists differ, the shorter taken as followed by zeros.
fn differ(first: &[u16], second: &[u16]) -> Option<usize> {
    let both = first.len().min(second.len());
    let rest = if first.len() > both { &first[both..] } else { &second[both..] };
    let place = first.iter().zip(second).position(|(first, second)| first != second);
    place.or_else(|| rest.iter().position(|word| *word != 0).map(|place| both + place))
}
