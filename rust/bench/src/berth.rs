//! The program berth on the programs of the benchmark, each as a sheet on its standard input.

use std::io::Write;
use std::process::{Command, Stdio};
use std::time::Instant;

use bench::{children_cpu_time, Program, BERTH_LIMIT};
use nilguseg::{Core, Outcome};

use crate::{times, Times};

/// The program and its sheets, with what was measured so far.
pub struct Berth {
    path: String,
    /// The example, which has two steps, and then the programs.
    sheets: Vec<Sheet>,
}

struct Sheet {
    name: &'static str,
    input: Vec<u8>,
    /// What berth owes for it, and the steps that this takes.
    line: String,
    steps: u32,
    /// Of each round: nanoseconds from the start of the process until its line is read and it has
    /// ended.
    wall: Vec<f64>,
    cpu: Vec<f64>,
}

impl Berth {
    /// The program that stands at `path`, which is not run yet.
    pub fn new(path: &str, programs: &[&Program]) -> Berth {
        let mut sheets = vec![Sheet::new("the example", &[0x1003, 0xFFFF])];
        sheets.extend(programs.iter().map(|program| Sheet::new(program.name, &program.words)));
        Berth { path: path.to_string(), sheets }
    }

    /// Runs every sheet once.
    pub fn round(&mut self) {
        self.sheets.iter_mut().for_each(|sheet| sheet.run(&self.path));
    }

    /// The CPU time of a step of each program: what it takes beyond the example, over its steps.
    pub fn steps(&self) -> Vec<Times> {
        let start = times(self.sheets[0].cpu.clone());
        let step = |sheet: &Sheet| {
            let all = times(sheet.cpu.clone());
            let steps = sheet.steps as f64;
            Times { least: (all.least - start.least) / steps, median: (all.median - start.median) / steps }
        };
        self.sheets[1..].iter().map(step).collect()
    }

    /// Prints the time from the start to the line, of the example and of the first program.
    pub fn print_start_to_line(&self) {
        println!("\nberth from start to line, milliseconds of wall time, least and median");
        for sheet in &self.sheets[..2] {
            let wall = times(sheet.wall.clone());
            println!("{}, {} steps: {:.2} {:.2}", sheet.name, sheet.steps, wall.least / 1e6, wall.median / 1e6);
        }
    }
}

impl Sheet {
    /// The sheet of a list of words.
    fn new(name: &'static str, words: &[u16]) -> Sheet {
        let records = words.iter().map(|word| 0x2000_0000 | *word as u32);
        let records: Vec<u32> = records.chain([0xF000_0000 | words.len() as u32]).collect();
        let (line, steps) = line_of(&records);
        let input = records.iter().flat_map(|record| record.to_le_bytes()).collect();
        Sheet { name, input, line, steps, wall: Vec::new(), cpu: Vec::new() }
    }

    fn run(&mut self, berth: &str) {
        let before = children_cpu_time();
        let start = Instant::now();
        let mut child = Command::new(berth).stdin(Stdio::piped()).stdout(Stdio::piped()).spawn().unwrap();
        child.stdin.take().unwrap().write_all(&self.input).unwrap();
        let output = child.wait_with_output().unwrap();
        self.wall.push(start.elapsed().as_secs_f64() * 1e9);
        self.cpu.push(children_cpu_time() - before);
        assert_eq!(String::from_utf8(output.stdout).unwrap(), self.line, "the line of {}", self.name);
    }
}

/// The line that berth owes for a sheet that halts or reaches the limit, by the library; and the
/// steps.
fn line_of(sheet: &[u32]) -> (String, u32) {
    let (mut core, mut edition, mut memory, mut marks) = (Core::new(), 0, vec![0; 32768], vec![0; 32768]);
    core.load_sheet(&mut edition, sheet, &mut memory).unwrap();
    let run = core.run(&mut memory, &mut marks, edition, BERTH_LIMIT);
    let end = if run.end == Outcome::Halted { "halted" } else { "limit" };
    let registers = [core.ip, core.rp, core.sp, core.ef].into_iter().chain(core.r);
    let registers: Vec<String> = registers.map(|register| register.to_string()).collect();
    (format!("{end} {} {}\n", run.steps, registers.join(" ")), run.steps)
}
