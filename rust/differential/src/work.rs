//! Programs that do real work, as a compiler of rules would emit it: tables and searches, nested
//! loops, a function with locals on the stack, arithmetic over several words. Each ends by hlt
//! within berth's limit and memory, and leaves its result in r0 and on.

use crate::assembly::{assemble, Assembly};
use crate::random::Random;

/// A program with its table, to be loaded at address 0.
pub struct Work {
    /// Its name in docs/PERFORMANCE.md.
    pub name: &'static str,
    /// What it computes.
    pub computes: &'static str,
    /// The code, and the table behind it.
    pub words: Vec<u16>,
    /// What it leaves in r0 and on, computed here without the machine.
    pub result: Vec<u16>,
}

/// The programs of the benchmark that end.
pub fn works() -> [Work; 6] {
    [search(), overlaps(), sort(), ways(), squares(), rules()]
}

/// Where a program's table stands, and where its stack ends.
const TABLE: u16 = 0x0200;
const STACK: u16 = 0x7000;

/// The code of a program with a table of `length` words and names of its own.
fn code(text: &'static str, length: usize, own: &[(&'static str, u16)]) -> Assembly {
    let names = [("stack", STACK), ("table", TABLE), ("end", TABLE + length as u16)];
    assemble(text, &[&names, own].concat())
}

fn with_table(code: Assembly, table: &[u16]) -> Vec<u16> {
    let mut words = code.words;
    assert!(words.len() <= TABLE as usize);
    words.resize(TABLE as usize, 0);
    words.extend(table);
    words
}

fn random_words(seed: u64, count: usize) -> Vec<u16> {
    let mut random = Random::new(seed);
    (0..count).map(|_| random.word()).collect()
}

fn search() -> Work {
    const LENGTHS: u16 = 7500;
    let mut berths = random_words(1, 250);
    berths.sort();
    let names = [("lengths", LENGTHS), ("berths", berths.len() as u16)];
    let code = code(include_str!("../work/search.asm"), berths.len(), &names);
    let (mut length, mut sum) = (1u16, 0u16);
    for _ in 0..LENGTHS {
        length = length.wrapping_mul(25173).wrapping_add(13849);
        sum = sum.wrapping_add(berths.partition_point(|berth| *berth < length) as u16);
    }
    Work {
        name: "search",
        computes: "for 7,500 lengths how many of 250 sorted berths are shorter, added up; by binary search",
        words: with_table(code, &berths),
        result: vec![sum],
    }
}

fn overlaps() -> Work {
    let mut random = Random::new(2);
    let mut stay = || {
        let from = random.below(1440) as u16;
        [from, from + 1 + random.below(300) as u16]
    };
    let stays: Vec<[u16; 2]> = (0..400).map(|_| stay()).collect();
    let code = code(include_str!("../work/overlaps.asm"), 2 * stays.len(), &[]);
    let after = |(at, a): (usize, &[u16; 2])| stays[at + 1..].iter().filter(|b| a[0] < b[1] && b[0] < a[1]).count();
    let pairs: usize = stays.iter().enumerate().map(after).sum();
    Work {
        name: "overlaps",
        computes: "how many pairs of 400 stays at a quay overlap; by nested loops",
        words: with_table(code, &stays.concat()),
        result: vec![pairs as u16],
    }
}

fn sort() -> Work {
    let mut table = random_words(3, 560);
    let code = code(include_str!("../work/sort.asm"), table.len(), &[]);
    let words = with_table(code, &table);
    table.sort();
    let sum = (1u16..).zip(&table).fold(0u16, |sum, (place, word)| sum.wrapping_add(place.wrapping_mul(*word)));
    Work {
        name: "sort",
        computes: "560 words sorted by insertion, then the sum of each times its place, from 1",
        words,
        result: vec![sum],
    }
}

fn ways() -> Work {
    const SLOTS: u16 = 28;
    let code = code(include_str!("../work/ways.asm"), 0, &[("slots", SLOTS)]);
    let mut ways = vec![1u16];
    for slots in 1..=SLOTS as usize {
        let ferries = [2, 3, 5].into_iter().filter(|ferry| *ferry <= slots);
        ways.push(ferries.fold(0, |sum, ferry| sum.wrapping_add(ways[slots - ferry])));
    }
    Work {
        name: "ways",
        computes:
            "in how many ways ferries of 2, 3 and 5 slots, one after another, fill 28 slots; by a recursive function",
        words: with_table(code, &[]),
        result: vec![ways[SLOTS as usize]],
    }
}

fn squares() -> Work {
    const TURNS: u16 = 20;
    let table = random_words(5, 1000);
    let code = code(include_str!("../work/squares.asm"), table.len(), &[("turns", TURNS)]);
    let sum = table.iter().map(|word| (*word as u64).pow(2)).sum::<u64>() * TURNS as u64;
    Work {
        name: "squares",
        computes: "the squares of 1,000 words added up 20 times, as a number of three words",
        words: with_table(code, &table),
        result: [0, 16, 32].map(|shift| (sum >> shift) as u16).to_vec(),
    }
}

fn rules() -> Work {
    const TURNS: u16 = 190;
    const RULES: [&str; 7] = ["add", "sub", "xor", "max", "min", "mul", "rotate"];
    let mut random = Random::new(6);
    let records: Vec<[u16; 2]> = (0..250).map(|_| [random.below(RULES.len()) as u16, random.word()]).collect();
    let names = [("turns", TURNS), ("records", TABLE + RULES.len() as u16)];
    let code = code(include_str!("../work/rules.asm"), RULES.len() + 2 * records.len(), &names);
    let addresses = RULES.map(|rule| code.names[rule]);
    let value = (0..TURNS).flat_map(|_| &records).fold(0u16, |value, [rule, operand]| match RULES[*rule as usize] {
        "add" => value.wrapping_add(*operand),
        "sub" => value.wrapping_sub(*operand),
        "xor" => value ^ operand,
        "max" => value.max(*operand),
        "min" => value.min(*operand),
        "mul" => value.wrapping_mul(operand | 1),
        _ => value.rotate_left(1),
    });
    Work {
        name: "rules",
        computes: "250 records of seven rules applied in turn to one value, 190 times; by calls through a table",
        words: with_table(code, &[&addresses[..], &records.concat()].concat()),
        result: vec![value],
    }
}
