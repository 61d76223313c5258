//! Programs as text: a line has an instruction with its operands in the order of `Instruction`, or
//! a label and a colon. `set` is putl and puth. `#` starts a comment.

use std::collections::HashMap;

use crate::programs::set;
use crate::states::word;
use nilguseg::kind::NAMES;

/// Words, and the addresses of the labels beside the names that were given.
pub struct Assembly {
    pub words: Vec<u16>,
    pub names: HashMap<&'static str, u16>,
}

/// The words of a program that begins at address 0. What it names and does not define is in
/// `names`.
pub fn assemble(text: &'static str, names: &[(&'static str, u16)]) -> Assembly {
    let lines: Vec<Vec<&str>> = text.lines().map(fields).filter(|fields| !fields.is_empty()).collect();
    let mut names: HashMap<&str, u16> = names.iter().copied().collect();
    let mut address = 0;
    for line in &lines {
        match line[..] {
            [label] if label.ends_with(':') => assert_eq!(names.insert(label.trim_end_matches(':'), address), None),
            ["set", ..] => address += 2,
            _ => address += 1,
        }
    }
    let mut words = Vec::new();
    for line in &lines {
        match line[..] {
            [label] if label.ends_with(':') => {}
            ["set", register, value] => words.extend(set(operand(register), value_of(value, &names))),
            [jump @ ("jmpoff" | "cjmpoff"), label] => {
                let offset = names[label] as i32 - (words.len() as i32 + 1);
                let offset = i8::try_from(offset).expect("a jump of at most 128 words");
                words.push(word(kind(jump), offset as u8, 0));
            }
            [name, ref operands @ ..] => {
                let at = |place: usize| operands.get(place).map_or(0, |text| operand(text));
                words.push(word(kind(name), at(0), at(1)));
            }
            [] => unreachable!("empty lines are left out"),
        }
    }
    Assembly { words, names }
}

fn fields(line: &'static str) -> Vec<&'static str> {
    line.split('#').next().unwrap().split_whitespace().collect()
}

fn kind(name: &str) -> u8 {
    let at = NAMES.iter().position(|kind| kind.eq_ignore_ascii_case(name));
    at.unwrap_or_else(|| panic!("no instruction {name}")) as u8
}

/// The number of a register, as of r3 or sp, or a byte as it is.
fn operand(text: &str) -> u8 {
    match ["ip", "rp", "sp", "ef"].iter().position(|special| *special == text) {
        Some(special) => special as u8,
        None => text.trim_start_matches('r').parse().unwrap_or_else(|_| panic!("no operand {text}")),
    }
}

/// What a name stands for, or a number as it is.
fn value_of(text: &str, names: &HashMap<&str, u16>) -> u16 {
    names.get(text).copied().unwrap_or_else(|| text.parse().unwrap_or_else(|_| panic!("no value {text}")))
}
