//! All words decoded and all instructions encoded.

use crate::machine::Machine;
use crate::reference::published;
use crate::report::Report;
use delta_null_core_instructions::{Encodable, Instruction as Published};
use nilguseg::{kind::*, Fault, Instruction};

/// How many operands a kind has.
fn operands(kind: u8) -> u8 {
    match kind {
        NOP | HLT | SPINC | SPDEC | INV | RET => 0,
        PUSH | POP | SPADD | NOT | NEG | INC | DEC | EQZ | JMPOFF..=CALL => 1,
        _ => 2,
    }
}

/// Every word, decoded.
pub fn decode(machine: &dyn Machine, report: &mut Report) {
    for word in 0..=0xFFFF {
        let answer = machine.decode(word);
        let same = match (answer, Published::decode(word)) {
            (Ok(instruction), Some(expected)) => {
                assert_eq!(expected.encode(), word, "the stand-in for bitmatch misreads a pattern");
                let absent = [(0, instruction.first), (1, instruction.second)];
                published(instruction) == Some(expected)
                    && absent.iter().all(|&(place, operand)| place < operands(instruction.kind) || operand == 0)
            }
            (Err(fault), None) => fault == Fault { number: 10, value: word },
            _ => false,
        };
        if !same {
            report.disagree("decoding", || format!("{word:#06x} gives {answer:?}"));
        }
    }
    report.others.push(("words decoded", 65536));
}

/// Every kind from 0 to 255 with every pair of operands from 0 to 255, encoded; so also each offset
/// above 15 and each operand that does not exist.
pub fn encode(machine: &dyn Machine, report: &mut Report) {
    let mut encoded = 0;
    for number in 0..1 << 24 {
        let [_, kind, first, second] = u32::to_be_bytes(number);
        let instruction = Instruction { kind, first, second };
        let answer = machine.encode(instruction);
        let expected = published(instruction).map(Encodable::encode);
        encoded += expected.is_some() as u64;
        if answer != expected {
            report.disagree("encoding", || format!("{instruction:?} gives {answer:04x?}, expected {expected:04x?}"));
        }
    }
    report.others.push(("combinations of a kind and two bytes encoded or refused", 1 << 24));
    report.others.push(("of them have a word", encoded));
}
