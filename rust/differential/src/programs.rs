//! Programs with loops, calls and a stack: six endless ones to measure by, and random ones that
//! end.

use crate::random::Random;
use crate::states::word;
use nilguseg::kind::*;

/// Putl and puth that set a register.
pub(crate) fn set(register: u8, value: u16) -> [u16; 2] {
    let [high, low] = value.to_be_bytes();
    [word(PUTL, register, low), word(PUTH, register, high)]
}

/// The byte of a jump that stands at the end of `words` words and goes back to their beginning.
fn back(words: usize) -> u8 {
    (256 - words) as u8
}

/// The endless loops that speed is measured by.
pub fn loops() -> [(&'static str, Vec<u16>); 6] {
    [
        ("arithmetic", arithmetic()),
        ("copy", copy()),
        ("call", call()),
        ("immediates", immediates()),
        ("mixed", mixed()),
        ("long rule", long_rule()),
    ]
}

/// Memory of 65,536 words with a program at 0 and something to copy at 0x4000.
pub fn full_memory(program: &[u16]) -> Vec<u16> {
    let mut memory = vec![0; 65536];
    memory[..program.len()].copy_from_slice(program);
    for at in 0x4000..0x5000u16 {
        memory[at as usize] = at.wrapping_mul(40503);
    }
    memory
}

/// Eight steps a turn.
fn arithmetic() -> Vec<u16> {
    let mut words = [set(1, 3), set(6, 1000), set(7, 1)].concat();
    words.extend([
        word(ADD, 2, 1),
        word(XOR, 3, 2),
        word(MUL, 4, 2),
        word(SUB, 5, 3),
        word(SHL, 5, 7),
        word(INC, 0, 0),
        word(GT, 6, 0),
        word(CJMPOFF, back(8), 0),
        word(XOR, 0, 0),
        word(JMPOFF, back(10), 0),
    ]);
    words
}

/// A thousand words from 0x4000 to 0x5000, eight steps a word.
fn copy() -> Vec<u16> {
    let mut words = [set(0, 0x4000), set(1, 0x5000), set(3, 1000)].concat();
    words.extend([
        word(READ, 2, 0),
        word(WRITE, 1, 2),
        word(INC, 0, 0),
        word(INC, 1, 0),
        word(DEC, 3, 0),
        word(EQZ, 3, 0),
        word(INV, 0, 0),
        word(CJMPOFF, back(8), 0),
        word(JMPOFF, back(15), 0),
    ]);
    words
}

/// Call, ret, push and pop, eleven steps a turn; the function stands at 0x40.
fn call() -> Vec<u16> {
    let mut words = [set(6, 0x40), set(0, 0x7000)].concat();
    words.extend([
        word(MOVSI, 2, 0),
        word(PUSH, 0, 0),
        word(PUSH, 1, 0),
        word(CALL, 6, 0),
        word(POP, 1, 0),
        word(POP, 0, 0),
        word(JMPOFF, back(6), 0),
    ]);
    words.resize(0x40, word(NOP, 0, 0));
    words.extend([word(PUSH, 2, 0), word(INC, 2, 0), word(SPREAD, 3, 1), word(POP, 2, 0), word(RET, 0, 0)]);
    words
}

/// Putl and puth, 32 of them and a jump.
fn immediates() -> Vec<u16> {
    let mut words: Vec<u16> = (0..16u16).flat_map(|i| set(i as u8 % 8, i.wrapping_mul(0x1357))).collect();
    words.push(word(JMPOFF, back(33), 0));
    words
}

/// 4,000 words of thirty kinds in no order, then back to 0 by a call. Nothing stops: r6 stays 7, an
/// amount to shift by, and r7 stays 0x7000, an address.
fn mixed() -> Vec<u16> {
    let mut random = Random::new(4000);
    let mut words = [set(7, 0x7000), set(6, 7)].concat();
    words.push(word(MOVSI, 2, 7));
    while words.len() < 4000 {
        words.extend(harmless(&mut random));
    }
    words.push(word(NOP, 0, 0)); // what a last cjmpoff may skip
    words.extend(set(0, 0));
    words.push(word(CALL, 0, 0));
    words
}

/// A rule written out in full: most words of a long rule are putl and puth. 2,000 words, three of
/// four of them those two, in no order; then back to 0 by a call, so that no loop is shorter.
fn long_rule() -> Vec<u16> {
    let mut random = Random::new(2000);
    let mut words = Vec::new();
    while words.len() < 1997 {
        words.extend(clause(&mut random));
    }
    words.truncate(1997);
    words.extend(set(0, 0));
    words.push(word(CALL, 0, 0));
    words
}

/// One register set or two, and then one word of arithmetic or comparison; none stops.
fn clause(random: &mut Random) -> Vec<u16> {
    let (first, second) = (random.below(8) as u8, random.below(8) as u8);
    let mut words = set(first, random.word()).to_vec();
    if random.one_in(2) {
        words.extend(set(second, random.word()));
    }
    words.push(match random.below(10) {
        0 => word(INV, 0, 0),
        n @ 1..=3 => word([INC, DEC, EQZ][n - 1], first, 0),
        n => word([ADD, SUB, MUL, EQ, GT, GTEQ][n - 4], first, second),
    });
    words
}

/// One or two words that change r0 to r5, the condition, sp by one, or memory near sp and at r7;
/// none stops.
fn harmless(random: &mut Random) -> Vec<u16> {
    let (any, low, byte) = (random.below(8) as u8, random.below(6) as u8, random.byte());
    let one = match random.below(30) {
        0 => word(MOV, low, any),
        1 => word(PUTL, low, byte),
        2 => word(PUTH, low, byte),
        3 => word(READ, low, 7),
        4 => word(WRITE, 7, low),
        5 => word(SPREAD, low, byte),
        6 => word(SPWRITE, byte, any),
        7 => return vec![word(PUSH, any, 0), word(POP, low, 0)],
        8 => word(MOVSO, low, 2),
        9 => word(SPINC, 0, 0),
        10 => word(SPDEC, 0, 0),
        11 => word(NOT, low, 0),
        16 => word(SHL, low, 6),
        17 => word(SHR, low, 6),
        18 => word(BITSET, low, 6),
        19 => word(INC, low, 0),
        20 => word(DEC, low, 0),
        24 => word(INV, 0, 0),
        25 => word(EQZ, any, 0),
        29 => word(CJMPOFF, 1, 0),
        n @ 26..=28 => word([EQ, GT, GTEQ][n - 26], any, low),
        n => word([AND, BOOLAND, OR, XOR, ADD, SUB, MUL][n % 7], low, any),
    };
    vec![one]
}

/// A program of a counted loop around a body and a call of a function, which ends by hlt unless its
/// data lead it astray. r7 points at `address`, and so does sp. r6, by which it shifts, is below
/// `amounts`.
pub fn structured(random: &mut Random, address: u16, amounts: usize) -> Vec<u16> {
    let body = |random: &mut Random| -> Vec<u16> {
        let turns = 1 + random.below(12);
        let mut words: Vec<u16> = (0..turns).flat_map(|_| harmless(random)).collect();
        words.push(word(NOP, 0, 0)); // what a last cjmpoff may skip
        words
    };
    let mut words = [set(7, address), set(6, random.below(amounts) as u16)].concat();
    words.push(word(MOVSI, 2, 7));
    words.extend(set(5, 1 + random.below(30) as u16));
    let start = words.len();
    words.push(word(PUSH, 5, 0)); // the count, which the body may change
    words.extend(body(random));
    let call = words.len();
    words.extend(set(4, 0)); // the function's address, once it is known
    words.extend([word(CALL, 4, 0), word(MOVSI, 2, 7), word(SPDEC, 0, 0), word(POP, 5, 0), word(DEC, 5, 0)]);
    words.extend([word(EQZ, 5, 0), word(INV, 0, 0)]);
    words.push(word(CJMPOFF, back(words.len() + 1 - start), 0));
    words.push(word(HLT, 0, 0));
    let function = words.len() as u16;
    words[call..call + 2].copy_from_slice(&set(4, function));
    words.extend(body(random));
    words.push(word(RET, 0, 0));
    words
}
