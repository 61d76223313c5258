//! Cores, memories and words to compare on, chosen where machines go wrong.

use crate::model;
use crate::random::Random;
use nilguseg::{kind::*, Core, Instruction};

/// Memory lengths: the least, the greatest, and the edges of a byte and of a half.
pub const LENGTHS: [usize; 6] = [1, 2, 255, 32768, 65535, 65536];

/// Values at the edges of shifts, bytes, signs, words and a memory's length.
pub fn edges(length: usize) -> Vec<u16> {
    let mut edges = vec![0, 1, 2, 15, 16, 17, 0x7F, 0x80, 0xFF, 0x100, 0x7FFF, 0x8000, 0x8001, 0xFFF0, 0xFFFE, 0xFFFF];
    edges.extend([2, 1, 0].map(|below| (length as u32).wrapping_sub(below) as u16));
    edges.push((length + 1) as u16);
    edges.sort();
    edges.dedup();
    edges
}

/// An edge, an address inside memory, a small number or any word.
pub fn value(random: &mut Random, edges: &[u16], length: usize) -> u16 {
    match random.below(6) {
        0 | 1 => random.pick(edges),
        2 | 3 => random.below(length) as u16,
        4 => random.below(20) as u16,
        _ => random.word(),
    }
}

/// A core for a memory of that length: most often awake, with ip inside memory.
pub fn core(random: &mut Random, edges: &[u16], length: usize) -> Core {
    let mut core = Core::new();
    core.r = std::array::from_fn(|_| value(random, edges, length));
    core.ip = match random.below(10) {
        0 => value(random, edges, length),
        _ => random.below(length) as u16,
    };
    core.rp = value(random, edges, length);
    core.sp = value(random, edges, length);
    core.ef = match random.below(16) {
        0 => random.word() | 1, // halted
        1..=4 => random.word() & 0xFFFE,
        5..=9 => 2,
        _ => 0,
    };
    core
}

/// The word of an instruction that exists.
pub fn word(kind: u8, first: u8, second: u8) -> u16 {
    model::encode(Instruction { kind, first, second }).expect("an instruction that exists")
}

/// A word that decodes, each kind as likely as another. Of the bytes, edges are likelier.
pub fn decodable(random: &mut Random) -> u16 {
    let kind = random.below(43) as u8;
    let byte = match random.one_in(2) {
        true => random.pick(&[0, 1, 2, 3, 0x7F, 0x80, 0xFD, 0xFE, 0xFF]),
        false => random.byte(),
    };
    loop {
        // Few bytes are registers: take the byte where it may stand, and else a register.
        let pair = match kind {
            PUTL | PUTH => (random.below(8) as u8, byte),
            JMPOFF | CJMPOFF => (byte, 0),
            SPREAD => (random.below(8) as u8, random.below(16) as u8),
            SPWRITE => (random.below(16) as u8, random.below(8) as u8),
            _ => (random.below(8) as u8, random.below(8) as u8),
        };
        if let Some(word) = model::encode(Instruction { kind, first: pair.0, second: pair.1 }) {
            return word;
        }
    }
}

/// A decodable word that seldom ends a program or leaves it.
fn tame(random: &mut Random) -> u16 {
    loop {
        let word = decodable(random);
        match model::decode(word).map(|instruction| instruction.kind) {
            Ok(HLT | DMOV | DREAD | DWRITE) => {}
            Ok(MOVSI | CALL | RET | CJMP) if !random.one_in(8) => {}
            _ => return word,
        }
    }
}

/// Memory content of one of five sorts. Long memories repeat what stands in their first 512 words.
pub fn content(random: &mut Random, length: usize, ip: u16) -> Vec<u16> {
    let own = length.min(512);
    let sort = random.below(5);
    let mut words: Vec<u16> = (0..own)
        .map(|_| match sort {
            0 => random.word(),
            1 => decodable(random),
            2 => tame(random),
            3 if random.one_in(3) => random.word(),
            3 => decodable(random),
            _ => 0,
        })
        .collect();
    while words.len() < length {
        let more = words.len().min(length - words.len());
        words.extend_from_within(..more);
    }
    if sort == 4 {
        // zeros, which are nop, with a short program where the core begins
        for i in 0..40 {
            words[(ip as usize + i) % length] = decodable(random);
        }
    }
    words
}
