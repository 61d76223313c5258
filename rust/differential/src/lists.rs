//! Which of two word lists comes first (docs/MACHINE.md, Word lists and their order), against the
//! model: the order, and the part that comes back, by where it starts.

use std::cmp::Ordering;

use crate::machine::{Machine, Model};
use crate::random::Random;
use crate::report::Report;

/// A word, half of the time 0 or at an edge.
fn word(random: &mut Random) -> u16 {
    match random.below(4) {
        0 => 0,
        1 => random.pick(&[1, 0x7FFF, 0x8000, 0xFFFF]),
        _ => random.word(),
    }
}

/// Two lists with a common part of `length` words, each as it is, cut, with zeros or a word after
/// it, or with a word changed.
fn pair(random: &mut Random, length: usize) -> [Vec<u16>; 2] {
    let common: Vec<u16> = (0..length).map(|_| word(random)).collect();
    [(); 2].map(|()| {
        let mut list = common.clone();
        match random.below(6) {
            0 => {}
            1 => list.truncate(random.below(list.len() + 1)),
            2 => list.resize(list.len() + random.below(4), 0),
            3 => list.extend([0, 0, word(random), 0]),
            _ if list.is_empty() => {}
            _ => {
                let place = random.below(list.len());
                list[place] = word(random);
            }
        }
        list
    })
}

/// What is counted: orders, parts that are empty though the lists differ, lists that are empty, and
/// lists of more than 65,536 words.
#[derive(Default)]
struct Counts {
    orders: [u64; 3],
    over: u64,
    empty: u64,
    long: u64,
}

fn compare(machine: &dyn Machine, first: &[u16], second: &[u16], counts: &mut Counts, report: &mut Report) {
    let order = machine.compare(first, second);
    let expected = Model.compare(first, second);
    let part = machine.earlier(first, second);
    let expected_part = Model.earlier(first, second);
    counts.orders[(expected as i8 + 1) as usize] += 1;
    counts.over += (expected != Ordering::Equal && expected_part.is_empty()) as u64;
    counts.empty += (first.is_empty() || second.is_empty()) as u64;
    counts.long += (first.len().max(second.len()) > 65536) as u64;
    let lengths = || format!("lists of {} and {} words", first.len(), second.len());
    if order != expected {
        report.disagree("comparing lists", || format!("{} give {order:?}, expected {expected:?}", lengths()));
    }
    if part.as_ptr_range() != expected_part.as_ptr_range() {
        report
            .disagree("the earlier list", || format!("{} give {part:04x?}, expected {expected_part:04x?}", lengths()));
    }
}

/// `cases` pairs of lists: most with a common part of a few words, some with one of hundreds, few
/// with one of about 65,536.
pub fn lists(machine: &dyn Machine, cases: usize, report: &mut Report) {
    let mut random = Random::new(9);
    let mut counts = Counts::default();
    for case in 0..cases {
        let length = match case {
            _ if case % 1_000 == 0 => 65_530 + random.below(12),
            _ if case % 100 == 0 => random.below(700),
            _ => random.below(8),
        };
        let [first, second] = pair(&mut random, length);
        compare(machine, &first, &second, &mut counts, report);
        compare(machine, &second, &first, &mut counts, report);
    }
    let [before, equal, after] = counts.orders;
    report.others.push(("pairs of word lists compared", before + equal + after));
    report.others.push(("of them are equal", equal));
    report.others.push(("of them differ where the earlier list is over", counts.over));
    report.others.push(("of them have an empty list", counts.empty));
    report.others.push(("of them have one of more than 65,536 words", counts.long));
}
