//! Which of two word lists comes first, and the part of it that comes back, told by where it starts
//! in memory (docs/MACHINE.md, Word lists and their order).

use core::cmp::Ordering::{Equal, Greater, Less};
use nilguseg::{compare, earlier};

/// That `part` is `list` from a place on, and no other list of the same words.
fn assert_part(part: &[u16], list: &[u16], from: usize) {
    assert_eq!((part.as_ptr(), part.len()), (list[from..].as_ptr(), list.len() - from));
}

#[test]
fn the_smaller_word_at_the_first_difference_decides() {
    let (lower, higher) = ([5, 3, 9, 9], [5, 4, 0]);
    assert_eq!((compare(&lower, &higher), compare(&higher, &lower)), (Less, Greater));
    assert_part(earlier(&lower, &higher), &lower, 1);
    assert_part(earlier(&higher, &lower), &lower, 1);
}

#[test]
fn words_are_compared_as_numbers_without_a_sign() {
    let (lower, higher) = ([0x7FFF], [0x8000]);
    assert_eq!(compare(&lower, &higher), Less);
    assert_part(earlier(&higher, &lower), &lower, 0);
}

#[test]
fn a_list_that_is_over_has_its_own_empty_end() {
    let (over, longer) = ([8, 1], [8, 1, 0, 2]);
    assert_eq!((compare(&over, &longer), compare(&longer, &over)), (Less, Greater));
    assert_part(earlier(&over, &longer), &over, 2);
    assert_part(earlier(&longer, &over), &over, 2);
    let none = &over[..0];
    assert_part(earlier(&longer, none), none, 0);
}

#[test]
fn equal_lists_have_the_empty_end_of_the_first() {
    let (plain, followed) = ([8, 1], [8, 1, 0, 0]);
    assert_eq!((compare(&plain, &followed), compare(&followed, &plain)), (Equal, Equal));
    assert_part(earlier(&plain, &followed), &plain, 2);
    assert_part(earlier(&followed, &plain), &followed, 4);
    let (one, other) = ([8, 1], [8, 1]);
    assert_part(earlier(&one, &other), &one, 2);
    assert_part(earlier(&one, &one), &one, 2);
}

#[test]
fn an_empty_list_is_equal_to_zeros() {
    let (zeros, other) = ([0; 3], [7; 3]);
    let none = &other[..0];
    assert_eq!((compare(none, &zeros), compare(&zeros, none), compare(none, none)), (Equal, Equal, Equal));
    assert_part(earlier(none, &zeros), none, 0);
    assert_part(earlier(&zeros, none), &zeros, 3);
}

#[test]
fn lists_longer_than_any_memory_are_compared_to_their_end() {
    let (zeros, mut one) = (vec![0; 70_000], vec![0; 100_000]);
    assert_eq!(compare(&zeros, &one), Equal);
    assert_part(earlier(&zeros, &one), &zeros, 70_000);
    one[99_999] = 1;
    assert_eq!(compare(&one, &zeros), Greater);
    assert_part(earlier(&one, &zeros), &zeros, 70_000);
}

#[test]
fn lists_are_filed_by_it() {
    let mut lists: [&[u16]; 6] = [&[2], &[1, 9], &[1], &[], &[1, 0, 1], &[0, 0xFFFF]];
    lists.sort_by(|one, other| compare(one, other));
    assert_eq!(lists, [&[] as &[u16], &[0, 0xFFFF], &[1], &[1, 0, 1], &[1, 9], &[2]]);
}
