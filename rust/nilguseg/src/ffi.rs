//! The functions of libnilguseg.a and the library's other parts, as include/nilguseg.h declares
//! them: it says of each what it requires and what it answers.

use crate::Core;

// How a step or a run came out, as the header numbers it.

/// Of a step: an instruction was executed.
pub const STEPPED: u8 = 0;
/// The core was halted already, or the run halted it.
pub const HALTED: u8 = 1;
/// Of a run: its limit of steps was reached.
pub const LIMIT: u8 = 2;
/// The words caused a stop.
pub const FAULT: u8 = 3;
/// Lengths, rights or the edition do not fit.
pub const REFUSED: u8 = 4;
/// Of a logged run or a replay: the log ended it.
pub const LOG: u8 = 5;

// Which of two word lists comes first, as the header numbers it.

/// Neither.
pub const EQUAL: u32 = 0;
/// The first.
pub const FIRST: u32 = 1;
/// The second.
pub const SECOND: u32 = 2;

unsafe extern "C" {
    pub safe fn nilguseg_decode(word: u16) -> u32;
    pub safe fn nilguseg_encode(kind: u8, first: u8, second: u8) -> u32;
    pub fn nilguseg_step(
        core: *mut Core,
        memory: *mut u16,
        memory_len: usize,
        marks: *mut u8,
        marks_len: usize,
        edition: u16,
    ) -> u32;
    pub fn nilguseg_run(
        core: *mut Core,
        memory: *mut u16,
        memory_len: usize,
        marks: *mut u8,
        marks_len: usize,
        edition: u16,
        limit: u32,
    ) -> u64;
    pub fn nilguseg_run_guarded(
        core: *mut Core,
        memory: *mut u16,
        memory_len: usize,
        marks: *mut u8,
        marks_len: usize,
        rights: *const u8,
        rights_len: usize,
        edition: u16,
        limit: u32,
    ) -> u64;
    pub fn nilguseg_run_logged(
        core: *mut Core,
        memory: *mut u16,
        memory_len: usize,
        marks: *mut u8,
        marks_len: usize,
        edition: u16,
        limit: u32,
        log: *mut u32,
        log_len: usize,
        logged: *mut usize,
    ) -> u64;
    pub fn nilguseg_run_logged_guarded(
        core: *mut Core,
        memory: *mut u16,
        memory_len: usize,
        marks: *mut u8,
        marks_len: usize,
        rights: *const u8,
        rights_len: usize,
        edition: u16,
        limit: u32,
        log: *mut u32,
        log_len: usize,
        logged: *mut usize,
    ) -> u64;
    pub fn nilguseg_replay(
        core: *mut Core,
        size: usize,
        edition: u16,
        limit: u32,
        log: *const u32,
        log_len: usize,
    ) -> u64;
    pub fn nilguseg_replay_guarded(
        core: *mut Core,
        size: usize,
        rights: *const u8,
        rights_len: usize,
        edition: u16,
        limit: u32,
        log: *const u32,
        log_len: usize,
    ) -> u64;
    pub fn nilguseg_load_words(
        core: *mut Core,
        edition: *mut u16,
        words: *const u16,
        words_len: usize,
        memory: *mut u16,
        memory_len: usize,
    ) -> u32;
    pub fn nilguseg_load_sheet(
        core: *mut Core,
        edition: *mut u16,
        sheet: *const u32,
        sheet_len: usize,
        memory: *mut u16,
        memory_len: usize,
    ) -> u32;
    pub fn nilguseg_write_sheet(
        core: *const Core,
        edition: u16,
        memory: *const u16,
        memory_len: usize,
        sheet: *mut u32,
        sheet_len: usize,
    ) -> u64;
    pub fn nilguseg_compare(first: *const u16, first_len: usize, second: *const u16, second_len: usize) -> u32;
    pub fn nilguseg_earlier(
        first: *const u16,
        first_len: usize,
        second: *const u16,
        second_len: usize,
        from: *mut usize,
    ) -> u32;
}

#[cfg(test)]
mod tests {
    use super::*;
    use crate::{right, PAGES};

    #[test]
    fn the_header_has_the_same_numbers() {
        let header = include_str!("../../../include/nilguseg.h");
        for number in [
            format!("NILGUSEG_STEPPED = {STEPPED},"),
            format!("NILGUSEG_HALTED = {HALTED},"),
            format!("NILGUSEG_LIMIT = {LIMIT},"),
            format!("NILGUSEG_FAULT = {FAULT},"),
            format!("NILGUSEG_REFUSED = {REFUSED},"),
            format!("NILGUSEG_LOG = {LOG} "),
            format!("NILGUSEG_MAY_READ = {},", right::READ),
            format!("NILGUSEG_MAY_WRITE = {},", right::WRITE),
            format!("NILGUSEG_MAY_EXECUTE = {},", right::EXECUTE),
            format!("NILGUSEG_PAGES = {PAGES}\n"),
            format!("NILGUSEG_EQUAL = {EQUAL},"),
            format!("NILGUSEG_FIRST = {FIRST},"),
            format!("NILGUSEG_SECOND = {SECOND}\n"),
        ] {
            assert!(header.contains(&number), "{number}");
        }
    }

    /// The answers to one step and to a run of at most one, of `word` alone in memory.
    fn answers(word: u16, ef: u16, marks_len: usize, edition: u16) -> (u32, u64) {
        let (mut memory, mut marks) = ([word], vec![0; marks_len]);
        let [mut stepped, mut ran] = [Core { ef, ..Core::new() }; 2];
        // SAFETY: pointers and lengths are those of slices.
        unsafe {
            (
                nilguseg_step(&mut stepped, memory.as_mut_ptr(), 1, marks.as_mut_ptr(), marks_len, edition),
                nilguseg_run(&mut ran, memory.as_mut_ptr(), 1, marks.as_mut_ptr(), marks_len, edition, 1),
            )
        }
    }

    #[test]
    fn a_step_and_a_run_answer_by_one_numbering() {
        for edition in [1, 2] {
            assert_eq!(answers(0x1003, 0, 1, edition), (0, 0x0200_0000_0000_0001));
            assert_eq!(answers(0xFFFF, 0, 1, edition), (0, 0x0100_0000_0000_0001));
            assert_eq!(answers(0x1003, 1, 1, edition), (0x0100_0000, 0x0100_0000_0000_0000));
            assert_eq!(answers(0x4600, 0, 1, edition), (0x030A_4600, 0x030A_4600_0000_0000));
            assert_eq!(answers(0x1003, 0, 2, edition), (0x0402_0000, 0x0402_0000_0000_0000));
        }
        assert_eq!(answers(0x1003, 0, 1, 3), (0x0422_0000, 0x0422_0000_0000_0000));
    }

    /// The answers to a logged run of at most `limit` steps, of `word` alone in memory and with
    /// room for eight log words, and to its replay; and what the run writes over the number of its
    /// log words.
    fn log_answers(word: u16, marks_len: usize, limit: u32) -> (u64, u64, usize) {
        let (mut memory, mut marks, mut log, mut logged) = ([word], vec![0; marks_len], [0; 8], 99);
        let [mut ran, mut seen] = [Core::new(); 2];
        // SAFETY: pointers and lengths are those of slices, and the log has no more words than its
        // length.
        unsafe {
            let (memory, marks) = (memory.as_mut_ptr(), marks.as_mut_ptr());
            let run =
                nilguseg_run_logged(&mut ran, memory, 1, marks, marks_len, 1, limit, log.as_mut_ptr(), 8, &mut logged);
            (run, nilguseg_replay(&mut seen, 1, 1, limit, log.as_ptr(), logged), logged)
        }
    }

    #[test]
    fn a_logged_run_and_a_replay_answer_by_it_too() {
        assert_eq!(log_answers(0xFFFF, 1, 9), (0x0100_0000_0000_0001, 0x0100_0000_0000_0001, 2));
        assert_eq!(log_answers(0x1003, 1, 1), (0x0200_0000_0000_0001, 0x0200_0000_0000_0001, 2));
        assert_eq!(log_answers(0x4600, 1, 9), (0x030A_4600_0000_0000, 0x030A_4600_0000_0000, 2));
        assert_eq!(log_answers(0x60FF, 1, 9), (0x051E_0000_0000_0003, 0x051F_0000_0000_0000, 6));
        assert_eq!(log_answers(0x1003, 2, 9), (0x0402_0000_0000_0000, 0x051F_0000_0000_0000, 0));
    }

    /// The answers to a guarded run of at most one step, of `word` alone in memory, to the same
    /// with a log, and to its replay.
    fn guarded_answers(word: u16, rights: &[u8], edition: u16) -> [u64; 3] {
        let (mut memory, mut marks, mut log, mut logged) = ([word], [0], [0; 8], 99);
        let [mut plain, mut ran, mut seen] = [Core::new(); 3];
        // SAFETY: pointers and lengths are those of slices, and the log has no more words than its
        // length.
        unsafe {
            let (memory, marks) = (memory.as_mut_ptr(), marks.as_mut_ptr());
            let (rights, count, log) = (rights.as_ptr(), rights.len(), log.as_mut_ptr());
            [
                nilguseg_run_guarded(&mut plain, memory, 1, marks, 1, rights, count, edition, 1),
                nilguseg_run_logged_guarded(
                    &mut ran,
                    memory,
                    1,
                    marks,
                    1,
                    rights,
                    count,
                    edition,
                    1,
                    log,
                    8,
                    &mut logged,
                ),
                nilguseg_replay_guarded(&mut seen, 1, rights, count, edition, 1, log, logged),
            ]
        }
    }

    #[test]
    fn guarded_calls_answer_by_it_too() {
        assert_eq!(guarded_answers(0x1003, &[4; 256], 1), [0x0200_0000_0000_0001; 3]);
        assert_eq!(guarded_answers(0x1003, &[3; 256], 1), [0x0321_0000_0000_0000; 3]);
        assert_eq!(guarded_answers(0x23D0, &[7; 256], 2), [0x030B_FFFE_0000_0000; 3]);
        assert_eq!(guarded_answers(0x1003, &[8; 256], 2), [0x0420_0000_0000_0000; 3]);
        assert_eq!(guarded_answers(0x1003, &[7; 257], 3), [0x0420_0000_0000_0000; 3]);
        assert_eq!(guarded_answers(0x1003, &[7; 256], 3), [0x0422_0000_0000_0000; 3]);
    }
}
