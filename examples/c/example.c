/* The worked example of docs/SHEETS.md: putl r0 3, hlt; once from a word list, once from a rule
 * sheet. Then a sheet that chooses edition 2 and one that lost a record, the example's run logged
 * and seen again, a rule that may not read the fees, and word lists compared. Ends with status 1 if
 * anything is not as include/nilguseg.h and the pages in docs/ say. */
#include <stdbool.h>
#include <stddef.h>
#include <stdio.h>
#include <string.h>

#include "nilguseg.h"

/* The layout that the library was proved for. */
_Static_assert(offsetof(nilguseg_core, r) == 0 && offsetof(nilguseg_core, ip) == 16 &&
                   offsetof(nilguseg_core, rp) == 18 && offsetof(nilguseg_core, sp) == 20 &&
                   offsetof(nilguseg_core, ef) == 22 && sizeof(nilguseg_core) == 24,
               "a core is its registers as words, without padding");

static bool all_as_expected = true;

static void expect(bool holds, const char *what)
{
    printf("%s: %s\n", holds ? "as expected" : "UNEXPECTED", what);
    all_as_expected = all_as_expected && holds;
}

/* The line of the program `berth`, for the two ends met here. */
static void print_line(uint64_t answer, const nilguseg_core *core)
{
    printf("%s %u", answer >> 56 == NILGUSEG_HALTED ? "halted" : "limit", (unsigned)answer);
    printf(" %u %u %u %u", core->ip, core->rp, core->sp, core->ef);
    for (int i = 0; i < 8; i++)
        printf(" %u", core->r[i]);
    printf("\n");
}

static bool same_core(const nilguseg_core *left, const nilguseg_core *right)
{
    return memcmp(left, right, sizeof *left) == 0;
}

/* From a fresh core, in the edition that loading answered: limit 1, then again with limit 2. */
static void run_example(nilguseg_core *core, uint16_t edition, uint16_t memory[2])
{
    static const nilguseg_core halted = {.r = {3}, .ip = 2, .sp = 0xFFFF, .ef = 1};
    nilguseg_core stopped = *core;
    uint8_t marks[2] = {9, 9};

    uint64_t answer = nilguseg_run(&stopped, memory, 2, marks, 2, edition, 1);
    print_line(answer, &stopped);
    expect(answer == ((uint64_t)NILGUSEG_LIMIT << 56 | 1), "limit 1 ends the run after 1 step");
    expect(marks[0] == 1 && marks[1] == 0, "only address 0 was read");

    answer = nilguseg_run(core, memory, 2, marks, 2, edition, 2);
    print_line(answer, core);
    expect(answer == ((uint64_t)NILGUSEG_HALTED << 56 | 2), "limit 2 lets it halt after 2 steps");
    expect(same_core(core, &halted), "r0 3, ip 2, ef 1");
    expect(marks[0] == 1 && marks[1] == 1, "both addresses were read");

    uint32_t step = nilguseg_step(core, memory, 2, marks, 2, edition);
    expect(step == (uint32_t)NILGUSEG_HALTED << 24, "a further step answers halted");
}

/* Each answer of a step and of a run by its number. */
static void by_number(void)
{
    uint16_t memory[2] = {0x1003, 0x4600};
    uint8_t marks[2] = {0, 0};
    nilguseg_core core = {.sp = 0xFFFF}, halted = {.sp = 0xFFFF, .ef = 1};

    puts("-- outcomes by number");
    expect(nilguseg_step(&core, memory, 2, marks, 2, 1) == 0, "a step that executes putl: 0");
    expect(nilguseg_step(&halted, memory, 2, marks, 2, 1) == 0x01000000,
           "a step of a halted core: 1");
    expect(nilguseg_run(&halted, memory, 2, marks, 2, 1, 9) == 0x0100000000000000,
           "and a run of it: 1");
    expect(nilguseg_run(&core, memory, 2, marks, 2, 1, 0) == 0x0200000000000000,
           "a run of limit 0: 2");
    expect(nilguseg_run(&core, memory, 2, marks, 2, 1, 9) == 0x030A460000000000,
           "a run into an undecodable word: 3, 10");
    core.ip = 2;
    expect(nilguseg_step(&core, memory, 2, marks, 2, 1) == 0x030B0002, "a step past memory: 3, 11");
    expect(nilguseg_step(&core, memory, 2, marks, 1, 1) == 0x04020000,
           "a step with too few marks: 4, 2");
    expect(nilguseg_run(&core, memory, 0, marks, 0, 1, 9) == 0x0401000000000000,
           "a run without memory: 4, 1");
    expect(nilguseg_run(&core, memory, 2, marks, 2, 3, 9) == 0x0422000000000000,
           "a run in an edition 3: 4, 34");
}

static void from_words(void)
{
    static const uint16_t words[2] = {0x1003, 0xFFFF};
    nilguseg_core core;
    uint16_t edition, memory[2];

    puts("-- a word list");
    expect(nilguseg_decode(words[0]) == ((uint32_t)NILGUSEG_PUTL << 16 | 3), "0x1003 is putl r0 3");
    expect(nilguseg_encode(NILGUSEG_HLT, 0, 0) == words[1], "hlt is 0xFFFF");
    expect(nilguseg_load_words(&core, &edition, words, 2, memory, 2) == 0 && edition == 1,
           "the list loads, in edition 1");
    run_example(&core, edition, memory);

    uint16_t small[1] = {7};
    expect(nilguseg_load_words(&core, &edition, words, 2, small, 1) == 3 && small[0] == 7,
           "a list longer than memory is refused with 3, memory unchanged");
}

static void from_sheet(void)
{
    static const uint32_t sheet[3] = {0x20001003, 0x2000FFFF, 0xF0000002};
    nilguseg_core core;
    uint16_t edition, memory[2];

    puts("-- a rule sheet");
    expect(nilguseg_load_sheet(&core, &edition, sheet, 3, memory, 2) == 0 && edition == 1,
           "the sheet loads, in edition 1");
    run_example(&core, edition, memory);

    uint32_t written[16];
    nilguseg_core core_again;
    uint16_t memory_again[2];
    uint64_t count = nilguseg_write_sheet(&core, edition, memory, 2, written, 16);
    expect(count == 16, "12 presets, a place, 2 words and the end are written");
    expect(nilguseg_load_sheet(&core_again, &edition, written, 16, memory_again, 2) == 0,
           "what was written loads");
    expect(same_core(&core, &core_again) && memcmp(memory, memory_again, sizeof memory) == 0,
           "and restores core and memory");
    expect(nilguseg_load_sheet(&core, &edition, sheet, 2, memory, 2) == 24,
           "without its end record it is refused with 24");
}

/* A rule that shifts 1 by 16: 1 in r0, 16 in r1, shl r0 r1, hlt; in edition 1, and in 2 with the
 * record that chooses it. Each end counts all records before it. */
static const uint32_t first[5] = {0x30000001, 0x30010010, 0x20004410, 0x2000FFFF, 0xF0000004};
static const uint32_t second[6] = {0x70000002, 0x30000001, 0x30010010,
                                   0x20004410, 0x2000FFFF, 0xF0000005};

static void from_sheet_with_edition(void)
{
    nilguseg_core core;
    uint16_t edition, memory[2];
    uint8_t marks[2];
    uint32_t written[17];

    puts("-- a sheet that chooses its edition");
    expect(nilguseg_load_sheet(&core, &edition, first, 5, memory, 2) == 0 && edition == 1,
           "without the record: 1");
    expect(nilguseg_run(&core, memory, 2, marks, 2, edition, 9) == 0x030D001000000000,
           "the shift stops: 3, 13, 16");

    expect(nilguseg_load_sheet(&core, &edition, second, 6, memory, 2) == 0 && edition == 2,
           "with it: 2");
    expect(nilguseg_write_sheet(&core, edition, memory, 2, written, 17) == 17 &&
               written[0] == second[0],
           "the writer puts it first");
    expect(written[16] == 0xF0000010, "and counts it with 12 presets, a place and 2 words");
    expect(nilguseg_run(&core, memory, 2, marks, 2, edition, 9) ==
               ((uint64_t)NILGUSEG_HALTED << 56 | 2),
           "the rule halts");
    expect(core.r[0] == 0, "and the shift gave 0");

    expect(nilguseg_load_sheet(&core, &edition, second, 5, memory, 2) == 24 && edition == 1,
           "a refused sheet: 1");
    expect(nilguseg_write_sheet(&core, 3, memory, 2, written, 0) == (uint64_t)34 << 32,
           "a sheet of edition 3 is not written");
}

/* The same sheets without one of their records. */
static void from_sheet_that_lost_a_record(void)
{
    static const uint32_t no_preset[4] = {0x30000001, 0x20004410, 0x2000FFFF, 0xF0000004};
    nilguseg_core core = {.r = {9}}, fresh = {.sp = 0xFFFF};
    uint16_t edition = 9, memory[2] = {7, 7};

    puts("-- a sheet that lost a record");
    expect(nilguseg_load_sheet(&core, &edition, no_preset, 4, memory, 2) == 26,
           "without the preset of r1: refused with 26");
    expect(memory[0] == 7 && memory[1] == 7, "memory is unchanged");
    expect(same_core(&core, &fresh) && edition == 1, "the core is fresh, and the edition 1");
    expect(nilguseg_load_sheet(&core, &edition, second + 1, 5, memory, 2) == 26,
           "without the edition too: its end counts 5");
}

/* The example with a log, and seen again once its memory is lost. */
static void logged_and_replayed(void)
{
    static const uint32_t reads[4] = {0x40010000, 0x50001003, 0x40010001, 0x5000FFFF};
    nilguseg_core fresh = {.sp = 0xFFFF}, core = fresh, seen = fresh;
    uint16_t memory[2] = {0x1003, 0xFFFF};
    uint8_t marks[2];
    uint32_t log[8] = {[4] = 7, [5] = 7, [6] = 7, [7] = 7};
    size_t logged = 99;

    puts("-- a logged run and its replay");
    expect(nilguseg_run_logged(&core, memory, 2, marks, 1, 1, 2, log, 8, &logged) ==
                   0x0402000000000000 &&
               logged == 0,
           "with too few marks it is refused, and nothing is logged");
    uint64_t answer = nilguseg_run_logged(&core, memory, 2, marks, 2, 1, 2, log, 8, &logged);
    print_line(answer, &core);
    expect(answer == ((uint64_t)NILGUSEG_HALTED << 56 | 2), "it halts after 2 steps");
    expect(logged == 4 && memcmp(log, reads, sizeof reads) == 0,
           "two fetches are logged, two words each");
    expect(log[4] == 7 && log[5] == 7 && log[6] == 7 && log[7] == 7,
           "and the log past them is unchanged");

    memset(memory, 0, sizeof memory);
    expect(nilguseg_replay(&seen, 2, 1, 2, log, logged) == answer && same_core(&seen, &core),
           "the replay is the same");
    seen = fresh;
    log[1]++;
    expect(nilguseg_replay(&seen, 2, 1, 2, log, logged) == answer && seen.r[0] == 4,
           "with 0x1004 logged it leaves r0 4");
    seen = fresh;
    expect(nilguseg_replay(&seen, 2, 1, 2, log, 3) == 0x051F000000000000 &&
               same_core(&seen, &fresh),
           "without the last log word: 5, 31, and the core unchanged");
    expect(nilguseg_replay(&seen, 0, 1, 2, log, 4) == 0x0401000000000000, "with size 0: 4, 1");

    core = fresh;
    memory[0] = 0x60FF;
    expect(nilguseg_run_logged(&core, memory, 2, marks, 2, 1, 9, log, 8, &logged) ==
                   0x051E000000000003 &&
               logged == 6,
           "a loop has no room after 3 steps: 5, 30");
}

/* A rule on page 0 that reads the fee on page 1 into r1: puth r0 1, read r1 r0, hlt. */
enum { WORDS = 0x0200, FEE = 0x0100, STEPS = 9 };
static uint16_t rule[WORDS] = {0x1801, 0x2001, 0xFFFF, [FEE] = 250};
static uint8_t rule_marks[WORDS];

static uint64_t run_rule(nilguseg_core *core, const uint8_t *rights, size_t rights_len)
{
    *core = (nilguseg_core){.sp = 0xFFFF};
    return nilguseg_run_guarded(core, rule, WORDS, rule_marks, WORDS, rights, rights_len, 1, STEPS);
}

static void guarded(void)
{
    uint8_t rights[NILGUSEG_PAGES + 1] = {NILGUSEG_MAY_EXECUTE};
    nilguseg_core core;

    puts("-- rights over memory pages");
    expect(run_rule(&core, rights, NILGUSEG_PAGES) == 0x0321010000000001,
           "the fee may not be read: 3, 33, its address");
    expect(core.ip == 2 && core.r[1] == 0, "the rule ends after 1 step, without the fee");
    expect(rule_marks[1] == 1 && rule_marks[FEE] == 0, "the fee was not read");

    rights[1] = NILGUSEG_MAY_READ;
    expect(run_rule(&core, rights, NILGUSEG_PAGES) == ((uint64_t)NILGUSEG_HALTED << 56 | 3),
           "with the right it halts");
    expect(core.r[1] == rule[FEE] && rule_marks[FEE] == 1, "and has read the fee");

    expect(run_rule(&core, rights, NILGUSEG_PAGES + 1) == 0x0420000000000000,
           "257 rights are refused: 4, 32");
    rights[255] = 8;
    expect(run_rule(&core, rights, NILGUSEG_PAGES) == 0x0420000000000000,
           "and so is a byte above 7");
    expect(core.ip == 0 && rule_marks[FEE] == 1, "core and marks are unchanged");
}

static void guarded_and_replayed(void)
{
    uint8_t rights[NILGUSEG_PAGES] = {NILGUSEG_MAY_EXECUTE};
    nilguseg_core fresh = {.sp = 0xFFFF}, core = fresh, seen = fresh;
    uint32_t log[8];
    size_t logged = 99;

    puts("-- and the replay with them");
    uint64_t answer = nilguseg_run_logged_guarded(&core, rule, WORDS, rule_marks, WORDS, rights,
                                                  NILGUSEG_PAGES, 1, STEPS, log, 8, &logged);
    expect(answer == 0x0321010000000001 && logged == 4,
           "the run ends as without a log, and two fetches are logged");
    expect(nilguseg_replay_guarded(&seen, WORDS, rights, NILGUSEG_PAGES, 1, STEPS, log, logged) ==
                   answer &&
               same_core(&seen, &core),
           "the replay is the same");
    seen = fresh;
    rights[1] = NILGUSEG_MAY_READ;
    expect(nilguseg_replay_guarded(&seen, WORDS, rights, NILGUSEG_PAGES, 1, STEPS, log, logged) ==
               0x051F000000000000,
           "with other rights it reads on, and the log is over: 5, 31");
}

/* The lists 3 1, 3 1 0 and 3 0 7 9: the last comes first, and the others are equal. */
static void compared(void)
{
    static const uint16_t two[2] = {3, 1}, three[3] = {3, 1, 0}, four[4] = {3, 0, 7, 9};
    size_t from = 99;

    puts("-- which of two word lists comes first");
    expect(nilguseg_compare(two, 2, four, 4) == NILGUSEG_SECOND, "3 0 7 9 before 3 1");
    expect(nilguseg_compare(four, 4, two, 2) == NILGUSEG_FIRST, "and given the other way round");
    expect(nilguseg_compare(two, 2, three, 3) == NILGUSEG_EQUAL, "3 1 and 3 1 0 are equal");
    expect(nilguseg_earlier(two, 2, four, 4, &from) == NILGUSEG_SECOND && from == 1,
           "the part 0 7 9 of the second");
    expect(nilguseg_earlier(four, 1, two, 2, &from) == NILGUSEG_FIRST && from == 1,
           "the empty end of the first, which is 3");
    expect(nilguseg_earlier(two, 2, three, 3, &from) == NILGUSEG_EQUAL && from == 2,
           "the end of 3 1");
    expect(nilguseg_earlier(three, 3, two, 2, &from) == NILGUSEG_EQUAL && from == 3,
           "the end of 3 1 0");
    expect(nilguseg_earlier(two, 0, three, 0, &from) == NILGUSEG_EQUAL && from == 0,
           "two empty lists");
}

int main(void)
{
    from_words();
    from_sheet();
    from_sheet_with_edition();
    from_sheet_that_lost_a_record();
    by_number();
    logged_and_replayed();
    guarded();
    guarded_and_replayed();
    compared();
    return all_as_expected ? 0 : 1;
}
