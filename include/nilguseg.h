/* Nilguseg: the Delta Null interpreter, for C hosts. Link with libnilguseg.a and, for decode and
 * encode, libnilguseg_words.a, for the logged runs, libnilguseg_log.a, for the replays,
 * libnilguseg_replay.a, and for nilguseg_run_guarded, libnilguseg_guarded.a. They ask for one name
 * from outside, memset.
 *
 * The machine is that of docs/MACHINE.md, and rule sheets are those of docs/SHEETS.md. The numbers
 * of faults, refusals and ends by the log are those of docs/NUMBERS.md.
 *
 * An edition is handed over by its number, 1 or 2: steps, runs, replays and the sheet writer take
 * one, and a load gives one back. In edition 1 shl, shr and bitset by 16 or more and neg of 0x8000
 * stop; in edition 2 they do not (docs/MACHINE.md, Editions).
 *
 * Required of every call: each pointer is valid for its length (one core or one number, else as
 * many elements as the length beside it says), and what is lent for writing overlaps nothing else
 * that is lent. Nothing else is required: lengths and contents that do not fit are refused. No call
 * keeps a pointer.
 *
 * Lengths count elements, not bytes. An answer's parts that a line below does not name are 0.
 */
#ifndef NILGUSEG_H
#define NILGUSEG_H

#include <stddef.h>
#include <stdint.h>

#ifdef __cplusplus
extern "C" {
#endif

/* The registers (docs/MACHINE.md, Registers). A fresh core is all 0 except sp, which is 0xFFFF.
 * The library reads and writes them as words in this order, without padding: examples/c checks
 * it. */
typedef struct nilguseg_core {
    uint16_t r[8]; /* r0 to r7 */
    uint16_t ip;
    uint16_t rp;
    uint16_t sp;
    uint16_t ef; /* bit 0 is halt, bit 1 is condition */
} nilguseg_core;

/* How a step, a run or a replay came out: one numbering for all. Numbers above 5 are free for
 * further ends. A load, a write and a comparison answer otherwise. */
enum {
    NILGUSEG_STEPPED = 0, /* of a step: an instruction was executed */
    NILGUSEG_HALTED = 1,  /* the core was halted already, or the run halted it */
    NILGUSEG_LIMIT = 2,   /* of a run: its limit of steps was reached */
    NILGUSEG_FAULT = 3,   /* the words caused a stop */
    NILGUSEG_REFUSED = 4, /* lengths, rights or the edition do not fit: nothing was run */
    NILGUSEG_LOG = 5      /* of a logged run or a replay: the log ended it */
};

/* The rights over memory that a run may be given: NILGUSEG_PAGES bytes, one for each page of 256
 * addresses, the sum of what is allowed there (docs/MACHINE.md, Rights). The page of an address is
 * address / 256. */
enum {
    NILGUSEG_MAY_READ = 1,
    NILGUSEG_MAY_WRITE = 2,
    NILGUSEG_MAY_EXECUTE = 4,
    NILGUSEG_PAGES = 256
};

/* The kinds of instruction, each with its operands: first, second. docs/MACHINE.md, Instructions,
 * says what each does. */
enum {
    NILGUSEG_NOP,
    NILGUSEG_HLT,
    NILGUSEG_MOV,     /* dest, src */
    NILGUSEG_DMOV,    /* dest, src: decimal registers */
    NILGUSEG_PUTL,    /* reg, byte */
    NILGUSEG_PUTH,    /* reg, byte */
    NILGUSEG_READ,    /* val, addr */
    NILGUSEG_WRITE,   /* addr, val */
    NILGUSEG_SPREAD,  /* val, offset */
    NILGUSEG_SPWRITE, /* offset, val */
    NILGUSEG_DREAD,   /* val: a decimal register, addr */
    NILGUSEG_DWRITE,  /* addr, val: a decimal register */
    NILGUSEG_PUSH,    /* val */
    NILGUSEG_POP,     /* val */
    NILGUSEG_MOVSO,   /* dest, src: a special register */
    NILGUSEG_MOVSI,   /* dest: a special register, src */
    NILGUSEG_SPADD,   /* val */
    NILGUSEG_SPINC,
    NILGUSEG_SPDEC,
    NILGUSEG_NOT,     /* reg */
    NILGUSEG_AND,     /* reg, val */
    NILGUSEG_BOOLAND, /* reg, val */
    NILGUSEG_OR,      /* reg, val */
    NILGUSEG_XOR,     /* reg, val */
    NILGUSEG_SHL,     /* reg, val */
    NILGUSEG_SHR,     /* reg, val */
    NILGUSEG_BITSET,  /* reg, idx */
    NILGUSEG_NEG,     /* reg */
    NILGUSEG_INC,     /* reg */
    NILGUSEG_DEC,     /* reg */
    NILGUSEG_ADD,     /* reg, val */
    NILGUSEG_SUB,     /* reg, val */
    NILGUSEG_MUL,     /* reg, val */
    NILGUSEG_INV,
    NILGUSEG_EQZ,     /* reg */
    NILGUSEG_EQ,      /* left, right */
    NILGUSEG_GT,      /* left, right */
    NILGUSEG_GTEQ,    /* left, right */
    NILGUSEG_JMPOFF,  /* byte */
    NILGUSEG_CJMPOFF, /* byte */
    NILGUSEG_CJMP,    /* src */
    NILGUSEG_CALL,    /* src */
    NILGUSEG_RET
};

/* The instruction that a word stands for.
 *   bits 31..24  0, or 10 for a word that stands for none
 *   with 0:      bits 23..16 the kind, bits 15..8 the first operand, bits 7..0 the second (0 where
 *                there is none)
 *   with 10:     bits 15..0 the word */
uint32_t nilguseg_decode(uint16_t word);

/* The word of an instruction: the inverse of nilguseg_decode.
 * 0x10000 where the kind is above 42, or a register operand above 7 (above 3 for special and
 * decimal registers).
 * A spread or spwrite offset above 15 goes by its low four bits; an operand that the kind does not
 * have is ignored. */
uint32_t nilguseg_encode(uint8_t kind, uint8_t first, uint8_t second);

/* One step: fetch the word at ip, advance ip, decode, execute (docs/MACHINE.md, One step).
 *   bits 31..24  NILGUSEG_STEPPED, _HALTED, _FAULT or _REFUSED
 *   bits 23..16  the number of the fault or the refusal
 *   bits 15..0   the fault's value
 * The step adds to the marks and clears none: 1 for an address read whose mark has not 2, 2 for one
 * written (docs/MACHINE.md, Memory and marks). A step that executes hlt is stepped; halted is the
 * answer for a core that was halted before: nothing changes.
 * Faults (memory keeps what it has, and ip is advanced unless said):
 *   10  the word is undecodable [word]
 *   11  the address is at or past memory's length [address]; at a fetch ip stays, at a push sp
 *       stays lowered
 *   12  dmov, dread, dwrite [word]
 *   13  in edition 1 shl, shr, bitset by 16 or more [amount]
 *   14  in edition 1 neg of 0x8000 [0x8000]
 * In edition 2 such a shl or shr gives 0, such a bitset leaves its register, and neg of 0x8000
 * gives 0x8000.
 * Refused, with core, memory and marks unchanged, tested in this order (docs/NUMBERS.md, The order
 * of the tests):
 *   1   memory_len is not 1 to 65,536
 *   2   marks_len differs from memory_len
 *   34  edition is neither 1 nor 2 */
uint32_t nilguseg_step(nilguseg_core *core, uint16_t *memory, size_t memory_len, uint8_t *marks,
                       size_t marks_len, uint16_t edition);

/* Sets all marks to 0, then steps until the core is halted, `limit` steps are counted, or a step
 * faults (docs/MACHINE.md, The run).
 *   bits 63..56  NILGUSEG_HALTED, _LIMIT, _FAULT or _REFUSED
 *   bits 55..48  the number of the fault or the refusal
 *   bits 47..32  the fault's value
 *   bits 31..0   the steps counted; one that faults is not
 * Halt is tested before the limit. A mark is then 0, or the sum of 1 (read before this run wrote
 * there) and 2 (written). Faults and refusals are those of nilguseg_step; a refused run changes
 * nothing and has 0 steps. */
uint64_t nilguseg_run(nilguseg_core *core, uint16_t *memory, size_t memory_len, uint8_t *marks,
                      size_t marks_len, uint16_t edition, uint32_t limit);

/* nilguseg_run with rights (docs/MACHINE.md, Rights): a fetch needs NILGUSEG_MAY_EXECUTE, every
 * other read NILGUSEG_MAY_READ, a write NILGUSEG_MAY_WRITE. One more fault, tested after 11:
 *   33  the right is absent on the address's page [address]; at a fetch ip stays, at a push sp
 *       stays lowered
 * Such an access leaves no mark. Refused too, with core, memory and marks unchanged:
 *   32  rights_len is not 256, or a byte of the rights is above 7; tested after 2 and before 34
 * With 256 bytes of 7 it is nilguseg_run. */
uint64_t nilguseg_run_guarded(nilguseg_core *core, uint16_t *memory, size_t memory_len,
                              uint8_t *marks, size_t marks_len, const uint8_t *rights,
                              size_t rights_len, uint16_t edition, uint32_t limit);

/* nilguseg_run with a log (docs/MACHINE.md, Logs and replays): two words for each read, in order.
 * Their other bits are 0.
 *   bits 31..28  4, bit 16 set for a fetch, bits 15..0 the address
 *   bits 31..28  5, bits 15..0 the word
 * A read out of range is not logged; the fetch of a word that faults is. *logged becomes the
 * number of log words, 0 where refused; the log past them is unchanged. Answers as nilguseg_run,
 * or, tested after halt and the limit:
 *   bits 63..56  NILGUSEG_LOG
 *   bits 55..48  30: fewer than four log words are free
 *   bits 31..0   the steps counted
 * A run that ends so leaves core, memory and marks as nilguseg_run does with the limit set to
 * those steps. Any other is that of nilguseg_run in everything. Four log words for each step of
 * the limit always suffice. */
uint64_t nilguseg_run_logged(nilguseg_core *core, uint16_t *memory, size_t memory_len,
                             uint8_t *marks, size_t marks_len, uint16_t edition, uint32_t limit,
                             uint32_t *log, size_t log_len, size_t *logged);

/* nilguseg_run_logged with rights, as nilguseg_run_guarded has them. A read whose right is absent
 * is not logged. */
uint64_t nilguseg_run_logged_guarded(nilguseg_core *core, uint16_t *memory, size_t memory_len,
                                     uint8_t *marks, size_t marks_len, const uint8_t *rights,
                                     size_t rights_len, uint16_t edition, uint32_t limit,
                                     uint32_t *log, size_t log_len, size_t *logged);

/* Sees a logged run again, without its memory (docs/MACHINE.md, Logs and replays; docs/LOGS.md has
 * examples): takes the core that it started with, its memory_len as size, its edition, its limit
 * and the words of its log. If the run was not refused and did not end by 30, answers as it did,
 * and the core becomes the one that it left. The word of a read is taken as logged. Other answers,
 * with 0 steps and the core unchanged:
 *   bits 63..56  NILGUSEG_LOG or _REFUSED
 *   bits 55..48  with _LOG 31: the next two log words are not the read that is made, the log is
 *                over too soon, or words are left over; with _REFUSED 1: size is not 1 to 65,536,
 *                or else 34: edition is neither 1 nor 2 */
uint64_t nilguseg_replay(nilguseg_core *core, size_t size, uint16_t edition, uint32_t limit,
                         const uint32_t *log, size_t log_len);

/* nilguseg_replay of a run with rights, which must be those of the run. Refused too, with the core
 * unchanged:
 *   32  as nilguseg_run_guarded; tested after 1 and before 34 */
uint64_t nilguseg_replay_guarded(nilguseg_core *core, size_t size, const uint8_t *rights,
                                 size_t rights_len, uint16_t edition, uint32_t limit,
                                 const uint32_t *log, size_t log_len);

/* Loads a plain word list (docs/MACHINE.md, Word lists and their order): zeroes memory, copies the
 * words to its beginning, makes the core a fresh one and *edition 1. The answer is 0.
 * Refused, with memory unchanged, the core fresh and *edition 1; the answer is the number:
 *   1   memory_len is not 1 to 65,536
 *   3   words_len is above memory_len */
uint32_t nilguseg_load_words(nilguseg_core *core, uint16_t *edition, const uint16_t *words,
                             size_t words_len, uint16_t *memory, size_t memory_len);

/* Loads a rule sheet (docs/SHEETS.md, The records): from a fresh core, zero memory and edition 1,
 * sets what its records say, *edition with them. A record of kind 7 has the edition in bits 15..0;
 * the last one counts. The end record has in bits 27..0 the number of all records before it, of
 * every kind: places, words, presets and editions. The answer is 0.
 * Refused, with memory unchanged, the core fresh and *edition 1; the answer is the number:
 *   1   memory_len is not 1 to 65,536
 *   then the first of these, record by record:
 *   20  unknown kind                  21  a bit set that must be 0
 *   22  register above 11             34  edition neither 1 nor 2
 *   23  a word at or past memory_len  26  wrong count at the end record
 *   25  records after the end record
 *   and where all of them pass:
 *   24  no end record */
uint32_t nilguseg_load_sheet(nilguseg_core *core, uint16_t *edition, const uint32_t *sheet,
                             size_t sheet_len, uint16_t *memory, size_t memory_len);

/* Writes the sheet that restores this core, edition and memory when loaded into memory of the same
 * length (docs/SHEETS.md, What the writer gives). Its first record is the edition where that is 2;
 * for edition 1 there is none. Its end counts all before it: that record, 12 presets, the places
 * and the words. Without any one of its records the sheet is refused.
 *   bits 31..0   the number of records, the end included; the buffer past them is unchanged
 *   bits 63..32  0, or the number of the refusal, tested in this order, with the buffer unchanged
 *                and 0 records:
 *     1   memory_len is not 1 to 65,536
 *     34  edition is neither 1 nor 2
 *     4   sheet_len is below the number of records. 14 + memory_len + (memory_len + 1) / 2 always
 *         suffice. */
uint64_t nilguseg_write_sheet(const nilguseg_core *core, uint16_t edition, const uint16_t *memory,
                              size_t memory_len, uint32_t *sheet, size_t sheet_len);

/* Which of two word lists comes first (docs/MACHINE.md, Word lists and their order). */
enum {
    NILGUSEG_EQUAL = 0,
    NILGUSEG_FIRST = 1,
    NILGUSEG_SECOND = 2
};

/* Compares two word lists of any lengths: NILGUSEG_FIRST, _SECOND or _EQUAL.
 * They are compared at the first place where they differ, the shorter taken as followed by zeros;
 * the smaller word comes first. Lists that differ only in trailing zeros are equal. The two may
 * overlap. */
uint32_t nilguseg_compare(const uint16_t *first, size_t first_len, const uint16_t *second,
                          size_t second_len);

/* The part of the earlier list from that place on. Answers what nilguseg_compare does, and sets
 * *from to the place in the earlier list from which on the part is: in the second for
 * NILGUSEG_SECOND, else in the first. Where the earlier list is over at that place, *from is its
 * length, and where both are equal it is first_len: the part is an empty end. */
uint32_t nilguseg_earlier(const uint16_t *first, size_t first_len, const uint16_t *second,
                          size_t second_len, size_t *from);

#ifdef __cplusplus
}
#endif

#endif
