/* The C entries of Laqemdit: a fresh box is opened, a stopped box goes on, for one bundle or for a budget, and code is checked.
 *
 * Link with the archives that `bench/c` makes, of the crates open_entry_c, entries_c and, for the check, check_entry_c:
 * libopen_entry.a, libentries.a and libcheck_entry.a in target/staticlib.
 *
 * The contracts of the functions in the archives are proved. This header is not: that it declares what they have, and that a caller
 * keeps what is asked below, is believed.
 *
 * Asked of every call:
 * - A pointer stands before its length in bytes, and is valid for so many bytes. It has to be valid for length 0 too: not a null pointer.
 * - No two of the buffers of a call share a byte, `record` and `out` included.
 *
 * A box travels as a record: big-endian words in eleven sections, each behind its count of words. docs/RECORD.md has the layout. The length of
 * a record that was written is not given back, since it follows from the counts of its sections.
 */
#ifndef LAQEMDIT_H
#define LAQEMDIT_H

#include <stddef.h>
#include <stdint.h>

#ifdef __cplusplus
extern "C" {
#endif

/* Answers. 1 to 20 are refusals, by the numbers of the documents; those that an entry can give stand at the entry. */
enum {
    LAQEMDIT_OPENED = 0,   /* open: the fresh box was written */
    LAQEMDIT_DONE = 0,     /* step: the bundle was done */
    LAQEMDIT_ACCEPTED = 0, /* check: the code keeps the marking rules */
    LAQEMDIT_ENDED = 256,  /* the fetch address is the code's length and no transfer waits */
    LAQEMDIT_SPENT = 257   /* run: as many bundles as the budget were done, and the box has not ended */
};

/* The settings of a call are the lengths of its code (4 to 65536, a multiple of 4) and of its memories (0 to 65536 each), and the numbers that
 * stand last:
 *
 *   words   of the stack cache: a power of two, 4 to 512
 *   lo, hi  the stack area in main memory: multiples of 4, lo <= hi <= main_len
 *   on      0: the method cache is off, and the two numbers behind do not matter; any other number: it is on
 *   blocks  its capacity in blocks, 1 to 16
 *   bytes   its capacity in bytes, 64 to 16384
 *
 * Later versions append to this block of numbers; what stands in front of it keeps its order.
 */

/* The bytes of the longest record with a stack cache of so many words, which an `out` must have room for; 0 where no cache has so many. */
uint32_t laqemdit_longest(uint32_t words);

/* The fresh box at `entry`, written into `out` as a record: fetch address and base are the entry, p0 is true, ss and st are hi, sro is
 * code_len. All else is 0, the cache words and the counts too; nothing waits, no product is under way, no block is held, no handler is
 * active, and the replay is at its list's beginning.
 *
 *   answer  meaning                                                out
 *   0       the box was opened                                     its record, 4 * (69 + words) bytes
 *   1       settings outside the limits above                      as found
 *   14      out_len is below laqemdit_longest(words)               as found
 *   2       `entry` is not a multiple of 4, or not below code_len  as found
 *
 * 1 is judged first, then 14, then 2. Past the record `out` keeps its bytes. Of `code`, `main` and `local` only the lengths
 * matter, and they are not written: an entry whose word does not decode is opened too, and a step there is refused. A refused call leaves an
 * older record in `out` as it was: look at the answer.
 */
uint32_t laqemdit_open(const uint8_t *code, size_t code_len, const uint8_t *main, size_t main_len, const uint8_t *local, size_t local_len,
    uint8_t *out, size_t out_len, uint32_t entry,
    uint32_t words, uint32_t lo, uint32_t hi, uint32_t on, uint32_t blocks, uint32_t bytes);

/* One bundle (step), or as many as `budget` (run), from the box in `record`, over this code and these memories. The box that is left is
 * written into `out` as a record, with the counts of this call alone: they start at 0, whatever the counts in `record` are.
 *
 *   list   the interrupts of the replay, each two big-endian words: the number of bundles done in the replay before it is taken, and its
 *          vector, 0 to 31. Numbers do not fall. The box has its own place in the list, and goes on from there. An empty list is fine
 *   table  the addresses of the 32 handlers, big-endian words: 128 bytes, also with an empty list; 0 where a vector has no handler
 *
 *   answer         meaning                                    out                                             main, local
 *   0              step: the bundle was done                  the box behind it, with its counts              as the bundle left them
 *   256            step: the box had ended, nothing was done  the same box, counts 0                          as found
 *                  run: the box ended, perhaps at once        the box at its end, with the counts so far      as the last bundle left them
 *   257            run: the budget is spent                   the box behind the last bundle, with its counts as the last bundle left them
 *   1              settings outside the limits above          as found                                        as found
 *   14             `record` is no record of a well-formed     as found                                        as found
 *                  box under these settings and this code, or
 *                  out_len is below laqemdit_longest(words)
 *   15             list_len is no multiple of 8, table_len    as found                                        as found
 *                  is not 128, a number falls, or a vector is
 *                  above 31
 *   2 to 8, 13,    the next bundle is refused                 the box before that bundle, with the counts     as the bundle before
 *   16, 17                                                    so far (step: counts 0)                         left them
 *
 * 1 is judged first, then 14, then 15, then whether the box has ended, then the budget, then the bundle. Past the record `out` keeps its bytes.
 * `record`, `code`, `list` and `table` are only read.
 */
uint32_t laqemdit_step(const uint8_t *record, size_t record_len, const uint8_t *code, size_t code_len, uint8_t *main, size_t main_len,
    uint8_t *local, size_t local_len, uint8_t *out, size_t out_len, const uint8_t *list, size_t list_len, const uint8_t *table,
    size_t table_len,
    uint32_t words, uint32_t lo, uint32_t hi, uint32_t on, uint32_t blocks, uint32_t bytes);

uint32_t laqemdit_run(const uint8_t *record, size_t record_len, const uint8_t *code, size_t code_len, uint8_t *main, size_t main_len,
    uint8_t *local, size_t local_len, uint8_t *out, size_t out_len, const uint8_t *list, size_t list_len, const uint8_t *table,
    size_t table_len, uint32_t budget,
    uint32_t words, uint32_t lo, uint32_t hi, uint32_t on, uint32_t blocks, uint32_t bytes);

/* What the check found. */
struct laqemdit_checked {
    uint32_t answer;  /* 0 accepted; 1 settings or marking refused; 2, 3 or 9 the bundle at the address is refused */
    uint32_t address; /* of that bundle; 0 for the answers 0 and 1 */
    uint32_t rule;    /* for 9 a rule that the bundle breaks, 'A' to 'E' as 65 to 69; else 0 */
};

/* The check of the code under a marking. A bit that is set calls private:
 *
 *   registers   bit n: rn
 *   predicates  bit n: pn, for n up to 7; the bits above are ignored
 *   others      bit 0: sl, 1: sh, 2: main memory outside the stack area, 3: local memory, 4: the stack; the bits above are ignored
 *
 * r0 or p0 private is refused with 1. The memories are only lengths here: nothing of them is read.
 */
struct laqemdit_checked laqemdit_check(const uint8_t *code, size_t code_len, uint32_t registers, uint32_t predicates, uint32_t others,
    size_t main_len, size_t local_len,
    uint32_t words, uint32_t lo, uint32_t hi, uint32_t on, uint32_t blocks, uint32_t bytes);

#ifdef __cplusplus
}
#endif

#endif
