/*
 * Block placement: the functions of the archive libcapi.a, in C99 and C++.
 *
 * Each function is proved against the definitions of crates/model; its contract stands in crates/capi/src/lib.rt.
 *
 * To compile and link: `scripts/build capi` proves and makes the archive. Then, in the repository's folder,
 *   cc -Iinclude -o target/example examples/c/place.c target/staticlib/libcapi.a
 * compiles and links a caller, here the example. The archive needs no library but C's own.
 *
 * Terms (M is the number of machines, and C the copies that one can hold: see "The plan file")
 *   Counts      A number of copies for each block.
 *   Lawful      Counts are lawful where each is from the block's least copies to its limit by check 8, and their sum is
 *               at most the smaller of budget and M * C. A placement is lawful where its counts are, only machines
 *               below M hold copies, each block lies in at least as many racks (in version 4: feeds) as its spread, no
 *               machine holds more than C copies, and none holds both blocks of a pair.
 *   Share       What a copy takes of its block's reads: popularity * 2520 / count. The unit is a 2520th of a read, so
 *               that the shares of 1 to 10 copies are whole.
 *   Load        Of a machine: the sum of the shares of the copies that it holds.
 *   Chosen      The chosen counts are lawful. Their largest share is as small as any lawful counts make it, and each
 *               block has the smallest count, from its least copies on, that keeps its share within it.
 *   Step        A copy passes from machine m to n, or m and n exchange two copies. The placement stays lawful, and both
 *               loads are then below the load that m had. At rest there is no step.
 *
 * Results
 *   0         done: what is written below is written.
 *   1 to 23   refused, by the table below: nothing is written to any buffer.
 *   255       a lent buffer for results is too short (`out`, or the text of bpl_listing): nothing is written. A short
 *             `out` is judged first of all, before the plan is looked at.
 *   No other value is returned (proved: crates/codes/specs/Codes.antt, and for bpl_play by its contract).
 *
 *    1  the plan is shorter than 15 bytes           10  the sum of least copies is above the budget
 *    2  its mark differs from 42 50 4C              11  the sum of least copies is above M * C
 *    3  its version is none of 1 to 4; for          12  fewer than B counts or words are lent, or for
 *       bpl_convert it is neither 1 nor 2               bpl_convert fewer than 15 + 7 * B bytes
 *    4  R or S is 0, or M is above 64               13  a bit at or above M is set
 *    5  C is 0 or above 1,024                       14  a block's copies are not its chosen count
 *    6  B is above 1,024                            15  a block lies in fewer racks than its spread, in
 *    7  its length is not that of its version:          version 4 in fewer feeds
 *       15 + 5 * B, 15 + 6 * B, 15 + 7 * B or       16  a machine holds more than C copies
 *       16 + 7 * B                                  17  a pair byte is neither 0 nor 1, or the last block has
 *    8  least copies 0 or above min(L, M), of a         1, or two successive blocks have, or a pair differs
 *       paired block above min(L, M / 2), where L       in popularity, least copies or spread
 *       is 8, and in versions 3 and 4 it is 10      18  a machine holds both blocks of a pair
 *    9  a spread is 0, above the least copies, or   19  the block is not in the plan: its number is B or above
 *       above R, in version 4 above F               20  the last entry's tick has an age of 2^31 or more
 *                                                   21  the list is full after the dropping
 *                                                   22  F, in version 4, is 0 or does not divide R
 *                                                   23  the budget, in version 4, is above M * C
 *
 *   The checks go in this order:
 *     1, 2, 3, 4, 22, 5, 6, 7   the file's length and header;
 *     8, 9                      block by block, 8 first;
 *     17, 23, 10, 11            the whole plan: each over all blocks before the next;
 *     12                        the counts or words lent, or the bytes for bpl_convert, which makes no later check;
 *     13, 14, 15, 16, 18        a placement handed in (bpl_check, bpl_report, bpl_step, bpl_run, the calls of
 *                               bpl_play), each over all blocks or machines before the next;
 *     19, 20, 21                directly after 11, where 12 to 16 and 18 are not made: 19 in bpl_read and
 *                               bpl_popularity, 20 and 21 in bpl_read alone.
 *   17 refuses no plan of version 1, and 22 and 23 none before version 4. 11 refuses none of version 4: past 23 and 10
 *   the sum is within M * C. Past 17 and 23 a plan has no lawful placement exactly if it is refused with 10 or 11.
 *
 * The plan file, versions 1 to 4
 *   All fields are unsigned, high byte first. The header has the mark in 3 bytes, the version in 2, the racks R and the
 *   machines per rack S in one each, the capacity C in 2, the budget in 4 and the number of blocks B in 2: 15 bytes. In
 *   version 4 it has 16: the number of mains feeds F stands in a byte behind S. M is R * S, machine m is in rack m / S.
 *   Rack r hangs on feed r mod F. A spread counts racks, and in version 4 feeds: with F = R that is the same.
 *   A record has the popularity in 3 bytes, in versions 3 and 4 in 4, then the least copies and the spread in one each
 *   and, from version 2 on, a pair byte: 1 pairs the block with the next one, and no machine holds copies of both.
 *   M / 2 is rounded down. Both of a pair are paired for 8, and so is every block behind a byte of 1.
 *   A version 4 plan of 15 bytes has no whole B: it passes 6 and gets 7.
 *   All counts together are at most the smaller of budget and M * C. Before version 4 the budget may be above M * C.
 *
 * Buffers
 *   A buffer is a pointer and then the number of its items (bytes for uint8_t, words for uint64_t, records for struct
 *   bpl_entry; not the size in bytes). What every caller has to keep, since no function can test it:
 *   - The pointer is not null, also where the number is 0, and it is aligned for its type.
 *   - All items are readable for the whole call, and writable where the pointer is not const.
 *   - The buffers of one call do not overlap, and no other thread writes to one of them during the call, or reads one
 *     that the call writes. The plan may be shared: it is never written; `other` of bpl_play may be the same buffer.
 *   Any contents and any number of items are allowed; the functions make all the checks themselves.
 *   - `plan` is a plan file's bytes.
 *   - `words` is a placement: word i is block i, its bit m is set where machine m holds a copy. Words past the first
 *     B are never read or written.
 *   - `list` takes the reads that count, and `count` says how many: the entries are the first `count` records. Start
 *     with a count of 0, and hand in the list and the count that the last accepted read left. Records past the usable
 *     length, the smaller of list_len and BPL_MAX_ENTRIES, are never read or written; a count above it is taken as it.
 *   - `buffer` takes the bytes of a plan file. Its bytes past the plan that is written stay.
 *   - `out` takes numbers. Its items past those named are never written.
 *
 * The functions keep no state and use no memory but the lent buffers and the stack (120 KiB were enough where it was
 * measured; leave 256): calls in several threads at once are independent of each other. They always return: bpl_run
 * and bpl_listing after at most `step_limit` steps, and bpl_play's runs after at most as many as their limits say.
 */
#ifndef BPL_H
#define BPL_H

#include <stddef.h>
#include <stdint.h>

#ifdef __cplusplus
extern "C" {
#endif

/* The largest plan of any version: 1,024 blocks in version 4. */
#define BPL_MAX_BLOCKS 1024
#define BPL_MAX_PLAN_BYTES (16 + 7 * BPL_MAX_BLOCKS)

/* The records of a list that are used at most, and the milliseconds that a read counts: two hours. */
#define BPL_MAX_ENTRIES 4096
#define BPL_READ_WINDOW_MS 7200000

/* Items of `out` that a call writes, and has to be lent. */
#define BPL_REPORT_NUMBERS 4
#define BPL_STEP_NUMBERS 6
#define BPL_RUN_NUMBERS 2
#define BPL_LISTING_NUMBERS 1
#define BPL_PLAY_NUMBERS 7
#define BPL_READ_NUMBERS 1
#define BPL_POPULARITY_NUMBERS 1
#define BPL_CONVERT_NUMBERS 1

/* Bytes of text that bpl_listing has to be lent: every listing fits. */
#define BPL_LISTING_ROOM 65536

/* The result for a buffer of results that is too short. */
#define BPL_SHORT_BUFFER 255

/* The kinds of a step: in one rack, and between racks. They go by rack in every version. */
#define BPL_MOVE 0
#define BPL_SWAP 1
#define BPL_RACK_MOVE 2
#define BPL_RACK_SWAP 3

/* The kinds of a reply in bpl_play. */
#define BPL_REFUSED 0
#define BPL_CHECKED 1
#define BPL_STEPPED 2
#define BPL_RAN 3

/* Numbers of a fixed width for the macros below. C++ may warn of C's casts. */
#ifdef __cplusplus
#define BPL_UINT32(number) static_cast<uint32_t>(number)
#define BPL_UINT64(number) static_cast<uint64_t>(number)
#else
#define BPL_UINT32(number) ((uint32_t)(number))
#define BPL_UINT64(number) ((uint64_t)(number))
#endif

/*
 * A call in a script of bpl_play, as an item of the script: what it asks for, or-ed with how many of the words it is
 * lent (none without BPL_LEND) and, where it gets the other bytes in place of the plan's, with BPL_WITH_OTHER.
 *   BPL_ASK_STEP | BPL_LEND_ALL
 *   BPL_ASK_RUN(100) | BPL_LEND(3) | BPL_WITH_OTHER
 * Bits 0 to 31 are the step limit of a run, 32 and 33 the kind of call (0 check, 1 step, 2 and 3 run), 34 is set for
 * the other bytes, and 35 to 63 are the number of words, below 2^29; all are lent where there are fewer.
 */
#define BPL_ASK_CHECK BPL_UINT64(0)
#define BPL_ASK_STEP (BPL_UINT64(1) << 32)
#define BPL_ASK_RUN(step_limit) (BPL_UINT64(2) << 32 | BPL_UINT32(step_limit))
#define BPL_WITH_OTHER (BPL_UINT64(1) << 34)
#define BPL_LEND(number) (BPL_UINT64(number) << 35)
#define BPL_LEND_ALL BPL_LEND(0x1FFFFFFF)

/* Judges a plan: refusals 1 to 11, 17, 22 and 23. Writes nothing. */
uint32_t bpl_plan(const uint8_t *plan, size_t plan_len);

/*
 * The chosen counts: refusals 1 to 12, 17, 22 and 23. Writes the B counts to the first B items of `counts`; the others
 * stay. Each is from the block's least copies to its limit by check 8, so at most 8, in versions 3 and 4 at most 10.
 */
uint32_t bpl_counts(const uint8_t *plan, size_t plan_len, uint8_t *counts, size_t counts_len);

/* The first placement: refusals 1 to 12, 17, 22 and 23. Writes the first B words. */
uint32_t bpl_first(const uint8_t *plan, size_t plan_len, uint64_t *words, size_t words_len);

/* Checks a placement: refusals 1 to 18, 22 and 23. Writes nothing. */
uint32_t bpl_check(const uint8_t *plan, size_t plan_len, const uint64_t *words, size_t words_len);

/*
 * Reports on a placement: refusals 1 to 18, 22 and 23, and 255 where out_len is below 4.
 * Writes out[0] the largest load of a machine, out[1] the smallest, out[2] the sum of all loads, out[3] the largest
 * share of a copy (0 if B is 0), all in 2520ths of a read.
 */
uint32_t bpl_report(const uint8_t *plan, size_t plan_len, const uint64_t *words, size_t words_len,
                    uint64_t *out, size_t out_len);

/*
 * Takes the next step of a placement: refusals 1 to 18, 22 and 23, and 255 where out_len is below 6.
 * Writes the placement after the step to the first B words, and out[0] 1, out[1] the kind, out[2] m, out[3] n,
 * out[4] i, out[5] j: the copy of block i passes from machine m to n and, for a swap, that of block j from n to m
 * (j is 0 for a move). At rest there is no step: the words stay as they were and out[0] to out[5] are 0.
 */
uint32_t bpl_step(const uint8_t *plan, size_t plan_len, uint64_t *words, size_t words_len,
                  uint64_t *out, size_t out_len);

/*
 * Takes next steps of a placement until rest or until `step_limit` steps are taken: refusals 1 to 18, 22 and 23, and
 * 255 where out_len is below 2.
 * Writes the placement after the last step to the first B words, out[0] 1 for rest and 0 where the limit is used and a
 * step is still left, and out[1] the number of steps taken.
 */
uint32_t bpl_run(const uint8_t *plan, size_t plan_len, uint64_t *words, size_t words_len,
                 uint32_t step_limit, uint64_t *out, size_t out_len);

/*
 * The listing of a plan, of a run from its first placement of at most `step_limit` steps: refusals 1 to 11, 17, 22 and
 * 23, and 255 where out_len is below 1 or text_len below BPL_LISTING_ROOM.
 * Writes the listing's bytes (ASCII, no 0 at the end) to the start of `text`, and their number to out[0]; the text
 * behind them stays.
 *
 * Each line is a word and decimal numbers, parted by one space, and ends in a line feed:
 *   plan    once: R, S, B;
 *   block   for each block in file order: its number, its count, the share of each of its copies, and the machines
 *           that hold one, rising;
 *   rest    last, or `spent` where a step is still left: the number of steps taken, the largest load of a machine, the
 *           smallest, the sum of all loads, and the largest share of a copy (0 if B is 0).
 */
uint32_t bpl_listing(const uint8_t *plan, size_t plan_len, uint32_t step_limit, uint8_t *text, size_t text_len,
                     uint64_t *out, size_t out_len);

/*
 * Plays a script, checks, steps and runs one after the other over the same words: 255 where out_len is below 7, and
 * else 0, also where calls of the script are refused.
 * Of all functions here this is the one whose contract is the claim about lists of calls (demand 3 of the
 * specification) about code that has run: the calls that it has just made.
 *
 * Each item of `script` is a call, made by the macros above. It gets the bytes of `plan` or of `other`, and the first
 * so many of the words as it is lent, as the calls before it left them. A refused call writes nothing, and the next
 * one is made all the same. `other` may be empty: a call that gets it is refused with 1.
 * The words are as the last call left them. Writes that call's reply to out[0] to out[6]: out[0] its kind, and then
 *   BPL_REFUSED   out[1] the refusal, 1 to 18, 22 or 23;
 *   BPL_CHECKED   nothing: the check passed, or the script is empty;
 *   BPL_STEPPED   out[1] to out[6] as bpl_step writes out[0] to out[5];
 *   BPL_RAN       out[1] and out[2] as bpl_run writes out[0] and out[1];
 * what is not named is 0.
 *
 * The claim (crates/capi/specs/Script.antt): let the plan be accepted, the words before be a lawful placement with
 * the chosen counts, and each call get the plan and at least B words, or be refused. Then the words afterwards are a
 * lawful placement with the chosen counts, and those past the first B are as they were. The placement is at rest if
 * the last reply says so, by a step that found none or a run with 1; and at rest its hottest load is within the
 * specification's bounds of that of every lawful placement.
 */
uint32_t bpl_play(const uint8_t *plan, size_t plan_len, const uint8_t *other, size_t other_len,
                  uint64_t *words, size_t words_len, const uint64_t *script, size_t script_len,
                  uint64_t *out, size_t out_len);

/* A record of a list of reads: the block that was read, and the millisecond tick at which it was. */
struct bpl_entry {
    uint32_t block;
    uint32_t tick;
};

/*
 * Enters a read of a block at a millisecond tick of 32 bits, which starts over: refusals 1 to 11, 17 and 19 to 23, and
 * 255 where out_len is below 1. 12 is not tested.
 * The age of an entry is `tick` minus its own, modulo 2^32. Entries of age BPL_READ_WINDOW_MS and more are dropped,
 * those kept move to the front in order, the new one follows, and the later records of the usable length become 0.
 * Writes the new count, of the entries kept and the new one, to out[0].
 *
 * Proved (crates/theorems/specs/Histories.antt) of any sequence of calls that starts with a count of 0, each given the
 * list and the count that the last one left, nobody else writing to the list and each number keeping its block: the
 * entries are exactly the accepted reads that were in the window at every accepted tick since. With less than 2^31 ms
 * between successive accepted reads, as 20 takes it, they are those of the two hours before the last accepted one.
 * A tick behind that of the last entry is refused with 20, too: take ticks from a monotonic clock. After 2^31 ms (24.8
 * days) without an accepted read every read is refused with 20 until the tick has gone round. All entries are too old
 * by then: a count of 0 starts anew.
 */
uint32_t bpl_read(const uint8_t *plan, size_t plan_len, uint32_t block, uint32_t tick,
                  struct bpl_entry *list, size_t list_len, uint64_t count, uint64_t *out, size_t out_len);

/*
 * The popularity of a block, for the next plan file: refusals 1 to 11, 17, 19, 22 and 23, and 255 where out_len is
 * below 1.
 * Writes the number of the block's entries to out[0], for both blocks of a pair the larger of their numbers. The list
 * is not written: only bpl_read drops entries.
 */
uint32_t bpl_popularity(const uint8_t *plan, size_t plan_len, uint32_t block,
                        const struct bpl_entry *list, size_t list_len, uint64_t count, uint64_t *out, size_t out_len);

/*
 * Converts a plan of version 1 or 2 to version 3: refusals 1 to 12 and 17, 3 also for versions 3 and 4, and 255 where
 * out_len is below 1. 12, after all other checks, where buffer_len is below 15 + 7 * B: BPL_MAX_PLAN_BYTES are always
 * enough.
 * Writes the plan in version 3 to the start of `buffer` and its length, 15 + 7 * B, to out[0]; the bytes behind it
 * stay. It has the same fields, with pair bytes of 0 for version 1. Its counts, placements and listing are sure to be
 * the same only where M is at most 8: above, version 3 may give a block 9 or 10 copies.
 */
uint32_t bpl_convert(const uint8_t *plan, size_t plan_len, uint8_t *buffer, size_t buffer_len,
                     uint64_t *out, size_t out_len);

#ifdef __cplusplus
}
#endif

#endif
