/*
 * A caller of the placement library in C, to start from.
 *
 *     place [FILE]
 *
 * prints the listing of the plan in FILE, or without FILE that of plan H of the specification, which it makes itself.
 * It makes the calls one by one, as a store would: judge the plan, choose the counts, make the first placement, take
 * steps until rest, report. It puts the listing together from their answers, and compares it with bpl_listing's. Then
 * it makes the steps anew as one script, and compares the placements. It converts an old plan to version 3 and, with
 * at most 8 machines, compares the listings. It writes a plan of version 3 as version 4, with a mains feed for each
 * rack and a budget that the machines have places for, and compares the listings. Last it counts reads of the blocks,
 * and makes the next plan file of their popularities.
 * scripts/c-example compiles, runs and tests it. The status is 0 for a listing, 1 for a failure, 2 where there is more
 * than one argument, and 3 for a refused plan.
 *
 * How every call is used here:
 * - All memory is the caller's. A buffer is passed as a pointer and its number of items, not its size in bytes.
 * - The code that a call answers is looked at before anything else. Only with code 0 has the call written something;
 *   with a refusal, 1 to 23, every buffer is as it was.
 * - BPL_SHORT_BUFFER is no property of the plan but a mistake of the caller: a buffer for results is too short.
 */
#include "bpl.h"

#include <inttypes.h>
#include <stdarg.h>
#include <stdbool.h>
#include <stdio.h>
#include <string.h>

/* The steps that the program ./place takes at most. */
#define STEP_LIMIT 100000

/* A read is 2520 units, so that the share of each of 1 to 10 copies is whole. */
#define UNITS_PER_READ 2520

/* With so many machines or fewer, a plan has the same listing in version 3. With more, blocks may get 9 or 10 copies. */
#define MACHINES_ALIKE 8

/* Where the fields of a plan file begin. In version 4 the number of mains feeds stands behind the machines per rack,
 * and the later fields begin a byte later. */
#define VERSION_AT 3
#define RACKS_AT 5
#define RACK_SIZE_AT 6
#define FEEDS_AT 7
#define CAPACITY_AT 7
#define BUDGET_AT 9
#define BLOCKS_AT 13
#define RECORDS_AT 15

enum { LISTED = 0, FAILED = 1, MISUSED = 2, REFUSED = 3 };

/* ---- Refusals ---- */

/* Why a plan, a placement or a read is turned back, by the number of the refusal. */
static const char *reason(uint32_t code)
{
    static const char *const reasons[] = {
        [0] = "done",
        [1] = "the plan is shorter than 15 bytes",
        [2] = "the mark differs",
        [3] = "the version is none of 1 to 4, or is 3 or 4 already where it is converted",
        [4] = "R or S is 0, or there are more than 64 machines",
        [5] = "C is 0 or above 1,024",
        [6] = "there are more than 1,024 blocks",
        [7] = "the length is not that of the version: 15 + 5 * B, 15 + 6 * B, 15 + 7 * B, or 16 + 7 * B",
        [8] = "a block's least copies are 0, above 8 (from version 3 on above 10), or above M, in a pair half of M",
        [9] = "a block's spread is 0, above its least copies, or above R (in version 4 above F)",
        [10] = "the sum of least copies is above the budget",
        [11] = "the sum of least copies is above M * C",
        [12] = "fewer than B counts or words are lent, or fewer bytes than a converted plan has",
        [13] = "a bit at or above M is set",
        [14] = "a block's copies are not its chosen count",
        [15] = "a block lies in fewer racks (in version 4 in fewer feeds) than its spread",
        [16] = "a machine holds more than C copies",
        [17] = "a pair byte is neither 0 nor 1, marks no pair, or marks two blocks that differ",
        [18] = "a machine holds both blocks of a pair",
        [19] = "the block is not in the plan",
        [20] = "the last entry's tick has an age of 2^31 or more",
        [21] = "the list is full of reads that still count",
        [22] = "F is 0 or does not divide R",
        [23] = "the budget is above M * C",
    };
    if (code < sizeof reasons / sizeof reasons[0])
        return reasons[code];
    return code == BPL_SHORT_BUFFER ? "a buffer for results is too short" : "unknown";
}

/* Says on standard error that a call was refused, and why. */
static void say_refused(const char *what, uint32_t code)
{
    fprintf(stderr, "place: %s: refused %" PRIu32 ": %s\n", what, code, reason(code));
}

/* ---- The plan's bytes ---- */

/* Puts a field of so many bytes at the place `at`, high byte first; answers where the next one begins. */
static size_t put_field(uint8_t *plan, size_t at, size_t bytes, uint32_t number)
{
    for (size_t k = 0; k < bytes; k++)
        plan[at + k] = (uint8_t)(number >> (8 * (bytes - 1 - k)));
    return at + bytes;
}

/* The field of so many bytes at the place `at`. */
static uint32_t field(const uint8_t *plan, size_t at, size_t bytes)
{
    uint32_t number = 0;
    for (size_t k = 0; k < bytes; k++)
        number = number << 8 | plan[at + k];
    return number;
}

/* The version of a plan. */
static uint32_t version_of(const uint8_t *plan)
{
    return field(plan, VERSION_AT, 2);
}

/* The bytes that the fields behind the machines per rack begin later than in version 1: one in version 4. */
static size_t later_by(const uint8_t *plan)
{
    return version_of(plan) == 4 ? 1 : 0;
}

/* M * C, the copies that all machines together can hold. */
static uint32_t places_of(const uint8_t *plan)
{
    const uint32_t capacity = field(plan, CAPACITY_AT + later_by(plan), 2);
    return field(plan, RACKS_AT, 1) * field(plan, RACK_SIZE_AT, 1) * capacity;
}

/* The number of blocks B. */
static uint32_t blocks_of(const uint8_t *plan)
{
    return field(plan, BLOCKS_AT + later_by(plan), 2);
}

/* The bytes of a popularity, which a record begins with: one more from version 3 on. */
static size_t popularity_bytes(const uint8_t *plan)
{
    return version_of(plan) >= 3 ? 4 : 3;
}

/* The bytes of a record: least copies and spread follow, and from version 2 on a pair byte. */
static size_t record_bytes(const uint8_t *plan)
{
    return popularity_bytes(plan) + (version_of(plan) == 1 ? 2 : 3);
}

/* Where the record of block i begins. */
static size_t record_at(const uint8_t *plan, uint32_t i)
{
    return RECORDS_AT + later_by(plan) + record_bytes(plan) * i;
}

/* Makes plan H with a budget of copies: 2 racks of 2 machines, 3 copies on each, three blocks. Answers its length. */
static size_t make_plan_h(uint8_t *plan, uint32_t budget)
{
    static const struct {
        uint32_t popularity;
        uint8_t least_copies;
        uint8_t spread;
    } blocks[] = {{12, 2, 2}, {6, 1, 1}, {2, 1, 1}};
    const size_t number = sizeof blocks / sizeof blocks[0];

    size_t at = put_field(plan, 0, 3, 0x42504C); /* the mark, "BPL" */
    at = put_field(plan, at, 2, 1);              /* version */
    at = put_field(plan, at, 1, 2);              /* racks R */
    at = put_field(plan, at, 1, 2);              /* machines per rack S */
    at = put_field(plan, at, 2, 3);              /* capacity C: copies that a machine can hold */
    at = put_field(plan, at, 4, budget);         /* most copies in all */
    at = put_field(plan, at, 2, (uint32_t)number);
    for (size_t i = 0; i < number; i++) {
        at = put_field(plan, at, popularity_bytes(plan), blocks[i].popularity);
        at = put_field(plan, at, 1, blocks[i].least_copies);
        at = put_field(plan, at, 1, blocks[i].spread);
    }
    return at;
}

/* Puts another budget of copies into a plan. */
static void put_budget(uint8_t *plan, uint32_t budget)
{
    put_field(plan, BUDGET_AT + later_by(plan), 4, budget);
}

/* Writes a plan of version 3 as version 4, its racks on so many mains feeds. A budget above M * C becomes M * C, all
 * that version 3 uses of it. Answers the plan's length, a byte more. */
static size_t put_on_feeds(uint8_t *plan, const uint8_t *old, size_t old_len, uint32_t feeds)
{
    memcpy(plan, old, FEEDS_AT);
    put_field(plan, VERSION_AT, 2, 4);
    const size_t at = put_field(plan, FEEDS_AT, 1, feeds);
    memcpy(plan + at, old + FEEDS_AT, old_len - FEEDS_AT);
    if (field(old, BUDGET_AT, 4) > places_of(old))
        put_budget(plan, places_of(old));
    return old_len + 1;
}

/* Reads at most `room` bytes of a file. False where that fails; else their number is in *size. */
static bool read_file(const char *path, uint8_t *bytes, size_t room, size_t *size)
{
    FILE *file = fopen(path, "rb");
    if (file == NULL)
        return false;
    *size = fread(bytes, 1, room, file);
    const bool done = !ferror(file);
    fclose(file);
    return done;
}

/* ---- A text that grows ---- */

struct text {
    char bytes[BPL_LISTING_ROOM];
    size_t size;
};

/* Adds to the text as printf would. Every listing fits; what did not would be left out, and the comparison see it. */
static void add(struct text *text, const char *format, ...)
{
    const size_t room = sizeof text->bytes - text->size;
    va_list values;
    va_start(values, format);
    const int size = vsnprintf(text->bytes + text->size, room, format, values);
    va_end(values);
    if (size > 0 && (size_t)size < room)
        text->size += (size_t)size;
}

/* ---- The calls ---- */

/* What the calls are about: a plan, its counts and a placement. */
struct store {
    const uint8_t *plan;
    size_t plan_len;
    uint8_t counts[BPL_MAX_BLOCKS];
    uint64_t words[BPL_MAX_BLOCKS];
};

/* Takes steps until none is left or the limit is used. Answers the code; the number of steps taken is in *steps. */
static uint32_t take_steps(struct store *store, uint32_t step_limit, uint32_t *steps)
{
    for (*steps = 0; *steps < step_limit; ++*steps) {
        uint64_t step[BPL_STEP_NUMBERS];
        const uint32_t code =
            bpl_step(store->plan, store->plan_len, store->words, BPL_MAX_BLOCKS, step, BPL_STEP_NUMBERS);
        if (code != 0 || step[0] == 0) /* refused, or at rest */
            return code;
        /* The step is taken. step[1] is its kind, and a store would now copy block step[4] from machine step[2] to
         * machine step[3] and, for BPL_SWAP and BPL_RACK_SWAP, block step[5] the other way. */
    }
    return 0;
}

/* Makes all calls from the counts to the report, and the listing of their answers. Answers the first refusal, or 0. */
static uint32_t list(struct store *store, struct text *text)
{
    const uint8_t *plan = store->plan;
    const size_t plan_len = store->plan_len;

    uint32_t code = bpl_counts(plan, plan_len, store->counts, BPL_MAX_BLOCKS);
    if (code != 0)
        return code;
    code = bpl_first(plan, plan_len, store->words, BPL_MAX_BLOCKS);
    if (code != 0)
        return code;

    /* Step by step. One call of bpl_run with this step limit would do the same at once; with one of 0 it takes no
     * step and tells whether one is left. */
    uint32_t steps;
    code = take_steps(store, STEP_LIMIT, &steps);
    if (code != 0)
        return code;
    uint64_t end[BPL_RUN_NUMBERS];
    code = bpl_run(plan, plan_len, store->words, BPL_MAX_BLOCKS, 0, end, BPL_RUN_NUMBERS);
    if (code != 0)
        return code;

    uint64_t report[BPL_REPORT_NUMBERS];
    code = bpl_report(plan, plan_len, store->words, BPL_MAX_BLOCKS, report, BPL_REPORT_NUMBERS);
    if (code != 0)
        return code;

    /* The plan was accepted, so all its records are there. */
    const uint32_t racks = field(plan, RACKS_AT, 1);
    const uint32_t rack_size = field(plan, RACK_SIZE_AT, 1);
    const uint32_t blocks = blocks_of(plan);
    text->size = 0;
    add(text, "plan %" PRIu32 " %" PRIu32 " %" PRIu32 "\n", racks, rack_size, blocks);
    for (uint32_t i = 0; i < blocks; i++) {
        const uint64_t popularity = field(plan, record_at(plan, i), popularity_bytes(plan));
        const uint64_t share = popularity * UNITS_PER_READ / store->counts[i];
        add(text, "block %" PRIu32 " %u %" PRIu64, i, (unsigned)store->counts[i], share);
        for (uint32_t m = 0; m < racks * rack_size; m++)
            if (store->words[i] >> m & 1)
                add(text, " %" PRIu32, m);
        add(text, "\n");
    }
    add(text, "%s %" PRIu32, end[0] == 1 ? "rest" : "spent", steps);
    for (size_t k = 0; k < BPL_REPORT_NUMBERS; k++)
        add(text, " %" PRIu64, report[k]);
    add(text, "\n");
    return 0;
}

/* Whether the text is the library's own listing, which makes all these calls in one. */
static bool is_listing(const struct store *store, const struct text *text)
{
    static uint8_t listing[BPL_LISTING_ROOM];
    uint64_t size[BPL_LISTING_NUMBERS];
    const uint32_t code = bpl_listing(store->plan, store->plan_len, STEP_LIMIT, listing, sizeof listing, size,
                                      BPL_LISTING_NUMBERS);
    return code == 0 && size[0] == text->size && memcmp(listing, text->bytes, text->size) == 0;
}

/* Whether a script from the first placement ends in the same one: a step, a call that is refused, a run for the other
 * steps, a check. The other bytes are empty here, with a pointer that is not null all the same. */
static bool plays_alike(const struct store *store)
{
    static uint64_t words[BPL_MAX_BLOCKS];
    static const uint64_t script[] = {
        BPL_ASK_STEP | BPL_LEND_ALL,
        BPL_ASK_STEP | BPL_LEND_ALL | BPL_WITH_OTHER, /* refused with 1, and the words stay */
        BPL_ASK_RUN(STEP_LIMIT - 1) | BPL_LEND_ALL,
        BPL_ASK_CHECK | BPL_LEND(BPL_MAX_BLOCKS),
    };
    uint64_t reply[BPL_PLAY_NUMBERS];
    if (bpl_first(store->plan, store->plan_len, words, BPL_MAX_BLOCKS) != 0)
        return false;
    const uint32_t code = bpl_play(store->plan, store->plan_len, store->plan, 0, words, BPL_MAX_BLOCKS, script,
                                   sizeof script / sizeof script[0], reply, BPL_PLAY_NUMBERS);
    return code == 0 && reply[0] == BPL_CHECKED && memcmp(words, store->words, sizeof words) == 0;
}

/* Whether the two texts are the same. */
static bool same_text(const struct text *text, const struct text *other)
{
    return text->size == other->size && memcmp(text->bytes, other->bytes, text->size) == 0;
}

/* Whether a plan of version 3 has the same listing in version 4 with a mains feed for each rack and a budget of at most
 * M * C: a spread over feeds is then one over racks. A store whose racks share feeds would write their number. */
static bool spreads_alike(const struct store *store, const struct text *text)
{
    static uint8_t plan[BPL_MAX_PLAN_BYTES];
    static struct store on_feeds = {.plan = plan};
    static struct text listed;
    on_feeds.plan_len = put_on_feeds(plan, store->plan, store->plan_len, field(store->plan, RACKS_AT, 1));
    return list(&on_feeds, &listed) == 0 && is_listing(&on_feeds, &listed) && same_text(&listed, text);
}

/* Whether the plan in version 3, as a store would keep an old one from now on, has the same listing; with more than
 * MACHINES_ALIKE machines, whether the calls make bpl_listing's listing of it. A plan that is of version 3 or 4 already
 * is refused with 3. What is of version 3 in the end is listed in version 4, too. */
static bool converts_well(const struct store *store, const struct text *text)
{
    static uint8_t plan[BPL_MAX_PLAN_BYTES];
    static struct store converted = {.plan = plan};
    static struct text listed;
    uint64_t length[BPL_CONVERT_NUMBERS];
    const uint32_t code =
        bpl_convert(store->plan, store->plan_len, plan, sizeof plan, length, BPL_CONVERT_NUMBERS);
    if (version_of(store->plan) >= 3)
        return code == 3 && (version_of(store->plan) == 4 || spreads_alike(store, text));
    if (code != 0)
        return false;
    converted.plan_len = (size_t)length[0];
    if (list(&converted, &listed) != 0)
        return false;
    if (field(plan, RACKS_AT, 1) * field(plan, RACK_SIZE_AT, 1) > MACHINES_ALIKE)
        return is_listing(&converted, &listed) && spreads_alike(&converted, &listed);
    return same_text(&listed, text) && spreads_alike(&converted, &listed);
}

/* The reads that count, which a store keeps from call to call; without entries at first. */
struct reads {
    struct bpl_entry list[BPL_MAX_ENTRIES];
    uint64_t count;
};

/* Enters a read of a block at a millisecond tick. Answers the code; where it is refused, the reads stay as they are. */
static uint32_t enter_read(const struct store *store, struct reads *reads, uint32_t block, uint32_t tick)
{
    uint64_t count[BPL_READ_NUMBERS];
    const uint32_t code = bpl_read(store->plan, store->plan_len, block, tick, reads->list, BPL_MAX_ENTRIES,
                                   reads->count, count, BPL_READ_NUMBERS);
    if (code == 0)
        reads->count = count[0];
    return code;
}

/* Whether the next plan file, with the popularities counted, is accepted. Both blocks of a pair have the same one. */
static bool makes_next_plan(const struct store *store)
{
    static uint8_t next[BPL_MAX_PLAN_BYTES];
    static struct reads reads;
    const uint32_t blocks = blocks_of(store->plan);

    /* Each block is read once, twice or three times, a millisecond apart, while the tick starts over. */
    uint32_t tick = UINT32_MAX - 1;
    for (uint32_t i = 0; i < blocks; i++)
        for (uint32_t k = 0; k <= i % 3; k++)
            if (enter_read(store, &reads, i, tick++) != 0)
                return false;

    memcpy(next, store->plan, store->plan_len);
    for (uint32_t i = 0; i < blocks; i++) {
        uint64_t popularity[BPL_POPULARITY_NUMBERS];
        const uint32_t code = bpl_popularity(store->plan, store->plan_len, i, reads.list, BPL_MAX_ENTRIES, reads.count,
                                             popularity, BPL_POPULARITY_NUMBERS);
        if (code != 0 || popularity[0] < i % 3 + 1) /* above that where the other block of a pair is read more often */
            return false;
        put_field(next, record_at(next, i), popularity_bytes(next), (uint32_t)popularity[0]);
    }
    return bpl_plan(next, store->plan_len) == 0;
}

/* Two refusals of reads of plan H: of a block that it has not, and at a tick before that of the last one. */
static bool show_refused_reads(const struct store *store)
{
    static struct reads reads;
    if (enter_read(store, &reads, 2, 5000) != 0)
        return false;
    const uint32_t unknown = enter_read(store, &reads, 3, 5001);
    say_refused("a read of block 3 of plan H", unknown);
    const uint32_t early = enter_read(store, &reads, 2, 4999);
    say_refused("a read a millisecond before the last one", early);
    return unknown == 19 && early == 20 && reads.count == 1;
}

/* Two refusals of conversions of plan H: into a buffer a byte too short, and of what was converted already. */
static bool show_refused_conversions(const struct store *store)
{
    static uint8_t plan[BPL_MAX_PLAN_BYTES], again[BPL_MAX_PLAN_BYTES];
    const size_t need = RECORDS_AT + 7 * blocks_of(store->plan);
    uint64_t length[BPL_CONVERT_NUMBERS];
    const uint32_t narrow = bpl_convert(store->plan, store->plan_len, plan, need - 1, length, BPL_CONVERT_NUMBERS);
    say_refused("plan H converted into a buffer a byte too short", narrow);
    if (bpl_convert(store->plan, store->plan_len, plan, need, length, BPL_CONVERT_NUMBERS) != 0 || length[0] != need)
        return false;
    const uint32_t newest = bpl_convert(plan, need, again, sizeof again, length, BPL_CONVERT_NUMBERS);
    say_refused("plan H converted twice", newest);
    return narrow == 12 && newest == 3 && length[0] == need;
}

/* Two refusals of plan H in version 4: three mains feeds do not divide its two racks; and where both racks hang on one
 * feed, a block cannot be spread over two. */
static bool show_refused_feeds(const struct store *store)
{
    static uint8_t wide[BPL_MAX_PLAN_BYTES], plan[BPL_MAX_PLAN_BYTES];
    uint64_t length[BPL_CONVERT_NUMBERS];
    if (bpl_convert(store->plan, store->plan_len, wide, sizeof wide, length, BPL_CONVERT_NUMBERS) != 0)
        return false;
    size_t plan_len = put_on_feeds(plan, wide, (size_t)length[0], 3);
    const uint32_t uneven = bpl_plan(plan, plan_len);
    say_refused("plan H on three feeds", uneven);
    plan_len = put_on_feeds(plan, wide, (size_t)length[0], 1);
    const uint32_t narrow = bpl_plan(plan, plan_len);
    say_refused("plan H on one feed", narrow);
    return uneven == 22 && narrow == 9;
}

/* Plan H with a budget of 13 copies for its 12 places: version 3 takes it, and version 4 refuses it. */
static bool show_refused_budget(const struct store *store)
{
    static uint8_t wide[BPL_MAX_PLAN_BYTES], plan[BPL_MAX_PLAN_BYTES];
    uint64_t length[BPL_CONVERT_NUMBERS];
    if (bpl_convert(store->plan, store->plan_len, wide, sizeof wide, length, BPL_CONVERT_NUMBERS) != 0)
        return false;
    const size_t plan_len = put_on_feeds(plan, wide, (size_t)length[0], 2);
    put_budget(wide, 13);
    put_budget(plan, 13);
    const uint32_t unusable = bpl_plan(plan, plan_len);
    say_refused("plan H in version 4 with a budget of 13 copies", unusable);
    put_budget(plan, 12);
    return unusable == 23 && bpl_plan(wide, (size_t)length[0]) == 0 && bpl_plan(plan, plan_len) == 0;
}

/* Two refusals, as a caller meets them: a plan that has no lawful placement, and a placement with a copy too few. */
static bool show_refusals(void)
{
    uint8_t plan[BPL_MAX_PLAN_BYTES];
    size_t plan_len = make_plan_h(plan, 3);
    uint64_t words[3] = {15, 1, 2};

    uint32_t code = bpl_first(plan, plan_len, words, 3);
    say_refused("plan H with a budget of 3 copies", code);
    if (code != 10)
        return false;

    plan_len = make_plan_h(plan, 8);
    code = bpl_check(plan, plan_len, words, 3);
    say_refused("plan H with block 1 on machine 0 alone", code);

    /* Neither call has written: the words are those from above. */
    return code == 14 && words[0] == 15 && words[1] == 1 && words[2] == 2;
}

int main(int argc, char **argv)
{
    /* One byte more than the largest plan has: a longer file is refused without the rest of it. */
    static uint8_t plan[BPL_MAX_PLAN_BYTES + 1];
    static struct store store = {.plan = plan};
    static struct text text;

    if (argc > 2) {
        fprintf(stderr, "usage: place [FILE]\n");
        return MISUSED;
    }
    if (argc < 2) {
        store.plan_len = make_plan_h(plan, 8);
        if (!show_refusals() || !show_refused_reads(&store) || !show_refused_conversions(&store) ||
            !show_refused_feeds(&store) || !show_refused_budget(&store)) {
            fprintf(stderr, "place: the refusals are not as they should be\n");
            return FAILED;
        }
    } else if (!read_file(argv[1], plan, sizeof plan, &store.plan_len)) {
        perror(argv[1]);
        return FAILED;
    }

    uint32_t code = bpl_plan(plan, store.plan_len);
    if (code != 0) {
        say_refused(argc < 2 ? "plan H" : argv[1], code);
        printf("refused %" PRIu32 "\n", code);
        return REFUSED;
    }
    /* The plan is accepted and the placement is the library's own, so nothing is left that could be refused. */
    code = list(&store, &text);
    if (code != 0) {
        say_refused("a call on an accepted plan", code);
        return FAILED;
    }
    if (!is_listing(&store, &text)) {
        fprintf(stderr, "place: the listing differs from bpl_listing's\n");
        return FAILED;
    }
    if (!plays_alike(&store)) {
        fprintf(stderr, "place: a script of the calls ends in another placement\n");
        return FAILED;
    }
    if (!converts_well(&store, &text)) {
        fprintf(stderr, "place: the plan in version 3 or 4 is not listed as it should be\n");
        return FAILED;
    }
    if (!makes_next_plan(&store)) {
        fprintf(stderr, "place: the next plan file, with the popularities counted, is refused\n");
        return FAILED;
    }
    if (fwrite(text.bytes, 1, text.size, stdout) != text.size || fflush(stdout) != 0) {
        perror("place: standard output");
        return FAILED;
    }
    return LISTED;
}
