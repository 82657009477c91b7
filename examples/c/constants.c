/*
 * Every macro of bpl.h where C and C++ ask for a constant: in the size of an array, which is negative where the value
 * is another one, and in static initialisers. scripts/c-example compiles it in C99 and, where there is a compiler, in
 * C++.
 */
#include "bpl.h"

#define IS(name, value) typedef char name##_is[(name) == (value) ? 1 : -1]
IS(BPL_MAX_BLOCKS, 1024);
IS(BPL_MAX_PLAN_BYTES, 7184);
IS(BPL_MAX_ENTRIES, 4096);
IS(BPL_READ_WINDOW_MS, 7200000);
IS(BPL_REPORT_NUMBERS, 4);
IS(BPL_STEP_NUMBERS, 6);
IS(BPL_RUN_NUMBERS, 2);
IS(BPL_LISTING_NUMBERS, 1);
IS(BPL_PLAY_NUMBERS, 7);
IS(BPL_READ_NUMBERS, 1);
IS(BPL_POPULARITY_NUMBERS, 1);
IS(BPL_CONVERT_NUMBERS, 1);
IS(BPL_LISTING_ROOM, 65536);
IS(BPL_SHORT_BUFFER, 255);
IS(BPL_MOVE, 0);
IS(BPL_SWAP, 1);
IS(BPL_RACK_MOVE, 2);
IS(BPL_RACK_SWAP, 3);
IS(BPL_REFUSED, 0);
IS(BPL_CHECKED, 1);
IS(BPL_STEPPED, 2);
IS(BPL_RAN, 3);
IS(BPL_ASK_CHECK, 0);
IS(BPL_ASK_STEP, 0x100000000u);
IS(BPL_WITH_OTHER, 0x400000000u);
IS(BPL_LEND_ALL, 0xFFFFFFF800000000u);
typedef char run_is[BPL_ASK_RUN(100) == 0x200000064u ? 1 : -1];
typedef char cut_run_is[BPL_ASK_RUN(-1) == 0x2FFFFFFFFu ? 1 : -1];
typedef char lend_is[BPL_LEND(3) == 0x1800000000u ? 1 : -1];

/* A script on no bytes: every call is refused with 1. */
static uint8_t plan[BPL_MAX_PLAN_BYTES];
static uint64_t words[BPL_MAX_BLOCKS];
static const uint64_t script[] = {
    BPL_ASK_CHECK | BPL_LEND(3),
    BPL_ASK_STEP | BPL_LEND_ALL | BPL_WITH_OTHER,
    BPL_ASK_RUN(100) | BPL_LEND_ALL,
};

/* An item of a script, of numbers that are known only when the program runs. */
static uint64_t run_item(int step_limit, size_t lent)
{
    return BPL_ASK_RUN(step_limit) | BPL_LEND(lent);
}

int main(void)
{
    uint64_t reply[BPL_PLAY_NUMBERS];
    if (run_item(100, 3) != (BPL_ASK_RUN(100) | BPL_LEND(3)))
        return 1;
    if (bpl_play(plan, 0, plan, 0, words, BPL_MAX_BLOCKS, script, sizeof script / sizeof script[0], reply,
                 BPL_PLAY_NUMBERS) != 0)
        return 1;
    return reply[0] == BPL_REFUSED && reply[1] == 1 ? 0 : 1;
}
