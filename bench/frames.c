#include "frames.h"

#include "baseline.h"
#include "measure.h"
#include "peers.h"

#include <stdio.h>
#include <string.h>

// The library: a slice passes as a pointer and then its length.
uint32_t bench_frame_take(const uint32_t *symbols, size_t symbols_length, const uint8_t *plan, size_t plan_length,
                          survivor *work, size_t work_length, survivor *row, size_t row_length,
                          uint32_t *store, size_t store_length);
uint32_t bench_frame_decode(const uint32_t *symbols, size_t symbols_length, const uint8_t *plan, size_t plan_length,
                            survivor *work, size_t work_length, survivor *row, size_t row_length,
                            uint32_t *store, size_t store_length, size_t state, uint8_t *bits, size_t bits_length,
                            uint32_t *cost);
uint32_t bench_trace(size_t rows, size_t steps, uint32_t total, const uint32_t *store, size_t store_length,
                     uint8_t *bits, size_t bits_length);

enum { LONGEST_BLOCK = 32, CELLS = STATES * STATES, NO_PATH = 10 };

enum { FRAMES = 400, SHORT_STEPS = 300, LONG_FRAMES = 8, TIMES = 15, DECODES = 16, DECODE_TIMES = 200 };

static uint32_t symbols[MOST_STEPS];
static size_t steps;
static uint8_t plan[2 * MOST_STEPS];
static size_t letters;

// What each side works in.
static survivor work[LONGEST_BLOCK * CELLS], row[STATES];
static uint32_t stores[2][MOST_STEPS * ROW_WORDS];
static uint8_t bits[2][MOST_STEPS];
static baseline_frame frame;

// A soft value near a code bit, now and then erased or far off.
static uint32_t noisy(unsigned bit, uint32_t noise)
{
    if (below(100) < noise)
        return below(9);
    return bit ? 7 - below(3) : below(3);
}

// The symbols of a random frame of so many steps, which ends in state 0 where it has more than 6; so much of it in a
// hundred is noise.
static void make_frame(size_t n, uint32_t noise)
{
    unsigned state = 0;
    steps = n;
    for (size_t s = 0; s < n; s++) {
        unsigned held = STATES * (s + MEMORY < n ? below(2) : 0) + state, sent = code_bits(held);
        symbols[s] = 16 * noisy(sent / 2, noise) + noisy(sent % 2, noise);
        state = held / 2;
    }
}

// How the matrices of a block are nested.
typedef enum { LEFT, RIGHT, BALANCED, RANDOM } nesting;

static void nest(size_t n, nesting by)
{
    if (n == 1) {
        plan[letters++] = 's';
        return;
    }
    size_t first = by == LEFT ? n - 1 : by == RIGHT ? 1 : by == BALANCED ? n / 2 : 1 + below((uint32_t)n - 1);
    nest(first, by);
    nest(n - first, by);
    plan[letters++] = 'j';
}

// A plan for all steps, in blocks of so many; 0 for blocks of random lengths.
static void make_plan(size_t block, nesting by)
{
    letters = 0;
    for (size_t s = 0; s < steps;) {
        size_t most = steps - s, n = block == 0 ? 1 + below(LONGEST_BLOCK) : block;
        n = n < most ? n : most;
        nest(n, by);
        plan[letters++] = 'a';
        s += n;
    }
}

static void take(side by)
{
    if (by == C) {
        frame = baseline_fresh();
        baseline_take(&frame, symbols, plan, letters, work, row, stores[C]);
    } else if (bench_frame_take(symbols, steps, plan, letters, work, LONGEST_BLOCK * CELLS, row, STATES,
                                stores[RATTLE], MOST_STEPS * ROW_WORDS) != 0)
        fail("a take was refused");
}

// The cost of the cheapest path to a state, and its bits.
static uint32_t take_and_decode(side by, size_t state)
{
    if (by == C) {
        take(C);
        return baseline_decode(&frame, state, stores[C], bits[C]);
    }
    uint32_t cost = NO_TOTAL;
    uint32_t status = bench_frame_decode(symbols, steps, plan, letters, work, LONGEST_BLOCK * CELLS, row, STATES,
                                         stores[RATTLE], MOST_STEPS * ROW_WORDS, state, bits[RATTLE], MOST_STEPS, &cost);
    if (status != 0 && status != NO_PATH)
        fail("a frame was refused");
    return cost;
}

// The library's decode to state 0 on its own.
static uint32_t trace(uint8_t *out)
{
    return bench_trace(frame.rows, steps, frame.totals[0], stores[RATTLE], MOST_STEPS * ROW_WORDS, out, MOST_STEPS);
}

// All sides decode the frame alike.
static void check_frame(size_t state)
{
    uint8_t plain[MOST_STEPS];
    memset(bits, 2, sizeof bits);
    uint32_t c = take_and_decode(C, state), rattle = take_and_decode(RATTLE, state);
    uint32_t least = plain_decode(symbols, steps, state, plain);
    if (rattle != c || rattle != least)
        fail("the costs of a frame differ");
    if (memcmp(stores[C], stores[RATTLE], frame.rows * ROW_WORDS * sizeof stores[C][0]) != 0)
        fail("the rows of a frame differ");
    if (least == NO_TOTAL)
        return;
    if (memcmp(bits[RATTLE], bits[C], steps) != 0 || memcmp(bits[RATTLE], plain, steps) != 0)
        fail("the bits of a frame differ");
    if (state != 0)
        return;
    memset(bits[C], 2, steps);
    if (trace(bits[C]) != 0 || memcmp(bits[C], plain, steps) != 0)
        fail("the bits of a trace differ");
#ifdef WITH_OSMOCORE
    if (steps > 2 * MEMORY) {
        osmo_decode(symbols, steps, plain);
        if (memcmp(bits[RATTLE], plain, steps - MEMORY) != 0)
            fail("the bits of a frame differ from libosmocore's");
    }
#endif
}

void check_frames(void)
{
    for (int f = 0; f < FRAMES; f++) {
        make_frame(1 + below(SHORT_STEPS), below(101));
        make_plan(below(4) == 0 ? 1 : 0, (nesting)below(4));
        check_frame(below(2) * below(STATES));
    }
    for (int f = 0; f < LONG_FRAMES; f++) {
        make_frame(MOST_STEPS, 10 * below(10));
        make_plan(f % 4 == 0 ? 1 : LONGEST_BLOCK, (nesting)(f % 4));
        check_frame(f % 2 * below(STATES));
    }
}

static double time_take(side by)
{
    double began = microseconds();
    take(by);
    return microseconds() - began;
}

// The time of a decode to state 0, over the rows that the sides have written.
static double time_decode(side by)
{
    double began = microseconds();
    for (int d = 0; d < DECODES; d++)
        if (by == C ? baseline_decode(&frame, 0, stores[C], bits[C]) == NO_TOTAL : trace(bits[RATTLE]) != 0)
            fail("a decode was refused");
    return (microseconds() - began) / DECODES;
}

static double time_plain(side by)
{
    (void)by;
    double began = microseconds();
    for (int d = 0; d < DECODES; d++)
        plain_decode(symbols, steps, 0, bits[C]);
    return (microseconds() - began) / DECODES;
}

#ifdef WITH_OSMOCORE
static double time_osmo(side by)
{
    (void)by;
    double began = microseconds();
    for (int d = 0; d < DECODES; d++)
        osmo_decode(symbols, steps, bits[C]);
    return (microseconds() - began) / DECODES;
}
#endif

void time_frames(void)
{
    make_frame(MOST_STEPS, 30);
    make_plan(1, LEFT);
    compare("frame, every step", time_take, TIMES);
    compare("its decode, 4,096 rows", time_decode, DECODE_TIMES);
    make_plan(LONGEST_BLOCK, LEFT);
    double left = compare("frame, 32 to the left", time_take, TIMES);
    make_plan(LONGEST_BLOCK, RIGHT);
    double right = compare("frame, 32 to the right", time_take, TIMES);
    make_plan(LONGEST_BLOCK, BALANCED);
    compare("frame, 32 balanced", time_take, TIMES);
    compare("its decode, 128 rows", time_decode, DECODE_TIMES);
    measure("no look-ahead", time_plain, DECODE_TIMES);
#ifdef WITH_OSMOCORE
    measure("libosmocore", time_osmo, DECODE_TIMES);
#endif
    printf("\nframe, 32 to the left over 32 to the right %.2f\n", left / right);
}
