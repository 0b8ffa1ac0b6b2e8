// Times the joins of the engine, a single step and whole frames, for the code k7, beside the same loops in C.
#include "baseline.h"
#include "frames.h"
#include "measure.h"

#include <stdio.h>
#include <string.h>

// The library: a slice passes as a pointer and then its length.
uint32_t bench_multiply(survivor *work, size_t work_length, survivor *row, size_t row_length, size_t d);
uint32_t bench_take(survivor *state, size_t state_length, const uint32_t *symbols, size_t symbols_length,
                    const uint8_t *plan, size_t plan_length, survivor *work, size_t work_length,
                    survivor *row, size_t row_length);

enum { CELLS = STATES * STATES, TRIALS = 2000, BATCH = 16, BATCHES = 400, BLOCK = 16 };

static survivor work[BATCH][2 * CELLS];
static survivor states[BATCH][STATES];
static survivor row[STATES];

static void multiply(side by, survivor *matrices, size_t d)
{
    if (by == C)
        baseline_multiply(matrices, row, d);
    else if (bench_multiply(matrices, 2 * d * d, row, d, d) != 0)
        fail("a product was refused");
}

static void step(side by, survivor *state, uint32_t symbol, survivor *matrix)
{
    static const uint8_t plan[] = {'s', 'a'};
    if (by == C)
        baseline_step(state, symbol, matrix, row);
    else if (bench_take(state, STATES, &symbol, 1, plan, sizeof plan, matrix, CELLS, row, STATES) != 0)
        fail("a step was refused");
}

// A row of at most so many steps, or, so many times in a hundred, none; a few are out of range in cost or word.
static survivor random_row(uint32_t most, uint32_t nones)
{
    if (below(100) < nones)
        return (survivor){.word = below(2), .cost = (uint16_t)below(2), .length = (uint16_t)(33 + below(65503))};
    uint32_t length = below(most + 1);
    uint64_t words = (uint64_t)1 << length;
    survivor s = {.word = (uint32_t)(((uint64_t)below(65536) << 16 | below(65536)) % words),
                  .cost = (uint16_t)below(14 * length + 1), .length = (uint16_t)length};
    if (below(50) == 0)
        s.cost = (uint16_t)(14 * length + 1 + below(1000));
    if (below(50) == 0 && length < 32)
        s.word += (uint32_t)words;
    return s;
}

// Whether two lists of rows mean the same.
static int same(const survivor *a, const survivor *b, size_t n)
{
    for (size_t p = 0; p < n; p++) {
        survivor x = baseline_normalized(a[p]), y = baseline_normalized(b[p]);
        if (x.word != y.word || x.cost != y.cost || x.length != y.length)
            return 0;
    }
    return 1;
}

static void check_products(void)
{
    for (int trial = 0; trial < TRIALS; trial++) {
        size_t d = 1 + below(STATES), cells = d * d;
        uint32_t most = 1 + below(32), nones[] = {below(101), below(101)};
        for (size_t p = 0; p < 2 * cells; p++)
            work[0][p] = work[1][p] = random_row(most, nones[p / cells]);
        multiply(C, work[0], d);
        multiply(RATTLE, work[1], d);
        if (!same(work[0], work[1], cells))
            fail("the two products differ");
    }
}

static void check_steps(void)
{
    for (int trial = 0; trial < TRIALS; trial++) {
        uint32_t symbol = random_symbol(), most = 1 + below(32), nones = below(101);
        for (size_t p = 0; p < STATES; p++)
            states[0][p] = states[1][p] = random_row(most, nones);
        step(C, states[0], symbol, work[0]);
        step(RATTLE, states[1], symbol, work[1]);
        if (!same(work[0], work[1], CELLS) || !same(states[0], states[1], STATES))
            fail("the two steps differ");
    }
}

// What is timed: two matrices, and a state with the symbols that it is stepped by.
static survivor first[CELLS], second[CELLS], start[STATES];
static uint32_t symbols[BATCH];

// The matrix of a random symbol: two entries of each row are not zero.
static void make_single(survivor *matrix)
{
    baseline_load(random_symbol(), matrix);
}

// The matrix of a block of random symbols: no entry is zero.
static void make_block(survivor *matrix)
{
    make_single(work[0]);
    for (int s = 1; s < BLOCK; s++) {
        make_single(work[0] + CELLS);
        baseline_multiply(work[0], row, STATES);
    }
    memcpy(matrix, work[0], CELLS * sizeof *matrix);
}

// The time of a join, in a batch over copies of the two matrices.
static double time_join(side by)
{
    for (int b = 0; b < BATCH; b++) {
        memcpy(work[b], first, sizeof first);
        memcpy(work[b] + CELLS, second, sizeof second);
    }
    double began = microseconds();
    for (int b = 0; b < BATCH; b++)
        multiply(by, work[b], STATES);
    return (microseconds() - began) / BATCH;
}

// The time of a step, in a batch over copies of the state.
static double time_step(side by)
{
    for (int b = 0; b < BATCH; b++)
        memcpy(states[b], start, sizeof start);
    double began = microseconds();
    for (int b = 0; b < BATCH; b++)
        step(by, states[b], symbols[b], work[0]);
    return (microseconds() - began) / BATCH;
}

int main(void)
{
    check_products();
    check_steps();
    check_frames();
    print_head();

    make_single(first);
    make_single(second);
    double single_single = compare("single x single", time_join, BATCHES);
    make_block(second);
    double single_block = compare("single x block", time_join, BATCHES);
    make_block(first);
    make_single(second);
    double block_single = compare("block x single", time_join, BATCHES);
    make_block(second);
    double block_block = compare("block x block", time_join, BATCHES);

    memcpy(start, first, sizeof start);
    for (int b = 0; b < BATCH; b++)
        symbols[b] = random_symbol();
    compare("single step", time_step, BATCHES);
    time_frames();

    printf("over single x single: single x block %.2f, block x single %.2f\n", single_block / single_single,
           block_single / single_single);
    printf("block x block over single x block %.1f, over block x single %.1f\n", block_block / single_block,
           block_block / block_single);
    return 0;
}
