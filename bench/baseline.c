// The engine's loops in C: the same work, in the same order, on the same rows of 8 bytes.
#include "baseline.h"

#include <string.h>

enum { LONGEST = 32, STEP_COST = 14 };

enum { CONSTRAINT = 7, FIRST = 0171, SECOND = 0133 };

enum { BASE = 16, SURE = 7, ERASED = 8 };

static const survivor NONE = {.word = 0, .cost = 0, .length = 64};

// A row as one number, on a little-endian machine: length, cost and word from the top, which is the order of the paths.
static inline uint64_t key(survivor s)
{
    uint64_t k;
    memcpy(&k, &s, sizeof k);
    return k;
}

static inline survivor from_key(uint64_t k)
{
    survivor s;
    memcpy(&s, &k, sizeof s);
    return s;
}

static inline survivor normalized(survivor s)
{
    int in_range = s.length <= LONGEST && s.cost <= STEP_COST * s.length && s.word < (uint64_t)1 << s.length;
    return in_range ? s : NONE;
}

static inline int is_zero(survivor s)
{
    return s.length > LONGEST;
}

// The lesser of the sum so far and the path a followed by b, for normal rows.
static inline survivor accumulate(survivor sum, survivor a, survivor b)
{
    uint64_t high = key(a) + (key(b) & ~(uint64_t)0xffffffff);
    uint64_t joined = high + ((uint64_t)b.word << (a.length & 63));
    return high >> 48 <= LONGEST && joined < key(sum) ? from_key(joined) : sum;
}

static void normalize(survivor *rows, size_t n)
{
    for (size_t p = 0; p < n; p++)
        rows[p] = normalized(rows[p]);
}

static size_t zeros(const survivor *rows, size_t n)
{
    size_t count = 0;
    for (size_t p = 0; p < n; p++)
        count += is_zero(rows[p]);
    return count;
}

static void clear(survivor *rows, size_t n)
{
    for (size_t p = 0; p < n; p++)
        rows[p] = NONE;
}

// The row x times the matrix m, passing over what is zero in x.
static void row_times(const survivor *restrict x, const survivor *restrict m, size_t d, survivor *restrict out)
{
    clear(out, d);
    for (size_t k = 0; k < d; k++) {
        survivor a = x[k];
        if (is_zero(a))
            continue;
        for (size_t p = 0; p < d; p++)
            out[p] = accumulate(out[p], a, m[k * d + p]);
    }
}

// The matrix m times column j of the matrix n, passing over what is zero in that column.
static void times_column(const survivor *restrict m, const survivor *restrict n, size_t j, size_t d, survivor *restrict out)
{
    clear(out, d);
    for (size_t k = 0; k < d; k++) {
        survivor b = n[k * d + j];
        if (is_zero(b))
            continue;
        for (size_t p = 0; p < d; p++)
            out[p] = accumulate(out[p], m[p * d + k], b);
    }
}

static void join_rows(survivor *work, survivor *row, size_t d)
{
    for (size_t i = 0; i < d; i++) {
        row_times(work + i * d, work + d * d, d, row);
        memcpy(work + i * d, row, d * sizeof *row);
    }
}

static void join_columns(survivor *work, survivor *row, size_t d)
{
    survivor *second = work + d * d;
    for (size_t j = 0; j < d; j++) {
        times_column(work, second, j, d, row);
        for (size_t i = 0; i < d; i++)
            second[i * d + j] = row[i];
    }
    memcpy(work, second, d * d * sizeof *work);
}

static int accepts(uint32_t symbol)
{
    return symbol / BASE <= ERASED && symbol % BASE <= ERASED;
}

// What a soft value costs against a code bit.
static uint32_t value_cost(uint32_t value, int bit)
{
    if (value == ERASED)
        return 0;
    return bit ? SURE - value : value;
}

// The entry (i, j) of the matrix of a symbol: a branch is a path of one step.
static inline survivor entry(uint32_t symbol, size_t i, size_t j)
{
    if ((j & (STATES / 2 - 1)) != i >> 1 || !accepts(symbol))
        return NONE;
    unsigned held = (unsigned)((j >> (CONSTRAINT - 2)) * STATES + i);
    uint32_t first = value_cost(symbol / BASE, __builtin_parity(held & FIRST));
    uint32_t second = value_cost(symbol % BASE, __builtin_parity(held & SECOND));
    return (survivor){.word = i % 2, .cost = (uint16_t)(first + second), .length = 1};
}

survivor baseline_normalized(survivor s)
{
    return normalized(s);
}

static void join(survivor *work, survivor *row, size_t d)
{
    if (zeros(work, d * d) < zeros(work + d * d, d * d))
        join_columns(work, row, d);
    else
        join_rows(work, row, d);
}

void baseline_multiply(survivor *work, survivor *row, size_t d)
{
    normalize(work, 2 * d * d);
    join(work, row, d);
}

void baseline_load(uint32_t symbol, survivor *matrix)
{
    for (size_t i = 0; i < STATES; i++)
        for (size_t j = 0; j < STATES; j++)
            matrix[i * STATES + j] = normalized(entry(symbol, i, j));
}

void baseline_step(survivor *state, uint32_t symbol, survivor *work, survivor *row)
{
    baseline_load(symbol, work);
    normalize(state, STATES);
    row_times(state, work, STATES, row);
    memcpy(state, row, STATES * sizeof *state);
}

baseline_frame baseline_fresh(void)
{
    baseline_frame frame = {.steps = 0, .rows = 0};
    for (size_t j = 0; j < STATES; j++)
        frame.totals[j] = NO_TOTAL;
    frame.totals[0] = 0;
    return frame;
}

// The best that the states offer each state over a block: the total that it leads to, above the word.
static void best_offers(const uint32_t *restrict totals, const survivor *restrict block, uint64_t *restrict best)
{
    for (size_t j = 0; j < STATES; j++)
        best[j] = UINT64_MAX;
    for (size_t i = 0; i < STATES; i++) {
        if (totals[i] == NO_TOTAL)
            continue;
        for (size_t j = 0; j < STATES; j++) {
            survivor s = block[i * STATES + j];
            uint64_t offer = ((uint64_t)totals[i] + s.cost) << 32 | s.word;
            best[j] = !is_zero(s) && offer < best[j] ? offer : best[j];
        }
    }
}

// Add, compare and select over a block of so many symbols, and the row of it.
static void select_over(baseline_frame *frame, const survivor *block, size_t symbols, uint32_t *store)
{
    uint64_t best[STATES];
    best_offers(frame->totals, block, best);
    uint32_t *row = store + frame->rows * ROW_WORDS;
    row[0] = (uint32_t)symbols;
    for (size_t j = 0; j < STATES; j++) {
        int none = best[j] == UINT64_MAX;
        frame->totals[j] = none ? NO_TOTAL : (uint32_t)(best[j] >> 32);
        row[1 + j] = none ? 0 : (uint32_t)best[j];
    }
    frame->rows++;
}

void baseline_take(baseline_frame *frame, const uint32_t *symbols, const uint8_t *plan, size_t letters,
                   survivor *work, survivor *row, uint32_t *store)
{
    const size_t cells = STATES * STATES;
    size_t top = 0, next = 0, applied = 0;
    for (size_t p = 0; p < letters; p++) {
        switch (plan[p]) {
        case 's':
            baseline_load(symbols[next++], work + top++ * cells);
            break;
        case 'j':
            join(work + (top - 2) * cells, row, STATES);
            top--;
            break;
        default:
            select_over(frame, work, next - applied, store);
            top = 0;
            applied = next;
        }
    }
    frame->steps += next;
}

// The state before so many steps that ended in this state and dropped the bits of this word, the earliest lowest.
static inline size_t before(size_t state, uint32_t steps, uint32_t word)
{
    uint64_t weight = (uint64_t)1 << steps;
    return (state * weight + word % weight) % STATES;
}

// Whether the rows are those of the frame: lengths of 1 to 32, all steps together, and a trace that reaches state 0.
static int is_sound(const baseline_frame *frame, size_t state, const uint32_t *store)
{
    size_t left = frame->steps;
    for (size_t k = frame->rows; k-- > 0;) {
        const uint32_t *row = store + k * ROW_WORDS;
        uint32_t length = row[0];
        if (length < 1 || length > LONGEST || length > left)
            return 0;
        left -= length;
        state = before(state, length, row[1 + state]);
    }
    return left == 0 && state == 0;
}

uint32_t baseline_decode(const baseline_frame *frame, size_t state, const uint32_t *store, uint8_t *bits)
{
    uint32_t total = frame->totals[state];
    if (total == NO_TOTAL || !is_sound(frame, state, store))
        return NO_TOTAL;
    size_t end = frame->steps;
    for (size_t k = frame->rows; k-- > 0;) {
        const uint32_t *row = store + k * ROW_WORDS;
        uint32_t word = row[1 + state];
        for (uint32_t t = row[0]; t-- > 0;) {
            bits[--end] = (uint8_t)(state / (STATES / 2));
            state = before(state, 1, word >> t);
        }
    }
    return total;
}
