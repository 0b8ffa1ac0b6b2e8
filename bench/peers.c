#include "peers.h"

#include "baseline.h"

enum { FIRST = 0171, SECOND = 0133, BASE = 16, SURE = 7, ERASED = 8, HALF = STATES / 2 };

unsigned code_bits(unsigned held)
{
    return (unsigned)(2 * __builtin_parity(held & FIRST) + __builtin_parity(held & SECOND));
}

static uint32_t value_cost(uint32_t value, unsigned bit)
{
    if (value == ERASED)
        return 0;
    return bit ? SURE - value : value;
}

// For each state and each of the two before it, the code bits of the branch.
static uint8_t sent[STATES][2];

static void fill_sent(void)
{
    for (unsigned j = 0; j < STATES; j++)
        for (unsigned dropped = 0; dropped < 2; dropped++)
            sent[j][dropped] = (uint8_t)code_bits(2 * j + dropped);
}

uint32_t plain_decode(const uint32_t *symbols, size_t steps, size_t state, uint8_t *bits)
{
    enum { FAR = 1 << 24 };
    static uint64_t chosen[MOST_STEPS];
    uint32_t totals[2][STATES];
    if (sent[0][1] == 0)
        fill_sent();
    for (size_t j = 0; j < STATES; j++)
        totals[0][j] = j == 0 ? 0 : FAR;
    for (size_t s = 0; s < steps; s++) {
        const uint32_t *was = totals[s % 2];
        uint32_t *is = totals[(s + 1) % 2], first = symbols[s] / BASE, second = symbols[s] % BASE, cost[4];
        for (unsigned b = 0; b < 4; b++)
            cost[b] = value_cost(first, b / 2) + value_cost(second, b % 2);
        uint64_t word = 0;
        for (size_t j = 0; j < STATES; j++) {
            uint32_t zero = was[j % HALF * 2] + cost[sent[j][0]], one = was[j % HALF * 2 + 1] + cost[sent[j][1]];
            is[j] = one < zero ? one : zero;
            word |= (uint64_t)(one < zero) << j;
        }
        chosen[s] = word;
    }
    uint32_t total = totals[steps % 2][state];
    if (total >= FAR)
        return UINT32_MAX;
    for (size_t s = steps; s-- > 0;) {
        bits[s] = (uint8_t)(state / HALF);
        state = state % HALF * 2 + (chosen[s] >> state & 1);
    }
    return total;
}

#ifdef WITH_OSMOCORE
#include <osmocom/core/conv.h>

// libosmocore's states have the newest bit lowest.
static unsigned reversed(unsigned state)
{
    unsigned r = 0;
    for (int b = 0; b < MEMORY; b++)
        r |= (state >> b & 1) << (MEMORY - 1 - b);
    return r;
}

void osmo_decode(const uint32_t *symbols, size_t steps, uint8_t *bits)
{
    static uint8_t output[STATES][2], next[STATES][2];
    static struct osmo_conv_code code = {.N = 2, .K = MEMORY + 1, .term = CONV_TERM_FLUSH, .next_output = output, .next_state = next};
    static sbit_t soft[2 * MOST_STEPS];
    if (next[0][1] == 0)
        for (unsigned state = 0; state < STATES; state++)
            for (unsigned input = 0; input < 2; input++) {
                output[state][input] = (uint8_t)code_bits(STATES * input + reversed(state));
                next[state][input] = (uint8_t)((2 * state + input) % STATES);
            }
    code.len = (int)steps - MEMORY;
    for (size_t v = 0; v < 2 * steps; v++) {
        uint32_t value = v % 2 == 0 ? symbols[v / 2] / BASE : symbols[v / 2] % BASE;
        soft[v] = (sbit_t)(value == ERASED ? 0 : 14 - 4 * (int)value);
    }
    osmo_conv_decode(&code, soft, bits);
}
#endif
