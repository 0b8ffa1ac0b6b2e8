// Decoders without look-ahead, for scale.
#ifndef PEERS_H
#define PEERS_H

#include <stddef.h>
#include <stdint.h>

enum { MOST_STEPS = 4096, MEMORY = 6 };

// What a branch of the register `held` sends, both code bits, the first above the second.
unsigned code_bits(unsigned held);

// Add, compare and select step by step: the cost of the cheapest path to a state, or UINT32_MAX, and its bits.
uint32_t plain_decode(const uint32_t *symbols, size_t steps, size_t state, uint8_t *bits);

#ifdef WITH_OSMOCORE
// libosmocore's decoder: the bits of the cheapest path to state 0, but for its last 6, which are 0. More than 12 steps.
void osmo_decode(const uint32_t *symbols, size_t steps, uint8_t *bits);
#endif

#endif
