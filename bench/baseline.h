// Survivors in C, and the loops that the benchmark holds the engine to.
#ifndef BASELINE_H
#define BASELINE_H

#include <stddef.h>
#include <stdint.h>

// The states of the code k7.
enum { STATES = 64 };

// A path from one state to another, laid out as the library lays it; a row out of range means none.
typedef struct {
    uint32_t word;
    uint16_t cost;
    uint16_t length;
} survivor;

// The row itself where it is in range, else the row of none.
survivor baseline_normalized(survivor s);

// Multiplies the matrix of d × d rows at the front of work by the one after it; the product takes the place of the first.
void baseline_multiply(survivor *work, survivor *row, size_t d);

// Builds the matrix of a symbol of k7.
void baseline_load(uint32_t symbol, survivor *matrix);

// Builds the matrix of a symbol in work and multiplies the state by it.
void baseline_step(survivor *state, uint32_t symbol, survivor *work, survivor *row);

enum { NO_TOTAL = UINT32_MAX };

// A frame: how many symbols it has taken, how many rows it has written, and the total of each state.
typedef struct {
    size_t steps;
    size_t rows;
    uint32_t totals[STATES];
} baseline_frame;

// The words of a row of the store.
enum { ROW_WORDS = 1 + STATES };

// A fresh frame.
baseline_frame baseline_fresh(void);

// Takes symbols under a plan that fits them; each letter a writes a row to the store.
void baseline_take(baseline_frame *frame, const uint32_t *symbols, const uint8_t *plan, size_t letters,
                   survivor *work, survivor *row, uint32_t *store);

// Writes the bits of the cheapest path to a state and answers its cost; NO_TOTAL where there is none, or where the rows
// are not those of the frame.
uint32_t baseline_decode(const baseline_frame *frame, size_t state, const uint32_t *store, uint8_t *bits);

#endif
