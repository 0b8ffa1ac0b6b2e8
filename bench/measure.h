// What the parts of the benchmark share: random input, the clock, and the lines of the table.
#ifndef MEASURE_H
#define MEASURE_H

#include <stdint.h>

typedef enum { C, RATTLE } side;

// Says what is wrong, and ends the program.
_Noreturn void fail(const char *what);

// Random numbers below n, the same in each run of the program.
uint32_t below(uint32_t n);

// A symbol of which both values are random.
uint32_t random_symbol(void);

// CPU time.
double microseconds(void);

// The head of the table.
void print_head(void);

// Measures both sides, prints their line of the table and answers Rattle's time. The sides take turns, so many times
// each; of each the best time counts, past the lowest hundredth.
double compare(const char *name, double (*timed)(side), int times);

// The same for what only C has.
double measure(const char *name, double (*timed)(side), int times);

#endif
