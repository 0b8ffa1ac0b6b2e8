#include "measure.h"

#include <stdio.h>
#include <stdlib.h>
#include <time.h>

enum { MOST_TIMES = 400 };

_Noreturn void fail(const char *what)
{
    fprintf(stderr, "bench: %s\n", what);
    exit(1);
}

uint32_t below(uint32_t n)
{
    static uint64_t seed = 0x9e3779b97f4a7c15;
    seed ^= seed << 13;
    seed ^= seed >> 7;
    seed ^= seed << 17;
    return (uint32_t)((seed >> 32) % n);
}

uint32_t random_symbol(void)
{
    return 16 * below(9) + below(9);
}

double microseconds(void)
{
    struct timespec t;
    clock_gettime(CLOCK_PROCESS_CPUTIME_ID, &t);
    return (double)t.tv_sec * 1e6 + (double)t.tv_nsec * 1e-3;
}

void print_head(void)
{
    printf("%-26s %10s %10s %7s\n", "k7, microseconds", "Rattle", "C", "ratio");
}

static int ascending(const void *a, const void *b)
{
    double x = *(const double *)a, y = *(const double *)b;
    return (x > y) - (x < y);
}

// Under a hypervisor the clock now and then reads too little, so the lowest hundredth is left out.
static double best(double *all, int times)
{
    qsort(all, (size_t)times, sizeof *all, ascending);
    return all[(times + 99) / 100];
}

double compare(const char *name, double (*timed)(side), int times)
{
    static double all[2][MOST_TIMES];
    for (int t = 0; t < times; t++) {
        all[C][t] = timed(C);
        all[RATTLE][t] = timed(RATTLE);
    }
    double c = best(all[C], times), rattle = best(all[RATTLE], times);
    printf("%-26s %10.1f %10.1f %7.2f\n", name, rattle, c, rattle / c);
    fflush(stdout);
    return rattle;
}

double measure(const char *name, double (*timed)(side), int times)
{
    static double all[MOST_TIMES];
    for (int t = 0; t < times; t++)
        all[t] = timed(C);
    double c = best(all, times);
    printf("%-26s %10s %10.1f\n", name, "", c);
    fflush(stdout);
    return c;
}
