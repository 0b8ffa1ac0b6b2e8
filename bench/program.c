// Times the frame program on inputs of 1,000,000 bytes, as a whole process.
#include <fcntl.h>
#include <stdio.h>
#include <stdlib.h>
#include <string.h>
#include <sys/wait.h>
#include <time.h>
#include <unistd.h>

enum { BYTES = 1000000, RUNS = 20, STEPS = 50, BLOCK = 25 };

static char input[BYTES];

static void fail(const char *what)
{
    fprintf(stderr, "program: %s\n", what);
    exit(1);
}

// Deliveries of this kind, as many as fit; the rest is blanks, as the last line.
static void make_input(const char *delivery)
{
    size_t n = strlen(delivery), used = 3;
    memcpy(input, "k3\n", used);
    for (; used + n <= BYTES; used += n)
        memcpy(input + used, delivery, n);
    memset(input + used, ' ', BYTES - used);
}

// A delivery of two blocks, nested to the right or to the left, whose symbol line is full.
static void make_full(char *out, int to_the_right)
{
    for (int block = 0; block < STEPS / BLOCK; block++) {
        for (int s = 0; s < BLOCK; s++) {
            *out++ = 's';
            if (s > 0 && !to_the_right)
                *out++ = 'j';
        }
        for (int s = 1; s < BLOCK && to_the_right; s++)
            *out++ = 'j';
        *out++ = 'a';
    }
    *out++ = '\n';
    for (int s = 0; s < STEPS; s++)
        out += sprintf(out, "%4d", 16 * (s * 7 % 9) + s * 5 % 9);
    *out++ = '\n';
    *out = 0;
}

static double milliseconds(void)
{
    struct timespec t;
    clock_gettime(CLOCK_MONOTONIC, &t);
    return (double)t.tv_sec * 1e3 + (double)t.tv_nsec * 1e-6;
}

// The time from start to end of one run of the program on this file.
static double run(char *program, const char *file)
{
    double began = milliseconds();
    pid_t child = fork();
    if (child == 0) {
        int in = open(file, O_RDONLY), out = open("/dev/null", O_WRONLY);
        if (in < 0 || out < 0 || dup2(in, 0) < 0 || dup2(out, 1) < 0)
            _exit(126);
        execv(program, (char *[]){program, NULL});
        _exit(127);
    }
    int status;
    if (child < 0 || waitpid(child, &status, 0) < 0 || status != 0)
        fail("the program did not end well");
    return milliseconds() - began;
}

static void report(const char *name, const char *delivery, char *program, const char *file)
{
    make_input(delivery);
    FILE *f = fopen(file, "wb");
    if (f == NULL || fwrite(input, 1, BYTES, f) != BYTES || fclose(f) != 0)
        fail("an input was not written");
    double best = 1e9;
    for (int r = 0; r < RUNS; r++) {
        double t = run(program, file);
        best = t < best ? t : best;
    }
    printf("%-34s %7.1f ms, goal 200 ms\n", name, best);
    fflush(stdout);
}

int main(int arguments, char **words)
{
    static char left[512], right[512];
    if (arguments != 3)
        fail("usage: program PROGRAM FILE");
    make_full(left, 0);
    make_full(right, 1);
    report("frame program, full lines", left, words[1], words[2]);
    report("frame program, nested to the right", right, words[1], words[2]);
    report("frame program, single steps", "sa\n 136\n", words[1], words[2]);
    report("frame program, empty lines", "\n\n", words[1], words[2]);
    return 0;
}
