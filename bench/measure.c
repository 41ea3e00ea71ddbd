/* measure SETUP LOOP REPEATS: nanoseconds for each call of a mix, whose rows are in two binary files.
   With PROVED_KERNEL the calls are those of the proved kernel's static library: in place, with BY_VALUE too by value, with BY_CALLS too each by the
   public call, which tests first that the kernel is sound. Else they are of the plain one. */
#define _POSIX_C_SOURCE 200809L

#include "kernel.h"

#include <stdio.h>
#include <stdlib.h>
#include <time.h>

enum { ROWS = 1024 };

struct rows {
    size_t count;
    uint8_t row[ROWS][ROW];
};

/* Reads a file of whole rows; false if that cannot be done. */
static bool read_rows(const char *path, struct rows *rows)
{
    FILE *file = fopen(path, "rb");
    size_t length;
    bool whole;

    if (file == NULL)
        return false;
    length = fread(rows->row, 1, sizeof rows->row, file);
    whole = fgetc(file) == EOF && !ferror(file) && length % ROW == 0;
    fclose(file);
    rows->count = length / ROW;
    return whole;
}

/* The time now in nanoseconds, on a clock that is never set back. */
static double now(void)
{
    struct timespec time;

    clock_gettime(CLOCK_MONOTONIC, &time);
    return (double)time.tv_sec * 1e9 + (double)time.tv_nsec;
}

/* What a measurement found, in words. */
static void report(double took, double calls, uint64_t checksum)
{
    printf("%.3f ns per call, %.0f calls, checksum %llu\n", took / calls, calls, (unsigned long long)checksum);
}

#ifdef PROVED_KERNEL

#if defined BY_VALUE
#define PROVED run_rows_by_value
#elif defined BY_CALLS
#define PROVED run_rows_by_calls
#else
#define PROVED run_rows
#endif

/* The proved kernel, from boot: the setup once, the rows so often, and the sum of the answers to these. */
uint64_t PROVED(const uint8_t *setup, size_t setup_length, const uint8_t *rows, size_t length, uint64_t repeats);

/* Runs the setup once and the loop so often, and prints the time; what is refused shows in the checksum. */
static bool measure(const struct rows *setup, const struct rows *loop, unsigned long repeats)
{
    double began = now();
    uint64_t checksum = PROVED(setup->row[0], setup->count * ROW, loop->row[0], loop->count * ROW, repeats);

    report(now() - began, (double)loop->count * (double)repeats, checksum);
    return true;
}

#else

/* The sum of the answers is printed, so that no compiler drops a call; it is the same for every right kernel. */
struct tally {
    uint64_t checksum;
    uint8_t refused;
};

/* An answer as one number: running has 8 bits and given 16, so that no two answers come to the same. */
static uint64_t weight(const struct answer *answer)
{
    return (uint64_t)answer->number << 24 | (uint64_t)answer->given << 8 | answer->running;
}

/* Answers the rows in order, as often as asked. */
static struct tally run_rows(struct kernel *kernel, const struct rows *rows, unsigned long repeats)
{
    struct tally tally = { 0 };
    unsigned long round;
    size_t i;

    for (round = 0; round < repeats; round++) {
        for (i = 0; i < rows->count; i++) {
            struct answer answer;
            step_row(kernel, rows->row[i], &answer);
            tally.checksum += weight(&answer);
            tally.refused |= answer.number;
        }
    }
    return tally;
}

/* Runs the setup once and the loop so often, and prints the time of the loop; false if a call was refused. */
static bool measure(const struct rows *setup, const struct rows *loop, unsigned long repeats)
{
    struct kernel kernel;
    struct tally before, tally;
    double began;

    boot(&kernel);
    before = run_rows(&kernel, setup, 1);
    began = now();
    tally = run_rows(&kernel, loop, repeats);
    report(now() - began, (double)loop->count * (double)repeats, tally.checksum);
    return before.refused == DONE && tally.refused == DONE;
}

#endif

/* Reads the command line; exit status 1 for a mix that cannot be read or is refused, since its time means nothing. */
int main(int count, char **words)
{
    struct rows setup, loop;
    unsigned long repeats = count == 4 ? strtoul(words[3], NULL, 10) : 0;

    if (repeats == 0) {
        fputs("usage: measure SETUP LOOP REPEATS\n", stderr);
        return 2;
    }
    if (!read_rows(words[1], &setup) || !read_rows(words[2], &loop) || loop.count == 0) {
        fprintf(stderr, "measure: a mix is two files of at most %d whole rows, and its loop has one at least\n", ROWS);
        return 1;
    }
    if (!measure(&setup, &loop, repeats)) {
        fputs("measure: a call of the mix was refused\n", stderr);
        return 1;
    }
    return 0;
}
