/* What the programs of the bench have in common. */
#ifndef BENCH_COMMON_H
#define BENCH_COMMON_H

#include <stdint.h>
#include <stdio.h>
#include <time.h>

/*
 * What runs between the calls: the compiler lays it into main, under whose name the count of the
 * instructions leaves it out.
 */
#define PART_OF_MAIN static inline __attribute__((always_inline))

/*
 * Rust's core library was compiled for programs that unwind, and names this function in its tables. The
 * plain side is compiled to abort on a panic, so that nothing ever calls it.
 */
void rust_eh_personality(void);
void rust_eh_personality(void) {}

/* A decimal number, or 0 where it is none. */
PART_OF_MAIN unsigned long number(const char *digit)
{
    unsigned long n = 0;

    for (; *digit >= '0' && *digit <= '9'; digit++) n = n * 10 + (unsigned long)(*digit - '0');
    return *digit == '\0' ? n : 0;
}

/* One step of Knuth's MMIX generator: 48 bits, its upper ones, which are the good ones. */
PART_OF_MAIN uint64_t drawn(uint64_t *seed)
{
    *seed = *seed * UINT64_C(6364136223846793005) + UINT64_C(1442695040888963407);
    return *seed >> 16;
}

/* The time by a clock that only goes forward, in ns. */
PART_OF_MAIN double nanoseconds(void)
{
    struct timespec time;

    clock_gettime(CLOCK_MONOTONIC, &time);
    return (double)time.tv_sec * 1e9 + (double)time.tv_nsec;
}

/* Prints a sum as one line of 16 hex digits. */
PART_OF_MAIN void print_sum(uint64_t sum)
{
    char line[17];
    unsigned i;

    for (i = 0; i < 16; i++) line[i] = "0123456789abcdef"[sum >> (60 - 4 * i) & 15];
    line[16] = '\n';
    fwrite(line, 1, 17, stdout);
}

/* Names each thing that has a name and was never met; answers 0 where there is one. */
static inline int is_all_met(const char *const *names, const unsigned long *met, unsigned kinds)
{
    int all = 1;
    unsigned kind;

    for (kind = 0; kind < kinds; kind++) {
        if (names[kind] == NULL || met[kind] > 0) continue;
        printf("never met: %s\n", names[kind]);
        all = 0;
    }
    return all;
}

#endif
