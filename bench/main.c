/*
 * main WHICH SIDE N [LENGTH]
 *
 *   WHICH   check: check bits, a call for a word; write: a page, a call for a word; read: a capture, a
 *           walk over all its attempts, which counts as one call
 *   SIDE    maststep or plain: N calls, then the sum of all results as one line of 16 hex digits;
 *           both: the sides in turn, N calls each, several rounds, timed; prints for each side the
 *           fewest nanoseconds a call, as 'maststep NS' and 'plain NS'
 *   LENGTH  the number of readings of a capture, 8000 where none is given; only looked at by read
 *
 * The N calls go round a fixed set of WORDS words, or take a capture in HSM and one in LSM in turn.
 * The sum takes in what a call answers and what it left in the list or at the next place, so that no
 * call can be left out, and two sides that do the same have the same sum.
 *
 * Nothing but main runs between the calls, and main prints and reads numbers by its own hand, so that
 * a count of the instructions outside of main grows by the calls alone.
 */
#include <stdio.h>
#include <string.h>

#include "common.h"
#include "maststep.h"

uint64_t plain_check(uint64_t word);
uint64_t plain_write(uint32_t *list, size_t length, size_t place, uint32_t mode, uint64_t word, uint32_t first);
uint64_t plain_read(const uint32_t *list, size_t length, size_t place, uint32_t mode, size_t *next);

enum { WORDS = 64, ENTRIES = 160, PLACE = 5, ROUNDS = 25, MOST = 8000 };

/* Fills a capture with pages in a row and quiet gaps between them. Its end may cut the last page. */
static void fill(uint32_t *capture, size_t length, uint32_t mode, const uint64_t *words)
{
    static const uint32_t quiet[2] = {500, 5000};
    uint32_t first = UINT32_MAX - 20000; /* the clock rolls over early on */
    size_t filled = 0, page, i;

    for (page = 0; filled < length; page++) {
        uint32_t list[MASTSTEP_MOST_READINGS];
        size_t count = maststep_value(maststep_write(list, MASTSTEP_MOST_READINGS, 0, mode, words[page % WORDS], first));

        for (i = 0; i < count && filled < length; i++) capture[filled++] = list[i];
        first = list[count - 1] + quiet[mode];
    }
}

/* Reads a capture attempt by attempt, and tells a sum of all answers and next places, by their order. */
PART_OF_MAIN uint64_t walk(uint64_t (*read)(const uint32_t *, size_t, size_t, uint32_t, size_t *), const uint32_t *capture,
                           size_t length, uint32_t mode)
{
    uint64_t sum = 0;
    size_t place = 0;

    while (place < length) {
        sum = sum * 3 + read(capture, length, place, mode, &place);
        sum = sum * 3 + place;
    }
    return sum;
}

int main(int argc, char **argv)
{
    static uint64_t words[WORDS];
    static uint32_t list[ENTRIES], captures[2][MOST];
    uint64_t (*checks[2])(uint64_t) = {maststep_check, plain_check};
    uint64_t (*writes[2])(uint32_t *, size_t, size_t, uint32_t, uint64_t, uint32_t) = {maststep_write, plain_write};
    uint64_t (*reads[2])(const uint32_t *, size_t, size_t, uint32_t, size_t *) = {maststep_read, plain_read};
    double best[2] = {0, 0};
    uint64_t sum = 0, seed = UINT64_C(0x243f6a8885a308d3);
    unsigned long calls, length, i;
    unsigned side, from, to, round, rounds;
    int writing, reading, timed;

    if (argc != 4 && argc != 5) return 2;
    writing = strcmp(argv[1], "write") == 0;
    reading = strcmp(argv[1], "read") == 0;
    timed = strcmp(argv[2], "both") == 0;
    from = strcmp(argv[2], "plain") == 0;
    to = timed ? 1 : from;
    rounds = timed ? ROUNDS : 1;
    calls = number(argv[3]);
    length = argc == 5 ? number(argv[4]) : MOST;
    if (calls == 0 || length == 0 || length > MOST) return 2;
    if (!writing && !reading && strcmp(argv[1], "check") != 0) return 2;
    if (!timed && !from && strcmp(argv[2], "maststep") != 0) return 2;

    for (i = 0; i < WORDS; i++) words[i] = drawn(&seed);
    for (i = 0; reading && i < 2; i++) fill(captures[i], length, (uint32_t)i, words);

    for (round = 0; round < rounds; round++) {
        for (side = from; side <= to; side++) {
            double start = 0, each;

            if (timed) start = nanoseconds();
            if (writing) {
                for (i = 0; i < calls; i++) {
                    sum += writes[side](list, ENTRIES, PLACE, i & 1, words[i % WORDS], (uint32_t)i * 65537);
                    sum += list[PLACE + 40] + list[PLACE + 80];
                }
            } else if (reading) {
                for (i = 0; i < calls; i++) sum += walk(reads[side], captures[i & 1], length, i & 1);
            } else {
                for (i = 0; i < calls; i++) sum += checks[side](words[i % WORDS]);
            }
            if (timed) {
                each = (nanoseconds() - start) / (double)calls;
                if (round == 0 || each < best[side]) best[side] = each;
            }
        }
    }

    if (timed) {
        printf("maststep %.3f\nplain %.3f\n", best[0], best[1]);
        /* The sum is looked at here too, so that nothing can be left out of a timed run. */
        fprintf(stderr, "%016llx\n", (unsigned long long)sum);
    } else {
        print_sum(sum);
    }
    return 0;
}
