/*
 * parity WHAT SIDE N LENGTH
 *
 *   WHAT    frame: the parity of a frame, whose 406 data symbols come in bursts of LENGTH symbols, the last one shorter
 *           where it has to be; burst: one burst of a frame's first LENGTH symbols into a new state, and no parity
 *   SIDE    maststep, plain or, where it is linked, libfec, which knows no bursts and always encodes a whole frame: N
 *           times that, on eight fixed frames in turn, then a sum over some of the symbols that it gave, as one line
 *           of 16 hex digits;
 *           both: the sides in turn, N times each, several rounds, timed; prints for each side the fewest
 *           nanoseconds of one time, as 'maststep NS', 'plain NS' and 'libfec NS';
 *           compare: all sides on the fixed frames and then on N by chance, in bursts of LENGTH, the latter in bursts by
 *           chance too, and N single calls by chance, good and bad; every answer, every entry of a state and every parity
 *           symbol is compared, and the first that differs is named and ends the program with 1; so does, after all,
 *           something that the single calls should meet and have not
 *
 * Nothing but main runs between the calls, so that a count of the instructions outside of main grows by the
 * calls alone.
 */
#include <stdio.h>
#include <string.h>

#include "common.h"
#include "libfec.h"
#include "maststep.h"
#include "parity_calls.h"

enum { ROUNDS = 25 };

static uint16_t frames[FRAMES][DATA];

static const char *const side_names[] = {"maststep", "plain", "libfec"};

/* What is done again and again: a whole frame, or one burst. */
struct work {
    int is_frame;
    size_t length;
};

/* The sides that have a part in it: libfec has none in a burst. */
static unsigned sides_of(const struct work *work)
{
    return work->is_frame ? SIDES : LIBFEC;
}

static void fill(uint16_t *data, uint64_t *seed)
{
    unsigned i;

    for (i = 0; i < DATA; i++) data[i] = (uint16_t)(drawn(seed) % SYMBOLS);
}

/* A frame in bursts of this length, and its parity: tells the sum of two of its symbols. */
PART_OF_MAIN uint64_t encode_in_bursts(const struct calls *side, const uint16_t *data, size_t burst)
{
    uint16_t state[STATE] = {0}, parity[PARITY];
    size_t at;

    for (at = 0; at < DATA; at += burst) side->take(state, STATE, data + at, DATA - at < burst ? DATA - at : burst);
    side->finish(state, STATE, parity, PARITY);
    return (uint64_t)parity[0] + parity[PARITY - 1];
}

/* One burst into a new state: tells the sum of two of its entries. */
PART_OF_MAIN uint64_t take_one_burst(const struct calls *side, const uint16_t *data, size_t burst)
{
    uint16_t state[STATE] = {0};

    side->take(state, STATE, data, burst);
    return (uint64_t)state[0] + state[PARITY - 1];
}

/* The work so many times on the fixed frames in turn; tells a sum over some of what it gave. */
PART_OF_MAIN uint64_t work_often(unsigned side, unsigned long times, const struct work *work)
{
    uint64_t sum = 0;
    unsigned long i;

    for (i = 0; i < times; i++) {
        const uint16_t *data = frames[i % FRAMES];

        sum *= 3;
        if (side == LIBFEC) sum += encode_by_libfec(i % FRAMES);
        else if (work->is_frame) sum += encode_in_bursts(&calls[side], data, work->length);
        else sum += take_one_burst(&calls[side], data, work->length);
    }
    return sum;
}

/* Times all sides in turn and prints the figures. */
static void time_all(unsigned long times, const struct work *work)
{
    const unsigned sides = sides_of(work);
    double best[LIBFEC + 1] = {0};
    uint64_t sum = 0;
    unsigned round, side;

    for (round = 0; round < ROUNDS; round++) {
        for (side = 0; side < sides; side++) {
            double start = nanoseconds(), each;

            sum += work_often(side, times, work);
            each = (nanoseconds() - start) / (double)times;
            if (round == 0 || each < best[side]) best[side] = each;
        }
    }
    for (side = 0; side < sides; side++) printf("%s %.3f\n", side_names[side], best[side]);
    /* The sum is looked at, so that nothing can be left out. */
    fprintf(stderr, "%016llx\n", (unsigned long long)sum);
}

/* Compares all sides on a frame, in bursts of this length; 0 is a length by chance for each, and some are empty. */
static int compare_frame(unsigned long number, const uint16_t *data, size_t burst, uint64_t *seed)
{
    uint64_t answer;
    size_t at, length;

    memset(states, 0, sizeof states);
    for (at = 0; at < DATA; at += length) {
        length = burst ? burst : drawn(seed) % 64;
        if (length > DATA - at) length = DATA - at;
        if (!same_take(number, STATE, data + at, length, &answer)) return 0;
    }
    if (!same_finish(number, STATE, PARITY, &answer)) return 0;
    if (maststep_kind(answer) != MASTSTEP_NUMBER) {
        printf("frame %lu: no parity but %016llx\n", number, (unsigned long long)answer);
        return 0;
    }
    return same_by_libfec(number, data, parities[0]);
}

/* Compares on the fixed frames and on so many by chance, and on as many single calls. */
static int compare_all(unsigned long times, size_t burst)
{
    uint64_t seed = burst;
    uint16_t data[DATA];
    unsigned long i;

    for (i = 0; i < FRAMES; i++)
        if (!compare_frame(i, frames[i], burst, &seed)) return 0;
    for (i = FRAMES; i < FRAMES + times; i++) {
        fill(data, &seed);
        if (!compare_frame(i, data, burst, &seed) || !compare_frame(i, data, 0, &seed)) return 0;
    }
    for (i = 0; i < times; i++)
        if (!compare_call(i, &seed)) return 0;
    return is_all_met(names, met, KINDS);
}

/* The side of this name that has a part in the work; the number of sides where there is none. */
static unsigned side_named(const char *name, unsigned count)
{
    unsigned side;

    for (side = 0; side < count && strcmp(name, side_names[side]) != 0;) side++;
    return side;
}

int main(int argc, char **argv)
{
    uint64_t seed = UINT64_C(0x243f6a8885a308d3);
    struct work work;
    unsigned long times;
    unsigned side, sides;

    if (argc != 5) return 2;
    work = (struct work){strcmp(argv[1], "frame") == 0, number(argv[4])};
    times = number(argv[3]);
    if ((!work.is_frame && strcmp(argv[1], "burst") != 0) || times == 0 || work.length == 0 || work.length > DATA) return 2;
    for (side = 0; side < FRAMES; side++) fill(frames[side], &seed);
    prepare_libfec(frames);

    if (strcmp(argv[2], "compare") == 0) return !compare_all(times, work.length);
    if (strcmp(argv[2], "both") == 0) {
        time_all(times, &work);
        return 0;
    }
    sides = sides_of(&work);
    side = side_named(argv[2], sides);
    if (side == sides) return 2;
    print_sum(work_often(side, times, &work));
    return 0;
}
