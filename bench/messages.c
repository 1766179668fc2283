/*
 * messages PAGES SIDE N
 *
 *   PAGES   the run that is read has 64 pages, and each of its messages so many of them: 1, 2, 4 or 64
 *   SIDE    maststep, plain (plain Rust by two functions that call one another) or loop (plain Rust in one loop): N
 *           calls, then the sum of all results as one line of 16 hex digits;
 *           both: the sides in turn, N calls each, several rounds, timed; prints for each side the
 *           fewest nanoseconds a call, as 'maststep NS', 'plain NS' and 'loop NS';
 *           compare: all sides on that run and then on N runs by chance, with lists of many sizes; what they answer
 *           and every cell of their lists is compared, and the first run that differs is named and ends the program
 *           with 1; so does, after all runs, something that they should meet and have not
 *
 * Nothing but main runs between the calls, so that a count of the instructions outside of main grows by the
 * calls alone.
 */
#include <stdio.h>
#include <string.h>

#include "common.h"
#include "maststep.h"

typedef uint64_t messages_call(const uint64_t *, size_t, uint64_t *, size_t);

messages_call plain_messages, plain_messages_in_one_loop;

/* Runs by chance may have a page too many, and a list cells to spare. */
enum { MOST = MASTSTEP_MOST_PAGES, CELLS = MASTSTEP_MESSAGE_CELLS, ROOM = CELLS * MOST, LENT = ROOM + 8, ROUNDS = 25 };

enum { MESSAGE_PAGE = 1 << MASTSTEP_FIELD_MESSAGE };

enum { SIDES = 3 };

static messages_call *const sides[SIDES] = {maststep_messages, plain_messages, plain_messages_in_one_loop};
static const char *const side_names[SIDES] = {"maststep", "plain", "loop"};
static uint64_t pages[MOST + 1], told[SIDES][LENT];

/* A run, and the room that there is for its messages. */
struct run {
    size_t length, messages, room;
};

static uint64_t as_message_page(uint64_t word)
{
    return word | MESSAGE_PAGE;
}

static uint64_t as_unformatted_page(uint64_t word)
{
    return word & ~(uint64_t)MESSAGE_PAGE;
}

/* The run that is measured: fixed words as pages, each message with so many of them. */
static struct run fill_alike(size_t each)
{
    uint64_t seed = UINT64_C(0x243f6a8885a308d3);
    size_t i;

    for (i = 0; i < MOST; i++) pages[i] = i % each ? as_unformatted_page(drawn(&seed)) : as_message_page(drawn(&seed));
    return (struct run){MOST, MOST / each, ROOM};
}

/* A length by chance, every other time the greatest that is allowed or one more. */
static size_t length_by_chance(uint64_t chance)
{
    return chance % 2 ? MOST + (chance >> 1) % 2 : (chance >> 1) % MOST;
}

/* A number of cells by chance, every other time just enough for these messages, one less or one more. */
static size_t room_by_chance(uint64_t chance, size_t messages)
{
    switch (chance % 8) {
    case 0: return CELLS * messages;
    case 1: return CELLS * messages + 1;
    case 2: return messages ? CELLS * messages - 1 : 0;
    case 3: return LENT;
    default: return (chance >> 3) % (LENT + 1);
    }
}

/*
 * A run by chance. One page in so many is a message page, from all of them to hardly one, and so is the first as a rule;
 * now and then a page is wide.
 */
static struct run fill_by_chance(uint64_t *seed)
{
    uint64_t chance = drawn(seed), more = drawn(seed), one_in = UINT64_C(1) << chance % 9;
    struct run run = {length_by_chance(chance >> 4), 0, 0};
    size_t i;

    for (i = 0; i < run.length; i++) {
        const int is_message = drawn(seed) % one_in == 0 || (i == 0 && chance >> 16 & 7);

        pages[i] = is_message ? as_message_page(drawn(seed)) : as_unformatted_page(drawn(seed));
        run.messages += (size_t)is_message;
    }
    if (run.length > 0 && more % 8 == 0) pages[(more >> 3) % run.length] += UINT64_C(1) << (48 + (more >> 16) % 16);
    run.room = room_by_chance(more >> 24, run.messages < MOST ? run.messages : MOST);
    return run;
}

/* What runs by chance should meet: the refusals by their numbers, and what stands in names. */
enum { EMPTY = 26, ALL_MESSAGES, ONE_MESSAGE, JUST_ROOM, ONE_CELL_SHORT, ALL_REFUSALS, KINDS };

static const char *const names[KINDS] = {
    [MASTSTEP_ROOM] = "Room", [MASTSTEP_WIDE] = "Wide", [MASTSTEP_RUN] = "Run", [MASTSTEP_LENGTH] = "Length",
    [EMPTY] = "an empty run", [ALL_MESSAGES] = "64 messages", [ONE_MESSAGE] = "one message of 64 pages",
    [JUST_ROOM] = "just enough cells", [ONE_CELL_SHORT] = "one cell too few", [ALL_REFUSALS] = "all refusals at once",
};

static unsigned long met[KINDS];

/* Whether a run is all that is refused: too long, with a wide page, an unformatted one first, and without room. */
static int is_all_wrong(const struct run *run)
{
    size_t i;

    if (run->length <= MOST || pages[0] & MESSAGE_PAGE || run->room >= CELLS * run->messages) return 0;
    for (i = 0; i < run->length; i++)
        if (pages[i] >> 48) return 1;
    return 0;
}

/* Counts what a run meets; its answer is given. */
static void count_met(const struct run *run, uint64_t answer)
{
    const int is_told = maststep_kind(answer) == MASTSTEP_NUMBER;

    if (!is_told) met[maststep_kind(answer) % KINDS]++;
    met[EMPTY] += is_told && run->length == 0;
    met[ALL_MESSAGES] += is_told && run->messages == MOST;
    met[ONE_MESSAGE] += is_told && run->messages == 1 && run->length == MOST;
    met[JUST_ROOM] += is_told && run->messages > 0 && run->room == CELLS * run->messages;
    met[ONE_CELL_SHORT] += maststep_kind(answer) == MASTSTEP_ROOM && run->room + 1 == CELLS * run->messages;
    met[ALL_REFUSALS] += is_all_wrong(run);
}

/* Compares what a side of plain Rust has said and left with what maststep has, to the end of the lists. */
static int same(unsigned long number, const uint64_t *said, unsigned side)
{
    size_t i;

    if (said[side] != said[0]) {
        printf("run %lu: the calls answer %016llx and %016llx\n", number, (unsigned long long)said[0], (unsigned long long)said[side]);
        return 0;
    }
    for (i = 0; i < LENT; i++) {
        if (told[side][i] == told[0][i]) continue;
        printf("run %lu, cell %zu: %016llx and %016llx\n", number, i, (unsigned long long)told[0][i], (unsigned long long)told[side][i]);
        return 0;
    }
    return 1;
}

/* Runs all sides on a run and compares them. */
static int compare(unsigned long number, const struct run *run)
{
    uint64_t said[SIDES];
    unsigned side;

    memset(told, 0xee, sizeof told); /* no cell of a message looks like this */
    for (side = 0; side < SIDES; side++) said[side] = sides[side](pages, run->length, told[side], run->room);
    for (side = 1; side < SIDES; side++)
        if (!same(number, said, side)) return 0;
    count_met(run, said[0]);
    return 1;
}

/* Compares on the run that is measured, which is filled, and on so many by chance, others for each such run. */
static int compare_all(struct run run, unsigned long runs)
{
    uint64_t seed = run.messages;
    unsigned long i;

    for (i = 0; i <= runs; i++) {
        if (!compare(i, &run)) return 0;
        run = fill_by_chance(&seed);
    }
    return is_all_met(names, met, KINDS);
}

/* So many calls on the run that is measured; tells a sum over some of what they left. */
PART_OF_MAIN uint64_t call_often(unsigned side, unsigned long calls, const struct run *run)
{
    uint64_t sum = 0;

    for (; calls > 0; calls--) {
        sum = sum * 3 + sides[side](pages, run->length, told[side], run->room);
        sum = sum * 3 + told[side][0] + told[side][CELLS * run->messages - 1];
    }
    return sum;
}

/* Times all sides in turn and prints the figures. */
static void time_all(unsigned long calls, const struct run *run)
{
    double best[SIDES] = {0};
    uint64_t sum = 0;
    unsigned round, side;

    for (round = 0; round < ROUNDS; round++) {
        for (side = 0; side < SIDES; side++) {
            double start = nanoseconds(), each;

            sum += call_often(side, calls, run);
            each = (nanoseconds() - start) / (double)calls;
            if (round == 0 || each < best[side]) best[side] = each;
        }
    }
    for (side = 0; side < SIDES; side++) printf("%s %.3f\n", side_names[side], best[side]);
    /* The sum is looked at, so that nothing can be left out. */
    fprintf(stderr, "%016llx\n", (unsigned long long)sum);
}

int main(int argc, char **argv)
{
    unsigned long each, calls;
    struct run run;
    unsigned side;

    if (argc != 4) return 2;
    each = number(argv[1]);
    calls = number(argv[3]);
    if (each == 0 || each > MOST || MOST % each != 0 || calls == 0) return 2;
    run = fill_alike(each);

    if (strcmp(argv[2], "compare") == 0) return !compare_all(run, calls);
    if (strcmp(argv[2], "both") == 0) {
        time_all(calls, &run);
        return 0;
    }
    for (side = 0; side < SIDES && strcmp(argv[2], side_names[side]) != 0;) side++;
    if (side == SIDES) return 2;
    print_sum(call_often(side, calls, &run));
    return 0;
}
