/*
 * device LIST CALL RUNS LENGTH
 *
 *   LIST    one of those in events.h: a prologue and events of one kind after it; mixed: events of all kinds
 *   CALL    maststep_run, plain_run: RUNS runs of the prologue and the first LENGTH events after it, a call
 *           for all of them; maststep_step, plain_step: the same events of a device that the program keeps, a
 *           call for each. Then a sum over some of the answers as one line of 16 hex digits;
 *           run, step: such calls of both sides in turn, several rounds, timed; each takes RUNS runs with
 *           LENGTH events after the prologue and RUNS runs with twice as many; prints for each side what the
 *           fewest nanoseconds of a run grow by from the first to the second, as 'maststep NS' and 'plain
 *           NS', so that the prologue and all else that is there once a run fall out;
 *           compare: all four calls on RUNS lists, of which only the mixed ones differ; each entry of the
 *           four lists of answers is compared, and the first that differs is named and ends the program with
 *           1; so does, after all lists, that they are not what they should be (met.h)
 *
 * Nothing but main runs between the calls, and lists are always filled to their end, so that a count of the
 * instructions outside of main grows by the calls alone.
 */
#include <stdio.h>
#include <string.h>

#include "common.h"
#include "events.h"
#include "maststep.h"
#include "met.h"

enum { PLAIN_CELLS = 20 };

/* The memory of a plain device. C knows no more of it; bench/plain/lent.rs sees to it that one fits in. */
typedef struct plain_device {
    uint64_t cells[PLAIN_CELLS];
} plain_device;

void plain_fresh(plain_device *device);
uint64_t plain_step(plain_device *device, uint64_t kind, uint64_t clock, uint64_t argument);
uint64_t plain_run(const uint64_t *events, size_t cells, uint64_t *answers, size_t room);

enum { ROUNDS = 100 };

/* The calls: of the two sides first those that take a list, then those that take an event. */
enum { OUR_RUN, PLAIN_RUN, OUR_STEP, PLAIN_STEP, CALLS };
static const char *const call_names[CALLS] = {"maststep_run", "plain_run", "maststep_step", "plain_step"};

static uint64_t events[CELLS * EVENTS], answers[CALLS][EVENTS];
static maststep_device kept;
static plain_device kept_plain;

/* A fresh device takes so many events, a call for each; answers as a run does. */
PART_OF_MAIN uint64_t step_through(unsigned call, size_t count)
{
    size_t i;

    if (call == OUR_STEP) maststep_fresh(&kept);
    else plain_fresh(&kept_plain);
    for (i = 0; i < count; i++) {
        const uint64_t *event = events + CELLS * i;

        answers[call][i] = call == OUR_STEP ? maststep_step(&kept, event[0], event[1], event[2])
                                            : plain_step(&kept_plain, event[0], event[1], event[2]);
    }
    return (uint64_t)MASTSTEP_NUMBER << 56 | count;
}

/* A fresh device takes so many events by one of the calls. Each case is laid in by itself, so that no loop asks for the call. */
PART_OF_MAIN uint64_t take(unsigned call, size_t count)
{
    switch (call) {
    case OUR_RUN: return maststep_run(events, CELLS * count, answers[OUR_RUN], EVENTS);
    case PLAIN_RUN: return plain_run(events, CELLS * count, answers[PLAIN_RUN], EVENTS);
    case OUR_STEP: return step_through(OUR_STEP, count);
    default: return step_through(PLAIN_STEP, count);
    }
}

/* So many runs with so many events after the prologue; tells a sum over some of what they left. */
PART_OF_MAIN uint64_t take_often(unsigned call, unsigned long runs, size_t length)
{
    uint64_t sum = 0;

    for (; runs > 0; runs--) {
        sum += take(call, PROLOGUE + length);
        sum += answers[call][PROLOGUE] + answers[call][PROLOGUE + length - 1];
    }
    return sum;
}

/* Whether a call has left what maststep_run has, to the end of the list. */
static int is_same(unsigned call, unsigned long list)
{
    size_t i;

    for (i = 0; i < EVENTS; i++) {
        if (answers[call][i] == answers[OUR_RUN][i]) continue;
        printf("list %lu, event %zu of kind %llu: %s says %016llx and %s %016llx\n", list, i, (unsigned long long)events[CELLS * i],
               call_names[OUR_RUN], (unsigned long long)answers[OUR_RUN][i], call_names[call], (unsigned long long)answers[call][i]);
        return 0;
    }
    return 1;
}

/* Gives all calls the events and compares. What lies in the memory of a device before it is made fresh must not matter. */
static int compare(unsigned long list, size_t length)
{
    unsigned call;

    memset(answers, 0xee, sizeof answers); /* no answer looks like this */
    memset(&kept, 0xee, sizeof kept);
    memset(&kept_plain, 0xee, sizeof kept_plain);
    for (call = 0; call < CALLS; call++) {
        uint64_t said = take(call, PROLOGUE + length);

        if (said != ((uint64_t)MASTSTEP_NUMBER << 56 | (PROLOGUE + length))) {
            printf("list %lu: %s answers %016llx\n", list, call_names[call], (unsigned long long)said);
            return 0;
        }
        if (!is_same(call, list)) return 0;
    }
    count_met(events, answers[OUR_RUN], PROLOGUE + length);
    return 1;
}

/* Compares on so many lists of a name, and looks whether they are what they should be. */
static int compare_all(const char *name, unsigned long lists, size_t length)
{
    unsigned long i;

    for (i = 1; i <= lists; i++) {
        fill_events(events, name, i);
        if (!compare(i, length)) return 0;
    }
    i = place_of(name);
    return i == MEASURED ? is_all_met(names, met, KINDS) : is_as_meant(i, answers[OUR_RUN]);
}

/* Times a call of maststep's and the same of plain Rust, which follows it, and prints the figures. */
static void time_both(unsigned first, unsigned long runs, size_t length)
{
    double best[2][2] = {{0, 0}, {0, 0}};
    uint64_t sum = 0;
    unsigned turn;

    for (turn = 0; turn < 4 * ROUNDS; turn++) {
        unsigned side = turn % 2, twice = turn / 2 % 2;
        double start = nanoseconds(), each;

        sum += take_often(first + side, runs, length << twice);
        each = (nanoseconds() - start) / (double)runs;
        if (turn < 4 || each < best[side][twice]) best[side][twice] = each;
    }
    printf("maststep %.3f\nplain %.3f\n", best[0][1] - best[0][0], best[1][1] - best[1][0]);
    /* The sum is looked at, so that nothing can be left out. */
    fprintf(stderr, "%016llx\n", (unsigned long long)sum);
}

/* The place of a name, or the number of names where it is none of them. */
PART_OF_MAIN unsigned call_of(const char *name)
{
    unsigned call;

    for (call = 0; call < CALLS; call++) {
        if (strcmp(name, call_names[call]) == 0) break;
    }
    return call;
}

int main(int argc, char **argv)
{
    unsigned long runs, length;
    unsigned call;

    if (argc != 5) return 2;
    runs = number(argv[3]);
    length = number(argv[4]);
    if (runs == 0 || length == 0 || length > LASTING) return 2;
    if (!fill_events(events, argv[1], 1)) return 2;

    if (strcmp(argv[2], "compare") == 0) return !compare_all(argv[1], runs, length);
    if (strcmp(argv[2], "run") == 0 || strcmp(argv[2], "step") == 0) {
        if (length > LASTING / 2) return 2;
        time_both(argv[2][0] == 'r' ? OUR_RUN : OUR_STEP, runs, length);
        return 0;
    }
    call = call_of(argv[2]);
    if (call == CALLS) return 2;
    print_sum(take_often(call, runs, length));
    return 0;
}
