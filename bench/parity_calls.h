/*
 * The two sides' calls for the parity of a frame, compared entry by entry, and single calls by chance, good and bad, with
 * what they meet. A comparison that never met one of these would show less than it says.
 */
#ifndef BENCH_PARITY_CALLS_H
#define BENCH_PARITY_CALLS_H

#include <stdio.h>
#include <string.h>

#include "common.h"
#include "maststep.h"

typedef uint64_t take_call(uint16_t *, size_t, const uint16_t *, size_t);
typedef uint64_t finish_call(const uint16_t *, size_t, uint16_t *, size_t);

take_call plain_parity_take;
finish_call plain_parity_finish;

enum { DATA = MASTSTEP_DATA_SYMBOLS, PARITY = MASTSTEP_PARITY_SYMBOLS, STATE = MASTSTEP_STATE_ENTRIES, SYMBOLS = 512 };

/* Calls by chance may lend entries to spare, and a burst may be longer than all data of a frame. */
enum { LENT = STATE + 4, MOST = DATA + 4 };

static const struct calls {
    take_call *take;
    finish_call *finish;
} calls[2] = {{maststep_parity_take, maststep_parity_finish}, {plain_parity_take, plain_parity_finish}};

static uint16_t states[2][LENT], parities[2][LENT];

/* Compares what both sides have said, and the lists that they were lent, to their end. */
static int same(const char *call, unsigned long number, const uint64_t *said, uint16_t lists[2][LENT])
{
    unsigned i;

    if (said[0] != said[1]) {
        printf("%s %lu: the calls answer %016llx and %016llx\n", call, number, (unsigned long long)said[0], (unsigned long long)said[1]);
        return 0;
    }
    for (i = 0; i < LENT; i++) {
        if (lists[0][i] == lists[1][i]) continue;
        printf("%s %lu, entry %u: %04x and %04x\n", call, number, i, lists[0][i], lists[1][i]);
        return 0;
    }
    return 1;
}

/* Takes a burst into the states, which are the same, and compares; the answer goes to its place. */
static int same_take(unsigned long number, size_t entries, const uint16_t *burst, size_t length, uint64_t *answer)
{
    uint64_t said[2];
    unsigned side;

    for (side = 0; side < 2; side++) said[side] = calls[side].take(states[side], entries, burst, length);
    *answer = said[0];
    return same("take", number, said, states);
}

/* Gives the parity of the states, which are the same, and compares, also that the states stay the same. */
static int same_finish(unsigned long number, size_t entries, size_t room, uint64_t *answer)
{
    uint64_t said[2];
    unsigned side;

    memset(parities, 0xee, sizeof parities); /* no symbol looks like this */
    for (side = 0; side < 2; side++) said[side] = calls[side].finish(states[side], entries, parities[side], room);
    *answer = said[0];
    return same("finish", number, said, parities) && same("finish", number, said, states);
}

/* What the single calls should meet: of each of the two calls every refusal, and what stands in names. */
enum {
    TAKE_ROOM, TAKE_COUNT, TAKE_SYMBOL, TAKE_ALL, TAKEN, TAKEN_NONE, TAKEN_LAST, ONE_TOO_MANY, LONG_BURST, HIGH_COUNT,
    FINISH_ROOM_OF_STATE, FINISH_ROOM_OF_PARITY, FINISH_COUNT, FINISH_SYMBOL, FINISH_ALL, FINISHED, KINDS
};

static const char *const names[KINDS] = {
    [TAKE_ROOM] = "Room of take", [TAKE_COUNT] = "Count of take", [TAKE_SYMBOL] = "Symbol of take",
    [TAKE_ALL] = "all refusals of take at once", [TAKEN] = "a burst into a state with entries to spare",
    [TAKEN_NONE] = "an empty burst", [TAKEN_LAST] = "a burst up to the last symbol", [ONE_TOO_MANY] = "one symbol too many",
    [LONG_BURST] = "a burst longer than a frame", [HIGH_COUNT] = "the highest count in a state",
    [FINISH_ROOM_OF_STATE] = "Room of finish, for the state", [FINISH_ROOM_OF_PARITY] = "Room of finish, for the parity",
    [FINISH_COUNT] = "Count of finish", [FINISH_SYMBOL] = "Symbol of finish",
    [FINISH_ALL] = "all refusals of finish at once", [FINISHED] = "a parity into a list with entries to spare",
};

static unsigned long met[KINDS];

/* A call by chance: what it lends, and the burst that a state with this count takes. */
struct call {
    size_t entries, length, room, count;
    uint16_t burst[MOST];
    int wrong_symbol;
};

/* A number of entries by chance, as a rule just enough, or else one too few or any. */
static size_t entries_by_chance(uint64_t chance, size_t enough)
{
    switch (chance % 8) {
    case 0: return enough - 1;
    case 1: return (chance >> 3) % (LENT + 1);
    case 2: return LENT;
    default: return enough;
    }
}

/* A burst's length by chance: short, any, or longer than a frame's data. */
static size_t length_by_chance(uint64_t chance)
{
    switch (chance % 4) {
    case 0: return (chance >> 2) % 10;
    case 1: return DATA + (chance >> 2) % (MOST - DATA + 1);
    default: return (chance >> 2) % (DATA + 1);
    }
}

/* A count by chance beside a burst of this length: what fits just so, one more, all data, the highest number, or any. */
static size_t count_by_chance(uint64_t chance, size_t length)
{
    const size_t left = length < DATA ? DATA - length : 0;

    switch (chance % 8) {
    case 0: return left;
    case 1: return left + 1;
    case 2: return DATA;
    case 3: return 0xffff;
    case 4: return (chance >> 3) % (2 * DATA);
    default: return (chance >> 3) % (left + 1);
    }
}

/* Symbols by chance, and now and then a number that is none, any or the least one; tells whether there is one. */
static int fill_by_chance(uint16_t *list, size_t length, uint64_t *seed)
{
    const uint64_t chance = drawn(seed), wrong = drawn(seed);
    size_t i;

    for (i = 0; i < length; i++) list[i] = (uint16_t)(drawn(seed) % SYMBOLS);
    if (length == 0 || chance % 4) return 0;
    list[(chance >> 3) % length] = (uint16_t)(chance & 4 ? SYMBOLS : SYMBOLS + wrong % (0x10000 - SYMBOLS));
    return 1;
}

/* A call by chance, with its state in the first of states and a copy of it in the other. */
static void draw_call(struct call *call, uint64_t *seed)
{
    const uint64_t chance = drawn(seed), more = drawn(seed);

    call->entries = entries_by_chance(chance, STATE);
    call->room = entries_by_chance(chance >> 16, PARITY);
    call->length = length_by_chance(more);
    call->count = count_by_chance(more >> 16, call->length);
    call->wrong_symbol = fill_by_chance(call->burst, call->length, seed);
    call->wrong_symbol |= fill_by_chance(states[0], PARITY, seed);
    states[0][PARITY] = (uint16_t)call->count;
    memset(states[0] + STATE, 0xee, sizeof states[0] - STATE * sizeof states[0][0]);
    memcpy(states[1], states[0], sizeof states[0]);
}

static void count_take(const struct call *call, uint64_t answer)
{
    const int is_taken = maststep_kind(answer) == MASTSTEP_NUMBER, is_over = call->count + call->length > DATA;

    met[TAKE_ROOM] += maststep_kind(answer) == MASTSTEP_ROOM;
    met[TAKE_COUNT] += maststep_kind(answer) == MASTSTEP_COUNT;
    met[TAKE_SYMBOL] += maststep_kind(answer) == MASTSTEP_SYMBOL;
    met[TAKE_ALL] += call->entries < STATE && is_over && call->wrong_symbol;
    met[TAKEN] += is_taken && call->entries > STATE;
    met[TAKEN_NONE] += is_taken && call->length == 0;
    met[TAKEN_LAST] += is_taken && call->length > 0 && maststep_value(answer) == DATA;
    met[ONE_TOO_MANY] += call->entries >= STATE && call->count + call->length == DATA + 1;
    met[LONG_BURST] += call->entries >= STATE && call->length > DATA;
    met[HIGH_COUNT] += call->entries >= STATE && call->count == 0xffff;
}

static void count_finish(const struct call *call, int wrong_register, uint64_t answer)
{
    const int is_short = call->entries < STATE;

    met[FINISH_ROOM_OF_STATE] += is_short && call->room >= PARITY;
    met[FINISH_ROOM_OF_PARITY] += !is_short && call->room < PARITY;
    met[FINISH_COUNT] += maststep_kind(answer) == MASTSTEP_COUNT;
    met[FINISH_SYMBOL] += maststep_kind(answer) == MASTSTEP_SYMBOL;
    met[FINISH_ALL] += is_short && call->room < PARITY && states[0][PARITY] != DATA && wrong_register;
    met[FINISHED] += maststep_kind(answer) == MASTSTEP_NUMBER && call->room > PARITY;
}

static int is_wrong_register(void)
{
    unsigned i;

    for (i = 0; i < PARITY; i++)
        if (states[0][i] >= SYMBOLS) return 1;
    return 0;
}

/* A burst by chance into a state by chance, and then the parity of the state that it has left. */
static int compare_call(unsigned long number, uint64_t *seed)
{
    static struct call call;
    uint64_t answer;

    draw_call(&call, seed);
    if (!same_take(number, call.entries, call.burst, call.length, &answer)) return 0;
    count_take(&call, answer);
    if (!same_finish(number, call.entries, call.room, &answer)) return 0;
    count_finish(&call, is_wrong_register(), answer);
    return 1;
}

#endif
