/*
 * What the mixed lists meet, known by their events and the answers: each refusal of a device, and of Next Pages what
 * stands in names. A comparison that never met one of these would show less than it says. And whether a list that is
 * measured is what it should be.
 */
#ifndef BENCH_MET_H
#define BENCH_MET_H

#include "events.h"

/* Refusals have their numbers. 0 is what need not be met. */
enum { BASE_WITH_NP = 18, LOADED_PAGE, LOADED_WITH_ACK, NULL_PAGE, OWN_READ, HEARD_READ, LATE_SETTLED, PARTNER_LOST, KINDS };

static const char *const names[KINDS] = {
    [1] = "Gap", "Cut", "Check", "Selector", "Tie", "Changed", "Echo", "None", "Roles", "Register", "Turn",
    [17] = "Toggle", "an own base page with NP", "an own Next Page", "an own Next Page with Ack", "the Null message",
    "520-522 as written", "523-525 as heard", "rate and role after Next Pages", "a partner lost",
};

static unsigned long met[KINDS];

/* What an ordered page is. */
static unsigned page_met(uint64_t word)
{
    if ((word & ~(uint64_t)(ACK | TOGGLE)) == 0x2001) return NULL_PAGE;
    if (word % 32 == LOADED) return word & ACK ? LOADED_WITH_ACK : LOADED_PAGE;
    return word % 32 == 1 && word & NP ? BASE_WITH_NP : 0;
}

/* Whether a register is forgotten by a tick between this read and the same one before it. */
static int is_forgotten(const uint64_t *read, const uint64_t *answer)
{
    return read[-CELLS] == TICK && read[-2 * CELLS] == READ && read[2 - 2 * CELLS] == read[2] &&
           maststep_value(answer[-2]) != 0 && maststep_value(answer[0]) == 0;
}

/* What a register's value shows. After a page was heard or ordered a tick does not end a link but by loss. */
static unsigned value_met(const uint64_t *read, const uint64_t *answer, uint64_t last)
{
    unsigned kind = maststep_kind(last);

    if (read[2] < 520) return 0;
    if (maststep_value(*answer) != 0) return read[2] < 523 ? OWN_READ : HEARD_READ;
    return is_forgotten(read, answer) && (kind == MASTSTEP_PAGE || kind == MASTSTEP_ORDER) ? PARTNER_LOST : 0;
}

/* What an answer shows; the last one before it that is neither nothing nor a value is given. */
static unsigned answer_met(const uint64_t *event, const uint64_t *answer, uint64_t last)
{
    unsigned kind = maststep_kind(*answer), page = page_met(maststep_value(last));

    switch (kind) {
    case MASTSTEP_ORDER: return page_met(maststep_value(*answer));
    case MASTSTEP_SETTLED: return page == LOADED_WITH_ACK || page == NULL_PAGE ? LATE_SETTLED : 0;
    case MASTSTEP_VALUE: return value_met(event, answer, last);
    default: return kind < BASE_WITH_NP ? kind : 0;
    }
}

/* Counts what the events after the prologue meet. */
static void count_met(const uint64_t *events, const uint64_t *answers, size_t count)
{
    uint64_t last = 0;
    size_t i;

    for (i = PROLOGUE; i < count; i++) {
        unsigned kind = maststep_kind(answers[i]);

        met[answer_met(events + CELLS * i, answers + i, last)]++;
        if (kind != MASTSTEP_NOTHING && kind != MASTSTEP_VALUE) last = answers[i];
    }
}

/* The number of answers of a kind in the half of a list that is measured. */
static size_t count_of(const uint64_t *answers, unsigned kind)
{
    size_t i, count = 0;

    for (i = HALF; i < EVENTS; i++) count += maststep_kind(answers[i]) == kind;
    return count;
}

/* The kind of the last answer before that half that says something. */
static unsigned last_before(const uint64_t *answers)
{
    size_t i;

    for (i = HALF; i > PROLOGUE; i--) {
        if (maststep_kind(answers[i - 1]) != MASTSTEP_NOTHING) return maststep_kind(answers[i - 1]);
    }
    return MASTSTEP_NOTHING;
}

/* Whether a list that is measured gets the answers that its entry says. In another state it would measure something else. */
static int is_as_meant(unsigned list, const uint64_t *answers)
{
    size_t one = count_of(answers, measured[list].one), other = count_of(answers, measured[list].other);
    size_t all = measured[list].one == measured[list].other ? one : one + other;
    unsigned last = last_before(answers);

    if (last == measured[list].before && one > 0 && other > 0 && all == EVENTS - HALF) return 1;
    printf("the list is not what it should be: an answer of kind %u, then %zu of kind %u and %zu of kind %u\n", last, one,
           measured[list].one, other, measured[list].other);
    return 0;
}

#endif
