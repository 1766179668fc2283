/*
 * The lists of events that the device is measured and compared on.
 *
 * A list is always filled to its end, however many of its events a run is then given, so that filling
 * it costs the same in every run and falls out of a difference of two counts.
 */
#ifndef BENCH_EVENTS_H
#define BENCH_EVENTS_H

#include <string.h>

#include "common.h"
#include "maststep.h"

/* PROLOGUE events bring the device to Ability; the LASTING ones after them are those that are measured. */
enum { PROLOGUE = 2, LASTING = 8000, EVENTS = PROLOGUE + LASTING, CELLS = 3 };

enum { EDGE = 0, TICK = 1, SENT = 2, REPORT = 3, READ = 4, WRITE = 5 };

/* Numbers of the negotiation, in ns; the last is 10BASE-T1L's. */
enum { BREAK = 8000000, LOST = 4000000, WAIT = 350000, SILENT = 33000, QUIET = 3441, INHIBIT = 97500000 };
static const uint32_t long_inhibit = 3060000000;

/* A list that is being filled: the clock stands at the reading of the last event. */
struct events {
    uint64_t *cells;
    size_t count;
    uint32_t clock;
};

/* One more event, so long after the one before it; none if the list is full. */
static void add(struct events *list, uint64_t kind, uint32_t later, uint64_t argument)
{
    uint64_t *cell = list->cells + CELLS * list->count;

    if (list->count == EVENTS) return;
    list->clock += later;
    cell[0] = kind;
    cell[1] = list->clock;
    cell[2] = argument;
    list->count++;
}

static void write_register(struct events *list, uint64_t number, uint64_t value)
{
    add(list, WRITE, 0, number << 16 | value);
}

/* The edges of a page at low speed but for the one at a place, the first of them so long after the event before. */
static void add_page_without(struct events *list, uint64_t word, uint32_t later, size_t place)
{
    uint32_t readings[MASTSTEP_MOST_READINGS];
    size_t i, count = maststep_value(maststep_write(readings, MASTSTEP_MOST_READINGS, 0, MASTSTEP_LSM, word, list->clock + later));

    for (i = 0; i < count; i++) {
        if (i != place) add(list, EDGE, readings[i] - list->clock, 0);
    }
}

static void add_page(struct events *list, uint64_t word, uint32_t later)
{
    add_page_without(list, word, later, SIZE_MAX);
}

/* A page of the partner's: S 1, T 9, no Ack, abilities A2 and A9. */
static const uint64_t partner = UINT64_C(0x40890001);

enum { OWN_NONCE = 7, ECHO = 1 << 5, TOGGLE = 1 << 11, FORCED = 1 << 12, FAULT = 1 << 13, ACK = 1 << 14, NP = 1 << 15 };
enum { NONCE = 1 << 16 };

/* Ticks of a device that waits, so close to one another that none of them orders a page. */
static void fill_ticks(struct events *list)
{
    while (list->count < EVENTS) add(list, TICK, WAIT / (LASTING + 1), OWN_NONCE);
}

/*
 * A partner that repeats its page: the first is held, and each further one marks heard in Ack. The echoed
 * nonce, which is not looked at where Ack is 0, goes through all its values.
 */
static void fill_edges(struct events *list)
{
    uint64_t echo;

    for (echo = 0; list->count < EVENTS; echo++) add_page(list, partner + echo % 32 * ECHO, 5000);
}

static void fill_reads(struct events *list)
{
    while (list->count < EVENTS) add(list, READ, 100, 515);
}

/* Writes of an advertised register, each of another value, which change nothing else before the next break. */
static void fill_writes(struct events *list)
{
    while (list->count < EVENTS) add(list, WRITE, 100, UINT64_C(515) << 16 | list->count);
}

/* No page is out, so that each of these is refused. */
static void fill_turns(struct events *list)
{
    while (list->count < EVENTS) add(list, SENT, 100, 0);
}

/* An event of any kind by chance, or the edges of a page; the partner's base page is given. */
static void add_by_chance(struct events *list, uint64_t base, uint64_t chance)
{
    const uint32_t pauses[9] = {0, QUIET - 1, QUIET, SILENT, WAIT, LOST, BREAK, INHIBIT, long_inhibit};
    /* A10, A9, A2 and A9, and T4 as well. */
    static const uint64_t advertised[4] = {0x8000, 0x4000, 0x4080, 0x4090};
    static const uint64_t slips[8] = {1, ECHO, ACK, FAULT, 2 * NONCE, 14 * NONCE, FORCED, UINT64_C(1) << 40};
    uint64_t more = chance >> 16, page = base + (chance >> 12 & 1 ? ACK + OWN_NONCE * ECHO : 0);
    uint32_t pause = pauses[(chance >> 8) % 9];

    switch (chance % 32) {
    case 0: write_register(list, 512 + more % 16, more >> 8 & 0xffff); break;
    case 1: write_register(list, 512, more % 2 << 9 | 1 << 12); break;
    case 2: write_register(list, 515, advertised[more % 4]); break;
    case 3: write_register(list, 514, more % 2 * FORCED + more / 2 % 2 * TOGGLE); break;
    case 4:
        /* Place 21 is D0's, a one: without it the check bits do not agree. Without 22, a clock, it is a wrong gap. */
        if (more % 4 == 0) add_page_without(list, page, pause, 21 + (more >> 2) % 2);
        else add_page(list, page ^ slips[(more >> 2) % 8], pause);
        break;
    case 5: add(list, more % 16, pause, more >> 4); break;
    case 6: case 7: add(list, REPORT, 1000, more % 8); break;
    case 8: case 9: add(list, READ, 0, 510 + more % 18); break;
    case 10: add(list, READ, 0, 513); break;
    case 11: case 12: case 13: add_page(list, page, 5000); break;
    case 14: case 15: case 16: case 17: case 18: case 19: add(list, SENT, 1000, 0); break;
    default: add(list, TICK, pause, more % 16 ? OWN_NONCE : more >> 4); break;
    }
}

/* The selector of the own Next Pages that are loaded here. That of a base page is 1, so that they are known again. */
enum { LOADED = 2 };

static void load(struct events *list, uint64_t word)
{
    write_register(list, 522, word >> 32 & 0xffff);
    write_register(list, 521, word >> 16 & 0xffff);
    write_register(list, 520, (word & 0xffe0) + LOADED);
}

/* A page is loaded in Off and forgotten there, or at the way into Break. */
static void load_in_vain(struct events *list, uint64_t chance)
{
    write_register(list, 512, 0);
    load(list, chance);
    write_register(list, 512, chance % 2 << 12);
    add(list, READ, 0, 520);
}

/* So many pages are ordered and sent. */
static void send_pages(struct events *list, uint64_t count)
{
    for (; count > 0; count--) {
        add(list, TICK, WAIT, OWN_NONCE);
        add(list, SENT, 1000, 0);
    }
}

/* A device that hears nothing: its page is ordered and sent again and again, two events each time. */
static void fill_pages(struct events *list)
{
    send_pages(list, LASTING / 2);
}

/* A link that comes up and stays up: after the first report, which brings it up, all others find it so. */
static void fill_reports(struct events *list)
{
    write_register(list, 515, 0x4080);
    write_register(list, 512, 1 << 9 | 1 << 12);
    add(list, TICK, BREAK, OWN_NONCE);
    add_page(list, partner, 5000);
    add_page(list, partner + ACK + OWN_NONCE * ECHO, 5000);
    send_pages(list, 3);
    while (list->count < EVENTS) add(list, REPORT, 1000, 1);
}

/* A tick by which the partner is just lost, or just not, between two reads of a register that is forgotten with it. */
static void wait_in_vain(struct events *list, uint64_t chance)
{
    uint64_t number = 520 + chance % 6;

    add(list, READ, 0, number);
    add(list, TICK, LOST - (chance >> 8 & 1), OWN_NONCE);
    add(list, READ, 0, number);
}

/* Now and then something happens between two pages of the partner's; the one that it is at is given. */
static void disturb(struct events *list, uint64_t page, uint64_t *seed)
{
    static const uint64_t slips[4] = {ACK, TOGGLE, ECHO, 16 * ECHO};
    uint64_t chance = drawn(seed), more = chance >> 16;

    switch (chance % 32) {
    case 0: case 1: load(list, more); break;
    case 2: write_register(list, 520 + more % 6, more >> 8 & 0xffff); break;
    case 3: add_page(list, page ^ slips[more % 4], 5000); break;
    case 4: add_page(list, page ^ UINT64_C(1) << more % 48, 5000); break;
    case 5: wait_in_vain(list, more); break;
    case 6: send_pages(list, 1 + more % 4); break;
    case 7: add(list, READ, 0, 520 + more % 6); break;
    case 8: add(list, READ, 0, 513); break;
    case 9: add(list, REPORT, 1000, 1); break;
    case 10: add_by_chance(list, partner, more); break;
    default: break;
    }
}

/* The partner says a page, then with Ack and an echo; the device sends three. */
static void add_round(struct events *list, uint64_t page, uint64_t echo, uint64_t *seed)
{
    add_page(list, page, 5000);
    disturb(list, page, seed);
    add_page(list, page + ACK + echo, 5000);
    disturb(list, page, seed);
    send_pages(list, 3);
    disturb(list, page, seed);
    disturb(list, page, seed);
}

/*
 * A link from Break on with Next Pages, on either side by chance. Those of the partner, up to three, are any words with
 * the toggle that is due.
 */
static void add_link(struct events *list, uint64_t base, uint64_t *seed)
{
    uint64_t page = base, chance = drawn(seed), rounds = chance % 4;

    if (chance % 32 < 4) load_in_vain(list, chance >> 8);
    write_register(list, 512, 1 << 9 | 1 << 12);
    if (chance >> 5 & 1) load(list, chance >> 8);
    disturb(list, page, seed);
    add(list, TICK, BREAK, OWN_NONCE);
    add_round(list, page, OWN_NONCE * ECHO, seed);
    for (; rounds > 0; rounds--) {
        page = (drawn(seed) & ~(uint64_t)(ACK | TOGGLE)) | (~page & TOGGLE);
        add_round(list, page, 0, seed);
    }
}

/*
 * Events of all kinds by chance, in which whole negotiations come about, and links with Next Pages among them. Nothing is
 * timed on them: they show that the two sides are the same device also where no figure is taken. met.h has what they meet.
 */
static void fill_mixed(struct events *list, uint64_t seed)
{
    uint64_t base = partner + (seed % 4 == 0 ? FORCED : 0) + (seed % 3 == 0 ? NP : 0) + (seed % 5 == 0 ? TOGGLE : 0);

    while (list->count < EVENTS) {
        uint64_t chance = drawn(&seed);

        if (chance >> 40 & 31) add_by_chance(list, base, chance);
        else add_link(list, base, &seed);
    }
}

/*
 * The lists that are measured, which is done on their later half. The last answer before it that says something shows how
 * far the device has come, and is of the kind before. The answers in it are of the kinds one and other, and both are there.
 */
enum { HALF = PROLOGUE + LASTING / 2 };
static const struct {
    const char *name;
    void (*fill)(struct events *);
    unsigned before, one, other;
} measured[] = {
    {"tick", fill_ticks, MASTSTEP_NOTHING, MASTSTEP_NOTHING, MASTSTEP_NOTHING},
    {"edge", fill_edges, MASTSTEP_PAGE, MASTSTEP_NOTHING, MASTSTEP_PAGE},
    {"register", fill_reads, MASTSTEP_VALUE, MASTSTEP_VALUE, MASTSTEP_VALUE},
    {"page", fill_pages, MASTSTEP_ORDER, MASTSTEP_ORDER, MASTSTEP_NOTHING},
    {"turn", fill_turns, MASTSTEP_TURN, MASTSTEP_TURN, MASTSTEP_TURN},
    {"report", fill_reports, MASTSTEP_SETTLED, MASTSTEP_NOTHING, MASTSTEP_NOTHING},
    {"write", fill_writes, MASTSTEP_NOTHING, MASTSTEP_NOTHING, MASTSTEP_NOTHING},
};
enum { MEASURED = sizeof measured / sizeof measured[0] };

/* The place of a measured list, or the number of these where it has another name. */
static unsigned place_of(const char *name)
{
    unsigned list;

    for (list = 0; list < MEASURED; list++) {
        if (strcmp(name, measured[list].name) == 0) break;
    }
    return list;
}

/* Fills a list by its name; answers 0 where there is none of it. The seed is that of the mixed lists. */
static int fill_events(uint64_t *cells, const char *name, uint64_t seed)
{
    /* The clock rolls over soon after the break. */
    struct events list = {cells, 0, UINT32_MAX - BREAK - 100000};
    unsigned place = place_of(name);

    write_register(&list, 512, 1 << 12);
    add(&list, TICK, BREAK, OWN_NONCE);
    if (place < MEASURED) measured[place].fill(&list);
    else if (strcmp(name, "mixed") == 0) fill_mixed(&list, seed);
    return list.count == EVENTS;
}

#endif
