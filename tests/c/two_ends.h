/*
 * Two ends of a line, simulated, each a maststep_device that C keeps: the wire, the time, the links and the hosts, for
 * device_test.c. Left is the end of a controller and stays; at the right there is one head after another.
 *
 * A page that an end orders is written as transitions, and each of these arrives at the other end as an edge, a little
 * later. Each end has a clock of its own, which shows something else at the same time. A host reads and writes the
 * registers of its end as docs/INTEGRATING.md asks. Every event of an end is recorded, with its answer.
 */
#ifndef TWO_ENDS_H
#define TWO_ENDS_H

#include <stdlib.h>

#include "checks.h"

enum { MOST_EVENTS = 200000, MOST_NEXT_PAGES = 8, REFUSALS = 32, POSITIONS_APART = 800, PER_MS = 1000000 };
static const uint64_t NEVER = UINT64_MAX, WIRE_DELAY = 50, UNTIL_LINK = PER_MS;
static const uint64_t ACK_AND_TOGGLE = 0x4800, NULL_MESSAGE = 0x2001;
static const uint64_t NOT_ADVERTISED = 0x1fc3ff; /* of a base page: selector, echo, Ack, NP, nonce, which the device puts in */

/* What happens at an end. */
enum { TICKS, EDGE_ARRIVES, PAGE_IS_OUT, HOST_LOOKS, LINK_CHANGES, HAPPENINGS };

/* The events of a device from its first one on, three cells each, and what each was answered with. */
struct life {
    uint64_t cells[3 * MOST_EVENTS], answers[MOST_EVENTS];
    size_t events;
};

/* What a module says of itself: its advertisement, and the Next Pages that its host loads. */
struct module {
    uint64_t advertised;
    size_t pages;
    uint64_t page[MOST_NEXT_PAGES];
};

struct end {
    maststep_device device;
    struct life *life;
    struct end *other;
    const struct module *module, *partner;
    uint64_t due[HAPPENINGS];                  /* when each happens next */
    uint64_t arrivals[MASTSTEP_MOST_READINGS]; /* when the transitions of the page on the wire arrive here */
    size_t arrivals_left, arrived;
    size_t lost_position;                      /* a transition of the next page that the wire loses; 0 is none */
    uint32_t clock;                            /* what the clock shows at the time 0 */
    uint32_t reading, rollovers;               /* of the last event; how often it was less than the one before */
    uint32_t random, fixed_draw;               /* a fixed draw below 32 is drawn at every tick, else one by chance */
    int is_up_due, is_idle;                    /* what the next link report says; whether ticks may be far apart */
    uint64_t settled;                          /* the last answer that settled or refused rate and role */
    unsigned refused[REFUSALS], good_pages;    /* how often each refusal was answered, and a page */
    uint64_t heard[MOST_NEXT_PAGES];           /* the Next Pages that the host has read */
    size_t pages_heard, pages_loaded;
    unsigned foreign;                          /* how often the host read a page that its partner has not said */
};

static struct end left, right;
static uint64_t now;

/* Numbers by chance, the same in every run (xorshift, by Marsaglia). */
static uint32_t random_of(uint32_t *state)
{
    *state ^= *state << 13;
    *state ^= *state >> 17;
    *state ^= *state << 5;
    return *state;
}

/* The event through the header's function of its kind. */
static uint64_t by_name(maststep_device *device, uint64_t kind, uint32_t reading, uint64_t argument)
{
    switch (kind) {
    case MASTSTEP_EVENT_EDGE: return maststep_edge(device, reading);
    case MASTSTEP_EVENT_TICK: return maststep_tick(device, reading, (uint32_t)argument);
    case MASTSTEP_EVENT_SENT: return maststep_sent(device, reading);
    case MASTSTEP_EVENT_REPORT: return maststep_report(device, reading, (int)argument);
    case MASTSTEP_EVENT_READ: return maststep_register_read(device, reading, (uint32_t)argument);
    default: return maststep_register_write(device, reading, (uint32_t)(argument / 65536), (uint16_t)(argument % 65536));
    }
}

/* The event by number; a copy of the device takes it by name, and has to come to the same. */
static uint64_t stepped(maststep_device *device, uint64_t kind, uint32_t reading, uint64_t argument)
{
    maststep_device copy = *device;
    const uint64_t named = by_name(&copy, kind, reading, argument);
    const uint64_t answer = maststep_step(device, kind, reading, argument);

    if (named != answer) same("an event by name", named, answer);
    if (!are_alike(&copy, device)) same("devices that differ after an event by name", 1, 0);
    return answer;
}

/* Keeps in mind what the test asks for later. */
static void notes(struct end *end, uint64_t answer)
{
    const unsigned kind = maststep_kind(answer);

    if (kind == MASTSTEP_PAGE) end->good_pages++;
    if (kind > MASTSTEP_NOTHING && kind < REFUSALS) end->refused[kind]++;
    if (kind == MASTSTEP_TIE) end->fixed_draw = 32;
    if (kind == MASTSTEP_SETTLED || kind == MASTSTEP_NONE || kind == MASTSTEP_ROLES) {
        end->settled = answer;
        end->is_idle = 1;
    }
    if (kind == MASTSTEP_SETTLED) {
        end->is_up_due = 1;
        end->due[LINK_CHANGES] = now + UNTIL_LINK;
    }
}

/* An event at the time that it is now: recorded, given to the device, and its answer noted. */
static uint64_t gives(struct end *end, uint64_t kind, uint64_t argument)
{
    const uint32_t reading = end->clock + (uint32_t)now;
    struct life *life = end->life;
    uint64_t *cells = life->cells + 3 * life->events;

    if (life->events == MOST_EVENTS) {
        same("ends that do not come to what is waited for, event by event", life->events, 0);
        exit(end_checks());
    }
    if (reading < end->reading) end->rollovers++;
    end->reading = reading;
    cells[0] = kind;
    cells[1] = reading;
    cells[2] = argument;
    life->answers[life->events] = stepped(&end->device, kind, reading, argument);
    notes(end, life->answers[life->events]);
    return life->answers[life->events++];
}

static void writes(struct end *end, uint32_t number, uint64_t value)
{
    same("a register write", gives(end, MASTSTEP_EVENT_WRITE, maststep_write_argument(number, (uint16_t)value)), 0);
}

/* The word in the three registers from this number on. */
static uint64_t word_at(struct end *end, uint32_t number)
{
    const uint64_t low = gives(end, MASTSTEP_EVENT_READ, number);
    const uint64_t middle = gives(end, MASTSTEP_EVENT_READ, number + 1);
    const uint64_t high = gives(end, MASTSTEP_EVENT_READ, number + 2);

    return maststep_word_of((uint16_t)low, (uint16_t)middle, (uint16_t)high);
}

/* ---- what happens at an end */

/* Puts a page on the wire. The transition at the position that is lost, if there is one there, does not arrive. */
static void sends(struct end *end, uint64_t word)
{
    uint32_t transitions[MASTSTEP_MOST_READINGS];
    const size_t count = (size_t)maststep_value(maststep_write(transitions, MASTSTEP_MOST_READINGS, 0, MASTSTEP_LSM, word, 0));
    struct end *other = end->other;
    size_t i;

    other->arrivals_left = other->arrived = 0;
    for (i = 0; i < count; i++) {
        if (transitions[i] / POSITIONS_APART + 1 == end->lost_position) continue;
        other->arrivals[other->arrivals_left++] = now + transitions[i] + WIRE_DELAY;
    }
    end->lost_position = 0;
    other->due[EDGE_ARRIVES] = other->arrivals[0];
    end->due[PAGE_IS_OUT] = now + transitions[count - 1];
}

/* Ticks are uneven: 2.5 to 5 us apart, or 300 to 500 where nothing is awaited but a link. */
static void ticks(struct end *end)
{
    const uint32_t chance = random_of(&end->random);
    const uint64_t answer = gives(end, MASTSTEP_EVENT_TICK, end->fixed_draw < 32 ? end->fixed_draw : chance);

    end->due[TICKS] = now + (end->is_idle ? 300000 + chance % 200000 : 2500 + chance % 2500);
    if (maststep_kind(answer) == MASTSTEP_ORDER) sends(end, maststep_value(answer));
}

static void edge_arrives(struct end *end)
{
    gives(end, MASTSTEP_EVENT_EDGE, 0);
    end->arrived++;
    end->due[EDGE_ARRIVES] = end->arrived < end->arrivals_left ? end->arrivals[end->arrived] : NEVER;
}

/* Loads the Next Page that is due: its low part last, since that one says that a page is there. */
static void loads(struct end *end)
{
    const uint64_t page = end->module->page[end->pages_loaded++];

    writes(end, MASTSTEP_TRANSMIT_MIDDLE, page >> 16 & 0xffff);
    writes(end, MASTSTEP_TRANSMIT_HIGH, page >> 32 & 0xffff);
    writes(end, MASTSTEP_TRANSMIT_LOW, page & 0xffff);
}

/* Whether a word, aside from some of its bits, is a page that this module says; zero where nothing was heard. */
static int is_said_by(const struct module *module, uint64_t base, uint64_t next)
{
    size_t i = 0;

    if (base != 0 && (base | NOT_ADVERTISED) != (module->advertised | NOT_ADVERTISED)) return 0;
    if (next == 0 || (next & ~ACK_AND_TOGGLE) == NULL_MESSAGE) return 1;
    while (i < module->pages && (next & ~ACK_AND_TOGGLE) != (module->page[i] & ~ACK_AND_TOGGLE)) i++;
    return i < module->pages;
}

/* The host has found a Next Page: a new one has another toggle, and then the own next one may be loaded. */
static void finds(struct end *end, uint64_t page)
{
    const uint64_t toggle = UINT64_C(1) << MASTSTEP_FIELD_TOGGLE;

    if (end->pages_heard > 0 && ((end->heard[end->pages_heard - 1] ^ page) & toggle) == 0) return;
    if (end->pages_heard < MOST_NEXT_PAGES) end->heard[end->pages_heard++] = page;
    if (end->pages_loaded < end->module->pages) loads(end);
}

/* The host looks at all pages: where all are zero its end has begun anew, and its first page is due. */
static void host_looks(struct end *end)
{
    const uint64_t base = word_at(end, MASTSTEP_PARTNER_LOW), own = word_at(end, MASTSTEP_TRANSMIT_LOW);
    const uint64_t heard = word_at(end, MASTSTEP_HEARD_LOW);

    end->due[HOST_LOOKS] = now + 250000 + random_of(&end->random) % 50000;
    if (!is_said_by(end->partner, base, heard)) end->foreign++;
    if (base == 0 && own == 0 && heard == 0) {
        end->pages_heard = end->pages_loaded = 0;
        end->is_idle = 0;
        if (end->module->pages > 0) loads(end);
    }
    if (heard != 0) finds(end, heard);
}

static void link_changes(struct end *end)
{
    end->due[LINK_CHANGES] = NEVER;
    if (!end->is_up_due) end->is_idle = 0;
    same("a link report", gives(end, MASTSTEP_EVENT_REPORT, (uint64_t)end->is_up_due), 0);
    end->partner = end->other->module;
}

static void happens(struct end *end, size_t what)
{
    switch (what) {
    case TICKS: ticks(end); break;
    case EDGE_ARRIVES: edge_arrives(end); break;
    case PAGE_IS_OUT:
        end->due[PAGE_IS_OUT] = NEVER;
        gives(end, MASTSTEP_EVENT_SENT, 0);
        break;
    case HOST_LOOKS: host_looks(end); break;
    default: link_changes(end); break;
    }
}

/* What comes next, at either end, and when. */
static uint64_t earliest(struct end **end, size_t *what)
{
    uint64_t first = NEVER;
    size_t i;

    for (i = 0; i < 2 * HAPPENINGS; i++) {
        struct end *one = i < HAPPENINGS ? &left : &right;

        if (one->due[i % HAPPENINGS] < first) {
            first = one->due[i % HAPPENINGS];
            *end = one;
            *what = i % HAPPENINGS;
        }
    }
    return first;
}

/* Goes on with the next that happens. */
static void goes_on(void)
{
    struct end *end = &left;
    size_t what = TICKS;

    now = earliest(&end, &what);
    happens(end, what);
}

static void goes_on_for(uint64_t span)
{
    const uint64_t until = now + span;

    while (left.due[TICKS] < until || right.due[TICKS] < until) goes_on();
}

/* Goes on until left has heard a page, since this was asked. */
static void goes_on_to_a_page(void)
{
    left.good_pages = 0;
    while (left.good_pages == 0) goes_on();
}

/* Goes on until so many edges of a page have arrived at left, and more are on their way. */
static void goes_on_inside_a_page(size_t edges)
{
    while (left.due[EDGE_ARRIVES] == NEVER || left.arrived < edges) goes_on();
}

/* Goes on until both ends have settled, or have been refused a rate or a role. */
static void goes_on_to_the_end(void)
{
    while (left.settled == 0 || right.settled == 0) goes_on();
}

/* ---- ends are put in and taken out */

/* Nothing happens at this end. */
static void is_still(struct end *end)
{
    size_t i;

    for (i = 0; i < HAPPENINGS; i++) end->due[i] = NEVER;
}

/* The two places of the line, with nothing at either. */
static void begins_line(void)
{
    static struct life life_of_left, life_of_heads;

    left.other = &right;
    right.other = &left;
    left.life = &life_of_left;
    right.life = &life_of_heads;
    is_still(&left);
    is_still(&right);
}

/* A fresh device, in memory that had something else before, with its host: what it advertises is written, and it is enabled. */
static void is_put_in(struct end *end, const struct module *module, uint32_t clock)
{
    size_t i;

    memset(&end->device, 0xa5, sizeof end->device);
    maststep_fresh(&end->device);
    end->module = module;
    end->clock = clock;
    end->reading = clock + (uint32_t)now;
    end->fixed_draw = 32;
    end->random = 2463534242u ^ clock;
    end->is_idle = 0;
    end->life->events = 0;
    end->pages_heard = end->pages_loaded = 0;
    is_still(end);
    for (i = 0; i < 3; i++) writes(end, MASTSTEP_ADVERTISED_LOW + (uint32_t)i, module->advertised >> 16 * i & 0xffff);
    writes(end, MASTSTEP_CONTROL, MASTSTEP_CONTROL_ENABLE);
    end->due[TICKS] = now + 10000;
    end->due[HOST_LOOKS] = now + 100000;
}

/* The events of a life, given to maststep_run, are answered as the device has answered them one by one. */
static void lives_as_run(const char *whose, const struct life *life)
{
    static uint64_t answers[MOST_EVENTS];
    unsigned otherwise = 0;
    size_t i;

    same(whose, maststep_run(life->cells, 3 * life->events, answers, MOST_EVENTS), packed(0x84, life->events));
    for (i = 0; i < life->events; i++) {
        if (answers[i] != life->answers[i] && otherwise++ == 0)
            printf("%s: event %u, kind %u\n", whose, (unsigned)i, (unsigned)life->cells[3 * i]);
    }
    same("events that maststep_run answers otherwise", otherwise, 0);
    same("a life of fewer than 500 events", life->events < 500, 0);
}

/* The head at the right is taken out: what of its page has not arrived never will, and nothing arrives at it. */
static void is_taken_out(void)
{
    lives_as_run("the life of a head", right.life);
    is_still(&right);
    left.due[EDGE_ARRIVES] = NEVER;
}

#endif
