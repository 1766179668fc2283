/*
 * The firmware of a link module around one device: interrupts that note what happens, and a main loop that gives it to
 * the device and does what the device says. docs/INTEGRATING.md explains it. Take this file as it is, and write the
 * functions of board.h for your board.
 */
#include <stdatomic.h>

#include "board.h"
#include "maststep.h"

/* ---- what the interrupts note, in the order in which it happened */

struct event {
    uint64_t kind, argument;
    uint32_t reading;
};

/* Room for a page, which has at most 150 edges, and more; the last places are kept for what must not be lost. */
enum { PLACES = 256, KEPT = 8 };
static struct event queue[PLACES];

/* How many were noted and how many taken so far: the interrupts alone write the one, the main loop the other. */
static atomic_uint noted, taken;

/* Interrupts must not interrupt one another here: give the three that call this one priority. */
static void note(uint64_t kind, uint64_t argument, unsigned places)
{
    const unsigned place = atomic_load_explicit(&noted, memory_order_relaxed);
    const struct event event = {kind, argument, board_clock()};

    if (place - atomic_load_explicit(&taken, memory_order_acquire) >= places) return;
    queue[place % PLACES] = event;
    atomic_store_explicit(&noted, place + 1, memory_order_release);
}

/* An edge too many is lost, and with it a page, which is sent again. */
void edge_interrupt(void)
{
    note(MASTSTEP_EVENT_EDGE, 0, PLACES - KEPT);
}

/* This must not be lost: until it is told, the device orders no other page and hears none. */
void sent_interrupt(void)
{
    note(MASTSTEP_EVENT_SENT, 0, PLACES);
}

void link_interrupt(int is_up)
{
    note(MASTSTEP_EVENT_REPORT, is_up != 0, PLACES);
}

/* Takes the event that was noted first, if there is one. */
static int take_event(struct event *event)
{
    const unsigned place = atomic_load_explicit(&taken, memory_order_relaxed);

    if (place == atomic_load_explicit(&noted, memory_order_acquire)) return 0;
    *event = queue[place % PLACES];
    atomic_store_explicit(&taken, place + 1, memory_order_release);
    return 1;
}

/* ---- the main loop: begin */
static void act_on(uint64_t answer)
{
    uint32_t list[MASTSTEP_MOST_READINGS];

    if (maststep_kind(answer) == MASTSTEP_ORDER) { /* send this page; sent_interrupt comes at its last transition */
        answer = maststep_write(list, MASTSTEP_MOST_READINGS, 0, MASTSTEP_LSM, maststep_value(answer), board_soon());
        board_transmit(list, (size_t)maststep_value(answer));
    } else if (maststep_kind(answer) == MASTSTEP_SETTLED) {
        board_start_link(maststep_ability(answer), maststep_is_master(answer));
    } else if (answer != MASTSTEP_NOTHING) {
        board_log(answer); /* a page that was heard, or a refusal: the device goes on by itself */
    }
}

static void main_loop(maststep_device *device)
{
    struct event event;
    struct request host;

    while (board_is_on()) {
        if (take_event(&event)) /* an edge, a page that was sent, the link: as the interrupts have noted it */
            act_on(maststep_step(device, event.kind, event.reading, event.argument));
        else if (board_host_reads(&host))
            board_answer(maststep_register_read(device, board_clock(), host.number));
        else if (board_host_writes(&host))
            board_answer(maststep_register_write(device, board_clock(), host.number, host.value));
        else if (board_tick_is_due()) /* the clock is read here, after all events that were noted have been given */
            act_on(maststep_tick(device, board_clock(), board_random()));
    }
}
/* ---- the main loop: end */

int main(void)
{
    static maststep_device device;

    maststep_fresh(&device);
    main_loop(&device);
    return board_status();
}
