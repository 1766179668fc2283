/*
 * A board that is simulated, for main_loop.c: a clock, a receiver, a transmitter, a timer, a link and a host, and at the
 * other end of the line a second module, which is a device of its own. It tells what it sees, and switches itself off
 * when the link is up and the host has looked at it.
 *
 * Time passes only where the main loop turns (board_is_on) or reads the clock. What is due in between comes then, as
 * interrupts or at the other module.
 */
#include <stdio.h>

#include "board.h"
#include "maststep.h"

/* Times, in ns: of a turn of the main loop, of a look at the clock, from one end of the wire to the other, and so on. */
static const uint64_t TURN = 130, LOOK = 10, WIRE = 50, SOON = 100, TICK_HERE = 1400, TICK_THERE = 1550, BEGINS_THERE = 200000;
static const uint64_t UNTIL_LINK = 1000000, UNTIL_GIVEN_UP = 100000000, NEVER = UINT64_MAX;

/* What the two clocks show at the time 0. The one here rolls over after 9 ms. */
static const uint32_t CLOCK_HERE = UINT32_MAX - 9000000, CLOCK_THERE = 12345;

/* What happens, here or at the other module, and when it is due next. */
enum { EDGE_HERE, EDGE_THERE, SENT_HERE, SENT_THERE, TIMER_HERE, TIMER_THERE, LINK_HERE, LINK_THERE, HAPPENINGS };
static uint64_t due[HAPPENINGS];

/* The transitions that are on their way, and the next of them; what happens where they arrive, and where they were sent. */
struct wire {
    size_t arrives, sent, count, next;
    uint64_t at[MASTSTEP_MOST_READINGS];
};
static struct wire to_here = {EDGE_HERE, SENT_THERE, 0, 0, {0}}, to_there = {EDGE_THERE, SENT_HERE, 0, 0, {0}};

static uint64_t now;
static int is_in_interrupt, is_tick_due, is_link_up, is_finished;
static maststep_device other;

/* Random numbers that are the same in every run, which only a simulation may have (xorshift, by Marsaglia). */
static uint32_t random_of(uint32_t *state)
{
    *state ^= *state << 13;
    *state ^= *state >> 17;
    *state ^= *state << 5;
    return *state;
}

/* A line of the log: the time in microseconds, who, and what with its number in decimal or hex. */
static void tell(const char *who, const char *what, uint64_t number)
{
    printf("%10.3f  %-5s  %s %llu\n", (double)now / 1000, who, what, (unsigned long long)number);
}

static void tell_hex(const char *who, const char *what, int digits, uint64_t number)
{
    printf("%10.3f  %-5s  %s %0*llx\n", (double)now / 1000, who, what, digits, (unsigned long long)number);
}

/* Puts a page on a wire, at whose beginning the clock shows this: its transitions arrive a little later than they are made. */
static void put_on(struct wire *wire, const uint32_t *transitions, size_t count, uint32_t clock)
{
    size_t i;

    for (i = 0; i < count; i++) wire->at[i] = now + (uint32_t)(transitions[i] - clock) + WIRE;
    wire->count = count;
    wire->next = 0;
    due[wire->arrives] = wire->at[0];
    due[wire->sent] = wire->at[count - 1] - WIRE;
}

/* A transition has arrived: the next one on the wire is due. */
static void arrived_on(struct wire *wire)
{
    wire->next++;
    due[wire->arrives] = wire->next < wire->count ? wire->at[wire->next] : NEVER;
}

/* ---- the other module: the same library, and a host that has two Next Pages to tell */

static const uint64_t PAGES_THERE[] = {UINT64_C(0x00000005a006), UINT64_C(0x372d424d0045)};
static size_t loaded_there;

static uint32_t clock_there(void)
{
    return CLOCK_THERE + (uint32_t)now;
}

static void write_there(uint32_t number, uint64_t value)
{
    maststep_register_write(&other, clock_there(), number, (uint16_t)value);
}

static void load_there(void)
{
    const uint64_t page = PAGES_THERE[loaded_there++];

    write_there(MASTSTEP_TRANSMIT_MIDDLE, page >> 16);
    write_there(MASTSTEP_TRANSMIT_HIGH, page >> 32);
    write_there(MASTSTEP_TRANSMIT_LOW, page);
    tell_hex("other", "loads Next Page", 12, page);
}

/* Its second page is due when 523 shows our first one. */
static void host_looks_there(void)
{
    const uint64_t heard = maststep_value(maststep_register_read(&other, clock_there(), MASTSTEP_HEARD_LOW));

    if (heard != 0 && loaded_there < sizeof PAGES_THERE / sizeof PAGES_THERE[0]) load_there();
}

static void begin_there(void)
{
    const uint64_t rates = maststep_ability_bit(MASTSTEP_ABILITY_1000BASE_T1) | maststep_ability_bit(MASTSTEP_ABILITY_100BASE_T1);

    maststep_fresh(&other);
    write_there(MASTSTEP_ADVERTISED_MIDDLE, rates >> 16);
    write_there(MASTSTEP_CONTROL, MASTSTEP_CONTROL_ENABLE);
    load_there();
}

static void tick_there(void)
{
    static uint32_t chance = 20260101;
    uint32_t list[MASTSTEP_MOST_READINGS];
    const uint64_t answer = maststep_tick(&other, clock_there(), random_of(&chance));
    uint64_t written;

    if (maststep_kind(answer) == MASTSTEP_ORDER) {
        written = maststep_write(list, MASTSTEP_MOST_READINGS, 0, MASTSTEP_LSM, maststep_value(answer), clock_there() + (uint32_t)SOON);
        put_on(&to_here, list, (size_t)maststep_value(written), clock_there());
    }
    host_looks_there();
}

static void sent_there(void)
{
    if (maststep_kind(maststep_sent(&other, clock_there())) == MASTSTEP_SETTLED) due[LINK_THERE] = now + UNTIL_LINK;
}

/* ---- what is due comes */

/* What comes once is not due again, unless it says so itself. */
static void comes_there(size_t what)
{
    if (what == EDGE_THERE) {
        arrived_on(&to_there);
        maststep_edge(&other, clock_there());
    } else if (what == SENT_THERE) {
        sent_there();
    } else if (what == TIMER_THERE) {
        due[what] = now + TICK_THERE;
        tick_there();
    } else {
        maststep_report(&other, clock_there(), 1);
    }
}

/* Here it comes as interrupts, but for the timer, which only sets a mark. */
static void comes(size_t what)
{
    due[what] = NEVER;
    if (what == EDGE_HERE) {
        arrived_on(&to_here);
        edge_interrupt();
    } else if (what == SENT_HERE) {
        sent_interrupt();
    } else if (what == TIMER_HERE) {
        due[what] = now + TICK_HERE;
        is_tick_due = 1;
    } else if (what == LINK_HERE) {
        is_link_up = 1;
        link_interrupt(1);
    } else {
        comes_there(what);
    }
}

static size_t earliest(void)
{
    size_t first = 0, i;

    for (i = 1; i < HAPPENINGS; i++)
        if (due[i] < due[first]) first = i;
    return first;
}

/* Time passes, and what is due comes in its order. In an interrupt none does, so that no other one comes. */
static void pass(uint64_t span)
{
    const uint64_t until = now + span;

    if (is_in_interrupt) return;
    is_in_interrupt = 1;
    while (due[earliest()] <= until) {
        now = due[earliest()];
        comes(earliest());
    }
    now = until;
    is_in_interrupt = 0;
}

/* ---- the host here: it advertises, enables, has one Next Page, and reads what the other says */

static const struct request WRITES[] = {
    {MASTSTEP_ADVERTISED_MIDDLE, 0x00a0}, /* 1000BASE-T1 and 100BASE-T1 */
    {MASTSTEP_CONTROL, MASTSTEP_CONTROL_ENABLE},
    {MASTSTEP_TRANSMIT_MIDDLE, 0x0001},
    {MASTSTEP_TRANSMIT_HIGH, 0x0000},
    {MASTSTEP_TRANSMIT_LOW, 0x2005}
};
enum { HOST_LOOKS_EVERY = 250000 };
static size_t writes_made, reads_left;
static uint64_t host_looks_at = HOST_LOOKS_EVERY;
static uint16_t heard[3];

int board_host_writes(struct request *request)
{
    if (writes_made == sizeof WRITES / sizeof WRITES[0]) return 0;
    *request = WRITES[writes_made++];
    tell("host", "writes register", request->number);
    return 1;
}

/* Four times a millisecond it reads 523 to 525, one after another, and when the link is up 513. */
int board_host_reads(struct request *request)
{
    if (reads_left == 0 && now >= host_looks_at) {
        host_looks_at += HOST_LOOKS_EVERY;
        reads_left = is_link_up ? 4 : 3;
    }
    if (reads_left == 0) return 0;
    request->number = reads_left == 4 ? MASTSTEP_STATUS : MASTSTEP_HEARD_HIGH + 1 - (uint32_t)reads_left;
    return 1;
}

/* A new Next Page has another toggle than the one before. */
static void host_has_heard(void)
{
    static uint64_t last;
    const uint64_t page = maststep_word_of(heard[0], heard[1], heard[2]);

    if (page != 0 && ((page ^ last) >> MASTSTEP_FIELD_TOGGLE & 1) != 0) tell_hex("host", "reads Next Page", 12, page);
    if (page != 0) last = page;
}

void board_answer(uint64_t answer)
{
    if (reads_left == 0) return;
    if (reads_left == 4) {
        tell_hex("host", "reads register 513:", 4, maststep_value(answer));
        is_finished = 1;
    } else {
        heard[3 - reads_left] = (uint16_t)maststep_value(answer);
    }
    reads_left--;
    if (reads_left == 0) host_has_heard();
}

/* ---- the rest of the board */

static uint32_t clock_here(void)
{
    return CLOCK_HERE + (uint32_t)now;
}

uint32_t board_clock(void)
{
    pass(LOOK);
    return clock_here();
}

uint32_t board_soon(void)
{
    return board_clock() + (uint32_t)SOON;
}

uint32_t board_random(void)
{
    static uint32_t chance = 98;

    return random_of(&chance);
}

int board_tick_is_due(void)
{
    const int was_due = is_tick_due;

    is_tick_due = 0;
    return was_due;
}

void board_transmit(const uint32_t *transitions, size_t count)
{
    tell("loop", "sends a page, transitions:", count);
    put_on(&to_there, transitions, count, clock_here());
}

void board_start_link(unsigned ability, int is_master)
{
    tell("loop", is_master ? "starts the link as master, of ability" : "starts the link as slave, of ability", ability);
    due[LINK_HERE] = now + UNTIL_LINK;
}

void board_log(uint64_t answer)
{
    if (maststep_kind(answer) == MASTSTEP_PAGE) tell_hex("loop", "has heard page", 12, maststep_value(answer));
    else tell("loop", "has got the refusal", maststep_kind(answer));
}

/* At the time 0: two timers, and nothing else that is due. */
static void begin(void)
{
    size_t i;

    for (i = 0; i < HAPPENINGS; i++) due[i] = NEVER;
    due[TIMER_HERE] = TICK_HERE;
    due[TIMER_THERE] = BEGINS_THERE;
    begin_there();
}

int board_is_on(void)
{
    if (now == 0) begin();
    pass(TURN);
    return !is_finished && now < UNTIL_GIVEN_UP;
}

/* 0 where the host has seen the link up. */
int board_status(void)
{
    return !is_finished;
}
