/*
 * The header's record of a device is the library's: in size, and in the place of every field. Nothing in C compares the
 * two, so each field is set here through the header and seen through an answer of the library, or set by the library
 * and seen through the header. With any two fields of one type exchanged in the header, this test fails.
 *
 * What is expected is written out from the scope and its amendments, and from what the header says of the fields.
 */
#include "checks.h"

enum { GUARD_BYTES = 64, NOW = 1000000000 };
enum { OFF, BREAK, ABILITY, ACK, COMPLETE, CHECK_LINK, UP };
enum { BASE, FIRST, LATER };

/* A device with memory on both sides that no call may write. */
static struct {
    unsigned char before[GUARD_BYTES];
    maststep_device device;
    unsigned char behind[GUARD_BYTES];
} lent;

static maststep_device *const device = &lent.device;

/* A fresh device in memory that had other bytes, also beside it. */
static void begin_fresh(void)
{
    memset(&lent, 0xa5, sizeof lent);
    maststep_fresh(device);
}

/* How many of the bytes beside the device are no longer what they were. */
static uint64_t guards_altered(void)
{
    uint64_t altered = 0;
    size_t i;

    for (i = 0; i < GUARD_BYTES; i++) altered += (uint64_t)(lent.before[i] != 0xa5) + (uint64_t)(lent.behind[i] != 0xa5);
    return altered;
}

/* An event of the device; nothing beside it may be written. */
static uint64_t step(uint64_t kind, uint32_t clock, uint64_t argument)
{
    const uint64_t answer = maststep_step(device, kind, clock, argument);

    same("bytes beside the device that an event has altered", guards_altered(), 0);
    return answer;
}

static uint64_t tick(uint32_t clock)
{
    return step(MASTSTEP_EVENT_TICK, clock, 3);
}

static uint64_t sent(uint32_t clock)
{
    return step(MASTSTEP_EVENT_SENT, clock, 0);
}

static uint64_t edge(uint32_t clock)
{
    return step(MASTSTEP_EVENT_EDGE, clock, 0);
}

static uint64_t read_register(uint64_t number)
{
    return step(MASTSTEP_EVENT_READ, NOW, number);
}

/* The word in the three registers from this number on. */
static uint64_t word_at(uint64_t number)
{
    const uint64_t low = read_register(number), middle = read_register(number + 1), high = read_register(number + 2);

    return maststep_word_of((uint16_t)low, (uint16_t)middle, (uint16_t)high);
}

/* ---- size */

/* Each byte of every field was written, and none beside the device. */
static void test_fresh(void)
{
    static const maststep_device zero;

    same("the size of a device", sizeof(maststep_device), 112);
    begin_fresh();
    same("numbers of a fresh device that are not zero", !are_alike(device, &zero), 0);
    same("bytes beside the device that maststep_fresh has altered", guards_altered(), 0);
}

/* Every kind of event, on records of many bytes: none writes beside the device. */
static void test_steps_stay_inside(void)
{
    unsigned i;

    for (i = 0; i < 7 * 256; i++) {
        begin_fresh();
        memset(device, (int)(i % 256), sizeof *device);
        device->state = (uint8_t)(i % 8);
        step(i / 256, NOW + i, UINT64_C(512) * 65536 + 0x9200 + i);
    }
}

/* ---- words */

static const uint64_t FIRST_WORD = UINT64_C(0x333322221111), SECOND_WORD = UINT64_C(0x666655554444);

/* One of the pages in registers: set in the record, read by its registers, and the others read as zero. */
static void is_in_registers(const char *what, uint64_t *field, uint64_t number)
{
    static const uint64_t numbers[] = {514, 517, 520, 523};
    size_t i;

    begin_fresh();
    *field = FIRST_WORD;
    for (i = 0; i < 4; i++) same(what, word_at(numbers[i]), numbers[i] == number ? FIRST_WORD : 0);
}

static void test_registers(void)
{
    is_in_registers("advertised", &device->advertised, 514);
    is_in_registers("partner", &device->partner, 517);
    is_in_registers("transmit", &device->transmit, 520);
    is_in_registers("heard", &device->heard, 523);
}

/* A device that waits to send: in Ability, with nothing heard, and its last good page and page out as needed. */
static void begin_in(uint8_t state, uint8_t round)
{
    begin_fresh();
    device->state = state;
    device->round = round;
    device->mark = NOW - 350000;
    device->good = NOW;
}

/* The own page of a round is the one that is ordered; the echo in it is the held base page's nonce. */
static void test_own_pages(void)
{
    begin_in(ABILITY, BASE);
    device->own_base = FIRST_WORD;
    device->own_next = SECOND_WORD;
    same("the own base page is ordered", tick(NOW), packed(0x81, FIRST_WORD));
    begin_in(ABILITY, LATER);
    device->own_base = FIRST_WORD;
    device->own_next = SECOND_WORD;
    same("the own Next Page is ordered", tick(NOW), packed(0x81, SECOND_WORD));
    begin_in(ACK, BASE);
    device->own_base = 0x850001;
    device->held_base = 0x190001;
    same("the held base page's nonce is echoed", tick(NOW), packed(0x81, 0x854001 + (25 << 5)));
}

/* The third page has been sent in Complete: at round base NP of the held base page says whether more follows, else that of the held Next Page. */
static uint64_t third_sent(uint8_t round, uint64_t held_base, uint64_t held_next)
{
    begin_in(COMPLETE, round);
    device->is_out = 1;
    device->count = 2;
    device->own_base = 0x850001;
    device->own_next = 0x2001;
    device->held_base = held_base;
    device->held_next = held_next;
    return sent(NOW);
}

static void test_held_pages(void)
{
    const uint64_t settled = packed(0x82, 2), np = 0x8000;

    same("neither has NP", third_sent(BASE, 0xa90001, 0x2001), settled);
    same("at round base the held base page has NP", third_sent(BASE, 0xa90001 + np, 0x2001), 0);
    same("at round base the held Next Page has NP", third_sent(BASE, 0xa90001, 0x2001 + np), settled);
    same("later the held base page has NP", third_sent(LATER, 0xa90001 + np, 0x2001), settled);
    same("later the held Next Page has NP", third_sent(LATER, 0xa90001, 0x2001 + np), 0);
    same("a held base page with another rate", third_sent(LATER, 0x490001, 0xa90001), packed(8, 0));
}

/* ---- the reader */

/* Edges of a page, from and up to these of its transitions. The answer is that of the last. */
static uint64_t arrives(uint64_t word, size_t from, size_t to)
{
    uint32_t readings[MASTSTEP_MOST_READINGS];
    const size_t count = (size_t)maststep_value(maststep_write(readings, MASTSTEP_MOST_READINGS, 0, 1, word, NOW));
    uint64_t answer = 0;
    size_t i;

    for (i = from; i < to && i < count; i++) answer = edge(readings[i]);
    return answer;
}

/* The first edges of one page and the others of another: the check bits do not agree, unless the bits so far are put right. */
static void test_bits(void)
{
    const uint64_t page = 0xa90001, other = 0xa90002;
    const size_t half = 40;
    uint64_t bits;

    begin_in(ABILITY, BASE);
    arrives(page, 0, half);
    bits = device->bits;
    begin_in(ABILITY, BASE);
    arrives(other, 0, half);
    same("two pages, half of each", arrives(page, half, MASTSTEP_MOST_READINGS), packed(3, 0));
    begin_in(ABILITY, BASE);
    arrives(other, 0, half);
    device->bits = bits;
    same("the same with the bits of the first", arrives(page, half, MASTSTEP_MOST_READINGS), packed(0x80, page));
}

/* An attempt whose last edge was the one at this position, so long ago. */
static void begin_at(uint32_t position, uint32_t ago)
{
    begin_in(ABILITY, BASE);
    device->reader = 1;
    device->position = position;
    device->last = NOW - ago;
}

/* After position 9 comes 11, so a gap of two positions is right; after 1 comes 2. Last is the edge that gaps count from. */
static void test_position_and_last(void)
{
    begin_at(9, 1600);
    same("an edge two positions after 9", edge(NOW), 0);
    same("it is at 11", device->position, 11);
    same("it is the last one", device->last, NOW);
    begin_at(1, 1600);
    same("an edge two positions after 1", edge(NOW), packed(1, 0));
    begin_at(1, 800);
    same("an edge one position after 1", edge(NOW), 0);
    begin_at(1, 3441);
    same("an edge after a quiet gap", edge(NOW), packed(2, 0));
}

/* A fresh reader opens an attempt; an open one goes on; one that drops edges opens one after a quiet gap only. */
static void test_reader(void)
{
    begin_in(ABILITY, BASE);
    same("the first edge", edge(NOW), 0);
    same("it opens an attempt", device->reader, 1);
    begin_at(1, 1600);
    device->reader = 0;
    same("an edge that would be Gap", edge(NOW), 0);
    same("it opens an attempt too", device->position, 1);
    begin_at(1, 1600);
    device->reader = 2;
    same("an edge that is dropped", edge(NOW), 0);
    same("it opens none", device->reader, 2);
    same("the edge after a quiet gap", edge(NOW + 3441), 0);
    same("it opens one", device->reader, 1);
}

/* ---- readings and the count */

/* Each reading starts a time that is out at its number and not one before. */
static void test_readings(void)
{
    begin_in(ABILITY, BASE);
    device->own_base = FIRST_WORD;
    same("one ns before wait is out", tick(NOW - 1), 0);
    same("wait is out", tick(NOW), packed(0x81, FIRST_WORD));

    begin_fresh();
    device->state = BREAK;
    device->timer = NOW - 8000000;
    tick(NOW - 1);
    same("one ns before Break is over", device->state, BREAK);
    tick(NOW);
    same("Break is over", device->state, ABILITY);
    same("the mark is set", device->mark, NOW);

    begin_in(ABILITY, LATER);
    device->mark = NOW - 10;
    device->good = NOW - 4000000;
    device->partner = FIRST_WORD;
    tick(NOW - 1);
    same("one ns before lost is out", word_at(517), FIRST_WORD);
    tick(NOW);
    same("lost is out", word_at(517), 0);
    same("the timer is started", device->timer, NOW);
    same("the good page's reading is that of the entry", device->good, NOW);
}

/* An attempt whose last edge is less than the quiet limit old holds an order back. */
static void test_last_holds_back(void)
{
    begin_at(1, 3440);
    device->own_base = FIRST_WORD;
    same("an edge that is not quiet long enough", tick(NOW), 0);
    same("one that is", tick(NOW + 1), packed(0x81, FIRST_WORD));
}

/* The page that is sent is the third only where two were. */
static void test_count(void)
{
    third_sent(BASE, 0xa90001, 0);
    same("three are counted", device->count, 3);
    begin_in(COMPLETE, BASE);
    device->is_out = 1;
    device->count = 1;
    device->own_base = 0x850001;
    device->held_base = 0xa90001;
    same("the second page sent", sent(NOW), 0);
    same("two are counted", device->count, 2);
}

/* ---- bytes */

/* What each state answers that no other does; the numbers are in 01's order. */
static void test_state(void)
{
    begin_fresh();
    same("Off reads", read_register(512), packed(0x83, 0));
    device->state = UP;
    same("Up reads", read_register(512), packed(0x83, 0x1000));
    same("Up is complete", read_register(513), packed(0x83, 0x28));
    begin_in(ABILITY, BASE);
    same("it orders in Ability", maststep_kind(tick(NOW)), 0x81);
    begin_in(BREAK, BASE);
    device->timer = NOW;
    same("it orders nothing in Break", tick(NOW), 0);
    begin_in(CHECK_LINK, BASE);
    device->timer = NOW;
    same("it orders nothing in Check-link", tick(NOW), 0);
}

static void test_out_heard_and_round(void)
{
    begin_in(ABILITY, BASE);
    same("no page is out", sent(NOW), packed(11, 0));
    device->is_out = 1;
    same("a page is out", sent(NOW), 0);
    same("it is no longer", device->is_out, 0);

    begin_in(ABILITY, BASE);
    device->mark = NOW - 33000;
    same("where nothing was heard silent is not enough", tick(NOW), 0);
    device->is_heard = 1;
    same("where a page was heard it is", maststep_kind(tick(NOW)), 0x81);
    same("the page is out", device->is_out, 1);
    sent(NOW + 1);
    same("it is waiting again", device->is_heard, 0);

    begin_in(COMPLETE, BASE);
    device->is_out = 1;
    device->count = 2;
    device->own_base = 0x858001;
    device->is_loaded = 1;
    sent(NOW);
    same("the round is first", device->round, FIRST);
    same("the loaded page is taken", device->is_loaded, 0);
}

/* The loaded mark makes NP of the own base page; the three others are bits of 513. */
static void test_marks(void)
{
    begin_in(BREAK, BASE);
    device->is_loaded = 1;
    tick(NOW);
    same("NP with a page loaded", device->own_base, 0x38001);
    begin_in(BREAK, BASE);
    tick(NOW);
    same("NP without one", device->own_base, 0x30001);
    step(MASTSTEP_EVENT_WRITE, NOW, UINT64_C(520) * 65536);
    same("a write of 520 loads", device->is_loaded, 1);

    begin_fresh();
    device->is_latched = 1;
    same("the latch", read_register(513), packed(0x83, 0x0c));
    device->is_received = 1;
    same("Page received", read_register(513), packed(0x83, 0x48));
    device->is_fault = 1;
    same("Remote fault", read_register(513), packed(0x83, 0x18));
}

/* Where it is settled a link report leads to Up; the rate makes the inhibit time; the role is kept as it was answered. */
static void test_outcome(void)
{
    begin_in(CHECK_LINK, BASE);
    device->timer = NOW;
    step(MASTSTEP_EVENT_REPORT, NOW, 1);
    same("link up without an outcome", read_register(513), packed(0x83, 0x08));
    device->outcome = 8;
    step(MASTSTEP_EVENT_REPORT, NOW, 1);
    same("link up without a rate", read_register(513), packed(0x83, 0x08));
    device->outcome = 0x82;
    step(MASTSTEP_EVENT_REPORT, NOW, 1);
    same("link up", read_register(513), packed(0x83, 0x28));

    begin_in(CHECK_LINK, BASE);
    device->timer = NOW;
    device->outcome = 0x82;
    device->ability = 9;
    device->partner = FIRST_WORD;
    tick(NOW + 402000000);
    same("10BASE-T1L has more time", word_at(517), FIRST_WORD);
    device->ability = 2;
    tick(NOW + 402000000);
    same("1000BASE-T1 has less", word_at(517), 0);
}

static void test_settled(void)
{
    same("settled as a slave", third_sent(LATER, 0xa90001, 0x2001), packed(0x82, 0x002));
    same("it is settled", device->outcome, 0x82);
    same("on A2", device->ability, 2);
    same("a slave", device->is_master, 0);
    same("settled as a master", third_sent(LATER, 0xa10001, 0x2001), packed(0x82, 0x102));
    same("a master", device->is_master, 1);
    same("on A2 too", device->ability, 2);
    same("no rate", third_sent(LATER, 0x410001, 0x2001), packed(8, 0));
    same("its number", device->outcome, 8);
}

int main(void)
{
    begin_checks();
    test_fresh();
    test_steps_stay_inside();
    test_registers();
    test_own_pages();
    test_held_pages();
    test_bits();
    test_position_and_last();
    test_reader();
    test_readings();
    test_last_holds_back();
    test_count();
    test_state();
    test_out_heard_and_round();
    test_marks();
    test_outcome();
    test_settled();
    return end_checks();
}
