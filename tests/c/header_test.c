/*
 * The C library as a C program sees it: through include/maststep.h, linked with libmaststep.a.
 *
 * What is expected here is written out from the scope's own tables (positions, windows, times, and P1-P14,
 * which test_table_of_01 runs in their order), from its amendments and from the requests of message runs and of the
 * parity of frames, with no code in common with the library. A device that C keeps has tests of its own: device_test.c,
 * record_test.c and layout_test.c.
 *
 * Compiled with ON_PAINTED_STACK, it makes every call on a painted stack, and looks how deep that was too.
 */
#include <limits.h>
#include <string.h>

#include "checks.h"

static const uint64_t WIDEST = UINT64_C(0xffffffffffff);   /* 2^48 - 1 */
static const uint64_t TOO_WIDE = UINT64_C(0x1000000000000); /* 2^48 */

/* ---- the header itself */

static void test_header(void)
{
    uint64_t answer = packed(0x84, UINT64_C(0x00fedcba98765432));

    same("kind of a number", maststep_kind(answer), 0x84);
    same("value of a number", maststep_value(answer), UINT64_C(0x00fedcba98765432));
    same("kind of nothing", maststep_kind(0), MASTSTEP_NOTHING);
    same("value of a refusal", maststep_value(packed(13, 0)), 0);
    same("kind of the largest answer", maststep_kind(UINT64_MAX), 0xff);
    same("Gap is 1", MASTSTEP_GAP, 1);
    same("Cut is 2", MASTSTEP_CUT, 2);
    same("Check is 3", MASTSTEP_CHECK, 3);
    same("Selector is 4", MASTSTEP_SELECTOR, 4);
    same("Tie is 5", MASTSTEP_TIE, 5);
    same("Changed is 6", MASTSTEP_CHANGED, 6);
    same("Echo is 7", MASTSTEP_ECHO, 7);
    same("None is 8", MASTSTEP_NONE, 8);
    same("Roles is 9", MASTSTEP_ROLES, 9);
    same("Register is 10", MASTSTEP_REGISTER, 10);
    same("Turn is 11", MASTSTEP_TURN, 11);
    same("Room is 12", MASTSTEP_ROOM, 12);
    same("Wide is 13", MASTSTEP_WIDE, 13);
    same("Mode is 14", MASTSTEP_MODE, 14);
    same("Toggle is 17", MASTSTEP_TOGGLE, 17);
    same("Symbol is 20", MASTSTEP_SYMBOL, 20);
    same("Count is 21", MASTSTEP_COUNT, 21);
    same("Run is 24", MASTSTEP_RUN, 24);
    same("Length is 25", MASTSTEP_LENGTH, 25);
    same("a page is 80", MASTSTEP_PAGE, 0x80);
    same("an order is 81", MASTSTEP_ORDER, 0x81);
    same("settled is 82", MASTSTEP_SETTLED, 0x82);
    same("a register's value is 83", MASTSTEP_VALUE, 0x83);
    same("a number is 84", MASTSTEP_NUMBER, 0x84);
    same("quiet is 85", MASTSTEP_QUIET, 0x85);
    same("unfit is 86", MASTSTEP_UNFIT, 0x86);
    same("HSM is mode 0", MASTSTEP_HSM, 0);
    same("LSM is mode 1", MASTSTEP_LSM, 1);
    same("a run has at most 64 pages", MASTSTEP_MOST_PAGES, 64);
    same("a message has three cells", MASTSTEP_MESSAGE_CELLS, 3);
    same("the version is 5", MASTSTEP_VERSION, 5);
}

static void test_names_of_events_and_registers(void)
{
    same("an edge is event 0", MASTSTEP_EVENT_EDGE, 0);
    same("a tick is event 1", MASTSTEP_EVENT_TICK, 1);
    same("page sent is event 2", MASTSTEP_EVENT_SENT, 2);
    same("a link report is event 3", MASTSTEP_EVENT_REPORT, 3);
    same("a register read is event 4", MASTSTEP_EVENT_READ, 4);
    same("a register write is event 5", MASTSTEP_EVENT_WRITE, 5);
    same("control is 512", MASTSTEP_CONTROL, 512);
    same("status is 513", MASTSTEP_STATUS, 513);
    same("D0-D15 advertised are 514", MASTSTEP_ADVERTISED_LOW, 514);
    same("D16-D31 advertised are 515", MASTSTEP_ADVERTISED_MIDDLE, 515);
    same("D32-D47 advertised are 516", MASTSTEP_ADVERTISED_HIGH, 516);
    same("the partner's D0-D15 are 517", MASTSTEP_PARTNER_LOW, 517);
    same("the partner's D16-D31 are 518", MASTSTEP_PARTNER_MIDDLE, 518);
    same("the partner's D32-D47 are 519", MASTSTEP_PARTNER_HIGH, 519);
    same("D0-D15 of the own Next Page are 520", MASTSTEP_TRANSMIT_LOW, 520);
    same("D16-D31 of the own Next Page are 521", MASTSTEP_TRANSMIT_MIDDLE, 521);
    same("D32-D47 of the own Next Page are 522", MASTSTEP_TRANSMIT_HIGH, 522);
    same("D0-D15 of the heard Next Page are 523", MASTSTEP_HEARD_LOW, 523);
    same("D16-D31 of the heard Next Page are 524", MASTSTEP_HEARD_MIDDLE, 524);
    same("D32-D47 of the heard Next Page are 525", MASTSTEP_HEARD_HIGH, 525);
    same("reset is bit 15 of 512", MASTSTEP_CONTROL_RESET, 1 << 15);
    same("enable is bit 12 of 512", MASTSTEP_CONTROL_ENABLE, 1 << 12);
    same("restart is bit 9 of 512", MASTSTEP_CONTROL_RESTART, 1 << 9);
    same("page received is bit 6 of 513", MASTSTEP_STATUS_PAGE_RECEIVED, 1 << 6);
    same("complete is bit 5 of 513", MASTSTEP_STATUS_COMPLETE, 1 << 5);
    same("remote fault is bit 4 of 513", MASTSTEP_STATUS_REMOTE_FAULT, 1 << 4);
    same("bit 3 of 513 is always one", MASTSTEP_STATUS_ALWAYS_ONE, 1 << 3);
    same("the link latch is bit 2 of 513", MASTSTEP_STATUS_LINK_LATCH, 1 << 2);
    same("512 written with 9200 hex", maststep_write_argument(512, 0x9200), UINT64_C(512) * 65536 + 0x9200);
    same("the largest argument", maststep_write_argument(UINT32_MAX, 0xffff), WIDEST);
    same("a page by its registers", maststep_word_of(0xe806, 0x8009, 0x342d), UINT64_C(0x342d8009e806));
    same("all bits of a page", maststep_word_of(0xffff, 0xffff, 0xffff), (UINT64_C(1) << 48) - 1);
}

static void test_names_of_a_word(void)
{
    unsigned n;

    same("25GBASE-T1 is A6", MASTSTEP_ABILITY_25GBASE_T1, 6);
    same("10GBASE-T1 is A5", MASTSTEP_ABILITY_10GBASE_T1, 5);
    same("5GBASE-T1 is A4", MASTSTEP_ABILITY_5GBASE_T1, 4);
    same("2.5GBASE-T1 is A3", MASTSTEP_ABILITY_2_5GBASE_T1, 3);
    same("1000BASE-T1 is A2", MASTSTEP_ABILITY_1000BASE_T1, 2);
    same("100BASE-T1 is A0", MASTSTEP_ABILITY_100BASE_T1, 0);
    same("10BASE-T1S full is A1", MASTSTEP_ABILITY_10BASE_T1S_FULL, 1);
    same("10BASE-T1L is A9", MASTSTEP_ABILITY_10BASE_T1L, 9);
    same("10BASE-T1S half is A22", MASTSTEP_ABILITY_10BASE_T1S_HALF, 22);
    same("the selector begins at D0", MASTSTEP_FIELD_SELECTOR, 0);
    same("the echo begins at D5", MASTSTEP_FIELD_ECHO, 5);
    same("pause begins at D10", MASTSTEP_FIELD_PAUSE, 10);
    same("the forced role is D12", MASTSTEP_FIELD_FORCED_ROLE, 12);
    same("remote fault is D13", MASTSTEP_FIELD_REMOTE_FAULT, 13);
    same("Ack is D14", MASTSTEP_FIELD_ACK, 14);
    same("NP is D15", MASTSTEP_FIELD_NEXT_PAGE, 15);
    same("the nonce begins at D16", MASTSTEP_FIELD_NONCE, 16);
    same("the abilities begin at D21", MASTSTEP_FIELD_ABILITIES, 21);
    same("the code begins at D0", MASTSTEP_FIELD_CODE, 0);
    same("the toggle is D11", MASTSTEP_FIELD_TOGGLE, 11);
    same("Ack2 is D12", MASTSTEP_FIELD_ACK2, 12);
    same("message or unformatted page is D13", MASTSTEP_FIELD_MESSAGE, 13);
    same("the unformatted bits begin at D16", MASTSTEP_FIELD_UNFORMATTED, 16);
    same("the Null message", MASTSTEP_NULL_MESSAGE, (1 << MASTSTEP_FIELD_CODE) + (1 << MASTSTEP_FIELD_MESSAGE));
    for (n = 0; n < 27; n++) same("the bit of an ability", maststep_ability_bit(n), UINT64_C(0x200000) << n);
    same("there is no A27", maststep_ability_bit(27), 0);
    same("there is no ability of the largest number", maststep_ability_bit(UINT_MAX), 0);
}

/* What is settled, taken apart: of the whole answer, and of its value. */
static void test_settled_taken_apart(void)
{
    const uint64_t slave = maststep_resolve(0x850001, 0xA90001), master = maststep_resolve(0xA90001, 0x850001);

    same("P9's ability", maststep_ability(slave), MASTSTEP_ABILITY_1000BASE_T1);
    same("P9's ability, of the value", maststep_ability(maststep_value(slave)), MASTSTEP_ABILITY_1000BASE_T1);
    same("P9's role", (uint64_t)maststep_is_master(slave), 0);
    same("P9 exchanged, the role", (uint64_t)maststep_is_master(master), 1);
    same("P9 exchanged, the role of the value", (uint64_t)maststep_is_master(maststep_value(master)), 1);
    same("the largest ability", maststep_ability(UINT64_MAX), 255);
}

/* ---- check bits */

static void test_check(void)
{
    /* The remainder is linear: that of a sum of words is the sum of theirs, which are P2 to P4. */
    same("check of 2^47 + 2^46", maststep_check(UINT64_C(3) << 46), packed(0x84, 0x8005 ^ 0x800f));
    same("check of 2^47 + 2^46 + 2^45", maststep_check(UINT64_C(7) << 45), packed(0x84, 0x8005 ^ 0x800f ^ 0x801b));
    same("kind of the check of 2^48 - 1", maststep_kind(maststep_check(WIDEST)), 0x84);
    same("check of 2^48 - 1 has 16 bits", maststep_value(maststep_check(WIDEST)) >> 16, 0);
    same("check of 2^48", maststep_check(TOO_WIDE), packed(13, 0));
    same("check of 2^48 + 1", maststep_check(TOO_WIDE + 1), packed(13, 0));
    same("check of 2^63", maststep_check(UINT64_C(1) << 63), packed(13, 0));
    same("check of 2^64 - 1", maststep_check(UINT64_MAX), packed(13, 0));
}

/* ---- rate and role */

/* A word of its selector, forced role, nonce and abilities; all other bits are 0. */
static uint64_t word_of(uint64_t selector, uint64_t forced, uint64_t nonce, uint64_t abilities)
{
    return selector + (forced << 12) + (nonce << 16) + (abilities << 21);
}

static uint64_t settled(uint64_t ability, uint64_t master)
{
    return packed(0x82, ability + 256 * master);
}

/* The other side of P9 to P13 sees the opposite role, or the same refusal. */
static void test_other_side(void)
{
    same("P9 exchanged", maststep_resolve(0xA90001, 0x850001), settled(2, 1));
    same("P10 exchanged", maststep_resolve(0xA91001, 0x851001), packed(9, 0));
    same("P11 exchanged", maststep_resolve(0xA90001, 0x951001), settled(2, 0));
    same("P13 exchanged", maststep_resolve(0xA90001, 0x450001), packed(8, 0));
}

/* Each refusal at either side, and before those that come after it. */
static void test_resolve_refusals(void)
{
    const uint64_t plain = word_of(1, 0, 5, 4), other = word_of(1, 0, 9, 4);
    uint64_t selector;

    same("own 2^48", maststep_resolve(TOO_WIDE, other), packed(13, 0));
    same("own is P9's and 2^48", maststep_resolve(plain + TOO_WIDE, other), packed(13, 0));
    same("partner 2^48", maststep_resolve(plain, TOO_WIDE), packed(13, 0));
    same("partner is P9's and 2^48", maststep_resolve(plain, other + TOO_WIDE), packed(13, 0));
    same("both 2^64 - 1", maststep_resolve(UINT64_MAX, UINT64_MAX), packed(13, 0));
    same("own 0, partner 2^63", maststep_resolve(0, UINT64_C(1) << 63), packed(13, 0));
    same("both 2^48 - 1", maststep_resolve(WIDEST, WIDEST), packed(4, 0));
    for (selector = 0; selector < 32; selector++) {
        if (selector == 1) continue;
        same("own selector", maststep_resolve(word_of(selector, 0, 5, 4), other), packed(4, 0));
        same("partner selector", maststep_resolve(plain, word_of(selector, 0, 9, 4)), packed(4, 0));
    }
    same("selector before tie", maststep_resolve(0, 0), packed(4, 0));
    same("tie before none", maststep_resolve(word_of(1, 0, 5, 1), word_of(1, 0, 5, 2)), packed(5, 0));
    same("tie before roles", maststep_resolve(word_of(1, 1, 5, 1), word_of(1, 1, 5, 1)), packed(5, 0));
    same("none before roles", maststep_resolve(word_of(1, 1, 5, 1), word_of(1, 1, 9, 2)), packed(8, 0));
}

/* The nine rates in their order: with a rate and all after it in one word, and every ability in the other, it is chosen. */
static void test_rates(void)
{
    static const uint64_t order[9] = {6, 5, 4, 3, 2, 0, 1, 9, 22};
    const uint64_t every = (UINT64_C(1) << 27) - 1;
    uint64_t rates = 0, left;
    size_t i;

    for (i = 0; i < 9; i++) rates |= UINT64_C(1) << order[i];
    left = rates;
    for (i = 0; i < 9; i++) {
        char what[64];

        snprintf(what, sizeof what, "the rate A%u", (unsigned)order[i]);
        same(what, maststep_resolve(word_of(1, 0, 5, left), word_of(1, 0, 9, every)), settled(order[i], 0));
        same(what, maststep_resolve(word_of(1, 0, 9, every), word_of(1, 0, 5, left)), settled(order[i], 1));
        same(what, maststep_resolve(word_of(1, 0, 5, UINT64_C(1) << order[i]), word_of(1, 0, 9, rates)), settled(order[i], 0));
        left &= ~(UINT64_C(1) << order[i]);
    }
    same("no rate", maststep_resolve(word_of(1, 0, 5, every & ~rates), word_of(1, 0, 9, every)), packed(8, 0));
    /* Echo, pause, remote fault, Ack and NP, D5-11 and D13-15, are not looked at. */
    same("bits that do not matter", maststep_resolve(0x850001 | 0xefe0, 0xA90001), settled(2, 0));
    same("bits that do not matter in the partner's", maststep_resolve(0x850001, 0xA90001 | 0xefe0), settled(2, 0));
}

/* The scope's table of roles, on every pair of nonces. */
static void test_roles(void)
{
    unsigned own, partner, forced, wrong = 0;

    for (forced = 0; forced < 4; forced++) {
        const unsigned own_forced = forced & 1, partner_forced = forced >> 1;

        for (own = 0; own < 32; own++) {
            for (partner = 0; partner < 32; partner++) {
                uint64_t want = settled(2, own > partner);

                if (own_forced) want = settled(2, own >= 16);
                if (partner_forced) want = settled(2, partner < 16);
                if (own_forced && partner_forced && (own >= 16) == (partner >= 16)) want = packed(9, 0);
                if (own == partner) want = packed(5, 0);
                if (maststep_resolve(word_of(1, own_forced, own, 4), word_of(1, partner_forced, partner, 4)) != want) wrong++;
            }
        }
    }
    same("pairs of nonces with a wrong role", wrong, 0);
}

/* ---- gaps */

struct judged {
    uint32_t mode, gap;
    uint64_t kind, value;
};

/* Both ends of each window and what lies just outside them. */
static const struct judged GAPS[] = {
    {0, 0, 0x86, 0},
    {0, 20, 0x86, 0}, {0, 21, 0x84, 1}, {0, 30, 0x84, 1}, {0, 39, 0x84, 1}, {0, 40, 0x86, 0},
    {0, 50, 0x86, 0}, {0, 51, 0x84, 2}, {0, 60, 0x84, 2}, {0, 69, 0x84, 2}, {0, 70, 0x86, 0},
    {0, 80, 0x86, 0}, {0, 81, 0x84, 3}, {0, 90, 0x84, 3}, {0, 99, 0x84, 3}, {0, 100, 0x86, 0},
    {0, 110, 0x86, 0}, {0, 111, 0x84, 4}, {0, 120, 0x84, 4}, {0, 129, 0x84, 4},
    {0, 130, 0x85, 0}, {0, 150, 0x85, 0}, {0, UINT32_MAX, 0x85, 0},
    {1, 0, 0x86, 0}, {1, 30, 0x86, 0},
    {1, 559, 0x86, 0}, {1, 560, 0x84, 1}, {1, 800, 0x84, 1}, {1, 1040, 0x84, 1}, {1, 1041, 0x86, 0},
    {1, 1359, 0x86, 0}, {1, 1360, 0x84, 2}, {1, 1600, 0x84, 2}, {1, 1840, 0x84, 2}, {1, 1841, 0x86, 0},
    {1, 2159, 0x86, 0}, {1, 2160, 0x84, 3}, {1, 2400, 0x84, 3}, {1, 2640, 0x84, 3}, {1, 2641, 0x86, 0},
    {1, 2959, 0x86, 0}, {1, 2960, 0x84, 4}, {1, 3200, 0x84, 4}, {1, 3439, 0x84, 4}, {1, 3440, 0x84, 4},
    {1, 3441, 0x85, 0}, {1, 4000, 0x85, 0}, {1, UINT32_MAX, 0x85, 0},
    {2, 30, 14, 0}, {2, 0, 14, 0}, {2, UINT32_MAX, 14, 0},
    {UINT32_MAX, 800, 14, 0}, {UINT32_MAX, UINT32_MAX, 14, 0}
};

static void test_judge(void)
{
    size_t i;

    for (i = 0; i < sizeof GAPS / sizeof GAPS[0]; i++) {
        const struct judged *g = &GAPS[i];
        char what[64];

        snprintf(what, sizeof what, "judge mode %lu gap %lu", (unsigned long)g->mode, (unsigned long)g->gap);
        same(what, maststep_judge(g->mode, g->gap), packed(g->kind, g->value));
    }
}

/* ---- writing */

enum { ENTRIES = 200, PLACE = 7 };

static uint32_t list[ENTRIES];

/* What an entry holds before a call: different at each place, and no reading of any page below. */
static uint32_t guard(size_t i)
{
    return UINT32_C(0xdead0001) + (uint32_t)i * 2;
}

static void guard_all(void)
{
    size_t i;

    for (i = 0; i < ENTRIES; i++) list[i] = guard(i);
}

/* The number of entries that a call has altered, but for the readings from place on. */
static uint64_t altered(size_t place, size_t readings)
{
    uint64_t n = 0;
    size_t i;

    for (i = 0; i < ENTRIES; i++)
        if ((i < place || i >= place + readings) && list[i] != guard(i)) n++;
    return n;
}

static const unsigned DELIMITER[2][21] = {
    {1, 2, 3, 5, 7, 8, 12, 13, 14, 15, 19, 21, 24, 25, 26, 0},
    {1, 2, 3, 4, 5, 6, 7, 8, 9, 11, 13, 15, 16, 18, 19, 20, 22, 23, 24, 26, 0}
};

/*
 * Draws a page as the scope names its positions, from first on at nominal spacing: the delimiter, the odd
 * positions 27-153, 155, 157, and the positions given, which are the even ones of the word's and its check
 * bits' ones, or any others that a damaged page has. ones ends in 0. Tells the number of readings.
 */
static size_t draw(uint32_t *readings, uint32_t mode, uint32_t first, const unsigned *ones)
{
    const uint32_t spacing = mode == 0 ? 30 : 800;
    const unsigned *delimiter = DELIMITER[mode];
    size_t count = 0;
    unsigned position;

    for (position = 1; position <= 157; position++) {
        int stands = 0;

        if (*delimiter == position) {
            stands = 1;
            delimiter++;
        } else if (position >= 27 && position % 2 == 1) {
            stands = 1;
        } else if (*ones == position) {
            stands = 1;
            ones++;
        }
        if (stands) readings[count++] = (uint32_t)(first + (position - 1) * spacing);
    }
    return count;
}

static const unsigned NONE[] = {0};
/* D47 stands at 122; 8005 hex is S15, S2 and S0, at 124, 150 and 154, the highest first. */
static const unsigned OF_D47[] = {122, 124, 150, 154, 0};
/* D46 stands at 120; 800F hex is S15 and S3 to S0. */
static const unsigned OF_D46[] = {120, 124, 148, 150, 152, 154, 0};

/* Writes a page and compares every reading with the page that is drawn with these ones. */
static void page(const char *what, uint32_t mode, uint64_t word, uint32_t first, const unsigned *ones, uint64_t count)
{
    uint32_t drawn[157];
    size_t readings = draw(drawn, mode, first, ones), i;
    uint64_t wrong = 0;
    char name[96];

    guard_all();
    snprintf(name, sizeof name, "%s: answer", what);
    same(name, maststep_write(list, ENTRIES, PLACE, mode, word, first), packed(0x84, count));
    for (i = 0; i < readings; i++)
        if (list[PLACE + i] != drawn[i]) wrong++;
    snprintf(name, sizeof name, "%s: readings expected", what);
    same(name, readings, count);
    snprintf(name, sizeof name, "%s: readings that are wrong", what);
    same(name, wrong, 0);
    snprintf(name, sizeof name, "%s: other entries altered", what);
    same(name, altered(PLACE, count), 0);
}

static void test_pages(void)
{
    page("P6 zero page, HSM", 0, 0, 1000, NONE, 81);
    same("P6 first reading", list[PLACE], 1000);
    same("P6 last reading", list[PLACE + 80], 5680);
    same("P6 time from first to last", (uint32_t)(list[PLACE + 80] - list[PLACE]), 4680);

    page("P6 zero page, HSM, over 2^32", 0, 0, UINT32_C(4294967290), NONE, 81);
    same("P6 over 2^32: first reading", list[PLACE], UINT32_C(4294967290));
    same("P6 over 2^32: second reading", list[PLACE + 1], 24);
    same("P6 over 2^32: last reading", list[PLACE + 80], 4674);
    same("P6 over 2^32: time from first to last", (uint32_t)(list[PLACE + 80] - list[PLACE]), 4680);

    page("P7 zero page, LSM", 1, 0, 0, NONE, 86);
    same("P7 time from first to last", (uint32_t)(list[PLACE + 85] - list[PLACE]), 124800);
    page("P7 zero page, LSM, over 2^32", 1, 0, UINT32_MAX - 50000, NONE, 86);
    same("P7 over 2^32: time from first to last", (uint32_t)(list[PLACE + 85] - list[PLACE]), 124800);

    page("P8 2^47, HSM", 0, UINT64_C(1) << 47, 77, OF_D47, 85);
    page("2^47, LSM", 1, UINT64_C(1) << 47, 77, OF_D47, 90);
    page("2^46, HSM", 0, UINT64_C(1) << 46, 0, OF_D46, 87);
    page("2^46, LSM", 1, UINT64_C(1) << 46, UINT32_MAX, OF_D46, 92);
}

/* Where in the list a page may stand, and the widest word. */
static void test_places(void)
{
    uint64_t answer;

    guard_all();
    same("place 0", maststep_write(list, ENTRIES, 0, 0, 0, 5), packed(0x84, 81));
    same("place 0: entries after the page", altered(0, 81), 0);
    guard_all();
    same("the page ends with the list", maststep_write(list, ENTRIES, ENTRIES - 81, 0, 0, 5), packed(0x84, 81));
    same("the page ends with the list: entries before it", altered(ENTRIES - 81, 81), 0);
    same("the page ends with the list: last entry", list[ENTRIES - 1], 5 + 4680);
    guard_all();
    same("the list is the page", maststep_write(list + PLACE, 86, 0, 1, 0, 5), packed(0x84, 86));
    same("the list is the page: what lies around it", altered(PLACE, 86), 0);
    guard_all();
    same("the list ends before the memory does", maststep_write(list + 1, PLACE - 1 + 81, PLACE - 1, 0, 0, 5), packed(0x84, 81));
    same("the list ends before the memory does: what lies around", altered(PLACE, 81), 0);
    guard_all();
    answer = maststep_write(list, ENTRIES, PLACE, 1, WIDEST, 5);
    same("2^48 - 1: kind", maststep_kind(answer), 0x84);
    same("2^48 - 1: at least the page's 86 and 48 ones", maststep_value(answer) >= 86 + 48, 1);
    same("2^48 - 1: no more than the most", maststep_value(answer) <= MASTSTEP_MOST_READINGS, 1);
    same("2^48 - 1: other entries", altered(PLACE, (size_t)maststep_value(answer)), 0);
}

/* A refusal: the answer is the number alone, and no entry is altered. */
static void refuses(const char *what, uint64_t number, size_t length, size_t place, uint32_t mode, uint64_t word)
{
    char name[96];

    guard_all();
    same(what, maststep_write(list, length, place, mode, word, 5), packed(number, 0));
    snprintf(name, sizeof name, "%s: entries altered", what);
    same(name, altered(0, 0), 0);
}

static void test_refusals(void)
{
    /* Each alone. */
    refuses("mode 2", 14, ENTRIES, PLACE, 2, 0);
    refuses("mode 2^32 - 1", 14, ENTRIES, PLACE, UINT32_MAX, 0);
    refuses("word 2^48", 13, ENTRIES, PLACE, 0, TOO_WIDE);
    refuses("word 2^48, LSM", 13, ENTRIES, PLACE, 1, TOO_WIDE);
    refuses("word 2^64 - 1", 13, ENTRIES, PLACE, 0, UINT64_MAX);
    refuses("one entry too few, HSM", 12, ENTRIES, ENTRIES - 80, 0, 0);
    refuses("one entry too few, LSM", 12, ENTRIES, ENTRIES - 85, 1, 0);
    refuses("one entry too few for 2^47", 12, ENTRIES, ENTRIES - 84, 0, UINT64_C(1) << 47);
    refuses("a list one entry too short", 12, 80, 0, 0, 0);
    refuses("one entry", 12, 1, 0, 0, 0);
    refuses("the place is the last entry", 12, ENTRIES, ENTRIES - 1, 0, 0);
    refuses("the place is the length", 12, ENTRIES, ENTRIES, 0, 0);
    refuses("the place is past the length", 12, ENTRIES, ENTRIES + 1, 0, 0);
    refuses("the place is SIZE_MAX", 12, ENTRIES, SIZE_MAX, 0, 0);
    /* Place and count of readings add up to 2^64 here, so a sum that wraps would let it pass. */
    refuses("the place is SIZE_MAX - 80", 12, ENTRIES, SIZE_MAX - 80, 0, 0);
    refuses("the place is SIZE_MAX - 85, LSM", 12, ENTRIES, SIZE_MAX - 85, 1, 0);
    /* As bytes the place wraps to the list's first entry. */
    refuses("the place is 2^62", 12, ENTRIES, (size_t)1 << 62, 0, 0);
    refuses("length 0", 12, 0, 0, 0, 0);
    refuses("length 0, place 1", 12, 0, 1, 0, 0);
    refuses("length 0, place SIZE_MAX", 12, 0, SIZE_MAX, 1, 0);
    same("length 0 and no list", maststep_write(NULL, 0, 0, 0, 0, 5), packed(12, 0));

    /* Several at once: Mode, Wide, Room, in this order. */
    refuses("mode, word and place wrong", 14, ENTRIES, SIZE_MAX, 2, TOO_WIDE);
    refuses("mode and word wrong", 14, ENTRIES, PLACE, 2, TOO_WIDE);
    refuses("mode and place wrong", 14, ENTRIES, ENTRIES, 2, 0);
    refuses("word and place wrong", 13, ENTRIES, SIZE_MAX, 0, TOO_WIDE);
    refuses("word wrong, length 0", 13, 0, 0, 1, TOO_WIDE);
    refuses("mode wrong, length 0", 14, 0, 0, UINT32_MAX, 0);
}

/* ---- reading */

enum { READINGS = 400, UNTOUCHED = 12345 };

/* What is read below, but for the written list. */
static uint32_t capture[READINGS];

/* Draws a page into the capture from a place on, and tells the place after it. */
static size_t draw_at(size_t place, uint32_t mode, uint32_t first, const unsigned *ones)
{
    return place + draw(capture + place, mode, first, ones);
}

/* Takes one reading out of the first so many of the capture, and tells how many are left. */
static size_t take_out(size_t i, size_t length)
{
    memmove(capture + i, capture + i + 1, (length - i - 1) * sizeof capture[0]);
    return length - 1;
}

/* Puts a reading into the capture, so many ns after the one before it, and tells the place after it. */
static size_t put_after(size_t place, uint32_t gap)
{
    capture[place] = capture[place - 1] + gap;
    return place + 1;
}

/* One call: what it answers, what it leaves at the next place, and that it leaves the readings as they were. */
static void reads(const char *what, const uint32_t *readings, size_t length, size_t place, uint32_t mode, uint64_t answer, size_t next)
{
    static uint32_t before[READINGS];
    size_t left = UNTOUCHED;
    char name[96];

    if (length > 0) memcpy(before, readings, length * sizeof before[0]);
    same(what, maststep_read(readings, length, place, mode, &left), answer);
    snprintf(name, sizeof name, "%s: next", what);
    same(name, left, next);
    snprintf(name, sizeof name, "%s: readings altered", what);
    same(name, length > 0 && memcmp(before, readings, length * sizeof before[0]) != 0, 0);
}

/* Each page that is written is read again, alone and among other entries. */
static void test_read_back(void)
{
    static const uint64_t words[] = {
        0, 1, 2, UINT64_C(1) << 46, UINT64_C(1) << 47, 0x850001, 0xa90001, UINT64_C(0x123456789abc),
        UINT64_C(0x555555555555), UINT64_C(0xaaaaaaaaaaaa), UINT64_C(0xffffffffffff)
    };
    static const uint32_t firsts[] = {0, 1000, UINT32_C(0x80000000), UINT32_C(4294967290), UINT32_MAX - 1000, UINT32_MAX};
    size_t w, f;
    uint32_t mode;

    for (w = 0; w < sizeof words / sizeof words[0]; w++) {
        for (f = 0; f < sizeof firsts / sizeof firsts[0]; f++) {
            for (mode = 0; mode < 2; mode++) {
                uint64_t good = packed(0x80, words[w]);
                size_t count;
                char what[96];

                guard_all();
                count = (size_t)maststep_value(maststep_write(list, ENTRIES, PLACE, mode, words[w], firsts[f]));
                snprintf(what, sizeof what, "mode %u word %012llx first %lu", (unsigned)mode, (unsigned long long)words[w],
                         (unsigned long)firsts[f]);
                reads(what, list + PLACE, count, 0, mode, good, count);
                /* The entries around the page are 2 ns apart, far from its own readings. */
                reads(what, list, PLACE + count, PLACE, mode, good, PLACE + count);
                reads(what, list, ENTRIES, PLACE, mode, good, PLACE + count);
                reads(what, list, ENTRIES, 0, mode, packed(1, 0), PLACE);
                reads(what, list, ENTRIES, PLACE + count, mode, packed(1, 0), ENTRIES);
            }
        }
    }
}

/* The end of the capture counts as quiet, and a reader is fresh at whatever place it starts. */
static void test_ends(void)
{
    uint32_t mode;

    for (mode = 0; mode < 2; mode++) {
        size_t count = draw_at(0, mode, UINT32_MAX - 2000, OF_D47), length;
        uint64_t wrong = 0;

        reads("the page is the capture", capture, count, 0, mode, packed(0x80, UINT64_C(1) << 47), count);
        reads("the page less its last edge", capture, count - 1, 0, mode, packed(2, 0), count - 1);
        reads("one reading", capture, 1, 0, mode, packed(2, 0), 1);
        reads("from the last reading on", capture, count, count - 1, mode, packed(2, 0), count);
        for (length = 1; length < count; length++) {
            size_t next = UNTOUCHED;

            if (maststep_read(capture, length, 0, mode, &next) != packed(2, 0) || next != length) wrong++;
        }
        same("beginnings of a page that are not Cut", wrong, 0);
    }
    draw_at(0, 0, 0, NONE);
    /* Positions 2 and 3 pass for 1 and 2, then 5 for 4 does not. */
    reads("from a page's second edge on", capture, 81, 1, 0, packed(1, 0), 81);
    reads("an HSM page in LSM", capture, 81, 0, 1, packed(1, 0), 81);
    draw_at(0, 1, 0, NONE);
    reads("an LSM page in HSM", capture, 86, 0, 0, packed(2, 0), 1);
}

struct bent {
    uint32_t mode;
    size_t entry; /* the gap before this reading is another; all later readings move with it */
    uint32_t gap;
    uint64_t kind;
    size_t next;
};

/*
 * The zero page with one gap bent. In HSM the gaps before entries 1, 3, 12 and 6 are one to four positions
 * of the delimiter, that before 16 is the first bit's, and 80 is the last; in LSM 1 and 9 are one and two
 * positions, 21 is the first bit's, and 85 is the last.
 */
static const struct bent BENT[] = {
    {0, 1, 21, 0x80, 81}, {0, 1, 39, 0x80, 81}, {0, 1, 20, 1, 81}, {0, 1, 40, 1, 81},
    {0, 3, 51, 0x80, 81}, {0, 3, 69, 0x80, 81}, {0, 3, 50, 1, 81}, {0, 3, 70, 1, 81},
    {0, 12, 81, 0x80, 81}, {0, 12, 99, 0x80, 81}, {0, 12, 80, 1, 81}, {0, 12, 100, 1, 81},
    {0, 6, 111, 0x80, 81}, {0, 6, 129, 0x80, 81}, {0, 6, 110, 1, 81}, {0, 6, 130, 2, 6},
    {0, 16, 51, 0x80, 81}, {0, 16, 69, 0x80, 81}, {0, 16, 50, 1, 81}, {0, 16, 70, 1, 81},
    {0, 80, 51, 0x80, 81}, {0, 80, 69, 0x80, 81}, {0, 80, 50, 1, 81}, {0, 80, 70, 1, 81},
    /* Right in itself, but not there. */
    {0, 1, 60, 1, 81}, {0, 3, 30, 1, 81}, {0, 16, 90, 1, 81}, {0, 80, 30, 1, 81}, {0, 80, 120, 1, 81},
    /* The quiet limit, and one less. */
    {0, 1, 129, 1, 81}, {0, 1, 130, 2, 1}, {0, 16, 129, 1, 81}, {0, 16, 130, 2, 16}, {0, 80, 129, 1, 81}, {0, 80, 130, 2, 80},
    /* Two readings alike, and a clock that went back. */
    {0, 1, 0, 1, 81}, {0, 80, 0, 1, 81}, {0, 1, UINT32_MAX, 2, 1}, {0, 40, UINT32_MAX - 29, 2, 40},

    {1, 1, 560, 0x80, 86}, {1, 1, 1040, 0x80, 86}, {1, 1, 559, 1, 86}, {1, 1, 1041, 1, 86},
    {1, 9, 1360, 0x80, 86}, {1, 9, 1840, 0x80, 86}, {1, 9, 1359, 1, 86}, {1, 9, 1841, 1, 86},
    {1, 21, 1360, 0x80, 86}, {1, 21, 1840, 0x80, 86}, {1, 21, 1359, 1, 86}, {1, 21, 1841, 1, 86},
    {1, 85, 1360, 0x80, 86}, {1, 85, 1840, 0x80, 86}, {1, 85, 1359, 1, 86}, {1, 85, 1841, 1, 86},
    {1, 1, 1600, 1, 86}, {1, 9, 800, 1, 86}, {1, 21, 2400, 1, 86}, {1, 85, 800, 1, 86}, {1, 85, 3200, 1, 86},
    {1, 1, 3440, 1, 86}, {1, 1, 3441, 2, 1}, {1, 21, 3440, 1, 86}, {1, 21, 3441, 2, 21}, {1, 85, 3440, 1, 86}, {1, 85, 3441, 2, 85},
    {1, 1, 0, 1, 86}, {1, 85, 0, 1, 86}, {1, 1, UINT32_MAX, 2, 1}, {1, 40, UINT32_MAX - 799, 2, 40}
};

static void test_gaps(void)
{
    size_t i, j;

    for (i = 0; i < sizeof BENT / sizeof BENT[0]; i++) {
        const struct bent *b = &BENT[i];
        size_t count = draw_at(0, b->mode, UINT32_MAX - 500, NONE);
        uint32_t later = b->gap - (capture[b->entry] - capture[b->entry - 1]);
        char what[96];

        for (j = b->entry; j < count; j++) capture[j] += later;
        snprintf(what, sizeof what, "mode %u, gap %lu before entry %u", (unsigned)b->mode, (unsigned long)b->gap, (unsigned)b->entry);
        reads(what, capture, count, 0, b->mode, packed(b->kind, 0), b->next);
    }
}

/* Pages with an edge too many or too few. A bit more or less is Check; where the pattern breaks it is Gap. */
static void test_damaged(void)
{
    static const unsigned d0_added[] = {28, 0};
    static const unsigned d1_added[] = {30, 0};
    static const unsigned d0_d1_added[] = {28, 30, 0};
    static const unsigned s0_added[] = {154, 0};
    static const unsigned d47_missing[] = {124, 150, 154, 0};
    static const unsigned s15_missing[] = {122, 150, 154, 0};
    static const unsigned s0_missing[] = {122, 124, 150, 0};
    static const unsigned d47_as_d46[] = {120, 124, 150, 154, 0};
    static const unsigned at_156[] = {156, 0};
    static const unsigned at_10[] = {10, 0};
    uint32_t mode;

    for (mode = 0; mode < 2; mode++) {
        const size_t clock = mode == 0 ? 15 : 20; /* the entry of position 27 */
        size_t count;

        count = draw_at(0, mode, 5, d0_added);
        reads("D0's edge added", capture, count, 0, mode, packed(3, 0), count);
        count = draw_at(0, mode, 5, s0_added);
        reads("S0's edge added", capture, count, 0, mode, packed(3, 0), count);
        count = draw_at(0, mode, 5, d47_missing);
        reads("D47's edge missing", capture, count, 0, mode, packed(3, 0), count);
        count = draw_at(0, mode, 5, s15_missing);
        reads("S15's edge missing", capture, count, 0, mode, packed(3, 0), count);
        count = draw_at(0, mode, 5, s0_missing);
        reads("S0's edge missing", capture, count, 0, mode, packed(3, 0), count);
        count = draw_at(0, mode, 5, d47_as_d46);
        reads("one edge in place of another", capture, count, 0, mode, packed(3, 0), count);
        count = draw_at(0, mode, 5, at_156);
        reads("an edge at 156", capture, count, 0, mode, packed(1, 0), count);
        count = draw_at(0, mode, 5, at_10);
        reads("an edge at 10, in the delimiter", capture, count, 0, mode, packed(1, 0), count);
        count = take_out(2, draw_at(0, mode, 5, NONE));
        reads("an edge of the delimiter missing", capture, count, 0, mode, packed(1, 0), count);
        count = take_out(clock + 1, draw_at(0, mode, 5, NONE));
        reads("a clock missing between two zeros", capture, count, 0, mode, packed(1, 0), count);
        count = take_out(clock + 2, draw_at(0, mode, 5, d0_added));
        reads("a clock missing after a one", capture, count, 0, mode, packed(1, 0), count);
        count = take_out(clock + 1, draw_at(0, mode, 5, d1_added));
        reads("a clock missing before a one", capture, count, 0, mode, packed(1, 0), count);
        count = take_out(clock + 2, draw_at(0, mode, 5, d0_d1_added));
        reads("a clock missing between two ones", capture, count, 0, mode, packed(1, 0), count);
        count = take_out(clock + 64, draw_at(0, mode, 5, NONE));
        reads("the edge at 155 missing", capture, count, 0, mode, packed(1, 0), count);
    }
}

/* After Gap, Check or a good page, edges are dropped until one follows a quiet gap after the edge just before it. */
static void test_dropping(void)
{
    static const uint32_t spacing[2] = {30, 800}, quiet[2] = {130, 3441};
    static const unsigned damaged[] = {28, 0};
    uint32_t mode;

    for (mode = 0; mode < 2; mode++) {
        const uint32_t limit = quiet[mode];
        size_t i, length = 1;

        capture[0] = UINT32_MAX;
        length = put_after(length, 3 * spacing[mode]); /* Gap */
        for (i = 0; i < 20; i++) length = put_after(length, limit - 1);
        for (i = 0; i < 20; i++) length = put_after(length, spacing[mode]);
        reads("nothing but dropped edges", capture, length, 0, mode, packed(1, 0), length);
        length = put_after(length, limit);
        reads("an edge at the quiet limit", capture, length, 0, mode, packed(1, 0), length - 1);
        reads("the edge that opens", capture, length, length - 1, mode, packed(2, 0), length);
        length = put_after(length, limit);
        reads("the first such edge", capture, length, 0, mode, packed(1, 0), length - 2);
        reads("then Cut by the next", capture, length, length - 2, mode, packed(2, 0), length - 1);
        length = put_after(length, 0);
        reads("a gap of 0 after it opened", capture, length, length - 2, mode, packed(1, 0), length);

        length = draw_at(0, mode, 0, OF_D46);
        for (i = 0; i < 20; i++) length = put_after(length, limit - 1);
        reads("edges right after a page", capture, length, 0, mode, packed(0x80, UINT64_C(1) << 46), length);
        length = put_after(length, limit);
        reads("edges after a page, then quiet", capture, length, 0, mode, packed(0x80, UINT64_C(1) << 46), length - 1);

        length = draw_at(0, mode, 0, damaged);
        for (i = 0; i < 20; i++) length = put_after(length, limit - 1);
        reads("edges right after Check", capture, length, 0, mode, packed(3, 0), length);
        length = put_after(length, UINT32_MAX);
        reads("edges after Check, then quiet", capture, length, 0, mode, packed(3, 0), length - 1);
    }
}

/* Walks a capture as the header shows it, and compares the answers: these, one for each attempt. */
static void walks(const char *what, size_t length, uint32_t mode, const uint64_t *answers, size_t attempts)
{
    size_t place = 0, number = 0;
    char name[96];

    while (place < length) {
        size_t next = place;
        uint64_t answer = maststep_read(capture, length, place, mode, &next);

        snprintf(name, sizeof name, "%s: attempt %u", what, (unsigned)number + 1);
        same(name, answer, number < attempts ? answers[number] : UINT64_MAX);
        number++;
        snprintf(name, sizeof name, "%s: the next place is later", what);
        same(name, next > place && next <= length, 1);
        if (next <= place) return;
        place = next;
    }
    snprintf(name, sizeof name, "%s: attempts", what);
    same(name, number, attempts);
}

static void test_glued(void)
{
    static const uint32_t quiet[2] = {130, 3441};
    static const unsigned damaged[] = {28, 0};
    const uint64_t d47 = packed(0x80, UINT64_C(1) << 47), d46 = packed(0x80, UINT64_C(1) << 46);
    uint32_t mode;

    for (mode = 0; mode < 2; mode++) {
        const uint64_t good_good[] = {d47, d46}, cut_good[] = {packed(2, 0), d46}, check_good[] = {packed(3, 0), d46};
        const uint64_t gap_good_cut[] = {packed(1, 0), d46, packed(2, 0)};
        size_t first, length;

        first = draw_at(0, mode, UINT32_MAX - 4000, OF_D47);
        length = draw_at(first, mode, capture[first - 1] + quiet[mode], OF_D46);
        reads("two pages, the first", capture, length, 0, mode, d47, first);
        reads("two pages, the second", capture, length, first, mode, d46, length);
        walks("two pages", length, mode, good_good, 2);

        length = draw_at(first, mode, capture[first - 1] + quiet[mode] - 1, OF_D46);
        walks("a second page too early is dropped", length, mode, good_good, 1);

        first = draw_at(0, mode, 0, OF_D47) - 1;
        length = draw_at(first, mode, capture[first - 1] + quiet[mode], OF_D46);
        reads("a cut page before a page", capture, length, 0, mode, packed(2, 0), first);
        walks("a cut page and a page", length, mode, cut_good, 2);

        first = draw_at(0, mode, 0, damaged);
        length = draw_at(first, mode, capture[first - 1] + quiet[mode], OF_D46);
        walks("a damaged page and a page", length, mode, check_good, 2);

        first = take_out(2, draw_at(0, mode, 0, OF_D47));
        length = draw_at(first, mode, capture[first - 1] + 1000000, OF_D46);
        length = put_after(length, quiet[mode]);
        walks("a broken page, a page and an edge", length, mode, gap_good_cut, 3);
    }
    walks("no readings", 0, 0, NULL, 0);
}

static void test_nothing_and_refusals(void)
{
    const size_t length = draw_at(0, 0, 0, NONE);

    reads("the place is the length", capture, length, length, 0, 0, length);
    reads("the place is the length, LSM", capture, length, length, 1, 0, length);
    reads("length 0", capture, 0, 0, 0, 0, 0);
    reads("length 0 and no list", NULL, 0, 0, 1, 0, 0);

    /* Each alone. */
    reads("read in mode 2", capture, length, 0, 2, packed(14, 0), UNTOUCHED);
    reads("read in mode 2^32 - 1", capture, length, 0, UINT32_MAX, packed(14, 0), UNTOUCHED);
    reads("the place is past the end", capture, length, length + 1, 0, packed(12, 0), UNTOUCHED);
    reads("the place is past the end, LSM", capture, length, length + 1, 1, packed(12, 0), UNTOUCHED);
    reads("read at SIZE_MAX", capture, length, SIZE_MAX, 0, packed(12, 0), UNTOUCHED);
    /* As bytes the place wraps to the first reading. */
    reads("read at 2^62", capture, length, (size_t)1 << 62, 0, packed(12, 0), UNTOUCHED);
    reads("read length 0, place 1", capture, 0, 1, 0, packed(12, 0), UNTOUCHED);
    reads("read length 0, place SIZE_MAX", capture, 0, SIZE_MAX, 1, packed(12, 0), UNTOUCHED);

    /* Both: Mode, then Room. */
    reads("read in mode 2 past the end", capture, length, length + 1, 2, packed(14, 0), UNTOUCHED);
    reads("read in mode 2 at SIZE_MAX", capture, length, SIZE_MAX, 2, packed(14, 0), UNTOUCHED);
    reads("read in mode 2 at the length", capture, length, length, 2, packed(14, 0), UNTOUCHED);
    reads("read in mode 2, length 0", capture, 0, 0, 2, packed(14, 0), UNTOUCHED);
    reads("read in mode 2, length 0 and no list", NULL, 0, 1, UINT32_MAX, packed(14, 0), UNTOUCHED);
}

/* ---- a run of events */

enum { EDGE, TICK, SENT, LINK, READ, WRITE };
enum { EVENTS = 1200, ANSWERS = EVENTS + 5 };

/* The events of a run, three cells each with two cells to spare, and the answer that each has to get. */
static uint64_t cells[3 * EVENTS + 2], wanted[EVENTS], answers[ANSWERS];
static size_t events;
static uint32_t now;

/* Adds an event at the time that it is now. */
static void event(uint64_t kind, uint64_t argument, uint64_t answer)
{
    cells[3 * events] = kind;
    cells[3 * events + 1] = now;
    cells[3 * events + 2] = argument;
    wanted[events++] = answer;
}

static void reads_register(uint64_t number, uint64_t value)
{
    event(READ, number, packed(0x83, value));
}

static void writes_register(uint64_t number, uint64_t value)
{
    event(WRITE, number * 65536 + value, 0);
}

/* A page arrives: its last edge gets this answer, the others none. The time is then that of the last edge. */
static void arrives(uint64_t word, uint64_t answer)
{
    uint32_t readings[MASTSTEP_MOST_READINGS];
    size_t count = (size_t)maststep_value(maststep_write(readings, MASTSTEP_MOST_READINGS, 0, 1, word, now)), i;

    for (i = 0; i < count; i++) {
        now = readings[i];
        event(EDGE, i, i + 1 == count ? answer : 0);
    }
}

/* A page arrives, and is not refused. */
static void hears(uint64_t word)
{
    arrives(word, packed(0x80, word));
}

/* The own page is ordered so many ns from now and not one ns before; a page takes 124 800 ns to send. */
static void sends(uint32_t wait, uint64_t word, uint64_t answer)
{
    now += wait - 1;
    event(TICK, 3, 0);
    now += 1;
    event(TICK, 3, packed(0x81, word));
    now += 124800;
    event(TICK, 3, 0);
    event(SENT, 0, answer);
}

/* What an entry for an answer holds before a call; no answer has such a kind. */
static uint64_t guard_of_answer(size_t i)
{
    return UINT64_C(0xdead000000000000) + i;
}

/* The number of entries from this one on that a call has altered. */
static uint64_t answers_altered(size_t from)
{
    uint64_t n = 0;
    size_t i;

    for (i = from; i < ANSWERS; i++)
        if (answers[i] != guard_of_answer(i)) n++;
    return n;
}

/* One call with so many cells and entries: its answer, each event's answer, and that nothing else is altered. */
static void runs(const char *what, size_t length, size_t room, uint64_t answer)
{
    static uint64_t before[3 * EVENTS + 2];
    const size_t answered = maststep_kind(answer) == 0x84 ? (size_t)maststep_value(answer) : 0;
    char name[96];
    size_t i;

    memcpy(before, cells, sizeof cells);
    for (i = 0; i < ANSWERS; i++) answers[i] = guard_of_answer(i);
    same(what, maststep_run(cells, length, answers, room), answer);
    for (i = 0; i < answered; i++) {
        snprintf(name, sizeof name, "%s: event %u, kind %u", what, (unsigned)i, (unsigned)cells[3 * i]);
        same(name, answers[i], wanted[i]);
    }
    snprintf(name, sizeof name, "%s: other entries altered", what);
    same(name, answers_altered(answered), 0);
    snprintf(name, sizeof name, "%s: events altered", what);
    same(name, memcmp(before, cells, sizeof cells) != 0, 0);
}

/* No event yet, at this time. */
static void fresh_run(uint32_t start)
{
    memset(cells, 0, sizeof cells);
    events = 0;
    now = start;
}

static void test_run_of_a_fresh_device(void)
{
    /* Each call starts with a fresh device: nothing is left of this one, which is enabled and advertises. */
    fresh_run(0);
    writes_register(514, 0xffff);
    writes_register(512, 0x1000);
    reads_register(512, 0x1000);
    runs("a device is enabled", 9, 3, packed(0x84, 3));
    fresh_run(0);
    reads_register(512, 0);
    reads_register(514, 0);
    runs("the next device is fresh", 6, 2, packed(0x84, 2));
}

/* Three events, and every room up to two more than they need. */
static void test_run_room(void)
{
    size_t room, spare;

    fresh_run(5);
    reads_register(513, 8);
    event(READ, 526, packed(10, 0));
    event(SENT, 0, packed(11, 0));
    for (room = 0; room < 3; room++) runs("too little room", 9, room, packed(12, 0));
    for (room = 3; room < 6; room++) runs("room", 9, room, packed(0x84, 3));

    /* The cells behind the last whole event may hold anything, and ask for no room. */
    for (spare = 0; spare < 3; spare++) {
        cells[9] = READ;
        cells[10] = UINT64_MAX;
        runs("cells to spare", 9 + spare, 3, packed(0x84, 3));
        runs("cells to spare, too little room", 9 + spare, 2, packed(12, 0));
        runs("one event and cells to spare", 3 + spare, 1, packed(0x84, 1));
        runs("no whole event", spare, 0, packed(0x84, 0));
        runs("no whole event, with room", spare, 4, packed(0x84, 0));
        cells[9] = UINT64_MAX;
        cells[10] = 0;
        runs("other cells to spare", 9 + spare, 3, packed(0x84, 3));
    }
}

static void test_run_without_lists(void)
{
    fresh_run(5);
    reads_register(513, 8);
    same("no events, no entries, no lists", maststep_run(NULL, 0, NULL, 0), packed(0x84, 0));
    same("no whole event, no list of answers", maststep_run(cells, 2, NULL, 0), packed(0x84, 0));
    same("one event, no list of answers", maststep_run(cells, 3, NULL, 0), packed(12, 0));
    answers[0] = guard_of_answer(0);
    same("no list of events", maststep_run(NULL, 0, answers, 1), packed(0x84, 0));
    same("no list of events: the entry", answers[0], guard_of_answer(0));
}

/* Whether a register holds what was written: what is advertised, and the own Next Page. */
static int is_written(size_t number)
{
    return (number >= 514 && number < 517) || (number >= 520 && number < 523);
}

/* Registers from 512 to 525 and no others, by the whole cell; kinds from 0 to 5 and no others. */
static void test_run_registers(void)
{
    static const uint64_t none[] = {0, 7, 10, 511, 526, 527, 65535, 65536 + 512, (UINT64_C(1) << 32) + 513, UINT64_C(1) << 47};
    size_t i;

    fresh_run(77);
    for (i = 0; i < sizeof none / sizeof none[0]; i++) {
        event(READ, none[i], packed(10, 0));
        event(WRITE, none[i] * 65536 + 0x1000, packed(10, 0));
    }
    event(READ, UINT64_MAX, packed(10, 0));
    event(WRITE, UINT64_MAX, packed(10, 0));
    for (i = 512; i < 526; i++) reads_register(i, i == 513 ? 8 : 0);
    for (i = 513; i < 526; i++) writes_register(i, 0xf0f0 + i);
    for (i = 513; i < 526; i++) reads_register(i, i == 513 ? 8 : is_written(i) ? 0xf0f0 + i : 0);
    for (i = 520; i < 523; i++) reads_register(i, 0xf0f0 + i); /* a read changes nothing */
    event(6, 512, 0);
    event(UINT64_MAX, 512, 0);
    event((UINT64_C(1) << 32) + READ, 513, 0);
    event((UINT64_C(1) << 32) + WRITE, UINT64_C(512) * 65536 + 0x8000, 0);
    reads_register(514, 0xf0f0 + 514);
    writes_register(512, 0x0200); /* bit 12 zero: into Off, also from Off */
    reads_register(514, 0xf0f0 + 514);
    reads_register(520, 0);
    writes_register(512, 0x9200); /* bit 15: fresh, whatever the other bits */
    reads_register(514, 0);
    reads_register(512, 0);
    runs("registers", 3 * events, events, packed(0x84, events));
}

/*
 * One side of P9 from enabling to link up. The own nonce is 5, drawn as 37, and the partner's is 9; both
 * have 1000BASE-T1. The clock rolls over before the first page.
 */
static void test_run_to_link_up(void)
{
    const uint64_t own = 0x850001, partner = 0xa90001, ack = 0x4000;
    const uint64_t own_answering = own + ack + (9 << 5), partner_answering = partner + ack + (5 << 5);

    fresh_run(UINT32_MAX - 4000000);
    event(SENT, 0, packed(11, 0)); /* in Off */
    writes_register(515, 0x0080);
    writes_register(512, 0x1000);
    event(SENT, 0, packed(11, 0)); /* in Break */
    event(EDGE, 0, 0);
    now += 7999999;
    event(TICK, 30, 0); /* one ns before Break is over */
    now += 1;
    event(TICK, 37, 0);
    cells[3 * events - 2] += UINT64_C(7) << 32; /* this tick's reading, which is taken modulo 2^32 */
    event(SENT, 0, packed(11, 0)); /* no page is out */
    sends(350000, own, 0);
    event(SENT, 0, packed(11, 0)); /* it is sent already */
    now += 40000;
    hears(partner);
    reads_register(517, 0);
    sends(33000, own_answering, 0);
    now += 40000;
    hears(partner_answering);
    reads_register(517, partner_answering & 0xffff);
    reads_register(518, partner >> 16);
    reads_register(519, 0);
    sends(33000, own_answering, 0);
    sends(350000, own_answering, 0);
    sends(350000, own_answering, settled(2, 0));
    reads_register(513, 0x48);
    event(LINK, 0, 0);
    reads_register(513, 0x08);
    event(LINK, UINT64_C(1) << 40, 0);
    reads_register(513, 0x28);
    reads_register(513, 0x2c);
    event(LINK, 0, 0);
    reads_register(513, 0x08);
    reads_register(518, 0);
    runs("to link up", 3 * events, ANSWERS, packed(0x84, events));
    /* Every beginning of the run has the same answers, and one entry too few is refused. */
    runs("the first 100 events", 300, 100, packed(0x84, 100));
    runs("the run without room", 3 * events, events - 1, packed(12, 0));
}

/* A device that advertises this is enabled, and is in Break. */
static void enters_break(uint64_t advertised)
{
    fresh_run(0);
    writes_register(514, advertised & 0xffff);
    writes_register(515, advertised >> 16);
    writes_register(512, 0x1000);
}

/* A base page as it is sent where the other end's base page has been heard: with Ack, and the other's nonce as E. */
static uint64_t answering(uint64_t base, uint64_t other)
{
    return base + 0x4000 + ((other >> 16 & 31) << 5);
}

/* It leaves Break with its own base page, whose nonce is the draw, and hears the partner's: it is in Complete. */
static void goes_to_complete(uint64_t own, uint64_t partner)
{
    now += 8000000;
    event(TICK, own >> 16 & 31, 0);
    sends(350000, own, 0);
    now += 40000;
    hears(partner);
    sends(33000, answering(own, partner), 0);
    now += 40000;
    hears(answering(partner, own));
}

/* Three pages are sent in Complete; the third Sent gets this answer. */
static void sends_three(uint64_t word, uint64_t answer)
{
    sends(33000, word, 0);
    sends(350000, word, 0);
    sends(350000, word, answer);
}

/* A device goes on to Complete and sends three pages; its third Sent gets this answer. */
static void settles(const char *what, uint64_t own, uint64_t partner, uint64_t answer)
{
    enters_break(own);
    goes_to_complete(own, partner);
    sends_three(answering(own, partner), answer);
    runs(what, 3 * events, events, packed(0x84, events));
}

/* The third Sent of Complete answers what resolving gives of the two pages. */
static void test_run_third_sent(void)
{
    settles("P9's device", 0x850001, 0xA90001, settled(2, 0));
    settles("P10's device", 0x851001, 0xA91001, packed(9, 0));
    settles("P11's device", 0x951001, 0xA90001, settled(2, 1));
    settles("P13's device", 0x450001, 0xA90001, packed(8, 0));
}

/* ---- Next Pages */

enum { ACK = 0x4000, NP = 0x8000, TOGGLE = 0x0800 };

/* The base pages of P9's device and its partner, and two own Next Pages, a message and an unformatted page. */
static const uint64_t OWN = 0x850001, PARTNER = 0xa90001;
static const uint64_t MESSAGE = UINT64_C(0x12345678a005), UNFORMATTED = UINT64_C(0xfedc43210123);

/* The host loads a page: 520 comes last. */
static void loads(uint64_t word)
{
    writes_register(521, word >> 16 & 0xffff);
    writes_register(522, word >> 32);
    writes_register(520, word & 0xffff);
}

/* The three registers from this one on hold the word. */
static void holds(uint64_t number, uint64_t word)
{
    reads_register(number, word & 0xffff);
    reads_register(number + 1, word >> 16 & 0xffff);
    reads_register(number + 2, word >> 32);
}

/* All that belongs to a link is gone: the device is in Break. A page that was out is no longer. */
static void is_in_break(void)
{
    reads_register(512, 0x1000);
    holds(517, 0);
    holds(520, 0);
    holds(523, 0);
    event(SENT, 0, packed(11, 0));
}

/* The partner's Next Page is heard and answered, and heard again with Ack: the device is in Complete. */
static void exchanges(uint64_t own, uint64_t partner)
{
    sends(33000, own, 0);
    now += 40000;
    hears(partner);
    sends(33000, own + ACK, 0);
    now += 40000;
    hears(partner + ACK);
}

/*
 * Two pages one way and one the other. The first own page is loaded in Break, so that NP is set in the base page; the
 * second is late, and the first is sent until it is there. The partner has one page, and then the Null message. Rate
 * and role are those of the base pages, whatever the Next Pages have.
 */
static void test_run_next_pages(void)
{
    const uint64_t theirs = UINT64_C(0xffff00002806), null = MASTSTEP_NULL_MESSAGE;

    enters_break(OWN);
    loads(MESSAGE);
    holds(520, MESSAGE);
    goes_to_complete(OWN + NP, PARTNER + NP);
    reads_register(513, 0x48);
    sends_three(answering(OWN + NP, PARTNER), 0);

    /* The partner's base page once more is no new page. The toggles begin as the inverse of D11 of the base pages. */
    now += 40000;
    hears(answering(PARTNER + NP, OWN));
    exchanges(MESSAGE + TOGGLE, theirs);
    reads_register(513, 0x48); /* page received, and D13 is no remote fault */
    holds(517, answering(PARTNER + NP, OWN));
    holds(523, theirs + ACK);
    holds(520, MESSAGE);

    /* Own NP is one and nothing is loaded. */
    sends_three(MESSAGE + TOGGLE + ACK, 0);
    now += 40000;
    hears(null);
    sends(33000, MESSAGE + TOGGLE + ACK, 0);
    loads(UNFORMATTED);
    sends(350000, MESSAGE + TOGGLE + ACK, 0);
    now += 40000;
    hears(null);
    sends(33000, UNFORMATTED + ACK, 0);
    now += 40000;
    hears(null + ACK);
    holds(523, null + ACK);
    sends_three(UNFORMATTED + ACK, settled(2, 0));
    holds(523, null + ACK);
    runs("Next Pages", 3 * events, events, packed(0x84, events));
}

/* Nothing is loaded, and the partner has a page: the Null message answers it. */
static void test_run_null_message(void)
{
    const uint64_t theirs = UINT64_C(0x2805);

    enters_break(OWN);
    goes_to_complete(OWN, PARTNER + NP);
    sends_three(answering(OWN, PARTNER), 0);
    now += 40000;
    hears(answering(PARTNER + NP, OWN));
    exchanges(MASTSTEP_NULL_MESSAGE + TOGGLE, theirs);
    sends_three(MASTSTEP_NULL_MESSAGE + TOGGLE + ACK, settled(2, 0));
    runs("the Null message", 3 * events, events, packed(0x84, events));
}

/* A device in Break leaves it, and orders this base page first. */
static void orders_first(const char *what, uint64_t own)
{
    now += 8000000;
    event(TICK, own >> 16 & 31, 0);
    sends(350000, own, 0);
    runs(what, 3 * events, events, packed(0x84, events));
}

/* A write of 520 in Break sets NP of the base page, and nothing else does: not 521 and 522, nor bit 15 of 514. */
static void test_run_loaded(void)
{
    enters_break(OWN);
    writes_register(520, 0);
    orders_first("520 is written in Break", OWN + NP);

    enters_break(OWN);
    writes_register(521, 0x5678);
    writes_register(522, 0x1234);
    orders_first("521 and 522 are written in Break", OWN);

    enters_break(OWN + NP);
    orders_first("514 has bit 15", OWN);

    /* Entering Break, from Off or by a restart, forgets what was loaded before. */
    fresh_run(0);
    loads(MESSAGE);
    holds(520, MESSAGE);
    writes_register(514, OWN & 0xffff);
    writes_register(515, OWN >> 16);
    writes_register(512, 0x1000);
    holds(520, 0);
    loads(MESSAGE);
    writes_register(512, 0x1200);
    holds(520, 0);
    orders_first("520 is written in Off, and before a restart", OWN);

    /* The tick that leaves Break makes the base page. */
    enters_break(OWN);
    now += 8000000;
    event(TICK, 5, 0);
    loads(MESSAGE);
    sends(350000, OWN, 0);
    runs("520 is written after Break", 3 * events, events, packed(0x84, events));
}

/* A page that is loaded after Break goes out where the partner's NP is one, in the Null message's place. */
static void test_run_loaded_late(void)
{
    enters_break(OWN);
    goes_to_complete(OWN, PARTNER + NP);
    loads(UNFORMATTED);
    sends_three(answering(OWN, PARTNER), 0);
    sends(350000, UNFORMATTED + TOGGLE, 0);
    runs("loaded after Break", 3 * events, events, packed(0x84, events));
    enters_break(OWN);
    goes_to_complete(OWN, PARTNER);
    loads(MESSAGE);
    sends_three(answering(OWN, PARTNER), settled(2, 0));
    holds(520, MESSAGE);
    runs("loaded after Break, and the partner has no page", 3 * events, events, packed(0x84, events));
}

/* The first Next Pages are due at a device that has loaded one. */
static void goes_to_next_pages(void)
{
    enters_break(OWN);
    loads(MESSAGE);
    goes_to_complete(OWN + NP, PARTNER);
    sends_three(answering(OWN + NP, PARTNER), 0);
    now += 40000;
}

/* A new page with the toggle of the page before, in each round. */
static void test_run_toggle(void)
{
    goes_to_next_pages();
    arrives(0x2006, packed(17, 0));
    is_in_break();
    runs("Toggle, after the base page", 3 * events, events, packed(0x84, events));

    goes_to_next_pages();
    hears(answering(PARTNER, OWN));
    exchanges(MESSAGE + TOGGLE, 0x2806);
    loads(UNFORMATTED);
    sends_three(MESSAGE + TOGGLE + ACK, 0);
    now += 40000;
    arrives(0x2807, packed(17, 0));
    is_in_break();
    runs("Toggle, after a Next Page", 3 * events, events, packed(0x84, events));
}

/* In Ack a Next Page may differ in Ack alone; D5-9 are no echo there. */
static void test_run_changed_next_page(void)
{
    goes_to_next_pages();
    hears(0x2806);
    now += 40000;
    arrives(0x2826, packed(6, 0));
    is_in_break();
    runs("Changed", 3 * events, events, packed(0x84, events));
}

/* The partner falls silent: 4 ms after its last page a tick with no page out goes to Break, and answers nothing. */
static void test_run_lost(void)
{
    uint32_t heard;

    goes_to_next_pages();
    hears(0x2806);
    heard = now;
    sends(33000, MESSAGE + TOGGLE + ACK, 0);
    now = heard + 3999999;
    event(TICK, 3, packed(0x81, MESSAGE + TOGGLE + ACK));
    now += 1;
    event(TICK, 3, 0); /* a page is out */
    reads_register(518, PARTNER >> 16);
    now += 124799;
    event(SENT, 0, 0);
    reads_register(518, PARTNER >> 16);
    event(TICK, 3, 0);
    is_in_break();
    runs("lost", 3 * events, events, packed(0x84, events));
}

/* ---- message runs */

enum { PAGES = 65, ROOM = 192, AHEAD = 4, LENT = ROOM + 5 };
enum { MESSAGE_PAGE = 0x2000 };

/* A run that is being made, and the cells that its messages have to get. */
static uint64_t pages[PAGES], due[3 * PAGES];
static size_t run_length, messages;

/* The cells that calls are lent, after some that they are not. */
static uint64_t told[AHEAD + LENT];

static void empties_run(void)
{
    run_length = 0;
    messages = 0;
}

/* Adds a page. All bits but the code and D13, which mean nothing here, are one in every second page and zero in the others. */
static void adds_page(uint64_t code_and_d13)
{
    pages[run_length] = code_and_d13 + (run_length % 2 ? UINT64_C(0xffffffffd800) : 0);
    run_length++;
}

/* Adds a message: a message page with this code and so many unformatted pages, whose bits below D11 are as any code's. */
static void adds_message(uint64_t code, size_t unformatted)
{
    uint64_t *cell = due + 3 * messages++;
    size_t i;

    cell[0] = code;
    cell[1] = run_length;
    cell[2] = unformatted;
    adds_page(code + MESSAGE_PAGE);
    for (i = 0; i < unformatted; i++) adds_page(i % 3 * 1000);
}

/* Adds messages alike until the run has 64 pages. */
static void fills_run(size_t unformatted)
{
    while (run_length < 64) adds_message(run_length, unformatted);
}

/* The number of cells that a call has altered, but for so many from the first lent one on. */
static uint64_t cells_altered(size_t but)
{
    uint64_t n = 0;
    size_t i;

    for (i = 0; i < AHEAD + LENT; i++)
        if ((i < AHEAD || i >= AHEAD + but) && told[i] != guard_of_answer(i)) n++;
    return n;
}

/* One call with so many cells: its answer, the cells of each message if it tells them, and that nothing else is altered. */
static void tells(const char *what, size_t room, uint64_t answer)
{
    static uint64_t before[PAGES];
    const size_t cells_told = maststep_kind(answer) == 0x84 ? 3 * (size_t)maststep_value(answer) : 0;
    char name[96];
    size_t i;

    memcpy(before, pages, sizeof pages);
    for (i = 0; i < AHEAD + LENT; i++) told[i] = guard_of_answer(i);
    same(what, maststep_messages(pages, run_length, told + AHEAD, room), answer);
    for (i = 0; i < cells_told; i++) {
        snprintf(name, sizeof name, "%s: message %u, cell %u", what, (unsigned)i / 3, (unsigned)i % 3);
        same(name, told[AHEAD + i], due[i]);
    }
    snprintf(name, sizeof name, "%s: other cells altered", what);
    same(name, cells_altered(cells_told), 0);
    snprintf(name, sizeof name, "%s: pages altered", what);
    same(name, memcmp(before, pages, sizeof pages) != 0, 0);
}

/* The run's messages are told where there is room for them, just enough or more, and refused with one cell too few. */
static void tells_all(const char *what)
{
    tells(what, 3 * messages, packed(0x84, messages));
    tells(what, 3 * messages + 1, packed(0x84, messages));
    tells(what, LENT, packed(0x84, messages));
    if (messages > 0) tells(what, 3 * messages - 1, packed(12, 0));
}

/* A head tells its model: the message page with code 6 and two unformatted pages, as docs/SETTLING.md has them loaded. */
static void test_messages_of_a_head(void)
{
    static const uint64_t model[3] = {UINT64_C(0x00000009a006), UINT64_C(0x342d424d8045), UINT64_C(0x003731200030)};

    empties_run();
    adds_message(6, 2);
    memcpy(pages, model, sizeof model);
    tells_all("a head's model");
    /* As they are heard: with Ack, and each with another toggle than the page before. */
    pages[0] += ACK + TOGGLE;
    pages[1] += ACK;
    pages[2] += ACK + TOGGLE;
    tells_all("a head's model as it is heard");
}

static void test_messages_in_order(void)
{
    size_t room;

    empties_run();
    tells_all("no page");
    adds_message(1, 0);
    tells_all("one message page");
    adds_message(2047, 0);
    tells_all("two message pages");
    adds_message(0, 5);
    adds_message(5, 1);
    adds_message(5, 0);
    adds_message(5, 2);
    tells_all("six messages");
    for (room = 0; room < 18; room++) tells("six messages, too little room", room, packed(12, 0));
    pages[run_length] = UINT64_MAX;
    tells_all("six messages, and a wide page past the run");
    pages[run_length] = 6;
    tells_all("six messages, and an unformatted page past the run");
}

/* The longest runs, of 64 pages. The first of them takes the most stack. */
static void test_messages_of_64_pages(void)
{
    empties_run();
    fills_run(0);
    tells_all("64 messages");
    same("192 cells are enough for every run", MASTSTEP_MOST_PAGES * MASTSTEP_MESSAGE_CELLS, 3 * messages);
    empties_run();
    fills_run(1);
    tells_all("32 messages of two pages");
    empties_run();
    fills_run(63);
    tells_all("one message of 64 pages");
    empties_run();
    adds_message(3, 62);
    adds_message(4, 0);
    tells_all("a message of 63 pages and one of one");
    empties_run();
    adds_message(3, 0);
    adds_message(4, 62);
    tells_all("a message of one page and one of 63");
}

/* Every bit of a page in turn: D0-D10 are the code, and by D13 alone a page begins a message. */
static void test_bits_of_a_page(void)
{
    unsigned bit;

    for (bit = 0; bit < 48; bit++) {
        const uint64_t one = UINT64_C(1) << bit;
        char what[64];

        empties_run();
        adds_message(bit < 11 ? one : 0, 0);
        pages[0] = one | MESSAGE_PAGE;
        snprintf(what, sizeof what, "a message page with D%u", bit);
        tells_all(what);
        empties_run();
        adds_message(0, bit != 13);
        if (bit == 13) adds_message(0, 0);
        pages[1] = one;
        snprintf(what, sizeof what, "a second page with D%u", bit);
        tells_all(what);
    }
    empties_run();
    adds_message(2047, 2);
    pages[0] = WIDEST;
    pages[1] = pages[2] = WIDEST - MESSAGE_PAGE;
    tells_all("2^48 - 1, and the largest unformatted page twice");
}

static void test_messages_without_lists(void)
{
    empties_run();
    same("no page, no cell, no lists", maststep_messages(NULL, 0, NULL, 0), packed(0x84, 0));
    told[0] = guard_of_answer(0);
    same("no list of pages", maststep_messages(NULL, 0, told, 1), packed(0x84, 0));
    same("no list of pages: the cell", told[0], guard_of_answer(0));
    same("no page, no list of messages", maststep_messages(pages, 0, NULL, 0), packed(0x84, 0));
    adds_message(6, 0);
    same("one message, no list of messages", maststep_messages(pages, 1, NULL, 0), packed(12, 0));
    pages[0] = 6;
    same("an unformatted page, no list of messages", maststep_messages(pages, 1, NULL, 0), packed(24, 0));
}

/* A run that is refused, with this number whatever room there is. */
static void refuses_run(const char *what, uint64_t number)
{
    static const size_t rooms[] = {0, 1, 3, ROOM, LENT};
    size_t i;

    for (i = 0; i < sizeof rooms / sizeof rooms[0]; i++) tells(what, rooms[i], packed(number, 0));
}

/* More than 64 pages, also where everything else is wrong too. */
static void test_messages_length(void)
{
    empties_run();
    fills_run(0);
    adds_message(6, 0);
    refuses_run("65 message pages", 25);
    empties_run();
    adds_message(6, 64);
    refuses_run("one message of 65 pages", 25);
    pages[0] = 6;
    refuses_run("65 pages, an unformatted one first", 25);
    pages[64] = UINT64_MAX;
    refuses_run("65 pages, an unformatted one first, the last wide", 25);
    pages[0] = UINT64_MAX;
    refuses_run("65 pages, the first and the last wide", 25);
}

/* A run of 64 pages with a wide one at a place, and where that is not the first, with an unformatted one first as well. */
static void refuses_wide_page(uint64_t page, size_t place)
{
    empties_run();
    fills_run(3);
    pages[place] = page;
    refuses_run("a wide page", 13);
    if (place == 0) return;
    pages[0] = 6;
    refuses_run("a wide page, an unformatted one first", 13);
}

static void test_messages_wide(void)
{
    static const uint64_t wide[] = {UINT64_C(1) << 48, (UINT64_C(1) << 48) + MESSAGE_PAGE, UINT64_C(1) << 63, UINT64_MAX};
    size_t i, place;

    for (i = 0; i < sizeof wide / sizeof wide[0]; i++) {
        for (place = 0; place < 64; place++) refuses_wide_page(wide[i], place);
        empties_run();
        adds_page(0);
        pages[0] = wide[i];
        refuses_run("a wide page alone", 13);
    }
}

static void test_messages_unformatted_first(void)
{
    empties_run();
    adds_page(6);
    refuses_run("an unformatted page alone", 24);
    adds_message(6, 2);
    refuses_run("an unformatted page, then a message", 24);
    empties_run();
    fills_run(0);
    pages[0] = WIDEST - MESSAGE_PAGE;
    refuses_run("an unformatted page, then 63 messages", 24);
}

/* ---- the parity of a frame */

enum { DATA = 406, PARITY = 44, COUNT_AT = 44, BEHIND = 3, STATE = 45 + BEHIND, FRAME = DATA + PARITY };

/* A state and a list for parity symbols with entries behind them that no call may alter, and a frame. */
static uint16_t state[STATE], before_call[STATE], parity[PARITY + BEHIND], frame[FRAME];

/* Parity symbols of data that are all 1FF hex, and of the data 0, 1, .. 405, from outside of this project's code: libfec has the same. */
static const uint16_t OF_ONES[PARITY] = {
    0x0E0, 0x07D, 0x05B, 0x13F, 0x1F2, 0x069, 0x176, 0x1A7, 0x10A, 0x1EA, 0x1D8, 0x02A, 0x1FF, 0x029, 0x1AA,
    0x0C8, 0x028, 0x068, 0x0C5, 0x02E, 0x1DB, 0x0C5, 0x12F, 0x049, 0x0D1, 0x030, 0x135, 0x176, 0x0EB, 0x1D2,
    0x1EC, 0x190, 0x111, 0x0CC, 0x120, 0x023, 0x15E, 0x018, 0x13B, 0x1EB, 0x06F, 0x1BC, 0x173, 0x1C9};
static const uint16_t OF_COUNTING[PARITY] = {
    0x15A, 0x158, 0x1C8, 0x0D0, 0x196, 0x16C, 0x0BF, 0x053, 0x128, 0x0D6, 0x17E, 0x03F, 0x17A, 0x122, 0x1E8,
    0x085, 0x0F2, 0x091, 0x1E4, 0x102, 0x197, 0x041, 0x0EA, 0x027, 0x196, 0x173, 0x112, 0x094, 0x017, 0x0DB,
    0x190, 0x090, 0x167, 0x196, 0x1CC, 0x1CD, 0x151, 0x179, 0x145, 0x091, 0x0A7, 0x10D, 0x1A5, 0x0B5};
/* The generator below its highest power: the parity of data that are all zero but for a last 1. */
static const uint16_t GENERATOR[PARITY] = {
    0x0D0, 0x128, 0x044, 0x1C6, 0x152, 0x1B9, 0x07B, 0x1E6, 0x148, 0x157, 0x0E2, 0x02A, 0x0C4, 0x1F0, 0x022,
    0x1C3, 0x1E0, 0x16A, 0x10C, 0x108, 0x080, 0x137, 0x09F, 0x1E3, 0x18A, 0x0EF, 0x0B2, 0x03F, 0x1E4, 0x01A,
    0x187, 0x0C2, 0x138, 0x1A5, 0x069, 0x180, 0x094, 0x164, 0x15E, 0x15B, 0x0ED, 0x14F, 0x059, 0x163};

static uint16_t guard_of_entry(size_t i)
{
    return (uint16_t)(0xC300 + i);
}

/* A new frame, with guards behind its state. */
static void new_frame(void)
{
    size_t i;

    memset(state, 0, sizeof state);
    for (i = 45; i < STATE; i++) state[i] = guard_of_entry(i);
}

/* One burst is taken: its answer, and that entries behind the state are as they were. */
static void takes(const char *what, const uint16_t *burst, size_t length, uint64_t count)
{
    size_t i;

    same(what, maststep_parity_take(state, STATE, burst, length), packed(0x84, count));
    for (i = 45; i < STATE; i++) same("an entry behind the state", state[i], guard_of_entry(i));
    same("the count in the state", state[COUNT_AT], count);
}

/* The frame's data are taken in bursts of so many symbols, and finished: the parity behind the data. */
static void finishes(const char *what, size_t cut)
{
    size_t from, i;

    new_frame();
    for (from = 0; from < DATA; from += cut) {
        const size_t length = DATA - from < cut ? DATA - from : cut;
        takes(what, frame + from, length, from + length);
    }
    for (i = 0; i < PARITY + BEHIND; i++) parity[i] = guard_of_entry(i);
    same(what, maststep_parity_finish(state, STATE, parity, PARITY + BEHIND), packed(0x84, PARITY));
    for (i = PARITY; i < PARITY + BEHIND; i++) same("an entry behind the parity", parity[i], guard_of_entry(i));
    memcpy(frame + DATA, parity, PARITY * sizeof parity[0]);
}

static void same_parity(const char *what, const uint16_t *expected)
{
    char name[96];
    size_t i;

    for (i = 0; i < PARITY; i++) {
        snprintf(name, sizeof name, "%s: parity symbol %u", what, (unsigned)i);
        same(name, frame[DATA + i], expected[i]);
    }
}

static void test_parity_vectors(void)
{
    static const uint16_t none[PARITY] = {0};
    size_t i;

    for (i = 0; i < DATA; i++) frame[i] = 0x1ff;
    finishes("all ones", DATA);
    same_parity("all ones", OF_ONES);
    for (i = 0; i < DATA; i++) frame[i] = (uint16_t)i;
    finishes("0 to 405", DATA);
    same_parity("0 to 405", OF_COUNTING);
    memset(frame, 0, sizeof frame);
    finishes("zeros", DATA);
    same_parity("zeros", none);
    frame[DATA - 1] = 1;
    finishes("a last 1", DATA);
    same_parity("a last 1", GENERATOR);
}

/* Twice a symbol, as a polynomial modulo x^9 + x^4 + 1. */
static unsigned doubled(unsigned symbol)
{
    return symbol & 0x100 ? (symbol << 1) ^ 0x211 : symbol << 1;
}

/* The frame's value at alpha^power: symbol by symbol, the value so far is doubled so often. */
static unsigned value_at(unsigned power)
{
    unsigned value = 0, times;
    size_t i;

    for (i = 0; i < FRAME; i++) {
        for (times = 0; times < power; times++) value = doubled(value);
        value ^= frame[i];
    }
    return value;
}

/* Data drawn from a seed. */
static void draws_data(uint32_t seed)
{
    size_t i;

    for (i = 0; i < DATA; i++) {
        seed = seed * UINT32_C(1664525) + UINT32_C(1013904223);
        frame[i] = (uint16_t)(seed >> 23);
    }
}

static void test_parity_of_frames(void)
{
    static const size_t cuts[] = {1, 2, 9, 100, 405, 406};
    static uint16_t whole[PARITY];
    uint32_t seed;
    unsigned power;
    size_t i;

    for (seed = 1; seed <= 4; seed++) {
        draws_data(seed);
        finishes("drawn data", DATA);
        for (power = 0; power < 44; power++) same("the value at a power", value_at(power), 0);
        memcpy(whole, frame + DATA, sizeof whole);
        for (i = 0; i < sizeof cuts / sizeof cuts[0]; i++) {
            finishes("drawn data, cut", cuts[i]);
            same_parity("drawn data, cut", whole);
        }
        frame[seed * 100] ^= 1;
        for (power = 0; power < 44; power++) same("the value at a power, one bit changed", value_at(power) == 0, 0);
    }
}

/* A burst is refused with this number, and no entry is altered. */
static void refuses_burst(const char *what, uint64_t number, size_t entries, const uint16_t *burst, size_t length)
{
    memcpy(before_call, state, sizeof state);
    same(what, maststep_parity_take(state, entries, burst, length), packed(number, 0));
    same(what, memcmp(before_call, state, sizeof state) != 0, 0);
}

static void test_parity_take_refusals(void)
{
    static uint16_t burst[DATA + 1];
    size_t i;

    new_frame();
    for (i = 0; i < 45; i++) refuses_burst("a short state", 12, i, burst, DATA + 1);
    refuses_burst("407 symbols", 21, STATE, burst, DATA + 1);
    same("no state", maststep_parity_take(NULL, 0, burst, 1), packed(12, 0));
    same("no burst", maststep_parity_take(state, 45, NULL, 0), packed(0x84, 0));
    for (i = 0; i < DATA; i++) {
        burst[i] = (uint16_t)(512 + i);
        refuses_burst("no symbol in the burst", 20, STATE, burst, DATA);
        refuses_burst("no symbol in the burst, and one too many", 21, STATE, burst, DATA + 1);
        burst[i] = 511;
    }
    for (i = 0; i < PARITY; i++) {
        state[i] = i % 2 ? 512 : 65535;
        refuses_burst("no symbol in the register", 20, STATE, burst, 1);
        state[i] = 0;
    }
    state[COUNT_AT] = 406;
    takes("no symbol more after 406", burst, 0, 406);
    refuses_burst("a symbol after 406", 21, STATE, burst, 1);
    state[0] = 512;
    refuses_burst("a symbol after 406, no symbol in the register", 21, STATE, burst, 1);
    state[COUNT_AT] = 407;
    refuses_burst("a count of 407", 21, STATE, burst, 0);
    state[COUNT_AT] = 65535;
    refuses_burst("a count of 65535", 21, STATE, burst, 1);
}

/* A finish is refused with this number, and no entry of either list is altered. */
static void refuses_finish(const char *what, uint64_t number, size_t entries, size_t room)
{
    size_t i, n = 0;

    for (i = 0; i < PARITY + BEHIND; i++) parity[i] = guard_of_entry(i);
    memcpy(before_call, state, sizeof state);
    same(what, maststep_parity_finish(state, entries, parity, room), packed(number, 0));
    for (i = 0; i < PARITY + BEHIND; i++) n += parity[i] != guard_of_entry(i);
    same(what, n, 0);
    same(what, memcmp(before_call, state, sizeof state) != 0, 0);
}

static void test_parity_finish_refusals(void)
{
    size_t i;

    new_frame();
    state[COUNT_AT] = 406;
    for (i = 0; i < 45; i++) refuses_finish("a short state", 12, i, PARITY);
    for (i = 0; i < PARITY; i++) refuses_finish("too little room", 12, 45, i);
    same("no lists", maststep_parity_finish(NULL, 0, NULL, 0), packed(12, 0));
    for (i = 0; i < PARITY; i++) {
        state[i] = 512;
        refuses_finish("no symbol in the register", 20, 45, PARITY);
        state[i] = 511;
    }
    same("just enough room", maststep_parity_finish(state, 45, parity, PARITY), packed(0x84, PARITY));
    same("finished twice", maststep_parity_finish(state, 45, parity, PARITY), packed(0x84, PARITY));
    same("the register of a state that no call has made", parity[43], 511);
    for (i = 0; i < 1000; i++) {
        state[COUNT_AT] = (uint16_t)i;
        if (i != 406) refuses_finish("another count", 21, 45, PARITY);
    }
    state[0] = 512;
    refuses_finish("another count, no symbol in the register", 21, 45, PARITY);
}

/* ---- P1-P14 */

/* A page written into the list from its first entry on: the time from the first reading to the last. */
static uint64_t time_of_page(uint64_t readings)
{
    return (uint32_t)(list[readings - 1] - list[0]);
}

/* The zero page at high speed from P5's first reading on, read with another second reading. */
static void reads_with_second(const char *what, uint32_t second, uint64_t answer)
{
    size_t next;

    list[1] = second;
    same(what, maststep_read(list, 81, 0, 0, &next), answer);
}

/*
 * The scope's single table, through the functions of the header, in its order. P5 is a time, which no
 * function answers; reading shows it. At high speed a gap of 21 to 39 ns is one position, so the time
 * between the two readings is 30 if the second may be 9 ns earlier or later, and not 10.
 */
static void test_table_of_01(void)
{
    const uint32_t earlier = UINT32_C(4294967290), later = 24;

    same("P1", maststep_check(0), packed(0x84, 0));
    same("P2", maststep_check(UINT64_C(1) << 47), packed(0x84, 0x8005));
    same("P3", maststep_check(UINT64_C(1) << 46), packed(0x84, 0x800f));
    same("P4", maststep_check(UINT64_C(1) << 45), packed(0x84, 0x801b));

    same("P6, edges", maststep_write(list, ENTRIES, 0, 0, 0, earlier), packed(0x84, 81));
    same("P6, time", time_of_page(81), 4680);
    same("P5, first reading", list[0], earlier);
    same("P5, second reading", list[1], later);
    reads_with_second("P5, time 30", later, packed(0x80, 0));
    reads_with_second("P5, time 21", later - 9, packed(0x80, 0));
    reads_with_second("P5, time 39", later + 9, packed(0x80, 0));
    reads_with_second("P5, time 20", later - 10, packed(1, 0));
    reads_with_second("P5, time 40", later + 10, packed(1, 0));

    same("P7, edges", maststep_write(list, ENTRIES, 0, 1, 0, earlier), packed(0x84, 86));
    same("P7, time", time_of_page(86), 124800);
    same("P8", maststep_write(list, ENTRIES, 0, 0, UINT64_C(1) << 47, earlier), packed(0x84, 85));

    same("P9", maststep_resolve(0x850001, 0xA90001), settled(2, 0));
    same("P10", maststep_resolve(0x851001, 0xA91001), packed(9, 0));
    same("P11", maststep_resolve(0x951001, 0xA90001), settled(2, 1));
    same("P12", maststep_resolve(0x850001, 0x850001), packed(5, 0));
    same("P13", maststep_resolve(0x450001, 0xA90001), packed(8, 0));

    fresh_run(earlier);
    reads_register(513, 0x0008);
    runs("P14", 3, 1, packed(0x84, 1));
}

/* After all other tests: the two calls that have numbers of their own have gone no deeper than these, and somewhere. */
static void test_stack(void)
{
#ifdef ON_PAINTED_STACK
    printf("the deepest of maststep_messages used %u bytes of stack, of maststep_parity_take %u\n",
           (unsigned)deepest_of_messages, (unsigned)deepest_of_take);
    same("a call deeper than MASTSTEP_MOST_STACK_OF_MESSAGES", deepest_of_messages > MASTSTEP_MOST_STACK_OF_MESSAGES, 0);
    same("no return address of maststep_messages on the stack", deepest_of_messages < 8, 0);
    same("a call deeper than MASTSTEP_MOST_STACK_OF_PARITY_TAKE", deepest_of_take > MASTSTEP_MOST_STACK_OF_PARITY_TAKE, 0);
    same("no return address of maststep_parity_take on the stack", deepest_of_take < 8, 0);
#endif
}

int main(void)
{
    begin_checks();
    test_header();
    test_names_of_events_and_registers();
    test_names_of_a_word();
    test_settled_taken_apart();
    test_check();
    test_other_side();
    test_resolve_refusals();
    test_rates();
    test_roles();
    test_judge();
    test_pages();
    test_places();
    test_refusals();
    test_read_back();
    test_ends();
    test_gaps();
    test_damaged();
    test_dropping();
    test_glued();
    test_nothing_and_refusals();
    test_run_of_a_fresh_device();
    test_run_room();
    test_run_without_lists();
    test_run_registers();
    test_run_to_link_up();
    test_run_third_sent();
    test_run_next_pages();
    test_run_null_message();
    test_run_loaded();
    test_run_loaded_late();
    test_run_toggle();
    test_run_changed_next_page();
    test_run_lost();
    test_messages_of_a_head();
    test_messages_in_order();
    test_messages_of_64_pages();
    test_bits_of_a_page();
    test_messages_without_lists();
    test_messages_length();
    test_messages_wide();
    test_messages_unformatted_first();
    test_parity_vectors();
    test_parity_of_frames();
    test_parity_take_refusals();
    test_parity_finish_refusals();
    test_table_of_01();
    test_stack();
    return end_checks();
}
