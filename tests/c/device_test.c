/*
 * Devices that C keeps, at work: a controller at the left end of a line and heads that come and go at the right one, all
 * through maststep_fresh and the functions of the header for each event (two_ends.h). They settle, exchange Next Pages
 * and link up, heads are swapped, and what a module says of a head never comes from the head before it. At the end of
 * each life the same events are given to maststep_run, which must answer each of them as the device has.
 *
 * What is expected here is written out from the scope and its amendments.
 */
#include "two_ends.h"

/* What modules advertise: rates by their bits, D21 and up, and a forced role, D12 with T4, D20. */
#define A_100 (UINT64_C(1) << 21)
#define A_1000 (UINT64_C(1) << 23)
#define A_T1L (UINT64_C(1) << 30)
#define FORCED_SLAVE UINT64_C(0x001000)
#define FORCED_MASTER UINT64_C(0x101000)
#define REMOTE_FAULT UINT64_C(0x002000)

/* NP, D15, is one in all pages of a module but the last. The device sets Ack and toggle, whatever is loaded. */
static struct module controller = {A_1000 | A_100, 2, {UINT64_C(0x11110000a005), UINT64_C(0x222211110123)}};
static const struct module first_head = {A_1000 | A_100, 3, {UINT64_C(0x00000009a006), UINT64_C(0x342d424d8045), UINT64_C(0x003731200030)}};
static const struct module second_head = {A_100 | FORCED_SLAVE, 2, {UINT64_C(0x00000005a006), UINT64_C(0x372d424d0045)}};
static const struct module slow_head = {A_T1L, 0, {0}};
static const struct module plain_head = {A_1000 | REMOTE_FAULT, 0, {0}};
static const struct module masterly_head = {A_1000 | FORCED_MASTER, 0, {0}};

static uint64_t settled(uint64_t ability, int is_master)
{
    return packed(0x82, ability + 256 * (uint64_t)is_master);
}

static uint64_t nonce(uint64_t base)
{
    return base >> 16 & 31;
}

static uint64_t echo(uint64_t base)
{
    return base >> 5 & 31;
}

/* A head is put in at the right; left's host learns of no change until its link goes down. */
static void puts_in(const struct module *head, uint32_t clock)
{
    is_put_in(&right, head, clock);
    right.partner = left.module;
}

/* The head is swapped while the link is up: left notices that a third of a millisecond later. */
static void swaps_for(const struct module *head, uint32_t clock)
{
    is_taken_out();
    left.is_up_due = 0;
    left.due[LINK_CHANGES] = now + 300000;
    left.settled = right.settled = 0;
    puts_in(head, clock);
}

/* Each end has heard the other's base page, with its own nonce as the echo. */
static void have_heard_each_other(void)
{
    const uint64_t of_right = word_at(&left, MASTSTEP_PARTNER_LOW), of_left = word_at(&right, MASTSTEP_PARTNER_LOW);

    same("right's base page, as left has it", of_right | NOT_ADVERTISED, right.module->advertised | NOT_ADVERTISED);
    same("left's base page, as right has it", of_left | NOT_ADVERTISED, left.module->advertised | NOT_ADVERTISED);
    same("right's echo", echo(of_right), nonce(of_left));
    same("left's echo", echo(of_left), nonce(of_right));
    same("right's Ack", of_right >> 14 & 1, 1);
    same("left's Ack", of_left >> 14 & 1, 1);
}

/* Whether left has the higher nonce, and so is master where no role is forced. */
static int is_left_higher(void)
{
    return nonce(word_at(&right, MASTSTEP_PARTNER_LOW)) > nonce(word_at(&left, MASTSTEP_PARTNER_LOW));
}

/* Both ends have come to this rate, left in this role and right in the other, and the link is up at both. */
static void have_linked_up(uint64_t ability, int is_left_master)
{
    have_heard_each_other();
    same("left's rate and role", left.settled, settled(ability, is_left_master));
    same("right's rate and role", right.settled, settled(ability, !is_left_master));
    same("left is up", gives(&left, MASTSTEP_EVENT_READ, MASTSTEP_STATUS) & 0x28, 0x28);
    same("right is up", gives(&right, MASTSTEP_EVENT_READ, MASTSTEP_STATUS) & 0x28, 0x28);
    same("left's latch, at its second read", gives(&left, MASTSTEP_EVENT_READ, MASTSTEP_STATUS), packed(0x83, 0x2c));
    same("pages at left that its partner has not said", left.foreign, 0);
    same("pages at right that its partner has not said", right.foreign, 0);
}

/* The host of an end has read all Next Pages of the other one, each once, then Null messages up to this count. */
static void has_heard_pages(const char *whose, const struct end *end, const struct module *of, size_t count)
{
    const uint64_t toggle = UINT64_C(1) << MASTSTEP_FIELD_TOGGLE;
    size_t i;

    same(whose, end->pages_heard, count);
    for (i = 0; i < end->pages_heard; i++) {
        const uint64_t said = i < of->pages ? of->page[i] : NULL_MESSAGE;

        same(whose, end->heard[i] & ~ACK_AND_TOGGLE, said & ~ACK_AND_TOGGLE);
        same("the toggle of a Next Page", (end->heard[i] & toggle) != 0, i % 2 == 0);
    }
}

/* Ends before they are enabled: Off. */
static void test_refusals_in_off(void)
{
    maststep_device device;

    memset(&device, 0xff, sizeof device);
    maststep_fresh(&device);
    same("a fresh device's status, which is P14", stepped(&device, MASTSTEP_EVENT_READ, 5, 513), packed(0x83, 8));
    same("page sent in Off", stepped(&device, MASTSTEP_EVENT_SENT, 5, 0), packed(11, 0));
    same("a tick in Off", stepped(&device, MASTSTEP_EVENT_TICK, 5, 3), 0);
    same("register 511", stepped(&device, MASTSTEP_EVENT_READ, 5, 511), packed(10, 0));
    same("register 526", stepped(&device, MASTSTEP_EVENT_READ, 5, 526), packed(10, 0));
    same("register 526 written", stepped(&device, MASTSTEP_EVENT_WRITE, 5, UINT64_C(526) * 65536), packed(10, 0));
    same("an event of no kind", maststep_step(&device, 6, 5, UINT64_C(512) * 65536 + 0x1000), 0);
    same("an event of the largest kind", maststep_step(&device, UINT64_MAX, 5, UINT64_C(512) * 65536 + 0x1000), 0);
    same("it is still Off", stepped(&device, MASTSTEP_EVENT_READ, 5, 512), packed(0x83, 0));
}

/* Both have Next Pages, the head one more; right's clock rolls over when the base pages are on their way. */
static void test_first_head(void)
{
    is_put_in(&left, &controller, UINT32_C(0x10000000));
    left.partner = &first_head;
    goes_on_for(200000);
    same("page sent in Break", gives(&left, MASTSTEP_EVENT_SENT, 0), packed(11, 0));
    puts_in(&first_head, UINT32_MAX - 9 * PER_MS);
    goes_on_for(40 * PER_MS);
    have_linked_up(MASTSTEP_ABILITY_1000BASE_T1, is_left_higher());
    has_heard_pages("pages of the first head", &left, &first_head, 3);
    has_heard_pages("pages of the controller", &right, &controller, 3);
    same("right's clock rolled over", right.rollovers, 1);
    same("left's clock rolled over", left.rollovers, 0);
}

/* Other pages, one rate only, and the role of a slave: nothing of the head before is seen once left's link is down. */
static void test_second_head(void)
{
    swaps_for(&second_head, 77);
    goes_on_for(400000);
    same("left's link is down", gives(&left, MASTSTEP_EVENT_READ, MASTSTEP_STATUS) & 0x24, 0);
    same("nothing of the first head in 517 to 519", word_at(&left, MASTSTEP_PARTNER_LOW), 0);
    same("nothing of the first head in 523 to 525", word_at(&left, MASTSTEP_HEARD_LOW), 0);
    goes_on_for(40 * PER_MS);
    have_linked_up(MASTSTEP_ABILITY_100BASE_T1, 1);
    has_heard_pages("pages of the second head", &left, &second_head, 2);
    has_heard_pages("pages of the controller again", &right, &controller, 2);
}

/* No rate in common: both ends are refused, a link report is ignored, and the inhibit timer leads to Break. */
static void test_head_without_a_rate(void)
{
    controller.pages = 0;
    swaps_for(&slow_head, 123456789);
    goes_on_for(20 * PER_MS);
    have_heard_each_other();
    same("left has no rate", left.settled, packed(8, 0));
    same("right has no rate", right.settled, packed(8, 0));
    same("a link report without a rate", gives(&left, MASTSTEP_EVENT_REPORT, 1), 0);
    same("left is not up", gives(&left, MASTSTEP_EVENT_READ, MASTSTEP_STATUS) & 0x20, 0);
    is_taken_out();
    left.refused[MASTSTEP_NONE] = 0;
    goes_on_for(100 * PER_MS);
    same("left has begun anew", word_at(&left, MASTSTEP_PARTNER_LOW), 0);
    same("left is silent about it", left.refused[MASTSTEP_NONE], 0);
}

/* The wire loses the transition at this position of right's pages until left refuses one with this number. */
static void loses_until(size_t position, unsigned refusal)
{
    while (left.refused[refusal] == 0) {
        right.lost_position = position;
        goes_on();
    }
    right.lost_position = 0;
}

/* Both draw the same nonce once; the wire then loses a clock transition, and a data transition of a page after it. */
static void test_head_with_the_same_nonce(void)
{
    puts_in(&plain_head, UINT32_C(0xfff00000));
    left.partner = &plain_head;
    left.settled = 0;
    goes_on_for(200000);
    writes(&left, MASTSTEP_CONTROL, MASTSTEP_CONTROL_ENABLE | MASTSTEP_CONTROL_RESTART);
    left.fixed_draw = right.fixed_draw = 9;
    while (left.refused[MASTSTEP_TIE] + right.refused[MASTSTEP_TIE] == 0) goes_on();
    left.fixed_draw = right.fixed_draw = 32;
    loses_until(27, MASTSTEP_GAP);
    loses_until(28, MASTSTEP_CHECK);
    goes_on_for(40 * PER_MS);
    have_linked_up(MASTSTEP_ABILITY_1000BASE_T1, is_left_higher());
    same("one Tie", left.refused[MASTSTEP_TIE] + right.refused[MASTSTEP_TIE], 1);
    same("one Gap", left.refused[MASTSTEP_GAP], 1);
    same("one Check", left.refused[MASTSTEP_CHECK], 1);
}

/*
 * A head is taken out inside of its second page. The next one's first edge ends that attempt, and its page is not the
 * held one. The two may then send each other to Break in turn for a while (docs/INTEGRATING.md, "How often to tick").
 */
static void test_head_pulled_out_inside_a_page(void)
{
    swaps_for(&first_head, 5);
    goes_on_to_a_page();
    goes_on_inside_a_page(30);
    is_taken_out();
    left.partner = &second_head;
    puts_in(&second_head, 6);
    goes_on_to_the_end();
    goes_on_for(3 * PER_MS);
    have_linked_up(MASTSTEP_ABILITY_100BASE_T1, 1);
    same("one Cut", left.refused[MASTSTEP_CUT], 1);
    same("no Changed", left.refused[MASTSTEP_CHANGED] == 0, 0);
    has_heard_pages("pages of the second head, once more", &left, &second_head, 2);
}

/* Both insist on being master. Left's advertisement is written anew, and taken when it begins anew. */
static void test_head_of_the_same_role(void)
{
    controller.advertised = A_1000 | A_100 | FORCED_MASTER;
    writes(&left, MASTSTEP_ADVERTISED_LOW, controller.advertised & 0xffff);
    writes(&left, MASTSTEP_ADVERTISED_MIDDLE, controller.advertised >> 16 & 0xffff);
    swaps_for(&masterly_head, UINT32_C(0x80000000));
    goes_on_for(60 * PER_MS);
    have_heard_each_other();
    same("left insists", left.settled, packed(9, 0));
    same("right insists", right.settled, packed(9, 0));
}

int main(void)
{
    begin_checks();
    begins_line();
    test_refusals_in_off();
    test_first_head();
    test_second_head();
    test_head_without_a_rate();
    test_head_with_the_same_nonce();
    test_head_pulled_out_inside_a_page();
    test_head_of_the_same_role();
    lives_as_run("the life of the last head", right.life);
    lives_as_run("the life of the controller's end", left.life);
    printf("left had %u events\n", (unsigned)left.life->events);
    return end_checks();
}
