/*
 * Records of a device with any bytes. The header says what each number of a record means, at any content; plain() here
 * is that said once more, as the one plain record that means the same. Any record and its plain one must be answered
 * alike at every event, and what is left of both must mean the same.
 *
 * Records are taken from a life that meets every kind of answer and has bytes of them changed, or are made by chance
 * altogether. The chance is the same in every run, and what it has met is counted.
 */
#include "checks.h"

enum { MOST_MOMENTS = 6000, KINDS = 256 };
#ifdef ON_PAINTED_STACK
enum { ROUNDS = 5000 };
#else
enum { ROUNDS = 200000 };
#endif

/* A record as a device had it, and the event that came then. */
struct moment {
    maststep_device device;
    uint64_t kind, clock, argument;
};

static struct moment moments[MOST_MOMENTS];
static size_t moments_met;
static unsigned answered[KINDS];

/* Numbers by chance (splitmix, by Steele, Lea and Flood). */
static uint64_t by_chance(void)
{
    static uint64_t state = 14;
    uint64_t mixed = state += UINT64_C(0x9e3779b97f4a7c15);

    mixed = (mixed ^ mixed >> 30) * UINT64_C(0xbf58476d1ce4e5b9);
    mixed = (mixed ^ mixed >> 27) * UINT64_C(0x94d049bb133111eb);
    return mixed ^ mixed >> 31;
}

static size_t below(size_t limit)
{
    return (size_t)(by_chance() % limit);
}

/* ---- what a record means */

static uint8_t yes_or_no(uint8_t byte)
{
    return byte != 0;
}

/* Whether there is a refusal of this number. */
static int is_refusal(uint8_t number)
{
    return (number >= 1 && number <= 15) || number == 17 || number == 20 || number == 21 || number == 24 || number == 25;
}

/* A fresh reader has met no edge; one that drops edges has no attempt, and knows its last edge only. */
static void make_reader_plain(maststep_device *device)
{
    if (device->reader > 1) device->reader = 2;
    if (device->reader == 0) device->last = 0;
    if (device->reader != 1) {
        device->position = 0;
        device->bits = 0;
    }
}

/* Only what is settled has a rate and a role; a refusal of no known number is the first one. */
static void make_outcome_plain(maststep_device *device)
{
    if (device->outcome == 0x82) {
        device->is_master = yes_or_no(device->is_master);
        return;
    }
    device->ability = 0;
    device->is_master = 0;
    if (device->outcome != 0 && !is_refusal(device->outcome)) device->outcome = 1;
}

/* The plain record that means the same. */
static maststep_device plain(maststep_device device)
{
    make_reader_plain(&device);
    make_outcome_plain(&device);
    if (device.state > 6) device.state = 0;
    if (device.round > 1) device.round = 2;
    device.is_out = yes_or_no(device.is_out);
    device.is_heard = yes_or_no(device.is_heard);
    device.is_loaded = yes_or_no(device.is_loaded);
    device.is_latched = yes_or_no(device.is_latched);
    device.is_received = yes_or_no(device.is_received);
    device.is_fault = yes_or_no(device.is_fault);
    return device;
}

/* An event at a record and at its plain one: the same answer, and what is left means the same. Whether that is so. */
static int means_the_same(maststep_device device, uint64_t kind, uint64_t clock, uint64_t argument)
{
    maststep_device other = plain(device);
    const uint64_t answer = maststep_step(&device, kind, clock, argument);
    const uint64_t expected = maststep_step(&other, kind, clock, argument);

    answered[maststep_kind(answer)]++;
    device = plain(device);
    other = plain(other);
    return answer == expected && are_alike(&device, &other);
}

/* Tells of a record, byte by byte, at which an event was answered otherwise. */
static void tell(const maststep_device *device, uint64_t kind, uint64_t clock, uint64_t argument)
{
    const unsigned char *bytes = (const unsigned char *)device;
    size_t i;

    printf("event %llu at %llu with %llu on", (unsigned long long)kind, (unsigned long long)clock, (unsigned long long)argument);
    for (i = 0; i < sizeof *device; i++) printf(" %02x", bytes[i]);
    printf("\n");
}

/* The same as a check: only the first record that fails is told. */
static unsigned takes(const maststep_device *device, uint64_t kind, uint64_t clock, uint64_t argument)
{
    static int is_told;

    if (means_the_same(*device, kind, clock, argument)) return 0;
    if (!is_told) tell(device, kind, clock, argument);
    is_told = 1;
    return 1;
}

/* ---- a life that meets every kind of answer */

static maststep_device living;
static uint32_t now;

/* The next event of the life; the moment before it is kept. */
static uint64_t event(uint64_t kind, uint64_t argument)
{
    const struct moment moment = {living, kind, now, argument};

    if (moments_met < MOST_MOMENTS) moments[moments_met++] = moment;
    return maststep_step(&living, kind, now, argument);
}

static void writes(uint64_t number, uint64_t value)
{
    event(MASTSTEP_EVENT_WRITE, number * 65536 + value);
}

/* A page arrives; where a position is named, the transition there is lost. */
static void hears_without(uint64_t word, uint32_t lost)
{
    uint32_t readings[MASTSTEP_MOST_READINGS];
    const size_t count = (size_t)maststep_value(maststep_write(readings, MASTSTEP_MOST_READINGS, 0, 1, word, now));
    const uint32_t begin = now;
    size_t i;

    for (i = 0; i < count; i++) {
        if ((uint32_t)(readings[i] - begin) == 800 * (lost - 1)) continue;
        now = readings[i];
        event(MASTSTEP_EVENT_EDGE, 0);
    }
    now += 40000;
}

static void hears(uint64_t word)
{
    hears_without(word, 0);
}

/* A page is ordered after so many ns, and sent. */
static void sends_after(uint32_t wait)
{
    now += wait;
    event(MASTSTEP_EVENT_TICK, 5);
    now += 124800;
    event(MASTSTEP_EVENT_SENT, 0);
}

/* From Off or anywhere to Ability, with this advertised and the nonce 5; a Next Page is loaded if there is one. */
static void begins(uint64_t advertised, uint64_t next_page)
{
    writes(514, advertised & 0xffff);
    writes(515, advertised >> 16);
    writes(512, 0x1200);
    if (next_page != 0) {
        writes(521, next_page >> 16 & 0xffff);
        writes(520, next_page & 0xffff);
    }
    now += 8000000;
    event(MASTSTEP_EVENT_TICK, 5);
    sends_after(350000);
}

/* The partner's base page is heard twice, with Ack and the own nonce the second time; three pages are sent in Complete. */
static void goes_through_base_pages(uint64_t partner)
{
    hears(partner);
    sends_after(33000);
    hears(partner + 0x4000 + (5 << 5));
    sends_after(33000);
    sends_after(350000);
    sends_after(350000);
}

static void goes_through_next_pages(uint64_t heard)
{
    hears(heard);
    sends_after(33000);
    hears(heard + 0x4000);
    sends_after(33000);
    sends_after(350000);
    sends_after(350000);
}

static void reads_all(void)
{
    uint64_t number;

    for (number = 511; number < 527; number++) event(MASTSTEP_EVENT_READ, number);
}

/* Up, by way of two Next Pages, and down again. */
static void lives_to_link_up(void)
{
    begins(0x800000, 0x1234a005);
    goes_through_base_pages(0xa92001);
    goes_through_next_pages(0x2801);
    writes(521, 0x4321);
    writes(520, 0x0107);
    sends_after(350000);
    goes_through_next_pages(0x2001);
    event(MASTSTEP_EVENT_REPORT, 1);
    reads_all();
    reads_all();
    event(MASTSTEP_EVENT_REPORT, 0);
    reads_all();
}

/* Each refusal of an edge, and the page that goes before it. */
static void lives_through_refusals(void)
{
    begins(0x800000, 0);
    hears_without(0xa90001, 27); /* Gap */
    hears_without(0xa90001, 28); /* Check */
    event(MASTSTEP_EVENT_EDGE, 0);
    now += 40000;
    hears(0xa90002); /* Cut at its first edge, Selector at its last */
    hears(0x850001); /* Tie */
    begins(0x800000, 0);
    hears(0xa90001);
    hears(0xaa0001); /* Changed */
    begins(0x800000, 0);
    hears(0xa90001);
    hears(0xa94001 + (6 << 5)); /* Echo */
    begins(0x800000, 0x1234a005);
    goes_through_base_pages(0xa90001);
    hears(0x2001); /* Toggle */
    begins(0x800000, 0x1234a005);
    goes_through_base_pages(0xa90001);
    hears(0x2801);
    now += 4000000;
    event(MASTSTEP_EVENT_TICK, 7); /* lost */
}

/* Each refusal of page sent, and each inhibit time. */
static void lives_through_ends(void)
{
    static const uint64_t rates[] = {UINT64_C(1) << 23, UINT64_C(1) << 22, UINT64_C(1) << 30, UINT64_C(1) << 43};
    size_t i;

    event(MASTSTEP_EVENT_SENT, 0); /* Turn */
    begins(0x800000, 0);
    goes_through_base_pages(0x490001); /* None */
    begins(0x801000, 0);
    goes_through_base_pages(0x891001); /* Roles */
    for (i = 0; i < sizeof rates / sizeof rates[0]; i++) {
        writes(516, rates[i] >> 32);
        begins(rates[i], 0);
        goes_through_base_pages(rates[i] + 0x90001);
        now += 97500000;
        event(MASTSTEP_EVENT_TICK, 1);
        now += 304500000;
        event(MASTSTEP_EVENT_TICK, 1);
    }
}

static void live(void)
{
    maststep_fresh(&living);
    now = UINT32_MAX - 12000000;
    reads_all();
    lives_to_link_up();
    lives_through_refusals();
    lives_through_ends();
    same("moments that were left out", moments_met == MOST_MOMENTS, 0);
}

/* ---- records of any bytes */

/* A device of these bytes, all the same. */
static maststep_device all_of(int byte)
{
    maststep_device device;

    memset(&device, byte, sizeof device);
    return device;
}

/* Times that the device looks at, and those beside them. */
static uint32_t a_time(void)
{
    static const uint32_t times[] = {0, 800, 1600, 2400, 3200, 3440, 33000, 350000, 4000000, 8000000, 97500000, 402000000, UINT32_C(3060000000)};

    return times[below(sizeof times / sizeof times[0])] + (uint32_t)below(3) - 1;
}

/* An event of any kind, at a time that is one of the device's own from one of its readings on, or any time. */
static struct moment an_event_for(maststep_device device)
{
    const uint32_t readings[] = {device.last, device.mark, device.timer, device.good, (uint32_t)by_chance()};
    struct moment moment = {device, by_chance() % 7, readings[below(5)] + a_time(), by_chance()};

    if (moment.kind == MASTSTEP_EVENT_READ) moment.argument = 510 + below(18);
    if (moment.kind == MASTSTEP_EVENT_WRITE) moment.argument = (511 + below(16)) * 65536 + below(65536);
    if (below(8) == 0) moment.clock += by_chance() << 32;
    return moment;
}

/* Bytes by chance, but for some that are small, so that states and readers of every kind come up. */
static maststep_device any_bytes(void)
{
    maststep_device device;
    unsigned char *bytes = (unsigned char *)&device;
    size_t i;

    for (i = 0; i < sizeof device; i++) bytes[i] = (unsigned char)by_chance();
    if (below(2) == 0) device.state = (uint8_t)below(9);
    if (below(2) == 0) device.reader = (uint8_t)below(3);
    if (below(2) == 0) device.position = (uint32_t)below(160);
    if (below(2) == 0) device.round = (uint8_t)below(4);
    if (below(2) == 0) device.is_out = 0;
    if (below(4) == 0) device.outcome = 0x82;
    if (below(4) == 0) device.count = (uint32_t)below(5);
    return device;
}

/* Every moment of the life, as it was: these alone meet each kind of answer but Wide. */
static void test_sound_records(void)
{
    unsigned wrong = 0;
    size_t i;

    for (i = 0; i < moments_met; i++) wrong += takes(&moments[i].device, moments[i].kind, moments[i].clock, moments[i].argument);
    same("sound records that are taken otherwise", wrong, 0);
}

static void test_all_bytes_the_same(void)
{
    unsigned wrong = 0;
    size_t i;

    for (i = 0; i < 256 * 200; i++) {
        const struct moment moment = an_event_for(all_of((int)(i % 256)));

        wrong += takes(&moment.device, moment.kind, moment.clock, moment.argument);
    }
    same("records of one byte that are taken otherwise", wrong, 0);
}

static void test_any_bytes(void)
{
    unsigned wrong = 0;
    size_t i;

    for (i = 0; i < ROUNDS; i++) {
        const struct moment moment = an_event_for(any_bytes());

        wrong += takes(&moment.device, moment.kind, moment.clock, moment.argument);
    }
    same("records of any bytes that are taken otherwise", wrong, 0);
}

/* One to four bytes of a device become others by chance. */
static void change_bytes(maststep_device *device)
{
    size_t changes;

    for (changes = below(4) + 1; changes > 0; changes--) ((unsigned char *)device)[below(sizeof *device)] = (unsigned char)by_chance();
}

/* Records of the life with some of their bytes changed; half of them get the event that came then. */
static void test_changed_bytes(void)
{
    unsigned wrong = 0;
    size_t i;

    for (i = 0; i < 4 * ROUNDS; i++) {
        struct moment moment = moments[below(moments_met)];

        change_bytes(&moment.device);
        if (below(2) == 0) moment = an_event_for(moment.device);
        wrong += takes(&moment.device, moment.kind, moment.clock, moment.argument);
    }
    same("records with changed bytes that are taken otherwise", wrong, 0);
}

/* A moment with each of its bytes changed to each odd one, one at a time. How often it is taken otherwise. */
static unsigned takes_odd_bytes(const struct moment *moment)
{
    static const unsigned char odd[] = {0, 1, 2, 3, 7, 8, 16, 0x80, 0x81, 0x82, 0xff};
    unsigned wrong = 0;
    size_t i;

    for (i = 0; i < sizeof odd * sizeof moment->device; i++) {
        maststep_device device = moment->device;

        ((unsigned char *)&device)[i / sizeof odd] = odd[i % sizeof odd];
        wrong += takes(&device, moment->kind, moment->clock, moment->argument);
    }
    return wrong;
}

static void test_odd_bytes(void)
{
    unsigned wrong = 0;
    size_t i;

    for (i = 0; i < moments_met; i += 1 + below(60)) wrong += takes_odd_bytes(&moments[i]);
    same("records with an odd byte that are taken otherwise", wrong, 0);
}

/* Every answer that an event can get was met, by each kind of record above together. */
static void test_answers_met(void)
{
    static const uint8_t kinds[] = {0, 1, 2, 3, 4, 5, 6, 7, 8, 9, 10, 11, 13, 17, 0x80, 0x81, 0x82, 0x83};
    size_t i;

    for (i = 0; i < sizeof kinds; i++) {
        char what[64];

        snprintf(what, sizeof what, "answers of kind %u were met", kinds[i]);
        same(what, answered[kinds[i]] > 0, 1);
    }
}

int main(void)
{
    begin_checks();
    live();
    test_sound_records();
    test_all_bytes_the_same();
    test_any_bytes();
    test_changed_bytes();
    test_odd_bytes();
    test_answers_met();
    return end_checks();
}
