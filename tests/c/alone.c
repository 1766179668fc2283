/*
 * A program of the library and nothing else: no C library and no start-up code of one. It makes each call once.
 * Its exit status is 0 where all answer as they should, else the number of the first that does not.
 */
#include "maststep.h"

/* Where the program begins; begin() never comes back. */
void begin(void);
__asm__(".text\n"
        ".globl _start\n"
        "_start:\n"
        "    xor %ebp, %ebp\n"
        "    and $-16, %rsp\n"
        "    call begin\n");

/* Linux's call number 60 ends the program. */
static void leave(int status)
{
    for (;;) __asm__ volatile("syscall" : : "a"(60), "D"(status) : "rcx", "r11", "memory");
}

/* Leaves with this number unless the two are the same. */
static void same(int number, uint64_t got, uint64_t want)
{
    if (got != want) leave(number);
}

static uint64_t packed(uint64_t kind, uint64_t value)
{
    return kind * UINT64_C(0x0100000000000000) + value;
}

void begin(void)
{
    const uint64_t events[3] = {MASTSTEP_EVENT_READ, 0, MASTSTEP_STATUS}, page = MASTSTEP_NULL_MESSAGE;
    uint32_t list[MASTSTEP_MOST_READINGS];
    uint64_t answer, message[MASTSTEP_MESSAGE_CELLS];
    uint16_t state[MASTSTEP_STATE_ENTRIES] = {0}, parity[MASTSTEP_PARITY_SYMBOLS];
    const uint16_t symbol = 1;
    maststep_device device;
    size_t next;

    same(1, maststep_check(UINT64_C(1) << 47), packed(0x84, 0x8005));
    same(2, maststep_judge(MASTSTEP_HSM, 39), packed(0x84, 1));
    same(3, maststep_resolve(0x850001, 0xa90001), packed(0x82, 2));
    same(4, maststep_write(list, MASTSTEP_MOST_READINGS, 0, MASTSTEP_LSM, 0, 7), packed(0x84, 86));
    same(5, maststep_read(list, 86, 0, MASTSTEP_LSM, &next), packed(0x80, 0));
    same(6, maststep_run(events, 3, &answer, 1), packed(0x84, 1));
    same(7, answer, packed(0x83, 8));
    same(8, maststep_messages(&page, 1, message, MASTSTEP_MESSAGE_CELLS), packed(0x84, 1));
    same(9, message[0], 1);
    same(10, maststep_parity_take(state, MASTSTEP_STATE_ENTRIES, &symbol, 1), packed(0x84, 1));
    state[MASTSTEP_PARITY_SYMBOLS] = MASTSTEP_DATA_SYMBOLS;
    same(11, maststep_parity_finish(state, MASTSTEP_STATE_ENTRIES, parity, MASTSTEP_PARITY_SYMBOLS), packed(0x84, 44));
    same(12, parity[0], 208);
    maststep_fresh(&device);
    same(13, maststep_step(&device, MASTSTEP_EVENT_READ, 0, MASTSTEP_STATUS), packed(0x83, 8));
    leave(0);
}
