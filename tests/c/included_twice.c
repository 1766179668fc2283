/*
 * The header as a file includes it, twice, in C and in C++: it is compiled and not run. Each of its functions that are
 * no calls of the library is used, and the fields of a device stand where the record of the library has them, whatever
 * the language and the compiler. (That the library has them there is what layout_test.c shows.)
 */
#include "maststep.h"
#include "maststep.h"

#if MASTSTEP_VERSION < 1
#error "no version"
#endif

#define IS_AT(field, place) typedef char field##_is_at_##place[offsetof(maststep_device, field) == place ? 1 : -1]

IS_AT(advertised, 0);
IS_AT(partner, 8);
IS_AT(transmit, 16);
IS_AT(heard, 24);
IS_AT(own_base, 32);
IS_AT(held_base, 40);
IS_AT(own_next, 48);
IS_AT(held_next, 56);
IS_AT(bits, 64);
IS_AT(last, 72);
IS_AT(position, 76);
IS_AT(mark, 80);
IS_AT(timer, 84);
IS_AT(good, 88);
IS_AT(count, 92);
IS_AT(reader, 96);
IS_AT(state, 97);
IS_AT(is_out, 98);
IS_AT(is_heard, 99);
IS_AT(round, 100);
IS_AT(is_loaded, 101);
IS_AT(is_latched, 102);
IS_AT(is_received, 103);
IS_AT(is_fault, 104);
IS_AT(outcome, 105);
IS_AT(ability, 106);
IS_AT(is_master, 107);

int main(void)
{
    maststep_device device;
    uint64_t answers;

    maststep_fresh(&device);
    answers = maststep_edge(&device, 1) + maststep_tick(&device, 2, 3) + maststep_sent(&device, 4) + maststep_report(&device, 5, 1);
    answers += maststep_register_read(&device, 6, MASTSTEP_STATUS) + maststep_register_write(&device, 7, MASTSTEP_CONTROL, 0);
    answers += maststep_value(maststep_kind(0)) + maststep_ability(0) + maststep_write_argument(MASTSTEP_CONTROL, 1) + maststep_word_of(1, 2, 3);
    return maststep_is_master(answers + maststep_ability_bit(MASTSTEP_ABILITY_10BASE_T1S_HALF));
}
