/*
 * How deep the stack of each call is. checks.h includes this where a test is compiled with ON_PAINTED_STACK:
 * from there on every call of the library is made on a stack of its own that has been painted, and the bytes
 * that have lost their paint tell how deep it went. A byte that a call sets aside and never writes is not seen,
 * unless one further down is written. The header's inline functions were compiled before and call the library as
 * ever, so a test that is to be measured makes the calls that they make.
 */
#ifndef PAINTED_STACK_H
#define PAINTED_STACK_H

#include <string.h>

/* Any function, as C lets one be handed on. */
typedef void (*function_of_any_kind)(void);

struct painted_call {
    function_of_any_kind function;
    unsigned char *top;
    uint64_t arguments[6];
};

/* Calls the function with its arguments on the stack that ends at top, and answers what it answers. */
uint64_t call_on_stack(const struct painted_call *call);

__asm__(".text\n"
        ".globl call_on_stack\n"
        "call_on_stack:\n"
        "    push %rbp\n"
        "    mov %rsp, %rbp\n"
        "    mov %rdi, %rax\n"
        "    mov 8(%rax), %rsp\n"
        "    mov 16(%rax), %rdi\n"
        "    mov 24(%rax), %rsi\n"
        "    mov 32(%rax), %rdx\n"
        "    mov 40(%rax), %rcx\n"
        "    mov 48(%rax), %r8\n"
        "    mov 56(%rax), %r9\n"
        "    call *(%rax)\n"
        "    mov %rbp, %rsp\n"
        "    pop %rbp\n"
        "    ret\n");

/* Far more than a call may use, so that one which uses too much is told and does no harm. */
enum { STACK_BYTES = 4 * MASTSTEP_MOST_STACK_OF_MESSAGES };
static _Alignas(16) unsigned char painted_stack[STACK_BYTES];

/* The most bytes that a call of the library has used so far: maststep_messages, maststep_parity_take, and any other. */
static size_t deepest_of_messages, deepest_of_take, deepest;

/* Which of these a call counts for. */
static size_t *deepest_of(function_of_any_kind function)
{
    if (function == (function_of_any_kind)maststep_messages) return &deepest_of_messages;
    if (function == (function_of_any_kind)maststep_parity_take) return &deepest_of_take;
    return &deepest;
}

/* The paint, as it is before a call. It is not the same for all bytes, so that a call does not write them by chance. */
static const unsigned char *paint(void)
{
    static unsigned char painted[STACK_BYTES];
    size_t place;

    if (painted[0] == 0)
        for (place = 0; place < STACK_BYTES; place++) painted[place] = (unsigned char)(place * 37 + 11);
    return painted;
}

/* Where the first row of bytes begins of which one has lost its paint: most rows have it, and are looked at as a whole. */
static size_t first_row_spoilt(void)
{
    enum { ROW = 64 };
    size_t place = 0;

    while (place < STACK_BYTES && memcmp(painted_stack + place, paint() + place, ROW) == 0) place += ROW;
    return place;
}

/* The place of the first byte that has lost its paint. */
static size_t first_spoilt(void)
{
    size_t place = first_row_spoilt();

    while (place < STACK_BYTES && painted_stack[place] == paint()[place]) place++;
    return place;
}

static uint64_t on_painted_stack(function_of_any_kind function, uint64_t a, uint64_t b, uint64_t c, uint64_t d, uint64_t e, uint64_t f)
{
    const struct painted_call call = {function, painted_stack + STACK_BYTES, {a, b, c, d, e, f}};
    size_t *most = deepest_of(function);
    uint64_t answer;

    memcpy(painted_stack, paint(), STACK_BYTES);
    answer = call_on_stack(&call);
    if (*most < STACK_BYTES - first_spoilt()) *most = STACK_BYTES - first_spoilt();
    return answer;
}

#define ON_STACK(name, a, b, c, d, e, f) on_painted_stack((function_of_any_kind)name, a, b, c, d, e, f)
#define ADDRESS(pointer) ((uint64_t)(uintptr_t)(pointer))

#define maststep_check(word) ON_STACK(maststep_check, word, 0, 0, 0, 0, 0)
#define maststep_resolve(own, partner) ON_STACK(maststep_resolve, own, partner, 0, 0, 0, 0)
#define maststep_judge(mode, gap) ON_STACK(maststep_judge, mode, gap, 0, 0, 0, 0)
#define maststep_write(list, length, place, mode, word, first) \
    ON_STACK(maststep_write, ADDRESS(list), length, place, mode, word, first)
#define maststep_read(list, length, place, mode, next) \
    ON_STACK(maststep_read, ADDRESS(list), length, place, mode, ADDRESS(next), 0)
#define maststep_run(events, cells, answers, room) \
    ON_STACK(maststep_run, ADDRESS(events), cells, ADDRESS(answers), room, 0, 0)
#define maststep_fresh(device) ((void)ON_STACK(maststep_fresh, ADDRESS(device), 0, 0, 0, 0, 0))
#define maststep_step(device, kind, clock, argument) \
    ON_STACK(maststep_step, ADDRESS(device), kind, clock, argument, 0, 0)
#define maststep_messages(pages, length, messages, room) \
    ON_STACK(maststep_messages, ADDRESS(pages), length, ADDRESS(messages), room, 0, 0)
#define maststep_parity_take(state, entries, burst, length) \
    ON_STACK(maststep_parity_take, ADDRESS(state), entries, ADDRESS(burst), length, 0, 0)
#define maststep_parity_finish(state, entries, parity, room) \
    ON_STACK(maststep_parity_finish, ADDRESS(state), entries, ADDRESS(parity), room, 0, 0)

#endif
