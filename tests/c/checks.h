/*
 * What the C tests share: they count checks, and tell what failed. A check that holds prints nothing. The last line of
 * a test is 'N passed, M failed', and its exit status is 1 where M is not 0.
 *
 * Where a test is compiled with ON_PAINTED_STACK, every call of the library is made on a painted stack.
 */
#ifndef CHECKS_H
#define CHECKS_H

#include <stdio.h>
#include <string.h>

#include "maststep.h"
#ifdef ON_PAINTED_STACK
#include "painted_stack.h"
#endif

static unsigned passed, failed;

/* Counts one check; where it fails, says which, with the two numbers that should be the same. */
static inline void same(const char *what, uint64_t got, uint64_t want)
{
    if (got == want) {
        passed++;
        return;
    }
    failed++;
    printf("%s: got %016llx, expected %016llx\n", what, (unsigned long long)got, (unsigned long long)want);
}

/* An answer as the interface packs it, put together here without the header's own functions. */
static inline uint64_t packed(uint64_t kind, uint64_t value)
{
    return kind * UINT64_C(0x0100000000000000) + value;
}

/* Whether two devices have the same numbers. The bytes behind the last of them belong to none, and may be anything. */
static inline int are_alike(const maststep_device *one, const maststep_device *other)
{
    return memcmp(one, other, offsetof(maststep_device, is_master) + 1) == 0;
}

/* Line by line, so that what failed is still shown if a later call crashes. */
static inline void begin_checks(void)
{
    setvbuf(stdout, NULL, _IOLBF, BUFSIZ);
}

/* After all other checks: no call has gone deeper than the header says, and one has gone somewhere. */
static inline void check_stack(void)
{
#ifdef ON_PAINTED_STACK
    printf("the deepest call used %u bytes of stack\n", (unsigned)deepest);
    same("a call deeper than MASTSTEP_MOST_STACK", deepest > MASTSTEP_MOST_STACK, 0);
    same("a call without a return address on the stack", deepest < 8, 0);
#endif
}

static inline int end_checks(void)
{
    check_stack();
    printf("%u passed, %u failed\n", passed, failed);
    return failed > 0;
}

#endif
