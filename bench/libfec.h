/*
 * libfec's encoder as one more side of the parity, where the bench is linked with libfec (WITH_LIBFEC). Where it is not,
 * there is no such side, and a comparison with it finds nothing wrong.
 */
#ifndef BENCH_LIBFEC_H
#define BENCH_LIBFEC_H

#include <stdio.h>

#include "common.h"
#include "parity_calls.h"

/* The fixed frames on which all sides are measured. */
enum { FRAMES = 8 };

/* The sides by their numbers: maststep and plain Rust are 0 and 1, as in calls. */
enum { LIBFEC = 2 };

#ifdef WITH_LIBFEC
/* As in libfec's own header, so that of its package only the archive is needed, which is that of x86-64 on any processor. */
void *init_rs_int(int symbol_bits, int field, int first_root, int root_step, int roots, int symbols_left_out);
void encode_rs_int(void *code, unsigned *data, unsigned *parity);

enum { SIDES = LIBFEC + 1 };

/* libfec's symbols are ints, so it has its own copy of the frames, made before anything is measured. */
static unsigned wide_frames[FRAMES][DATA], wide_parity[PARITY];
static void *code;

static void widen(unsigned *wide, const uint16_t *data)
{
    unsigned i;

    for (i = 0; i < DATA; i++) wide[i] = data[i];
}

static void prepare_libfec(uint16_t frames[FRAMES][DATA])
{
    unsigned frame;

    code = init_rs_int(9, 0x211, 0, 1, PARITY, SYMBOLS - 1 - PARITY - DATA);
    for (frame = 0; frame < FRAMES; frame++) widen(wide_frames[frame], frames[frame]);
}

/* The parity of a fixed frame: tells the sum of two of its symbols. */
PART_OF_MAIN uint64_t encode_by_libfec(unsigned frame)
{
    encode_rs_int(code, wide_frames[frame], wide_parity);
    return (uint64_t)wide_parity[0] + wide_parity[PARITY - 1];
}

/* Holds the parity symbols that the other sides have given of a frame to libfec's. */
static int same_by_libfec(unsigned long number, const uint16_t *data, const uint16_t *parity)
{
    static unsigned wide[DATA];
    unsigned i;

    widen(wide, data);
    encode_rs_int(code, wide, wide_parity);
    for (i = 0; i < PARITY; i++) {
        if (parity[i] == wide_parity[i]) continue;
        printf("frame %lu, parity symbol %u: %03x, by libfec %03x\n", number, i, parity[i], wide_parity[i]);
        return 0;
    }
    return 1;
}
#else
enum { SIDES = LIBFEC };

static void prepare_libfec(uint16_t frames[FRAMES][DATA])
{
    (void)frames;
}

PART_OF_MAIN uint64_t encode_by_libfec(unsigned frame)
{
    return frame;
}

static int same_by_libfec(unsigned long number, const uint16_t *data, const uint16_t *parity)
{
    (void)number, (void)data, (void)parity;
    return 1;
}
#endif

#endif
