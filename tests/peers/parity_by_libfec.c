/* Parity symbols of 1000BASE-T1 frames by libfec (Debian's libfec-dev), for tests/peers/libfec.
 *
 *     parity_by_libfec encode     for each 406 data symbols a line with their 44 parity symbols
 *     parity_by_libfec decode     for each 450 symbols of a frame a line with the number of symbols that libfec
 *                                 changed, -1 where it found too many wrong, and the 450 symbols afterwards
 *
 * Symbols are decimal numbers on standard input and output. The exit status is 1 where the input is not such symbols or
 * does not end with a frame, or where libfec does not take the code.
 */
#include <fec.h>
#include <stdio.h>
#include <string.h>

/* The field is that of x^9 + x^4 + 1, and the generator's roots are alpha^0 to alpha^43. */
enum { SYMBOL_BITS = 9, FIELD = 0x211, FIRST_ROOT = 0, ROOT_STEP = 1, PARITY = 44 };
/* A whole code has 511 symbols, and is shortened to a frame. */
enum { DATA = 406, FRAME = DATA + PARITY, LEFT_OUT = 511 - FRAME };

/* Reads so many symbols: 1 if they are there, 0 at the end of the input, -1 if it is wrong. */
static int read_symbols(unsigned int *symbols, int number)
{
    for (int place = 0; place < number; place++) {
        int read = scanf("%u", &symbols[place]);
        if (read == EOF && place == 0)
            return 0;
        if (read != 1 || symbols[place] >> SYMBOL_BITS)
            return -1;
    }
    return 1;
}

static void write_symbols(const unsigned int *symbols, int number)
{
    for (int place = 0; place < number; place++)
        printf(place == 0 ? "%u" : " %u", symbols[place]);
    putchar('\n');
}

int main(int argument_count, char **arguments)
{
    int is_encoding = argument_count == 2 && strcmp(arguments[1], "encode") == 0;
    int is_decoding = argument_count == 2 && strcmp(arguments[1], "decode") == 0;
    void *code = init_rs_int(SYMBOL_BITS, FIELD, FIRST_ROOT, ROOT_STEP, PARITY, LEFT_OUT);
    unsigned int frame[FRAME];
    int read = -1;

    if (code == NULL || !(is_encoding || is_decoding))
        return 1;
    while ((read = read_symbols(frame, is_encoding ? DATA : FRAME)) == 1) {
        if (is_encoding) {
            encode_rs_int(code, frame, frame + DATA);
            write_symbols(frame + DATA, PARITY);
        } else {
            printf("%d ", decode_rs_int(code, frame, NULL, 0));
            write_symbols(frame, FRAME);
        }
    }
    free_rs_int(code);
    return read == 0 ? 0 : 1;
}
