/*
 * What main_loop.c asks of a board, and what it gives to it. board_simulated.c is such a board, without any hardware. For
 * one of your own write these functions, and let its interrupts call the three at the end.
 */
#ifndef BOARD_H
#define BOARD_H

#include <stddef.h>
#include <stdint.h>

/* What the host wants: the register of this number read, or written with this value. */
struct request {
    uint32_t number;
    uint16_t value;
};

/* The clock: 32 bits, in ns, which roll over. All readings come from it. */
uint32_t board_clock(void);

/* What the clock shows when the transmitter can begin, if it is told now: as soon as can be, here 100 ns later. */
uint32_t board_soon(void);

/* A random number, another one at each call; two modules must not draw the same ones. */
uint32_t board_random(void);

/* Whether the timer has come since the last time that this was asked. It comes every 1.4 us. */
int board_tick_is_due(void);

/* Takes a copy of these readings, and inverts the line when the clock shows each of them. */
void board_transmit(const uint32_t *transitions, size_t count);

/* Starts the link of this rate, one of MASTSTEP_ABILITY_.., as master or as slave. */
void board_start_link(unsigned ability, int is_master);

/* Whether the host wants a register read, or one written; it is then to be answered. */
int board_host_reads(struct request *request);
int board_host_writes(struct request *request);
void board_answer(uint64_t answer);

/* For whoever looks for a fault: a page that was heard, or a refusal. */
void board_log(uint64_t answer);

/* Whether to go on, and what the program ends with: on real hardware it never does. */
int board_is_on(void);
int board_status(void);

/* The interrupts, which main_loop.c has and the board calls. */
void edge_interrupt(void);        /* the receiver has seen a transition */
void sent_interrupt(void);        /* the last transition of what was to be transmitted is on the line */
void link_interrupt(int is_up);   /* the link has come up or gone down */

#endif
