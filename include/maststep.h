/*
 * Maststep: a device that negotiates on a line, the pages of that negotiation and the parity of frames, for C (from C99
 * on) and C++ on x86-64 Linux, level x86-64-v2.
 *
 * Link with libmaststep.a. It needs nothing at all beside it, not even the C library: it calls nothing outside
 * of itself, and has no data of its own that it writes. It has less than 22 KiB of code and constants.
 *
 * Every call answers with one 64-bit number: the top byte is the kind of the answer and the other 56
 * bits are its value. maststep_kind and maststep_value take an answer apart.
 *
 * The library keeps nothing between calls: a device is memory of the caller's, as lists are. Calls may run at once, in
 * several threads or in an interrupt, on devices and lists that do not overlap or that none of them writes.
 *
 * Calls on one device must not run at once. An interrupt that calls maststep_edge while the main loop is inside
 * maststep_tick on the same device spoils it: no harm is done to memory, but what the device then is nobody can say. Let
 * interrupts only note what happened, with its reading, in a queue, and let the main loop take it from there and make
 * the calls, as examples/main_loop.c does; or mask the interrupt from the reading of the clock for a call to the end of
 * that call.
 */
#ifndef MASTSTEP_H
#define MASTSTEP_H

#include <stddef.h>
#include <stdint.h>

#ifdef __cplusplus
extern "C" {
#endif

/* The version of this header: one more with each change that a program can see, in a name, a call or an answer. */
#define MASTSTEP_VERSION 5

/*
 * No call but two was seen to use more bytes of stack than MASTSTEP_MOST_STACK, its return address among them.
 * maststep_messages uses no more than MASTSTEP_MOST_STACK_OF_MESSAGES: its two readers call one another for each
 * message, so that it takes the most where all of the 64 pages that a run may have are message pages. And
 * maststep_parity_take uses no more than MASTSTEP_MOST_STACK_OF_PARITY_TAKE, for a table of its own. That is measured
 * and not proved: tests/c makes every call of its test on a stack that it has painted, and looks which bytes still are.
 * As functions on x86-64 Linux may, the calls use bytes below the stack pointer too (the red zone); these are counted.
 */
enum {
    MASTSTEP_MOST_STACK = 1024,
    MASTSTEP_MOST_STACK_OF_MESSAGES = 4096,
    MASTSTEP_MOST_STACK_OF_PARITY_TAKE = 4096
};

/* The kinds of answer. 1 to 14, 17, 20, 21, 24 and 25 are refusals; a refusal's value is 0. */
enum {
    MASTSTEP_NOTHING = 0,     /* no answer; the value is 0 */
    MASTSTEP_GAP = 1,         /* an attempt ended: a gap was not what the pattern of a page asks there */
    MASTSTEP_CUT = 2,         /* an attempt ended: a quiet gap, or the capture's end, came before its last transition */
    MASTSTEP_CHECK = 3,       /* an attempt ended: it had all transitions, but the check bits do not agree */
    MASTSTEP_SELECTOR = 4,    /* refused: a word's selector is not 1 */
    MASTSTEP_TIE = 5,         /* refused: the two words have the same nonce */
    MASTSTEP_CHANGED = 6,     /* refused: the partner's page is another than the one held, Ack aside, and in a base page the echo */
    MASTSTEP_ECHO = 7,        /* refused: the partner's page has Ack 1 and echoes a nonce that is not the own one */
    MASTSTEP_NONE = 8,        /* refused: the two words have no rate in common */
    MASTSTEP_ROLES = 9,       /* refused: the two words insist on the same role */
    MASTSTEP_REGISTER = 10,   /* refused: there is no such register, since the number is not one of 512 to 525 */
    MASTSTEP_TURN = 11,       /* refused: no page is out that could have been sent */
    MASTSTEP_ROOM = 12,       /* refused: the place is past the end, or there are too few entries to write into */
    MASTSTEP_WIDE = 13,       /* refused: the word, or a page of a run, is 2^48 or more */
    MASTSTEP_MODE = 14,       /* refused: the mode is neither 0 nor 1 */
    MASTSTEP_TOGGLE = 17,     /* refused: the partner's new Next Page has the toggle of its page before */
    MASTSTEP_SYMBOL = 20,     /* refused: a number of a burst or of a frame's state is no symbol, since it is 512 or more */
    MASTSTEP_COUNT = 21,      /* refused: a burst has more symbols than a frame has left to take, or a finish is at another count than 406 */
    MASTSTEP_RUN = 24,        /* refused: the first page of a run is an unformatted one */
    MASTSTEP_LENGTH = 25,     /* refused: a run has more than 64 pages */
    MASTSTEP_PAGE = 0x80,     /* a good page was read; the value is its word */
    MASTSTEP_ORDER = 0x81,    /* a page is to be sent; the value is its word */
    MASTSTEP_SETTLED = 0x82,  /* rate and role are settled; the value has both: see maststep_resolve */
    MASTSTEP_VALUE = 0x83,    /* the value is a register's */
    MASTSTEP_NUMBER = 0x84,   /* the value is a number: check bits, a count, positions of a gap */
    MASTSTEP_QUIET = 0x85,    /* the gap is quiet; the value is 0 */
    MASTSTEP_UNFIT = 0x86     /* the gap is unfit; the value is 0 */
};

/* The modes of the line. */
enum {
    MASTSTEP_HSM = 0, /* high speed: positions 30 ns apart */
    MASTSTEP_LSM = 1  /* low speed: positions 800 ns apart */
};

/* The events that maststep_run and maststep_step take. Others are answered with nothing, and change nothing. */
enum {
    MASTSTEP_EVENT_EDGE = 0,   /* a transition on the line; the argument is not looked at */
    MASTSTEP_EVENT_TICK = 1,   /* a look at the clock; the argument is the draw, taken modulo 32 */
    MASTSTEP_EVENT_SENT = 2,   /* an ordered page has been sent; the argument is not looked at */
    MASTSTEP_EVENT_REPORT = 3, /* the link: argument 0 is down, anything else is up */
    MASTSTEP_EVENT_READ = 4,   /* a register is read; the argument is its number */
    MASTSTEP_EVENT_WRITE = 5   /* a register is written; the argument is its number times 65536, plus the value */
};

/*
 * The registers, all 16 bits wide (MMD 7 of Clause 45). There are no others.
 *
 * A Next Page is loaded by writing MASTSTEP_TRANSMIT_MIDDLE and MASTSTEP_TRANSMIT_HIGH first and then
 * MASTSTEP_TRANSMIT_LOW, which alone says that a page is there. One that is loaded while the device is in Break makes
 * NP of the own base page one. docs/INTEGRATING.md says when to load which page.
 *
 * Entering Break or Off makes 517 to 525 zero. 514 to 516 stay.
 */
enum {
    MASTSTEP_CONTROL = 512,
    MASTSTEP_STATUS = 513,            /* read only */
    MASTSTEP_ADVERTISED_LOW = 514,    /* D0-D15 of the word that is advertised */
    MASTSTEP_ADVERTISED_MIDDLE = 515, /* D16-D31 */
    MASTSTEP_ADVERTISED_HIGH = 516,   /* D32-D47 */
    MASTSTEP_PARTNER_LOW = 517,       /* D0-D15 of the partner's base page, read only */
    MASTSTEP_PARTNER_MIDDLE = 518,    /* D16-D31, read only */
    MASTSTEP_PARTNER_HIGH = 519,      /* D32-D47, read only */
    MASTSTEP_TRANSMIT_LOW = 520,      /* D0-D15 of the own Next Page; reads as written, and a write loads the page */
    MASTSTEP_TRANSMIT_MIDDLE = 521,   /* D16-D31, reads as written */
    MASTSTEP_TRANSMIT_HIGH = 522,     /* D32-D47, reads as written */
    MASTSTEP_HEARD_LOW = 523,         /* D0-D15 of the partner's last Next Page, read only */
    MASTSTEP_HEARD_MIDDLE = 524,      /* D16-D31, read only */
    MASTSTEP_HEARD_HIGH = 525         /* D32-D47, read only */
};

/* The bits of MASTSTEP_CONTROL. A read shows MASTSTEP_CONTROL_ENABLE only; all others read as zero. */
enum {
    MASTSTEP_CONTROL_RESET = 0x8000,  /* written as one: the device is fresh, and the rest of this write unused */
    MASTSTEP_CONTROL_ENABLE = 0x1000, /* zero: off. One: the negotiation begins if it was off */
    MASTSTEP_CONTROL_RESTART = 0x0200 /* with MASTSTEP_CONTROL_ENABLE: the negotiation begins anew */
};

/*
 * The bits of MASTSTEP_STATUS. A read clears page received and remote fault, and nothing else does but a reset: after a
 * restart or a swap they may still be of a partner before, until they have been read once.
 */
enum {
    MASTSTEP_STATUS_PAGE_RECEIVED = 0x40, /* a partner has answered since the last read, by a base or Next Page */
    MASTSTEP_STATUS_COMPLETE = 0x20,      /* the link is up */
    MASTSTEP_STATUS_REMOTE_FAULT = 0x10,  /* a base page that a partner answered with since the last read had it */
    MASTSTEP_STATUS_ALWAYS_ONE = 0x08,
    MASTSTEP_STATUS_LINK_LATCH = 0x04     /* the link was up at the last read, and has not gone since */
};

/* The abilities that are rates, in the order in which they are chosen: the number n of An. */
enum {
    MASTSTEP_ABILITY_25GBASE_T1 = 6,
    MASTSTEP_ABILITY_10GBASE_T1 = 5,
    MASTSTEP_ABILITY_5GBASE_T1 = 4,
    MASTSTEP_ABILITY_2_5GBASE_T1 = 3,
    MASTSTEP_ABILITY_1000BASE_T1 = 2,
    MASTSTEP_ABILITY_100BASE_T1 = 0,
    MASTSTEP_ABILITY_10BASE_T1S_FULL = 1, /* full duplex */
    MASTSTEP_ABILITY_10BASE_T1L = 9,
    MASTSTEP_ABILITY_10BASE_T1S_HALF = 22 /* half duplex */
};

/* The fields of a base page's word: the number of the lowest bit of each, D0 being bit 0. */
enum {
    MASTSTEP_FIELD_SELECTOR = 0,      /* S, five bits */
    MASTSTEP_FIELD_ECHO = 5,          /* E, five bits: the nonce that was heard */
    MASTSTEP_FIELD_PAUSE = 10,        /* two bits */
    MASTSTEP_FIELD_FORCED_ROLE = 12,  /* M/S; where it is 1, T4, the nonce's highest bit, is the role: 1 for master */
    MASTSTEP_FIELD_REMOTE_FAULT = 13,
    MASTSTEP_FIELD_ACK = 14,
    MASTSTEP_FIELD_NEXT_PAGE = 15,    /* NP: one where a Next Page is to follow */
    MASTSTEP_FIELD_NONCE = 16,        /* T, five bits */
    MASTSTEP_FIELD_ABILITIES = 21     /* A0-A26 */
};

/*
 * The fields of a Next Page's word, in the same way; Ack and NP stand where a base page has them. A message page has
 * D13 one and a code. An unformatted page has D13 zero, and 43 bits of its own: the eleven from D0 on, then the 32 from
 * D16 on. The device sets toggle and Ack of the pages that it orders, whatever was loaded.
 */
enum {
    MASTSTEP_FIELD_CODE = 0,          /* eleven bits: a message page's code, or an unformatted page's first bits */
    MASTSTEP_FIELD_TOGGLE = 11,       /* other than D11 of the same end's page before, base page or Next Page */
    MASTSTEP_FIELD_ACK2 = 12,
    MASTSTEP_FIELD_MESSAGE = 13,      /* one in a message page, zero in an unformatted page */
    MASTSTEP_FIELD_UNFORMATTED = 16   /* 32 unformatted bits */
};

/* The Null message: code 1, D13 one. Sent where the own NP is zero, the partner's one, and no page is loaded. */
enum { MASTSTEP_NULL_MESSAGE = 0x2001 };

/* No page has more readings than this, in either mode. */
enum { MASTSTEP_MOST_READINGS = 150 };

/* A run of Next Pages, for maststep_messages. The product of the two is enough cells for every run. */
enum {
    MASTSTEP_MOST_PAGES = 64,   /* a run has no more pages, and so no more messages */
    MASTSTEP_MESSAGE_CELLS = 3  /* of a message: its code, its first place, the number of its unformatted pages */
};

/*
 * The parity of a 1000BASE-T1 frame, for maststep_parity_take and maststep_parity_finish. The state that the caller lends
 * has the 44 symbols of the register first, that of the highest power first, and then the number of data symbols taken.
 * All zero is a new frame.
 */
enum {
    MASTSTEP_DATA_SYMBOLS = 406,      /* of a frame */
    MASTSTEP_PARITY_SYMBOLS = 44,     /* of a frame, sent behind the data */
    MASTSTEP_STATE_ENTRIES = 45       /* of a state: the register and the count */
};

/* The kind of an answer: its top byte. */
static inline unsigned maststep_kind(uint64_t answer)
{
    const uint64_t top = answer >> 56;

    return top & 0xff;
}

/* The value of an answer: its low 56 bits. */
static inline uint64_t maststep_value(uint64_t answer)
{
    return answer & UINT64_C(0x00ffffffffffffff);
}

/* The ability of an answer or value that says what is settled: one of MASTSTEP_ABILITY_... */
static inline unsigned maststep_ability(uint64_t settled)
{
    return settled & 0xff;
}

/* The role in an answer or value that says what is settled: 1 where this side is master, 0 where it is slave. */
static inline int maststep_is_master(uint64_t settled)
{
    return (settled >> 8 & 1) != 0;
}

/* The word that has the bit of this ability and no other; 0 for a number past 26, since there is no such ability. */
static inline uint64_t maststep_ability_bit(unsigned ability)
{
    return ability > 26 ? 0 : UINT64_C(1) << (MASTSTEP_FIELD_ABILITIES + ability);
}

/* The word of a page whose three registers, D0-D15, D16-D31 and D32-D47, were read as these values. */
static inline uint64_t maststep_word_of(uint16_t low, uint16_t middle, uint16_t high)
{
    const uint64_t third = high, second = middle;

    return third << 32 | second << 16 | low;
}

/* The argument of MASTSTEP_EVENT_WRITE that writes this value to the register of this number. */
static inline uint64_t maststep_write_argument(uint32_t number, uint16_t value)
{
    return UINT64_C(65536) * number + value;
}

/*
 * Answers MASTSTEP_NUMBER with the 16 check bits of a word of 48 bits, S15 the highest bit of the value.
 * A word of 2^48 or more is refused: MASTSTEP_WIDE (13).
 */
uint64_t maststep_check(uint64_t word);

/*
 * Settles rate and role on two words: own is the page of this side, partner that of the other. Answers
 * MASTSTEP_SETTLED. Bits 0-7 of the value are the number n of the ability An: the first of A6 25GBASE-T1,
 * A5 10GBASE-T1, A4 5GBASE-T1, A3 2.5GBASE-T1, A2 1000BASE-T1, A0 100BASE-T1, A1 10BASE-T1S full duplex,
 * A9 10BASE-T1L, A22 10BASE-T1S half duplex, in this order, that both words have. Bit 8 is 1 where this
 * side is master, 0 where it is slave. All other bits of the value are 0. maststep_ability and
 * maststep_is_master take the value apart.
 *
 * Refused, in this order:
 *   MASTSTEP_WIDE (13)     either word is 2^48 or more;
 *   MASTSTEP_SELECTOR (4)  the selector S of either is not 1;
 *   MASTSTEP_TIE (5)       the nonce T is the same in both;
 *   MASTSTEP_NONE (8)      none of these abilities is in both;
 *   MASTSTEP_ROLES (9)     both roles are forced, and to the same one.
 *
 * With the two words exchanged the ability or the refusal is the same and the role the opposite one, so
 * that two sides which call this agree.
 */
uint64_t maststep_resolve(uint64_t own, uint64_t partner);

/*
 * Says what a gap of this many ns between two transitions is. Answers MASTSTEP_NUMBER with 1 to 4, the
 * number of positions that the gap counts as; MASTSTEP_QUIET at the mode's quiet limit or more, which is 130 ns at
 * high speed and 3441 at low speed; else MASTSTEP_UNFIT. A mode other than 0 and 1 is refused: MASTSTEP_MODE (14).
 */
uint64_t maststep_judge(uint32_t mode, uint32_t gap);

/*
 * Writes the readings of the word's page into the list, from the entry at place on: the clock at each
 * transition, in ns modulo 2^32, at nominal spacing, the first of them being first. Answers
 * MASTSTEP_NUMBER with their number. Every other entry of the list is left as it was.
 *
 * Refused, in this order, and the whole list is then left as it was:
 *   MASTSTEP_MODE (14)  the mode is neither 0 nor 1;
 *   MASTSTEP_WIDE (13)  the word is 2^48 or more;
 *   MASTSTEP_ROOM (12)  the place is past the end, or fewer entries stand from it on than the page has
 *                       readings. Any place is taken, SIZE_MAX too; at place == length there is no entry.
 *
 * The caller sees to it that list points to length entries in a row, aligned as uint32_t is, that may
 * be read and written, and that nothing else reads or writes them during the call. With length 0
 * nothing is read or written through list, and it may be a null pointer.
 */
uint64_t maststep_write(uint32_t *list, size_t length, size_t place, uint32_t mode, uint64_t word, uint32_t first);

/*
 * Reads the first attempt of a capture, from the reading at place on. The list is the capture: the clock
 * at each transition of the line, in ns modulo 2^32, in the order in which they came. The reading at place
 * counts as a page's first transition, whatever stands before it. Answers how the attempt ended:
 *   MASTSTEP_PAGE (0x80)  a good page, with its word;
 *   MASTSTEP_GAP (1)      a gap was not what the pattern asks, or was unfit;
 *   MASTSTEP_CUT (2)      a quiet gap came before the last transition, or the capture ended, which counts as quiet;
 *   MASTSTEP_CHECK (3)    all transitions were there, but the check bits do not agree;
 *   MASTSTEP_NOTHING (0)  there was no attempt, since place == length.
 *
 * Leaves at *next the place where the next attempt opens, or the length if none does (so at place ==
 * length). After MASTSTEP_CUT that is the transition that came after the quiet gap; after the others, the
 * first later one that follows a quiet gap: all between are dropped.
 *
 * Refused, in this order, and *next is then left as it was:
 *   MASTSTEP_MODE (14)  the mode is neither 0 nor 1;
 *   MASTSTEP_ROOM (12)  the place is past the end. Any place is taken, SIZE_MAX too.
 *
 * To read all attempts of a capture in a mode that is 0 or 1, start at place 0 and go from next place to
 * next place. Each is past the one before, so that this ends:
 *
 *     size_t place = 0;
 *     while (place < length) {
 *         uint64_t answer = maststep_read(list, length, place, mode, &place);
 *         ...
 *     }
 *
 * The caller sees to it that list points to length readings in a row, aligned as uint32_t is, and next to
 * a size_t that lies outside of them, and that nothing else writes the readings, or reads or writes
 * *next, during the call. With length 0 nothing is read through list, and it may be a null pointer.
 */
uint64_t maststep_read(const uint32_t *list, size_t length, size_t place, uint32_t mode, size_t *next);

/*
 * A fresh device takes the events, three cells each: kind, clock reading (taken modulo 2^32), argument. The
 * list of answers gets one answer for each event, in order, from its first entry on; its other entries are
 * left as they were. Answers MASTSTEP_NUMBER with the number of events. Cells after the last whole event are
 * not looked at.
 *
 * The kinds and their arguments are those of MASTSTEP_EVENT_EDGE (0) to MASTSTEP_EVENT_WRITE (5); any other
 * kind is answered with nothing and changes nothing.
 *
 * An event is answered with MASTSTEP_NOTHING (0), a refusal from 1 to 11 or 17, MASTSTEP_PAGE with a good page's
 * word, MASTSTEP_ORDER with the word of the page that is ordered, MASTSTEP_SETTLED, or MASTSTEP_VALUE with a
 * register's value.
 *
 * MASTSTEP_EVENT_SENT of the third page in state Complete, and of each later one there, is answered with
 * MASTSTEP_NOTHING where NP of the own page or of the partner's is one: Next Pages go on, or the own page is sent
 * again until the host has loaded the one that it announced. Where neither is one it is answered with MASTSTEP_NONE
 * (8), MASTSTEP_ROLES (9) or MASTSTEP_SETTLED, from the two base pages.
 *
 * MASTSTEP_EVENT_TICK may go to Break, after which 517 to 525 read zero, and is then answered with
 * MASTSTEP_NOTHING: once Next Pages have begun, where the last good page is 4 000 000 ns old or more and no page is
 * out; and where the link has not come up in time.
 *
 * Refused: MASTSTEP_ROOM (12) if there are fewer entries than events, and the whole list is then left as it
 * was.
 *
 * The caller sees to it that events points to cells cells in a row and answers to room entries in a row,
 * aligned as uint64_t is, none of them in both, and that nothing else writes the events, or reads or writes the
 * answers, during the call. With cells or room 0 nothing is read or written through that pointer, and it may be
 * a null pointer.
 */
uint64_t maststep_run(const uint64_t *events, size_t cells, uint64_t *answers, size_t room);

/*
 * A device that the caller keeps: all that one end of a line remembers from event to event. It is plain numbers, declared
 * so that a program can place one where it likes; nobody but maststep_fresh and maststep_step should touch its fields,
 * and a later version may have others. It has 112 bytes.
 *
 * It holds no pointer and no secret: it may be copied (the copy is a second device, in the same state), kept anywhere,
 * and moved. Two devices share nothing. Every content is taken, that of memory which nobody has set too; but only after
 * maststep_fresh does a program know what its device is. A fresh device's numbers are all zero, so one in static memory,
 * which C makes zero, is fresh too. The four bytes behind the last number belong to none and may become anything, so two
 * devices are not to be compared byte by byte.
 */
typedef struct maststep_device {
    uint64_t advertised; /* 514 to 516, as one word, as the next three are */
    uint64_t partner;    /* 517 to 519 */
    uint64_t transmit;   /* 520 to 522 */
    uint64_t heard;      /* 523 to 525 */
    uint64_t own_base;   /* the own base page */
    uint64_t held_base;  /* the partner's, as it was first heard */
    uint64_t own_next;   /* the own Next Page */
    uint64_t held_next;  /* the partner's, as it was first heard */
    uint64_t bits;       /* of an open attempt to read a page: the bits so far */
    uint32_t last;       /* the reading of the last edge that was taken */
    uint32_t position;   /* of an open attempt: the position of that edge */
    uint32_t mark;       /* the reading of the mark */
    uint32_t timer;      /* the reading at which the state's timer was started */
    uint32_t good;       /* the reading of the last good page */
    uint32_t count;      /* the pages sent in Complete */
    uint8_t reader;      /* 0: fresh; 1: an attempt is open; any other: edges are dropped */
    uint8_t state;       /* 0 Off, 1 Break, 2 Ability, 3 Ack, 4 Complete, 5 Check-link, 6 Up; any other means Off */
    uint8_t is_out;      /* whether a page is out, as all that follow with is_: 0 is no, any other is yes */
    uint8_t is_heard;    /* whether the mark is "heard"; else it is "waiting" */
    uint8_t round;       /* 0 base, 1 first, any other later */
    uint8_t is_loaded;   /* the loaded mark */
    uint8_t is_latched;  /* the link latch */
    uint8_t is_received; /* Page received */
    uint8_t is_fault;    /* Remote fault */
    uint8_t outcome;     /* 0: none yet; 0x82: settled; any other: the refusal of that number, or 1 where there is none */
    uint8_t ability;     /* where it is settled: the rate, */
    uint8_t is_master;   /* and the role */
} maststep_device;

/* Where a compiler is told to lay records out in another way than the library does, this does not compile. */
typedef char maststep_device_has_112_bytes[sizeof(maststep_device) == 112 ? 1 : -1];

/*
 * Makes the device fresh, whatever the memory held: it is Off and all its registers are zero, but for bit 3 of
 * MASTSTEP_STATUS, which is always one. Nothing beside the device is written.
 *
 * The caller sees to it that device points to memory for one, aligned as uint64_t is, and that nothing else reads or
 * writes it during the call.
 */
void maststep_fresh(maststep_device *device);

/*
 * Gives the device one event: its kind, the clock reading (taken modulo 2^32) and the argument are those of an event of
 * maststep_run, and so is the answer. Leaves the device as it is after that event. Nothing beside it is written. Given to
 * a fresh device one by one, events are answered as maststep_run answers the row of them.
 *
 * Any content of the device is taken, and the call ends: what each number means is said at its field. On a content that no
 * call has left, page sent may also be answered with MASTSTEP_SELECTOR (4), MASTSTEP_TIE (5) or MASTSTEP_WIDE (13).
 *
 * The functions below make this call for each kind of event, and are what most programs want.
 *
 * The caller sees to it that device points to a device, aligned as uint64_t is, and that nothing else reads or writes it
 * during the call.
 */
uint64_t maststep_step(maststep_device *device, uint64_t kind, uint64_t clock, uint64_t argument);

/*
 * A transition on the line, at this reading. Answers MASTSTEP_PAGE with the word where it is the last one of a good page
 * that is not refused; a refusal from 1 to 7, or 17, where it ends an attempt otherwise or the page is refused; else
 * MASTSTEP_NOTHING. After 5, 6, 7 and 17 the device is in Break.
 */
static inline uint64_t maststep_edge(maststep_device *device, uint32_t reading)
{
    return maststep_step(device, MASTSTEP_EVENT_EDGE, reading, 0);
}

/*
 * A look at the clock, with a random number of which the low five bits count. Answers MASTSTEP_ORDER with the word where
 * a page is to be sent now, else MASTSTEP_NOTHING. Timers are looked at here and nowhere else. The reading must be no
 * earlier than those of the events before: a time that is not there yet counts as one of some 4.29 s, after which every
 * timer is out.
 */
static inline uint64_t maststep_tick(maststep_device *device, uint32_t reading, uint32_t draw)
{
    return maststep_step(device, MASTSTEP_EVENT_TICK, reading, draw);
}

/*
 * The last transition of the page that was ordered is on the line. Answers MASTSTEP_SETTLED, MASTSTEP_NONE (8) or
 * MASTSTEP_ROLES (9) where this page was the last that was due, MASTSTEP_TURN (11) where no page is out, else
 * MASTSTEP_NOTHING.
 */
static inline uint64_t maststep_sent(maststep_device *device, uint32_t reading)
{
    return maststep_step(device, MASTSTEP_EVENT_SENT, reading, 0);
}

/* The link of the settled rate has gone down, where up is 0, or has come up. Answers MASTSTEP_NOTHING. */
static inline uint64_t maststep_report(maststep_device *device, uint32_t reading, int up)
{
    return maststep_step(device, MASTSTEP_EVENT_REPORT, reading, up != 0);
}

/*
 * The host reads a register: one of MASTSTEP_CONTROL (512) to MASTSTEP_HEARD_HIGH (525). Answers MASTSTEP_VALUE with its
 * value, or MASTSTEP_REGISTER (10) to any other number. A read of MASTSTEP_STATUS changes it, as is said there.
 */
static inline uint64_t maststep_register_read(maststep_device *device, uint32_t reading, uint32_t number)
{
    return maststep_step(device, MASTSTEP_EVENT_READ, reading, number);
}

/*
 * The host writes a register, of those that may be written. Answers MASTSTEP_NOTHING, also where it is one that is read
 * only and nothing changes, or MASTSTEP_REGISTER (10) where there is none of that number.
 */
static inline uint64_t maststep_register_write(maststep_device *device, uint32_t reading, uint32_t number, uint16_t value)
{
    return maststep_step(device, MASTSTEP_EVENT_WRITE, reading, maststep_write_argument(number, value));
}

/*
 * Tells the messages of a run of heard Next Pages. A message is a message page, D13 one, with the unformatted pages,
 * D13 zero, that follow it up to the next message page or the end of the run. So each page belongs to one message.
 * The list gets three cells for each message, in order, from its first cell on: its code, D0-D10 of its message page;
 * its first place, which is that of its message page, the first page of the run being at 0; and the number of its
 * unformatted pages. All other cells are left as they were. Answers MASTSTEP_NUMBER with the number of messages, which
 * for an empty run is 0. No other bit of a page counts: neither its toggle nor NP is looked at.
 *
 * Refused, in this order, and the whole list is then left as it was:
 *   MASTSTEP_LENGTH (25)  there are more than 64 pages;
 *   MASTSTEP_WIDE (13)    a page is 2^48 or more;
 *   MASTSTEP_RUN (24)     the first page is an unformatted one;
 *   MASTSTEP_ROOM (12)    there are fewer cells than three for each message.
 *
 * A list that has room for every run, and a look at each message:
 *
 *     uint64_t messages[MASTSTEP_MOST_PAGES * MASTSTEP_MESSAGE_CELLS];
 *     uint64_t answer = maststep_messages(pages, length, messages, MASTSTEP_MOST_PAGES * MASTSTEP_MESSAGE_CELLS);
 *     if (maststep_kind(answer) == MASTSTEP_NUMBER) {
 *         for (size_t i = 0; i < maststep_value(answer); i++) {
 *             const uint64_t *message = messages + MASTSTEP_MESSAGE_CELLS * i;
 *             ... message[0] is its code, pages[message[1]] its message page; message[2] unformatted pages follow
 *         }
 *     }
 *
 * It takes more stack than the other calls: see MASTSTEP_MOST_STACK_OF_MESSAGES.
 *
 * The caller sees to it that pages points to length pages in a row and messages to room cells in a row, aligned as
 * uint64_t is, none of them in both, and that nothing else writes the pages, or reads or writes the cells, during the
 * call. With length or room 0 nothing is read or written through that pointer, and it may be a null pointer.
 */
uint64_t maststep_messages(const uint64_t *pages, size_t length, uint64_t *messages, size_t room);

/*
 * Takes a burst of a frame's data symbols, in the order in which they are sent, into the state. Answers MASTSTEP_NUMBER
 * with the number of data symbols taken so far, and leaves the register and this number in the state's first 45 entries;
 * entries behind these are left as they were. However the data are cut into bursts, empty ones among them, the state
 * after them is the same.
 *
 * A symbol is a number below 512, the first of its nine bits that is sent the lowest. The data are a polynomial over the
 * field made by x^9 + x^4 + 1, with alpha = 2, the first symbol the coefficient of the highest power; the register is
 * what is left of it, times Z^44, by the generator, which is the product of Z less alpha^i for i = 0 to 43.
 *
 * Refused, in this order, and the whole state is then left as it was:
 *   MASTSTEP_ROOM (12)    the state has fewer than 45 entries;
 *   MASTSTEP_COUNT (21)   the state's count and the burst are more than 406 symbols together;
 *   MASTSTEP_SYMBOL (20)  a number of the burst, or one of the register's 44, is 512 or more.
 *
 * A burst that reaches past the 406 data symbols is refused as a whole: cut it there. A state of any content may be
 * lent, also one that no call has left; if it is not refused, the call goes on from its register and count as they stand.
 *
 * It takes more stack than most calls: see MASTSTEP_MOST_STACK_OF_PARITY_TAKE.
 *
 * The caller sees to it that state points to entries entries in a row and burst to length symbols in a row, aligned as
 * uint16_t is, none of them in both, and that nothing else writes the burst, or reads or writes the state, during the
 * call. With entries or length 0 nothing is read or written through that pointer, and it may be a null pointer.
 */
uint64_t maststep_parity_take(uint16_t *state, size_t entries, const uint16_t *burst, size_t length);

/*
 * Gives the parity symbols of a frame whose 406 data symbols have been taken: the first 44 entries of parity, in the
 * order in which they are sent. Its other entries are left as they were, and so is the state. Answers MASTSTEP_NUMBER
 * with 44.
 *
 * Refused, in this order, and the whole of parity is then left as it was:
 *   MASTSTEP_ROOM (12)    the state has fewer than 45 entries, or parity fewer than 44;
 *   MASTSTEP_COUNT (21)   the state's count is not 406;
 *   MASTSTEP_SYMBOL (20)  a number of the register is 512 or more.
 *
 * A frame, from its data in bursts as they come:
 *
 *     uint16_t state[MASTSTEP_STATE_ENTRIES] = {0};
 *     uint16_t parity[MASTSTEP_PARITY_SYMBOLS];
 *     while (... a burst of length symbols has come ...) {
 *         uint64_t answer = maststep_parity_take(state, MASTSTEP_STATE_ENTRIES, burst, length);
 *         if (maststep_kind(answer) != MASTSTEP_NUMBER) ... it was refused
 *     }
 *     uint64_t answer = maststep_parity_finish(state, MASTSTEP_STATE_ENTRIES, parity, MASTSTEP_PARITY_SYMBOLS);
 *     if (maststep_kind(answer) == MASTSTEP_NUMBER) ... parity has the 44 symbols
 *
 * For the next frame the state is set to zero again.
 *
 * The caller sees to it that state points to entries entries in a row and parity to room entries in a row, aligned as
 * uint16_t is, none of them in both, and that nothing else writes the state, or reads or writes parity, during the call.
 * With entries or room 0 nothing is read or written through that pointer, and it may be a null pointer.
 */
uint64_t maststep_parity_finish(const uint16_t *state, size_t entries, uint16_t *parity, size_t room);

#ifdef __cplusplus
}
#endif

#endif
