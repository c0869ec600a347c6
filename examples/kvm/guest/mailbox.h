/* What the flat guest and the devices of the hypervisor (load.c) share: ports, vectors, and a
 * piece of guest memory. */
#ifndef MAILBOX_H
#define MAILBOX_H

#include <stdint.h>

enum { END_PORT = 0xf4, MAILBOX_PORT = 0xe0, LOAD_PORT = 0xe4, FRESH_PORT = 0xec, ABSORBED_PORT = 0xf0 };

/* Each raiser raises its own vectors at each processor; the messenger posts to one source and
 * signals another. */
enum { LOAD_VPS = 2, RAISERS = 2, RAISER_VECTORS = 8, LOAD_VECTORS = RAISERS * RAISER_VECTORS };
enum { FIRST_LOAD_VECTOR = 0x70 };
enum { MESSAGE_SINT = 3, FLAG_SINT = 4, FLAGS = 16, MOST_FLAG_STRIDE = 8 };

/* A raiser raises a vector again only when the guest has handled the raise before, so that no
 * two of them merge into one interrupt and each can be counted. */
struct mailbox {
    uint32_t raises;                                        /* for each vector and processor; set by the guest */
    uint32_t messages, signals;                             /* for each processor; set by the guest */
    volatile uint32_t raised[LOAD_VPS][LOAD_VECTORS];       /* by a raiser, before it raises */
    volatile uint32_t handled[LOAD_VPS][LOAD_VECTORS];      /* by the guest */
    volatile uint32_t signalled[LOAD_VPS][FLAGS];           /* by the messenger, before it signals */
    volatile uint32_t refused;                              /* posts that found no buffer, and were made again */
    volatile uint32_t flag_stride;                          /* from one flag to the next: 1, or 8 where pages trap; set by the host */
};

/* The payload of a message. */
struct letter {
    uint64_t number, check;     /* check is the complement of number */
};

#endif
