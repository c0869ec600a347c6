/* Boards with ports, overlays and a timer, and random events on them. */
#ifndef BUSY_H
#define BUSY_H

#include <stdint.h>

#include "synicboard.h"

enum { MESSAGE_PORT = 3, FLAG_PORT = 4, SOURCE = 2, SLOT = 256, RANDOM_EVENTS = 1000 };

/* Enables the SynIC of a processor: message page at page 2, event flags page at page 3, vector 50
 * for SOURCE, a port of each shape, and a periodic timer in direct mode with vector 40. */
void set_up(synicboard *board, uint8_t vp);

/* A set-up board of two processors and four pages; its last event emitted three notices. */
void open_busy(synicboard *board, uint64_t first_ticket);

/* An event with random numbers, of which most are valid for a set-up board. */
synicboard_event random_event(synicboard *board, uint64_t *state);

/* Performs one as a struct, or by its own call. */
synicboard_reply perform_random(synicboard *board, uint64_t *state);

void perform_many(synicboard *board, uint64_t seed, unsigned events);

#endif
