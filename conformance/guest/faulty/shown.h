/* What the parts of the library with faults share. */
#ifndef SHOWN_H
#define SHOWN_H

#include "board.h"
#include "synicboard.h"

enum { MOST = 8 };

/* Copies of the pages, at their own pages of memory, which the hypervisor maps. */
extern uint8_t shown[MOST][2][PAGE];

/* The last event was a tick, and no timer expired: those that are late wait for a buffer, or for the SynIC. */
extern bool is_tried;

#endif
