/* A sparse board and the memory of its guest, which together act like a board that holds these pages. */
#ifndef BY_SPARSE_H
#define BY_SPARSE_H

#include <stdint.h>

#include "synicboard.h"

struct sparse {
    synicboard board;
    uint8_t *memory;            /* pages * 4096 bytes */
    uint64_t pages;
};

/* Performs an event: a load or a store that the board refuses as elsewhere, in the memory. The guest has no
 * other pages, so accesses beyond them are refused here. A board that holds pages has 16 ports, and this one may
 * have more, so an event of another port is refused as that of a port which no board has. Notices are those of
 * the board. */
synicboard_reply perform_on_sparse(struct sparse *sparse, const synicboard_event *event);

#endif
