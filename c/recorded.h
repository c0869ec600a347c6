/* The proved calls on a board with its history (crates/c_calls/src/recorded.rt). */
#ifndef SYNICBOARD_RECORDED_H
#define SYNICBOARD_RECORDED_H

#include "synicboard.h"

/* A handle of a history. */
typedef struct recorded_history {
    void *at;
    bool is_open;
} recorded_history;

/* A handle of a board with its history. */
typedef struct recorded {
    synicboard board;
    recorded_history history;
} recorded;

uint8_t proved_synicboard_recorded_open(recorded *recorded, uint8_t processors, uint8_t pages, uint64_t first_ticket);
void proved_synicboard_recorded_close(recorded *recorded);
synicboard_reply proved_synicboard_recorded_act(recorded *recorded, uint8_t actor, const synicboard_event *event,
                                                synicboard_notice *notices, size_t room);
synicboard_reply proved_synicboard_recorded_absorb(recorded *recorded, uint8_t actor, synicboard_line *line,
                                                   uint8_t vp, uint8_t part, synicboard_notice *notices, size_t room);
synicboard_settled proved_synicboard_recorded_settle(recorded *recorded, uint8_t *room, size_t length);

#endif
