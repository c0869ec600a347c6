/* Performs events by their own calls. */
#ifndef BY_CALL_H
#define BY_CALL_H

#include "synicboard.h"

/* Performs an event of a valid kind by the call for its kind. */
synicboard_reply perform_by_call(synicboard *board, const synicboard_event *event);

#endif
