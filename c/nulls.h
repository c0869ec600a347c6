/* What takes the place of a null pointer in a proved call (c/nulls.c). */
#ifndef SYNICBOARD_NULLS_H
#define SYNICBOARD_NULLS_H

#include "synicboard.h"

static const synicboard_event no_event = { 0 };
static const synicboard_reply no_reply = { 0 };
static const uint8_t too_many[sizeof no_event.bytes + 1] = { 0 };

#define OR(pointer, stand_in) pointer = pointer != NULL ? pointer : (stand_in);

#define BOARD(board) OR(board, &(synicboard)SYNICBOARD_CLOSED)
#define CONST_BOARD(board) OR(board, &(const synicboard)SYNICBOARD_CLOSED)
#define LINE(line) OR(line, &(synicboard_line)SYNICBOARD_LINE_CLOSED)
#define BYTES(bytes, length) \
    length = bytes != NULL || length == 0 ? length : sizeof too_many; OR(bytes, too_many)
#define EVENT(event) OR(event, &no_event)
#define EVENTS(events, count) count = events != NULL || count == 0 ? count : 1; OR(events, &no_event)
#define REPLY(reply) OR(reply, &no_reply)
#define ROOM(room, length, type) length = room != NULL ? length : 0; OR(room, &(type){ 0 })
#define PLACE(page) OR(page, &(const uint8_t *){ NULL })
#define VIEW(view) OR(view, &(synicboard_view){ 0 })
#define WIDE_VIEW(view) OR(view, &(synicboard_wide_view){ 0 })
#define OWNERS(owners) OR(owners, &(synicboard_owners){ 0 })
#define DUE(due) OR(due, &(synicboard_due){ 0 })
#define FORWARDED(forwarded) OR(forwarded, &(synicboard_forwarded){ 0 })
#define TICKET(ticket) OR(ticket, &(uint64_t){ 0 })

#endif
