/* Events on a sparse board, with the guest's memory. */
#include "by_sparse.h"

#include <stdbool.h>
#include <string.h>

enum { PAGE = 4096, MOST_BYTES = 8, PORTS = 16 };

static synicboard_reply access_memory(struct sparse *sparse, const synicboard_event *event)
{
    synicboard_reply reply = { .kind = SYNICBOARD_DONE };
    uint8_t *bytes = sparse->memory + event->address;
    if (event->kind == SYNICBOARD_STORE) {
        memcpy(bytes, event->bytes, event->length);
        return reply;
    }
    reply.kind = SYNICBOARD_BYTES;
    reply.length = (uint8_t)event->length;
    memcpy(reply.bytes, bytes, event->length);
    return reply;
}

static bool has_port(const synicboard_event *event)
{
    switch (event->kind) {
    case SYNICBOARD_OPEN_MESSAGE_PORT:
    case SYNICBOARD_OPEN_EVENT_PORT:
    case SYNICBOARD_CLOSE_PORT:
    case SYNICBOARD_POST:
    case SYNICBOARD_SIGNAL: return true;
    default: return false;
    }
}

/* On a board of fewer than 64 processors, there is no port 255. */
static synicboard_reply perform_of_no_port(struct sparse *sparse, const synicboard_event *event)
{
    synicboard_event other = *event;
    other.port = UINT8_MAX;
    return synicboard_perform(&sparse->board, &other);
}

synicboard_reply perform_on_sparse(struct sparse *sparse, const synicboard_event *event)
{
    if (has_port(event) && event->port >= PORTS)
        return perform_of_no_port(sparse, event);
    bool is_access = event->kind == SYNICBOARD_STORE || event->kind == SYNICBOARD_LOAD;
    bool has_length = event->length >= 1 && event->length <= MOST_BYTES;
    if (is_access && has_length && event->address / PAGE >= sparse->pages) {
        /* An access without bytes changes nothing, and has no notices. */
        synicboard_reply reply = synicboard_load(&sparse->board, event->address, 0);
        reply.refusal = SYNICBOARD_OUTSIDE_SPACE;
        return reply;
    }
    synicboard_reply reply = synicboard_perform(&sparse->board, event);
    if (reply.kind == SYNICBOARD_REFUSED && reply.refusal == SYNICBOARD_ELSEWHERE)
        return access_memory(sparse, event);
    return reply;
}
