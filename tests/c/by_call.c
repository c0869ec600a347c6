#include "by_call.h"

synicboard_reply perform_by_call(synicboard *board, const synicboard_event *event)
{
    uint8_t vp = event->vp;
    uint8_t port = event->port;
    uint8_t sint = event->sint;
    uint64_t value = event->value;
    uint64_t address = event->address;
    switch (event->kind) {
    case SYNICBOARD_OPEN_MESSAGE_PORT: return synicboard_open_message_port(board, port, vp, sint, event->buffers);
    case SYNICBOARD_OPEN_EVENT_PORT:
        return synicboard_open_event_port(board, port, vp, sint, event->flag, event->count);
    case SYNICBOARD_CLOSE_PORT: return synicboard_close_port(board, port);
    case SYNICBOARD_WRITE: return synicboard_write(board, vp, event->msr, value);
    case SYNICBOARD_READ: return synicboard_read(board, vp, event->msr);
    case SYNICBOARD_POST: return synicboard_post(board, port, event->message_type, event->bytes, event->length);
    case SYNICBOARD_SIGNAL: return synicboard_signal(board, port, event->flag);
    case SYNICBOARD_ASSERT: return synicboard_assert(board, vp, event->vector);
    case SYNICBOARD_ABSORB: return synicboard_absorb(board, vp, event->part, value);
    case SYNICBOARD_STORE: return synicboard_store(board, address, event->bytes, event->length);
    case SYNICBOARD_LOAD: return synicboard_load(board, address, event->length);
    case SYNICBOARD_TICK: return synicboard_tick(board, event->moment);
    case SYNICBOARD_TAKE: return synicboard_take(board, vp);
    case SYNICBOARD_SUSPEND: return synicboard_suspend(board, vp);
    case SYNICBOARD_RESUME: return synicboard_resume(board, vp);
    case SYNICBOARD_RESET: return synicboard_reset(board, vp);
    default: return synicboard_send(board, event->vector, value);
    }
}
