#include "busy.h"

#include <stddef.h>

#include "by_call.h"
#include "checks.h"

void set_up(synicboard *board, uint8_t vp)
{
    CHECK_REPLY(synicboard_write(board, vp, SCONTROL, 1), SYNICBOARD_DONE);
    CHECK_REPLY(synicboard_write(board, vp, SIMP, 2 * PAGE + 1), SYNICBOARD_DONE);
    CHECK_REPLY(synicboard_write(board, vp, SIEFP, 3 * PAGE + 1), SYNICBOARD_DONE);
    CHECK_REPLY(synicboard_write(board, vp, SINT0 + SOURCE, 0x50), SYNICBOARD_DONE);
    CHECK_REPLY(synicboard_open_message_port(board, MESSAGE_PORT, vp, SOURCE, 2), SYNICBOARD_DONE);
    CHECK_REPLY(synicboard_open_event_port(board, FLAG_PORT, vp, SOURCE, 8, 64), SYNICBOARD_DONE);
    CHECK_REPLY(synicboard_write(board, vp, STIMER0_COUNT, 10), SYNICBOARD_DONE);
    CHECK_REPLY(synicboard_write(board, vp, STIMER0_CONFIG, 0x1403), SYNICBOARD_DONE);
}

void open_busy(synicboard *board, uint64_t first_ticket)
{
    static const uint8_t payload[] = { 0x0a, 0x0b, 0x0c };
    CHECK_NUMBER(synicboard_open(board, 2, 4, first_ticket), SYNICBOARD_OK);
    set_up(board, 1);
    CHECK_REPLY(synicboard_tick(board, 7), SYNICBOARD_DONE);
    CHECK_REPLY(synicboard_signal(board, FLAG_PORT, 5), SYNICBOARD_FLAG_WAS_CLEAR);
    CHECK_REPLY(synicboard_take(board, 1), SYNICBOARD_TAKEN);
    synicboard_reply reply = synicboard_post(board, MESSAGE_PORT, 0x01020304, payload, sizeof payload);
    CHECK_REPLY(reply, SYNICBOARD_ACCEPTED);
    CHECK_NUMBER(reply.ticket, first_ticket);
    synicboard_notice notice;
    CHECK_NUMBER(synicboard_notices(board, &notice, 1), 3);
    CHECK_NUMBER(notice.kind, SYNICBOARD_NOTICE_ACCEPTED);
}

static uint64_t random_below(uint64_t *state, uint64_t limit)
{
    *state ^= *state << 13;
    *state ^= *state >> 7;
    *state ^= *state << 17;
    return *state % limit;
}

/* Any kind of event; ports, suspensions, resets and sends are rare. */
static uint8_t random_kind(uint64_t *state)
{
    static const uint8_t often[] = {
        SYNICBOARD_WRITE, SYNICBOARD_READ, SYNICBOARD_POST, SYNICBOARD_SIGNAL, SYNICBOARD_ASSERT,
        SYNICBOARD_ABSORB, SYNICBOARD_STORE, SYNICBOARD_LOAD, SYNICBOARD_TICK, SYNICBOARD_TAKE
    };
    if (random_below(state, 8) == 0)
        return (uint8_t)(1 + random_below(state, SYNICBOARD_SEND));
    return often[random_below(state, sizeof often)];
}

static uint32_t random_register(uint64_t *state)
{
    static const uint32_t registers[] = {
        EOI, EOI, SCONTROL, SCONTROL, SIEFP, SIMP, EOM,
        SINT0 + SOURCE, STIMER0_CONFIG, STIMER0_COUNT, REFERENCE_COUNTER
    };
    return registers[random_below(state, sizeof registers / sizeof *registers)];
}

static uint64_t random_value(uint64_t *state)
{
    static const uint64_t values[] = { 0, 1, 2 * PAGE + 1, PAGE + 1, 0x50, 0x20051, 0x1403, 0x20003, 10 };
    return values[random_below(state, sizeof values / sizeof *values)];
}

synicboard_event random_event(synicboard *board, uint64_t *state)
{
    synicboard_event event = { .kind = random_kind(state) };
    event.vp = (uint8_t)(random_below(state, 16) % 3);
    event.sint = SOURCE;
    event.port = (uint8_t)(MESSAGE_PORT + random_below(state, 2));
    event.buffers = (uint8_t)random_below(state, 4);
    event.vector = (uint8_t)(16 + random_below(state, 240));
    event.part = (uint8_t)random_below(state, 5);
    event.length = (uint8_t)random_below(state, 9);
    event.flag = (uint16_t)random_below(state, 6);
    event.count = (uint16_t)random_below(state, 8);
    event.msr = random_register(state);
    event.message_type = (uint32_t)random_below(state, 4);
    event.value = random_value(state);
    event.address = PAGE * random_below(state, 5) + SLOT * random_below(state, 4);
    event.moment = synicboard_moment(board) + random_below(state, 40) - (synicboard_moment(board) > 0);
    for (size_t at = 0; at < event.length; at++)
        event.bytes[at] = (uint8_t)random_below(state, 2);
    return event;
}

synicboard_reply perform_random(synicboard *board, uint64_t *state)
{
    synicboard_event event = random_event(board, state);
    if (random_below(state, 2) == 0)
        return synicboard_perform(board, &event);
    return perform_by_call(board, &event);
}

void perform_many(synicboard *board, uint64_t seed, unsigned events)
{
    for (unsigned number = 0; number < events; number++)
        perform_random(board, &seed);
}
