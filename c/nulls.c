/* The calls of synicboard.h. Each checks its pointers for null and leaves everything else to the
 * proved call.
 *
 * The proof assumes that no pointer is null. The proved calls themselves handle closed handles,
 * numbers that encode no event, and buffers that are too small. So each null pointer is replaced by
 * a value that they already handle (nulls.h):
 *
 *   a handle               a closed one
 *   bytes, and 0 of them   an empty array
 *   bytes, and more        more bytes than any event has
 *   an event               one of an unknown kind; it also replaces an array
 *   a reply                one of an unknown kind
 *   an output buffer       one of length 0
 *   `page` of a page call  a variable that is not read
 *   a view, or owners      zeros, which are not read
 *   `due` of a tick        a variable that is not read
 *   `forwarded`               a variable that is not read
 *   `ticket` of a slot     a variable that is not read
 *
 * A handle to open and a text with a length have no such value. The header defines what their calls
 * return, and they come last here. No call in this file allocates or keeps state. `./library`
 * renames the proved calls, so that these have the public names. */
#include "nulls.h"

/* ---- How a call is built ---- */

#define SELDOM(condition) __builtin_expect((condition), 0)

/* Checks the pointers, replaces those that are null, and calls the proved function. */
#define CALL(answer, name, is_null, stand_ins, arguments, ...) \
    answer proved_##name(__VA_ARGS__);                         \
    answer name(__VA_ARGS__)                                   \
    {                                                          \
        if (SELDOM(is_null)) {                                 \
            stand_ins                                          \
            return proved_##name arguments;                    \
        }                                                      \
        return proved_##name arguments;                        \
    }

/* For calls whose only pointer is the board. */
#define EVENT_CALL(name, arguments, ...) \
    CALL(synicboard_reply, name, board == NULL, BOARD(board), arguments, __VA_ARGS__)
#define LOOK(answer, name, arguments, ...) \
    CALL(answer, name, board == NULL, CONST_BOARD(board), arguments, __VA_ARGS__)

/* ---- Events ---- */

EVENT_CALL(synicboard_open_message_port, (board, port, vp, sint, buffers),
           synicboard *board, uint8_t port, uint8_t vp, uint8_t sint, uint8_t buffers)
EVENT_CALL(synicboard_open_event_port, (board, port, vp, sint, base, count),
           synicboard *board, uint8_t port, uint8_t vp, uint8_t sint, uint16_t base, uint16_t count)
EVENT_CALL(synicboard_close_port, (board, port), synicboard *board, uint8_t port)
EVENT_CALL(synicboard_write, (board, vp, msr, value),
           synicboard *board, uint8_t vp, uint32_t msr, uint64_t value)
EVENT_CALL(synicboard_read, (board, vp, msr), synicboard *board, uint8_t vp, uint32_t msr)
CALL(synicboard_reply, synicboard_post, board == NULL || payload == NULL,
     BOARD(board) BYTES(payload, length), (board, port, message_type, payload, length),
     synicboard *board, uint8_t port, uint32_t message_type, const uint8_t *payload, size_t length)
EVENT_CALL(synicboard_signal, (board, port, flag), synicboard *board, uint8_t port, uint16_t flag)
EVENT_CALL(synicboard_assert, (board, vp, vector), synicboard *board, uint8_t vp, uint8_t vector)
EVENT_CALL(synicboard_assert_source, (board, vp, sint), synicboard *board, uint8_t vp, uint8_t sint)
EVENT_CALL(synicboard_absorb, (board, vp, part, bits),
           synicboard *board, uint8_t vp, uint8_t part, uint64_t bits)
CALL(synicboard_reply, synicboard_store, board == NULL || bytes == NULL,
     BOARD(board) BYTES(bytes, length), (board, address, bytes, length),
     synicboard *board, uint64_t address, const uint8_t *bytes, size_t length)
EVENT_CALL(synicboard_load, (board, address, length), synicboard *board, uint64_t address, uint8_t length)
EVENT_CALL(synicboard_tick, (board, moment), synicboard *board, uint64_t moment)
EVENT_CALL(synicboard_take, (board, vp), synicboard *board, uint8_t vp)
EVENT_CALL(synicboard_suspend, (board, vp), synicboard *board, uint8_t vp)
EVENT_CALL(synicboard_resume, (board, vp), synicboard *board, uint8_t vp)
EVENT_CALL(synicboard_reset, (board, vp), synicboard *board, uint8_t vp)
EVENT_CALL(synicboard_send, (board, vector, mask), synicboard *board, uint8_t vector, uint64_t mask)
CALL(synicboard_reply, synicboard_perform, board == NULL || event == NULL,
     BOARD(board) EVENT(event), (board, event),
     synicboard *board, const synicboard_event *event)
CALL(synicboard_batch, synicboard_perform_all,
     board == NULL || events == NULL || replies == NULL || notices == NULL,
     BOARD(board) EVENTS(events, count)
     ROOM(replies, reply_room, synicboard_reply) ROOM(notices, notice_room, synicboard_notice),
     (board, events, count, replies, reply_room, notices, notice_room),
     synicboard *board, const synicboard_event *events, size_t count,
     synicboard_reply *replies, size_t reply_room, synicboard_notice *notices, size_t notice_room)

CALL(synicboard_answer, synicboard_step, board == NULL || event == NULL || notices == NULL,
     BOARD(board) EVENT(event) ROOM(notices, room, synicboard_notice),
     (board, now, event, assisted, notices, room),
     synicboard *board, uint64_t now, const synicboard_event *event, uint64_t assisted,
     synicboard_notice *notices, size_t room)

/* ---- Queries ----
 *
 * Contracts see a mutable handle, and that the board is the same afterwards. */

CALL(size_t, synicboard_notices, board == NULL || room == NULL,
     CONST_BOARD(board) ROOM(room, length, synicboard_notice), (board, room, length),
     const synicboard *board, synicboard_notice *room, size_t length)
LOOK(uint8_t, synicboard_next, (board, vp), const synicboard *board, uint8_t vp)
LOOK(bool, synicboard_is_auto, (board, vp, vector), const synicboard *board, uint8_t vp, uint8_t vector)
LOOK(bool, synicboard_no_eoi_required, (board, vp), const synicboard *board, uint8_t vp)
LOOK(uint16_t, synicboard_queued, (board, vp, sint), const synicboard *board, uint8_t vp, uint8_t sint)
LOOK(uint64_t, synicboard_moment, (board), const synicboard *board)
LOOK(uint64_t, synicboard_next_ticket, (board), const synicboard *board)
LOOK(synicboard_port_state, synicboard_port, (board, port), const synicboard *board, uint8_t port)
LOOK(uint64_t, synicboard_next_bits, (board), const synicboard *board)
LOOK(synicboard_page_owner, synicboard_owner, (board, page), const synicboard *board, uint64_t page)
LOOK(synicboard_overlay, synicboard_next_overlay, (board, from), const synicboard *board, uint64_t from)
CALL(synicboard_reply, synicboard_tick_due, board == NULL || due == NULL, BOARD(board) DUE(due),
     (board, moment, due), synicboard *board, uint64_t moment, synicboard_due *due)
CALL(synicboard_timer_state, synicboard_timer, board == NULL, CONST_BOARD(board), (board, vp, timer),
     const synicboard *board, uint8_t vp, uint8_t timer)
CALL(bool, synicboard_slot, board == NULL || ticket == NULL, CONST_BOARD(board) TICKET(ticket),
     (board, vp, sint, ticket), const synicboard *board, uint8_t vp, uint8_t sint, uint64_t *ticket)
CALL(synicboard_local_apic, synicboard_lapic, board == NULL, CONST_BOARD(board), (board, vp),
     const synicboard *board, uint8_t vp)
CALL(synicboard_due, synicboard_earliest, board == NULL, CONST_BOARD(board), (board), const synicboard *board)
CALL(synicboard_due, synicboard_earliest_after, board == NULL, CONST_BOARD(board), (board, moment),
     const synicboard *board, uint64_t moment)
CALL(synicboard_next_tick, synicboard_alarm, board == NULL, CONST_BOARD(board), (board), const synicboard *board)
CALL(uint64_t, synicboard_update, board == NULL || view == NULL, CONST_BOARD(board) VIEW(view),
     (board, view), const synicboard *board, synicboard_view *view)
CALL(synicboard_changes, synicboard_update_wide, board == NULL || view == NULL, CONST_BOARD(board) WIDE_VIEW(view),
     (board, view), const synicboard *board, synicboard_wide_view *view)
CALL(uint64_t, synicboard_update_owners, board == NULL || owners == NULL, CONST_BOARD(board) OWNERS(owners),
     (board, owners), const synicboard *board, synicboard_owners *owners)
CALL(bool, synicboard_message_page, board == NULL || page == NULL, CONST_BOARD(board) PLACE(page),
     (board, vp, page), const synicboard *board, uint8_t vp, const uint8_t **page)
CALL(bool, synicboard_flag_page, board == NULL || page == NULL, CONST_BOARD(board) PLACE(page),
     (board, vp, page), const synicboard *board, uint8_t vp, const uint8_t **page)
CALL(bool, synicboard_guest_page, board == NULL || page == NULL, CONST_BOARD(board) PLACE(page),
     (board, number, page), const synicboard *board, uint64_t number, const uint8_t **page)

CALL(synicboard_reply, synicboard_forward, board == NULL || forwarded == NULL, BOARD(board) FORWARDED(forwarded),
     (board, vp, forwarded), synicboard *board, uint8_t vp, synicboard_forwarded *forwarded)

/* ---- Live pages ---- */

LOOK(uint64_t, synicboard_eoms, (board), const synicboard *board)
EVENT_CALL(synicboard_observe, (board, vp), synicboard *board, uint8_t vp)
EVENT_CALL(synicboard_observe_all, (board, vp), synicboard *board, uint8_t vp)
LOOK(bool, synicboard_is_live, (board), const synicboard *board)

/* ---- Calls without pointers ---- */

#define VALUE_CALL(answer, name, arguments, ...) \
    answer proved_##name(__VA_ARGS__);           \
    answer name(__VA_ARGS__)                     \
    {                                            \
        return proved_##name arguments;          \
    }

VALUE_CALL(synicboard_tsc_page, synicboard_tsc_page_at, (hz, tsc, time), uint64_t hz, uint64_t tsc, uint64_t time)
VALUE_CALL(synicboard_tsc_page, synicboard_tsc_page_moved, (page, tsc, time),
           synicboard_tsc_page page, uint64_t tsc, uint64_t time)
VALUE_CALL(uint64_t, synicboard_tsc_time, (page, tsc), synicboard_tsc_page page, uint64_t tsc)
VALUE_CALL(uint64_t, synicboard_tsc_until, (page, time), synicboard_tsc_page page, uint64_t time)
VALUE_CALL(bool, synicboard_has_register, (msr), uint32_t msr)

/* ---- Lines ---- */

CALL(uint8_t, synicboard_raise, line == NULL, LINE(line), (line, vp, vector),
     synicboard_line *line, uint8_t vp, uint8_t vector)
CALL(synicboard_reply, synicboard_absorb_line, board == NULL || line == NULL,
     BOARD(board) LINE(line), (board, line, vp, part),
     synicboard *board, synicboard_line *line, uint8_t vp, uint8_t part)

/* ---- Texts ---- */

CALL(synicboard_end, synicboard_save, board == NULL || room == NULL,
     BOARD(board) ROOM(room, length, uint8_t), (board, room, length),
     synicboard *board, uint8_t *room, size_t length)
CALL(synicboard_end, synicboard_format_entry, event == NULL || reply == NULL || room == NULL,
     EVENT(event) REPLY(reply) ROOM(room, length, uint8_t), (actor, event, reply, room, length),
     uint8_t actor, const synicboard_event *event, const synicboard_reply *reply,
     uint8_t *room, size_t length)

/* ---- Calls without a replacement ---- */

#define PROVED(name) __typeof__(name) proved_##name

PROVED(synicboard_open);
PROVED(synicboard_open_sparse);
PROVED(synicboard_restore);
PROVED(synicboard_close);
PROVED(synicboard_open_line);
PROVED(synicboard_split_line);
PROVED(synicboard_close_line);
PROVED(synicboard_replay);
PROVED(synicboard_check);

uint8_t synicboard_open(synicboard *board, uint8_t processors, uint8_t pages, uint64_t first_ticket)
{
    if (board == NULL)
        return SYNICBOARD_NO_HANDLE;
    return proved_synicboard_open(board, processors, pages, first_ticket);
}

uint8_t synicboard_open_sparse(synicboard *board, uint8_t processors, uint64_t first_ticket)
{
    if (board == NULL)
        return SYNICBOARD_NO_HANDLE;
    return proved_synicboard_open_sparse(board, processors, first_ticket);
}

void synicboard_close(synicboard *board)
{
    if (board != NULL)
        proved_synicboard_close(board);
}

uint8_t synicboard_open_line(synicboard_line *line, uint8_t processors)
{
    if (line == NULL)
        return SYNICBOARD_NO_HANDLE;
    return proved_synicboard_open_line(line, processors);
}

uint8_t synicboard_split_line(synicboard_line *line, synicboard_line *other)
{
    if (other == NULL)
        return SYNICBOARD_NO_HANDLE;
    LINE(line)
    return proved_synicboard_split_line(line, other);
}

void synicboard_close_line(synicboard_line *line)
{
    if (line != NULL)
        proved_synicboard_close_line(line);
}

synicboard_end synicboard_replay(const uint8_t *script, size_t script_length, uint8_t *room, size_t length)
{
    if (script == NULL && script_length > 0)
        return (synicboard_end){ .kind = SYNICBOARD_NO_TEXT };
    BYTES(script, script_length)
    ROOM(room, length, uint8_t)
    return proved_synicboard_replay(script, script_length, room, length);
}

synicboard_end synicboard_restore(synicboard *board, const uint8_t *image, size_t length)
{
    if (board == NULL)
        return (synicboard_end){ .kind = SYNICBOARD_NO_HANDLE };
    if (image == NULL && length > 0)
        return (synicboard_end){ .kind = SYNICBOARD_NO_TEXT };
    BYTES(image, length)
    return proved_synicboard_restore(board, image, length);
}

synicboard_verdict synicboard_check(const uint8_t *trace, size_t length)
{
    if (trace == NULL && length > 0)
        return (synicboard_verdict){ .kind = SYNICBOARD_NO_TEXT };
    BYTES(trace, length)
    return proved_synicboard_check(trace, length);
}
