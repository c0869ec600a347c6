/* Each call of the header with each of its pointers null: what it returns, and that it changes
 * nothing. */
#include <stdbool.h>
#include <stddef.h>
#include <stdint.h>
#include <stdio.h>
#include <string.h>

#include "checks.h"
#include "synicboard.h"

enum { MESSAGE_PORT = 3, SOURCE = 2, SLOT = 256, EVENTS = 4, NOTICES = 300, MOST_SPLITS = 319, FILLER = 0xee };

static struct text before, after;

/* ---- Boards and buffers ---- */

/* A board of one processor and four pages, with its message page at page 2 and a port with two
 * buffers. */
static void open_board(synicboard *board)
{
    CHECK_NUMBER(synicboard_open(board, 1, 4, 7), SYNICBOARD_OK);
    CHECK_REPLY(synicboard_write(board, 0, SCONTROL, 1), SYNICBOARD_DONE);
    CHECK_REPLY(synicboard_write(board, 0, SIMP, 2 * PAGE + 1), SYNICBOARD_DONE);
    CHECK_REPLY(synicboard_write(board, 0, SINT0 + SOURCE, 0x50), SYNICBOARD_DONE);
    CHECK_REPLY(synicboard_open_message_port(board, MESSAGE_PORT, 0, SOURCE, 2), SYNICBOARD_DONE);
    CHECK_REPLY(synicboard_tick(board, 5), SYNICBOARD_DONE);
}

/* The same with a message in its slot, whose post emitted three notices. */
static void open_busy(synicboard *board)
{
    const uint8_t payload[] = { 0x0a, 0x0b };
    open_board(board);
    synicboard_reply reply = synicboard_post(board, MESSAGE_PORT, 1, payload, sizeof payload);
    CHECK_REPLY(reply, SYNICBOARD_ACCEPTED);
    CHECK_NUMBER(reply.ticket, 7);
    CHECK_NUMBER(reply.notices, 3);
    describe(board, &before);
}

static void check_unchanged(synicboard *board, int line)
{
    describe(board, &after);
    check_same(&before, &after, line);
}

#define CHECK_UNCHANGED(board) check_unchanged((board), __LINE__)

static bool is_filled(const void *room, size_t size)
{
    const uint8_t *bytes = room;
    size_t at = 0;
    while (at < size && bytes[at] == FILLER)
        at++;
    return at == size;
}

/* ---- A null board ---- */

static void test_null_board(void)
{
    const uint8_t byte = 1;
    const synicboard_event event = { .kind = SYNICBOARD_TICK, .moment = 1 };
    refuse(0);
    CHECK_FAULT(synicboard_open_message_port(NULL, 0, 0, 2, 1), SYNICBOARD_IS_CLOSED);
    CHECK_FAULT(synicboard_open_event_port(NULL, 0, 0, 2, 0, 1), SYNICBOARD_IS_CLOSED);
    CHECK_FAULT(synicboard_close_port(NULL, 0), SYNICBOARD_IS_CLOSED);
    CHECK_FAULT(synicboard_write(NULL, 0, SCONTROL, 1), SYNICBOARD_IS_CLOSED);
    CHECK_FAULT(synicboard_read(NULL, 0, SCONTROL), SYNICBOARD_IS_CLOSED);
    CHECK_FAULT(synicboard_post(NULL, 0, 1, &byte, 1), SYNICBOARD_IS_CLOSED);
    CHECK_FAULT(synicboard_signal(NULL, 0, 0), SYNICBOARD_IS_CLOSED);
    CHECK_FAULT(synicboard_assert(NULL, 0, 0x60), SYNICBOARD_IS_CLOSED);
    CHECK_FAULT(synicboard_assert(NULL, 0, 15), SYNICBOARD_IS_CLOSED);
    CHECK_FAULT(synicboard_absorb(NULL, 0, 1, 1), SYNICBOARD_IS_CLOSED);
    CHECK_FAULT(synicboard_store(NULL, 0, &byte, 1), SYNICBOARD_IS_CLOSED);
    CHECK_FAULT(synicboard_load(NULL, 0, 1), SYNICBOARD_IS_CLOSED);
    CHECK_FAULT(synicboard_tick(NULL, 1), SYNICBOARD_IS_CLOSED);
    CHECK_FAULT(synicboard_take(NULL, 0), SYNICBOARD_IS_CLOSED);
    CHECK_FAULT(synicboard_suspend(NULL, 0), SYNICBOARD_IS_CLOSED);
    CHECK_FAULT(synicboard_resume(NULL, 0), SYNICBOARD_IS_CLOSED);
    CHECK_FAULT(synicboard_reset(NULL, 0), SYNICBOARD_IS_CLOSED);
    CHECK_FAULT(synicboard_send(NULL, 0x60, 1), SYNICBOARD_IS_CLOSED);
    CHECK_FAULT(synicboard_send(NULL, 15, 1), SYNICBOARD_IS_CLOSED);
    CHECK_FAULT(synicboard_perform(NULL, &event), SYNICBOARD_IS_CLOSED);
    CHECK_NUMBER(requests + returns, 0);
}

/* A null board is reported before anything else is checked. */
static void test_null_board_and_more(void)
{
    CHECK_FAULT(synicboard_post(NULL, 0, 1, NULL, 1), SYNICBOARD_IS_CLOSED);
    CHECK_FAULT(synicboard_post(NULL, 0, 1, NULL, 0), SYNICBOARD_IS_CLOSED);
    CHECK_FAULT(synicboard_store(NULL, 0, NULL, 1), SYNICBOARD_IS_CLOSED);
    CHECK_FAULT(synicboard_store(NULL, 0, NULL, 0), SYNICBOARD_IS_CLOSED);
    CHECK_FAULT(synicboard_perform(NULL, NULL), SYNICBOARD_IS_CLOSED);
    CHECK_FAULT(synicboard_absorb_line(NULL, NULL, 0, 1), SYNICBOARD_IS_CLOSED);
    CHECK_NUMBER(synicboard_notices(NULL, NULL, NOTICES), 0);
    CHECK_NUMBER(synicboard_perform_all(NULL, NULL, 1, NULL, 1, NULL, NOTICES).end, SYNICBOARD_IS_CLOSED);
    CHECK(!synicboard_message_page(NULL, 0, NULL));
    CHECK(!synicboard_flag_page(NULL, 0, NULL));
    CHECK(!synicboard_guest_page(NULL, 0, NULL));
}

static void test_null_board_looks(void)
{
    const uint8_t byte = 0, *page = &byte;
    synicboard_notice notice;
    synicboard_view view = { .next = { 0x50 } };
    synicboard_wide_view wide = { .next = { 0x50 } };
    synicboard_owners owners = { .page = { { .kind = SYNICBOARD_OWNER_GUEST } } };
    memset(&notice, FILLER, sizeof notice);
    CHECK_NUMBER(synicboard_next(NULL, 0), 0);
    CHECK(!synicboard_is_auto(NULL, 0, 0x50));
    CHECK_NUMBER(synicboard_queued(NULL, 0, SOURCE), 0);
    CHECK_NUMBER(synicboard_moment(NULL), 0);
    CHECK_NUMBER(synicboard_next_ticket(NULL), 0);
    CHECK_NUMBER(synicboard_owner(NULL, 0).kind, SYNICBOARD_OWNER_NOTHING);
    CHECK_NUMBER(synicboard_owner(NULL, 0).vp, 0);
    synicboard_overlay overlay = synicboard_next_overlay(NULL, 0);
    CHECK(overlay.owner.kind == SYNICBOARD_OWNER_NOTHING && overlay.owner.vp == 0 && overlay.page == 0);
    CHECK_NUMBER(synicboard_tick_due(NULL, 5, NULL).fault, SYNICBOARD_IS_CLOSED);
    CHECK(!synicboard_no_eoi_required(NULL, 0));
    CHECK_NUMBER(synicboard_forward(NULL, 0, NULL).fault, SYNICBOARD_IS_CLOSED);
    synicboard_local_apic lapic = synicboard_lapic(NULL, 0);
    CHECK(lapic.requested[0] == 0 && lapic.in_service[3] == 0 && lapic.processor_priority == 0 && !lapic.is_suspended);
    uint64_t ticket = 9;
    CHECK_NUMBER(synicboard_timer(NULL, 0, 0).config, 0);
    CHECK(!synicboard_slot(NULL, 0, SOURCE, &ticket) && ticket == 9);
    synicboard_due due = synicboard_earliest(NULL);
    CHECK(!due.is_due && due.vp == 0 && due.timer == 0 && due.low == 0 && due.high == 0);
    due = synicboard_earliest_after(NULL, 0);
    CHECK(!due.is_due && due.vp == 0 && due.timer == 0 && due.low == 0 && due.high == 0);
    synicboard_next_tick next = synicboard_alarm(NULL);
    CHECK(!next.is_set && next.moment == 0);
    CHECK_NUMBER(synicboard_update(NULL, &view), 1);
    CHECK(view.next[0] == 0);
    CHECK_NUMBER(synicboard_update_owners(NULL, &owners), 1);
    CHECK(owners.page[0].kind == SYNICBOARD_OWNER_NOTHING);
    CHECK_NUMBER(synicboard_update_wide(NULL, &wide).next, 1);
    CHECK(wide.next[0] == 0);
    CHECK_NUMBER(synicboard_update(NULL, NULL), 0);
    CHECK(synicboard_update_wide(NULL, NULL).next == 0 && !synicboard_update_wide(NULL, NULL).earliest);
    CHECK_NUMBER(synicboard_update_owners(NULL, NULL), 0);
    CHECK_NUMBER(synicboard_notices(NULL, &notice, 1), 0);
    CHECK(is_filled(&notice, sizeof notice));
    CHECK(!synicboard_message_page(NULL, 0, &page) && page == &byte);
    CHECK(!synicboard_flag_page(NULL, 0, &page) && page == &byte);
    CHECK(!synicboard_guest_page(NULL, 0, &page) && page == &byte);
}

/* ---- Handles to open or close ---- */

static void test_opening_and_closing(void)
{
    synicboard board = SYNICBOARD_CLOSED;
    open_busy(&board);
    refuse(0);
    CHECK_NUMBER(synicboard_open(NULL, 1, 1, 0), SYNICBOARD_NO_HANDLE);
    CHECK_NUMBER(synicboard_open(NULL, 9, 0, 0), SYNICBOARD_NO_HANDLE);
    CHECK_NUMBER(synicboard_open_sparse(NULL, 1, 0), SYNICBOARD_NO_HANDLE);
    CHECK_NUMBER(synicboard_open_line(NULL, 1), SYNICBOARD_NO_HANDLE);
    CHECK_NUMBER(synicboard_open_line(NULL, 9), SYNICBOARD_NO_HANDLE);
    synicboard_close(NULL);
    synicboard_close_line(NULL);
    CHECK_NUMBER(requests + returns, 0);
    CHECK_UNCHANGED(&board);
    synicboard_close(&board);
}

/* ---- Bytes ---- */

static void test_null_bytes(void)
{
    static const size_t sizes[] = { 1, 8, 9, 240, 241, 256, 65536, SIZE_MAX };
    synicboard board = SYNICBOARD_CLOSED, closed = SYNICBOARD_CLOSED;
    open_busy(&board);
    for (size_t at = 0; at < sizeof sizes / sizeof *sizes; at++) {
        CHECK_FAULT(synicboard_post(&board, MESSAGE_PORT, 1, NULL, sizes[at]), SYNICBOARD_NO_EVENT);
        CHECK_FAULT(synicboard_store(&board, PAGE, NULL, sizes[at]), SYNICBOARD_NO_EVENT);
        CHECK_UNCHANGED(&board);
        CHECK_FAULT(synicboard_post(&closed, MESSAGE_PORT, 1, NULL, sizes[at]), SYNICBOARD_IS_CLOSED);
        CHECK_FAULT(synicboard_store(&closed, PAGE, NULL, sizes[at]), SYNICBOARD_IS_CLOSED);
    }
    synicboard_close(&board);
}

/* No bytes, null or not, are the same message: one of length 0, which is placed in the slot. */
static void test_no_bytes(void)
{
    const uint8_t byte = 1, *page = NULL;
    synicboard board = SYNICBOARD_CLOSED, other = SYNICBOARD_CLOSED;
    open_board(&board);
    open_board(&other);
    synicboard_reply reply = synicboard_post(&board, MESSAGE_PORT, 1, NULL, 0);
    CHECK_REPLY(reply, SYNICBOARD_ACCEPTED);
    CHECK_NUMBER(reply.ticket, 7);
    CHECK_NUMBER(reply.notices, 3);
    CHECK_NUMBER(synicboard_post(&other, MESSAGE_PORT, 1, &byte, 0).ticket, 7);
    CHECK(synicboard_message_page(&board, 0, &page));
    CHECK_NUMBER(page[SLOT * SOURCE], 1);
    CHECK_NUMBER(page[SLOT * SOURCE + 4], 0);
    describe(&board, &before);
    CHECK_UNCHANGED(&other);
    CHECK_REFUSAL(synicboard_store(&board, PAGE, NULL, 0), SYNICBOARD_BAD_LENGTH);
    CHECK_REFUSAL(synicboard_store(&other, PAGE, &byte, 0), SYNICBOARD_BAD_LENGTH);
    describe(&board, &before);
    CHECK_UNCHANGED(&other);
    synicboard_close(&board);
    synicboard_close(&other);
}

/* ---- Events ---- */

static synicboard_reply replies[EVENTS];
static synicboard_notice notices[NOTICES];

static void check_batch(synicboard_batch batch, uint8_t end, int line)
{
    check_number(batch.end, end, "the end of a batch", line);
    check_number(batch.done, 0, "the events of a batch", line);
    check_number(batch.emitted, 0, "the notices of a batch", line);
    check(is_filled(replies, sizeof replies) && is_filled(notices, sizeof notices), "the rooms of a batch", line);
}

#define CHECK_BATCH(batch, end) check_batch((batch), (end), __LINE__)

static void test_null_event(void)
{
    synicboard board = SYNICBOARD_CLOSED, closed = SYNICBOARD_CLOSED;
    open_busy(&board);
    CHECK_FAULT(synicboard_perform(&board, NULL), SYNICBOARD_NO_EVENT);
    CHECK_UNCHANGED(&board);
    CHECK_FAULT(synicboard_perform(&closed, NULL), SYNICBOARD_IS_CLOSED);
    synicboard_close(&board);
}

static void test_batches(void)
{
    static const size_t counts[] = { 1, EVENTS, SIZE_MAX };
    const synicboard_event events[EVENTS] = { { .kind = SYNICBOARD_TICK, .moment = 9 } };
    synicboard board = SYNICBOARD_CLOSED, closed = SYNICBOARD_CLOSED;
    memset(replies, FILLER, sizeof replies);
    memset(notices, FILLER, sizeof notices);
    CHECK_BATCH(synicboard_perform_all(NULL, events, 1, replies, EVENTS, notices, NOTICES),
                SYNICBOARD_IS_CLOSED);
    CHECK_BATCH(synicboard_perform_all(&closed, NULL, 1, replies, EVENTS, notices, NOTICES),
                SYNICBOARD_IS_CLOSED);
    open_busy(&board);
    for (size_t at = 0; at < sizeof counts / sizeof *counts; at++)
        CHECK_BATCH(synicboard_perform_all(&board, NULL, counts[at], replies, EVENTS, notices, NOTICES),
                    SYNICBOARD_NO_EVENT);
    CHECK_BATCH(synicboard_perform_all(&board, NULL, 0, replies, EVENTS, notices, NOTICES), SYNICBOARD_OK);
    CHECK_BATCH(synicboard_perform_all(&board, NULL, 0, NULL, 0, NULL, 0), SYNICBOARD_OK);
    CHECK_BATCH(synicboard_perform_all(&board, events, 1, NULL, EVENTS, notices, NOTICES), SYNICBOARD_NO_ROOM);
    CHECK_BATCH(synicboard_perform_all(&board, events, 1, replies, EVENTS, NULL, NOTICES), SYNICBOARD_NO_ROOM);
    CHECK_BATCH(synicboard_perform_all(&board, NULL, 1, NULL, EVENTS, NULL, NOTICES), SYNICBOARD_NO_ROOM);
    CHECK_UNCHANGED(&board);
    synicboard_close(&board);
}

/* ---- Output buffers ---- */

static void test_null_room(void)
{
    synicboard board = SYNICBOARD_CLOSED, closed = SYNICBOARD_CLOSED;
    open_busy(&board);
    CHECK_NUMBER(synicboard_notices(&board, NULL, 0), 3);
    CHECK_NUMBER(synicboard_notices(&board, NULL, NOTICES), 3);
    CHECK_NUMBER(synicboard_notices(&closed, NULL, NOTICES), 0);
    CHECK_UNCHANGED(&board);
    synicboard_close(&board);
}

static void test_null_place(void)
{
    synicboard board = SYNICBOARD_CLOSED;
    open_busy(&board);
    CHECK(synicboard_message_page(&board, 0, NULL));
    CHECK(!synicboard_message_page(&board, 1, NULL));
    CHECK(synicboard_flag_page(&board, 0, NULL));
    CHECK(!synicboard_flag_page(&board, 1, NULL));
    CHECK(synicboard_guest_page(&board, 3, NULL));
    CHECK(!synicboard_guest_page(&board, 4, NULL));
    CHECK_UNCHANGED(&board);
    synicboard_close(&board);
}

/* ---- Lines ---- */

static void test_null_line(void)
{
    synicboard board = SYNICBOARD_CLOSED;
    synicboard_line line = SYNICBOARD_LINE_CLOSED;
    open_busy(&board);
    CHECK_NUMBER(synicboard_raise(NULL, 0, 0x60), SYNICBOARD_NOT_RAISED);
    CHECK_FAULT(synicboard_absorb_line(&board, NULL, 0, 1), SYNICBOARD_NO_LINE);
    CHECK_UNCHANGED(&board);
    CHECK_NUMBER(synicboard_open_line(&line, 1), SYNICBOARD_OK);
    CHECK_NUMBER(synicboard_raise(&line, 0, 0x60), SYNICBOARD_FRESH);
    CHECK_FAULT(synicboard_absorb_line(NULL, &line, 0, 1), SYNICBOARD_IS_CLOSED);
    CHECK_NUMBER(synicboard_raise(&line, 0, 0x60), SYNICBOARD_ALREADY);
    synicboard_close_line(&line);
    synicboard_close(&board);
}

/* A null `other` is reported first, before it could be open; then a null line counts as closed. */
static void test_splitting(void)
{
    synicboard_line line = SYNICBOARD_LINE_CLOSED, closed = SYNICBOARD_LINE_CLOSED, others[MOST_SPLITS];
    memset(others, 0, sizeof others);
    CHECK_NUMBER(synicboard_open_line(&line, 1), SYNICBOARD_OK);
    CHECK_NUMBER(synicboard_raise(&line, 0, 0x60), SYNICBOARD_FRESH);
    refuse(0);
    CHECK_NUMBER(synicboard_split_line(&line, NULL), SYNICBOARD_NO_HANDLE);
    CHECK_NUMBER(synicboard_split_line(&closed, NULL), SYNICBOARD_NO_HANDLE);
    CHECK_NUMBER(synicboard_split_line(NULL, NULL), SYNICBOARD_NO_HANDLE);
    CHECK_NUMBER(synicboard_split_line(NULL, &line), SYNICBOARD_IS_OPEN);
    CHECK_NUMBER(synicboard_split_line(NULL, &closed), SYNICBOARD_IS_CLOSED);
    CHECK(closed.at == NULL && !closed.is_open);
    CHECK_NUMBER(requests + returns, 0);
    for (size_t at = 0; at < MOST_SPLITS; at++)
        CHECK_NUMBER(synicboard_split_line(&line, &others[at]), SYNICBOARD_OK);
    CHECK_NUMBER(synicboard_split_line(&line, &closed), SYNICBOARD_NO_MORE_LINES);
    CHECK_NUMBER(synicboard_raise(&others[0], 0, 0x60), SYNICBOARD_ALREADY);
    for (size_t at = 0; at < MOST_SPLITS; at++)
        synicboard_close_line(&others[at]);
    synicboard_close_line(&line);
}

/* ---- Texts ---- */

static void check_end(synicboard_end end, uint8_t kind, uint64_t wrong, size_t length, int line)
{
    check_number(end.kind, kind, "the kind of an end", line);
    check_number(end.line, wrong, "the line of an end", line);
    check_number(end.length, length, "the length of an end", line);
}

#define CHECK_END(end, kind, wrong, length) check_end((end), (kind), (wrong), (length), __LINE__)

static void check_verdict(synicboard_verdict verdict, uint8_t kind, uint64_t wrong, int line)
{
    check_number(verdict.kind, kind, "the kind of a verdict", line);
    check_number(verdict.entries, 0, "the entries of a verdict", line);
    check_number(verdict.line, wrong, "the line of a verdict", line);
}

#define CHECK_VERDICT(verdict, kind, wrong) check_verdict((verdict), (kind), (wrong), __LINE__)

static void test_null_texts(void)
{
    const char *script = "board 1 1 0\ntake 0\n", *told = "= taken none\n", *empty = "! 1 first\n";
    uint8_t room[64];
    memset(room, FILLER, sizeof room);
    refuse(0);
    CHECK_END(synicboard_replay(NULL, 1, room, sizeof room), SYNICBOARD_NO_TEXT, 0, 0);
    CHECK_END(synicboard_replay(NULL, SIZE_MAX, room, sizeof room), SYNICBOARD_NO_TEXT, 0, 0);
    CHECK_END(synicboard_replay(NULL, 1, NULL, sizeof room), SYNICBOARD_NO_TEXT, 0, 0);
    CHECK_VERDICT(synicboard_check(NULL, 1), SYNICBOARD_NO_TEXT, 0);
    CHECK_VERDICT(synicboard_check(NULL, SIZE_MAX), SYNICBOARD_NO_TEXT, 0);
    CHECK_NUMBER(requests + returns, 0);
    CHECK(is_filled(room, sizeof room));
    CHECK_END(synicboard_replay(NULL, 0, room, sizeof room), SYNICBOARD_WRONG_LINE, 1, strlen(empty));
    CHECK(memcmp(room, empty, strlen(empty)) == 0 && room[strlen(empty)] == FILLER);
    CHECK_END(synicboard_replay(NULL, 0, NULL, sizeof room), SYNICBOARD_WRONG_LINE, 1, strlen(empty));
    CHECK_VERDICT(synicboard_check(NULL, 0), SYNICBOARD_WRONG_LINE, 1);
    CHECK_END(synicboard_replay((const uint8_t *)script, strlen(script), NULL, sizeof room), SYNICBOARD_OK, 0,
              strlen(told));
}

static void test_null_saves(void)
{
    const char *told = "image 1\nboard 1 1 5\nlapic 0 0 0 0 0 0 0 0 0 0 running\nend\n";
    synicboard board = SYNICBOARD_CLOSED;
    uint8_t room[80];
    memset(room, FILLER, sizeof room);
    CHECK_END(synicboard_save(NULL, room, sizeof room), SYNICBOARD_IS_CLOSED, 0, 0);
    CHECK_END(synicboard_save(NULL, NULL, sizeof room), SYNICBOARD_IS_CLOSED, 0, 0);
    synicboard_open(&board, 1, 1, 5);
    CHECK_END(synicboard_save(&board, NULL, sizeof room), SYNICBOARD_OK, 0, strlen(told));
    CHECK(is_filled(room, sizeof room));
    CHECK_END(synicboard_save(&board, room, sizeof room), SYNICBOARD_OK, 0, strlen(told));
    CHECK(memcmp(room, told, strlen(told)) == 0 && room[strlen(told)] == FILLER);
    synicboard_close(&board);
}

static void test_null_restores(void)
{
    const char *image = "image 1\nboard 1 1 5\nlapic 0 0 0 0 0 0 0 0 0 0 running\nend\n";
    synicboard board = SYNICBOARD_CLOSED;
    CHECK_END(synicboard_restore(NULL, (const uint8_t *)image, strlen(image)), SYNICBOARD_NO_HANDLE, 0, 0);
    CHECK_END(synicboard_restore(NULL, NULL, 1), SYNICBOARD_NO_HANDLE, 0, 0);
    CHECK_END(synicboard_restore(&board, NULL, 1), SYNICBOARD_NO_TEXT, 0, 0);
    CHECK_END(synicboard_restore(&board, NULL, 0), SYNICBOARD_WRONG_LINE, 1, 0);
    CHECK(!board.is_open);
}

static void test_null_ticket(void)
{
    const uint8_t byte = 1;
    synicboard board = SYNICBOARD_CLOSED;
    synicboard_open(&board, 1, 1, 5);
    synicboard_write(&board, 0, SCONTROL, 1);
    synicboard_write(&board, 0, SIMP, 1);
    synicboard_write(&board, 0, SINT0 + 2, 0x50);
    synicboard_open_message_port(&board, 3, 0, 2, 1);
    synicboard_post(&board, 3, 1, &byte, 1);
    CHECK(synicboard_slot(&board, 0, 2, NULL));
    CHECK(!synicboard_slot(&board, 0, 3, NULL));
    synicboard_close(&board);
}

static void test_null_entries(void)
{
    const synicboard_event event = { .kind = SYNICBOARD_TAKE };
    const synicboard_reply reply = { .kind = SYNICBOARD_NONE_TAKEN };
    const char *told = "9 take 0\n= taken none\n";
    uint8_t room[64];
    memset(room, FILLER, sizeof room);
    CHECK_END(synicboard_format_entry(9, NULL, &reply, room, sizeof room), SYNICBOARD_WRONG_LINE, 1, 0);
    CHECK_END(synicboard_format_entry(9, &event, NULL, room, sizeof room), SYNICBOARD_WRONG_LINE, 2, 0);
    CHECK_END(synicboard_format_entry(9, NULL, NULL, NULL, sizeof room), SYNICBOARD_WRONG_LINE, 1, 0);
    CHECK_END(synicboard_format_entry(9, &event, &reply, NULL, sizeof room), SYNICBOARD_OK, 0, strlen(told));
    CHECK(is_filled(room, sizeof room));
    CHECK_END(synicboard_format_entry(9, &event, &reply, room, sizeof room), SYNICBOARD_OK, 0, strlen(told));
    CHECK(memcmp(room, told, strlen(told)) == 0 && room[strlen(told)] == FILLER);
}

static const struct test tests[] = {
    { "events on a null board", test_null_board },
    { "a null board is judged first", test_null_board_and_more },
    { "looks at a null board", test_null_board_looks },
    { "opening and closing", test_opening_and_closing },
    { "null bytes", test_null_bytes },
    { "no bytes", test_no_bytes },
    { "a null event", test_null_event },
    { "batches", test_batches },
    { "a null room", test_null_room },
    { "a null place", test_null_place },
    { "a null line", test_null_line },
    { "splitting", test_splitting },
    { "null texts", test_null_texts },
    { "null entries", test_null_entries },
    { "a null place of a ticket", test_null_ticket },
    { "null pointers of a save", test_null_saves },
    { "null pointers of a restore", test_null_restores },
};

int main(void)
{
    return run_tests(tests, sizeof tests / sizeof *tests);
}
