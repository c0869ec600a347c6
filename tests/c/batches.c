/* Batches beyond what scripts show: closed handles, invalid events, and buffers that are too small. */
#include <stdbool.h>
#include <stddef.h>
#include <stdint.h>
#include <string.h>

#include "checks.h"
#include "synicboard.h"

enum { EVENTS = 4, NOTICES = 300, FILLER = 0xee };

static synicboard_reply replies[EVENTS];
static synicboard_notice notices[NOTICES];

/* The buffers are unchanged after the first `done` replies and `told` notices. */
static void check_rooms(size_t done, size_t told, int line)
{
    const uint8_t *reply = (const uint8_t *)(replies + done), *notice = (const uint8_t *)(notices + told);
    bool is_left = true;
    for (size_t at = 0; at < (EVENTS - done) * sizeof *replies; at++)
        is_left = is_left && reply[at] == FILLER;
    for (size_t at = 0; at < (NOTICES - told) * sizeof *notices; at++)
        is_left = is_left && notice[at] == FILLER;
    check(is_left, "the rest of the rooms", line);
}

static void check_batch(synicboard_batch batch, uint8_t end, size_t done, size_t told, int line)
{
    check_number(batch.end, end, "the end of a batch", line);
    check_number(batch.done, done, "the events of a batch", line);
    check_number(batch.emitted, told, "the notices of a batch", line);
    check_rooms(done, told, line);
}

#define CHECK_BATCH(batch, end, done, told) check_batch((batch), (end), (done), (told), __LINE__)

/* Assert three vectors at two processors; the last one is already requested. */
static const synicboard_event asserts[EVENTS] = {
    { .kind = SYNICBOARD_ASSERT, .vp = 0, .vector = 0x60 },
    { .kind = SYNICBOARD_ASSERT, .vp = 1, .vector = 0x61 },
    { .kind = SYNICBOARD_ASSERT, .vp = 0, .vector = 0x70 },
    { .kind = SYNICBOARD_ASSERT, .vp = 0, .vector = 0x60 },
};

/* Performs `count` of these on a board of two processors, with buffers of this capacity. */
static synicboard_batch perform(synicboard *board, size_t count, size_t reply_room, size_t notice_room)
{
    CHECK_NUMBER(synicboard_open(board, 2, 1, 0), SYNICBOARD_OK);
    memset(replies, FILLER, sizeof replies);
    memset(notices, FILLER, sizeof notices);
    return synicboard_perform_all(board, asserts, count, replies, reply_room, notices, notice_room);
}

static void test_closed_handle(void)
{
    synicboard board = SYNICBOARD_CLOSED;
    memset(replies, FILLER, sizeof replies);
    memset(notices, FILLER, sizeof notices);
    CHECK_BATCH(synicboard_perform_all(&board, asserts, EVENTS, replies, EVENTS, notices, NOTICES),
        SYNICBOARD_IS_CLOSED, 0, 0);
    CHECK(!board.is_open);
}

static void test_all(void)
{
    synicboard board = SYNICBOARD_CLOSED;
    refuse(0);
    CHECK_BATCH(perform(&board, EVENTS, EVENTS, NOTICES), SYNICBOARD_OK, 4, 3);
    for (size_t at = 0; at < EVENTS; at++)
        CHECK_REPLY(replies[at], SYNICBOARD_DONE);
    CHECK_NUMBER(replies[0].notices, 1);
    CHECK_NUMBER(replies[1].notices, 1);
    CHECK_NUMBER(replies[2].notices, 1);
    CHECK_NUMBER(replies[3].notices, 0);
    CHECK_NUMBER(notices[0].vector, 0x60);
    CHECK_NUMBER(notices[1].vector, 0x61);
    CHECK_NUMBER(notices[1].vp, 1);
    CHECK_NUMBER(notices[2].vector, 0x70);
    CHECK_NUMBER(synicboard_notices(&board, notices, NOTICES), 0);
    CHECK_NUMBER(synicboard_next(&board, 0), 0x70);
    CHECK_NUMBER(synicboard_next(&board, 1), 0x61);
    synicboard_close(&board);
}

static void test_takes_no_memory(void)
{
    synicboard board = SYNICBOARD_CLOSED;
    CHECK_NUMBER(synicboard_open(&board, 2, 1, 0), SYNICBOARD_OK);
    refuse(1);
    CHECK_NUMBER(synicboard_perform_all(&board, asserts, EVENTS, replies, EVENTS, notices, NOTICES).done, EVENTS);
    CHECK_NUMBER(requests, 0);
    CHECK_NUMBER(returns, 0);
    refuse(0);
    synicboard_close(&board);
}

/* The events before an invalid one are performed, and none after it. */
static void test_no_event(void)
{
    for (size_t place = 0; place < EVENTS; place++) {
        synicboard_event events[EVENTS];
        synicboard board = SYNICBOARD_CLOSED;
        memcpy(events, asserts, sizeof events);
        events[place].vector = 15;
        CHECK_NUMBER(synicboard_open(&board, 2, 1, 0), SYNICBOARD_OK);
        memset(replies, FILLER, sizeof replies);
        memset(notices, FILLER, sizeof notices);
        CHECK_BATCH(synicboard_perform_all(&board, events, EVENTS, replies, EVENTS, notices, NOTICES),
            SYNICBOARD_NO_EVENT, place, place);
        CHECK_NUMBER(synicboard_next(&board, 0), place == 0 ? 0 : place < 3 ? 0x60 : 0x70);
        CHECK_NUMBER(synicboard_next(&board, 1), place < 2 ? 0 : 0x61);
        synicboard_close(&board);
    }
}

static void test_room(void)
{
    synicboard board = SYNICBOARD_CLOSED;
    for (size_t room = 0; room < EVENTS; room++) {
        CHECK_BATCH(perform(&board, EVENTS, room, NOTICES), SYNICBOARD_NO_ROOM, room, room);
        synicboard_close(&board);
    }
    for (size_t more = 0; more < 3; more++) {
        size_t room = SYNICBOARD_MOST_NOTICES + more;
        CHECK_BATCH(perform(&board, EVENTS, EVENTS, room), SYNICBOARD_NO_ROOM, more + 1, more + 1);
        CHECK_NUMBER(synicboard_next(&board, 1), more == 0 ? 0 : 0x61);
        synicboard_close(&board);
    }
    CHECK_BATCH(perform(&board, EVENTS, EVENTS, SYNICBOARD_MOST_NOTICES - 1), SYNICBOARD_NO_ROOM, 0, 0);
    CHECK_NUMBER(synicboard_next(&board, 0), 0);
    synicboard_close(&board);
}

static void test_counts_of_zero(void)
{
    synicboard board = SYNICBOARD_CLOSED;
    CHECK_BATCH(perform(&board, 0, 0, 0), SYNICBOARD_OK, 0, 0);
    synicboard_close(&board);
    CHECK_BATCH(perform(&board, 1, 0, 0), SYNICBOARD_NO_ROOM, 0, 0);
    synicboard_close(&board);
}

static const struct test tests[] = {
    { "a closed handle", test_closed_handle },
    { "a batch that is performed", test_all },
    { "a batch takes no memory", test_takes_no_memory },
    { "what is no event", test_no_event },
    { "too little room", test_room },
    { "counts of zero", test_counts_of_zero },
};

int main(void)
{
    return run_tests(tests, sizeof tests / sizeof *tests);
}
