/* Shared boards: any board under a lock, and back; the same replies, notices and pages as unshared; no memory
 * taken by a million calls; and threads that act, take the lock for several events, and raise. */
#include <pthread.h>
#include <stdbool.h>
#include <stddef.h>
#include <stdint.h>
#include <string.h>

#include "checks.h"
#include "synicboard.h"

enum { FIRST_TICKET = 7, SIMP_AT_PAGE_1 = 0x1001, PORT = 3, SINT = 2, VECTOR = 0x50, MANY = 1000000 };

static struct text before, after;

static synicboard_reply act(synicboard_shared *shared, synicboard_event event)
{
    return synicboard_act(shared, 0, &event, NULL, 0);
}

/* Messages after an occupied slot, a timer that is due, and an access of the guest's memory. */
static const synicboard_event events[] = {
    { .kind = SYNICBOARD_WRITE, .msr = SCONTROL, .value = 1 },
    { .kind = SYNICBOARD_WRITE, .msr = SIMP, .value = SIMP_AT_PAGE_1 },
    { .kind = SYNICBOARD_WRITE, .msr = SINT0 + SINT, .value = VECTOR },
    { .kind = SYNICBOARD_OPEN_MESSAGE_PORT, .port = PORT, .sint = SINT, .buffers = 2 },
    { .kind = SYNICBOARD_POST, .port = PORT, .message_type = 1, .length = 5, .bytes = "hello" },
    { .kind = SYNICBOARD_POST, .port = PORT, .message_type = 2, .length = 240, .bytes = { [239] = 0xff } },
    { .kind = SYNICBOARD_WRITE, .msr = STIMER0_CONFIG, .value = 0x2000b },
    { .kind = SYNICBOARD_WRITE, .msr = STIMER0_COUNT, .value = 10 },
    { .kind = SYNICBOARD_TICK, .moment = 1000 },
    { .kind = SYNICBOARD_LOAD, .address = 0x3000, .length = 8 },
    { .kind = SYNICBOARD_STORE, .address = 0x1200, .length = 4 },
    { .kind = SYNICBOARD_WRITE, .msr = EOM },
    { .kind = SYNICBOARD_TAKE },
    { .kind = 0 },
};
enum { EVENTS = sizeof events / sizeof events[0] };

/* Performs the events on a board and on a shared one in the same state. */
static void perform_both(synicboard *board, synicboard_shared *shared)
{
    for (size_t at = 0; at < EVENTS; at++) {
        static synicboard_notice ours[SYNICBOARD_MOST_NOTICES], theirs[SYNICBOARD_MOST_NOTICES];
        memset(ours, 0, sizeof ours);
        memset(theirs, 0, sizeof theirs);
        synicboard_reply reply = synicboard_perform(board, &events[at]);
        synicboard_reply answer = synicboard_act(shared, 0, &events[at], ours, SYNICBOARD_MOST_NOTICES);
        CHECK_NUMBER(answer.kind, reply.kind);
        CHECK_NUMBER(answer.fault, reply.fault);
        CHECK_NUMBER(answer.refusal, reply.refusal);
        CHECK_NUMBER(answer.vector, reply.vector);
        CHECK_NUMBER(answer.ticket, reply.ticket);
        CHECK_NUMBER(answer.notices, reply.notices);
        if (reply.notices != 0)
            CHECK_NUMBER(synicboard_notices(board, theirs, SYNICBOARD_MOST_NOTICES), reply.notices);
        for (size_t notice = 0; notice < SYNICBOARD_MOST_NOTICES; notice++)
            CHECK(ours[notice].kind == theirs[notice].kind && ours[notice].ticket == theirs[notice].ticket
                  && ours[notice].vector == theirs[notice].vector);
    }
}

/* Shares a board, compares it with an equal one that is not shared, and takes it back. */
static void compare(synicboard *board, synicboard *other)
{
    synicboard_shared shared = SYNICBOARD_SHARED_CLOSED;
    CHECK_NUMBER(synicboard_share(&shared, other), SYNICBOARD_OK);
    CHECK(!other->is_open && other->at == NULL && shared.is_open);
    perform_both(board, &shared);
    describe(synicboard_hold(&shared), &after);
    synicboard_release(&shared);
    describe(board, &before);
    CHECK_SAME(&before, &after);
    CHECK_NUMBER(synicboard_unshare(&shared, other), SYNICBOARD_OK);
    CHECK(!shared.is_open && shared.at == NULL && other->is_open);
    describe(other, &after);
    CHECK_SAME(&before, &after);
    synicboard_close(other);
    synicboard_close(board);
}

static void test_any_board(void)
{
    static uint8_t image[1 << 17];
    synicboard board = SYNICBOARD_CLOSED, other = SYNICBOARD_CLOSED;
    CHECK_NUMBER(synicboard_open(&board, 2, 4, FIRST_TICKET), SYNICBOARD_OK);
    CHECK_NUMBER(synicboard_open(&other, 2, 4, FIRST_TICKET), SYNICBOARD_OK);
    compare(&board, &other);
    CHECK_NUMBER(synicboard_open_sparse(&board, 8, FIRST_TICKET), SYNICBOARD_OK);
    CHECK_NUMBER(synicboard_open_sparse(&other, 8, FIRST_TICKET), SYNICBOARD_OK);
    compare(&board, &other);
    CHECK_NUMBER(synicboard_open(&board, 2, 4, FIRST_TICKET), SYNICBOARD_OK);
    for (size_t at = 0; at < EVENTS; at++)
        synicboard_perform(&board, &events[at]);
    synicboard_end saved = synicboard_save(&board, image, sizeof image);
    CHECK_NUMBER(saved.kind, SYNICBOARD_OK);
    CHECK_NUMBER(synicboard_restore(&other, image, saved.length).kind, SYNICBOARD_OK);
    compare(&board, &other);
}

static void test_handles(void)
{
    synicboard_shared shared = SYNICBOARD_SHARED_CLOSED;
    synicboard board = SYNICBOARD_CLOSED, other = SYNICBOARD_CLOSED;
    CHECK_NUMBER(synicboard_share(NULL, &board), SYNICBOARD_NO_HANDLE);
    CHECK_NUMBER(synicboard_share(&shared, NULL), SYNICBOARD_IS_CLOSED);
    CHECK_NUMBER(synicboard_share(&shared, &board), SYNICBOARD_IS_CLOSED);
    CHECK_NUMBER(synicboard_unshare(&shared, NULL), SYNICBOARD_NO_HANDLE);
    CHECK_NUMBER(synicboard_unshare(NULL, &board), SYNICBOARD_IS_CLOSED);
    CHECK_NUMBER(synicboard_unshare(&shared, &board), SYNICBOARD_IS_CLOSED);
    CHECK_NUMBER(synicboard_open_recorded(NULL, 1, 1, 0), SYNICBOARD_NO_HANDLE);
    CHECK_NUMBER(synicboard_open_shared(NULL, 1, 1, 0), SYNICBOARD_NO_HANDLE);
    CHECK_NUMBER(synicboard_open_shared(&shared, 9, 1, 0), SYNICBOARD_BAD_SIZE);
    CHECK_NUMBER(synicboard_open_shared(&shared, 1, 65, 0), SYNICBOARD_BAD_SIZE);
    CHECK_NUMBER(synicboard_open_shared(&shared, 1, 1, 0), SYNICBOARD_OK);
    CHECK_NUMBER(synicboard_open_shared(&shared, 1, 1, 0), SYNICBOARD_IS_OPEN);
    CHECK_NUMBER(synicboard_open_recorded(&shared, 1, 1, 0), SYNICBOARD_IS_OPEN);
    CHECK_NUMBER(synicboard_open(&board, 1, 1, 0), SYNICBOARD_OK);
    CHECK_NUMBER(synicboard_share(&shared, &board), SYNICBOARD_IS_OPEN);
    CHECK_NUMBER(synicboard_unshare(&shared, &board), SYNICBOARD_IS_OPEN);
    CHECK(board.is_open);
    synicboard_close(&board);
    CHECK_NUMBER(synicboard_settle(&shared, NULL, 0).kind, SYNICBOARD_NOT_RECORDED);
    CHECK_NUMBER(synicboard_settle(&shared, NULL, 0).length, 0);
    synicboard_close_shared(&shared);
    /* A recorded board can be taken back too; its history is freed. */
    CHECK_NUMBER(synicboard_open_recorded(&shared, 1, 1, 0), SYNICBOARD_OK);
    CHECK_REPLY(act(&shared, (synicboard_event){ .kind = SYNICBOARD_TICK, .moment = 9 }), SYNICBOARD_DONE);
    CHECK_NUMBER(synicboard_unshare(&shared, &other), SYNICBOARD_OK);
    CHECK_NUMBER(synicboard_moment(&other), 9);
    synicboard_close(&other);
}

/* Refuses each allocation in turn: the board stays where it is. */
static void test_without_memory(void)
{
    synicboard_shared shared = SYNICBOARD_SHARED_CLOSED;
    synicboard board = SYNICBOARD_CLOSED;
    CHECK_NUMBER(synicboard_open_sparse(&board, 1, 0), SYNICBOARD_OK);
    refuse(1);
    CHECK_NUMBER(synicboard_share(&shared, &board), SYNICBOARD_NO_MEMORY);
    refuse(0);
    CHECK(board.is_open && !shared.is_open);
    CHECK_NUMBER(synicboard_share(&shared, &board), SYNICBOARD_OK);
    CHECK_NUMBER(requests, 1);
    synicboard_close_shared(&shared);
    refuse(0);
    CHECK_NUMBER(synicboard_open_shared(&shared, 8, 64, 0), SYNICBOARD_OK);
    size_t needed = requests, out = blocks_out;
    synicboard_close_shared(&shared);
    for (size_t number = 1; number <= needed; number++) {
        refuse(number);
        CHECK_NUMBER(synicboard_open_shared(&shared, 8, 64, 0), SYNICBOARD_NO_MEMORY);
        CHECK(!shared.is_open && blocks_out + needed == out);
    }
    refuse(0);
}

/* No call takes memory or frees any. */
static void test_memory_is_constant(void)
{
    synicboard_shared shared = SYNICBOARD_SHARED_CLOSED;
    synicboard_line line = SYNICBOARD_LINE_CLOSED;
    unsigned done = 0;
    CHECK_NUMBER(synicboard_open_shared(&shared, 1, 1, 0), SYNICBOARD_OK);
    CHECK_NUMBER(synicboard_open_line(&line, 1), SYNICBOARD_OK);
    refuse(1);
    for (uint64_t turn = 1; turn <= MANY; turn++) {
        done += act(&shared, (synicboard_event){ .kind = SYNICBOARD_TICK, .moment = turn }).kind == SYNICBOARD_DONE;
        done += synicboard_act_absorb(&shared, 0, &line, 0, 1, NULL, 0).kind == SYNICBOARD_DONE;
    }
    CHECK_NUMBER(requests + returns, 0);
    refuse(0);
    CHECK_NUMBER(done, 2 * MANY);
    synicboard_close_line(&line);
    synicboard_close_shared(&shared);
}

/* ---- Threads ---- */

enum { ACTORS = 8, TURNS = 20000, RAISES = 100000, PART = 1, PART_VECTORS = 64 };

static synicboard_shared board = SYNICBOARD_SHARED_CLOSED;
static synicboard_line first_line = SYNICBOARD_LINE_CLOSED;

struct actor {
    uint8_t vp;
    synicboard_line line;
    unsigned absorbed, accepted, torn;
    pthread_t thread;
};

/* Holding twice, calls while the thread holds the board, and releasing what it does not hold: an outcome, and no
 * deadlock. */
static void test_hold(void)
{
    const synicboard_event take = { .kind = SYNICBOARD_TAKE };
    synicboard_shared shared = SYNICBOARD_SHARED_CLOSED;
    synicboard_line line = SYNICBOARD_LINE_CLOSED;
    CHECK_NUMBER(synicboard_release(&shared), SYNICBOARD_IS_CLOSED);
    CHECK_NUMBER(synicboard_release(NULL), SYNICBOARD_IS_CLOSED);
    CHECK(synicboard_hold(&shared) == NULL);
    CHECK_NUMBER(synicboard_open_recorded(&shared, 1, 1, 0), SYNICBOARD_OK);
    CHECK_NUMBER(synicboard_open_line(&line, 1), SYNICBOARD_OK);
#ifndef __SANITIZE_THREAD__     /* it reports a lock that is not held, whatever kind of lock it is */
    CHECK_NUMBER(synicboard_release(&shared), SYNICBOARD_NOT_HELD);
#endif
    CHECK(synicboard_hold(&shared) != NULL);
    CHECK(synicboard_hold(&shared) == NULL);
    CHECK_FAULT(synicboard_act(&shared, 0, &take, NULL, 0), SYNICBOARD_IS_HELD);
    CHECK_FAULT(synicboard_act_absorb(&shared, 0, &line, 0, 0, NULL, 0), SYNICBOARD_IS_HELD);
    CHECK_NUMBER(synicboard_settle(&shared, NULL, 0).kind, SYNICBOARD_IS_HELD);
    CHECK_NUMBER(synicboard_release(&shared), SYNICBOARD_OK);
    CHECK_REPLY(synicboard_act(&shared, 0, &take, NULL, 0), SYNICBOARD_NONE_TAKEN);
    synicboard_close_line(&line);
    synicboard_close_shared(&shared);
}

/* Absorbs under the lock, and takes and ends what is next under one hold of it: no other thread comes between. */
static void *run_actor(void *argument)
{
    struct actor *actor = argument;
    for (unsigned turn = 0; turn < TURNS; turn++) {
        synicboard_reply swept = synicboard_act_absorb(&board, actor->vp, &actor->line, actor->vp, PART, NULL, 0);
        actor->absorbed += (unsigned)__builtin_popcountll(swept.value);
        synicboard *held = synicboard_hold(&board);
        uint8_t next = synicboard_next(held, actor->vp);
        synicboard_reply taken = synicboard_take(held, actor->vp);
        actor->torn += next != (taken.kind == SYNICBOARD_TAKEN ? taken.vector : 0);
        synicboard_write(held, actor->vp, EOI, 0);
        synicboard_release(&board);
        actor->accepted += synicboard_act(&board, actor->vp, &(synicboard_event){ .kind = SYNICBOARD_READ, .vp = actor->vp, .msr = SCONTROL }, NULL, 0).kind == SYNICBOARD_VALUE;
    }
    return NULL;
}

static void test_threads(void)
{
    struct actor actors[ACTORS] = { 0 };
    unsigned fresh = 0, absorbed = 0;
    CHECK_NUMBER(synicboard_open_shared(&board, ACTORS, 1, 0), SYNICBOARD_OK);
    CHECK_NUMBER(synicboard_open_line(&first_line, ACTORS), SYNICBOARD_OK);
    for (uint8_t vp = 0; vp < ACTORS; vp++) {
        actors[vp].vp = vp;
        CHECK_NUMBER(synicboard_split_line(&first_line, &actors[vp].line), SYNICBOARD_OK);
        CHECK_NUMBER(pthread_create(&actors[vp].thread, NULL, run_actor, &actors[vp]), 0);
    }
    for (unsigned turn = 0; turn < RAISES; turn++)
        fresh += synicboard_raise(&first_line, (uint8_t)(turn % ACTORS), (uint8_t)(PART_VECTORS * PART + turn % PART_VECTORS)) == SYNICBOARD_FRESH;
    for (uint8_t vp = 0; vp < ACTORS; vp++) {
        CHECK_NUMBER(pthread_join(actors[vp].thread, NULL), 0);
        CHECK_NUMBER(actors[vp].torn, 0);
        CHECK_NUMBER(actors[vp].accepted, TURNS);
        synicboard_reply swept = synicboard_act_absorb(&board, vp, &actors[vp].line, vp, PART, NULL, 0);
        absorbed += actors[vp].absorbed + (unsigned)__builtin_popcountll(swept.value);
        synicboard_close_line(&actors[vp].line);
    }
    CHECK(fresh > 0);
    CHECK_NUMBER(absorbed, fresh);
    synicboard_close_line(&first_line);
    synicboard_close_shared(&board);
}

int main(void)
{
    static const struct test tests[] = {
        { "holding", test_hold },
        { "handles", test_handles },
        { "any board", test_any_board },
        { "without memory", test_without_memory },
        { "memory is constant", test_memory_is_constant },
        { "threads", test_threads },
    };
    return run_tests(tests, sizeof tests / sizeof tests[0]);
}
