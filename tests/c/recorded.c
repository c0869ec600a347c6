/* Recorded boards: closed handles, openings that fail, replies and notices compared with those of an
 * unshared board, the trace of a history in buffers of each length, refused memory, and threads that act
 * at the same time. */
#include <pthread.h>
#include <stdbool.h>
#include <stddef.h>
#include <stdint.h>
#include <stdio.h>
#include <stdlib.h>
#include <string.h>

#include "checks.h"
#include "synicboard.h"

enum { FIRST_TICKET = 7, SIMP_AT_PAGE_1 = 0x1001, PORT = 3, SINT = 2, VECTOR = 0x50, LONG_HISTORY = 200 };

static struct text before, after;
static char trace[1 << 20];

static synicboard_settled settle(synicboard_shared *shared)
{
    memset(trace, 0, sizeof trace);
    return synicboard_settle(shared, (uint8_t *)trace, sizeof trace - 1);
}

static synicboard_reply act(synicboard_shared *shared, uint8_t actor, synicboard_event event)
{
    return synicboard_act(shared, actor, &event, NULL, 0);
}

static void describe_shared(synicboard_shared *shared, struct text *text)
{
    synicboard *board = synicboard_hold(shared);
    CHECK(board != NULL);
    describe(board, text);
    synicboard_release(shared);
}

/* One of each kind of event, some that are refused or raise #GP, and an invalid one. */
static const synicboard_event events[] = {
    { .kind = SYNICBOARD_WRITE, .vp = 0, .msr = SCONTROL, .value = 1 },
    { .kind = SYNICBOARD_WRITE, .vp = 0, .msr = SIMP, .value = SIMP_AT_PAGE_1 },
    { .kind = SYNICBOARD_WRITE, .vp = 0, .msr = SINT0 + SINT, .value = VECTOR },
    { .kind = SYNICBOARD_OPEN_MESSAGE_PORT, .port = PORT, .vp = 0, .sint = SINT, .buffers = 2 },
    { .kind = SYNICBOARD_OPEN_MESSAGE_PORT, .port = PORT, .vp = 0, .sint = SINT, .buffers = 2 },
    { .kind = SYNICBOARD_OPEN_EVENT_PORT, .port = PORT + 1, .vp = 0, .sint = SINT + 1, .flag = 8, .count = 8 },
    { .kind = SYNICBOARD_POST, .port = PORT, .message_type = 1, .length = 5, .bytes = "hello" },
    { .kind = SYNICBOARD_POST, .port = PORT, .message_type = 2, .length = 240, .bytes = { [239] = 0xff } },
    { .kind = SYNICBOARD_POST, .port = PORT, .message_type = 3 },
    { .kind = SYNICBOARD_TAKE, .vp = 0 },
    { .kind = SYNICBOARD_LOAD, .address = 0x1210, .length = 5 },
    { .kind = SYNICBOARD_STORE, .address = 0x1200, .length = 4 },
    { .kind = SYNICBOARD_WRITE, .vp = 0, .msr = EOM },
    { .kind = SYNICBOARD_WRITE, .vp = 0, .msr = EOI },
    { .kind = SYNICBOARD_SIGNAL, .port = PORT + 1, .flag = 3 },
    { .kind = SYNICBOARD_ASSERT, .vp = 1, .vector = 0x61 },
    { .kind = SYNICBOARD_ABSORB, .vp = 1, .part = 2, .value = 0x8001 },
    { .kind = SYNICBOARD_READ, .vp = 1, .msr = SCONTROL },
    { .kind = SYNICBOARD_READ, .vp = 1, .msr = EOI + 0x100 },
    { .kind = SYNICBOARD_TICK, .moment = 1000 },
    { .kind = SYNICBOARD_SUSPEND, .vp = 1 },
    { .kind = SYNICBOARD_RESUME, .vp = 1 },
    { .kind = SYNICBOARD_RESET, .vp = 0 },
    { .kind = SYNICBOARD_SEND, .vector = 0x62, .value = 3 },
    { .kind = SYNICBOARD_CLOSE_PORT, .port = PORT },
};
enum { EVENTS = sizeof events / sizeof events[0] };

static void open_both(synicboard_shared *shared, synicboard *board)
{
    CHECK_NUMBER(synicboard_open_recorded(shared, 2, 4, FIRST_TICKET), SYNICBOARD_OK);
    CHECK_NUMBER(synicboard_open(board, 2, 4, FIRST_TICKET), SYNICBOARD_OK);
}

static void close_shared(synicboard_shared *shared)
{
    synicboard_close_shared(shared);
    CHECK(shared->at == NULL && !shared->is_open);
}

static void test_closed(void)
{
    synicboard_shared closed = SYNICBOARD_SHARED_CLOSED, *handles[] = { &closed, NULL };
    for (size_t at = 0; at < 2; at++) {
        synicboard_line line = SYNICBOARD_LINE_CLOSED;
        refuse(0);
        CHECK_FAULT(synicboard_act(handles[at], 0, &events[0], NULL, 0), SYNICBOARD_IS_CLOSED);
        CHECK_FAULT(synicboard_act_absorb(handles[at], 0, &line, 0, 0, NULL, 0), SYNICBOARD_IS_CLOSED);
        CHECK(synicboard_hold(handles[at]) == NULL);
        synicboard_release(handles[at]);
        synicboard_settled settled = settle(handles[at]);
        CHECK_NUMBER(settled.kind, SYNICBOARD_IS_CLOSED);
        CHECK_NUMBER(settled.entries + settled.line + settled.length, 0);
        synicboard_close_shared(handles[at]);
        CHECK_NUMBER(requests, 0);
    }
    CHECK_NUMBER(synicboard_open_recorded(NULL, 1, 1, 0), SYNICBOARD_NO_HANDLE);
}

static void test_sizes(void)
{
    static const uint8_t sizes[][2] = { { 0, 1 }, { 9, 1 }, { 1, 0 }, { 1, 65 } };
    for (size_t at = 0; at < sizeof sizes / sizeof sizes[0]; at++) {
        synicboard_shared shared = SYNICBOARD_SHARED_CLOSED;
        refuse(1);
        CHECK_NUMBER(synicboard_open_recorded(&shared, sizes[at][0], sizes[at][1], 0), SYNICBOARD_BAD_SIZE);
        CHECK_NUMBER(requests, 0);
        refuse(0);
        CHECK(shared.at == NULL && !shared.is_open);
        CHECK_NUMBER(blocks_out, 0);
    }
}

static void test_opening_twice(void)
{
    synicboard_shared shared = SYNICBOARD_SHARED_CLOSED;
    CHECK_NUMBER(synicboard_open_recorded(&shared, 1, 1, 0), SYNICBOARD_OK);
    CHECK_REPLY(act(&shared, 0, (synicboard_event){ .kind = SYNICBOARD_TICK, .moment = 9 }), SYNICBOARD_DONE);
    describe_shared(&shared, &before);
    CHECK_NUMBER(synicboard_open_recorded(&shared, 2, 2, 0), SYNICBOARD_IS_OPEN);
    CHECK_NUMBER(synicboard_open_recorded(&shared, 9, 9, 0), SYNICBOARD_IS_OPEN);
    describe_shared(&shared, &after);
    CHECK_SAME(&before, &after);
    CHECK_NUMBER(settle(&shared).entries, 1);
    close_shared(&shared);
}

/* A shared board has the same replies and notices as a board. */
static void test_replies(void)
{
    synicboard_shared shared = SYNICBOARD_SHARED_CLOSED;
    synicboard board = SYNICBOARD_CLOSED;
    open_both(&shared, &board);
    for (size_t at = 0; at < EVENTS; at++) {
        static synicboard_notice ours[SYNICBOARD_MOST_NOTICES], theirs[SYNICBOARD_MOST_NOTICES];
        memset(ours, 0, sizeof ours);
        memset(theirs, 0, sizeof theirs);
        synicboard_reply reply = synicboard_perform(&board, &events[at]);
        synicboard_reply answer = synicboard_act(&shared, (uint8_t)at, &events[at], ours, SYNICBOARD_MOST_NOTICES);
        size_t count = synicboard_notices(&board, theirs, SYNICBOARD_MOST_NOTICES);
        CHECK(reply.kind != SYNICBOARD_NOT_PERFORMED);
        CHECK_NUMBER(answer.kind, reply.kind);
        CHECK_NUMBER(answer.refusal, reply.refusal);
        CHECK_NUMBER(answer.vector, reply.vector);
        CHECK_NUMBER(answer.value, reply.value);
        CHECK_NUMBER(answer.ticket, reply.ticket);
        CHECK_NUMBER(answer.notices, count);
        CHECK(memcmp(answer.bytes, reply.bytes, sizeof reply.bytes) == 0);
        for (size_t notice = 0; notice < SYNICBOARD_MOST_NOTICES; notice++)
            CHECK(ours[notice].kind == theirs[notice].kind && ours[notice].ticket == theirs[notice].ticket
                  && ours[notice].vector == theirs[notice].vector);
    }
    describe_shared(&shared, &after);
    describe(&board, &before);
    CHECK_SAME(&before, &after);
    synicboard_settled settled = settle(&shared);
    CHECK_NUMBER(settled.kind, SYNICBOARD_OK);
    CHECK_NUMBER(settled.entries, EVENTS);
    synicboard_close(&board);
    close_shared(&shared);
}

/* An invalid event is not performed, and is not in the history. */
static void test_no_event(void)
{
    static const synicboard_event wrong[] = {
        { .kind = 0 },
        { .kind = SYNICBOARD_SEND + 1 },
        { .kind = SYNICBOARD_ASSERT, .vector = 15 },
        { .kind = SYNICBOARD_STORE, .length = 9 },
        { .kind = SYNICBOARD_POST, .length = 241 },
    };
    synicboard_shared shared = SYNICBOARD_SHARED_CLOSED;
    synicboard_line closed = SYNICBOARD_LINE_CLOSED;
    CHECK_NUMBER(synicboard_open_recorded(&shared, 1, 1, 0), SYNICBOARD_OK);
    describe_shared(&shared, &before);
    for (size_t at = 0; at < sizeof wrong / sizeof wrong[0]; at++)
        CHECK_FAULT(synicboard_act(&shared, 0, &wrong[at], NULL, 0), SYNICBOARD_NO_EVENT);
    CHECK_FAULT(synicboard_act(&shared, 0, NULL, NULL, 0), SYNICBOARD_NO_EVENT);
    CHECK_FAULT(synicboard_act_absorb(&shared, 0, &closed, 0, 0, NULL, 0), SYNICBOARD_NO_LINE);
    CHECK_FAULT(synicboard_act_absorb(&shared, 0, NULL, 0, 0, NULL, 0), SYNICBOARD_NO_LINE);
    describe_shared(&shared, &after);
    CHECK_SAME(&before, &after);
    synicboard_settled settled = settle(&shared);
    CHECK_NUMBER(settled.kind, SYNICBOARD_OK);
    CHECK(strcmp(trace, "trace 2\nboard 1 1 0\nend 0 0\n") == 0);
    close_shared(&shared);
}

static void test_trace(void)
{
    static const char wanted[] = "trace 2\nboard 2 4 7\n"
                                 "0 write 0 40000080 1\n= done\n"
                                 "200 open 3 message 0 2 2\n= done\n"
                                 "1 post 3 1 68656c6c6f\n= accepted 7\n"
                                 "255 absorb 1 1 8000000000000001\n= done\n"
                                 "1 absorb 2 0 0\n= refused 14\n"
                                 "end 5 8\n";
    synicboard_shared shared = SYNICBOARD_SHARED_CLOSED;
    synicboard_line line = SYNICBOARD_LINE_CLOSED;
    synicboard_notice notices[2];
    CHECK_NUMBER(synicboard_open_recorded(&shared, 2, 4, FIRST_TICKET), SYNICBOARD_OK);
    CHECK_NUMBER(synicboard_open_line(&line, 2), SYNICBOARD_OK);
    act(&shared, 0, events[0]);
    act(&shared, 200, events[3]);
    act(&shared, 1, events[6]);
    CHECK_NUMBER(synicboard_raise(&line, 1, 0x40), SYNICBOARD_FRESH);
    CHECK_NUMBER(synicboard_raise(&line, 1, 0x7f), SYNICBOARD_FRESH);
    synicboard_reply absorbed = synicboard_act_absorb(&shared, 255, &line, 1, 1, notices, 2);
    CHECK_NUMBER(absorbed.value, 0x8000000000000001);
    CHECK_NUMBER(absorbed.notices, 2);
    CHECK_NUMBER(notices[0].vector, 0x40);
    CHECK_NUMBER(notices[1].vector, 0x7f);
    CHECK_REFUSAL(synicboard_act_absorb(&shared, 1, &line, 2, 0, NULL, 0), SYNICBOARD_NO_SUCH_PROCESSOR);
    synicboard_settled settled = settle(&shared);
    CHECK_NUMBER(settled.kind, SYNICBOARD_OK);
    CHECK_NUMBER(settled.entries, 5);
    CHECK_NUMBER(settled.line, 0);
    CHECK_NUMBER(settled.length, sizeof wanted - 1);
    CHECK(strcmp(trace, wanted) == 0);
    /* Copies as much as fits, and nothing after it; settling may be repeated. */
    memset(trace, 'x', 12);
    CHECK_NUMBER(synicboard_settle(&shared, (uint8_t *)trace, 9).length, sizeof wanted - 1);
    CHECK(memcmp(trace, "trace 2\nbxxx", 12) == 0);
    CHECK_NUMBER(synicboard_settle(&shared, NULL, 100).entries, 5);
    synicboard_close_line(&line);
    close_shared(&shared);
}

/* A history with a send is a trace of format 3. */
static void test_trace_of_a_send(void)
{
    static const char wanted[] = "trace 3\nboard 2 4 7\n"
                                 "1 send 60 3\n= done\n"
                                 "0 send 60 8000000000000000\n= refused 14\n"
                                 "end 2 7\n";
    synicboard_shared shared = SYNICBOARD_SHARED_CLOSED;
    synicboard_notice notices[2];
    CHECK_NUMBER(synicboard_open_recorded(&shared, 2, 4, FIRST_TICKET), SYNICBOARD_OK);
    synicboard_event event = { .kind = SYNICBOARD_SEND, .vector = 0x60, .value = 3 };
    CHECK_NUMBER(synicboard_act(&shared, 1, &event, notices, 2).notices, 2);
    CHECK_NUMBER(notices[0].vp, 0);
    CHECK_NUMBER(notices[1].vp, 1);
    event.value = 1ull << 63;
    CHECK_REFUSAL(synicboard_act(&shared, 0, &event, NULL, 0), SYNICBOARD_NO_SUCH_PROCESSOR);
    CHECK_NUMBER(settle(&shared).kind, SYNICBOARD_OK);
    CHECK(strcmp(trace, wanted) == 0);
    close_shared(&shared);
}

/* Settles into a buffer of each length up to that of the trace, and a little more. */
static void test_lengths(void)
{
    static char whole[1 << 14], part[sizeof whole];
    synicboard_shared shared = SYNICBOARD_SHARED_CLOSED;
    CHECK_NUMBER(synicboard_open_recorded(&shared, 2, 4, FIRST_TICKET), SYNICBOARD_OK);
    for (size_t at = 0; at < EVENTS; at++)
        act(&shared, 0, events[at]);
    size_t needed = synicboard_settle(&shared, (uint8_t *)whole, sizeof whole).length;
    CHECK(needed > 0 && needed + 2 < sizeof part);
    for (size_t length = 0; length <= needed + 2; length++) {
        memset(part, 'x', needed + 2);
        synicboard_settled settled = synicboard_settle(&shared, (uint8_t *)part, length);
        size_t written = length < needed ? length : needed;
        CHECK_NUMBER(settled.kind, SYNICBOARD_OK);
        CHECK_NUMBER(settled.entries, EVENTS);
        CHECK_NUMBER(settled.length, needed);
        CHECK(memcmp(part, whole, written) == 0);
        for (size_t at = written; at < needed + 2; at++)
            CHECK(part[at] == 'x');
    }
    CHECK_NUMBER(synicboard_check((uint8_t *)whole, needed).entries, EVENTS);
    close_shared(&shared);
}

/* Refuses each allocation of an opening in turn. */
static void test_opening_without_memory(void)
{
    synicboard_shared shared = SYNICBOARD_SHARED_CLOSED;
    refuse(0);
    CHECK_NUMBER(synicboard_open_recorded(&shared, 8, 64, 0), SYNICBOARD_OK);
    size_t needed = requests;
    CHECK(needed > 1);
    close_shared(&shared);
    for (size_t number = 1; number <= needed; number++) {
        refuse(number);
        CHECK_NUMBER(synicboard_open_recorded(&shared, 8, 64, 0), SYNICBOARD_NO_MEMORY);
        CHECK(shared.at == NULL && !shared.is_open);
        CHECK_NUMBER(blocks_out, 0);
    }
    refuse(0);
}

/* If the history cannot grow, the event is not performed; it is once there is memory. Refuses the first,
 * or the second, allocation of each event: the history has a list of numbers, and one of bytes. */
static void act_without_memory(size_t number)
{
    static synicboard_event post = { .kind = SYNICBOARD_POST, .port = PORT, .message_type = 1, .length = 240 };
    synicboard_shared shared = SYNICBOARD_SHARED_CLOSED;
    unsigned refused = 0;
    CHECK_NUMBER(synicboard_open_recorded(&shared, 1, 1, 0), SYNICBOARD_OK);
    for (unsigned turn = 1; turn <= LONG_HISTORY; turn++) {
        synicboard_event tick = { .kind = SYNICBOARD_TICK, .moment = turn };
        synicboard_event event = turn % 2 == 0 ? tick : post;
        describe_shared(&shared, &before);
        refuse(number);
        synicboard_reply reply = act(&shared, 0, event);
        refuse(0);
        if (reply.kind == SYNICBOARD_NOT_PERFORMED) {
            CHECK_FAULT(reply, SYNICBOARD_NO_MEMORY);
            describe_shared(&shared, &after);
            CHECK_SAME(&before, &after);
            reply = act(&shared, 0, event);
            refused++;
        }
        CHECK_NUMBER(reply.kind, turn % 2 == 0 ? SYNICBOARD_DONE : SYNICBOARD_REFUSED);
    }
    CHECK(refused > 0 && refused < 20);
    synicboard_settled settled = settle(&shared);
    CHECK_NUMBER(settled.kind, SYNICBOARD_OK);
    CHECK_NUMBER(settled.entries, LONG_HISTORY);
    CHECK_NUMBER(synicboard_check((uint8_t *)trace, settled.length).entries, LONG_HISTORY);
    close_shared(&shared);
}

/* A history of 140,000 entries with some 16 MiB of payloads. */
static void test_a_long_history(void)
{
    enum { TURNS = 70000 };
    static synicboard_event post = { .kind = SYNICBOARD_POST, .port = PORT, .message_type = 1, .length = 240 };
    synicboard_shared shared = SYNICBOARD_SHARED_CLOSED;
    unsigned performed = 0;
    CHECK_NUMBER(synicboard_open_recorded(&shared, 1, 1, 0), SYNICBOARD_OK);
    for (unsigned turn = 1; turn <= TURNS; turn++) {
        synicboard_event tick = { .kind = SYNICBOARD_TICK, .moment = turn };
        performed += act(&shared, (uint8_t)turn, tick).kind == SYNICBOARD_DONE;
        performed += act(&shared, 0, post).kind == SYNICBOARD_REFUSED;
    }
    CHECK_NUMBER(performed, 2 * TURNS);
    size_t length = synicboard_settle(&shared, NULL, 0).length;
    uint8_t *whole = malloc(length);
    CHECK(whole != NULL);
    if (whole != NULL) {
        synicboard_settled settled = synicboard_settle(&shared, whole, length);
        CHECK_NUMBER(settled.kind, SYNICBOARD_OK);
        CHECK_NUMBER(settled.entries, 2 * TURNS);
        CHECK_NUMBER(settled.length, length);
        CHECK_NUMBER(synicboard_check(whole, length).entries, 2 * TURNS);
    }
    free(whole);
    close_shared(&shared);
}

static void test_acting_without_memory(void)
{
    act_without_memory(1);
    act_without_memory(2);
}

/* If the history cannot grow, no bit is taken from the words. */
static void test_absorbing_without_memory(void)
{
    synicboard_shared shared = SYNICBOARD_SHARED_CLOSED;
    synicboard_line line = SYNICBOARD_LINE_CLOSED;
    CHECK_NUMBER(synicboard_open_recorded(&shared, 1, 1, 0), SYNICBOARD_OK);
    CHECK_NUMBER(synicboard_open_line(&line, 1), SYNICBOARD_OK);
    CHECK_NUMBER(synicboard_raise(&line, 0, 0x40), SYNICBOARD_FRESH);
    for (size_t number = 1; number <= 2; number++) {
        refuse(number);
        CHECK_FAULT(synicboard_act_absorb(&shared, 0, &line, 0, 1, NULL, 0), SYNICBOARD_NO_MEMORY);
        refuse(0);
        CHECK_NUMBER(synicboard_raise(&line, 0, 0x40), SYNICBOARD_ALREADY);
    }
    synicboard_reply absorbed = synicboard_act_absorb(&shared, 0, &line, 0, 1, NULL, 0);
    CHECK_REPLY(absorbed, SYNICBOARD_DONE);
    CHECK_NUMBER(absorbed.value, 1);
    CHECK_NUMBER(settle(&shared).entries, 1);
    synicboard_close_line(&line);
    close_shared(&shared);
}

/* Refuses each allocation of a settling in turn; then settles again. */
static void test_settling_without_memory(void)
{
    synicboard_shared shared = SYNICBOARD_SHARED_CLOSED;
    CHECK_NUMBER(synicboard_open_recorded(&shared, 2, 4, FIRST_TICKET), SYNICBOARD_OK);
    for (size_t at = 0; at < EVENTS; at++)
        act(&shared, 0, events[at]);
    refuse(0);
    CHECK_NUMBER(settle(&shared).kind, SYNICBOARD_OK);
    size_t needed = requests, blocks = blocks_out;
    CHECK(needed > 2);
    for (size_t number = 1; number <= needed; number++) {
        refuse(number);
        synicboard_settled settled = settle(&shared);
        CHECK_NUMBER(settled.kind, SYNICBOARD_NO_MEMORY);
        CHECK_NUMBER(settled.entries + settled.line + settled.length, 0);
        CHECK_NUMBER(trace[0], 0);
        CHECK_NUMBER(blocks_out, blocks);
    }
    refuse(0);
    CHECK_NUMBER(settle(&shared).entries, EVENTS);
    close_shared(&shared);
}

/* ---- Threads ---- */

enum { ACTORS = 8, TURNS = 400, RAISES = 3000, PART = 1, PART_VECTORS = 64 };

static synicboard_shared board = SYNICBOARD_SHARED_CLOSED;
static synicboard_line first_line = SYNICBOARD_LINE_CLOSED;

struct actor {
    uint8_t vp;
    synicboard_line line;
    unsigned absorbed;
    pthread_t thread;
};

static unsigned bits_in(uint64_t word)
{
    unsigned count = 0;
    for (; word != 0; word &= word - 1)
        count++;
    return count;
}

static void absorb(struct actor *actor, uint8_t vp)
{
    synicboard_reply reply = synicboard_act_absorb(&board, actor->vp, &actor->line, vp, PART, NULL, 0);
    actor->absorbed += bits_in(reply.value);
}

static void *run_actor(void *argument)
{
    struct actor *actor = argument;
    for (unsigned turn = 0; turn < TURNS; turn++) {
        absorb(actor, actor->vp);
        act(&board, actor->vp, (synicboard_event){ .kind = SYNICBOARD_TAKE, .vp = actor->vp });
        act(&board, actor->vp, (synicboard_event){ .kind = SYNICBOARD_WRITE, .vp = actor->vp, .msr = EOI });
    }
    return NULL;
}

/* How many entries the trace has of an actor, if they are its events in its order; else none. */
static unsigned entries_of(uint8_t actor)
{
    static const char *const forms[] = { "%u absorb %u %u ", "%u take %u\n", "%u write %u 40000070 0\n" };
    char wanted[64], number[8];
    unsigned count = 0;
    snprintf(number, sizeof number, "\n%u ", actor);
    for (const char *at = strstr(trace, number); at != NULL; at = strstr(at + 1, number)) {
        snprintf(wanted, sizeof wanted, forms[count % 3], actor, actor, PART);
        if (strncmp(at + 1, wanted, strlen(wanted)) != 0)
            return 0;
        count++;
    }
    return count;
}

/* Settles again and again while two threads act: each trace is that of a legal history, which grows. */
static void test_settling_while_others_act(void)
{
    enum { SETTLED = 20 };
    struct actor actors[2] = { 0 };
    uint64_t entries = 0;
    CHECK_NUMBER(synicboard_open_recorded(&board, ACTORS, 1, 0), SYNICBOARD_OK);
    CHECK_NUMBER(synicboard_open_line(&first_line, ACTORS), SYNICBOARD_OK);
    for (uint8_t vp = 0; vp < 2; vp++) {
        actors[vp].vp = vp;
        CHECK_NUMBER(synicboard_split_line(&first_line, &actors[vp].line), SYNICBOARD_OK);
        CHECK_NUMBER(pthread_create(&actors[vp].thread, NULL, run_actor, &actors[vp]), 0);
    }
    for (unsigned turn = 0; turn < SETTLED; turn++) {
        synicboard_settled settled = settle(&board);
        CHECK_NUMBER(settled.kind, SYNICBOARD_OK);
        CHECK(settled.entries >= entries);
        CHECK_NUMBER(synicboard_check((uint8_t *)trace, settled.length).entries, settled.entries);
        entries = settled.entries;
    }
    for (uint8_t vp = 0; vp < 2; vp++) {
        CHECK_NUMBER(pthread_join(actors[vp].thread, NULL), 0);
        synicboard_close_line(&actors[vp].line);
    }
    CHECK_NUMBER(settle(&board).entries, 2 * TURNS * 3);
    synicboard_close_line(&first_line);
    close_shared(&board);
}

static void test_threads(void)
{
    struct actor actors[ACTORS] = { 0 };
    unsigned fresh = 0, absorbed = 0;
    CHECK_NUMBER(synicboard_open_recorded(&board, ACTORS, 1, 0), SYNICBOARD_OK);
    CHECK_NUMBER(synicboard_open_line(&first_line, ACTORS), SYNICBOARD_OK);
    for (uint8_t vp = 0; vp < ACTORS; vp++) {
        actors[vp].vp = vp;
        CHECK_NUMBER(synicboard_split_line(&first_line, &actors[vp].line), SYNICBOARD_OK);
    }
    for (uint8_t vp = 0; vp < ACTORS; vp++)
        CHECK_NUMBER(pthread_create(&actors[vp].thread, NULL, run_actor, &actors[vp]), 0);
    for (unsigned turn = 0; turn < RAISES; turn++) {
        uint8_t vector = PART_VECTORS * PART + turn % PART_VECTORS;
        fresh += synicboard_raise(&first_line, (uint8_t)(turn % ACTORS), vector) == SYNICBOARD_FRESH;
    }
    for (uint8_t vp = 0; vp < ACTORS; vp++)
        CHECK_NUMBER(pthread_join(actors[vp].thread, NULL), 0);
    synicboard_settled settled = settle(&board);
    CHECK_NUMBER(settled.kind, SYNICBOARD_OK);
    CHECK_NUMBER(settled.entries, ACTORS * TURNS * 3);
    for (uint8_t vp = 0; vp < ACTORS; vp++)
        CHECK_NUMBER(entries_of(vp), TURNS * 3);
    /* One of the actors absorbs what is left; then each fresh vector was absorbed once. */
    for (uint8_t vp = 0; vp < ACTORS; vp++)
        absorb(&actors[0], vp);
    for (uint8_t vp = 0; vp < ACTORS; vp++)
        absorbed += actors[vp].absorbed;
    CHECK(fresh > 0);
    CHECK_NUMBER(absorbed, fresh);
    CHECK_NUMBER(settle(&board).kind, SYNICBOARD_OK);
    for (uint8_t vp = 0; vp < ACTORS; vp++)
        synicboard_close_line(&actors[vp].line);
    synicboard_close_line(&first_line);
    close_shared(&board);
}

int main(void)
{
    static const struct test tests[] = {
        { "closed", test_closed },
        { "sizes", test_sizes },
        { "opening twice", test_opening_twice },
        { "replies", test_replies },
        { "no event", test_no_event },
        { "trace", test_trace },
        { "trace of a send", test_trace_of_a_send },
        { "lengths", test_lengths },
        { "opening without memory", test_opening_without_memory },
        { "a long history", test_a_long_history },
        { "acting without memory", test_acting_without_memory },
        { "absorbing without memory", test_absorbing_without_memory },
        { "settling without memory", test_settling_without_memory },
        { "threads", test_threads },
        { "settling while others act", test_settling_while_others_act },
    };
    return run_tests(tests, sizeof tests / sizeof tests[0]);
}
