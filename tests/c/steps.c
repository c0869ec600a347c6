/* An event at a time with its answer (synicboard_step), and the queries that say how a board is: the processors that
 * have a next vector, ports, registers, and asserting a source. */
#include <stdbool.h>
#include <stddef.h>
#include <stdint.h>
#include <string.h>

#include "busy.h"
#include "checks.h"
#include "synicboard.h"

enum { DIRECT = 40, MOST = 2 * SYNICBOARD_MOST_LIVE_NOTICES };

static struct text before, after;
static synicboard_notice room[MOST], wanted[MOST];
static uint8_t *pages[2 * MOST_PROCESSORS];

static bool is_same_notice(const synicboard_notice *one, const synicboard_notice *other)
{
    return one->kind == other->kind && one->vp == other->vp && one->sint == other->sint && one->vector == other->vector
        && one->timer == other->timer && one->flag == other->flag && one->ticket == other->ticket && one->due == other->due
        && one->count == other->count;
}

static bool is_same_reply(const synicboard_reply *one, const synicboard_reply *other)
{
    return one->kind == other->kind && one->fault == other->fault && one->refusal == other->refusal && one->vector == other->vector
        && one->length == other->length && one->notices == other->notices && one->value == other->value
        && one->ticket == other->ticket && memcmp(one->bytes, other->bytes, sizeof one->bytes) == 0;
}

static uint64_t next_bits(const synicboard *board)
{
    uint64_t bits = 0;
    for (uint8_t vp = 0; vp < MOST_PROCESSORS; vp++)
        bits |= (uint64_t)(synicboard_next(board, vp) != 0) << vp;
    return bits;
}

static uint64_t end_bits(const synicboard *board, uint64_t assisted)
{
    uint64_t bits = 0;
    for (uint8_t vp = 0; vp < MOST_PROCESSORS; vp++)
        bits |= (assisted >> vp & !synicboard_no_eoi_required(board, vp)) << vp;
    return bits;
}

/* What an answer says of a board, its reply left out. */
static void check_state(const synicboard *board, const synicboard_answer *answer, uint64_t assisted)
{
    synicboard_next_tick alarm = synicboard_alarm(board);
    CHECK_NUMBER(answer->next, next_bits(board));
    CHECK_NUMBER(synicboard_next_bits(board), answer->next);
    CHECK_NUMBER(answer->end_assist, end_bits(board, assisted));
    CHECK(answer->alarm.is_set == alarm.is_set && answer->alarm.moment == alarm.moment);
}

/* Performs the run of which a step consists by single calls on another board, and compares the two. */
static void check_step(synicboard *one, synicboard *other, uint64_t now, const synicboard_event *event, uint64_t assisted)
{
    size_t count = 0;
    uint64_t clock_eoms = 0;
    if (now > synicboard_moment(other)) {
        CHECK_REPLY(synicboard_tick(other, now), SYNICBOARD_DONE);
        count = synicboard_notices(other, wanted, MOST);
        clock_eoms = synicboard_eoms(other);
    }
    synicboard_reply reply = synicboard_perform(other, event);
    bool is_event = reply.kind != SYNICBOARD_NOT_PERFORMED;
    if (is_event)
        count += synicboard_notices(other, wanted + count, MOST - count);
    synicboard_answer answer = synicboard_step(one, now, event, assisted, room, MOST);
    CHECK(is_same_reply(&answer.reply, &reply));
    CHECK_NUMBER(answer.notices, count);
    for (size_t at = 0; at < count; at++)
        CHECK(is_same_notice(&room[at], &wanted[at]));
    CHECK_NUMBER(answer.clock_eoms, clock_eoms);
    CHECK_NUMBER(answer.eoms, is_event ? synicboard_eoms(other) : 0);
    CHECK_NUMBER(synicboard_moment(one), synicboard_moment(other));
    check_state(one, &answer, assisted);
}

static void check_steps(synicboard *one, synicboard *other, uint64_t random)
{
    for (unsigned count = 0; count < RANDOM_EVENTS; count++) {
        synicboard_event event = random_event(one, &random);
        uint64_t now = synicboard_moment(one) + (random >> 32) % 12 - 1;
        check_step(one, other, now, count % 7 == 0 ? NULL : &event, random >> 40);
    }
    describe(one, &before);
    describe(other, &after);
    CHECK_SAME(&before, &after);
    synicboard_close(one);
    synicboard_close(other);
}

/* ---- Steps ---- */

static void test_plain_board(void)
{
    synicboard one = SYNICBOARD_CLOSED, other = SYNICBOARD_CLOSED;
    open_busy(&one, 0);
    open_busy(&other, 0);
    check_steps(&one, &other, 3);
}

static void test_live_board(void)
{
    synicboard one = SYNICBOARD_CLOSED, other = SYNICBOARD_CLOSED;
    open_busy(&one, 0);
    open_busy(&other, 0);
    CHECK_NUMBER(synicboard_make_live(&one, pages), SYNICBOARD_OK);
    CHECK_NUMBER(synicboard_make_live(&other, pages), SYNICBOARD_OK);
    check_steps(&one, &other, 5);
}

static void open_greatest(synicboard *board)
{
    CHECK_NUMBER(synicboard_open_sparse(board, MOST_PROCESSORS, 0), SYNICBOARD_OK);
    for (uint8_t vp = 0; vp < MOST_PROCESSORS; vp++) {
        CHECK_REPLY(synicboard_write(board, vp, SCONTROL, 1), SYNICBOARD_DONE);
        CHECK_REPLY(synicboard_write(board, vp, STIMER0_COUNT, 10), SYNICBOARD_DONE);
        CHECK_REPLY(synicboard_write(board, vp, STIMER0_CONFIG, 0x1003 | DIRECT << 4), SYNICBOARD_DONE);
    }
}

/* All processors have a vector: 32 timers expire at first, and the alarm is at the next moment. */
static void test_greatest_board(void)
{
    synicboard one = SYNICBOARD_CLOSED, other = SYNICBOARD_CLOSED;
    open_greatest(&one);
    open_greatest(&other);
    check_step(&one, &other, 10, NULL, UINT64_MAX);
    CHECK_NUMBER(synicboard_next_bits(&one), UINT32_MAX);
    CHECK_NUMBER(synicboard_alarm(&one).moment, 11);
    check_step(&one, &other, 11, NULL, UINT64_MAX);
    CHECK_NUMBER(synicboard_next_bits(&one), UINT64_MAX);
    const synicboard_event take = { .kind = SYNICBOARD_TAKE, .vp = 63 };
    check_step(&one, &other, 11, &take, UINT64_MAX);
    CHECK_NUMBER(synicboard_next_bits(&one), UINT64_MAX >> 1);
    synicboard_close(&one);
    synicboard_close(&other);
}

/* The clock first, also with a null event; and notices that do not fit are counted. */
static void test_clock(void)
{
    synicboard board = SYNICBOARD_CLOSED;
    synicboard_notice few[3];
    open_busy(&board, 0);
    CHECK_NUMBER(synicboard_next_bits(&board), 0);
    synicboard_answer answer = synicboard_step(&board, 17, NULL, 0, few, 1);
    CHECK_FAULT(answer.reply, SYNICBOARD_NO_EVENT);
    CHECK(answer.notices == 2 && few[0].kind == SYNICBOARD_NOTICE_EXPIRED && few[0].due == 10);
    CHECK(synicboard_moment(&board) == 17 && answer.alarm.is_set && answer.alarm.moment == 20);
    const synicboard_event assert = { .kind = SYNICBOARD_ASSERT, .vp = 1, .vector = 200 };
    memset(few, 0xee, sizeof few);
    answer = synicboard_step(&board, 27, &assert, 0, few, 2);
    CHECK(answer.notices == 2 && answer.reply.notices == 1 && answer.next == 2);
    CHECK(few[0].kind == SYNICBOARD_NOTICE_EXPIRED && few[1].kind == SYNICBOARD_NOTICE_REQUESTED && few[1].vector == 200);
    CHECK_NUMBER(few[2].kind, 0xee);
    answer = synicboard_step(&board, 20, &assert, 0, NULL, 0);
    CHECK(answer.reply.kind == SYNICBOARD_DONE && synicboard_moment(&board) == 27);
    synicboard_close(&board);
}

/* No EOI is required of a processor with one vector in service, until another one is requested. */
static void test_assist(void)
{
    const synicboard_event assert = { .kind = SYNICBOARD_ASSERT, .vp = 1, .vector = 60 };
    synicboard board = SYNICBOARD_CLOSED;
    CHECK_NUMBER(synicboard_open(&board, 2, 1, 0), SYNICBOARD_OK);
    CHECK_REPLY(synicboard_assert(&board, 1, 80), SYNICBOARD_DONE);
    CHECK_REPLY(synicboard_take(&board, 1), SYNICBOARD_TAKEN);
    CHECK_NUMBER(synicboard_step(&board, 0, NULL, 2, NULL, 0).end_assist, 0);
    CHECK_NUMBER(synicboard_step(&board, 0, NULL, 3, NULL, 0).end_assist, 1);
    CHECK_NUMBER(synicboard_step(&board, 0, &assert, 2, NULL, 0).end_assist, 2);
    synicboard_close(&board);
}

static void test_closed(void)
{
    const synicboard_event take = { .kind = SYNICBOARD_TAKE };
    synicboard board = SYNICBOARD_CLOSED;
    synicboard_answer answer = synicboard_step(&board, 5, &take, UINT64_MAX, room, MOST);
    CHECK_FAULT(answer.reply, SYNICBOARD_IS_CLOSED);
    CHECK(answer.notices == 0 && answer.next == 0 && answer.end_assist == UINT64_MAX && !answer.alarm.is_set);
    CHECK_FAULT(synicboard_step(NULL, 5, NULL, 0, NULL, 1).reply, SYNICBOARD_IS_CLOSED);
    CHECK(synicboard_next_bits(&board) == 0 && synicboard_next_bits(NULL) == 0);
    CHECK(synicboard_port(&board, 3).kind == SYNICBOARD_PORT_CLOSED && synicboard_port(NULL, 3).kind == SYNICBOARD_PORT_CLOSED);
    CHECK_FAULT(synicboard_assert_source(&board, 0, 2), SYNICBOARD_IS_CLOSED);
    CHECK_FAULT(synicboard_assert_source(NULL, 0, 16), SYNICBOARD_IS_CLOSED);
}

/* ---- Ports, sources and registers ---- */

static void test_ports(void)
{
    synicboard board = SYNICBOARD_CLOSED;
    open_busy(&board, 0);
    synicboard_port_state messages = synicboard_port(&board, MESSAGE_PORT), flags = synicboard_port(&board, FLAG_PORT);
    CHECK(messages.kind == SYNICBOARD_PORT_MESSAGES && messages.vp == 1 && messages.sint == SOURCE && messages.buffers == 2);
    CHECK(messages.base == 0 && messages.count == 0);
    CHECK(flags.kind == SYNICBOARD_PORT_FLAGS && flags.vp == 1 && flags.sint == SOURCE && flags.base == 8 && flags.count == 64);
    CHECK_REPLY(synicboard_close_port(&board, FLAG_PORT), SYNICBOARD_DONE);
    flags = synicboard_port(&board, FLAG_PORT);
    CHECK(flags.kind == SYNICBOARD_PORT_CLOSED && flags.vp == 0 && flags.count == 0);
    CHECK_NUMBER(synicboard_port(&board, 255).kind, SYNICBOARD_PORT_CLOSED);
    synicboard_close(&board);
}

static void test_sources(void)
{
    static const uint64_t silent[] = { 0x10050, 0x40050, 0x50050, 0x10000 };
    synicboard board = SYNICBOARD_CLOSED;
    CHECK_NUMBER(synicboard_open(&board, 2, 1, 0), SYNICBOARD_OK);
    for (size_t at = 0; at < sizeof silent / sizeof *silent; at++) {
        CHECK_REPLY(synicboard_write(&board, 1, SINT0 + 15, silent[at]), SYNICBOARD_DONE);
        CHECK_REPLY(synicboard_assert_source(&board, 1, 15), SYNICBOARD_DONE);
        CHECK_NUMBER(synicboard_notices(&board, room, MOST), 0);
    }
    CHECK_REPLY(synicboard_write(&board, 1, SINT0 + 15, 0x20050), SYNICBOARD_DONE);
    CHECK_REPLY(synicboard_assert_source(&board, 1, 15), SYNICBOARD_DONE);
    CHECK(synicboard_notices(&board, room, MOST) == 1 && room[0].kind == SYNICBOARD_NOTICE_REQUESTED && room[0].vector == 0x50);
    CHECK_REPLY(synicboard_take(&board, 1), SYNICBOARD_TAKEN);
    CHECK_NUMBER(synicboard_lapic(&board, 1).in_service[1], 0);
    CHECK_REFUSAL(synicboard_assert_source(&board, 2, 15), SYNICBOARD_NO_SUCH_PROCESSOR);
    CHECK_FAULT(synicboard_assert_source(&board, 1, 16), SYNICBOARD_NO_EVENT);
    synicboard_close(&board);
}

static void test_registers(void)
{
    unsigned count = 0;
    for (uint32_t msr = 0x40000000; msr < 0x40001000; msr++)
        count += synicboard_has_register(msr);
    CHECK_NUMBER(count, 8 + 16 + 8);
    CHECK(synicboard_has_register(EOM) && synicboard_has_register(SINT0 + 15) && synicboard_has_register(STIMER0_COUNT + 6));
    CHECK(!synicboard_has_register(SINT0 + 16) && !synicboard_has_register(STIMER0_COUNT + 7) && !synicboard_has_register(0));
}

int main(void)
{
    static const struct test tests[] = {
        { "a plain board", test_plain_board },
        { "a live board", test_live_board },
        { "the greatest board", test_greatest_board },
        { "the clock", test_clock },
        { "assist", test_assist },
        { "a closed board", test_closed },
        { "ports", test_ports },
        { "sources", test_sources },
        { "registers", test_registers },
    };
    return run_tests(tests, sizeof tests / sizeof tests[0]);
}
