/* The C calls beyond what scripts show: closed handles, openings that fail, numbers that encode no
 * event, buffers that are too small, several boards, moved handles, and refused memory. */
#include <pthread.h>
#include <stdbool.h>
#include <stddef.h>
#include <stdint.h>
#include <stdio.h>
#include <stdlib.h>
#include <string.h>

#include "busy.h"
#include "by_call.h"
#include "checks.h"
#include "synicboard.h"

static struct text before, after;

static bool is_blank(const synicboard *board)
{
    return board->at == NULL && !board->is_open;
}

/* ---- Tests ---- */

/* Each call with numbers that are valid for an open board, and each kind as a struct. */
static void check_closed_events(synicboard *board)
{
    const uint8_t byte = 1;
    CHECK_FAULT(synicboard_open_message_port(board, 0, 0, 2, 1), SYNICBOARD_IS_CLOSED);
    CHECK_FAULT(synicboard_open_event_port(board, 0, 0, 2, 0, 1), SYNICBOARD_IS_CLOSED);
    CHECK_FAULT(synicboard_close_port(board, 0), SYNICBOARD_IS_CLOSED);
    CHECK_FAULT(synicboard_write(board, 0, SCONTROL, 1), SYNICBOARD_IS_CLOSED);
    CHECK_FAULT(synicboard_read(board, 0, SCONTROL), SYNICBOARD_IS_CLOSED);
    CHECK_FAULT(synicboard_post(board, 0, 1, &byte, 1), SYNICBOARD_IS_CLOSED);
    CHECK_FAULT(synicboard_signal(board, 0, 0), SYNICBOARD_IS_CLOSED);
    CHECK_FAULT(synicboard_assert(board, 0, 0x60), SYNICBOARD_IS_CLOSED);
    CHECK_FAULT(synicboard_absorb(board, 0, 1, 1), SYNICBOARD_IS_CLOSED);
    CHECK_FAULT(synicboard_store(board, 0, &byte, 1), SYNICBOARD_IS_CLOSED);
    CHECK_FAULT(synicboard_load(board, 0, 1), SYNICBOARD_IS_CLOSED);
    CHECK_FAULT(synicboard_tick(board, 1), SYNICBOARD_IS_CLOSED);
    CHECK_FAULT(synicboard_take(board, 0), SYNICBOARD_IS_CLOSED);
    CHECK_FAULT(synicboard_suspend(board, 0), SYNICBOARD_IS_CLOSED);
    CHECK_FAULT(synicboard_resume(board, 0), SYNICBOARD_IS_CLOSED);
    CHECK_FAULT(synicboard_reset(board, 0), SYNICBOARD_IS_CLOSED);
    CHECK_FAULT(synicboard_send(board, 0x60, 1), SYNICBOARD_IS_CLOSED);
    for (unsigned kind = 0; kind < 256; kind++) {
        synicboard_event event = { .kind = (uint8_t)kind, .vector = 0x60, .length = 1 };
        CHECK_FAULT(synicboard_perform(board, &event), SYNICBOARD_IS_CLOSED);
    }
}

/* A closed handle is reported before invalid numbers. */
static void check_closed_faults(synicboard *board)
{
    const uint8_t bytes[241] = { 0 };
    CHECK_FAULT(synicboard_assert(board, 0, 15), SYNICBOARD_IS_CLOSED);
    CHECK_FAULT(synicboard_send(board, 15, 1), SYNICBOARD_IS_CLOSED);
    CHECK_FAULT(synicboard_post(board, 0, 1, bytes, 241), SYNICBOARD_IS_CLOSED);
    CHECK_FAULT(synicboard_store(board, 0, bytes, 9), SYNICBOARD_IS_CLOSED);
}

static void check_lapic(const synicboard *board, uint8_t vp, synicboard_local_apic expected)
{
    synicboard_local_apic lapic = synicboard_lapic(board, vp);
    for (int word = 0; word < 4; word++) {
        CHECK_NUMBER(lapic.requested[word], expected.requested[word]);
        CHECK_NUMBER(lapic.in_service[word], expected.in_service[word]);
    }
    CHECK_NUMBER(lapic.task_priority, expected.task_priority);
    CHECK_NUMBER(lapic.processor_priority, expected.processor_priority);
    CHECK_NUMBER(lapic.is_suspended, expected.is_suspended);
}

/* A vector is requested, taken and ended below another one; TPR is below, in and above its class. */
static void test_local_apic(void)
{
    static const uint8_t priorities[][2] = { { 0x3f, 0x40 }, { 0x41, 0x41 }, { 0x4f, 0x4f }, { 0x50, 0x50 } };
    synicboard board = SYNICBOARD_CLOSED;
    synicboard_open(&board, 2, 1, 0);
    check_lapic(&board, 1, (synicboard_local_apic){ 0 });
    CHECK(!synicboard_no_eoi_required(&board, 1));
    synicboard_assert(&board, 1, 0x41);
    synicboard_assert(&board, 1, 0xff);
    check_lapic(&board, 1, (synicboard_local_apic){ .requested = { 0, 2, 0, 1ull << 63 } });
    synicboard_take(&board, 1);
    check_lapic(&board, 1, (synicboard_local_apic){ .requested = { 0, 2 }, .in_service = { 0, 0, 0, 1ull << 63 }, .processor_priority = 0xf0 });
    CHECK(!synicboard_no_eoi_required(&board, 1));
    synicboard_write(&board, 1, SYNICBOARD_MSR_EOI, 0);
    synicboard_take(&board, 1);
    CHECK(synicboard_no_eoi_required(&board, 1) && !synicboard_no_eoi_required(&board, 0) && !synicboard_no_eoi_required(&board, 9));
    for (int at = 0; at < 4; at++) {
        synicboard_write(&board, 1, SYNICBOARD_MSR_TPR, priorities[at][0]);
        check_lapic(&board, 1, (synicboard_local_apic){ .in_service = { 0, 2 }, .task_priority = priorities[at][0], .processor_priority = priorities[at][1] });
    }
    synicboard_suspend(&board, 1);
    CHECK(synicboard_lapic(&board, 1).is_suspended);
    check_lapic(&board, 0, (synicboard_local_apic){ 0 });
    check_lapic(&board, 2, (synicboard_local_apic){ 0 });
    synicboard_close(&board);
}

static void check_forwarded(synicboard *board, uint8_t vp, synicboard_forwarded expected)
{
    synicboard_forwarded forwarded;
    memset(&forwarded, 0xff, sizeof forwarded);
    CHECK_NUMBER(synicboard_forward(board, vp, &forwarded).kind, SYNICBOARD_DONE);
    for (int word = 0; word < 4; word++) {
        CHECK_NUMBER(forwarded.vectors[word], expected.vectors[word]);
        CHECK_NUMBER(forwarded.auto_eoi[word], expected.auto_eoi[word]);
    }
}

/* An APIC outside the board gets what is requested, once; what is suspended or blocked stays. */
static void test_forward(void)
{
    synicboard_forwarded forwarded = { .vectors = { 1 } };
    synicboard board = SYNICBOARD_CLOSED;
    CHECK_FAULT(synicboard_forward(&board, 0, &forwarded), SYNICBOARD_IS_CLOSED);
    CHECK_NUMBER(forwarded.vectors[0], 0);
    synicboard_open(&board, 2, 1, 0);
    CHECK_NUMBER(synicboard_forward(&board, 2, &forwarded).refusal, SYNICBOARD_NO_SUCH_PROCESSOR);
    check_forwarded(&board, 1, (synicboard_forwarded){ { 0 }, { 0 } });
    synicboard_write(&board, 1, SYNICBOARD_MSR_SINT0 + 5, 0x20041);     /* auto-EOI */
    for (int turn = 0; turn < 2; turn++) {
        synicboard_assert(&board, 1, 0x10);
        synicboard_assert(&board, 1, 0x41);
        CHECK_NUMBER(synicboard_assert(&board, 1, 0xff).notices, 1);
        check_forwarded(&board, 0, (synicboard_forwarded){ { 0 }, { 0 } });
        check_forwarded(&board, 1, (synicboard_forwarded){ { 1 << 16, 2, 0, 1ull << 63 }, { 0, 2 } });
        CHECK_NUMBER(synicboard_notices(&board, NULL, 0), 0);
        CHECK_NUMBER(synicboard_next(&board, 1), 0);
        check_lapic(&board, 1, (synicboard_local_apic){ 0 });
    }
    synicboard_suspend(&board, 1);
    synicboard_assert(&board, 1, 0x41);
    check_forwarded(&board, 1, (synicboard_forwarded){ { 0 }, { 0 } });
    synicboard_resume(&board, 1);
    check_forwarded(&board, 1, (synicboard_forwarded){ { 0, 2 }, { 0, 2 } });
    synicboard_write(&board, 1, SYNICBOARD_MSR_TPR, 0x40);
    synicboard_assert(&board, 1, 0x41);
    synicboard_assert(&board, 1, 0x50);
    check_forwarded(&board, 1, (synicboard_forwarded){ { 0, 1 << 16 }, { 0 } });
    check_lapic(&board, 1, (synicboard_local_apic){ .requested = { 0, 2 }, .task_priority = 0x40, .processor_priority = 0x40 });
    synicboard_close(&board);
}

/* What each processor takes, and ends at once unless it is auto-EOI. */
static synicboard_forwarded take_and_end(synicboard *board, uint8_t vp)
{
    synicboard_forwarded taken = { .vectors = { 0 } };
    for (uint8_t vector; (vector = synicboard_next(board, vp)) != 0;) {
        bool is_auto = synicboard_is_auto(board, vp, vector);
        CHECK_NUMBER(synicboard_take(board, vp).vector, vector);
        taken.vectors[vector / 64] |= 1ull << vector % 64;
        if (is_auto)
            taken.auto_eoi[vector / 64] |= 1ull << vector % 64;
        else
            synicboard_write(board, vp, SYNICBOARD_MSR_EOI, 0);
    }
    return taken;
}

/* A board whose vectors are forwarded after each event is one whose local APICs take and end them at once. */
static void test_forwarding(void)
{
    static struct text one_after, other_after;
    synicboard one = SYNICBOARD_CLOSED, other = SYNICBOARD_CLOSED;
    uint64_t random = 7;
    open_busy(&one, 0);
    open_busy(&other, 0);
    for (int number = 0; number < RANDOM_EVENTS; number++) {
        synicboard_event event = random_event(&one, &random);
        synicboard_reply reply = synicboard_perform(&one, &event), same = synicboard_perform(&other, &event);
        CHECK(reply.kind == same.kind && reply.notices == same.notices && reply.value == same.value);
        for (uint8_t vp = 0; vp < 2; vp++)
            check_forwarded(&one, vp, take_and_end(&other, vp));
    }
    describe(&one, &one_after);
    describe(&other, &other_after);
    CHECK_SAME(&one_after, &other_after);
    synicboard_close(&one);
    synicboard_close(&other);
}

/* A timer that is armed, stopped by its processor's suspension, and expired; a slot that is empty, holds a
 * message, and is filled by the guest. */
static void test_timers_and_slots(void)
{
    static const uint8_t bytes[4] = { 1 }, empty[4] = { 0 };
    synicboard board = SYNICBOARD_CLOSED;
    uint64_t ticket = 99;
    CHECK(!synicboard_timer(&board, 0, 0).is_due && !synicboard_slot(&board, 0, 2, &ticket));
    synicboard_open(&board, 2, 4, 7);
    synicboard_write(&board, 1, SYNICBOARD_MSR_STIMER0_COUNT + 4, 100);
    CHECK(!synicboard_timer(&board, 1, 2).is_due);
    CHECK_NUMBER(synicboard_timer(&board, 1, 2).count, 100);
    synicboard_write(&board, 1, SYNICBOARD_MSR_STIMER0_CONFIG + 4, 0x1503);
    synicboard_suspend(&board, 1);
    synicboard_timer_state timer = synicboard_timer(&board, 1, 2);
    CHECK(timer.is_due && !synicboard_earliest(&board).is_due);
    CHECK_NUMBER(timer.config, 0x1503);
    CHECK_NUMBER(timer.low, 100);
    CHECK_NUMBER(timer.high, 0);
    synicboard_resume(&board, 1);
    synicboard_tick(&board, 150);
    CHECK_NUMBER(synicboard_timer(&board, 1, 2).low, 200);
    CHECK_NUMBER(synicboard_timer(&board, 1, 4).config, 0);
    CHECK_NUMBER(synicboard_timer(&board, 2, 2).config, 0);
    synicboard_write(&board, 0, SCONTROL, 1);
    synicboard_write(&board, 0, SIMP, 0x2001);
    synicboard_write(&board, 0, SINT0 + 2, 0x50);
    synicboard_open_message_port(&board, 3, 0, 2, 1);
    CHECK(!synicboard_slot(&board, 0, 2, &ticket));
    CHECK_NUMBER(ticket, 99);
    synicboard_post(&board, 3, 1, bytes, 1);
    CHECK(synicboard_slot(&board, 0, 2, &ticket));
    CHECK_NUMBER(ticket, 7);
    synicboard_store(&board, 0x2200, empty, 4);
    synicboard_store(&board, 0x2200, bytes, 4);
    CHECK(!synicboard_slot(&board, 0, 2, &ticket));
    CHECK(!synicboard_slot(&board, 0, 16, &ticket) && !synicboard_slot(&board, 2, 2, &ticket));
    synicboard_close(&board);
}

/* A one-shot that was due at 5 expires at 7, and the other one is then the earliest. */
static void test_tick_due(void)
{
    synicboard board = SYNICBOARD_CLOSED;
    synicboard_due due = { .is_due = true, .vp = 9 };
    CHECK_FAULT(synicboard_tick_due(&board, 7, &due), SYNICBOARD_IS_CLOSED);
    CHECK(!due.is_due && due.vp == 0);
    synicboard_open(&board, 1, 1, 0);
    for (uint32_t timer = 0; timer < 2; timer++) {
        synicboard_write(&board, 0, SYNICBOARD_MSR_STIMER0_COUNT + 2 * timer, 5 + 4 * timer);
        synicboard_write(&board, 0, SYNICBOARD_MSR_STIMER0_CONFIG + 2 * timer, 0x1501);
    }
    CHECK_NUMBER(synicboard_tick_due(&board, 7, &due).kind, SYNICBOARD_DONE);
    CHECK(due.is_due && due.vp == 0 && due.timer == 1 && due.low == 9 && due.high == 0);
    CHECK_NUMBER(synicboard_next(&board, 0), 0x50);
    due = (synicboard_due){ 0 };
    CHECK_NUMBER(synicboard_tick_due(&board, 6, &due).refusal, SYNICBOARD_CLOCK_BACK);
    CHECK(due.is_due && due.timer == 1 && due.low == 9);
    CHECK_NUMBER(synicboard_tick_due(&board, 9, &due).kind, SYNICBOARD_DONE);
    CHECK(!due.is_due && due.timer == 0 && due.low == 0);
    synicboard_close(&board);
}

/* Timer 0 posts to a disabled SynIC, so it is due and not ready, and hides timer 1. */
static void test_earliest_after(void)
{
    synicboard board = SYNICBOARD_CLOSED;
    CHECK(!synicboard_earliest_after(&board, 0).is_due);
    synicboard_open(&board, 1, 1, 0);
    synicboard_write(&board, 0, STIMER0_COUNT, 5);
    synicboard_write(&board, 0, STIMER0_CONFIG, 0x20001);
    synicboard_write(&board, 0, STIMER0_COUNT + 2, 900);
    synicboard_write(&board, 0, STIMER0_CONFIG + 2, 0x1501);
    CHECK_REPLY(synicboard_tick(&board, 100), SYNICBOARD_DONE);
    CHECK_NUMBER(synicboard_earliest(&board).low, 5);
    synicboard_due due = synicboard_earliest_after(&board, 4);
    CHECK(due.is_due && due.vp == 0 && due.timer == 0 && due.low == 5 && due.high == 0);
    due = synicboard_earliest_after(&board, 5);
    CHECK(due.is_due && due.vp == 0 && due.timer == 1 && due.low == 900 && due.high == 0);
    CHECK_NUMBER(synicboard_earliest_after(&board, 899).timer, 1);
    CHECK(!synicboard_earliest_after(&board, 900).is_due);
    CHECK_REPLY(synicboard_suspend(&board, 0), SYNICBOARD_DONE);
    CHECK(!synicboard_earliest_after(&board, 0).is_due);
    synicboard_close(&board);
}

static void check_alarm(const synicboard *board, uint64_t moment)
{
    synicboard_next_tick next = synicboard_alarm(board);
    CHECK(next.is_set);
    CHECK_NUMBER(next.moment, moment);
}

/* A direct timer of period 100 is served at 650: it signals once in each tick, and its next deadline is before the
 * present until it has caught up. A timer that posts to a disabled SynIC is not ready, and has no alarm. */
static void test_alarm(void)
{
    synicboard board = SYNICBOARD_CLOSED;
    CHECK(!synicboard_alarm(&board).is_set);
    synicboard_open(&board, 1, 1, 0);
    CHECK(!synicboard_alarm(&board).is_set);
    synicboard_write(&board, 0, STIMER0_COUNT + 2, 5);
    synicboard_write(&board, 0, STIMER0_CONFIG + 2, 0x20001);
    CHECK(!synicboard_alarm(&board).is_set);
    synicboard_write(&board, 0, STIMER0_COUNT, 100);
    synicboard_write(&board, 0, STIMER0_CONFIG, 0x1503);
    check_alarm(&board, 100);
    CHECK_REPLY(synicboard_tick(&board, 650), SYNICBOARD_DONE);
    CHECK(!synicboard_earliest_after(&board, 650).is_due);
    for (uint64_t moment = 651; moment < 656; moment++) {
        check_alarm(&board, moment);
        CHECK_REPLY(synicboard_tick(&board, moment), SYNICBOARD_DONE);
        CHECK(synicboard_notices(&board, NULL, 0) > 0);
    }
    check_alarm(&board, 700);
    CHECK_REPLY(synicboard_suspend(&board, 0), SYNICBOARD_DONE);
    CHECK(!synicboard_alarm(&board).is_set);
    synicboard_close(&board);
}

/* The values are those of integers without a limit: (tsc * (10000000 << 64 / hz) >> 64) + offset, modulo 2^64. */
static void test_tsc_page(void)
{
    synicboard_tsc_page page = synicboard_tsc_page_at(2700000000, 1000000000000, 5);
    CHECK_NUMBER(page.scale, 68321274347072413);
    CHECK_NUMBER(page.offset, UINT64_C(18446744070005847918));
    CHECK_NUMBER(synicboard_tsc_time(page, 1000000000000), 5);
    CHECK_NUMBER(synicboard_tsc_time(page, 1000000002699), 15);
    CHECK_NUMBER(synicboard_tsc_time(page, 1002700000000), 10000005);
    CHECK_NUMBER(synicboard_tsc_time(page, 0), UINT64_C(18446744070005847918));
    CHECK_NUMBER(synicboard_tsc_time(page, UINT64_MAX), 68321270643368714);
    for (uint64_t time = 5; time < 2000; time += 7) {
        uint64_t tsc = synicboard_tsc_until(page, time);
        CHECK(synicboard_tsc_time(page, tsc) == time && synicboard_tsc_time(page, tsc - 1) == time - 1);
    }
    CHECK_NUMBER(synicboard_tsc_until(page, 68321270643368715), UINT64_MAX);
    CHECK_NUMBER(synicboard_tsc_until((synicboard_tsc_page){ 1, 10 }, 5), 0);
    CHECK_NUMBER(synicboard_tsc_until((synicboard_tsc_page){ 0, 0 }, 1), UINT64_MAX);
    CHECK_NUMBER(synicboard_tsc_until((synicboard_tsc_page){ 0, 7 }, 7), 0);
    page = synicboard_tsc_page_moved(page, 7, UINT64_MAX);
    CHECK_NUMBER(page.scale, 68321274347072413);
    CHECK_NUMBER(synicboard_tsc_time(page, 7), UINT64_MAX);
    CHECK_NUMBER(synicboard_tsc_time(page, 277), 0);
    page = synicboard_tsc_page_at(10000001, 0, 0);
    CHECK_NUMBER(page.scale, UINT64_C(18446742229035328712));
    page = synicboard_tsc_page_at(10000000, 0, 1);
    CHECK_NUMBER(page.scale + page.offset, 0);
}

static void check_closed_looks(synicboard *board)
{
    synicboard_notice notice = { .kind = 77 };
    const uint8_t byte = 0, *page = &byte;
    for (unsigned number = 0; number < 256; number++) {
        CHECK_NUMBER(synicboard_next(board, (uint8_t)number), 0);
        CHECK(!synicboard_is_auto(board, 0, (uint8_t)number));
        CHECK_NUMBER(synicboard_queued(board, 0, (uint8_t)number), 0);
        CHECK_NUMBER(synicboard_owner(board, number).kind, SYNICBOARD_OWNER_NOTHING);
        CHECK_NUMBER(synicboard_owner(board, number).vp, 0);
        check_lapic(board, (uint8_t)number, (synicboard_local_apic){ 0 });
    }
    CHECK_NUMBER(synicboard_moment(board), 0);
    CHECK_NUMBER(synicboard_next_ticket(board), 0);
    synicboard_due due = synicboard_earliest(board);
    CHECK(!due.is_due && due.vp == 0 && due.timer == 0 && due.low == 0 && due.high == 0);
    CHECK_NUMBER(synicboard_notices(board, &notice, 1), 0);
    CHECK_NUMBER(notice.kind, 77);
    CHECK(!synicboard_message_page(board, 0, &page) && page == &byte);
    CHECK(!synicboard_flag_page(board, 0, &page) && page == &byte);
    CHECK(!synicboard_guest_page(board, 0, &page) && page == &byte);
}

static void check_closed(synicboard *board)
{
    CHECK(is_blank(board));
    check_closed_events(board);
    check_closed_faults(board);
    check_closed_looks(board);
    synicboard_close(board);
    CHECK(is_blank(board));
}

static void test_closed_handle(void)
{
    synicboard board = SYNICBOARD_CLOSED;
    check_closed(&board);
    memset(&board, 0, sizeof board);
    check_closed(&board);
    open_busy(&board, 0);
    synicboard_close(&board);
    check_closed(&board);
}

static void test_opening_twice(void)
{
    static const uint8_t sizes[][2] = { { 2, 4 }, { 1, 1 }, { 8, 64 }, { 0, 0 }, { 9, 1 }, { 1, 65 } };
    synicboard board = SYNICBOARD_CLOSED;
    open_busy(&board, 70);
    describe(&board, &before);
    size_t blocks = blocks_out;
    for (size_t at = 0; at < sizeof sizes / sizeof *sizes; at++) {
        CHECK_NUMBER(synicboard_open(&board, sizes[at][0], sizes[at][1], 5), SYNICBOARD_IS_OPEN);
        describe(&board, &after);
        CHECK_SAME(&before, &after);
    }
    CHECK_NUMBER(blocks_out, blocks);
    CHECK_NUMBER(synicboard_post(&board, MESSAGE_PORT, 1, sizes[0], 1).ticket, 71);
    synicboard_close(&board);
}

/* The board has these sizes and no more. */
static void check_sizes(synicboard *board, uint8_t processors, uint8_t pages)
{
    CHECK_NUMBER(synicboard_moment(board), 0);
    CHECK_NUMBER(synicboard_next_ticket(board), UINT64_MAX - 1);
    synicboard_notice notice;
    CHECK_NUMBER(synicboard_notices(board, &notice, 1), 0);
    CHECK_REPLY(synicboard_suspend(board, processors - 1), SYNICBOARD_DONE);
    CHECK_REFUSAL(synicboard_suspend(board, processors), SYNICBOARD_NO_SUCH_PROCESSOR);
    uint64_t end = (uint64_t)pages * PAGE;
    CHECK_REPLY(synicboard_load(board, end - 8, 8), SYNICBOARD_BYTES);
    CHECK_REFUSAL(synicboard_load(board, end, 8), SYNICBOARD_OUTSIDE_SPACE);
    CHECK_NUMBER(synicboard_owner(board, pages - 1).kind, SYNICBOARD_OWNER_GUEST);
    CHECK_NUMBER(synicboard_owner(board, pages).kind, SYNICBOARD_OWNER_NOTHING);
    CHECK_NUMBER(synicboard_owner(board, UINT64_MAX).kind, SYNICBOARD_OWNER_NOTHING);
}

static void test_sizes(void)
{
    static const uint8_t sizes[] = { 0, 1, 8, 9, 64, 65, 255 };
    const size_t count = sizeof sizes / sizeof *sizes;
    synicboard board = SYNICBOARD_CLOSED;
    for (size_t at = 0; at < count * count; at++) {
        uint8_t processors = sizes[at / count], pages = sizes[at % count];
        bool is_good = processors >= 1 && processors <= 8 && pages >= 1 && pages <= 64;
        uint8_t opened = synicboard_open(&board, processors, pages, UINT64_MAX - 1);
        CHECK_NUMBER(opened, is_good ? SYNICBOARD_OK : SYNICBOARD_BAD_SIZE);
        if (opened == SYNICBOARD_OK)
            check_sizes(&board, processors, pages);
        else
            CHECK(is_blank(&board));
        synicboard_close(&board);
        CHECK_NUMBER(blocks_out, 0);
    }
}

static void check_no_event(synicboard *board, synicboard_reply reply, const char *what, int line)
{
    check_fault(reply, SYNICBOARD_NO_EVENT, what, line);
    describe(board, &after);
    check_same(&before, &after, line);
}

#define CHECK_NO_EVENT(board, reply) check_no_event((board), (reply), #reply, __LINE__)

/* Too many bytes; 256 and more would be few if the length were cut to 8 bits. */
static void check_too_many_bytes(synicboard *board)
{
    static const uint8_t bytes[70000] = { 1 };
    static const size_t sizes[] = { 9, 240, 241, 255, 256, 257, 264, 496, 65536, 65537, 70000 };
    for (size_t at = 0; at < sizeof sizes / sizeof *sizes; at++) {
        CHECK_NO_EVENT(board, synicboard_store(board, PAGE, bytes, sizes[at]));
        if (sizes[at] > 240)
            CHECK_NO_EVENT(board, synicboard_post(board, MESSAGE_PORT, 1, bytes, sizes[at]));
    }
}

/* An invalid event changes nothing, nor does it change the notices of the last event. */
static void test_no_event(void)
{
    const uint8_t byte = 1;
    synicboard board = SYNICBOARD_CLOSED;
    open_busy(&board, 0);
    describe(&board, &before);
    for (uint8_t vector = 0; vector < 16; vector++) {
        CHECK_NO_EVENT(&board, synicboard_assert(&board, 0, vector));
        CHECK_NO_EVENT(&board, synicboard_send(&board, vector, 1));
        synicboard_event event = { .kind = SYNICBOARD_ASSERT, .vector = vector };
        CHECK_NO_EVENT(&board, synicboard_perform(&board, &event));
        event = (synicboard_event){ .kind = SYNICBOARD_SEND, .vector = vector, .value = 1 };
        CHECK_NO_EVENT(&board, synicboard_perform(&board, &event));
    }
    check_too_many_bytes(&board);
    for (unsigned length = 241; length < 256; length++) {
        synicboard_event event = { .kind = SYNICBOARD_POST, .port = MESSAGE_PORT, .message_type = 1 };
        event.length = (uint8_t)length;
        CHECK_NO_EVENT(&board, synicboard_perform(&board, &event));
    }
    for (unsigned length = 9; length < 256; length += 13) {
        synicboard_event event = { .kind = SYNICBOARD_STORE, .address = PAGE, .length = (uint8_t)length };
        CHECK_NO_EVENT(&board, synicboard_perform(&board, &event));
    }
    for (unsigned kind = SYNICBOARD_SEND + 1; kind <= 256; kind++) {
        synicboard_event event = { .kind = (uint8_t)kind, .vector = 0x60, .length = 1 };
        CHECK_NO_EVENT(&board, synicboard_perform(&board, &event));
    }
    CHECK_NUMBER(synicboard_post(&board, MESSAGE_PORT, 1, &byte, 1).ticket, 1);
    synicboard_close(&board);
}

/* The greatest valid numbers, and events that the board refuses. */
static void test_borders(void)
{
    const uint8_t bytes[240] = { 1 };
    synicboard board = SYNICBOARD_CLOSED;
    open_busy(&board, 0);
    CHECK_REPLY(synicboard_assert(&board, 0, 16), SYNICBOARD_DONE);
    CHECK_REPLY(synicboard_assert(&board, 0, 255), SYNICBOARD_DONE);
    CHECK_NUMBER(synicboard_next(&board, 0), 255);
    CHECK_REPLY(synicboard_post(&board, MESSAGE_PORT, 1, bytes, 240), SYNICBOARD_ACCEPTED);
    CHECK_REPLY(synicboard_post(&board, MESSAGE_PORT, 1, bytes, 0), SYNICBOARD_ACCEPTED);
    CHECK_REFUSAL(synicboard_post(&board, MESSAGE_PORT, 1, bytes, 0), SYNICBOARD_NO_BUFFERS);
    synicboard_notice notice;
    CHECK_NUMBER(synicboard_notices(&board, &notice, 1), 0);
    CHECK_REPLY(synicboard_store(&board, PAGE, bytes, 8), SYNICBOARD_DONE);
    CHECK_REFUSAL(synicboard_store(&board, PAGE, bytes, 0), SYNICBOARD_BAD_LENGTH);
    CHECK_REFUSAL(synicboard_load(&board, PAGE, 0), SYNICBOARD_BAD_LENGTH);
    CHECK_REFUSAL(synicboard_load(&board, PAGE, 9), SYNICBOARD_BAD_LENGTH);
    CHECK_REFUSAL(synicboard_load(&board, PAGE, 255), SYNICBOARD_BAD_LENGTH);
    CHECK_REPLY(synicboard_write(&board, 0, SINT0, 15), SYNICBOARD_GENERAL_PROTECTION);
    CHECK_NUMBER(synicboard_queued(&board, 1, SOURCE), 2);
    CHECK_NUMBER(synicboard_queued(&board, 1, SOURCES), 0);
    CHECK_NUMBER(synicboard_queued(&board, 8, SOURCE), 0);
    CHECK_NUMBER(synicboard_next(&board, 8), 0);
    synicboard_close(&board);
}

/* With a count of 0 a pointer may point anywhere; nulls.c tests null pointers. */
static void test_counts_of_zero(void)
{
    const uint8_t *nowhere = (const uint8_t *)8;
    synicboard board = SYNICBOARD_CLOSED;
    open_busy(&board, 0);
    CHECK_NUMBER(synicboard_notices(&board, (synicboard_notice *)8, 0), 3);
    CHECK_REPLY(synicboard_post(&board, MESSAGE_PORT, 1, nowhere, 0), SYNICBOARD_ACCEPTED);
    CHECK_REFUSAL(synicboard_store(&board, 0, nowhere, 0), SYNICBOARD_BAD_LENGTH);
    synicboard_close(&board);
    synicboard_end end = synicboard_replay(nowhere, 0, (uint8_t *)8, 0);
    CHECK_NUMBER(end.kind, SYNICBOARD_WRONG_LINE);
    CHECK_NUMBER(end.line, 1);
    CHECK_NUMBER(end.length, strlen("! 1 first\n"));
    synicboard_verdict verdict = synicboard_check(nowhere, 0);
    CHECK_NUMBER(verdict.kind, SYNICBOARD_WRONG_LINE);
    CHECK_NUMBER(verdict.line, 1);
    CHECK_NUMBER(verdict.entries, 0);
}

enum { POSTS = 17, TIMERS = 4 };

/* All slots and queues of a processor are full. Each source has one message in its slot and 16
 * queued; for SINT1 to SINT4 a timer message is queued after them. Message i of source s has the
 * ticket 17 s + i. */
static void open_full(synicboard *board)
{
    CHECK_NUMBER(synicboard_open(board, 1, 4, 0), SYNICBOARD_OK);
    CHECK_REPLY(synicboard_write(board, 0, SCONTROL, 1), SYNICBOARD_DONE);
    CHECK_REPLY(synicboard_write(board, 0, SIMP, 1), SYNICBOARD_DONE);
    for (uint8_t sint = 0; sint < SOURCES; sint++) {
        CHECK_REPLY(synicboard_open_message_port(board, sint, 0, sint, 16), SYNICBOARD_DONE);
        for (uint8_t count = 0; count < POSTS; count++)
            CHECK_REPLY(synicboard_post(board, sint, 1, &count, 1), SYNICBOARD_ACCEPTED);
    }
    for (uint32_t timer = 0; timer < TIMERS; timer++) {
        CHECK_REPLY(synicboard_write(board, 0, STIMER0_COUNT + 2 * timer, 10), SYNICBOARD_DONE);
        CHECK_REPLY(synicboard_write(board, 0, STIMER0_CONFIG + 2 * timer, (timer + 1) << 16 | 1), SYNICBOARD_DONE);
    }
    CHECK_REPLY(synicboard_tick(board, 10), SYNICBOARD_DONE);
}

/* The tickets of the messages that are withdrawn, by source: the slot, the posts, the timer. */
static void list_tickets(uint64_t tickets[SYNICBOARD_MOST_NOTICES])
{
    size_t count = 0;
    for (uint64_t sint = 0; sint < SOURCES; sint++) {
        for (uint64_t post = 0; post < POSTS; post++)
            tickets[count++] = POSTS * sint + post;
        if (sint >= 1 && sint <= TIMERS)
            tickets[count++] = POSTS * SOURCES + sint - 1;
    }
}

static void test_notices(void)
{
    static const size_t sizes[] = { 0, 1, 2, 17, 18, 275, 276, 277, 300 };
    static synicboard_notice room[310];
    uint64_t tickets[SYNICBOARD_MOST_NOTICES];
    synicboard board = SYNICBOARD_CLOSED;
    open_full(&board);
    list_tickets(tickets);
    CHECK_NUMBER(synicboard_reset(&board, 0).notices, SYNICBOARD_MOST_NOTICES);
    for (size_t at = 0; at < sizeof sizes / sizeof *sizes; at++) {
        memset(room, 0xee, sizeof room);
        CHECK_NUMBER(synicboard_notices(&board, room, sizes[at]), SYNICBOARD_MOST_NOTICES);
        size_t copied = sizes[at] < SYNICBOARD_MOST_NOTICES ? sizes[at] : SYNICBOARD_MOST_NOTICES;
        for (size_t number = 0; number < copied; number++) {
            CHECK_NUMBER(room[number].kind, SYNICBOARD_NOTICE_WITHDRAWN);
            CHECK_NUMBER(room[number].ticket, tickets[number]);
        }
        const uint8_t *behind = (const uint8_t *)(room + copied);
        for (size_t byte = 0; byte < sizeof room - copied * sizeof *room; byte++)
            CHECK_NUMBER(behind[byte], 0xee);
    }
    CHECK_REPLY(synicboard_take(&board, 0), SYNICBOARD_NONE_TAKEN);
    CHECK_NUMBER(synicboard_notices(&board, room, 310), 0);
    synicboard_close(&board);
}

/* A closed board leaves nothing to the next one opened through its handle. */
static void test_reopening(void)
{
    synicboard board = SYNICBOARD_CLOSED;
    CHECK_NUMBER(synicboard_open(&board, 2, 4, 9), SYNICBOARD_OK);
    describe(&board, &before);
    for (int turn = 0; turn < 20; turn++) {
        synicboard_close(&board);
        CHECK(is_blank(&board));
        CHECK_NUMBER(blocks_out, 0);
        open_busy(&board, 1);
        synicboard_close(&board);
        CHECK_NUMBER(synicboard_open(&board, 2, 4, 9), SYNICBOARD_OK);
        describe(&board, &after);
        CHECK_SAME(&before, &after);
    }
    synicboard_close(&board);
    CHECK_NUMBER(blocks_out, 0);
}

enum { MANY_EVENTS = 50000 };

/* Describes a lone board after this many random events. */
static void describe_alone(uint64_t seed, unsigned events, uint64_t first_ticket, struct text *text)
{
    synicboard board = SYNICBOARD_CLOSED;
    open_busy(&board, first_ticket);
    perform_many(&board, seed, events);
    describe(&board, text);
    synicboard_close(&board);
}

static void test_side_by_side(void)
{
    static struct text alone;
    synicboard one = SYNICBOARD_CLOSED, other = SYNICBOARD_CLOSED;
    uint64_t one_seed = 1, other_seed = 2;
    open_busy(&one, 0);
    open_busy(&other, 1000);
    for (int number = 0; number < RANDOM_EVENTS; number++) {
        perform_random(&one, &one_seed);
        perform_random(&other, &other_seed);
    }
    describe(&one, &before);
    describe(&other, &after);
    describe_alone(1, RANDOM_EVENTS, 0, &alone);
    CHECK_SAME(&before, &alone);
    describe_alone(2, RANDOM_EVENTS, 1000, &alone);
    CHECK_SAME(&after, &alone);
    synicboard_close(&one);
    describe(&other, &before);
    CHECK_SAME(&before, &after);
    synicboard_close(&other);
}

struct worker {
    synicboard board;
    uint64_t seed;
    pthread_t thread;
};

static void *work(void *given)
{
    struct worker *worker = given;
    perform_many(&worker->board, worker->seed, MANY_EVENTS);
    return NULL;
}

/* Each of two boards is used by one thread, so neither needs a lock. */
static void test_two_threads(void)
{
    struct worker workers[2] = { { .seed = 6 }, { .seed = 7 } };
    for (int at = 0; at < 2; at++) {
        open_busy(&workers[at].board, 0);
        CHECK(pthread_create(&workers[at].thread, NULL, work, &workers[at]) == 0);
    }
    for (int at = 0; at < 2; at++)
        pthread_join(workers[at].thread, NULL);
    for (int at = 0; at < 2; at++) {
        describe(&workers[at].board, &before);
        describe_alone(workers[at].seed, MANY_EVENTS, 0, &after);
        CHECK_SAME(&before, &after);
        synicboard_close(&workers[at].board);
    }
}

/* A struct and a call that encode the same event have the same reply. */
static void test_structs_and_calls(void)
{
    synicboard one = SYNICBOARD_CLOSED, other = SYNICBOARD_CLOSED;
    uint64_t seed = 8;
    open_busy(&one, 0);
    open_busy(&other, 0);
    for (int number = 0; number < RANDOM_EVENTS; number++) {
        synicboard_event event = random_event(&one, &seed);
        synicboard_reply by_struct = synicboard_perform(&one, &event);
        synicboard_reply by_call = perform_by_call(&other, &event);
        CHECK_NUMBER(by_struct.kind, by_call.kind);
        CHECK_NUMBER(by_struct.refusal, by_call.refusal);
        CHECK_NUMBER(by_struct.vector, by_call.vector);
        CHECK_NUMBER(by_struct.length, by_call.length);
        CHECK_NUMBER(by_struct.value, by_call.value);
        CHECK_NUMBER(by_struct.ticket, by_call.ticket);
        CHECK(memcmp(by_struct.bytes, by_call.bytes, sizeof by_call.bytes) == 0);
    }
    describe(&one, &before);
    describe(&other, &after);
    CHECK_SAME(&before, &after);
    synicboard_close(&one);
    synicboard_close(&other);
}

/* A handle is moved by a copy of its bytes, if the old one is not used again. */
static void test_moved_handle(void)
{
    synicboard first = SYNICBOARD_CLOSED, places[RANDOM_EVENTS];
    const uint8_t *page = NULL, *same = NULL;
    uint64_t seed = 3;
    open_busy(&first, 0);
    CHECK(synicboard_message_page(&first, 1, &page));
    memcpy(&places[0], &first, sizeof first);
    memset(&first, 0xee, sizeof first);
    for (int number = 1; number < RANDOM_EVENTS; number++) {
        perform_random(&places[number - 1], &seed);
        memcpy(&places[number], &places[number - 1], sizeof first);
        memset(&places[number - 1], 0xee, sizeof first);
    }
    synicboard *last = &places[RANDOM_EVENTS - 1];
    CHECK(synicboard_message_page(last, 1, &same) && same == page);
    perform_random(last, &seed);
    describe(last, &before);
    describe_alone(3, RANDOM_EVENTS, 0, &after);
    CHECK_SAME(&before, &after);
    synicboard_close(last);
    CHECK(is_blank(last));
}

/* ---- Refused memory ---- */

/* Refuses one allocation after another, until an opening succeeds. */
static void check_refused_opening(uint8_t processors, uint8_t pages)
{
    synicboard board = SYNICBOARD_CLOSED;
    size_t number = 1;
    uint8_t opened;
    refuse(number);
    while ((opened = synicboard_open(&board, processors, pages, 0)) == SYNICBOARD_NO_MEMORY) {
        CHECK(is_blank(&board));
        CHECK_NUMBER(blocks_out, 0);
        CHECK_FAULT(synicboard_take(&board, 0), SYNICBOARD_IS_CLOSED);
        refuse(++number);
    }
    CHECK_NUMBER(opened, SYNICBOARD_OK);
    CHECK_NUMBER(requests, number - 1);
    CHECK(number > 1);
    refuse(0);
    CHECK_REPLY(synicboard_take(&board, 0), SYNICBOARD_NONE_TAKEN);
    synicboard_close(&board);
    CHECK_NUMBER(blocks_out, 0);
}

static void test_refused_opening(void)
{
    check_refused_opening(1, 1);
    check_refused_opening(PROCESSORS, PAGES);
}

/* Events and queries neither allocate nor free. Each kind of reply occurs. */
static void test_events_take_no_memory(void)
{
    synicboard board = SYNICBOARD_CLOSED;
    unsigned replies[SYNICBOARD_REFUSED + 1] = { 0 };
    uint64_t seed = 6;
    open_busy(&board, 0);
    refuse(0);
    for (int number = 0; number < RANDOM_EVENTS; number++) {
        synicboard_reply reply = perform_random(&board, &seed);
        CHECK(reply.kind >= SYNICBOARD_DONE && reply.kind <= SYNICBOARD_REFUSED);
        replies[reply.kind <= SYNICBOARD_REFUSED ? reply.kind : 0]++;
        if (number % 10 == 0)
            describe(&board, &after);
    }
    CHECK_NUMBER(requests, 0);
    CHECK_NUMBER(returns, 0);
    for (unsigned kind = SYNICBOARD_DONE; kind <= SYNICBOARD_REFUSED; kind++)
        CHECK(replies[kind] > 0);
    synicboard_close(&board);
    CHECK(returns > 0);
}

static const struct test tests[] = {
    { "a local APIC", test_local_apic },
    { "vectors for an APIC outside the board", test_forward },
    { "an APIC outside the board, by random events", test_forwarding },
    { "timers and slots", test_timers_and_slots },
    { "a tick with the earliest deadline", test_tick_due },
    { "the earliest deadline after a time", test_earliest_after },
    { "the alarm", test_alarm },
    { "the reference TSC page", test_tsc_page },
        { "reference TSC page", test_tsc_page },
    { "a closed handle", test_closed_handle },
    { "opening twice", test_opening_twice },
    { "sizes", test_sizes },
    { "what is no event", test_no_event },
    { "numbers at their borders", test_borders },
    { "counts of zero", test_counts_of_zero },
    { "notices into too little room", test_notices },
    { "a board closed and opened again", test_reopening },
    { "two boards side by side", test_side_by_side },
    { "two boards in two threads", test_two_threads },
    { "structs and calls", test_structs_and_calls },
    { "a handle that moves", test_moved_handle },
    { "refused memory of an opening", test_refused_opening },
    { "events take no memory", test_events_take_no_memory },
};

int main(void)
{
    return run_tests(tests, sizeof tests / sizeof *tests);
}
