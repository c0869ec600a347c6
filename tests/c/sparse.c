/* Sparse boards: overlays at any page of a guest's memory, which is the caller's. */
#include <string.h>

#include "checks.h"
#include "synicboard.h"

static const uint64_t LAST_PAGE = (UINT64_C(1) << 52) - 1;

/* A value of SIMP or SIEFP that enables the overlay at a page. */
static uint64_t at_page(uint64_t page)
{
    return page << 12 | 1;
}

static void test_opening(void)
{
    static const uint8_t wrong[] = { 0, 65, 255 };
    synicboard board = SYNICBOARD_CLOSED;
    for (size_t at = 0; at < sizeof wrong; at++)
        CHECK_NUMBER(synicboard_open_sparse(&board, wrong[at], 0), SYNICBOARD_BAD_SIZE);
    CHECK_NUMBER(synicboard_next_overlay(&board, 0).owner.kind, SYNICBOARD_OWNER_NOTHING);
    CHECK_NUMBER(synicboard_open_sparse(&board, 64, 7), SYNICBOARD_OK);
    CHECK_NUMBER(synicboard_open_sparse(&board, 64, 7), SYNICBOARD_IS_OPEN);
    CHECK_NUMBER(synicboard_open(&board, 1, 1, 0), SYNICBOARD_IS_OPEN);
    CHECK_NUMBER(synicboard_next_ticket(&board), 7);
    CHECK_REPLY(synicboard_take(&board, 63), SYNICBOARD_NONE_TAKEN);
    CHECK_REFUSAL(synicboard_take(&board, 64), SYNICBOARD_NO_SUCH_PROCESSOR);
    synicboard_close(&board);
}

/* Refuses one allocation after another, until an opening succeeds. */
static void test_refused_memory(void)
{
    synicboard board = SYNICBOARD_CLOSED;
    size_t number = 1;
    refuse(number);
    while (synicboard_open_sparse(&board, PROCESSORS, 0) == SYNICBOARD_NO_MEMORY) {
        CHECK_NUMBER(blocks_out, 0);
        refuse(++number);
    }
    CHECK_NUMBER(requests, number - 1);
    CHECK(number > 1);
    refuse(0);
    CHECK_REPLY(synicboard_take(&board, 0), SYNICBOARD_NONE_TAKEN);
    synicboard_close(&board);
}

/* The guest's memory is the caller's, at each page without an overlay. */
static void test_elsewhere(void)
{
    static const uint64_t addresses[] = { 0, 4088, 0x7fff00000, (UINT64_C(1) << 63) + 16, UINT64_MAX - 7 };
    static const uint8_t bytes[9] = { 1 };
    synicboard board = SYNICBOARD_CLOSED;
    const uint8_t *page;
    CHECK_NUMBER(synicboard_open_sparse(&board, 2, 0), SYNICBOARD_OK);
    for (size_t at = 0; at < sizeof addresses / sizeof *addresses; at++) {
        CHECK_REFUSAL(synicboard_load(&board, addresses[at], 8), SYNICBOARD_ELSEWHERE);
        CHECK_REFUSAL(synicboard_store(&board, addresses[at], bytes, 8), SYNICBOARD_ELSEWHERE);
        CHECK_REFUSAL(synicboard_load(&board, addresses[at], 0), SYNICBOARD_BAD_LENGTH);
        CHECK_REFUSAL(synicboard_load(&board, addresses[at], 9), SYNICBOARD_BAD_LENGTH);
        CHECK_NUMBER(synicboard_owner(&board, addresses[at] / PAGE).kind, SYNICBOARD_OWNER_GUEST);
    }
    CHECK_REFUSAL(synicboard_load(&board, 4092, 8), SYNICBOARD_CROSSES_PAGE);
    CHECK_REFUSAL(synicboard_load(&board, UINT64_MAX, 2), SYNICBOARD_CROSSES_PAGE);
    CHECK_NUMBER(synicboard_owner(&board, LAST_PAGE).kind, SYNICBOARD_OWNER_GUEST);
    CHECK_NUMBER(synicboard_owner(&board, LAST_PAGE + 1).kind, SYNICBOARD_OWNER_NOTHING);
    CHECK(!synicboard_guest_page(&board, 0, &page));
    synicboard_close(&board);
}

static void check_overlay(const synicboard *board, uint64_t from, uint64_t page, uint8_t kind, uint8_t vp)
{
    synicboard_overlay overlay = synicboard_next_overlay(board, from);
    CHECK_NUMBER(overlay.owner.kind, kind);
    CHECK_NUMBER(overlay.owner.vp, vp);
    CHECK_NUMBER(overlay.page, page);
    if (kind == SYNICBOARD_OWNER_NOTHING)
        return;
    synicboard_page_owner owner = synicboard_owner(board, page);
    CHECK_NUMBER(owner.kind, kind);
    CHECK_NUMBER(owner.vp, vp);
}

/* Four overlays, of which two are at one page: the first in the order of visibility is seen there, the other
 * one once that has left. The registers have what the guest wrote. */
static void test_overlays_in_order(void)
{
    synicboard board = SYNICBOARD_CLOSED;
    CHECK_NUMBER(synicboard_open_sparse(&board, 2, 0), SYNICBOARD_OK);
    check_overlay(&board, 0, 0, SYNICBOARD_OWNER_NOTHING, 0);
    CHECK_REPLY(synicboard_write(&board, 0, SIMP, at_page(LAST_PAGE)), SYNICBOARD_DONE);
    CHECK_REPLY(synicboard_write(&board, 0, SIEFP, at_page(0x80000)), SYNICBOARD_DONE);
    CHECK_REPLY(synicboard_write(&board, 1, SIMP, at_page(0x80000) | 0xffe), SYNICBOARD_DONE);
    CHECK_REPLY(synicboard_write(&board, 1, SIEFP, at_page(5)), SYNICBOARD_DONE);
    CHECK_NUMBER(synicboard_read(&board, 1, SIMP).value, at_page(0x80000) | 0xffe);
    check_overlay(&board, 0, 5, SYNICBOARD_OWNER_FLAGS, 1);
    check_overlay(&board, 5, 5, SYNICBOARD_OWNER_FLAGS, 1);
    check_overlay(&board, 6, 0x80000, SYNICBOARD_OWNER_FLAGS, 0);
    check_overlay(&board, 0x80001, LAST_PAGE, SYNICBOARD_OWNER_MESSAGES, 0);
    check_overlay(&board, LAST_PAGE + 1, 0, SYNICBOARD_OWNER_NOTHING, 0);
    CHECK_REPLY(synicboard_write(&board, 0, SIEFP, at_page(0x80000) - 1), SYNICBOARD_DONE);
    check_overlay(&board, 6, 0x80000, SYNICBOARD_OWNER_MESSAGES, 1);
    CHECK_REPLY(synicboard_reset(&board, 1), SYNICBOARD_DONE);
    check_overlay(&board, 0, LAST_PAGE, SYNICBOARD_OWNER_MESSAGES, 0);
    CHECK_REFUSAL(synicboard_load(&board, 0x80000 * (uint64_t)PAGE, 8), SYNICBOARD_ELSEWHERE);
    synicboard_close(&board);
}

/* A message in a page that no board with 64 pages has: the guest reads it, empties the slot, and gets the next. */
static void test_messages(void)
{
    static const uint8_t payload = 0x0a, zeros[4] = { 0 };
    const uint64_t slot = 0x7fff00000 + 0x200;
    synicboard board = SYNICBOARD_CLOSED;
    synicboard_notice notice;
    const uint8_t *page = NULL;
    CHECK_NUMBER(synicboard_open_sparse(&board, 1, 0), SYNICBOARD_OK);
    CHECK_REPLY(synicboard_write(&board, 0, SCONTROL, 1), SYNICBOARD_DONE);
    CHECK_REPLY(synicboard_write(&board, 0, SIMP, at_page(0x7fff00)), SYNICBOARD_DONE);
    CHECK_REPLY(synicboard_write(&board, 0, SINT0 + 2, 0x50), SYNICBOARD_DONE);
    CHECK_REPLY(synicboard_open_message_port(&board, 3, 0, 2, 2), SYNICBOARD_DONE);
    CHECK_REPLY(synicboard_post(&board, 3, 1, &payload, 1), SYNICBOARD_ACCEPTED);
    CHECK_REPLY(synicboard_post(&board, 3, 1, &payload, 1), SYNICBOARD_ACCEPTED);
    CHECK(synicboard_message_page(&board, 0, &page) && page[0x210] == payload);
    synicboard_reply reply = synicboard_load(&board, slot, 8);
    CHECK_REPLY(reply, SYNICBOARD_BYTES);
    CHECK(reply.bytes[0] == 1 && reply.bytes[4] == 1 && reply.bytes[5] == 1);
    CHECK_REPLY(synicboard_store(&board, slot, zeros, 4), SYNICBOARD_DONE);
    CHECK_NUMBER(synicboard_notices(&board, &notice, 1), 1);
    CHECK(notice.kind == SYNICBOARD_NOTICE_CONSUMED && notice.ticket == 0);
    CHECK_REPLY(synicboard_write(&board, 0, EOM, 0), SYNICBOARD_DONE);
    CHECK_NUMBER(synicboard_load(&board, slot, 8).bytes[5], 0);
    CHECK_REFUSAL(synicboard_load(&board, slot - PAGE, 8), SYNICBOARD_ELSEWHERE);
    synicboard_close(&board);
}

/* 256 timers are due at 10: each tick expires 32, and says which is next. */
static void test_many_processors(void)
{
    enum { VECTOR = 0x40, ONE_SHOT = 0x1401, AT_ONCE = 32 };
    synicboard board = SYNICBOARD_CLOSED;
    synicboard_due due;
    CHECK_NUMBER(synicboard_open_sparse(&board, MOST_PROCESSORS, 0), SYNICBOARD_OK);
    for (uint8_t vp = 0; vp < MOST_PROCESSORS; vp++)
        for (uint32_t timer = 0; timer < 4; timer++) {
            CHECK_REPLY(synicboard_write(&board, vp, STIMER0_COUNT + 2 * timer, 10), SYNICBOARD_DONE);
            CHECK_REPLY(synicboard_write(&board, vp, STIMER0_CONFIG + 2 * timer, ONE_SHOT), SYNICBOARD_DONE);
        }
    for (uint8_t turn = 0; turn < 8; turn++) {
        CHECK_REPLY(synicboard_tick_due(&board, 10 + turn, &due), SYNICBOARD_DONE);
        /* a processor's vector is requested once */
        CHECK_NUMBER(synicboard_notices(&board, NULL, 0), AT_ONCE + AT_ONCE / 4);
        CHECK(turn == 7 ? !due.is_due : due.is_due && due.vp == 8 * (turn + 1) && due.timer == 0 && due.low == 10);
        CHECK_NUMBER(synicboard_next(&board, (uint8_t)(8 * turn + 7)), VECTOR);
        CHECK_NUMBER(synicboard_next(&board, (uint8_t)(8 * turn + 8)), 0);
    }
    CHECK_REPLY(synicboard_send(&board, 0x50, UINT64_C(1) << 63 | 1), SYNICBOARD_DONE);
    CHECK(synicboard_next(&board, 0) == 0x50 && synicboard_next(&board, 63) == 0x50 && synicboard_next(&board, 62) == VECTOR);
    synicboard_close(&board);
}

/* After each event the bits are those of the processors whose next vector differs, up to processor 63. */
static void test_wide_view(void)
{
    synicboard board = SYNICBOARD_CLOSED;
    synicboard_wide_view view = { 0 };
    synicboard_changes changes = synicboard_update_wide(&board, &view);
    CHECK(changes.next == 0 && !changes.earliest);
    CHECK_NUMBER(synicboard_open_sparse(&board, MOST_PROCESSORS, 0), SYNICBOARD_OK);
    for (uint8_t vp = 0; vp < MOST_PROCESSORS; vp++) {
        CHECK_REPLY(synicboard_assert(&board, vp, 0x40), SYNICBOARD_DONE);
        changes = synicboard_update_wide(&board, &view);
        CHECK(changes.next == UINT64_C(1) << vp && !changes.earliest && view.next[vp] == 0x40);
        changes = synicboard_update_wide(&board, &view);
        CHECK(changes.next == 0 && !changes.earliest);
    }
    CHECK_REPLY(synicboard_send(&board, 0x50, UINT64_C(0x8000000000000101)), SYNICBOARD_DONE);
    CHECK_REPLY(synicboard_write(&board, 63, STIMER0_COUNT + 6, 10), SYNICBOARD_DONE);
    CHECK_REPLY(synicboard_write(&board, 63, STIMER0_CONFIG + 6, 0x1401), SYNICBOARD_DONE);
    changes = synicboard_update_wide(&board, &view);
    CHECK(changes.next == UINT64_C(0x8000000000000101) && changes.earliest);
    CHECK(view.earliest.is_due && view.earliest.vp == 63 && view.earliest.timer == 3 && view.earliest.low == 10);
    synicboard_close(&board);
    changes = synicboard_update_wide(&board, &view);
    CHECK(changes.next == UINT64_MAX && changes.earliest && !view.earliest.is_due);
}

/* Four ports for each of 64 processors, the last of which takes as many messages as it has buffers. */
static void test_many_ports(void)
{
    enum { BUFFERS = 16 };
    synicboard board = SYNICBOARD_CLOSED;
    CHECK_NUMBER(synicboard_open_sparse(&board, MOST_PROCESSORS, 0), SYNICBOARD_OK);
    CHECK_REPLY(synicboard_write(&board, 63, SCONTROL, 1), SYNICBOARD_DONE);
    for (unsigned port = 0; port < 4 * MOST_PROCESSORS; port++)
        CHECK_REPLY(synicboard_open_message_port(&board, (uint8_t)port, (uint8_t)(port / 4), 2, BUFFERS), SYNICBOARD_DONE);
    for (unsigned turn = 0; turn < BUFFERS; turn++)
        CHECK_REPLY(synicboard_post(&board, 255, 1, NULL, 0), SYNICBOARD_ACCEPTED);
    CHECK_REFUSAL(synicboard_post(&board, 255, 1, NULL, 0), SYNICBOARD_NO_BUFFERS);
    CHECK_NUMBER(synicboard_queued(&board, 63, 2), BUFFERS);
    CHECK_REPLY(synicboard_close_port(&board, 255), SYNICBOARD_DONE);
    CHECK_NUMBER(synicboard_notices(&board, NULL, 0), BUFFERS);
    synicboard_close(&board);
}

/* The ports of a processor have at most 256 buffers, and one that is closed gives its own back. */
static void test_buffers_of_a_processor(void)
{
    enum { BUFFERS = 16 };
    synicboard board = SYNICBOARD_CLOSED;
    CHECK_NUMBER(synicboard_open_sparse(&board, MOST_PROCESSORS, 0), SYNICBOARD_OK);
    for (unsigned port = 0; port < 16; port++)
        CHECK_REPLY(synicboard_open_message_port(&board, (uint8_t)(16 * port), 63, (uint8_t)port, BUFFERS), SYNICBOARD_DONE);
    CHECK_REFUSAL(synicboard_open_message_port(&board, 255, 63, 2, 1), SYNICBOARD_BAD_TARGET);
    CHECK_REPLY(synicboard_open_message_port(&board, 255, 62, 2, BUFFERS), SYNICBOARD_DONE);
    CHECK_REPLY(synicboard_open_event_port(&board, 254, 63, 2, 0, 2048), SYNICBOARD_DONE);
    CHECK_REPLY(synicboard_close_port(&board, 240), SYNICBOARD_DONE);
    CHECK_REPLY(synicboard_open_message_port(&board, 253, 63, 2, BUFFERS), SYNICBOARD_DONE);
    CHECK_REFUSAL(synicboard_open_message_port(&board, 240, 63, 2, 1), SYNICBOARD_BAD_TARGET);
    synicboard_close(&board);
}

/* Two overlays of each of 64 processors, the last ones at the first pages: each has a page of its own, in ascending order. */
static void test_128_overlays(void)
{
    synicboard board = SYNICBOARD_CLOSED;
    unsigned count = 2 * MOST_PROCESSORS;
    CHECK_NUMBER(synicboard_open_sparse(&board, MOST_PROCESSORS, 0), SYNICBOARD_OK);
    for (unsigned at = 0; at < count; at++) {
        uint32_t msr = at % 2 == 0 ? SIMP : SIEFP;
        CHECK_REPLY(synicboard_write(&board, (uint8_t)(at / 2), msr, at_page(3 * (count - 1 - at))), SYNICBOARD_DONE);
    }
    uint64_t from = 0;
    for (unsigned at = 0; at < count; at++) {
        synicboard_overlay next = synicboard_next_overlay(&board, from);
        CHECK_NUMBER(next.page, 3 * at);
        CHECK_NUMBER(next.owner.vp, (count - 1 - at) / 2);
        CHECK_NUMBER(next.owner.kind, at % 2 == 0 ? SYNICBOARD_OWNER_FLAGS : SYNICBOARD_OWNER_MESSAGES);
        from = next.page + 1;
    }
    CHECK_NUMBER(synicboard_next_overlay(&board, from).owner.kind, SYNICBOARD_OWNER_NOTHING);
    synicboard_close(&board);
}

static const struct test tests[] = {
    { "opening", test_opening },
    { "refused memory of an opening", test_refused_memory },
    { "memory of the caller", test_elsewhere },
    { "overlays in order", test_overlays_in_order },
    { "messages at any page", test_messages },
    { "many processors", test_many_processors },
    { "a wide view", test_wide_view },
    { "many ports", test_many_ports },
    { "buffers of a processor", test_buffers_of_a_processor },
    { "128 overlays", test_128_overlays },
};

int main(void)
{
    return run_tests(tests, sizeof tests / sizeof *tests);
}
