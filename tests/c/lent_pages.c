/* The pages that a board returns: their bytes, and that their addresses do not change. */
#include <stdbool.h>
#include <stddef.h>
#include <stdint.h>
#include <string.h>

#include "busy.h"
#include "checks.h"
#include "synicboard.h"

static bool is_zero(const uint8_t *bytes, size_t from, size_t to)
{
    for (size_t at = from; at < to; at++)
        if (bytes[at] != 0)
            return false;
    return true;
}

/* The page has these bytes in the slot of SOURCE, and zeros elsewhere. */
static bool has_slot(const uint8_t *page, const uint8_t *bytes, size_t length)
{
    size_t place = SOURCE * SLOT;
    return memcmp(page + place, bytes, length) == 0 && is_zero(page, 0, place) && is_zero(page, place + length, PAGE);
}

static void test_message_page(void)
{
    uint8_t first[] = { 4, 3, 2, 1, 3, 0, 0, 0, MESSAGE_PORT, 0, 0, 0, 0, 0, 0, 0, 0x0a, 0x0b, 0x0c };
    const uint8_t second[] = { 5, 0, 0, 0, 2, 0, 0, 0, MESSAGE_PORT, 0, 0, 0, 0, 0, 0, 0, 0xfe, 0xff };
    const uint8_t zeros[4] = { 0 };
    const uint8_t *page = NULL, *same = NULL;
    synicboard board = SYNICBOARD_CLOSED;
    open_busy(&board, 0);
    CHECK(synicboard_message_page(&board, 1, &page));
    CHECK(has_slot(page, first, sizeof first));
    CHECK_REPLY(synicboard_post(&board, MESSAGE_PORT, 5, second + 16, 2), SYNICBOARD_ACCEPTED);
    first[5] = 1;
    CHECK(has_slot(page, first, sizeof first));
    synicboard_reply loaded = synicboard_load(&board, 2 * PAGE + SOURCE * SLOT, 8);
    CHECK(memcmp(loaded.bytes, first, 8) == 0);
    CHECK_REPLY(synicboard_store(&board, 2 * PAGE + SOURCE * SLOT, zeros, 4), SYNICBOARD_DONE);
    memset(first, 0, 4);
    CHECK(has_slot(page, first, sizeof first));
    CHECK_REPLY(synicboard_write(&board, 1, EOM, 0), SYNICBOARD_DONE);
    CHECK(has_slot(page, second, sizeof second));
    CHECK_REPLY(synicboard_write(&board, 1, SIMP, 0), SYNICBOARD_DONE);
    CHECK(has_slot(page, second, sizeof second));
    CHECK_REPLY(synicboard_reset(&board, 1), SYNICBOARD_DONE);
    CHECK(is_zero(page, 0, PAGE));
    CHECK(synicboard_message_page(&board, 1, &same) && same == page);
    synicboard_close(&board);
}

/* A message of the greatest length, a timer message, and the page of the other processor. */
static void test_message_images(void)
{
    uint8_t image[SLOT] = { 1, 0, 0, 0, 240, 0, 0, 0, MESSAGE_PORT };
    const uint8_t timer[] = { 0x10, 0, 0, 0x80, 24, 0, 0, 0, 0, 0, 0, 0, 0, 0, 0, 0,
                              3, 0, 0, 0, 0, 0, 0, 0, 20, 0, 0, 0, 0, 0, 0, 0, 30 };
    const uint8_t *page = NULL, *other = NULL;
    synicboard board = SYNICBOARD_CLOSED;
    CHECK_NUMBER(synicboard_open(&board, 2, 4, 0), SYNICBOARD_OK);
    set_up(&board, 1);
    for (size_t at = 16; at < SLOT; at++)
        image[at] = (uint8_t)at;
    CHECK(synicboard_message_page(&board, 1, &page));
    CHECK(synicboard_message_page(&board, 0, &other) && is_zero(page, 0, PAGE));
    CHECK_REPLY(synicboard_post(&board, MESSAGE_PORT, 1, image + 16, 240), SYNICBOARD_ACCEPTED);
    CHECK(has_slot(page, image, SLOT));
    CHECK_REPLY(synicboard_reset(&board, 1), SYNICBOARD_DONE);
    CHECK_REPLY(synicboard_close_port(&board, MESSAGE_PORT), SYNICBOARD_DONE);
    CHECK_REPLY(synicboard_close_port(&board, FLAG_PORT), SYNICBOARD_DONE);
    set_up(&board, 0);
    CHECK_REPLY(synicboard_write(&board, 0, STIMER0_COUNT + 6, 20), SYNICBOARD_DONE);
    CHECK_REPLY(synicboard_write(&board, 0, STIMER0_CONFIG + 6, SOURCE << 16 | 1), SYNICBOARD_DONE);
    CHECK_REPLY(synicboard_tick(&board, 30), SYNICBOARD_DONE);
    CHECK(is_zero(page, 0, PAGE));
    CHECK(has_slot(other, timer, sizeof timer));
    synicboard_close(&board);
}

/* The port's flags begin at 8, so flag 5 is bit 5 of the second byte; the slot has 256 bytes, as one of a
 * message. */
static void test_flag_page(void)
{
    const uint8_t first[] = { 0, 0x20 }, both[] = { 0, 0x20, 0, 0, 0, 0, 0, 0, 0x80 }, zeros[8] = { 0 };
    const uint8_t *page = NULL, *same = NULL;
    synicboard board = SYNICBOARD_CLOSED;
    open_busy(&board, 0);
    CHECK(synicboard_flag_page(&board, 1, &page));
    CHECK(has_slot(page, first, sizeof first));
    CHECK_REPLY(synicboard_signal(&board, FLAG_PORT, 63), SYNICBOARD_FLAG_WAS_CLEAR);
    CHECK(has_slot(page, both, sizeof both));
    CHECK_REPLY(synicboard_store(&board, 3 * PAGE + SOURCE * SLOT + 8, zeros, 8), SYNICBOARD_DONE);
    CHECK(has_slot(page, first, sizeof first));
    CHECK_REPLY(synicboard_write(&board, 1, SIEFP, PAGE + 1), SYNICBOARD_DONE);
    CHECK(synicboard_flag_page(&board, 1, &same) && same == page);
    CHECK_REPLY(synicboard_reset(&board, 1), SYNICBOARD_DONE);
    CHECK(is_zero(page, 0, PAGE));
    CHECK(synicboard_flag_page(&board, 1, &same) && same == page);
    synicboard_close(&board);
}

/* A guest page is the page below the overlays. */
static void test_guest_page(void)
{
    const uint8_t bytes[] = { 1, 2, 3, 4, 5, 6, 7, 8 };
    const uint8_t *seen = NULL, *hidden = NULL, *same = NULL;
    synicboard board = SYNICBOARD_CLOSED;
    open_busy(&board, 0);
    CHECK(synicboard_guest_page(&board, 1, &seen));
    CHECK(synicboard_guest_page(&board, 2, &hidden));
    CHECK_REPLY(synicboard_store(&board, PAGE + SOURCE * SLOT, bytes, 8), SYNICBOARD_DONE);
    CHECK_REPLY(synicboard_store(&board, 2 * PAGE + SOURCE * SLOT, bytes, 8), SYNICBOARD_DONE);
    CHECK(has_slot(seen, bytes, 8));
    CHECK(is_zero(hidden, 0, PAGE));
    CHECK_REPLY(synicboard_write(&board, 1, SIMP, PAGE + 1), SYNICBOARD_DONE);
    CHECK_REPLY(synicboard_store(&board, 2 * PAGE + SOURCE * SLOT, bytes, 3), SYNICBOARD_DONE);
    CHECK(has_slot(hidden, bytes, 3));
    CHECK(has_slot(seen, bytes, 8));
    CHECK_REPLY(synicboard_reset(&board, 1), SYNICBOARD_DONE);
    CHECK(has_slot(seen, bytes, 8) && has_slot(hidden, bytes, 3));
    CHECK(synicboard_guest_page(&board, 1, &same) && same == seen);
    CHECK(synicboard_guest_page(&board, 2, &same) && same == hidden);
    synicboard_close(&board);
}

static void test_no_such_page(void)
{
    const uint8_t byte = 0, *page = &byte;
    synicboard board = SYNICBOARD_CLOSED;
    CHECK_NUMBER(synicboard_open(&board, 2, 4, 0), SYNICBOARD_OK);
    for (unsigned vp = 2; vp < 256; vp++) {
        CHECK(!synicboard_message_page(&board, (uint8_t)vp, &page));
        CHECK(!synicboard_flag_page(&board, (uint8_t)vp, &page));
    }
    for (uint64_t number = 4; number < 300; number++)
        CHECK(!synicboard_guest_page(&board, number, &page));
    CHECK(!synicboard_guest_page(&board, UINT64_MAX, &page));
    CHECK(!synicboard_guest_page(&board, UINT64_C(1) << 32, &page));
    CHECK(page == &byte);
    synicboard_close(&board);
}

/* Each page of the greatest board is a page of the host, and its address does not change. */
static void test_all_pages(void)
{
    enum { ALL = 2 * PROCESSORS + PAGES };
    const uint8_t *pages[ALL], *again[ALL];
    synicboard board = SYNICBOARD_CLOSED;
    CHECK_NUMBER(synicboard_open(&board, PROCESSORS, PAGES, 0), SYNICBOARD_OK);
    set_up(&board, 1);
    for (int turn = 0; turn < 2; turn++) {
        const uint8_t **place = turn == 0 ? pages : again;
        for (uint8_t vp = 0; vp < PROCESSORS; vp++) {
            CHECK(synicboard_message_page(&board, vp, place++));
            CHECK(synicboard_flag_page(&board, vp, place++));
        }
        for (uint64_t number = 0; number < PAGES; number++)
            CHECK(synicboard_guest_page(&board, number, place++));
        perform_many(&board, 4, RANDOM_EVENTS);
    }
    for (size_t one = 0; one < ALL; one++) {
        CHECK(pages[one] == again[one]);
        CHECK((uintptr_t)pages[one] % PAGE == 0);
        for (size_t other = 0; other < one; other++)
            CHECK(pages[one] != pages[other]);
    }
    synicboard_close(&board);
}

static const struct test tests[] = {
    { "the page of messages", test_message_page },
    { "images of messages", test_message_images },
    { "the page of flags", test_flag_page },
    { "guest pages", test_guest_page },
    { "no such page", test_no_such_page },
    { "all pages of the greatest board", test_all_pages },
};

int main(void)
{
    return run_tests(tests, sizeof tests / sizeof *tests);
}
