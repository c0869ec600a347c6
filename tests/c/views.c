/* Views and owners: after each event, what an update returns and writes is what the single queries
 * show. */
#include <string.h>

#include "checks.h"
#include "synicboard.h"

/* What the queries returned before the last event. */
struct seen {
    synicboard_view view;
    synicboard_owners owners;
};

static bool is_same_due(synicboard_due one, synicboard_due other)
{
    return one.is_due == other.is_due && one.vp == other.vp && one.timer == other.timer && one.low == other.low
        && one.high == other.high;
}

static bool is_same_owner(synicboard_page_owner one, synicboard_page_owner other)
{
    return one.kind == other.kind && one.vp == other.vp;
}

/* The bits of a view that the queries differ from, and the view that they show. */
static uint64_t look_at_view(const synicboard *board, synicboard_view *view)
{
    uint64_t changed = 0;
    for (uint8_t vp = 0; vp < PROCESSORS; vp++) {
        uint8_t next = synicboard_next(board, vp);
        changed |= (uint64_t)(view->next[vp] != next) << vp;
        view->next[vp] = next;
    }
    synicboard_due due = synicboard_earliest(board);
    changed |= is_same_due(view->earliest, due) ? 0 : SYNICBOARD_EARLIEST_CHANGED;
    view->earliest = due;
    return changed;
}

static uint64_t look_at_owners(const synicboard *board, synicboard_owners *owners)
{
    uint64_t changed = 0;
    for (uint8_t page = 0; page < PAGES; page++) {
        synicboard_page_owner owner = synicboard_owner(board, page);
        changed |= (uint64_t)!is_same_owner(owners->page[page], owner) << page;
        owners->page[page] = owner;
    }
    return changed;
}

static bool is_same_view(const synicboard_view *one, const synicboard_view *other)
{
    return memcmp(one->next, other->next, sizeof one->next) == 0 && is_same_due(one->earliest, other->earliest);
}

static bool are_same_owners(const synicboard_owners *one, const synicboard_owners *other)
{
    for (unsigned page = 0; page < PAGES; page++)
        if (!is_same_owner(one->page[page], other->page[page]))
            return false;
    return true;
}

/* Updates both, and checks that they are what the queries show, with the bits that differ. */
static void update(const synicboard *board, struct seen *seen, uint64_t view_bits, uint64_t owner_bits)
{
    struct seen queried = *seen;
    CHECK_NUMBER(look_at_view(board, &queried.view), view_bits);
    CHECK_NUMBER(look_at_owners(board, &queried.owners), owner_bits);
    CHECK_NUMBER(synicboard_update(board, &seen->view), view_bits);
    CHECK_NUMBER(synicboard_update_owners(board, &seen->owners), owner_bits);
    CHECK(is_same_view(&seen->view, &queried.view));
    CHECK(are_same_owners(&seen->owners, &queried.owners));
    CHECK_NUMBER(synicboard_update(board, &seen->view), 0);
    CHECK_NUMBER(synicboard_update_owners(board, &seen->owners), 0);
}

static void test_each_change(void)
{
    enum { PAGE_2 = 1 << 2, PAGE_3 = 1 << 3, EARLIEST_ONLY = SYNICBOARD_EARLIEST_CHANGED };
    struct seen seen = { .view = { .next = { 0 } } };
    synicboard board = SYNICBOARD_CLOSED;
    CHECK_NUMBER(synicboard_open(&board, 2, 4, 0), SYNICBOARD_OK);
    update(&board, &seen, 0, 0xf);
    CHECK_REPLY(synicboard_write(&board, 1, SCONTROL, 1), SYNICBOARD_DONE);
    update(&board, &seen, 0, 0);
    CHECK_REPLY(synicboard_write(&board, 1, SIMP, 2 * PAGE + 1), SYNICBOARD_DONE);
    update(&board, &seen, 0, PAGE_2);
    CHECK_REPLY(synicboard_write(&board, 1, SIEFP, 2 * PAGE + 1), SYNICBOARD_DONE);
    update(&board, &seen, 0, 0); /* hidden by the message page */
    CHECK_REPLY(synicboard_write(&board, 1, SIMP, 3 * PAGE + 1), SYNICBOARD_DONE);
    update(&board, &seen, 0, PAGE_2 | PAGE_3);
    CHECK_REPLY(synicboard_assert(&board, 0, 0x60), SYNICBOARD_DONE);
    CHECK_REPLY(synicboard_assert(&board, 1, 0x70), SYNICBOARD_DONE);
    update(&board, &seen, 3, 0);
    CHECK_NUMBER(seen.view.next[0], 0x60);
    CHECK_NUMBER(seen.view.next[1], 0x70);
    CHECK_REPLY(synicboard_assert(&board, 1, 0x50), SYNICBOARD_DONE);
    update(&board, &seen, 0, 0);
    CHECK_REPLY(synicboard_take(&board, 1), SYNICBOARD_TAKEN);
    update(&board, &seen, 2, 0);
    CHECK_REPLY(synicboard_write(&board, 1, STIMER0_COUNT, 10), SYNICBOARD_DONE);
    CHECK_REPLY(synicboard_write(&board, 1, STIMER0_CONFIG, 0x1803), SYNICBOARD_DONE);
    update(&board, &seen, EARLIEST_ONLY, 0);
    CHECK(seen.view.earliest.is_due && seen.view.earliest.vp == 1 && seen.view.earliest.low == 10);
    CHECK_REPLY(synicboard_tick(&board, 10), SYNICBOARD_DONE);
    update(&board, &seen, 2 | EARLIEST_ONLY, 0);
    CHECK_NUMBER(seen.view.next[1], 0x80);
    CHECK_NUMBER(seen.view.earliest.low, 20);
    CHECK_REPLY(synicboard_suspend(&board, 1), SYNICBOARD_DONE);
    update(&board, &seen, 2 | EARLIEST_ONLY, 0);
    CHECK_REPLY(synicboard_resume(&board, 1), SYNICBOARD_DONE);
    update(&board, &seen, 2 | EARLIEST_ONLY, 0);
    CHECK_REPLY(synicboard_reset(&board, 1), SYNICBOARD_DONE);
    update(&board, &seen, 2 | EARLIEST_ONLY, PAGE_2 | PAGE_3);
    CHECK_REPLY(synicboard_take(&board, 0), SYNICBOARD_TAKEN);
    update(&board, &seen, 1, 0);
    synicboard_close(&board);
    update(&board, &seen, 0, 0xf);
}

/* All processors, and the last page. */
static void test_the_greatest_board(void)
{
    struct seen seen = { .view = { .next = { 0 } } };
    synicboard board = SYNICBOARD_CLOSED;
    CHECK_NUMBER(synicboard_open(&board, PROCESSORS, PAGES, 0), SYNICBOARD_OK);
    update(&board, &seen, 0, UINT64_MAX);
    for (uint8_t vp = 0; vp < PROCESSORS; vp++)
        CHECK_REPLY(synicboard_assert(&board, vp, 255), SYNICBOARD_DONE);
    CHECK_REPLY(synicboard_write(&board, 7, SIEFP, 63 * PAGE + 1), SYNICBOARD_DONE);
    update(&board, &seen, 0xff, UINT64_C(1) << 63);
    CHECK(seen.owners.page[63].kind == SYNICBOARD_OWNER_FLAGS && seen.owners.page[63].vp == 7);
    synicboard_close(&board);
    update(&board, &seen, 0xff, UINT64_MAX);
}

/* Numbers that no board has are replaced, and only their bits are set. */
static void test_any_view(void)
{
    struct seen seen;
    synicboard board = SYNICBOARD_CLOSED;
    memset(&seen, 0, sizeof seen);
    CHECK_NUMBER(synicboard_update(&board, &seen.view), 0);
    CHECK_NUMBER(synicboard_update_owners(&board, &seen.owners), 0);
    seen.view.next[7] = 0x0f;
    seen.view.earliest.high = 1;
    seen.owners.page[0].vp = 200;
    seen.owners.page[62].kind = 9;
    update(&board, &seen, 1 << 7 | SYNICBOARD_EARLIEST_CHANGED, 1 | UINT64_C(1) << 62);
}

static const struct test tests[] = {
    { "each change", test_each_change },
    { "views of the greatest board", test_the_greatest_board },
    { "any view", test_any_view },
};

int main(void)
{
    return run_tests(tests, sizeof tests / sizeof *tests);
}
