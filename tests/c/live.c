/* Boards with live pages: which calls serve them, refused memory, what a guest's stores change, and images. The
 * threads of a host and a guest are in running.c. */
#include <stdbool.h>
#include <stddef.h>
#include <stdint.h>
#include <string.h>

#include "busy.h"
#include "by_call.h"
#include "checks.h"
#include "synicboard.h"

enum { MESSAGES = 2, FLAGS = 3, TYPE_AT = SOURCE * SLOT, FLAGS_AT = TYPE_AT + 5, PENDING = 1 };

static struct text before, after;
static uint8_t *pages[2 * MOST_PROCESSORS];

/* The board of open_busy, with live pages: a message in the slot of SOURCE of processor 1, and its vector requested. */
static void open_live(synicboard *board)
{
    open_busy(board, 0);
    CHECK_NUMBER(synicboard_make_live(board, pages), SYNICBOARD_OK);
}

static synicboard_reply act(synicboard *board, synicboard_event event)
{
    synicboard_reply reply = synicboard_perform(board, &event);
    CHECK_NUMBER(synicboard_eoms(board), 0);
    return reply;
}

static synicboard_reply post(synicboard *board, uint32_t type)
{
    return act(board, (synicboard_event){ .kind = SYNICBOARD_POST, .port = MESSAGE_PORT, .message_type = type, .length = 1, .bytes = { 7 } });
}

static synicboard_reply end_message(synicboard *board)
{
    return act(board, (synicboard_event){ .kind = SYNICBOARD_WRITE, .vp = 1, .msr = EOM });
}

/* The notices of the last event are of these kinds. */
static void check_notices(const synicboard *board, const uint8_t *kinds, size_t count, int line)
{
    static synicboard_notice notices[SYNICBOARD_MOST_LIVE_NOTICES];
    check_number(synicboard_notices(board, notices, SYNICBOARD_MOST_LIVE_NOTICES), count, "notices", line);
    for (size_t at = 0; at < count; at++)
        check_number(notices[at].kind, kinds[at], "the kind of a notice", line);
}

#define CHECK_NOTICES(board, ...) \
    check_notices((board), (const uint8_t[]){ __VA_ARGS__ }, sizeof (const uint8_t[]){ __VA_ARGS__ }, __LINE__)

static bool is_same_page(synicboard *board, uint8_t vp)
{
    const uint8_t *messages = NULL, *flags = NULL;
    return synicboard_message_page(board, vp, &messages) && synicboard_flag_page(board, vp, &flags)
        && memcmp(messages, pages[2 * vp], PAGE) == 0 && memcmp(flags, pages[2 * vp + 1], PAGE) == 0;
}

/* ---- Opening ---- */

static void test_outcomes(void)
{
    synicboard board = SYNICBOARD_CLOSED;
    CHECK_NUMBER(synicboard_make_live(&board, pages), SYNICBOARD_IS_CLOSED);
    CHECK_NUMBER(synicboard_make_live(NULL, pages), SYNICBOARD_IS_CLOSED);
    CHECK_NUMBER(synicboard_make_live(&board, NULL), SYNICBOARD_NO_HANDLE);
    CHECK(!synicboard_is_live(&board) && !synicboard_is_live(NULL));
    CHECK_FAULT(synicboard_observe(&board, 0), SYNICBOARD_IS_CLOSED);
    CHECK(synicboard_eoms(&board) == 0 && synicboard_eoms(NULL) == 0);
    CHECK_FAULT(synicboard_observe(NULL, 0), SYNICBOARD_IS_CLOSED);
    CHECK_FAULT(synicboard_observe_all(NULL, 0), SYNICBOARD_IS_CLOSED);
    CHECK_NUMBER(synicboard_open(&board, 2, 4, 0), SYNICBOARD_OK);
    CHECK_NUMBER(synicboard_make_live(&board, NULL), SYNICBOARD_NO_HANDLE);
    CHECK(!synicboard_is_live(&board));
    CHECK_FAULT(synicboard_observe(&board, 0), SYNICBOARD_NOT_LIVE);
    CHECK_FAULT(synicboard_observe_all(&board, 0), SYNICBOARD_NOT_LIVE);
    CHECK_NUMBER(synicboard_make_live(&board, pages), SYNICBOARD_OK);
    CHECK(synicboard_is_live(&board));
    CHECK_NUMBER(synicboard_make_live(&board, pages), SYNICBOARD_IS_LIVE);
    CHECK_FAULT(synicboard_perform(&board, NULL), SYNICBOARD_NO_EVENT);
    CHECK_REFUSAL(synicboard_observe(&board, 2), SYNICBOARD_NO_SUCH_PROCESSOR);
    CHECK_REFUSAL(synicboard_observe_all(&board, 255), SYNICBOARD_NO_SUCH_PROCESSOR);
    synicboard_close(&board);
}

/* Nothing else about the board changes, but that it has no notices. */
static void test_queries(void)
{
    static const uint8_t none = 0;
    synicboard board = SYNICBOARD_CLOSED;
    open_busy(&board, 0);
    CHECK_REPLY(synicboard_load(&board, 0, 1), SYNICBOARD_BYTES);
    describe(&board, &before);
    CHECK_NUMBER(synicboard_make_live(&board, pages), SYNICBOARD_OK);
    describe(&board, &after);
    CHECK_SAME(&before, &after);
    check_notices(&board, &none, 0, __LINE__);
    CHECK(is_same_page(&board, 0) && is_same_page(&board, 1));
    for (unsigned at = 0; at < 4; at++)
        CHECK_NUMBER((uintptr_t)pages[at] % PAGE, 0);
    synicboard_close(&board);
}

/* Each allocation is refused in turn: then the board is as before, and still plain. */
static void test_refused_memory(void)
{
    synicboard board = SYNICBOARD_CLOSED;
    open_busy(&board, 0);
    CHECK_REPLY(synicboard_load(&board, 0, 1), SYNICBOARD_BYTES);
    describe(&board, &before);
    refuse(0);
    size_t number = 1;
    for (uint8_t answer = SYNICBOARD_NO_MEMORY; answer != SYNICBOARD_OK; number++) {
        refuse(number);
        answer = synicboard_make_live(&board, pages);
        refuse(0);
        CHECK(answer == SYNICBOARD_OK || answer == SYNICBOARD_NO_MEMORY);
        CHECK(synicboard_is_live(&board) == (answer == SYNICBOARD_OK));
        describe(&board, &after);
        CHECK_SAME(&before, &after);
    }
    CHECK(number > 6);
    CHECK(is_same_page(&board, 1));
    synicboard_close(&board);
}

static void test_greatest_board(void)
{
    synicboard board = SYNICBOARD_CLOSED;
    CHECK_NUMBER(synicboard_open_sparse(&board, MOST_PROCESSORS, 0), SYNICBOARD_OK);
    CHECK_NUMBER(synicboard_make_live(&board, pages), SYNICBOARD_OK);
    for (uint8_t vp = 0; vp < MOST_PROCESSORS; vp++) {
        act(&board, (synicboard_event){ .kind = SYNICBOARD_WRITE, .vp = vp, .msr = SCONTROL, .value = 1 });
        act(&board, (synicboard_event){ .kind = SYNICBOARD_WRITE, .vp = vp, .msr = SIMP, .value = (64 + vp) * PAGE + 1 });
        act(&board, (synicboard_event){ .kind = SYNICBOARD_WRITE, .vp = vp, .msr = SIEFP, .value = (128 + vp) * PAGE + 1 });
        act(&board, (synicboard_event){ .kind = SYNICBOARD_OPEN_MESSAGE_PORT, .port = vp, .vp = vp, .sint = 15, .buffers = 1 });
        act(&board, (synicboard_event){ .kind = SYNICBOARD_OPEN_EVENT_PORT, .port = 64 + vp, .vp = vp, .sint = 15, .count = 2048 });
        act(&board, (synicboard_event){ .kind = SYNICBOARD_POST, .port = vp, .message_type = 100u + vp });
        act(&board, (synicboard_event){ .kind = SYNICBOARD_SIGNAL, .port = 64 + vp, .flag = 2047 });
    }
    for (unsigned vp = 0; vp < MOST_PROCESSORS; vp++) {
        CHECK_NUMBER(pages[2 * vp][15 * SLOT], 100 + vp);
        CHECK_NUMBER(pages[2 * vp + 1][PAGE - 1], 0x80);
    }
    synicboard_close(&board);
}

/* Each of 64 processors has four messages in slots, which its guest empties, and a timer that is due: a tick finds
 * what was consumed, then 32 timers expire, and their notices follow. */
static void test_greatest_tick(void)
{
    enum { SLOTS = 4, CONSUMED = SLOTS * MOST_PROCESSORS, EXPIRED = 3 * 32, TIMER_SINT = 5 };
    static synicboard_notice notices[SYNICBOARD_MOST_LIVE_NOTICES];
    synicboard board = SYNICBOARD_CLOSED;
    CHECK_NUMBER(synicboard_open_sparse(&board, MOST_PROCESSORS, 0), SYNICBOARD_OK);
    CHECK_NUMBER(synicboard_make_live(&board, pages), SYNICBOARD_OK);
    for (uint8_t vp = 0; vp < MOST_PROCESSORS; vp++) {
        act(&board, (synicboard_event){ .kind = SYNICBOARD_WRITE, .vp = vp, .msr = SCONTROL, .value = 1 });
        act(&board, (synicboard_event){ .kind = SYNICBOARD_WRITE, .vp = vp, .msr = SIMP, .value = (64 + vp) * PAGE + 1 });
        for (uint8_t sint = 0; sint < SLOTS; sint++) {
            uint8_t port = SLOTS * vp + sint;
            act(&board, (synicboard_event){ .kind = SYNICBOARD_OPEN_MESSAGE_PORT, .port = port, .vp = vp, .sint = sint, .buffers = 1 });
            act(&board, (synicboard_event){ .kind = SYNICBOARD_POST, .port = port, .message_type = 1 });
        }
        act(&board, (synicboard_event){ .kind = SYNICBOARD_WRITE, .vp = vp, .msr = STIMER0_COUNT, .value = 10 });
        act(&board, (synicboard_event){ .kind = SYNICBOARD_WRITE, .vp = vp, .msr = STIMER0_CONFIG, .value = TIMER_SINT << 16 | 1 });
        for (unsigned sint = 0; sint < SLOTS; sint++)
            memset(pages[2 * vp] + sint * SLOT, 0, 4);
    }
    for (uint64_t moment = 20; moment < 22; moment++) {
        CHECK_REPLY(act(&board, (synicboard_event){ .kind = SYNICBOARD_TICK, .moment = moment }), SYNICBOARD_DONE);
        size_t count = synicboard_notices(&board, notices, SYNICBOARD_MOST_LIVE_NOTICES), found = 0;
        while (found < count && notices[found].kind == SYNICBOARD_NOTICE_CONSUMED)
            found++;
        CHECK_NUMBER(found, moment == 20 ? CONSUMED : 0);
        CHECK_NUMBER(count - found, EXPIRED);
        CHECK(notices[found].kind == SYNICBOARD_NOTICE_EXPIRED && notices[count - 1].kind == SYNICBOARD_NOTICE_PLACED);
        CHECK_NUMBER(notices[count - 1].vp, moment == 20 ? 31 : 63);
    }
    for (unsigned vp = 0; vp < MOST_PROCESSORS; vp++)
        CHECK_NUMBER(pages[2 * vp][TIMER_SINT * SLOT], 0x10);
    synicboard_close(&board);
}

/* ---- Which calls serve it ---- */

static void test_other_calls(void)
{
    static const synicboard_event take = { .kind = SYNICBOARD_TAKE };
    synicboard_reply replies[1];
    synicboard_notice notices[SYNICBOARD_MOST_NOTICES];
    synicboard_line line = SYNICBOARD_LINE_CLOSED;
    synicboard board = SYNICBOARD_CLOSED;
    open_live(&board);
    describe(&board, &before);
    synicboard_batch batch = synicboard_perform_all(&board, &take, 1, replies, 1, notices, SYNICBOARD_MOST_NOTICES);
    CHECK(batch.end == SYNICBOARD_IS_LIVE && batch.done == 0 && batch.emitted == 0);
    describe(&board, &after);
    CHECK_SAME(&before, &after);
    CHECK_NUMBER(synicboard_open_line(&line, 2), SYNICBOARD_OK);
    CHECK_NUMBER(synicboard_raise(&line, 1, 200), SYNICBOARD_FRESH);
    CHECK_NUMBER(synicboard_absorb_line(&board, &line, 1, 3).value, 1u << 8);
    CHECK_NUMBER(synicboard_next(&board, 1), 200);
    synicboard_forwarded forwarded;
    CHECK_NUMBER(synicboard_forward(&board, 1, &forwarded).kind, SYNICBOARD_DONE);
    CHECK(forwarded.vectors[3] == 1u << 8 && synicboard_next(&board, 1) == 0);
    synicboard_close_line(&line);
    synicboard_close(&board);
}

/* Each event by a call of its own does what it does as a struct. */
static void test_calls(void)
{
    synicboard one = SYNICBOARD_CLOSED, other = SYNICBOARD_CLOSED;
    uint64_t random = 1;
    open_live(&one);
    open_live(&other);
    for (unsigned count = 0; count < RANDOM_EVENTS; count++) {
        synicboard_event event = random_event(&one, &random);
        synicboard_reply reply = synicboard_perform(&one, &event), same = perform_by_call(&other, &event);
        CHECK(reply.kind == same.kind && reply.refusal == same.refusal && reply.notices == same.notices && reply.value == same.value && reply.ticket == same.ticket);
        CHECK_NUMBER(synicboard_eoms(&one), synicboard_eoms(&other));
    }
    describe(&one, &before);
    describe(&other, &after);
    CHECK_SAME(&before, &after);
    synicboard_close(&one);
    synicboard_close(&other);
}

/* ---- What a guest does ---- */

/* The guest empties the slot, sees MessagePending, and writes EOM. */
static void test_message(void)
{
    synicboard board = SYNICBOARD_CLOSED;
    open_live(&board);
    uint8_t *slot = pages[MESSAGES] + TYPE_AT;
    CHECK(memcmp(slot, (const uint8_t[]){ 4, 3, 2, 1, 3, 0 }, 6) == 0);
    CHECK_REPLY(post(&board, 5), SYNICBOARD_ACCEPTED);
    CHECK_NOTICES(&board, SYNICBOARD_NOTICE_ACCEPTED, SYNICBOARD_NOTICE_PENDING);
    CHECK_NUMBER(pages[MESSAGES][FLAGS_AT], PENDING);
    memset(slot, 0, 4);
    CHECK_REPLY(end_message(&board), SYNICBOARD_DONE);
    CHECK_NOTICES(&board, SYNICBOARD_NOTICE_CONSUMED, SYNICBOARD_NOTICE_PLACED);
    CHECK(memcmp(slot, (const uint8_t[]){ 5, 0, 0, 0, 1, 0 }, 6) == 0 && slot[16] == 7);
    CHECK(is_same_page(&board, 1));
    synicboard_close(&board);
}

/* A post that finds the slot emptied meanwhile needs no EOM. */
static void test_emptied_slot(void)
{
    synicboard board = SYNICBOARD_CLOSED;
    open_live(&board);
    memset(pages[MESSAGES] + TYPE_AT, 0, 4);
    CHECK_REPLY(post(&board, 6), SYNICBOARD_ACCEPTED);
    CHECK_NOTICES(&board, SYNICBOARD_NOTICE_CONSUMED, SYNICBOARD_NOTICE_ACCEPTED, SYNICBOARD_NOTICE_PLACED);
    CHECK_NUMBER(pages[MESSAGES][TYPE_AT], 6);
    memset(pages[MESSAGES] + TYPE_AT, 0, 4);
    CHECK_REPLY(synicboard_observe(&board, 1), SYNICBOARD_DONE);
    CHECK_NOTICES(&board, SYNICBOARD_NOTICE_CONSUMED);
    CHECK_NUMBER(synicboard_observe(&board, 1).notices, 0);
    synicboard_close(&board);
}

/* What the guest leaves after its payload, where no look finds it, is not in the next message. */
static void test_whole_slot(void)
{
    uint8_t expected[SLOT] = { 6, 0, 0, 0, 1 };
    synicboard board = SYNICBOARD_CLOSED;
    open_live(&board);
    uint8_t *slot = pages[MESSAGES] + TYPE_AT;
    memset(slot, 0xff, SLOT);
    memset(slot, 0, 8);
    CHECK_REPLY(post(&board, 6), SYNICBOARD_ACCEPTED);
    CHECK_NOTICES(&board, SYNICBOARD_NOTICE_CONSUMED, SYNICBOARD_NOTICE_ACCEPTED, SYNICBOARD_NOTICE_PLACED);
    expected[8] = MESSAGE_PORT;
    expected[16] = 7;
    CHECK(memcmp(slot, expected, SLOT) == 0);
    synicboard_close(&board);
}

/* The guest empties the slot, and its page is hidden by an overlay before it in the order: the write that hides the
 * page finds that, and the message never comes back. */
static void test_hidden_page(void)
{
    synicboard_event cover = { .kind = SYNICBOARD_WRITE, .vp = 0, .msr = SIMP, .value = 2 * PAGE + 1 };
    synicboard board = SYNICBOARD_CLOSED;
    open_live(&board);
    uint8_t *slot = pages[MESSAGES] + TYPE_AT;
    memset(slot, 0, 4);
    pages[MESSAGES][PAGE - 1] = 0xa5;
    CHECK_REPLY(act(&board, cover), SYNICBOARD_DONE);
    CHECK_NOTICES(&board, SYNICBOARD_NOTICE_CONSUMED);
    CHECK(is_same_page(&board, 1));
    CHECK_REPLY(post(&board, 6), SYNICBOARD_ACCEPTED);
    CHECK_NOTICES(&board, SYNICBOARD_NOTICE_ACCEPTED, SYNICBOARD_NOTICE_PLACED);
    cover.value = 0;
    CHECK_REPLY(act(&board, cover), SYNICBOARD_DONE);
    CHECK(memcmp(slot, (const uint8_t[]){ 6, 0, 0, 0, 1, 0 }, 6) == 0 && slot[16] == 7);
    CHECK_NUMBER(synicboard_observe(&board, 1).notices, 0);
    CHECK_NUMBER(pages[MESSAGES][PAGE - 1], 0xa5);
    synicboard_close(&board);
}

static void test_flags(void)
{
    static const synicboard_event signal = { .kind = SYNICBOARD_SIGNAL, .port = FLAG_PORT, .flag = 63 };
    synicboard board = SYNICBOARD_CLOSED;
    open_live(&board);
    uint8_t *flags = pages[FLAGS] + SOURCE * SLOT;
    CHECK_NUMBER(flags[1], 0x20);
    CHECK_REPLY(act(&board, signal), SYNICBOARD_FLAG_WAS_CLEAR);
    CHECK_NUMBER(flags[8], 0x80);
    CHECK_REPLY(act(&board, signal), SYNICBOARD_FLAG_WAS_SET);
    flags[8] = 0;
    CHECK_REPLY(act(&board, signal), SYNICBOARD_FLAG_WAS_CLEAR);
    CHECK(flags[8] == 0x80 && flags[1] == 0x20);
    synicboard_close(&board);
}

/* Where the guest sees a live page, its accesses are the caller's. Where the page is hidden, they are events. */
static void test_accesses(void)
{
    synicboard_event load = { .kind = SYNICBOARD_LOAD, .address = 2 * PAGE + TYPE_AT, .length = 4 }, store = load;
    store.kind = SYNICBOARD_STORE;
    synicboard board = SYNICBOARD_CLOSED;
    open_live(&board);
    CHECK_REFUSAL(act(&board, load), SYNICBOARD_ELSEWHERE);
    CHECK_REFUSAL(act(&board, store), SYNICBOARD_ELSEWHERE);
    CHECK_NUMBER(pages[MESSAGES][TYPE_AT], 4);
    CHECK_REPLY(act(&board, (synicboard_event){ .kind = SYNICBOARD_WRITE, .vp = 1, .msr = SIMP, .value = PAGE + 1 }), SYNICBOARD_DONE);
    CHECK_REPLY(act(&board, store), SYNICBOARD_DONE);
    CHECK_REPLY(act(&board, load), SYNICBOARD_BYTES);
    CHECK_NUMBER(pages[MESSAGES][TYPE_AT], 4);
    synicboard_close(&board);
}

/* A timer's message waits for a slot that the guest empties only then. */
static void test_timer(void)
{
    synicboard board = SYNICBOARD_CLOSED;
    open_live(&board);
    act(&board, (synicboard_event){ .kind = SYNICBOARD_WRITE, .vp = 1, .msr = STIMER0_CONFIG + 2, .value = SOURCE << 16 | 8 });
    act(&board, (synicboard_event){ .kind = SYNICBOARD_WRITE, .vp = 1, .msr = STIMER0_COUNT + 2, .value = 50 });
    act(&board, (synicboard_event){ .kind = SYNICBOARD_TICK, .moment = 100 });
    CHECK_NUMBER(pages[MESSAGES][FLAGS_AT], PENDING);
    memset(pages[MESSAGES] + TYPE_AT, 0, 4);
    CHECK_REPLY(end_message(&board), SYNICBOARD_DONE);
    CHECK(memcmp(pages[MESSAGES] + TYPE_AT, (const uint8_t[]){ 0x10, 0, 0, 0x80, 24 }, 5) == 0);
    CHECK_REPLY(act(&board, (synicboard_event){ .kind = SYNICBOARD_RESET, .vp = 1 }), SYNICBOARD_DONE);
    static const uint8_t zeros[PAGE];
    CHECK(memcmp(pages[MESSAGES], zeros, PAGE) == 0 && memcmp(pages[FLAGS], zeros, PAGE) == 0);
    synicboard_close(&board);
}

/* A guest that stores anything anywhere in its pages changes nothing else of the board. */
static void test_hostile_guest(void)
{
    synicboard board = SYNICBOARD_CLOSED;
    uint64_t random = 7;
    open_live(&board);
    for (unsigned count = 0; count < RANDOM_EVENTS; count++) {
        uint64_t word = (random = random * 6364136223846793005u + 1442695040888963407u);
        memcpy(pages[MESSAGES + (word >> 60 & 1)] + (word >> 32) % (PAGE / 8) * 8, &word, sizeof word);
        CHECK_NUMBER(synicboard_observe(&board, 0).notices, 0);
        synicboard_event event = random_event(&board, &random);
        synicboard_reply reply = synicboard_perform(&board, &event);
        CHECK(reply.kind != SYNICBOARD_NOT_PERFORMED || reply.fault == SYNICBOARD_NO_EVENT);
        CHECK((synicboard_eoms(&board) & ~3u) == 0);
    }
    CHECK_REPLY(synicboard_observe_all(&board, 0), SYNICBOARD_DONE);
    CHECK_REPLY(synicboard_observe_all(&board, 1), SYNICBOARD_DONE);
    synicboard_close(&board);
}

/* ---- Images ---- */

/* The image has what the guest has stored in a payload and among the flags. */
static void test_image(void)
{
    static uint8_t image[1 << 17];
    synicboard board = SYNICBOARD_CLOSED;
    open_live(&board);
    memset(pages[MESSAGES] + TYPE_AT, 0, 4);
    pages[MESSAGES][PAGE - 1] = 0xa5;
    pages[FLAGS][PAGE - 1] = 0x5a;
    pages[FLAGS][SOURCE * SLOT + 1] = 0;
    CHECK(!is_same_page(&board, 1));
    synicboard_end end = synicboard_save(&board, image, sizeof image);
    CHECK(end.kind == SYNICBOARD_OK && end.length <= sizeof image);
    CHECK_NOTICES(&board, SYNICBOARD_NOTICE_CONSUMED);
    CHECK(is_same_page(&board, 1));
    CHECK_REPLY(synicboard_observe_all(&board, 1), SYNICBOARD_DONE);
    CHECK_NUMBER(synicboard_notices(&board, NULL, 0), 0);
    describe(&board, &before);
    synicboard_close(&board);
    CHECK_NUMBER(synicboard_restore(&board, image, end.length).kind, SYNICBOARD_OK);
    CHECK(!synicboard_is_live(&board));
    CHECK_NUMBER(synicboard_make_live(&board, pages), SYNICBOARD_OK);
    CHECK(is_same_page(&board, 0) && is_same_page(&board, 1));
    CHECK(pages[MESSAGES][PAGE - 1] == 0xa5 && pages[FLAGS][PAGE - 1] == 0x5a);
    CHECK_REPLY(synicboard_observe(&board, 0), SYNICBOARD_DONE);
    describe(&board, &after);
    synicboard_close(&board);
}

/* ---- Pages of the caller's ---- */

static uint8_t own[2 * MOST_PROCESSORS][PAGE] __attribute__((aligned(4096)));
static uint8_t *places[2 * MOST_PROCESSORS];

static void set_places(void)
{
    for (size_t at = 0; at < 2 * MOST_PROCESSORS; at++)
        places[at] = own[2 * MOST_PROCESSORS - 1 - at];
}

/* They are where the caller says, and the same after a restore; closing leaves them alone. */
static void test_own_pages(void)
{
    static uint8_t image[1 << 17];
    synicboard board = SYNICBOARD_CLOSED;
    set_places();
    memcpy(pages, places, sizeof pages);
    memset(own, 0xee, sizeof own);
    open_busy(&board, 0);
    CHECK_NUMBER(synicboard_make_live_in(&board, places), SYNICBOARD_OK);
    CHECK(synicboard_is_live(&board) && is_same_page(&board, 0) && is_same_page(&board, 1));
    CHECK(places[4][0] == 0xee && own[0][0] == 0xee);
    memset(places[MESSAGES] + TYPE_AT, 0, 4);
    CHECK_REPLY(synicboard_observe(&board, 1), SYNICBOARD_DONE);
    CHECK_NOTICES(&board, SYNICBOARD_NOTICE_CONSUMED);
    CHECK_REPLY(post(&board, 0x1234), SYNICBOARD_ACCEPTED);
    CHECK(places[MESSAGES][TYPE_AT] == 0x34);
    synicboard_end end = synicboard_save(&board, image, sizeof image);
    synicboard_close(&board);
    CHECK(places[MESSAGES][TYPE_AT] == 0x34);
    memset(own, 0, sizeof own);
    CHECK_NUMBER(synicboard_restore(&board, image, end.length).kind, SYNICBOARD_OK);
    CHECK_NUMBER(synicboard_make_live_in(&board, places), SYNICBOARD_OK);
    CHECK(is_same_page(&board, 0) && is_same_page(&board, 1) && places[MESSAGES][TYPE_AT] == 0x34);
    synicboard_close(&board);
}

static void test_own_pages_of_the_greatest_board(void)
{
    synicboard board = SYNICBOARD_CLOSED;
    set_places();
    memcpy(pages, places, sizeof pages);
    memset(own, 0xee, sizeof own);
    CHECK_NUMBER(synicboard_open_sparse(&board, MOST_PROCESSORS, 0), SYNICBOARD_OK);
    CHECK_NUMBER(synicboard_make_live_in(&board, places), SYNICBOARD_OK);
    for (uint8_t vp = 0; vp < MOST_PROCESSORS; vp++)
        CHECK(is_same_page(&board, vp));
    synicboard_close(&board);
    memset(own, 0xee, sizeof own);
}

static void test_wrong_pages(void)
{
    synicboard board = SYNICBOARD_CLOSED;
    set_places();
    CHECK_NUMBER(synicboard_make_live_in(&board, places), SYNICBOARD_IS_CLOSED);
    CHECK_NUMBER(synicboard_make_live_in(NULL, places), SYNICBOARD_IS_CLOSED);
    CHECK_NUMBER(synicboard_make_live_in(&board, NULL), SYNICBOARD_NO_HANDLE);
    open_busy(&board, 0);
    places[3] = NULL;
    CHECK_NUMBER(synicboard_make_live_in(&board, places), SYNICBOARD_BAD_PAGE);
    places[3] = own[0] + 16;
    CHECK_NUMBER(synicboard_make_live_in(&board, places), SYNICBOARD_BAD_PAGE);
    places[3] = places[0];
    CHECK_NUMBER(synicboard_make_live_in(&board, places), SYNICBOARD_BAD_PAGE);
    CHECK(!synicboard_is_live(&board));
    set_places();
    size_t number = 1;
    for (uint8_t answer = SYNICBOARD_NO_MEMORY; answer != SYNICBOARD_OK; number++) {
        refuse(number);
        answer = synicboard_make_live_in(&board, places);
        refuse(0);
        CHECK(answer == SYNICBOARD_OK || answer == SYNICBOARD_NO_MEMORY);
        CHECK(synicboard_is_live(&board) == (answer == SYNICBOARD_OK));
    }
    CHECK(number > 12);
    CHECK_NUMBER(synicboard_make_live_in(&board, places), SYNICBOARD_IS_LIVE);
    synicboard other = SYNICBOARD_CLOSED;
    open_busy(&other, 0);
    CHECK_NUMBER(synicboard_make_live_in(&other, places), SYNICBOARD_BAD_PAGE);
    places[0] = own[0];
    CHECK_NUMBER(synicboard_make_live_in(&other, places), SYNICBOARD_BAD_PAGE);
    set_places();
    synicboard_close(&board);
    CHECK_NUMBER(synicboard_make_live_in(&other, places), SYNICBOARD_OK);
    synicboard_close(&other);
}

int main(void)
{
    static const struct test tests[] = {
        { "outcomes", test_outcomes },
        { "queries", test_queries },
        { "refused memory", test_refused_memory },
        { "the greatest board", test_greatest_board },
        { "the greatest tick", test_greatest_tick },
        { "other calls", test_other_calls },
        { "calls", test_calls },
        { "a message", test_message },
        { "an emptied slot", test_emptied_slot },
        { "a whole slot", test_whole_slot },
        { "a hidden page", test_hidden_page },
        { "flags", test_flags },
        { "accesses", test_accesses },
        { "a timer", test_timer },
        { "a hostile guest", test_hostile_guest },
        { "an image", test_image },
        { "own pages", test_own_pages },
        { "own pages of the greatest board", test_own_pages_of_the_greatest_board },
        { "wrong pages", test_wrong_pages },
    };
    return run_tests(tests, sizeof tests / sizeof tests[0]);
}
