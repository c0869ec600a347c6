/* Lines: closed handles, openings that fail, which bit a vector has, which bits an absorb takes and
 * which it leaves, refused memory, and threads that raise while one absorbs. */
#include <pthread.h>
#include <stdbool.h>
#include <stddef.h>
#include <stdint.h>
#include <string.h>

#include "checks.h"
#include "synicboard.h"

enum { VECTORS = 256, FIRST_VECTOR = 16, PARTS = 4, PART_VECTORS = 64, MOST_SPLITS = 319, LAST_VECTOR = 255 };

static struct text before, after;

static bool is_blank(const synicboard_line *line)
{
    return line->at == NULL && !line->is_open;
}

static void open_both(synicboard *board, synicboard_line *line, uint8_t board_processors, uint8_t line_processors)
{
    CHECK_NUMBER(synicboard_open(board, board_processors, 1, 0), SYNICBOARD_OK);
    CHECK_NUMBER(synicboard_open_line(line, line_processors), SYNICBOARD_OK);
}

static void close_both(synicboard *board, synicboard_line *line)
{
    synicboard_close_line(line);
    synicboard_close(board);
    CHECK(is_blank(line));
    CHECK_NUMBER(blocks_out, 0);
}

/* An absorb requests this vector and no other. */
static void check_requests(synicboard *board, synicboard_line *line, uint8_t vp, uint8_t part, uint8_t vector)
{
    synicboard_notice notice;
    synicboard_reply reply = synicboard_absorb_line(board, line, vp, part);
    CHECK_REPLY(reply, SYNICBOARD_DONE);
    CHECK_NUMBER(reply.value, (uint64_t)1 << vector % 64);
    CHECK_NUMBER(reply.notices, 1);
    CHECK_NUMBER(synicboard_notices(board, &notice, 1), 1);
    CHECK_NUMBER(notice.kind, SYNICBOARD_NOTICE_REQUESTED);
    CHECK_NUMBER(notice.vp, vp);
    CHECK_NUMBER(notice.vector, vector);
}

/* An absorb succeeds and requests nothing. */
static void check_empty(synicboard *board, synicboard_line *line, uint8_t vp, uint8_t part)
{
    synicboard_reply reply = synicboard_absorb_line(board, line, vp, part);
    CHECK_REPLY(reply, SYNICBOARD_DONE);
    CHECK_NUMBER(reply.value, 0);
    CHECK_NUMBER(reply.notices, 0);
}

static void test_closed(void)
{
    synicboard board = SYNICBOARD_CLOSED, closed = SYNICBOARD_CLOSED;
    synicboard_line line = SYNICBOARD_LINE_CLOSED, other = SYNICBOARD_LINE_CLOSED;
    CHECK_NUMBER(synicboard_raise(&line, 0, 0x60), SYNICBOARD_NOT_RAISED);
    CHECK_NUMBER(synicboard_split_line(&line, &other), SYNICBOARD_IS_CLOSED);
    synicboard_close_line(&line);
    CHECK(is_blank(&line) && is_blank(&other));
    CHECK_NUMBER(synicboard_open(&board, 2, 1, 5), SYNICBOARD_OK);
    CHECK_REPLY(synicboard_assert(&board, 1, 0x50), SYNICBOARD_DONE);
    describe(&board, &before);
    CHECK_FAULT(synicboard_absorb_line(&board, &line, 0, 1), SYNICBOARD_NO_LINE);
    describe(&board, &after);
    CHECK_SAME(&before, &after);
    CHECK_FAULT(synicboard_absorb_line(&closed, &line, 0, 1), SYNICBOARD_IS_CLOSED);
    CHECK_NUMBER(synicboard_open_line(&line, 2), SYNICBOARD_OK);
    CHECK_NUMBER(synicboard_raise(&line, 1, 0x60), SYNICBOARD_FRESH);
    CHECK_FAULT(synicboard_absorb_line(&closed, &line, 1, 1), SYNICBOARD_IS_CLOSED);
    check_requests(&board, &line, 1, 1, 0x60);
    close_both(&board, &line);
}

static void test_sizes(void)
{
    for (unsigned processors = 0; processors < 256; processors++) {
        synicboard_line line = SYNICBOARD_LINE_CLOSED;
        bool fits = processors >= 1 && processors <= MOST_PROCESSORS;
        CHECK_NUMBER(synicboard_open_line(&line, (uint8_t)processors), fits ? SYNICBOARD_OK : SYNICBOARD_BAD_SIZE);
        CHECK_NUMBER(line.is_open, fits);
        for (unsigned vp = 0; vp < 256; vp++)
            CHECK_NUMBER(synicboard_raise(&line, (uint8_t)vp, 0x60),
                         fits && vp < processors ? SYNICBOARD_FRESH : SYNICBOARD_NOT_RAISED);
        synicboard_close_line(&line);
        CHECK(is_blank(&line));
        CHECK_NUMBER(blocks_out, 0);
    }
}

static void test_opening_twice(void)
{
    synicboard_line line = SYNICBOARD_LINE_CLOSED, other = SYNICBOARD_LINE_CLOSED;
    CHECK_NUMBER(synicboard_open_line(&line, 1), SYNICBOARD_OK);
    CHECK_NUMBER(synicboard_open_line(&other, 2), SYNICBOARD_OK);
    CHECK_NUMBER(synicboard_raise(&line, 0, 0x60), SYNICBOARD_FRESH);
    CHECK_NUMBER(synicboard_open_line(&line, 8), SYNICBOARD_IS_OPEN);
    CHECK_NUMBER(synicboard_open_line(&line, 9), SYNICBOARD_IS_OPEN);
    CHECK_NUMBER(synicboard_split_line(&other, &line), SYNICBOARD_IS_OPEN);
    CHECK_NUMBER(synicboard_raise(&line, 0, 0x60), SYNICBOARD_ALREADY);
    CHECK_NUMBER(synicboard_raise(&line, 1, 0x60), SYNICBOARD_NOT_RAISED);
    CHECK_NUMBER(synicboard_raise(&other, 0, 0x60), SYNICBOARD_FRESH);
    synicboard_close_line(&line);
    CHECK_NUMBER(synicboard_open_line(&line, 1), SYNICBOARD_OK);
    CHECK_NUMBER(synicboard_raise(&line, 0, 0x60), SYNICBOARD_FRESH);
    synicboard_close_line(&line);
    synicboard_close_line(&other);
}

/* The vector that line `at` finds raised: each line but the last ones raises the next. */
static uint8_t last_raised(unsigned at)
{
    return (uint8_t)(FIRST_VECTOR + at < LAST_VECTOR ? FIRST_VECTOR + at : LAST_VECTOR);
}

/* 319 lines are split off, and they share the same words as long as one of them is open. */
static void test_splitting(void)
{
    synicboard_line line = SYNICBOARD_LINE_CLOSED, others[MOST_SPLITS], more = SYNICBOARD_LINE_CLOSED;
    memset(others, 0, sizeof others);
    CHECK_NUMBER(synicboard_open_line(&line, 1), SYNICBOARD_OK);
    CHECK_NUMBER(synicboard_raise(&line, 0, FIRST_VECTOR), SYNICBOARD_FRESH);
    for (unsigned at = 0; at < MOST_SPLITS; at++) {
        CHECK_NUMBER(synicboard_split_line(&line, &others[at]), SYNICBOARD_OK);
        CHECK_NUMBER(synicboard_split_line(&others[at], &more), SYNICBOARD_NO_MORE_LINES);
        CHECK_NUMBER(synicboard_raise(&others[at], 0, last_raised(at)), SYNICBOARD_ALREADY);
        CHECK_NUMBER(synicboard_raise(&others[at], 0, last_raised(at + 1)), last_raised(at) < LAST_VECTOR ? SYNICBOARD_FRESH : SYNICBOARD_ALREADY);
    }
    CHECK_NUMBER(synicboard_split_line(&line, &more), SYNICBOARD_NO_MORE_LINES);
    CHECK(is_blank(&more));
    synicboard_close_line(&line);
    for (unsigned at = 0; at < MOST_SPLITS; at++) {
        CHECK(blocks_out > 0);
        CHECK_NUMBER(synicboard_raise(&others[at], 0, LAST_VECTOR), SYNICBOARD_ALREADY);
        synicboard_close_line(&others[at]);
        CHECK(is_blank(&others[at]));
    }
    CHECK_NUMBER(blocks_out, 0);
}

/* Each vector of each processor has its own bit, which only an absorb of its part takes. */
static void test_each_vector(void)
{
    synicboard board = SYNICBOARD_CLOSED;
    synicboard_line line = SYNICBOARD_LINE_CLOSED;
    open_both(&board, &line, 2, 2);
    for (unsigned vector = 0; vector < VECTORS; vector++) {
        bool is_one = vector >= FIRST_VECTOR;
        uint8_t part = (uint8_t)(vector / PART_VECTORS);
        CHECK_NUMBER(synicboard_raise(&line, 1, (uint8_t)vector), is_one ? SYNICBOARD_FRESH : SYNICBOARD_NOT_RAISED);
        CHECK_NUMBER(synicboard_raise(&line, 1, (uint8_t)vector), is_one ? SYNICBOARD_ALREADY : SYNICBOARD_NOT_RAISED);
        for (uint8_t other = 0; other < PARTS; other++) {
            check_empty(&board, &line, 0, other);
            if (other != part || !is_one)
                check_empty(&board, &line, 1, other);
        }
        if (is_one)
            check_requests(&board, &line, 1, part, (uint8_t)vector);
        check_empty(&board, &line, 1, part);
    }
    close_both(&board, &line);
}

/* If the board refuses, raised vectors stay for the next absorb. Words of fewer processors yield
 * nothing. */
static void test_refused_absorbs(void)
{
    synicboard one = SYNICBOARD_CLOSED, two = SYNICBOARD_CLOSED;
    synicboard_line line = SYNICBOARD_LINE_CLOSED, narrow = SYNICBOARD_LINE_CLOSED;
    open_both(&one, &line, 1, 2);
    open_both(&two, &narrow, 2, 1);
    CHECK_NUMBER(synicboard_raise(&line, 1, 0xc0), SYNICBOARD_FRESH);
    CHECK_REFUSAL(synicboard_absorb_line(&one, &line, 1, 3), SYNICBOARD_NO_SUCH_PROCESSOR);
    CHECK_REFUSAL(synicboard_absorb_line(&two, &line, 255, 3), SYNICBOARD_NO_SUCH_PROCESSOR);
    CHECK_REFUSAL(synicboard_absorb_line(&two, &line, 1, 4), SYNICBOARD_BAD_TARGET);
    CHECK_REFUSAL(synicboard_absorb_line(&two, &line, 1, 255), SYNICBOARD_BAD_TARGET);
    check_empty(&two, &narrow, 1, 3);
    CHECK_NUMBER(synicboard_raise(&line, 1, 0xc0), SYNICBOARD_ALREADY);
    check_requests(&two, &line, 1, 3, 0xc0);
    CHECK_NUMBER(synicboard_raise(&line, 1, 0xc0), SYNICBOARD_FRESH);
    synicboard_close_line(&narrow);
    synicboard_close(&one);
    close_both(&two, &line);
}

/* Refuses one allocation after another, until a line opens; each failure changes nothing. */
static void test_refused_memory(void)
{
    synicboard_line line = SYNICBOARD_LINE_CLOSED, others[MOST_SPLITS];
    size_t number = 1;
    memset(others, 0, sizeof others);
    for (refuse(number); synicboard_open_line(&line, 8) == SYNICBOARD_NO_MEMORY; refuse(++number)) {
        CHECK(is_blank(&line));
        CHECK_NUMBER(blocks_out, 0);
    }
    CHECK(number > 1 && line.is_open);
    for (unsigned at = 0; at < MOST_SPLITS; at++) {
        refuse(1);
        CHECK_NUMBER(synicboard_split_line(&line, &others[at]), SYNICBOARD_NO_MEMORY);
        CHECK(is_blank(&others[at]));
        refuse(0);
        CHECK_NUMBER(synicboard_split_line(&line, &others[at]), SYNICBOARD_OK);
    }
    for (unsigned at = 0; at < MOST_SPLITS; at++)
        synicboard_close_line(&others[at]);
    synicboard_close_line(&line);
    CHECK_NUMBER(blocks_out, 0);
}

static void test_steps_take_no_memory(void)
{
    synicboard board = SYNICBOARD_CLOSED;
    synicboard_line line = SYNICBOARD_LINE_CLOSED;
    open_both(&board, &line, 1, 1);
    refuse(0);
    for (unsigned vector = FIRST_VECTOR; vector < VECTORS; vector++)
        CHECK_NUMBER(synicboard_raise(&line, 0, (uint8_t)vector), SYNICBOARD_FRESH);
    for (uint8_t part = 0; part < PARTS; part++)
        CHECK_REPLY(synicboard_absorb_line(&board, &line, 0, part), SYNICBOARD_DONE);
    CHECK_NUMBER(requests, 0);
    CHECK_NUMBER(returns, 0);
    close_both(&board, &line);
}

/* ---- Threads ---- */

enum { DEVICES = 4, TURNS = 60 };

struct device {
    synicboard_line line;
    pthread_t thread;
    unsigned first; /* the first vector, different for each device, so that devices collide everywhere */
    unsigned fresh[PROCESSORS][VECTORS];
};

static void *raise_all(void *given)
{
    struct device *device = given;
    for (unsigned turn = 0; turn < TURNS; turn++) {
        for (unsigned number = 0; number < VECTORS; number++) {
            uint8_t vector = (uint8_t)(device->first + number);
            for (uint8_t vp = 0; vp < PROCESSORS; vp++)
                device->fresh[vp][vector] += synicboard_raise(&device->line, vp, vector) == SYNICBOARD_FRESH;
        }
    }
    return NULL;
}

/* Absorbs a part, and takes and ends every vector that it requested, so that none is pending at the
 * next absorb. */
static void absorb(synicboard *board, synicboard_line *line, uint8_t vp, uint8_t part, unsigned *absorbed)
{
    synicboard_reply reply = synicboard_absorb_line(board, line, vp, part);
    for (unsigned left = reply.notices; left > 0; left--) {
        absorbed[synicboard_take(board, vp).vector]++;
        synicboard_write(board, vp, EOI, 0);
    }
}

/* While four devices raise all vectors of all processors, another thread absorbs. The absorbs take
 * each Fresh raise exactly once, and no vector that was not raised. */
static void test_threads(void)
{
    static struct device devices[DEVICES];
    static unsigned absorbed[PROCESSORS][VECTORS];
    synicboard board = SYNICBOARD_CLOSED;
    synicboard_line line = SYNICBOARD_LINE_CLOSED;
    open_both(&board, &line, PROCESSORS, PROCESSORS);
    for (unsigned at = 0; at < DEVICES; at++) {
        devices[at].first = VECTORS / DEVICES * at;
        CHECK_NUMBER(synicboard_split_line(&line, &devices[at].line), SYNICBOARD_OK);
        CHECK(pthread_create(&devices[at].thread, NULL, raise_all, &devices[at]) == 0);
    }
    for (unsigned turn = 0; turn < TURNS; turn++)
        for (uint8_t vp = 0; vp < PROCESSORS; vp++)
            for (uint8_t part = 0; part < PARTS; part++)
                absorb(&board, &line, vp, part, absorbed[vp]);
    for (unsigned at = 0; at < DEVICES; at++) {
        pthread_join(devices[at].thread, NULL);
        synicboard_close_line(&devices[at].line);
    }
    for (uint8_t vp = 0; vp < PROCESSORS; vp++) {
        for (uint8_t part = 0; part < PARTS; part++)
            absorb(&board, &line, vp, part, absorbed[vp]);
        for (unsigned vector = 0; vector < VECTORS; vector++) {
            unsigned fresh = 0;
            for (unsigned at = 0; at < DEVICES; at++)
                fresh += devices[at].fresh[vp][vector];
            CHECK(vector < FIRST_VECTOR ? fresh == 0 : fresh > 0);
            CHECK_NUMBER(absorbed[vp][vector], fresh);
        }
        for (uint8_t part = 0; part < PARTS; part++)
            check_empty(&board, &line, vp, part);
    }
    close_both(&board, &line);
}

static const struct test tests[] = {
    { "closed handles", test_closed },
    { "sizes", test_sizes },
    { "opening twice", test_opening_twice },
    { "splitting", test_splitting },
    { "each vector", test_each_vector },
    { "absorbs that are refused", test_refused_absorbs },
    { "refused memory", test_refused_memory },
    { "steps take no memory", test_steps_take_no_memory },
    { "threads", test_threads },
};

int main(void)
{
    return run_tests(tests, sizeof tests / sizeof *tests);
}
