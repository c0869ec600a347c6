#include "checks.h"

#include <inttypes.h>
#include <stdarg.h>
#include <stdio.h>
#include <stdlib.h>
#include <string.h>

/* ---- Checks ---- */

unsigned checks_passed, checks_failed;
static const char *test_name;

int run_tests(const struct test *tests, size_t count)
{
    for (size_t at = 0; at < count; at++) {
        test_name = tests[at].name;
        tests[at].run();
        CHECK_NUMBER(blocks_out, 0);
    }
    printf("%u checks passed, %u failed\n", checks_passed, checks_failed);
    return checks_failed > 0;
}

void check(bool holds, const char *what, int line)
{
    if (holds) {
        checks_passed++;
    } else {
        checks_failed++;
        printf("FAIL %s, line %d: %s\n", test_name, line, what);
    }
}

void check_number(uint64_t number, uint64_t wanted, const char *what, int line)
{
    check(number == wanted, what, line);
    if (number != wanted)
        printf("    it is %" PRIu64 ", expected %" PRIu64 "\n", number, wanted);
}

void check_reply(synicboard_reply reply, uint8_t kind, const char *what, int line)
{
    check(reply.kind == kind, what, line);
    if (reply.kind != kind)
        printf("    it is of kind %u, fault %u, refusal %u\n", reply.kind, reply.fault, reply.refusal);
}

void check_refusal(synicboard_reply reply, uint8_t refusal, const char *what, int line)
{
    check_reply(reply, SYNICBOARD_REFUSED, what, line);
    check_number(reply.refusal, refusal, what, line);
}

void check_fault(synicboard_reply reply, uint8_t fault, const char *what, int line)
{
    bool is_silent = !reply.refusal && !reply.vector && !reply.length && !reply.notices;
    is_silent = is_silent && !reply.value && !reply.ticket;
    for (size_t at = 0; at < sizeof reply.bytes; at++)
        is_silent = is_silent && !reply.bytes[at];
    check_reply(reply, SYNICBOARD_NOT_PERFORMED, what, line);
    check_number(reply.fault, fault, what, line);
    check(is_silent, what, line);
}

/* ---- Memory ---- */

void *__real_malloc(size_t size);
void *__real_aligned_alloc(size_t alignment, size_t size);
void *__real_calloc(size_t count, size_t size);
void *__real_realloc(void *old, size_t size);
void __real_free(void *block);
void *__wrap_malloc(size_t size);
void *__wrap_aligned_alloc(size_t alignment, size_t size);
void *__wrap_calloc(size_t count, size_t size);
void *__wrap_realloc(void *old, size_t size);
void __wrap_free(void *block);

_Atomic size_t requests, returns, blocks_out;
static _Atomic size_t refused_request;

void refuse(size_t number)
{
    requests = returns = 0;
    refused_request = number;
}

static bool is_refused(void)
{
    return ++requests == refused_request;
}

static void *counted(void *block)
{
    blocks_out += block != NULL;
    return block;
}

void *__wrap_malloc(size_t size)
{
    return is_refused() ? NULL : counted(__real_malloc(size));
}

void *__wrap_aligned_alloc(size_t alignment, size_t size)
{
    return is_refused() ? NULL : counted(__real_aligned_alloc(alignment, size));
}

void *__wrap_calloc(size_t count, size_t size)
{
    return is_refused() ? NULL : counted(__real_calloc(count, size));
}

void *__wrap_realloc(void *old, size_t size)
{
    if (is_refused())
        return NULL;
    void *block = __real_realloc(old, size);
    return old == NULL ? counted(block) : block;
}

void __wrap_free(void *block)
{
    returns++;
    blocks_out -= block != NULL;
    __real_free(block);
}

/* ---- Boards as texts ---- */

static void add(struct text *text, const char *form, ...)
{
    va_list numbers;
    va_start(numbers, form);
    size_t room = sizeof text->bytes - text->length;
    int length = vsnprintf(text->bytes + text->length, room, form, numbers);
    va_end(numbers);
    if (length < 0 || (size_t)length >= room) {
        printf("a board has more output than there is room for\n");
        exit(1);
    }
    text->length += (size_t)length;
}

static void describe_processor(synicboard *board, uint8_t vp, struct text *text)
{
    add(text, "processor %u next %02x auto", vp, synicboard_next(board, vp));
    for (unsigned vector = 0; vector < 256; vector++)
        if (synicboard_is_auto(board, vp, (uint8_t)vector))
            add(text, " %02x", vector);
    add(text, " queued");
    for (uint8_t sint = 0; sint <= SOURCES; sint++)
        add(text, " %u", synicboard_queued(board, vp, sint));
    add(text, "\n");
}

static void describe_notices(synicboard *board, struct text *text)
{
    static synicboard_notice notices[SYNICBOARD_MOST_NOTICES];
    size_t count = synicboard_notices(board, notices, SYNICBOARD_MOST_NOTICES);
    add(text, "%zu notices\n", count);
    for (size_t at = 0; at < count && at < SYNICBOARD_MOST_NOTICES; at++) {
        const synicboard_notice *notice = &notices[at];
        add(text, "notice %u %u %u %u %u", notice->kind, notice->vp, notice->sint, notice->vector, notice->timer);
        add(text, " %u %" PRIu64 " %" PRIu64, notice->flag, notice->ticket, notice->due);
        add(text, " %" PRIu64 "\n", notice->count);
    }
}

/* Describes a page by the number of its nonzero bytes and by a position-dependent sum. */
static void describe_page(const char *word, uint64_t number, const uint8_t *page, struct text *text)
{
    uint64_t sum = 0;
    unsigned used = 0;
    for (size_t at = 0; at < PAGE; at++) {
        sum = (sum ^ page[at]) * 0x100000001b3;
        used += page[at] != 0;
    }
    add(text, "%s %" PRIu64 " used %u sum %" PRIx64 "\n", word, number, used, sum);
}

static void describe_pages(synicboard *board, struct text *text)
{
    const uint8_t *page;
    for (uint8_t vp = 0; vp <= PROCESSORS; vp++) {
        if (synicboard_message_page(board, vp, &page))
            describe_page("messages", vp, page, text);
        if (synicboard_flag_page(board, vp, &page))
            describe_page("flags", vp, page, text);
    }
    for (uint64_t number = 0; number <= PAGES; number++) {
        synicboard_page_owner owner = synicboard_owner(board, number);
        add(text, "page %" PRIu64 " owner %u %u\n", number, owner.kind, owner.vp);
        if (synicboard_guest_page(board, number, &page))
            describe_page("guest", number, page, text);
    }
}

void describe(synicboard *board, struct text *text)
{
    text->length = 0;
    add(text, "moment %" PRIu64 " ticket %" PRIu64 "\n", synicboard_moment(board), synicboard_next_ticket(board));
    synicboard_due due = synicboard_earliest(board);
    add(text, "due %d %u %u %" PRIu64 " %" PRIu64 "\n", due.is_due, due.vp, due.timer, due.high, due.low);
    for (uint8_t vp = 0; vp <= PROCESSORS; vp++)
        describe_processor(board, vp, text);
    describe_notices(board, text);
    describe_pages(board, text);
}

void check_same(const struct text *one, const struct text *other, int line)
{
    size_t at = 0, first = 0;
    while (at < one->length && one->bytes[at] == other->bytes[at])
        if (one->bytes[at++] == '\n')
            first = at;
    bool is_same = at == one->length && at == other->length;
    check(is_same, "two boards have the same output", line);
    if (!is_same) {
        printf("    %.*s\n", (int)strcspn(one->bytes + first, "\n"), one->bytes + first);
        printf("    %.*s\n", (int)strcspn(other->bytes + first, "\n"), other->bytes + first);
    }
}
