/* The calls of the fuzz target, with what each has to return. */
#include <inttypes.h>

#include "../c/by_call.h"
#include "../c/by_sparse.h"
#include "target.h"

enum { MOST_ENTRY = 535, PAGE = 4096, SOURCES = 16, FILLER = 0xee, GUARD = 64 };

#define DEMAND(condition) demand((condition), #condition, __LINE__)

static void demand(bool holds, const char *what, int line)
{
    if (holds)
        return;
    fprintf(stderr, "tests/fuzz/oracle.c:%d: does not hold: %s\n", line, what);
    abort();
}

static void *allocate(size_t size)
{
    void *block = malloc(size);
    DEMAND(block != NULL);
    return block;
}

/* ---- Features: the proved code has no instrumentation, so libFuzzer learns from its replies
 * what is new ---- */

enum { KINDS = 18, OUTCOMES = 32, NOTICES = 10, SIZES = 10 };
enum { FIRST_NOTICE = KINDS * OUTCOMES, FIRST_SIZE = FIRST_NOTICE + KINDS * NOTICES * NOTICES };
/* The first wrong line of an image, up to a bound. */
enum { WRONG_LINES = 100, FIRST_LINE = FIRST_SIZE + KINDS * SIZES, FEATURES = FIRST_LINE + WRONG_LINES };

__attribute__((section("__libfuzzer_extra_counters"), used)) static uint8_t features[FEATURES];

static void note(struct fuzz *fuzz, const synicboard_event *event, const synicboard_reply *reply,
                 const synicboard_notice *notices)
{
    unsigned kind = event->kind % KINDS, size = 0;
    features[kind * OUTCOMES + (reply->kind == SYNICBOARD_REFUSED ? 10 + reply->refusal : reply->kind) % OUTCOMES]++;
    for (unsigned at = 0; at < reply->notices; at++) {
        features[FIRST_NOTICE + (kind * NOTICES + fuzz->last_notice) * NOTICES + notices[at].kind % NOTICES]++;
        fuzz->last_notice = notices[at].kind % NOTICES;
    }
    while (size < SIZES - 1 && reply->notices >> size != 0)
        size++;
    features[FIRST_SIZE + kind * SIZES + size]++;
}

/* ---- Opening, the trace, closing ---- */

static void add(struct fuzz *fuzz, const char *text, size_t length)
{
    if (fuzz->capacity - fuzz->length < length) {
        fuzz->capacity = 2 * fuzz->capacity + length;
        fuzz->trace = realloc(fuzz->trace, fuzz->capacity);
        DEMAND(fuzz->trace != NULL);
    }
    memcpy(fuzz->trace + fuzz->length, text, length);
    fuzz->length += length;
}

struct fuzz *fuzz_open(uint8_t processors, uint8_t pages, uint64_t ticket, bool is_shared)
{
    char head[64];
    struct fuzz *fuzz = allocate(sizeof *fuzz);
    *fuzz = (struct fuzz){ .processors = processors, .pages = pages };
    DEMAND(synicboard_open(&fuzz->by_struct, processors, pages, ticket) == SYNICBOARD_OK);
    DEMAND(synicboard_open(&fuzz->by_call, processors, pages, ticket) == SYNICBOARD_OK);
    DEMAND(synicboard_open(&fuzz->by_call, processors, pages, ticket) == SYNICBOARD_IS_OPEN);
    DEMAND(synicboard_open_sparse(&fuzz->sparse.board, processors, ticket) == SYNICBOARD_OK);
    fuzz->sparse.pages = pages;
    fuzz->sparse.memory = allocate((size_t)pages * PAGE);
    memset(fuzz->sparse.memory, 0, (size_t)pages * PAGE);
    if (is_shared)
        DEMAND(synicboard_open_recorded(&fuzz->shared, processors, pages, ticket) == SYNICBOARD_OK);
    DEMAND(synicboard_open_line(&fuzz->lines[0], processors) == SYNICBOARD_OK);
    int length = snprintf(head, sizeof head, "trace 2\nboard %u %u %" PRIu64 "\n", processors, pages, ticket);
    add(fuzz, head, (size_t)length);
    return fuzz;
}

struct fuzz *fuzz_open_sparse(uint8_t processors, uint64_t ticket)
{
    char head[64];
    struct fuzz *fuzz = allocate(sizeof *fuzz);
    *fuzz = (struct fuzz){ .processors = processors };
    DEMAND(synicboard_open_sparse(&fuzz->by_struct, processors, ticket) == SYNICBOARD_OK);
    DEMAND(synicboard_open_sparse(&fuzz->by_call, processors, ticket) == SYNICBOARD_OK);
    DEMAND(synicboard_open_sparse(&fuzz->by_call, processors, ticket) == SYNICBOARD_IS_OPEN);
    DEMAND(synicboard_open_line(&fuzz->lines[0], processors) == SYNICBOARD_OK);
    int length = snprintf(head, sizeof head, "trace 3\nboard %u sparse %" PRIu64 "\n", processors, ticket);
    add(fuzz, head, (size_t)length);
    return fuzz;
}

/* Appends the two lines of an event and its reply. A buffer of exactly their size gets the same
 * bytes. */
static void record(struct fuzz *fuzz, const synicboard_event *event, const synicboard_reply *reply)
{
    uint8_t lines[MOST_ENTRY];
    uint8_t actor = (uint8_t)fuzz->entries;
    synicboard_end end = synicboard_format_entry(actor, event, reply, lines, sizeof lines);
    DEMAND(end.kind == SYNICBOARD_OK && end.length <= sizeof lines);
    uint8_t *exact = allocate(end.length);
    synicboard_end again = synicboard_format_entry(actor, event, reply, exact, end.length);
    DEMAND(again.kind == end.kind && again.length == end.length && memcmp(exact, lines, end.length) == 0);
    free(exact);
    add(fuzz, (const char *)lines, end.length);
    fuzz->entries++;
    /* format 3 alone has a line for a send */
    if (event->kind == SYNICBOARD_SEND)
        fuzz->trace[strlen("trace ")] = '3';
}

/* Checks the entries with an end that has this next ticket. */
static synicboard_verdict check_with_end(struct fuzz *fuzz, size_t entries_length, uint64_t next)
{
    char end[64];
    int size = snprintf(end, sizeof end, "end %" PRIu64 " %" PRIu64 "\n", fuzz->entries, next);
    fuzz->length = entries_length;
    add(fuzz, end, (size_t)size);
    return synicboard_check((const uint8_t *)fuzz->trace, fuzz->length);
}

/* The trace is not legal with another next ticket, and legal with its own. */
static void check_trace(struct fuzz *fuzz)
{
    uint64_t next = synicboard_next_ticket(&fuzz->by_struct);
    size_t length = fuzz->length;
    synicboard_verdict verdict = check_with_end(fuzz, length, next + 1);
    DEMAND(verdict.kind == SYNICBOARD_WRONG_LINE && verdict.line == 3 + 2 * fuzz->entries);
    verdict = check_with_end(fuzz, length, next);
    DEMAND(verdict.kind == SYNICBOARD_OK && verdict.entries == fuzz->entries && verdict.line == 0);
}

/* The shared board has the same trace. */
static void check_shared(struct fuzz *fuzz)
{
    if (!fuzz->shared.is_open)
        return;
    uint8_t *trace = allocate(fuzz->length);
    synicboard_settled settled = synicboard_settle(&fuzz->shared, trace, fuzz->length);
    DEMAND(settled.kind == SYNICBOARD_OK && settled.entries == fuzz->entries);
    DEMAND(settled.length == fuzz->length && memcmp(trace, fuzz->trace, fuzz->length) == 0);
    free(trace);
}

/* A board that is restored from the image saves the same image, and answers one more event like the saved one.
 * With a byte changed, the image is refused, or is that of the board that it restores. */
static void check_restored(struct fuzz *fuzz, uint8_t *image, uint8_t *room, size_t length)
{
    synicboard restored = SYNICBOARD_CLOSED;
    synicboard_end end = synicboard_restore(&restored, image, length);
    DEMAND(end.kind == SYNICBOARD_OK && end.line == 0 && end.length == 0);
    DEMAND(synicboard_save(&restored, room, length).length == length && memcmp(image, room, length) == 0);
    synicboard_reply one = synicboard_tick(&fuzz->by_call, UINT64_MAX), other = synicboard_tick(&restored, UINT64_MAX);
    DEMAND(memcmp(&one, &other, sizeof one) == 0);
    synicboard_close(&restored);
    size_t at = (length * 31 + fuzz->entries * 977) % length;
    image[at] ^= 1 + fuzz->entries % 15;
    end = synicboard_restore(&restored, image, length);
    DEMAND(end.kind == SYNICBOARD_OK || (end.kind == SYNICBOARD_WRONG_LINE && end.line > 0 && !restored.is_open));
    if (end.kind == SYNICBOARD_OK)
        DEMAND(synicboard_save(&restored, room, length).length == length && memcmp(image, room, length) == 0);
    synicboard_close(&restored);
}

/* Both boards performed the same events, so their images are the same, also in buffers of exactly their
 * size. */
static void check_images(struct fuzz *fuzz)
{
    synicboard_end end = synicboard_save(&fuzz->by_struct, NULL, 0);
    DEMAND(end.kind == SYNICBOARD_OK && end.line == 0 && end.length > 5);
    uint8_t *one = allocate(end.length), *other = allocate(end.length);
    DEMAND(synicboard_save(&fuzz->by_struct, one, end.length).length == end.length);
    DEMAND(synicboard_save(&fuzz->by_call, other, end.length).length == end.length);
    DEMAND(memcmp(one, other, end.length) == 0 && memcmp(one + end.length - 5, "\nend\n", 5) == 0);
    check_restored(fuzz, one, other, end.length);
    free(one);
    free(other);
}

void fuzz_close(struct fuzz *fuzz)
{
    fuzz_compare_queries(fuzz);
    check_images(fuzz);
    check_trace(fuzz);
    check_shared(fuzz);
    synicboard_close_shared(&fuzz->shared);
    for (unsigned at = 0; at < LINES; at++)
        synicboard_close_line(&fuzz->lines[at]);
    synicboard_close(&fuzz->by_struct);
    synicboard_close(&fuzz->by_call);
    synicboard_close(&fuzz->sparse.board);
    free(fuzz->sparse.memory);
    DEMAND(!fuzz->by_struct.is_open && synicboard_next(&fuzz->by_struct, 0) == 0);
    free(fuzz->trace);
    free(fuzz);
}

/* ---- Events ---- */

static void compare_replies(const synicboard_reply *one, const synicboard_reply *other)
{
    DEMAND(one->kind == other->kind);
    DEMAND(one->fault == other->fault);
    DEMAND(one->refusal == other->refusal);
    DEMAND(one->vector == other->vector);
    DEMAND(one->length == other->length);
    DEMAND(one->notices == other->notices);
    DEMAND(one->value == other->value);
    DEMAND(one->ticket == other->ticket);
    DEMAND(memcmp(one->bytes, other->bytes, sizeof one->bytes) == 0);
}

static void compare_notices(const synicboard_notice *one, const synicboard_notice *other)
{
    DEMAND(one->kind == other->kind && one->kind >= SYNICBOARD_NOTICE_ACCEPTED && one->kind <= SYNICBOARD_NOTICE_SKIPPED);
    DEMAND(one->vp == other->vp && one->sint == other->sint);
    DEMAND(one->vector == other->vector && one->timer == other->timer);
    DEMAND(one->flag == other->flag && one->ticket == other->ticket);
    DEMAND(one->due == other->due && one->count == other->count);
}

/* The faults that the header lists for a reply, without NO_LINE, which only a board with lines has. */
static bool is_fault(uint8_t fault)
{
    switch (fault) {
    case SYNICBOARD_OK:
    case SYNICBOARD_IS_CLOSED:
    case SYNICBOARD_NO_EVENT:
    case SYNICBOARD_NO_MEMORY:
        return true;
    default:
        return false;
    }
}

/* The fields that a reply of any kind may have. */
static void check_form(const struct fuzz *fuzz, const synicboard_reply *reply)
{
    DEMAND(reply->kind <= SYNICBOARD_REFUSED && is_fault(reply->fault));
    DEMAND(reply->refusal <= (fuzz->pages > 0 ? SYNICBOARD_NOT_SUSPENDED : SYNICBOARD_ELSEWHERE));
    DEMAND((reply->kind == SYNICBOARD_NOT_PERFORMED) == (reply->fault != 0));
    DEMAND((reply->kind == SYNICBOARD_REFUSED) == (reply->refusal != 0));
    DEMAND(reply->notices <= SYNICBOARD_MOST_NOTICES && reply->length <= sizeof reply->bytes);
    if (reply->kind == SYNICBOARD_REFUSED || reply->kind == SYNICBOARD_GENERAL_PROTECTION)
        DEMAND(reply->notices == 0);
}

/* Performs the event on the shared board. */
static void compare_shared(struct fuzz *fuzz, const synicboard_event *event, const synicboard_reply *reply,
                           const synicboard_notice *notices)
{
    static synicboard_notice others[SYNICBOARD_MOST_NOTICES];
    if (!fuzz->shared.is_open)
        return;
    uint8_t actor = (uint8_t)fuzz->entries;
    synicboard_reply other = synicboard_act(&fuzz->shared, actor, event, others, SYNICBOARD_MOST_NOTICES);
    compare_replies(reply, &other);
    for (unsigned at = 0; at < reply->notices; at++)
        compare_notices(&notices[at], &others[at]);
}

/* Performs the event on the sparse board, with the guest's memory. */
static void compare_sparse(struct fuzz *fuzz, const synicboard_event *event, const synicboard_reply *reply,
                           const synicboard_notice *notices)
{
    static synicboard_notice others[SYNICBOARD_MOST_NOTICES];
    if (!fuzz->sparse.board.is_open)
        return;
    synicboard_reply other = perform_on_sparse(&fuzz->sparse, event);
    compare_replies(reply, &other);
    if (reply->kind == SYNICBOARD_NOT_PERFORMED)
        return;
    DEMAND(synicboard_notices(&fuzz->sparse.board, others, SYNICBOARD_MOST_NOTICES) == reply->notices);
    for (unsigned at = 0; at < reply->notices; at++)
        compare_notices(&notices[at], &others[at]);
}

/* Compares the reply of `by_struct` and its notices with those of the other boards. */
static void compare(struct fuzz *fuzz, const synicboard_event *event, const synicboard_reply *reply,
                    const synicboard_notice *notices)
{
    static synicboard_notice others[SYNICBOARD_MOST_NOTICES];
    synicboard_reply other = perform_by_call(&fuzz->by_call, event);
    check_form(fuzz, reply);
    compare_replies(reply, &other);
    compare_shared(fuzz, event, reply, notices);
    compare_sparse(fuzz, event, reply, notices);
    if (reply->kind == SYNICBOARD_NOT_PERFORMED)
        return;
    DEMAND(synicboard_notices(&fuzz->by_call, others, SYNICBOARD_MOST_NOTICES) == reply->notices);
    for (unsigned at = 0; at < reply->notices; at++)
        compare_notices(&notices[at], &others[at]);
    note(fuzz, event, reply, notices);
    record(fuzz, event, reply);
}

void fuzz_event(struct fuzz *fuzz, const synicboard_event *event)
{
    static synicboard_notice notices[SYNICBOARD_MOST_NOTICES];
    synicboard_reply reply = synicboard_perform(&fuzz->by_struct, event);
    if (reply.kind != SYNICBOARD_NOT_PERFORMED)
        DEMAND(synicboard_notices(&fuzz->by_struct, notices, SYNICBOARD_MOST_NOTICES) == reply.notices);
    compare(fuzz, event, &reply, notices);
}

/* A batch stops before an event that is invalid, or whose notices might not fit. */
void fuzz_batch(struct fuzz *fuzz, const synicboard_event *events, size_t count, size_t spare)
{
    static synicboard_notice notices[SYNICBOARD_MOST_NOTICES + UINT8_MAX];
    synicboard_reply replies[8];
    size_t first = 0;
    while (first < count) {
        synicboard_batch batch = synicboard_perform_all(&fuzz->by_struct, events + first, count - first, replies, 8, notices,
                                                        SYNICBOARD_MOST_NOTICES + spare);
        size_t emitted = 0;
        DEMAND(batch.done <= count - first);
        DEMAND(batch.end == SYNICBOARD_OK || batch.end == SYNICBOARD_NO_EVENT || batch.end == SYNICBOARD_NO_ROOM);
        DEMAND((batch.end == SYNICBOARD_OK) == (batch.done == count - first));
        for (size_t at = 0; at < batch.done; at++) {
            DEMAND(replies[at].kind != SYNICBOARD_NOT_PERFORMED);
            compare(fuzz, &events[first + at], &replies[at], notices + emitted);
            emitted += replies[at].notices;
        }
        DEMAND(emitted == batch.emitted);
        DEMAND(batch.done > 0 || batch.end == SYNICBOARD_NO_EVENT);
        first += batch.done;
        if (batch.end == SYNICBOARD_NO_EVENT)
            fuzz_event(fuzz, &events[first++]);
    }
}

/* No event has this kind. Nothing changes, and the notices of the event before are kept. */
void fuzz_no_kind(struct fuzz *fuzz, uint8_t kind)
{
    synicboard_event event = { .kind = kind > SYNICBOARD_SEND ? kind : 0 };
    size_t before = synicboard_notices(&fuzz->by_struct, NULL, 0);
    synicboard_reply reply = synicboard_perform(&fuzz->by_struct, &event);
    uint8_t lines[MOST_ENTRY];
    DEMAND(reply.kind == SYNICBOARD_NOT_PERFORMED && reply.fault == SYNICBOARD_NO_EVENT);
    DEMAND(synicboard_notices(&fuzz->by_struct, NULL, 0) == before);
    synicboard_end end = synicboard_format_entry(0, &event, &reply, lines, sizeof lines);
    DEMAND(end.kind == SYNICBOARD_WRONG_LINE && end.line == 1 && end.length == 0);
}

/* ---- Posted vectors ---- */

static bool is_open(const struct fuzz *fuzz, uint8_t line)
{
    return fuzz->lines[line % LINES].is_open;
}

void fuzz_raise(struct fuzz *fuzz, uint8_t line, uint8_t vp, uint8_t vector)
{
    uint8_t raised = synicboard_raise(&fuzz->lines[line % LINES], vp, vector);
    if (!is_open(fuzz, line) || vp >= fuzz->processors || vector < 16) {
        DEMAND(raised == SYNICBOARD_NOT_RAISED);
        return;
    }
    uint64_t *word = &fuzz->posted[vp][vector / 64], bit = (uint64_t)1 << vector % 64;
    DEMAND(raised == ((*word & bit) == 0 ? SYNICBOARD_FRESH : SYNICBOARD_ALREADY));
    *word |= bit;
}

/* The same as an absorb of the bits that were set. */
void fuzz_absorb(struct fuzz *fuzz, uint8_t line, uint8_t vp, uint8_t part)
{
    static synicboard_notice notices[SYNICBOARD_MOST_NOTICES];
    synicboard_reply reply = synicboard_absorb_line(&fuzz->by_struct, &fuzz->lines[line % LINES], vp, part);
    if (!is_open(fuzz, line)) {
        DEMAND(reply.kind == SYNICBOARD_NOT_PERFORMED && reply.fault == SYNICBOARD_NO_LINE);
        return;
    }
    bool is_part = vp < fuzz->processors && part < 4;
    uint64_t bits = is_part ? fuzz->posted[vp][part] : 0;
    synicboard_event event = { .kind = SYNICBOARD_ABSORB, .vp = vp, .part = part, .value = bits };
    DEMAND(reply.value == bits && (reply.kind == SYNICBOARD_DONE) == is_part);
    if (is_part)
        fuzz->posted[vp][part] = 0;
    reply.value = 0;
    DEMAND(synicboard_notices(&fuzz->by_struct, notices, SYNICBOARD_MOST_NOTICES) == reply.notices);
    compare(fuzz, &event, &reply, notices);
}

/* Splits off a line, or closes one that is open. The first line stays open. */
void fuzz_split(struct fuzz *fuzz, uint8_t line)
{
    synicboard_line *other = &fuzz->lines[1 + line % (LINES - 1)];
    if (other->is_open) {
        DEMAND(synicboard_split_line(&fuzz->lines[0], other) == SYNICBOARD_IS_OPEN);
        synicboard_close_line(other);
        return;
    }
    uint8_t result = synicboard_split_line(&fuzz->lines[0], other);
    DEMAND(result == SYNICBOARD_OK || result == SYNICBOARD_NO_MORE_LINES);
    DEMAND(other->is_open == (result == SYNICBOARD_OK));
}

/* ---- Queries ---- */

static void compare_processor(struct fuzz *fuzz, uint8_t vp)
{
    synicboard_local_apic one = synicboard_lapic(&fuzz->by_struct, vp), other = synicboard_lapic(&fuzz->by_call, vp);
    DEMAND(memcmp(one.requested, other.requested, sizeof one.requested) == 0);
    DEMAND(memcmp(one.in_service, other.in_service, sizeof one.in_service) == 0);
    DEMAND(one.task_priority == other.task_priority && one.processor_priority == other.processor_priority);
    DEMAND(one.is_suspended == other.is_suspended && one.processor_priority >= one.task_priority);
    DEMAND(synicboard_next(&fuzz->by_struct, vp) == synicboard_next(&fuzz->by_call, vp));
    for (unsigned vector = 0; vector < 256; vector++)
        DEMAND(synicboard_is_auto(&fuzz->by_struct, vp, (uint8_t)vector)
               == synicboard_is_auto(&fuzz->by_call, vp, (uint8_t)vector));
    for (uint8_t sint = 0; sint <= SOURCES; sint++)
        DEMAND(synicboard_queued(&fuzz->by_struct, vp, sint) == synicboard_queued(&fuzz->by_call, vp, sint));
}

/* Two sparse boards have the same overlays, at most two for each processor, with the owners of their pages. */
static void compare_wide_overlays(struct fuzz *fuzz)
{
    unsigned count = 0;
    for (uint64_t from = 0;; count++) {
        synicboard_overlay next = synicboard_next_overlay(&fuzz->by_struct, from), same = synicboard_next_overlay(&fuzz->by_call, from);
        DEMAND(next.owner.kind == same.owner.kind && next.owner.vp == same.owner.vp && next.page == same.page);
        if (next.owner.kind == SYNICBOARD_OWNER_NOTHING)
            break;
        synicboard_page_owner owner = synicboard_owner(&fuzz->by_struct, next.page);
        DEMAND(owner.kind == next.owner.kind && owner.vp == next.owner.vp && owner.vp < fuzz->processors);
        DEMAND(owner.kind >= SYNICBOARD_OWNER_MESSAGES && next.page >= from && next.page < UINT64_C(1) << 52);
        from = next.page + 1;
    }
    DEMAND(count <= 2 * fuzz->processors);
    DEMAND(synicboard_owner(&fuzz->by_struct, UINT64_C(1) << 52).kind == SYNICBOARD_OWNER_NOTHING);
}

/* The overlays that the guest of the sparse board sees are those of the owners, in ascending order. */
static void compare_overlays(struct fuzz *fuzz)
{
    uint64_t from = 0;
    if (fuzz->pages == 0) {
        compare_wide_overlays(fuzz);
        return;
    }
    for (uint64_t page = 0; page < fuzz->pages; page++) {
        synicboard_page_owner owner = synicboard_owner(&fuzz->by_struct, page), same = synicboard_owner(&fuzz->sparse.board, page);
        DEMAND(owner.kind == same.kind && owner.vp == same.vp);
        if (owner.kind == SYNICBOARD_OWNER_GUEST)
            continue;
        synicboard_overlay next = synicboard_next_overlay(&fuzz->sparse.board, from);
        DEMAND(next.owner.kind == owner.kind && next.owner.vp == owner.vp && next.page == page);
        from = page + 1;
    }
    synicboard_overlay next = synicboard_next_overlay(&fuzz->sparse.board, from);
    DEMAND(next.owner.kind == SYNICBOARD_OWNER_NOTHING || next.page >= fuzz->pages);
}

/* The earliest deadline after a time is later than it, and that after one less than the earliest is the earliest. */
static void compare_deadlines(struct fuzz *fuzz)
{
    const synicboard *twin = fuzz->pages > 0 ? &fuzz->sparse.board : &fuzz->by_call;
    synicboard_due first = synicboard_earliest(&fuzz->by_struct), same = synicboard_earliest(twin);
    DEMAND(first.is_due == same.is_due && first.vp == same.vp && first.timer == same.timer && first.low == same.low);
    if (first.is_due && first.high == 0 && first.low > 0) {
        same = synicboard_earliest_after(&fuzz->by_struct, first.low - 1);
        DEMAND(same.is_due && same.vp == first.vp && same.timer == first.timer && same.low == first.low);
    }
    uint64_t now = synicboard_moment(&fuzz->by_struct);
    synicboard_due next = synicboard_earliest_after(&fuzz->by_struct, now);
    DEMAND(!next.is_due || next.high > 0 || next.low > now);
    DEMAND(next.is_due || !first.is_due || (first.high == 0 && first.low <= now));
}

/* The bits of what changed since the last look are those of the vectors that differ from before. */
static void compare_view(struct fuzz *fuzz)
{
    synicboard_wide_view before = fuzz->view;
    synicboard_changes changes = synicboard_update_wide(&fuzz->by_struct, &fuzz->view);
    for (unsigned vp = 0; vp < 64; vp++) {
        DEMAND(fuzz->view.next[vp] == synicboard_next(&fuzz->by_struct, (uint8_t)vp));
        DEMAND((changes.next >> vp & 1) == (fuzz->view.next[vp] != before.next[vp]));
    }
    synicboard_due first = synicboard_earliest(&fuzz->by_struct), *seen = &fuzz->view.earliest;
    DEMAND(seen->is_due == first.is_due && seen->vp == first.vp && seen->timer == first.timer);
    DEMAND(seen->low == first.low && seen->high == first.high);
}

void fuzz_compare_queries(struct fuzz *fuzz)
{
    compare_deadlines(fuzz);
    compare_view(fuzz);
    synicboard_due one = synicboard_earliest(&fuzz->by_struct), other = synicboard_earliest(&fuzz->by_call);
    DEMAND(one.is_due == other.is_due && one.vp == other.vp && one.timer == other.timer);
    DEMAND(one.low == other.low && one.high == other.high);
    DEMAND(synicboard_moment(&fuzz->by_struct) == synicboard_moment(&fuzz->by_call));
    DEMAND(synicboard_next_ticket(&fuzz->by_struct) == synicboard_next_ticket(&fuzz->by_call));
    for (uint8_t vp = 0; vp <= fuzz->processors; vp++)
        compare_processor(fuzz, vp);
    for (uint64_t page = 0; page <= fuzz->pages; page++) {
        synicboard_page_owner owner = synicboard_owner(&fuzz->by_struct, page);
        synicboard_page_owner same = synicboard_owner(&fuzz->by_call, page);
        DEMAND(owner.kind == same.kind && owner.vp == same.vp);
        DEMAND((owner.kind == SYNICBOARD_OWNER_NOTHING) == (page == fuzz->pages && fuzz->pages > 0));
    }
    compare_overlays(fuzz);
}

/* As many notices are copied as fit, and no more. */
void fuzz_short_notices(struct fuzz *fuzz, uint8_t length)
{
    synicboard_notice *notices = allocate((length + 1) * sizeof *notices);
    memset(notices, FILLER, (length + 1) * sizeof *notices);
    size_t count = synicboard_notices(&fuzz->by_struct, notices, length), copied = count < length ? count : length;
    DEMAND(count <= SYNICBOARD_MOST_NOTICES);
    for (size_t at = 0; at <= length; at++)
        DEMAND((notices[at].kind == FILLER) == (at >= copied));
    free(notices);
}

static void compare_pages(bool is_page, bool is_other, const uint8_t *page, const uint8_t *other)
{
    DEMAND(is_page == is_other);
    if (is_page)
        DEMAND(memcmp(page, other, PAGE) == 0);
}

void fuzz_pages(struct fuzz *fuzz, uint8_t number)
{
    const uint8_t *page = NULL, *other = NULL;
    bool is_page = synicboard_guest_page(&fuzz->by_struct, number, &page);
    compare_pages(is_page, synicboard_guest_page(&fuzz->by_call, number, &other), page, other);
    DEMAND(is_page == (number < fuzz->pages));
    is_page = synicboard_message_page(&fuzz->by_struct, number, &page);
    compare_pages(is_page, synicboard_message_page(&fuzz->by_call, number, &other), page, other);
    DEMAND(is_page == (number < fuzz->processors));
    is_page = synicboard_flag_page(&fuzz->by_struct, number, &page);
    compare_pages(is_page, synicboard_flag_page(&fuzz->by_call, number, &other), page, other);
}

/* ---- Texts ---- */

static synicboard_end replay(const uint8_t *text, size_t length, uint8_t *room, size_t size)
{
    memset(room, FILLER, size + GUARD);
    synicboard_end end = synicboard_replay(text, length, room, size);
    size_t written = end.length < size ? end.length : size;
    DEMAND(end.kind == SYNICBOARD_OK || end.kind == SYNICBOARD_WRONG_LINE);
    DEMAND((end.kind == SYNICBOARD_WRONG_LINE) == (end.line != 0));
    for (size_t at = written; at < size + GUARD; at++)
        DEMAND(room[at] == FILLER);
    return end;
}

/* A text is refused at a line, or is the image of the board that it restores. */
static void restore_text(const uint8_t *text, size_t length)
{
    synicboard board = SYNICBOARD_CLOSED;
    synicboard_end end = synicboard_restore(&board, text, length);
    features[FIRST_LINE + (end.line < WRONG_LINES ? end.line : WRONG_LINES - 1)]++;
    DEMAND(end.length == 0 && board.is_open == (end.kind == SYNICBOARD_OK));
    if (board.is_open) {
        uint8_t *room = allocate(length);
        DEMAND(end.line == 0 && synicboard_save(&board, room, length).length == length && memcmp(room, text, length) == 0);
        DEMAND(synicboard_tick(&board, UINT64_MAX).kind == SYNICBOARD_DONE);
        free(room);
    } else {
        DEMAND(end.kind == SYNICBOARD_WRONG_LINE && end.line != 0);
    }
    synicboard_close(&board);
}

void fuzz_text(const uint8_t *text, size_t length)
{
    uint8_t *exact = allocate(length + (length == 0)), few[7 + GUARD];
    memcpy(exact, text, length);
    synicboard_end end = replay(exact, length, few, 7);
    uint8_t *whole = allocate(end.length + GUARD);
    synicboard_end again = replay(exact, length, whole, end.length);
    DEMAND(again.kind == end.kind && again.line == end.line && again.length == end.length);
    DEMAND(memcmp(few, whole, end.length < 7 ? end.length : 7) == 0);
    synicboard_verdict verdict = synicboard_check(exact, length);
    DEMAND(verdict.kind == SYNICBOARD_OK || verdict.kind == SYNICBOARD_WRONG_LINE);
    DEMAND((verdict.kind == SYNICBOARD_WRONG_LINE) == (verdict.line != 0));
    restore_text(exact, length);
    free(whole);
    free(exact);
}
