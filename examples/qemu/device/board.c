/* The board under its lock: each event with what its reply and its notices ask of the emulator. */
#include "internal.h"
#include "qapi/error.h"
#include "qemu/host-utils.h"
#include "qemu/memalign.h"
#include "qemu/error-report.h"
#include "qemu/thread.h"

struct synic synic;

static QemuMutex lock;
static synicboard board = SYNICBOARD_CLOSED;
static uint8_t *live_pages[2 * PARTITION_VPS];

/* What events have asked for and is not done yet. */
static struct {
    bool is_any;
    bool has_buffers;                   /* a message left its queue */
    uint64_t placed;                    /* watches whose message was placed */
    uint64_t vps;                       /* processors with vectors */
    uint64_t vectors[PARTITION_VPS][4];
    uint64_t wanted, armed;             /* the host's timer */
} work = { .wanted = SYNIC_NEVER, .armed = SYNIC_NEVER };

/* Messages of which it is reported that they were placed. */
static struct { bool is_used; uint64_t ticket; } watches[SYNIC_WATCHES];

static uint64_t events, notices_seen, by_kind[SYNICBOARD_NOTICE_SKIPPED + 1], forwarded, settled;

/* ---- Under the lock ---- */

static void look_at_watches(const synicboard_notice *notice)
{
    for (unsigned at = 0; at < SYNIC_WATCHES; at++)
        if (watches[at].is_used && watches[at].ticket == notice->ticket) {
            watches[at].is_used = false;
            if (notice->kind == SYNICBOARD_NOTICE_PLACED)
                work.placed |= 1ULL << at;
        }
}

static void handle_notice(const synicboard_notice *notice)
{
    notices_seen++;
    by_kind[notice->kind]++;
    synic_log_notice(synicboard_moment(&board), notice);
    if (notice->kind == SYNICBOARD_NOTICE_PLACED || notice->kind == SYNICBOARD_NOTICE_WITHDRAWN) {
        work.has_buffers = true;
        look_at_watches(notice);
    }
}

/* The local APICs are QEMU's, so each vector that is requested is forwarded, once. */
static void collect(uint64_t vps)
{
    for (uint8_t vp = 0; vp < synic.offer.vps; vp++) {
        synicboard_forwarded vectors;
        if (!(vps >> vp & 1))
            continue;
        synicboard_forward(&board, vp, &vectors);
        synic_log_forwarded(vp, &vectors);
        for (unsigned word = 0; word < 4; word++) {
            work.vectors[vp][word] |= vectors.vectors[word];
            forwarded += ctpop64(vectors.vectors[word]);
        }
        work.vps |= 1ULL << vp;
    }
}

/* The clock moves first, so in a trace a tick comes before the event. */
static void log_step(uint64_t now, bool is_moved, const synicboard_event *event, const synicboard_answer *answer)
{
    static const synicboard_reply done = { .kind = SYNICBOARD_DONE };
    if (is_moved) {
        synic_log_event(&(synicboard_event){ .kind = SYNICBOARD_TICK, .moment = now }, &done);
        synic_log_eoms(answer->clock_eoms);
    }
    if (event != NULL) {
        synic_log_event(event, &answer->reply);
        synic_log_eoms(answer->eoms);
    }
}

/* Moves the clock and performs an event, if there is one. A timer that is late by several periods has its next alarm at
 * once, so the host's timer expires again. */
static synicboard_reply step(uint64_t now, const synicboard_event *event)
{
    static synicboard_notice notices[SYNICBOARD_MOST_LIVE_NOTICES];
    bool is_moved = now > synicboard_moment(&board);
    synicboard_answer answer = synicboard_step(&board, now, event, 0, notices, SYNICBOARD_MOST_LIVE_NOTICES);
    events++;
    log_step(now, is_moved, event, &answer);
    for (size_t at = 0; at < answer.notices; at++)
        handle_notice(&notices[at]);
    collect(answer.next);
    work.wanted = answer.alarm.is_set ? answer.alarm.moment : SYNIC_NEVER;
    work.is_any = work.wanted != work.armed || work.vps != 0 || work.placed != 0 || work.has_buffers;
    return answer.reply;
}

/* ---- Events ---- */

/* The clock is read before the lock is acquired; if another thread has moved the board to a later time, the board's stays.
 * A message may be placed in the same call, so its watch has the ticket before. */
static synicboard_reply act(const synicboard_event *event, int watch)
{
    uint64_t now = synic_now();
    qemu_mutex_lock(&lock);
    if (watch >= 0) {
        step(now, NULL);
        watches[watch].is_used = true;
        watches[watch].ticket = synicboard_next_ticket(&board);
    }
    synicboard_reply reply = step(now, event);
    if (watch >= 0 && reply.kind != SYNICBOARD_ACCEPTED)
        watches[watch].is_used = false;
    bool is_any = work.is_any;
    qemu_mutex_unlock(&lock);
    if (is_any)
        synic_settle();
    return reply;
}

synicboard_reply synic_perform(const synicboard_event *event)
{
    return act(event, -1);
}

synicboard_reply synic_post_watched(const synicboard_event *event, unsigned watch)
{
    return act(event, watch);
}

/* The host's timer has expired, so it is to be armed again. */
void synic_tick(void)
{
    uint64_t now = synic_now();
    qemu_mutex_lock(&lock);
    work.armed = SYNIC_NEVER;
    step(now, NULL);
    qemu_mutex_unlock(&lock);
    synic_settle();
}

/* Whoever has the BQL takes all that was asked for, so the timer is armed for what was wanted last. */
void synic_settle(void)
{
    uint64_t vectors[PARTITION_VPS][4];
    bool is_taken = synic_take_bql();
    qemu_mutex_lock(&lock);
    uint64_t vps = work.vps, wanted = work.wanted, placed = work.placed;
    bool is_moved = wanted != work.armed, has_buffers = work.has_buffers;
    memcpy(vectors, work.vectors, sizeof(vectors));
    memset(work.vectors, 0, sizeof(work.vectors));
    work.vps = work.placed = 0;
    work.armed = wanted;
    work.is_any = work.has_buffers = false;
    settled++;
    qemu_mutex_unlock(&lock);
    for (unsigned vp = 0; vp < synic.offer.vps; vp++)
        if (vps >> vp & 1)
            synic_deliver_all(vp, vectors[vp]);
    if (is_moved)
        synic_arm(wanted);
    if (placed != 0)
        synic_routes_placed(placed);
    if (has_buffers)
        synic_bus_consumed();
    synic_release_bql(is_taken);
}

/* ---- Queries ---- */

bool synic_is_auto(uint8_t vp, uint8_t vector)
{
    qemu_mutex_lock(&lock);
    bool is_auto = synicboard_is_auto(&board, vp, vector);
    qemu_mutex_unlock(&lock);
    return is_auto;
}

void synic_list_overlays(uint64_t pages[2 * PARTITION_VPS])
{
    memset(pages, 0xff, 2 * PARTITION_VPS * sizeof(pages[0]));
    qemu_mutex_lock(&lock);
    for (synicboard_overlay next = synicboard_next_overlay(&board, 0); next.owner.kind != SYNICBOARD_OWNER_NOTHING;
         next = synicboard_next_overlay(&board, next.page + 1))
        pages[2 * next.owner.vp + (next.owner.kind == SYNICBOARD_OWNER_FLAGS)] = next.page * PARTITION_PAGE;
    qemu_mutex_unlock(&lock);
}

uint8_t *synic_live_page(unsigned number)
{
    return live_pages[number];
}

/* ---- Opening, saving ---- */

void synic_open_board(void)
{
    qemu_mutex_init(&lock);
    if (synicboard_open_sparse(&board, synic.offer.vps, 0) != SYNICBOARD_OK) {
        error_report("synicboard: no memory for %u processors", synic.offer.vps);
        exit(1);
    }
    for (unsigned at = 0; at < 2 * synic.offer.vps; at++)
        live_pages[at] = qemu_memalign(PARTITION_PAGE, PARTITION_PAGE);
    synic.is_open = true;
}

/* The pages are QEMU's, so they are mapped once, and a board that is restored gets them again. */
static void make_live(void)
{
    if (!synic_log_options.traps && synicboard_make_live_in(&board, live_pages) != SYNICBOARD_OK) {
        error_report("synicboard: no memory for the message and event flags pages");
        exit(1);
    }
}

void synic_make_ready(void)
{
    make_live();
    synic_make_regions();
    qemu_mutex_lock(&lock);
    synic_log_begin(&board, NULL, 0);
    qemu_mutex_unlock(&lock);
    synic.is_ready = true;
}

uint8_t *synic_save_image(size_t *length)
{
    qemu_mutex_lock(&lock);
    size_t size = synicboard_save(&board, NULL, 0).length;
    uint8_t *image = g_malloc(size + 1);
    *length = synicboard_save(&board, image, size).length;
    qemu_mutex_unlock(&lock);
    return image;
}

/* The processors of the image may have requested vectors that the local APICs do not have yet. */
bool synic_restore_image(const uint8_t *image, size_t length, Error **errp)
{
    synicboard restored = SYNICBOARD_CLOSED;
    synicboard_end end = synicboard_restore(&restored, image, length);
    if (end.kind == SYNICBOARD_WRONG_LINE)
        error_setg(errp, "synicboard: line %" PRIu64 " of the image is wrong", end.line);
    else if (end.kind != SYNICBOARD_OK)
        error_setg(errp, "synicboard: the image is not restored: %s", synicboard_outcome_text(end.kind));
    if (end.kind != SYNICBOARD_OK)
        return false;
    qemu_mutex_lock(&lock);
    synicboard_close(&board);
    board = restored;
    make_live();
    synic_log_begin(&board, image, length);
    memset(watches, 0, sizeof(watches));
    work.armed = SYNIC_NEVER;
    collect(UINT64_MAX);
    step(synicboard_moment(&board), NULL);
    qemu_mutex_unlock(&lock);
    synic_map_overlays();
    return true;
}

/* At the end of QEMU, which may come while the lock is held. */
void synic_report(void)
{
    if (qemu_mutex_trylock(&lock) != 0)
        return;
    synic_log_end(&board);
    fprintf(stderr, "synicboard: %" PRIu64 " events, %" PRIu64 " notices, %" PRIu64 " vectors forwarded; settled %" PRIu64 " times\n",
            events, notices_seen, forwarded, settled);
    fprintf(stderr, "synicboard: %" PRIu64 " interrupts ended without a write of EOI\n", synic_assist_count());
    fprintf(stderr, "synicboard: messages: %" PRIu64 " placed, %" PRIu64 " consumed, %" PRIu64 " withdrawn; flags: %" PRIu64
            "; timers: %" PRIu64 " expired\n", by_kind[SYNICBOARD_NOTICE_PLACED], by_kind[SYNICBOARD_NOTICE_CONSUMED],
            by_kind[SYNICBOARD_NOTICE_WITHDRAWN], by_kind[SYNICBOARD_NOTICE_FLAG], by_kind[SYNICBOARD_NOTICE_EXPIRED]);
    qemu_mutex_unlock(&lock);
}
