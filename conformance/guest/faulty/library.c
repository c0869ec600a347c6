/* The calls of synicboard.h that examples/kvm uses where pages trap, by the plain board of conformance/faulty with the
 * fault that FAULT names: so a hypervisor has a faulty board. One board at a time; it is not saved, traced or live. */
#include <pthread.h>
#include <stdarg.h>
#include <stdio.h>
#include <stdlib.h>
#include <string.h>

#include "board.h"
#include "shown.h"

static struct peer calls;
static synicboard the_board;
static pthread_mutex_t lock = PTHREAD_MUTEX_INITIALIZER;
static synicboard_notice notices[SYNICBOARD_MOST_LIVE_NOTICES];
static size_t notice_count;

uint8_t shown[MOST][2][PAGE] __attribute__((aligned(PAGE)));
bool is_tried;
static bool has_expired;

/* ---- The plain board, which is a peer ---- */

int plain_main(int count, char **words);

int peer_main(const struct peer *peer)
{
    calls = *peer;
    return 0;
}

struct peer_reply peer_reply(enum peer_kind kind, uint64_t number)
{
    return (struct peer_reply){ .kind = kind, .number = number };
}

/* The hypervisor acts on these kinds, and counts the others. */
void peer_notice(const char *format, ...)
{
    char text[80];
    unsigned vp = 0, vector = 0;
    va_list words;
    va_start(words, format);
    vsnprintf(text, sizeof text, format, words);
    va_end(words);
    has_expired |= strncmp(text, "expired", 7) == 0;
    synicboard_notice notice = { 0 };
    if (sscanf(text, "requested %u %x", &vp, &vector) == 2)
        notice = (synicboard_notice){ .kind = SYNICBOARD_NOTICE_REQUESTED, .vp = (uint8_t)vp, .vector = (uint8_t)vector };
    else if (strncmp(text, "placed", 6) == 0)
        notice.kind = SYNICBOARD_NOTICE_PLACED;
    else if (strncmp(text, "withdrawn", 9) == 0)
        notice.kind = SYNICBOARD_NOTICE_WITHDRAWN;
    else
        return;
    if (notice_count < SYNICBOARD_MOST_LIVE_NOTICES)
        notices[notice_count++] = notice;
}

static void show_pages(void)
{
    for (unsigned vp = 0; vp < board.processors; vp++) {
        memcpy(shown[vp][0], board.vps[vp].sim, PAGE);
        memcpy(shown[vp][1], board.vps[vp].sief, PAGE);
    }
}

/* ---- Opening, and the lock ---- */

uint8_t synicboard_open_sparse(synicboard *opened, uint8_t processors, uint64_t first_ticket)
{
    char *fault = getenv("FAULT");
    char *words[] = { "faulty", fault, NULL };
    if (plain_main(fault != NULL ? 2 : 1, words) != 0 || processors > MOST)
        return SYNICBOARD_BAD_SIZE;
    if (calls.open_sparse_board(processors, first_ticket) == 0)
        return SYNICBOARD_BAD_SIZE;
    opened->is_open = true;
    show_pages();
    return SYNICBOARD_OK;
}

void synicboard_close(synicboard *closed)
{
    closed->is_open = false;
}

uint8_t synicboard_make_live(synicboard *opened, uint8_t **pages)
{
    return SYNICBOARD_NO_MEMORY;
}

uint8_t synicboard_share(synicboard_shared *shared, synicboard *opened)
{
    the_board = *opened;
    shared->is_open = true;
    opened->is_open = false;
    return SYNICBOARD_OK;
}

synicboard *synicboard_hold(synicboard_shared *shared)
{
    pthread_mutex_lock(&lock);
    return &the_board;
}

uint8_t synicboard_release(synicboard_shared *shared)
{
    pthread_mutex_unlock(&lock);
    return SYNICBOARD_OK;
}

/* ---- Events ---- */

static synicboard_reply translated(struct peer_reply reply)
{
    static const uint8_t kinds[] = {
        [PEER_DONE] = SYNICBOARD_DONE, [PEER_VALUE] = SYNICBOARD_VALUE, [PEER_BYTES] = SYNICBOARD_BYTES,
        [PEER_TAKEN] = SYNICBOARD_TAKEN, [PEER_NONE_TAKEN] = SYNICBOARD_NONE_TAKEN,
        [PEER_ACCEPTED] = SYNICBOARD_ACCEPTED, [PEER_CLEAR] = SYNICBOARD_FLAG_WAS_CLEAR,
        [PEER_SET] = SYNICBOARD_FLAG_WAS_SET, [PEER_GENERAL_PROTECTION] = SYNICBOARD_GENERAL_PROTECTION,
        [PEER_REFUSED] = SYNICBOARD_REFUSED, [PEER_UNSUPPORTED] = SYNICBOARD_NOT_PERFORMED,
    };
    synicboard_reply made = { .kind = kinds[reply.kind], .value = reply.number, .ticket = reply.number };
    made.vector = reply.kind == PEER_TAKEN ? (uint8_t)reply.number : 0;
    made.refusal = reply.kind == PEER_REFUSED ? (uint8_t)reply.number : 0;
    made.length = (uint8_t)reply.length;
    memcpy(made.bytes, reply.bytes, sizeof made.bytes);
    made.notices = (uint16_t)notice_count;
    return made;
}

static struct peer_reply performed(const synicboard_event *e)
{
    switch (e->kind) {
    case SYNICBOARD_OPEN_MESSAGE_PORT: return calls.open_message_port(e->port, e->vp, e->sint, e->buffers);
    case SYNICBOARD_OPEN_EVENT_PORT: return calls.open_event_port(e->port, e->vp, e->sint, e->flag, e->count);
    case SYNICBOARD_CLOSE_PORT: return calls.close_port(e->port);
    case SYNICBOARD_WRITE: return calls.write_msr(e->vp, e->msr, e->value);
    case SYNICBOARD_READ: return calls.read_msr(e->vp, e->msr);
    case SYNICBOARD_POST: return calls.post_message(e->port, e->message_type, e->bytes, e->length);
    case SYNICBOARD_SIGNAL: return calls.signal_event(e->port, e->flag);
    case SYNICBOARD_ASSERT: return calls.assert_irq(e->vp, e->vector);
    case SYNICBOARD_ABSORB: return calls.absorb_posted(e->vp, e->part, e->value);
    case SYNICBOARD_STORE: return calls.guest_store(e->address, e->bytes, e->length);
    case SYNICBOARD_LOAD: return calls.guest_load(e->address, e->length);
    case SYNICBOARD_TICK: return calls.advance_time(e->moment);
    case SYNICBOARD_TAKE: return calls.take_interrupt(e->vp);
    case SYNICBOARD_SUSPEND: return calls.suspend(e->vp);
    case SYNICBOARD_RESUME: return calls.resume(e->vp);
    case SYNICBOARD_RESET: return calls.reset(e->vp);
    case SYNICBOARD_SEND: return calls.send_interrupt(e->vector, e->value);
    default: return peer_reply(PEER_UNSUPPORTED, 0);
    }
}

synicboard_reply synicboard_perform(synicboard *held, const synicboard_event *event)
{
    uint64_t before = board.now;
    notice_count = 0;
    has_expired = false;
    synicboard_reply reply = translated(performed(event));
    bool is_later = board.now > before;
    is_tried = event->kind == SYNICBOARD_TICK && !has_expired && (is_later || is_tried);
    show_pages();
    return reply;
}

uint64_t synicboard_eoms(const synicboard *held)
{
    return 0;
}

synicboard_reply synicboard_observe_all(synicboard *held, uint8_t vp)
{
    return (synicboard_reply){ .kind = SYNICBOARD_NOT_PERFORMED, .fault = SYNICBOARD_NOT_LIVE };
}

size_t synicboard_notices(const synicboard *held, synicboard_notice *to, size_t length)
{
    memcpy(to, notices, (notice_count < length ? notice_count : length) * sizeof *to);
    return notice_count;
}
