/* A host with live pages: two processors, each a thread that plays its guest, a clock, and a service that posts
 * messages and signals flags. All that a host does is in `step`. In the middle the board is saved, closed, restored,
 * and gets the same pages again. Its output does not depend on the schedule.
 *
 *   cc -Iinclude examples/c/live.c build/libsynicboard.a -pthread -o live
 *   ./live [MESSAGES] */
#include <inttypes.h>
#include <pthread.h>
#include <sched.h>
#include <stdatomic.h>
#include <stdbool.h>
#include <stdio.h>
#include <stdlib.h>
#include <string.h>
#include <time.h>

#include "synicboard.h"

enum { PROCESSORS = 2, PAGE = 4096, SLOT = 256, MOST = 2 * SYNICBOARD_MOST_LIVE_NOTICES };
enum { MESSAGES = 2, FLAGS = 3, TIMED = 4 };                /* sources */
enum { MESSAGE_VECTOR = 0x52, FLAG_VECTOR = 0x53, TIMED_VECTOR = 0x54, DIRECT_VECTOR = 0x60 };
enum { PERIOD = 5000, FLAG_COUNT = 64, TIMER_MESSAGE = 0x80000010u, PENDING = 1 };

/* What a guest has seen, and what it must see. */
struct guest {
    uint64_t posted, read, timed, expired, direct, set, cleared;
    atomic_bool is_woken;
};

static struct guest guests[PROCESSORS];
static uint8_t memory[2 * PROCESSORS][PAGE] __attribute__((aligned(4096)));
static uint8_t *pages[2 * PROCESSORS];                      /* two for each processor, mapped once */
static synicboard board = SYNICBOARD_CLOSED;
static pthread_mutex_t lock = PTHREAD_MUTEX_INITIALIZER;
static uint64_t accepted, consumed, epoch;
static _Atomic uint64_t alarm_at = UINT64_MAX;
static atomic_bool is_stopped;
static atomic_uint errors;

#define EXPECT(condition) ((condition) ? (void)0 : wrong(#condition, __LINE__))

static void wrong(const char *what, int line)
{
    if (atomic_fetch_add(&errors, 1) < 10)
        fprintf(stderr, "live: line %d: %s does not hold\n", line, what);
}

static uint64_t now(void)
{
    struct timespec time;
    clock_gettime(CLOCK_MONOTONIC, &time);
    return (uint64_t)time.tv_sec * 10000000 + (uint64_t)time.tv_nsec / 100 - epoch;
}

/* ---- The host ---- */

static void account(const synicboard_notice *notice)
{
    accepted += notice->kind == SYNICBOARD_NOTICE_ACCEPTED;
    consumed += notice->kind == SYNICBOARD_NOTICE_CONSUMED;
    guests[notice->vp].set += notice->kind == SYNICBOARD_NOTICE_FLAG;
    guests[notice->vp].expired += notice->kind == SYNICBOARD_NOTICE_EXPIRED && notice->timer == 0;
}

/* Performs an event, or moves the clock alone, and does all that the answer says. The guest has no assist page, and its
 * overlays are where this host has put them, so no other step is left. */
static synicboard_reply step(const synicboard_event *event)
{
    static synicboard_notice notices[MOST];
    pthread_mutex_lock(&lock);
    synicboard_answer answer = synicboard_step(&board, now(), event, 0, notices, MOST);
    for (size_t at = 0; at < answer.notices; at++)
        account(&notices[at]);
    for (uint8_t vp = 0; vp < PROCESSORS; vp++)
        if (answer.next >> vp & 1)
            atomic_store(&guests[vp].is_woken, true);
    atomic_store(&alarm_at, answer.alarm.is_set ? answer.alarm.moment : UINT64_MAX);
    pthread_mutex_unlock(&lock);
    return answer.reply;
}

static synicboard_reply write_register(uint8_t vp, uint32_t msr, uint64_t value)
{
    return step(&(synicboard_event){ .kind = SYNICBOARD_WRITE, .vp = vp, .msr = msr, .value = value });
}

static void *run_clock(void *unused)
{
    while (!atomic_load(&is_stopped))
        if (now() >= atomic_load(&alarm_at))
            step(NULL);
        else
            sched_yield();
    return unused;
}

/* Posts until that many messages are accepted, each with its number. */
static void serve(uint64_t count)
{
    for (uint64_t number = guests[0].posted + guests[1].posted; number < count;) {
        struct guest *guest = &guests[number % PROCESSORS];
        synicboard_event post = { .kind = SYNICBOARD_POST, .port = (uint8_t)(number % PROCESSORS), .message_type = 1, .length = 8 };
        memcpy(post.bytes, &guest->posted, 8);
        synicboard_reply reply = step(&post);
        if (reply.kind == SYNICBOARD_ACCEPTED) {
            guest->posted++;
            number++;
        } else {
            EXPECT(reply.kind == SYNICBOARD_REFUSED && reply.refusal == SYNICBOARD_NO_BUFFERS);
            sched_yield();
        }
        step(&(synicboard_event){ .kind = SYNICBOARD_SIGNAL, .port = (uint8_t)(PROCESSORS + number % PROCESSORS), .flag = (uint16_t)(number % FLAG_COUNT) });
    }
}

/* ---- The guest ---- */

/* Reads the message of a slot, and empties it. */
static void read_message(struct guest *guest, uint8_t vp, uint8_t source)
{
    uint8_t *slot = pages[2 * vp] + SLOT * source;
    uint32_t type = atomic_load_explicit((_Atomic uint32_t *)slot, memory_order_acquire);
    uint64_t first;
    if (type == 0)
        return;
    memcpy(&first, slot + 16, sizeof first);
    EXPECT(source == TIMED ? type == TIMER_MESSAGE && (uint32_t)first == 0 : type == 1 && first == guest->read);
    guest->timed += source == TIMED;
    guest->read += source != TIMED;
    atomic_store_explicit((_Atomic uint32_t *)slot, 0, memory_order_release);
    atomic_thread_fence(memory_order_seq_cst);
    if (atomic_load((_Atomic uint8_t *)(slot + 5)) & PENDING)
        write_register(vp, SYNICBOARD_MSR_EOM, 0);
}

static void clear_flags(struct guest *guest, uint8_t vp)
{
    _Atomic uint64_t *word = (_Atomic uint64_t *)(void *)(pages[2 * vp + 1] + SLOT * FLAGS);
    guest->cleared += (uint64_t)__builtin_popcountll(atomic_exchange(word, 0));
}

static void handle(struct guest *guest, uint8_t vp, uint8_t vector)
{
    if (vector == FLAG_VECTOR)
        clear_flags(guest, vp);
    else if (vector == DIRECT_VECTOR)
        guest->direct++;
    else
        read_message(guest, vp, vector == TIMED_VECTOR ? TIMED : MESSAGES);
    write_register(vp, SYNICBOARD_MSR_EOI, 0);
}

static void *run_guest(void *number)
{
    uint8_t vp = (uint8_t)(uintptr_t)number;
    struct guest *guest = &guests[vp];
    while (!atomic_load(&is_stopped)) {
        if (!atomic_exchange(&guest->is_woken, false)) {
            sched_yield();
            continue;
        }
        synicboard_reply reply = step(&(synicboard_event){ .kind = SYNICBOARD_TAKE, .vp = vp });
        if (reply.kind == SYNICBOARD_TAKEN)
            handle(guest, vp, reply.vector);
    }
    return NULL;
}

static void set_up(uint8_t vp)
{
    static const uint8_t vectors[] = { [MESSAGES] = MESSAGE_VECTOR, [FLAGS] = FLAG_VECTOR, [TIMED] = TIMED_VECTOR };
    write_register(vp, SYNICBOARD_MSR_SCONTROL, 1);
    write_register(vp, SYNICBOARD_MSR_SIMP, (uint64_t)(16 + 2 * vp) << 12 | 1);
    write_register(vp, SYNICBOARD_MSR_SIEFP, (uint64_t)(17 + 2 * vp) << 12 | 1);
    for (uint8_t source = MESSAGES; source <= TIMED; source++)
        write_register(vp, SYNICBOARD_MSR_SINT0 + source, vectors[source]);
    step(&(synicboard_event){ .kind = SYNICBOARD_OPEN_MESSAGE_PORT, .port = vp, .vp = vp, .sint = MESSAGES, .buffers = 3 });
    step(&(synicboard_event){ .kind = SYNICBOARD_OPEN_EVENT_PORT, .port = (uint8_t)(PROCESSORS + vp), .vp = vp, .sint = FLAGS, .count = FLAG_COUNT });
    write_register(vp, SYNICBOARD_MSR_STIMER0_COUNT, PERIOD);
    write_register(vp, SYNICBOARD_MSR_STIMER0_CONFIG, TIMED << 16 | 3);             /* periodic, by messages */
    write_register(vp, SYNICBOARD_MSR_STIMER0_COUNT + 2, PERIOD / 5);
    write_register(vp, SYNICBOARD_MSR_STIMER0_CONFIG + 2, 0x1003 | DIRECT_VECTOR << 4);  /* periodic, direct */
}

/* ---- The whole ---- */

static void start(pthread_t *threads)
{
    atomic_store(&is_stopped, false);
    for (uintptr_t vp = 0; vp < PROCESSORS; vp++)
        pthread_create(&threads[vp], NULL, run_guest, (void *)vp);
    pthread_create(&threads[PROCESSORS], NULL, run_clock, NULL);
}

static void stop(pthread_t *threads)
{
    atomic_store(&is_stopped, true);
    for (unsigned at = 0; at <= PROCESSORS; at++)
        pthread_join(threads[at], NULL);
}

/* Another board in place of the first, with the same pages, while no thread runs. */
static void replace(void)
{
    static uint8_t image[1 << 20];
    static synicboard_notice notices[MOST];
    synicboard_end end = synicboard_save(&board, image, sizeof image);
    size_t count = synicboard_notices(&board, notices, MOST);
    EXPECT(end.kind == SYNICBOARD_OK && end.length <= sizeof image);
    for (size_t at = 0; at < count; at++)
        account(&notices[at]);
    synicboard_close(&board);
    memset(memory, 0xee, sizeof memory);
    EXPECT(synicboard_restore(&board, image, end.length).kind == SYNICBOARD_OK);
    EXPECT(synicboard_make_live_in(&board, pages) == SYNICBOARD_OK);
    step(NULL);
}

static bool has_all(const struct guest *guest)
{
    return guest->read == guest->posted && guest->timed == guest->expired && guest->cleared == guest->set;
}

/* Until each guest has seen all; false after ten seconds. */
static bool wait_for_guests(void)
{
    for (uint64_t end = now() + 100000000; now() < end; sched_yield()) {
        pthread_mutex_lock(&lock);
        bool is_done = has_all(&guests[0]) && has_all(&guests[1]);
        pthread_mutex_unlock(&lock);
        if (is_done)
            return true;
    }
    return false;
}

int main(int count, char **words)
{
    uint64_t messages = count > 1 ? strtoull(words[1], NULL, 10) : 20000;
    pthread_t threads[PROCESSORS + 1];
    epoch = now() - 1;
    for (unsigned at = 0; at < 2 * PROCESSORS; at++)
        pages[at] = memory[at];
    if (synicboard_open_sparse(&board, PROCESSORS, 0) != SYNICBOARD_OK || synicboard_make_live_in(&board, pages) != SYNICBOARD_OK)
        return 1;
    for (uint8_t vp = 0; vp < PROCESSORS; vp++)
        set_up(vp);
    start(threads);
    serve(messages / 2);
    stop(threads);
    replace();
    start(threads);
    serve(messages);
    for (uint8_t vp = 0; vp < PROCESSORS; vp++)
        for (uint32_t timer = 0; timer < 2; timer++)
            write_register(vp, SYNICBOARD_MSR_STIMER0_CONFIG + 2 * timer, 0);
    EXPECT(wait_for_guests());
    stop(threads);
    for (uint8_t vp = 0; vp < PROCESSORS; vp++) {
        step(NULL);
        EXPECT(synicboard_observe(&board, vp).kind == SYNICBOARD_DONE);
        consumed += synicboard_notices(&board, NULL, 0);
        EXPECT(guests[vp].direct > 0);
    }
    EXPECT(consumed == accepted && synicboard_next_ticket(&board) == accepted);
    printf("messages posted and read: %" PRIu64 ", errors: %u\n", guests[0].read + guests[1].read, atomic_load(&errors));
    synicboard_close(&board);
    return atomic_load(&errors) != 0;
}
