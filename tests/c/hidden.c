/* Sixty-four processors with live pages, whose message pages other processors hide and show again all the time: guests
 * of four threads, a service that posts messages and signals flags, a host that moves overlays, and a clock. Several
 * times the board is saved, closed, restored, and gets the same pages again, while some pages are hidden.
 *
 *   hidden [MESSAGES [RESTORES]]
 *
 * Each message must be read once, in the order of its processor, each flag be found, and each ticket be consumed. */
#include <inttypes.h>
#include <pthread.h>
#include <sched.h>
#include <stdatomic.h>
#include <stdbool.h>
#include <stdio.h>
#include <stdlib.h>
#include <string.h>
#include <time.h>

#include "synicboard.h"

enum { PROCESSORS = 64, THREADS = 4, PAGE = 4096, SLOT = 256, MOST = 4 * SYNICBOARD_MOST_LIVE_NOTICES };
enum { MESSAGES = 2, FLAGS = 3, TIMED = 4 };                /* sources */
enum { MESSAGE_VECTOR = 0x52, FLAG_VECTOR = 0x53, TIMED_VECTOR = 0x54 };
enum { PERIOD = 20000, TIMED_EVERY = 8, FLAG_COUNT = 64, TIMER_MESSAGE = 0x80000010u, PENDING = 1 };
enum { MOST_HIDDEN = 8, SHOWN = PROCESSORS };

/* What a guest has seen, and what it must see. `hidden_by` is the processor whose page hides its message page; the
 * guest has its lock while it uses its pages, and the host while it maps them again. */
struct guest {
    pthread_mutex_t mapped;
    uint64_t posted, read, timed, expired, set, cleared, hidden;
    uint8_t hidden_by;
    atomic_bool is_woken;
};

static struct guest guests[PROCESSORS];
static uint8_t memory[2 * PROCESSORS][PAGE] __attribute__((aligned(4096)));
static uint8_t *pages[2 * PROCESSORS];                      /* two for each processor, mapped once */
static synicboard board = SYNICBOARD_CLOSED;
static pthread_mutex_t lock = PTHREAD_MUTEX_INITIALIZER;
static uint64_t accepted, consumed, epoch;
static _Atomic uint64_t alarm_at = UINT64_MAX;
static atomic_bool is_stopped;
static atomic_uint errors;

#define EXPECT(condition) ((condition) ? (void)0 : wrong(#condition, __LINE__))

static void wrong(const char *what, int line)
{
    if (atomic_fetch_add(&errors, 1) < 10)
        fprintf(stderr, "hidden: line %d: %s does not hold\n", line, what);
}

static uint64_t now(void)
{
    struct timespec time;
    clock_gettime(CLOCK_MONOTONIC, &time);
    return (uint64_t)time.tv_sec * 10000000 + (uint64_t)time.tv_nsec / 100 - epoch;
}

static uint64_t random_of(uint64_t *state)
{
    *state ^= *state << 13;
    *state ^= *state >> 7;
    *state ^= *state << 17;
    return *state;
}

/* ---- The host ---- */

static void account(const synicboard_notice *notice)
{
    accepted += notice->kind == SYNICBOARD_NOTICE_ACCEPTED;
    consumed += notice->kind == SYNICBOARD_NOTICE_CONSUMED;
    guests[notice->vp].set += notice->kind == SYNICBOARD_NOTICE_FLAG;
    guests[notice->vp].expired += notice->kind == SYNICBOARD_NOTICE_EXPIRED;
}

/* Performs an event, or moves the clock alone, and does all that the answer says. */
static synicboard_reply step(const synicboard_event *event)
{
    static synicboard_notice notices[MOST];
    pthread_mutex_lock(&lock);
    synicboard_answer answer = synicboard_step(&board, now(), event, 0, notices, MOST);
    for (size_t at = 0; at < answer.notices; at++)
        account(&notices[at]);
    for (uint64_t left = answer.next; left != 0; left &= left - 1)
        atomic_store(&guests[__builtin_ctzll(left)].is_woken, true);
    atomic_store(&alarm_at, answer.alarm.is_set ? answer.alarm.moment : UINT64_MAX);
    pthread_mutex_unlock(&lock);
    return answer.reply;
}

static synicboard_reply write_register(uint8_t vp, uint32_t msr, uint64_t value)
{
    return step(&(synicboard_event){ .kind = SYNICBOARD_WRITE, .vp = vp, .msr = msr, .value = value });
}

/* Moves the message page of a processor to the place of another's. */
static void place(uint8_t vp, uint8_t at)
{
    EXPECT(write_register(vp, SYNICBOARD_MSR_SIMP, (uint64_t)(16 + 2 * at) << 12 | 1).kind == SYNICBOARD_DONE);
}

static void *run_clock(void *unused)
{
    while (!atomic_load(&is_stopped))
        if (now() >= atomic_load(&alarm_at))
            step(NULL);
        else
            sched_yield();
    return unused;
}

/* Shows the page that a processor hides. */
static void show(uint8_t over, uint8_t under)
{
    pthread_mutex_lock(&guests[over].mapped);
    pthread_mutex_lock(&guests[under].mapped);
    place(over, over);
    guests[under].hidden_by = SHOWN;
    pthread_mutex_unlock(&guests[under].mapped);
    pthread_mutex_unlock(&guests[over].mapped);
    atomic_store(&guests[under].is_woken, true);
}

/* Hides the message page of a processor under that of one with a lower number, and shows an earlier one. */
static void *move_overlays(void *unused)
{
    uint8_t over[MOST_HIDDEN] = { 0 }, under[MOST_HIDDEN] = { 0 };      /* no pair if both are 0 */
    uint64_t random = 0x9e3779b97f4a7c15u ^ now();
    for (unsigned at = 0; !atomic_load(&is_stopped); at = (at + 1) % MOST_HIDDEN) {
        if (under[at] != 0)
            show(over[at], under[at]);
        uint64_t drawn = random_of(&random);
        /* pairs that have no processor in common */
        over[at] = (uint8_t)(at * 4 + drawn % 4);
        under[at] = (uint8_t)(PROCESSORS / 2 + at * 4 + (drawn >> 8) % 4);
        pthread_mutex_lock(&guests[over[at]].mapped);
        pthread_mutex_lock(&guests[under[at]].mapped);
        place(over[at], under[at]);
        guests[under[at]].hidden_by = over[at];
        guests[under[at]].hidden++;
        pthread_mutex_unlock(&guests[under[at]].mapped);
        pthread_mutex_unlock(&guests[over[at]].mapped);
        sched_yield();
    }
    return unused;
}

/* Posts until that many messages are accepted, each with its number. */
static void serve(uint64_t from, uint64_t to)
{
    static uint64_t random = 0x2545f4914f6cdd1du;
    for (uint64_t number = from; number < to;) {
        uint8_t vp = (uint8_t)(random_of(&random) % PROCESSORS);
        struct guest *guest = &guests[vp];
        synicboard_event post = { .kind = SYNICBOARD_POST, .port = vp, .message_type = 1, .length = 8 };
        memcpy(post.bytes, &guest->posted, 8);
        synicboard_reply reply = step(&post);
        if (reply.kind == SYNICBOARD_ACCEPTED) {
            guest->posted++;
            number++;
        } else {
            EXPECT(reply.kind == SYNICBOARD_REFUSED && reply.refusal == SYNICBOARD_NO_BUFFERS);
            sched_yield();
        }
        if (number % 4 == 0)
            step(&(synicboard_event){ .kind = SYNICBOARD_SIGNAL, .port = (uint8_t)(PROCESSORS + vp), .flag = (uint16_t)(number % FLAG_COUNT) });
    }
}

/* ---- The guests ---- */

/* Reads the message of a slot, and empties it. */
static void read_message(struct guest *guest, uint8_t vp, uint8_t source)
{
    uint8_t *slot = pages[2 * vp] + SLOT * source;
    uint32_t type = atomic_load_explicit((_Atomic uint32_t *)slot, memory_order_acquire);
    uint64_t first;
    if (type == 0)
        return;
    memcpy(&first, slot + 16, sizeof first);
    EXPECT(source == TIMED ? type == TIMER_MESSAGE && (uint32_t)first == 0 : type == 1 && first == guest->read);
    guest->timed += source == TIMED;
    guest->read += source != TIMED;
    atomic_store_explicit((_Atomic uint32_t *)slot, 0, memory_order_release);
    atomic_thread_fence(memory_order_seq_cst);
    if (atomic_load((_Atomic uint8_t *)(slot + 5)) & PENDING)
        write_register(vp, SYNICBOARD_MSR_EOM, 0);
}

/* Uses the pages that it sees. */
static void look(struct guest *guest, uint8_t vp)
{
    _Atomic uint64_t *word = (_Atomic uint64_t *)(void *)(pages[2 * vp + 1] + SLOT * FLAGS);
    pthread_mutex_lock(&guest->mapped);
    guest->cleared += (uint64_t)__builtin_popcountll(atomic_exchange(word, 0));
    if (guest->hidden_by == SHOWN) {
        read_message(guest, vp, MESSAGES);
        read_message(guest, vp, TIMED);
    }
    pthread_mutex_unlock(&guest->mapped);
}

static void run_once(struct guest *guest, uint8_t vp)
{
    while (step(&(synicboard_event){ .kind = SYNICBOARD_TAKE, .vp = vp }).kind == SYNICBOARD_TAKEN) {
        look(guest, vp);
        write_register(vp, SYNICBOARD_MSR_EOI, 0);
    }
    look(guest, vp);
}

static void *run_guests(void *number)
{
    while (!atomic_load(&is_stopped)) {
        bool is_idle = true;
        for (uint8_t vp = (uint8_t)(uintptr_t)number; vp < PROCESSORS; vp += THREADS)
            if (atomic_exchange(&guests[vp].is_woken, false)) {
                run_once(&guests[vp], vp);
                is_idle = false;
            }
        if (is_idle)
            sched_yield();
    }
    return NULL;
}

static void set_up(uint8_t vp)
{
    static const uint8_t vectors[] = { [MESSAGES] = MESSAGE_VECTOR, [FLAGS] = FLAG_VECTOR, [TIMED] = TIMED_VECTOR };
    write_register(vp, SYNICBOARD_MSR_SCONTROL, 1);
    place(vp, vp);
    write_register(vp, SYNICBOARD_MSR_SIEFP, (uint64_t)(17 + 2 * vp) << 12 | 1);
    for (uint8_t source = MESSAGES; source <= TIMED; source++)
        write_register(vp, SYNICBOARD_MSR_SINT0 + source, vectors[source]);
    step(&(synicboard_event){ .kind = SYNICBOARD_OPEN_MESSAGE_PORT, .port = vp, .vp = vp, .sint = MESSAGES, .buffers = 3 });
    step(&(synicboard_event){ .kind = SYNICBOARD_OPEN_EVENT_PORT, .port = (uint8_t)(PROCESSORS + vp), .vp = vp, .sint = FLAGS, .count = FLAG_COUNT });
    if (vp % TIMED_EVERY == 0) {
        write_register(vp, SYNICBOARD_MSR_STIMER0_COUNT, PERIOD);
        write_register(vp, SYNICBOARD_MSR_STIMER0_CONFIG, TIMED << 16 | 3);     /* periodic, by messages */
    }
}

/* ---- The whole ---- */

static pthread_t threads[THREADS + 2];

static void start(void)
{
    atomic_store(&is_stopped, false);
    for (uintptr_t at = 0; at < THREADS; at++)
        pthread_create(&threads[at], NULL, run_guests, (void *)at);
    pthread_create(&threads[THREADS], NULL, run_clock, NULL);
    pthread_create(&threads[THREADS + 1], NULL, move_overlays, NULL);
}

static void stop(void)
{
    atomic_store(&is_stopped, true);
    for (unsigned at = 0; at < THREADS + 2; at++)
        pthread_join(threads[at], NULL);
}

/* Another board in place of the first, with the same pages, while no thread runs. Then all pages are shown. */
static void replace(void)
{
    static uint8_t image[4 << 20];
    static synicboard_notice notices[MOST];
    synicboard_end end = synicboard_save(&board, image, sizeof image);
    size_t count = synicboard_notices(&board, notices, MOST);
    EXPECT(end.kind == SYNICBOARD_OK && end.length <= sizeof image && count <= MOST);
    for (size_t at = 0; at < count; at++)
        account(&notices[at]);
    synicboard_close(&board);
    memset(memory, 0xee, sizeof memory);
    EXPECT(synicboard_restore(&board, image, end.length).kind == SYNICBOARD_OK);
    EXPECT(synicboard_make_live_in(&board, pages) == SYNICBOARD_OK);
    for (uint8_t vp = 0; vp < PROCESSORS; vp++)
        if (guests[vp].hidden_by != SHOWN)
            show(guests[vp].hidden_by, vp);
    for (uint8_t vp = 0; vp < PROCESSORS; vp++)
        atomic_store(&guests[vp].is_woken, true);
}

static bool have_all(void)
{
    for (unsigned vp = 0; vp < PROCESSORS; vp++) {
        const struct guest *guest = &guests[vp];
        if (guest->read != guest->posted || guest->timed != guest->expired || guest->cleared != guest->set)
            return false;
    }
    return true;
}

/* Lets the guests run until each has seen all; false after twenty seconds. */
static bool wait_for_guests(void)
{
    pthread_t waiting[THREADS];
    bool is_done = false;
    atomic_store(&is_stopped, false);
    for (uintptr_t at = 0; at < THREADS; at++)
        pthread_create(&waiting[at], NULL, run_guests, (void *)at);
    for (uint64_t end = now() + 200000000; !is_done && now() < end; sched_yield()) {
        pthread_mutex_lock(&lock);
        is_done = have_all();
        pthread_mutex_unlock(&lock);
    }
    atomic_store(&is_stopped, true);
    for (unsigned at = 0; at < THREADS; at++)
        pthread_join(waiting[at], NULL);
    return is_done;
}

static void end(void)
{
    for (uint8_t vp = 0; vp < PROCESSORS; vp += TIMED_EVERY)
        write_register(vp, SYNICBOARD_MSR_STIMER0_CONFIG, 0);
    EXPECT(wait_for_guests());
    for (uint8_t vp = 0; vp < PROCESSORS; vp++) {
        step(NULL);
        EXPECT(synicboard_observe(&board, vp).kind == SYNICBOARD_DONE);
        consumed += synicboard_notices(&board, NULL, 0);
    }
    EXPECT(consumed == accepted && synicboard_next_ticket(&board) == accepted);
}

int main(int count, char **words)
{
    uint64_t messages = count > 1 ? strtoull(words[1], NULL, 10) : 100000;
    uint64_t restores = count > 2 ? strtoull(words[2], NULL, 10) : 3, read = 0, hidden = 0;
    epoch = now() - 1;
    for (unsigned at = 0; at < 2 * PROCESSORS; at++)
        pages[at] = memory[at];
    if (synicboard_open_sparse(&board, PROCESSORS, 0) != SYNICBOARD_OK || synicboard_make_live_in(&board, pages) != SYNICBOARD_OK)
        return 1;
    for (uint8_t vp = 0; vp < PROCESSORS; vp++) {
        pthread_mutex_init(&guests[vp].mapped, NULL);
        guests[vp].hidden_by = SHOWN;
        set_up(vp);
    }
    for (uint64_t part = 0; part <= restores; part++) {
        start();
        serve(messages / (restores + 1) * part, part == restores ? messages : messages / (restores + 1) * (part + 1));
        stop();
        replace();
    }
    end();
    for (unsigned vp = 0; vp < PROCESSORS; vp++) {
        read += guests[vp].read;
        hidden += guests[vp].hidden;
    }
    printf("messages posted and read: %" PRIu64 ", errors: %u\n", read, atomic_load(&errors));
    fprintf(stderr, "hidden: message pages were hidden %" PRIu64 " times\n", hidden);
    synicboard_close(&board);
    return atomic_load(&errors) != 0;
}
