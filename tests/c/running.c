/* A guest that uses its live pages while the board runs, as two threads: the host posts and signals, and the guest,
 * as Linux does it, reads a message, empties the slot, has a barrier, and writes EOM if it sees MessagePending; it
 * clears event flags by atomic instructions. It looks at its pages only after an interrupt, so a wake-up that is
 * missed stops it for ever.
 *
 *   running [MESSAGES]
 *
 * posts that many messages (100,000), and signals as often. Each message must come once and in order, and after the
 * last signal of each flag the guest must have seen its counter. The events are written as a trace, with a guest's
 * store before each event that found one, and the trace must be legal. */
#include <pthread.h>
#include <sched.h>
#include <stdatomic.h>
#include <stdbool.h>
#include <stdint.h>
#include <stdio.h>
#include <stdlib.h>
#include <string.h>
#include <time.h>

#include "synicboard.h"

enum { PAGE = 4096, SLOT = 256, SINT = 3, FLAG_SINT = 4, MESSAGE_PORT = 0, FLAG_PORT = 1, FLAGS = 16, BUFFERS = 4 };
enum { MESSAGE_VECTOR = 0x50, FLAG_VECTOR = 0x51, SIMP_PAGE = 2, SIEFP_PAGE = 3, SECONDS = 40 };
enum { TRACED = 20000, TRACE_ROOM = 64 << 20 };

/* What both threads use. The guest's own words are the live pages. */
static synicboard_shared shared = SYNICBOARD_SHARED_CLOSED;
static uint8_t *pages[2];
static _Atomic uint32_t requests;                               /* of the guest's vectors */
static _Atomic uint64_t counters[FLAGS];                        /* stored before its flag is signalled */
static atomic_bool is_over;
static uint64_t messages;

/* ---- The trace ---- */

static char *trace;
static size_t traced;
static uint64_t entries, consumed, found_flags;
static uint8_t known_flags[FLAGS];

static void write_entry(const synicboard_event *event, const synicboard_reply *reply)
{
    synicboard_end end = synicboard_format_entry(0, event, reply, (uint8_t *)trace + traced, TRACE_ROOM - traced);
    if (end.kind != SYNICBOARD_OK || end.length > TRACE_ROOM - traced) {
        fprintf(stderr, "running: an entry is not one of a board, or too many: line %lu\n", end.line);
        exit(1);
    }
    traced += end.length;
    entries++;
}

/* The guest's store that an event has found: the type of a slot, or eight bytes with a flag. */
static void write_store(uint64_t address, uint8_t length)
{
    synicboard_event store = { .kind = SYNICBOARD_STORE, .address = address, .length = length };
    write_entry(&store, &(synicboard_reply){ .kind = SYNICBOARD_DONE });
}

/* ---- Events, under the lock ---- */

static void handle_notices(const synicboard *board)
{
    static synicboard_notice notices[SYNICBOARD_MOST_LIVE_NOTICES];
    size_t count = synicboard_notices(board, notices, SYNICBOARD_MOST_LIVE_NOTICES);
    for (size_t at = 0; at < count; at++) {
        if (notices[at].kind == SYNICBOARD_NOTICE_CONSUMED) {
            consumed++;
            if (trace != NULL)
                write_store(SIMP_PAGE * PAGE + SINT * SLOT, 4);
        }
        if (notices[at].kind == SYNICBOARD_NOTICE_REQUESTED)
            atomic_fetch_add(&requests, 1);
    }
}

/* A flag that was set and is clear now was cleared by the guest: the store of a byte of zero before the signal. */
static void find_flag(const synicboard_event *event, const synicboard_reply *reply)
{
    unsigned byte = event->flag / 8;
    if (event->kind != SYNICBOARD_SIGNAL)
        return;
    if (reply->kind == SYNICBOARD_FLAG_WAS_CLEAR && known_flags[byte] && trace != NULL)
        write_store(SIEFP_PAGE * PAGE + FLAG_SINT * SLOT + byte, 1);
    found_flags += reply->kind == SYNICBOARD_FLAG_WAS_CLEAR;
    known_flags[byte] = 1;
}

static synicboard_reply act(synicboard_event event)
{
    synicboard *board = synicboard_hold(&shared);
    synicboard_reply reply = synicboard_perform(board, &event);
    uint64_t eoms = synicboard_eoms(board);
    if (eoms != 0 || reply.kind == SYNICBOARD_NOT_PERFORMED) {
        fprintf(stderr, "running: event %u: EOMs %lx, fault %u\n", event.kind, eoms, reply.fault);
        exit(1);
    }
    handle_notices(board);
    find_flag(&event, &reply);
    if (trace != NULL)
        write_entry(&event, &reply);
    synicboard_release(&shared);
    return reply;
}

static void write_register(uint32_t msr, uint64_t value)
{
    act((synicboard_event){ .kind = SYNICBOARD_WRITE, .msr = msr, .value = value });
}

/* ---- The guest ---- */

static uint64_t ends;
static _Atomic uint64_t received, wrong;
static _Atomic uint64_t seen[FLAGS];

/* TLFS, "Message Delivery". */
static void handle_message(void)
{
    uint8_t *slot = pages[0] + SINT * SLOT;
    for (;;) {
        uint64_t number = 0;
        if (__atomic_load_n((uint32_t *)(void *)slot, __ATOMIC_ACQUIRE) == 0)
            return;
        for (unsigned at = 0; at < sizeof number; at++)
            number |= (uint64_t)__atomic_load_n(&slot[16 + at], __ATOMIC_RELAXED) << 8 * at;
        wrong += number != received++;
        __atomic_store_n((uint32_t *)(void *)slot, 0, __ATOMIC_RELEASE);
        __asm__ volatile("mfence" : : : "memory");
        if ((__atomic_load_n(&slot[5], __ATOMIC_RELAXED) & 1) == 0)
            return;
        ends++;
        write_register(SYNICBOARD_MSR_EOM, 0);
    }
}

/* Each flag has a byte of its own in the trace's stores, and shares a word of the page with the others. */
static void handle_flags(void)
{
    uint8_t *flags = pages[1] + FLAG_SINT * SLOT;
    for (unsigned flag = 0; flag < FLAGS; flag++)
        if (__atomic_fetch_and(&flags[flag], (uint8_t)~1, __ATOMIC_SEQ_CST) & 1)
            seen[flag] = counters[flag];
}

/* Takes the vectors that were requested. */
static void handle_interrupts(void)
{
    for (;;) {
        synicboard_reply taken = act((synicboard_event){ .kind = SYNICBOARD_TAKE });
        if (taken.kind != SYNICBOARD_TAKEN)
            return;
        if (taken.vector == MESSAGE_VECTOR)
            handle_message();
        else
            handle_flags();
    }
}

static void *run_guest(void *unused)
{
    (void)unused;
    for (uint32_t handled = 0; !is_over;) {
        uint32_t now = requests;
        if (now != handled)
            handle_interrupts();
        else
            sched_yield();
        handled = now;
    }
    return NULL;
}

/* ---- The host ---- */

/* Whether the guest has received nothing for long. */
static bool is_late(void)
{
    static time_t end;
    static uint64_t last = UINT64_MAX;
    uint64_t now = received;
    if (now != last)
        end = time(NULL) + SECONDS;
    last = now;
    return time(NULL) > end;
}

static bool has_buffer(void)
{
    bool has = synicboard_queued(synicboard_hold(&shared), 0, SINT) < BUFFERS;
    synicboard_release(&shared);
    return has;
}

static bool post(uint64_t number)
{
    synicboard_event event = { .kind = SYNICBOARD_POST, .port = MESSAGE_PORT, .message_type = 1, .length = sizeof number };
    memcpy(event.bytes, &number, sizeof number);
    return act(event).kind == SYNICBOARD_ACCEPTED;
}

static void signal_flag(uint64_t number)
{
    unsigned flag = number % FLAGS;
    counters[flag]++;
    act((synicboard_event){ .kind = SYNICBOARD_SIGNAL, .port = FLAG_PORT, .flag = (uint16_t)(8 * flag) });
}

static void run_host(void)
{
    for (uint64_t number = 0; number < messages && !is_late(); number++) {
        while (!has_buffer() && !is_late())
            sched_yield();
        wrong += !post(number);
        signal_flag(number);
    }
}

/* ---- The run ---- */

static void open_board(void)
{
    synicboard board = SYNICBOARD_CLOSED;
    if (synicboard_open(&board, 1, 4, 0) != SYNICBOARD_OK || synicboard_make_live(&board, pages) != SYNICBOARD_OK
        || synicboard_share(&shared, &board) != SYNICBOARD_OK)
        exit(1);
    if (trace != NULL)
        traced += (size_t)sprintf(trace, "trace 2\nboard 1 4 0\n");
    write_register(SYNICBOARD_MSR_SCONTROL, 1);
    write_register(SYNICBOARD_MSR_SIMP, SIMP_PAGE * PAGE | 1);
    write_register(SYNICBOARD_MSR_SIEFP, SIEFP_PAGE * PAGE | 1);
    write_register(SYNICBOARD_MSR_SINT0 + SINT, MESSAGE_VECTOR | 1 << 17);
    write_register(SYNICBOARD_MSR_SINT0 + FLAG_SINT, FLAG_VECTOR | 1 << 17);
    act((synicboard_event){ .kind = SYNICBOARD_OPEN_MESSAGE_PORT, .port = MESSAGE_PORT, .sint = SINT, .buffers = BUFFERS });
    act((synicboard_event){ .kind = SYNICBOARD_OPEN_EVENT_PORT, .port = FLAG_PORT, .sint = FLAG_SINT, .count = 8 * FLAGS });
}

static bool has_all(void)
{
    bool has = received == messages;
    for (unsigned flag = 0; flag < FLAGS; flag++)
        has = has && seen[flag] == counters[flag];
    return has;
}

static bool is_legal(void)
{
    if (trace == NULL)
        return true;
    synicboard *board = synicboard_hold(&shared);
    traced += (size_t)sprintf(trace + traced, "end %lu %lu\n", entries, synicboard_next_ticket(board));
    synicboard_release(&shared);
    synicboard_verdict verdict = synicboard_check((const uint8_t *)trace, traced);
    printf("the trace of %lu entries: kind %u, line %lu\n", entries, verdict.kind, verdict.line);
    return verdict.kind == SYNICBOARD_OK && verdict.entries == entries;
}

int main(int count, char **words)
{
    pthread_t guest;
    messages = count > 1 ? strtoull(words[1], NULL, 10) : 100000;
    if (messages <= TRACED && (trace = malloc(TRACE_ROOM)) == NULL)
        return 1;
    open_board();
    if (pthread_create(&guest, NULL, run_guest, NULL) != 0)
        return 1;
    run_host();
    while (!has_all() && !is_late())
        sched_yield();
    is_over = true;
    pthread_join(guest, NULL);
    bool is_right = has_all() && wrong == 0 && is_legal();
    printf("running: %lu messages of %lu, %lu wrong, %lu EOMs, %lu signals found their flag clear: %s\n", received, messages, wrong,
           ends, found_flags, is_right ? "passed" : "FAILED");
    synicboard_close_shared(&shared);
    free(trace);
    return is_right ? 0 : 1;
}
