/* Measures the cost of a call from C: performs the events of a workload of bench_board through the C
 * calls.
 *
 *   ways calls|notices|structs|batches|shared interrupts|messages|timers EVENTS
 *
 * `calls` performs each event by its own call. `notices` also copies its notices, if there are any.
 * `structs` performs it by synicboard_perform and copies them. `batches` performs up to 64 events
 * at a time by synicboard_perform_all, which returns their notices. `shared` performs it by
 * synicboard_act, which copies the notices and appends to a history, under an uncontended lock.
 * Standard output has the number of events, of notices, and the sum of the replies, as bench_board
 * prints them; standard error has nanoseconds per event. */
#define _POSIX_C_SOURCE 200809L /* for clock_gettime */
#include <inttypes.h>
#include <stdbool.h>
#include <stdint.h>
#include <stdio.h>
#include <stdlib.h>
#include <string.h>
#include <time.h>

#include "synicboard.h"

enum { PROCESSORS = 8, PORTS = 16, TIMERS = 4, TICKS = 64, STEP = 50, MOST_EVENTS = 64 };
enum { OVERLAY = 0x1000, SLOT = 256, FIRST_VECTOR = 0x40, PERIODIC_DIRECT = 0x1003 };

enum way { CALLS, NOTICES, STRUCTS, BATCHES, SHARED };

/* A board after the untimed setup, the events that are then repeated, and how much later their
 * ticks are in each round. */
struct scene {
    enum way way;
    synicboard own;
    synicboard_shared shared;
    synicboard *board; /* one of these two */
    synicboard_event round[MOST_EVENTS];
    size_t length;
    uint64_t span;
};

struct totals {
    uint64_t notices;
    uint64_t replies;
};

static _Noreturn void give_up(const char *why)
{
    fprintf(stderr, "ways: %s\n", why);
    exit(2);
}

static void append(struct scene *scene, synicboard_event event)
{
    scene->round[scene->length++] = event;
}

static void open_board(struct scene *scene, uint8_t processors, uint8_t pages)
{
    uint8_t answer;
    if (scene->way == SHARED)
        answer = synicboard_open_shared(&scene->shared, processors, pages, 0);
    else
        answer = synicboard_open(&scene->own, processors, pages, 0);
    if (answer != SYNICBOARD_OK)
        give_up("no board was opened");
    /* The setup is not in the history. */
    scene->board = scene->way == SHARED ? synicboard_hold(&scene->shared) : &scene->own;
}

static void set_register(struct scene *scene, uint8_t vp, uint32_t msr, uint64_t value)
{
    if (synicboard_write(scene->board, vp, msr, value).kind != SYNICBOARD_DONE)
        give_up("a register was not written");
}

/* Assert, take and end on eight processors. */
static void interrupts(struct scene *scene)
{
    open_board(scene, PROCESSORS, 1);
    for (uint8_t vp = 0; vp < PROCESSORS; vp++) {
        append(scene, (synicboard_event){ .kind = SYNICBOARD_ASSERT, .vp = vp, .vector = 0x60 });
        append(scene, (synicboard_event){ .kind = SYNICBOARD_TAKE, .vp = vp });
        append(scene, (synicboard_event){ .kind = SYNICBOARD_WRITE, .vp = vp, .msr = SYNICBOARD_MSR_EOI });
    }
}

/* Post, consume and EOM over sixteen ports. */
static void messages(struct scene *scene)
{
    open_board(scene, 1, 4);
    set_register(scene, 0, SYNICBOARD_MSR_SCONTROL, 1);
    set_register(scene, 0, SYNICBOARD_MSR_SIMP, OVERLAY + 1);
    for (uint8_t port = 0; port < PORTS; port++) {
        synicboard_event post = { .kind = SYNICBOARD_POST, .port = port, .message_type = 1, .length = 1 };
        synicboard_event store = { .kind = SYNICBOARD_STORE, .address = OVERLAY + SLOT * port, .length = 4 };
        post.bytes[0] = 0x0a;
        set_register(scene, 0, SYNICBOARD_MSR_SINT0 + port, FIRST_VECTOR + port);
        synicboard_open_message_port(scene->board, port, 0, port, 2);
        append(scene, post);
        append(scene, store);
        append(scene, (synicboard_event){ .kind = SYNICBOARD_WRITE, .msr = SYNICBOARD_MSR_EOM });
    }
}

/* 32 periodic timers in direct mode, and dense ticks. */
static void timers(struct scene *scene)
{
    open_board(scene, PROCESSORS, 1);
    for (uint8_t vp = 0; vp < PROCESSORS; vp++) {
        for (uint8_t timer = 0; timer < TIMERS; timer++) {
            uint64_t vector = FIRST_VECTOR + timer;
            set_register(scene, vp, SYNICBOARD_MSR_STIMER0_COUNT + 2 * timer, 1000 + 10 * vp + timer);
            set_register(scene, vp, SYNICBOARD_MSR_STIMER0_CONFIG + 2 * timer, PERIODIC_DIRECT | vector << 4);
        }
    }
    for (uint64_t number = 1; number <= TICKS; number++)
        append(scene, (synicboard_event){ .kind = SYNICBOARD_TICK, .moment = STEP * number });
    scene->span = STEP * TICKS;
}

/* For the kinds of events that the three workloads use. */
static synicboard_reply perform_by_call(synicboard *board, const synicboard_event *event)
{
    switch (event->kind) {
    case SYNICBOARD_WRITE: return synicboard_write(board, event->vp, event->msr, event->value);
    case SYNICBOARD_POST:
        return synicboard_post(board, event->port, event->message_type, event->bytes, event->length);
    case SYNICBOARD_ASSERT: return synicboard_assert(board, event->vp, event->vector);
    case SYNICBOARD_STORE: return synicboard_store(board, event->address, event->bytes, event->length);
    case SYNICBOARD_TICK: return synicboard_tick(board, event->moment);
    default: return synicboard_take(board, event->vp);
    }
}

/* The number in a reply. Fields that its kind does not use are 0. */
static uint64_t value_of(const synicboard_reply *reply)
{
    return reply->ticket + reply->vector + reply->refusal;
}

static inline synicboard_reply perform_by_way(struct scene *scene, const synicboard_event *event, enum way way)
{
    static synicboard_notice notices[SYNICBOARD_MOST_NOTICES];
    if (way == SHARED)
        return synicboard_act(&scene->shared, 0, event, notices, SYNICBOARD_MOST_NOTICES);
    bool is_struct = way == STRUCTS;
    synicboard_reply reply =
        is_struct ? synicboard_perform(scene->board, event) : perform_by_call(scene->board, event);
    if (way != CALLS && reply.notices > 0)
        synicboard_notices(scene->board, notices, SYNICBOARD_MOST_NOTICES);
    return reply;
}

/* Performs one event. `way` is a constant at each caller, so the choice costs nothing. */
static inline void perform(struct scene *scene, synicboard_event *event, enum way way, struct totals *totals)
{
    synicboard_reply reply = perform_by_way(scene, event, way);
    totals->replies += value_of(&reply);
    totals->notices += reply.notices;
    event->moment += scene->span;
}

/* Performs the first events of a round, in as few batches as the buffers allow. */
static void perform_batch(struct scene *scene, size_t count, struct totals *totals)
{
    enum { ROOM = 4 * SYNICBOARD_MOST_NOTICES };
    static synicboard_reply replies[MOST_EVENTS];
    static synicboard_notice notices[ROOM];
    for (size_t done = 0; done < count;) {
        synicboard_batch batch = synicboard_perform_all(
            scene->board, scene->round + done, count - done, replies, MOST_EVENTS, notices, ROOM);
        if (batch.done == 0)
            give_up("a batch performed nothing");
        for (size_t at = 0; at < batch.done; at++)
            totals->replies += value_of(&replies[at]);
        totals->notices += batch.emitted;
        done += batch.done;
    }
    for (size_t at = 0; at < count; at++)
        scene->round[at].moment += scene->span;
}

static void perform_batches(struct scene *scene, uint64_t events, struct totals *totals)
{
    for (uint64_t done = 0; done < events; done += scene->length)
        perform_batch(scene, events - done < scene->length ? (size_t)(events - done) : scene->length, totals);
}

static inline void perform_all(struct scene *scene, uint64_t events, enum way way, struct totals *totals)
{
    for (uint64_t done = 0; done < events; done += scene->length)
        for (size_t at = 0; at < scene->length && done + at < events; at++)
            perform(scene, &scene->round[at], way, totals);
}

static struct totals total(struct scene *scene, uint64_t events, enum way way)
{
    struct totals totals = { 0, 0 };
    switch (way) {
    case CALLS: perform_all(scene, events, CALLS, &totals); break;
    case NOTICES: perform_all(scene, events, NOTICES, &totals); break;
    case STRUCTS: perform_all(scene, events, STRUCTS, &totals); break;
    case BATCHES: perform_batches(scene, events, &totals); break;
    case SHARED: perform_all(scene, events, SHARED, &totals); break;
    }
    return totals;
}

static double nanoseconds(void)
{
    struct timespec now;
    if (clock_gettime(CLOCK_MONOTONIC, &now) != 0)
        give_up("there is no clock");
    return (double)now.tv_sec * 1e9 + (double)now.tv_nsec;
}

static void show(const char *name, struct scene *scene, uint64_t events, enum way way)
{
    double begun = nanoseconds();
    struct totals totals = total(scene, events, way);
    double ended = nanoseconds();
    printf("%s %" PRIu64 " events %" PRIu64 " notices ", name, events, totals.notices);
    printf("%" PRIu64 " replies\n", totals.replies);
    fprintf(stderr, "%s %" PRIu64 " events %.1f ns an event\n", name, events, (ended - begun) / (double)events);
}

static size_t number_of(const char *word, const char *const words[], size_t count)
{
    for (size_t at = 0; at < count; at++)
        if (strcmp(word, words[at]) == 0)
            return at;
    give_up("ways calls|notices|structs|batches|shared interrupts|messages|timers EVENTS");
}

int main(int count, char **words)
{
    static const char *const ways[] = { "calls", "notices", "structs", "batches", "shared" };
    static const char *const names[] = { "interrupts", "messages", "timers" };
    static void (*const set_up[])(struct scene *) = { interrupts, messages, timers };
    static struct scene scene;
    enum way way = (enum way)number_of(count == 4 ? words[1] : "", ways, 5);
    size_t name = number_of(words[2], names, 3);
    uint64_t events = strtoull(words[3], NULL, 10);
    if (events == 0)
        give_up("how many events?");
    scene.way = way;
    set_up[name](&scene);
    synicboard_release(&scene.shared);
    show(names[name], &scene, events, way);
    synicboard_close_shared(&scene.shared);
    synicboard_close(&scene.own);
    return 0;
}
