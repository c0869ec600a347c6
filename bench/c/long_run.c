/* Threads share a board for a long time: each raises vectors at any processor without the lock, and absorbs,
 * takes and ends those of its own processor under it.
 *
 *   long_run SECONDS [THREADS]
 *
 * Prints the calls on the shared board, the raises, and the resident memory after the first tenth of the time and
 * at its end. The status is 1 unless each raise that was fresh was absorbed once, and no memory was added.
 *
 *   cc -std=c11 -O2 -Iinclude -pthread -o long_run bench/c/long_run.c build/libsynicboard.a */
#define _POSIX_C_SOURCE 200809L
#include <inttypes.h>
#include <pthread.h>
#include <stdatomic.h>
#include <stdio.h>
#include <stdlib.h>
#include <time.h>
#include <unistd.h>

#include "synicboard.h"

/* The kernel counts up to 64 pages of a thread late. */
enum { MOST = 8, PARTS = 4, FIRST_VECTOR = 16, VECTORS = 240, COUNTED_LATE = 64 };

struct worker {
    uint8_t vp;
    synicboard_line line;
    uint64_t calls, raises, fresh, absorbed;
    pthread_t thread;
};

static synicboard_shared board = SYNICBOARD_SHARED_CLOSED;
static struct worker workers[MOST];
static unsigned threads = 4;
static atomic_bool is_over;

static void give_up(const char *why)
{
    fprintf(stderr, "long_run: %s\n", why);
    exit(2);
}

static uint64_t random_of(uint64_t *state)
{
    *state ^= *state << 13;
    *state ^= *state >> 7;
    *state ^= *state << 17;
    return *state;
}

static void absorb(struct worker *worker)
{
    for (uint8_t part = 0; part < PARTS; part++) {
        synicboard_reply swept = synicboard_act_absorb(&board, worker->vp, &worker->line, worker->vp, part, NULL, 0);
        worker->absorbed += (uint64_t)__builtin_popcountll(swept.value);
        worker->calls++;
    }
}

static void act(struct worker *worker, synicboard_event event)
{
    event.vp = worker->vp;
    synicboard_act(&board, worker->vp, &event, NULL, 0);
    worker->calls++;
}

static void *work(void *argument)
{
    struct worker *worker = argument;
    uint64_t random = 0x9e3779b97f4a7c15u + worker->vp;
    while (!atomic_load(&is_over)) {
        uint64_t drawn = random_of(&random);
        uint8_t vp = (uint8_t)(drawn % threads), vector = (uint8_t)(FIRST_VECTOR + (drawn >> 8) % VECTORS);
        worker->fresh += synicboard_raise(&worker->line, vp, vector) == SYNICBOARD_FRESH;
        worker->raises++;
        absorb(worker);
        act(worker, (synicboard_event){ .kind = SYNICBOARD_TAKE });
        act(worker, (synicboard_event){ .kind = SYNICBOARD_WRITE, .msr = SYNICBOARD_MSR_EOI });
    }
    return NULL;
}

/* The resident memory of the process, in pages. */
static long resident(void)
{
    long size = 0, pages = 0;
    FILE *file = fopen("/proc/self/statm", "r");
    if (file == NULL || fscanf(file, "%ld %ld", &size, &pages) != 2)
        give_up("/proc/self/statm");
    fclose(file);
    return pages;
}

static void pass(double seconds)
{
    struct timespec time = { .tv_sec = (time_t)seconds, .tv_nsec = (long)((seconds - (double)(time_t)seconds) * 1e9) };
    nanosleep(&time, NULL);
}

static void start(void)
{
    if (synicboard_open_shared(&board, MOST, 1, 0) != SYNICBOARD_OK || synicboard_open_line(&workers[0].line, MOST) != SYNICBOARD_OK)
        give_up("no memory");
    for (unsigned i = 1; i < threads; i++)
        if (synicboard_split_line(&workers[0].line, &workers[i].line) != SYNICBOARD_OK)
            give_up("no line");
    for (unsigned i = 0; i < threads; i++) {
        workers[i].vp = (uint8_t)i;
        if (pthread_create(&workers[i].thread, NULL, work, &workers[i]) != 0)
            give_up("no thread");
    }
}

int main(int count, char **words)
{
    double seconds = count > 1 ? atof(words[1]) : 0;
    threads = count > 2 ? (unsigned)atoi(words[2]) : threads;
    if (seconds <= 0 || threads == 0 || threads > MOST)
        give_up("long_run SECONDS [THREADS, 1 to 8]");
    start();
    pass(seconds / 10);
    long before = resident();
    pass(seconds * 9 / 10);
    long after = resident();
    atomic_store(&is_over, true);
    uint64_t calls = 0, raises = 0, fresh = 0, absorbed = 0;
    for (unsigned i = 0; i < threads; i++)
        pthread_join(workers[i].thread, NULL);
    for (unsigned i = 0; i < threads; i++) {
        absorb(&workers[i]);
        calls += workers[i].calls;
        raises += workers[i].raises;
        fresh += workers[i].fresh;
        absorbed += workers[i].absorbed;
        synicboard_close_line(&workers[i].line);
    }
    synicboard_close_shared(&board);
    printf("%" PRIu64 " calls, %" PRIu64 " raises, %" PRIu64 " fresh, %" PRIu64 " absorbed; %ld pages, then %ld\n", calls,
           raises, fresh, absorbed, before, after);
    return fresh == absorbed && after <= before + COUNTED_LATE ? 0 : 1;
}
