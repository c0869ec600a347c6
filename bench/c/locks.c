/* One lock for a board of 64 processors with live pages, and a lock for each processor: threads assert, take and end an
 * interrupt of their own processor by synicboard_step, with some work of the guest's between. A board of one processor
 * for each thread is the best that a split lock could reach, since it shares nothing.
 *
 *   cc -O2 -Iinclude bench/c/locks.c build/libsynicboard.a -pthread -o locks
 *   ./locks [MILLISECONDS]
 *
 * Prints, for each number of threads and each amount of work in ns, the events of all threads in a microsecond. */
#include <pthread.h>
#include <stdatomic.h>
#include <stdbool.h>
#include <stdio.h>
#include <stdlib.h>
#include <time.h>

#include "synicboard.h"

enum { MOST = 64, VECTOR = 0x60 };

struct place {
    synicboard board;
    pthread_mutex_t lock;
};

static struct place places[MOST];
static unsigned work_of_guest;
static bool is_split;
static atomic_bool is_stopped;
static atomic_ulong events;

static uint64_t now(void)
{
    struct timespec time;
    clock_gettime(CLOCK_MONOTONIC, &time);
    return (uint64_t)time.tv_sec * 1000000000 + (uint64_t)time.tv_nsec;
}

static void step(struct place *place, uint8_t kind, uint8_t vp)
{
    const synicboard_event event = { .kind = kind, .vp = vp, .vector = VECTOR, .msr = SYNICBOARD_MSR_EOI };
    synicboard_notice notices[4];
    pthread_mutex_lock(&place->lock);
    synicboard_step(&place->board, 0, &event, 0, notices, 4);
    pthread_mutex_unlock(&place->lock);
}

static void *run(void *number)
{
    unsigned at = (unsigned)(uintptr_t)number;
    struct place *place = &places[is_split ? at : 0];
    uint8_t vp = is_split ? 0 : (uint8_t)at;
    unsigned long count = 0;
    for (; !atomic_load_explicit(&is_stopped, memory_order_relaxed); count += 3) {
        step(place, SYNICBOARD_ASSERT, vp);
        step(place, SYNICBOARD_TAKE, vp);
        step(place, SYNICBOARD_WRITE, vp);
        if (work_of_guest != 0)
            for (uint64_t end = now() + work_of_guest; now() < end;)
                ;
    }
    atomic_fetch_add(&events, count);
    return NULL;
}

static double measured(unsigned threads, unsigned milliseconds)
{
    pthread_t ids[MOST];
    atomic_store(&is_stopped, false);
    atomic_store(&events, 0);
    uint64_t begin = now();
    for (uintptr_t at = 0; at < threads; at++)
        pthread_create(&ids[at], NULL, run, (void *)at);
    nanosleep(&(struct timespec){ .tv_sec = milliseconds / 1000, .tv_nsec = milliseconds % 1000 * 1000000L }, NULL);
    atomic_store(&is_stopped, true);
    for (unsigned at = 0; at < threads; at++)
        pthread_join(ids[at], NULL);
    return (double)atomic_load(&events) / ((double)(now() - begin) / 1000);
}

static void open_all(void)
{
    static uint8_t *pages[2 * MOST];
    for (unsigned at = 0; at < MOST; at++) {
        synicboard_open_sparse(&places[at].board, is_split ? 1 : MOST, 0);
        pthread_mutex_init(&places[at].lock, NULL);
        if (synicboard_make_live(&places[at].board, pages) != SYNICBOARD_OK)
            exit(1);
    }
}

static void close_all(void)
{
    for (unsigned at = 0; at < MOST; at++)
        synicboard_close(&places[at].board);
}

int main(int count, char **words)
{
    static const unsigned numbers[] = { 1, 4, 16, 32, 64 }, works[] = { 0, 2000, 20000 };
    unsigned milliseconds = count > 1 ? (unsigned)strtoul(words[1], NULL, 10) : 1000;
    printf("threads work one split\n");
    for (size_t row = 0; row < sizeof numbers / sizeof *numbers; row++)
        for (size_t column = 0; column < sizeof works / sizeof *works; column++) {
            double rates[2];
            work_of_guest = works[column];
            for (int split = 0; split < 2; split++) {
                is_split = split != 0;
                open_all();
                rates[split] = measured(numbers[row], milliseconds);
                close_all();
            }
            printf("%u %u %.2f %.2f\n", numbers[row], works[column], rates[0], rates[1]);
        }
    return 0;
}
