/* The protocol of a message slot that a guest uses without an exit, on two processors of this machine: a host that
 * has a message for an occupied slot, and a guest that empties the slot at the same time. The guest clears the type,
 * has a barrier, and looks at MessagePending; the host sets MessagePending by an atomic or, whose old value is its
 * second look at the type. A round is stuck if the slot is empty at its end, and neither knows of the message: the
 * guest has seen no MessagePending, and the host no empty slot. Then it would never be delivered.
 *
 *   slot ROUNDS
 *
 * prints, for both precautions, for a guest without its barrier and for a host whose mark is a store, how many of that
 * many rounds were stuck. */
#define _GNU_SOURCE
#include <errno.h>
#include <pthread.h>
#include <sched.h>
#include <stdatomic.h>
#include <stdbool.h>
#include <stdint.h>
#include <stdio.h>
#include <stdlib.h>

enum { LINE = 64, FLAGS = 5, PENDING = 1 };

/* The header of a slot: the type in its first four bytes, MessagePending in bit 0 of the sixth. */
union header {
    uint64_t word;
    uint32_t type;
    uint8_t bytes[8];
};

/* The slot, and what each side found there, in lines of their own. */
static struct {
    _Alignas(LINE) volatile union header header;
    _Alignas(LINE) bool guest_saw_pending;
    _Alignas(LINE) bool host_saw_empty;
    _Alignas(LINE) atomic_ulong arrived;
} slot;

static bool has_barrier, has_second_look;
static unsigned long rounds;

/* Waits until both sides are here, for the nth time. A side that waits long lets the other run. */
static void meet(unsigned long times)
{
    atomic_fetch_add(&slot.arrived, 1);
    for (unsigned spins = 0; atomic_load(&slot.arrived) < 2 * times; spins++)
        if (spins % 4096 == 4095)
            sched_yield();
}

static void empty_slot(void)
{
    slot.header.type = 0;
    if (has_barrier)
        atomic_thread_fence(memory_order_seq_cst);
    slot.guest_saw_pending = (slot.header.bytes[FLAGS] & PENDING) != 0;
}

static void mark_slot(void)
{
    if (has_second_look) {
        uint64_t found = __atomic_fetch_or(&slot.header.word, (uint64_t)PENDING << 8 * FLAGS, __ATOMIC_SEQ_CST);
        slot.host_saw_empty = (uint32_t)found == 0;
        return;
    }
    slot.host_saw_empty = slot.header.type == 0;
    if (!slot.host_saw_empty)
        slot.header.bytes[FLAGS] |= PENDING;
}

static void *run_guest(void *unused)
{
    (void)unused;
    for (unsigned long round = 0; round < rounds; round++) {
        meet(2 * round + 1);
        empty_slot();
        meet(2 * round + 2);
    }
    return NULL;
}

/* Runs the rounds in this thread as the host, and returns how many were stuck. */
static unsigned long run_host(void)
{
    unsigned long stuck = 0;
    for (unsigned long round = 0; round < rounds; round++) {
        slot.header.word = 1;
        meet(2 * round + 1);
        mark_slot();
        meet(2 * round + 2);
        stuck += !slot.guest_saw_pending && !slot.host_saw_empty;
    }
    return stuck;
}

static unsigned long count_stuck(bool barrier, bool second_look)
{
    pthread_t guest;
    has_barrier = barrier;
    has_second_look = second_look;
    atomic_store(&slot.arrived, 0);
    if ((errno = pthread_create(&guest, NULL, run_guest, NULL)) != 0) {
        perror("slot: the thread of the guest");
        exit(2);
    }
    unsigned long stuck = run_host();
    pthread_join(guest, NULL);
    return stuck;
}

int main(int count, char **words)
{
    char *end = NULL;
    if (count == 2)
        rounds = strtoul(words[1], &end, 10);
    if (end == NULL || *end != '\0' || rounds == 0) {
        fputs("usage: slot ROUNDS\n", stderr);
        return 2;
    }
    printf("both precautions: %lu of %lu rounds stuck\n", count_stuck(true, true), rounds);
    printf("a guest without its barrier: %lu of %lu rounds stuck\n", count_stuck(false, true), rounds);
    printf("a host whose mark is a store: %lu of %lu rounds stuck\n", count_stuck(true, false), rounds);
    return 0;
}
