/* A toy hypervisor: two processors with a thread each, and two devices, on one board under a lock.
 * One device posts messages; the other raises a vector without the lock. The loops are those of
 * docs/EMBEDDING.md. The clock moves only when neither processor has work, so the output does not
 * depend on the schedule.
 *
 *   cc -I include examples/c/loop.c build/libsynicboard.a -pthread -o loop */
#include <pthread.h>
#include <stdatomic.h>
#include <stdio.h>
#include <stdlib.h>

#include "synicboard.h"

enum { PROCESSORS = 2, MESSAGES = 200, WORK = 500, PORT = 3, SOURCE = 2, END = 3000 };
enum { TIMER_VECTOR = 0x40, MESSAGE_VECTOR = 0x50, WORK_VECTOR = 0x60, SLOT = 0x2000 + 256 * SOURCE };
enum { PERIODIC_DIRECT = 0x1003 };

/* A board takes one call at a time, so each caller holds this lock. It also protects the other
 * variables here. */
static pthread_mutex_t lock = PTHREAD_MUTEX_INITIALIZER;
static pthread_cond_t kicked[PROCESSORS] = { PTHREAD_COND_INITIALIZER, PTHREAD_COND_INITIALIZER };
static pthread_cond_t placed = PTHREAD_COND_INITIALIZER;
static synicboard board = SYNICBOARD_CLOSED;
static const uint8_t *message_page; /* the message page of processor 1 */
static unsigned handled, in_order, sum, work_seen, timer_interrupts[PROCESSORS];
static bool runs_guest[PROCESSORS];

/* Used without the lock: one line for each thread that raises or absorbs, and the work counter of
 * the second device. */
static synicboard_line lines[PROCESSORS], device_line = SYNICBOARD_LINE_CLOSED;
static atomic_uint work_done;

/* Handles the reply of an event. For each requested vector, kicks the processor; after a placed
 * message, a buffer is free again. This guest causes no #GP and no refusal. */
static void answer(synicboard_reply reply)
{
    synicboard_notice notices[SYNICBOARD_MOST_NOTICES];
    size_t count = synicboard_notices(&board, notices, SYNICBOARD_MOST_NOTICES);
    if (reply.kind != SYNICBOARD_DONE && reply.kind != SYNICBOARD_ACCEPTED)
        exit(1);
    for (size_t at = 0; at < count; at++) {
        if (notices[at].kind == SYNICBOARD_NOTICE_REQUESTED)
            pthread_cond_signal(&kicked[notices[at].vp]);
        if (notices[at].kind == SYNICBOARD_NOTICE_PLACED)
            pthread_cond_signal(&placed);
    }
}

/* A guest exits because it writes a register. */
static void write_register(uint8_t vp, uint32_t msr, uint64_t value)
{
    pthread_mutex_lock(&lock);
    answer(synicboard_write(&board, vp, msr, value));
    pthread_mutex_unlock(&lock);
}

/* The guest reads its slot, empties it by a store at the page that SIMP gives, and writes EOM. A
 * post may set MessagePending in the page at any time, so the read holds the lock too. */
static void handle_message(uint8_t vp)
{
    static const uint8_t empty[4];
    pthread_mutex_lock(&lock);
    unsigned payload = message_page[256 * SOURCE + 16];
    handled++;
    in_order += payload == handled;
    sum += payload;
    answer(synicboard_store(&board, SLOT, empty, sizeof empty));
    pthread_mutex_unlock(&lock);
    write_register(vp, SYNICBOARD_MSR_EOM, 0);
}

/* The host's timer fires when no guest has work: ticks to the earliest deadline. */
static bool tick(void)
{
    bool is_idle = true;
    for (uint8_t vp = 0; vp < PROCESSORS; vp++)
        is_idle = is_idle && !runs_guest[vp] && synicboard_next(&board, vp) == 0;
    uint64_t due = synicboard_earliest(&board).low;
    if (is_idle && due <= END)
        answer(synicboard_tick(&board, due));
    return is_idle && due <= END;
}

/* Absorbs the raised vectors of a processor, and returns whether it has work now or later. */
static bool goes_on(uint8_t vp)
{
    answer(synicboard_absorb_line(&board, &lines[vp], vp, WORK_VECTOR / 64));
    return synicboard_next(&board, vp) != 0 || handled < MESSAGES || work_seen < WORK || synicboard_earliest(&board).low <= END;
}

/* Before each entry, takes the next vector. Without one, the processor waits for a kick. */
static void *run_processor(void *number)
{
    uint8_t vp = *(const uint8_t *)number;
    pthread_mutex_lock(&lock);
    while (goes_on(vp)) {
        if (synicboard_next(&board, vp) != 0) {
            uint8_t vector = synicboard_take(&board, vp).vector;
            timer_interrupts[vp] += vector == TIMER_VECTOR;
            if (vector == WORK_VECTOR)
                work_seen = atomic_load(&work_done);
            runs_guest[vp] = true;
            pthread_mutex_unlock(&lock);
            if (vector == MESSAGE_VECTOR)
                handle_message(vp);
            write_register(vp, SYNICBOARD_MSR_EOI, 0);
            pthread_mutex_lock(&lock);
            runs_guest[vp] = false;
        } else if (!tick()) {
            pthread_cond_wait(&kicked[vp], &lock);
        }
    }
    pthread_cond_signal(&kicked[1 - vp]); /* so that the other one sees the end */
    pthread_mutex_unlock(&lock);
    return NULL;
}

/* After each piece of work, the second device raises its vector at processor 0, without blocking.
 * If the vector was already raised, it is on its way; if not, the device kicks the processor. The
 * kick takes the lock because the processor absorbs and goes to sleep in one critical section. */
static void *run_second_device(void *unused)
{
    (void)unused;
    for (unsigned piece = 1; piece <= WORK; piece++) {
        atomic_store(&work_done, piece);
        if (synicboard_raise(&device_line, 0, WORK_VECTOR) == SYNICBOARD_FRESH) {
            pthread_mutex_lock(&lock);
            pthread_cond_signal(&kicked[0]);
            pthread_mutex_unlock(&lock);
        }
    }
    return NULL;
}

/* The first device posts. If no buffer is free, it waits until a message is placed, and posts
 * again. */
static void run_first_device(void)
{
    for (uint8_t number = 1; number <= MESSAGES; number++) {
        synicboard_reply reply;
        pthread_mutex_lock(&lock);
        while ((reply = synicboard_post(&board, PORT, 1, &number, 1)).refusal == SYNICBOARD_NO_BUFFERS)
            pthread_cond_wait(&placed, &lock);
        answer(reply);
        pthread_mutex_unlock(&lock);
    }
}

/* Maps the message page of processor 1 at page 2, and starts a periodic timer in direct mode on
 * each processor. */
static void set_up(void)
{
    write_register(1, SYNICBOARD_MSR_SCONTROL, 1);
    write_register(1, SYNICBOARD_MSR_SIMP, 0x2001);
    write_register(1, SYNICBOARD_MSR_SINT0 + SOURCE, MESSAGE_VECTOR);
    answer(synicboard_open_message_port(&board, PORT, 1, SOURCE, 4));
    for (uint8_t vp = 0; vp < PROCESSORS; vp++) {
        write_register(vp, SYNICBOARD_MSR_STIMER0_COUNT, 100 + 50 * vp);
        write_register(vp, SYNICBOARD_MSR_STIMER0_CONFIG, PERIODIC_DIRECT | TIMER_VECTOR << 4);
    }
}

/* Opens one line for each processor thread and one for the device, all of the same words. */
static bool open_lines(void)
{
    return synicboard_open_line(&lines[0], PROCESSORS) == SYNICBOARD_OK
        && synicboard_split_line(&lines[0], &lines[1]) == SYNICBOARD_OK
        && synicboard_split_line(&lines[0], &device_line) == SYNICBOARD_OK;
}

static void close_all(void)
{
    synicboard_close_line(&device_line);
    for (int vp = 0; vp < PROCESSORS; vp++)
        synicboard_close_line(&lines[vp]);
    synicboard_close(&board);
}

int main(void)
{
    static const uint8_t numbers[PROCESSORS] = { 0, 1 };
    pthread_t threads[PROCESSORS], device;
    if (synicboard_open(&board, PROCESSORS, 4, 0) != SYNICBOARD_OK || !open_lines())
        return 1;
    if (!synicboard_message_page(&board, 1, &message_page))
        return 1;
    set_up();
    for (uint8_t vp = 0; vp < PROCESSORS; vp++)
        if (pthread_create(&threads[vp], NULL, run_processor, (void *)&numbers[vp]) != 0)
            return 1;
    if (pthread_create(&device, NULL, run_second_device, NULL) != 0)
        return 1;
    run_first_device();
    pthread_join(device, NULL);
    for (uint8_t vp = 0; vp < PROCESSORS; vp++) {
        pthread_join(threads[vp], NULL);
        printf("processor %u: %u timer interrupts\n", vp, timer_interrupts[vp]);
    }
    printf("%u messages, %u of them in order, with a sum of %u\n", handled, in_order, sum);
    printf("%u pieces of work, of which processor 0 saw %u\n", WORK, work_seen);
    close_all();
    return 0;
}
