/* Threads that share a board with a history. At the end, the program settles the history: its trace
 * is that of a legal history, whatever the schedule. Two processors have a thread each; a device
 * raises vectors at both, without the lock.
 *
 *   cc -I include examples/c/trace.c build/libsynicboard.a -pthread -o trace */
#include <inttypes.h>
#include <pthread.h>
#include <stdio.h>

#include "synicboard.h"

enum { PROCESSORS = 2, TURNS = 500, RAISES = 2000, PART = 1 };

static synicboard_shared board = SYNICBOARD_SHARED_CLOSED;
static synicboard_line device_line = SYNICBOARD_LINE_CLOSED;

/* A processor is the actor of its own number. Only its thread uses its line. */
struct processor {
    uint8_t vp;
    synicboard_line line;
    unsigned absorbed;
    pthread_t thread;
};

static void absorb(struct processor *processor)
{
    uint8_t vp = processor->vp;
    synicboard_reply reply = synicboard_act_absorb(&board, vp, &processor->line, vp, PART, NULL, 0);
    for (uint64_t bits = reply.value; bits != 0; bits &= bits - 1)
        processor->absorbed++;
}

static void perform(const struct processor *processor, synicboard_event event)
{
    event.vp = processor->vp;
    synicboard_act(&board, processor->vp, &event, NULL, 0);
}

static void *run_processor(void *argument)
{
    struct processor *processor = argument;
    for (int turn = 0; turn < TURNS; turn++) {
        absorb(processor);
        perform(processor, (synicboard_event){ .kind = SYNICBOARD_TAKE });
        perform(processor, (synicboard_event){ .kind = SYNICBOARD_WRITE, .msr = SYNICBOARD_MSR_EOI });
    }
    return NULL;
}

/* Returns how many vectors were fresh: their bit was clear before the raise. */
static unsigned run_device(void)
{
    unsigned fresh = 0;
    for (unsigned turn = 0; turn < RAISES; turn++) {
        uint8_t vector = 64 * PART + turn / PROCESSORS % 64;
        fresh += synicboard_raise(&device_line, turn % PROCESSORS, vector) == SYNICBOARD_FRESH;
    }
    return fresh;
}

static bool open_all(struct processor *processors)
{
    bool is_open = synicboard_open_recorded(&board, PROCESSORS, 1, 0) == SYNICBOARD_OK
        && synicboard_open_line(&device_line, PROCESSORS) == SYNICBOARD_OK;
    for (uint8_t vp = 0; is_open && vp < PROCESSORS; vp++) {
        processors[vp].vp = vp;
        is_open = synicboard_split_line(&device_line, &processors[vp].line) == SYNICBOARD_OK;
    }
    return is_open;
}

/* Given an output buffer, this also writes the trace. */
static void settle(void)
{
    synicboard_settled settled = synicboard_settle(&board, NULL, 0);
    if (settled.kind == SYNICBOARD_OK)
        printf("legal %" PRIu64 "\n", settled.entries);
    else
        printf("not settled: outcome %u\n", settled.kind);
}

int main(void)
{
    struct processor processors[PROCESSORS] = { 0 };
    unsigned absorbed = 0;
    if (!open_all(processors))
        return 1;
    for (int vp = 0; vp < PROCESSORS; vp++)
        if (pthread_create(&processors[vp].thread, NULL, run_processor, &processors[vp]) != 0)
            return 1;
    unsigned fresh = run_device();
    for (int vp = 0; vp < PROCESSORS; vp++)
        pthread_join(processors[vp].thread, NULL);
    for (int vp = 0; vp < PROCESSORS; vp++) {
        absorb(&processors[vp]);
        absorbed += processors[vp].absorbed;
        synicboard_close_line(&processors[vp].line);
    }
    settle();
    printf("%s\n", fresh == absorbed ? "each fresh vector was absorbed once" : "a vector was lost");
    synicboard_close_line(&device_line);
    synicboard_close_shared(&board);
    return 0;
}
