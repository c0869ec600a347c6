/* The devices of the flat guest. Raisers request vectors through lines, without the lock; the
 * messenger posts messages and signals event flags under it. The guest starts them by a port and
 * counts what arrives. */
#define _GNU_SOURCE
#include <errno.h>
#include <stdio.h>
#include <time.h>

#include "guest/mailbox.h"
#include "vmm.h"

enum { FIRST_MESSAGE_PORT = 0, FIRST_FLAG_PORT = 8, BUFFERS = 16, MESSAGE_TYPE = 1 };

struct raiser {
    unsigned number;
    synicboard_line line;
};

static struct mailbox *mailbox;
static struct raiser raisers[RAISERS];
static pthread_t threads[RAISERS + 1];
static atomic_bool is_stopped;
static uint64_t sent;           /* steps that the messenger has made */

static void wait_a_little(void)
{
    nanosleep(&(struct timespec){ .tv_nsec = 20000 }, NULL);
}

/* ---- Raisers ---- */

/* Raises a vector if its last raise was handled and it is to be raised again. */
static bool raise_next(struct raiser *raiser, unsigned vp, unsigned index)
{
    uint32_t raised = mailbox->raised[vp][index];
    if (raised == mailbox->raises || mailbox->handled[vp][index] != raised)
        return false;
    mailbox->raised[vp][index] = raised + 1;
    board_raise(&raiser->line, &vm.vp[vp], (uint8_t)(FIRST_LOAD_VECTOR + index));
    return true;
}

static bool is_done(const struct raiser *raiser)
{
    bool is_done = true;
    for (unsigned vp = 0; vp < LOAD_VPS; vp++)
        for (unsigned at = 0; at < RAISER_VECTORS; at++)
            is_done = is_done && mailbox->raised[vp][raiser->number * RAISER_VECTORS + at] == mailbox->raises;
    return is_done;
}

static void *run_raiser(void *argument)
{
    struct raiser *raiser = argument;
    while (!is_stopped && !is_done(raiser)) {
        bool has_raised = false;
        for (unsigned vp = 0; vp < LOAD_VPS; vp++)
            for (unsigned at = 0; at < RAISER_VECTORS; at++)
                has_raised |= raise_next(raiser, vp, raiser->number * RAISER_VECTORS + at);
        if (!has_raised)
            wait_a_little();
    }
    return NULL;
}

/* ---- The messenger ---- */

static void open_ports(void)
{
    for (uint8_t vp = 0; vp < LOAD_VPS; vp++) {
        board_open_message_port(FIRST_MESSAGE_PORT + vp, vp, MESSAGE_SINT, BUFFERS);
        board_open_event_port(FIRST_FLAG_PORT + vp, vp, FLAG_SINT, 0, FLAGS * MOST_FLAG_STRIDE);
    }
}

/* "Insufficient buffers" is no error: the host posts again when a message has been placed. Returns whether a
 * buffer was free. */
static bool post(uint8_t vp, uint64_t number)
{
    struct letter letter = { number, ~number };
    synicboard_reply reply = board_post(FIRST_MESSAGE_PORT + vp, MESSAGE_TYPE, &letter, sizeof letter);
    if (reply.refusal == SYNICBOARD_NO_BUFFERS) {
        mailbox->refused++;
        return false;
    }
    if (reply.kind != SYNICBOARD_ACCEPTED)
        fprintf(stderr, "vmm: a message to processor %u is refused: %u\n", vp, reply.refusal);
    return true;
}

/* The guest clears a flag before it looks at the counter, so a signal that finds the flag set
 * needs no interrupt. */
static void signal_flag(uint8_t vp, unsigned flag)
{
    mailbox->signalled[vp][flag]++;
    board_signal(FIRST_FLAG_PORT + vp, (uint16_t)(flag * mailbox->flag_stride));
}

/* The steps are, for each number, a message and a signal to each processor. Returns whether this one was made. */
static bool make_step(uint64_t step)
{
    uint32_t number = (uint32_t)(step / 2 / LOAD_VPS);
    uint8_t vp = step / 2 % LOAD_VPS;
    if (step % 2 == 0)
        return number >= mailbox->messages || post(vp, number + 1);
    if (number < mailbox->signals)
        signal_flag(vp, number % FLAGS);
    return true;
}

static void *run_messenger(void *unused)
{
    uint64_t most = mailbox->messages > mailbox->signals ? mailbox->messages : mailbox->signals;
    (void)unused;
    lock_acquire();
    while (!is_stopped && sent < 2 * LOAD_VPS * most) {
        if (!make_step(sent)) {
            board_wait_for_buffer();
            continue;
        }
        sent++;
        lock_release();
        lock_acquire();
    }
    lock_release();
    return NULL;
}

/* ---- Starting, stopping, continuing ---- */

static void start(pthread_t *thread, void *(*run)(void *), void *argument)
{
    if ((errno = pthread_create(thread, NULL, run, argument)) != 0)
        fail("the thread of a device");
}

void load_start(uint64_t address)
{
    if (mailbox != NULL || vm.vps < LOAD_VPS)
        return;
    if ((mailbox = (struct mailbox *)vm_memory(address, sizeof *mailbox)) == NULL)
        return;
    mailbox->flag_stride = vm.pages_trap ? MOST_FLAG_STRIDE : 1;
    open_ports();
    load_continue();
}

void load_continue(void)
{
    if (mailbox == NULL)
        return;
    for (unsigned number = 0; number < RAISERS; number++) {
        raisers[number].number = number;
        board_split_line(&raisers[number].line);
        start(&threads[number], run_raiser, &raisers[number]);
    }
    start(&threads[RAISERS], run_messenger, NULL);
}

void load_stop(void)
{
    lock_acquire();
    is_stopped = true;
    board_end_waiting();
    lock_release();
    for (unsigned number = 0; mailbox != NULL && number <= RAISERS; number++)
        pthread_join(threads[number], NULL);
}

/* How far the raisers are is in the mailbox. */
void load_transfer(void)
{
    uint64_t address = mailbox != NULL ? (uint64_t)((uint8_t *)mailbox - vm.ram) : UINT64_MAX;
    saved_transfer(&address, sizeof address);
    saved_transfer(&sent, sizeof sent);
    mailbox = (struct mailbox *)vm_memory(address, sizeof *mailbox);
}
