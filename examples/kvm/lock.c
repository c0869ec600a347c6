/* The lock, which is that of the shared board, and what is done after it is released: a system call takes longer
 * than all events of an exit, and every other processor would wait for it. */
#define _GNU_SOURCE
#include <limits.h>
#include <linux/futex.h>
#include <signal.h>
#include <sys/syscall.h>
#include <unistd.h>

#include "vmm.h"

synicboard *board;
static synicboard_shared shared = SYNICBOARD_SHARED_CLOSED;
static uint32_t interrupted, woken;     /* processors, a bit each, whose threads are to leave the guest, or to stop waiting */

void lock_share(synicboard *opened)
{
    if (synicboard_share(&shared, opened) != SYNICBOARD_OK)
        fail("synicboard_share");
    lock_acquire();
}

void lock_acquire(void)
{
    board = synicboard_hold(&shared);
}

void lock_interrupt(const struct vp *vp)
{
    interrupted |= 1u << vp->number;
}

void lock_wake(const struct vp *vp)
{
    woken |= 1u << vp->number;
}

/* A signal that comes late interrupts another KVM_RUN, which is entered again. A thread may have ended
 * meanwhile, so it is named by its number, which nothing frees. */
void lock_release(void)
{
    uint32_t signals = interrupted, wakes = woken;
    struct vectors vectors[MOST_VPS];
    bool has_vectors = vm.has_irqchip && irqchip_take(vectors);
    interrupted = woken = 0;
    synicboard_release(&shared);
    if (has_vectors)
        irqchip_inject(vectors);
    for (unsigned number = 0; number < vm.vps; number++) {
        if (signals >> number & 1)
            syscall(SYS_tgkill, getpid(), vm.vp[number].thread_id, SIGUSR1);
        if (wakes >> number & 1)
            lock_signal(&vm.vp[number].kicked);
    }
    clock_arm();
}

void lock_signal(struct condition *condition)
{
    atomic_fetch_add(&condition->signals, 1);
    if (condition->waiting != 0)
        syscall(SYS_futex, &condition->signals, FUTEX_WAKE_PRIVATE, INT_MAX, NULL, NULL, 0);
}

/* The caller has looked at what it waits for under the lock, and whoever changes that does so under the lock, and
 * signals afterwards. */
void lock_wait(struct condition *condition)
{
    unsigned seen = condition->signals;
    atomic_fetch_add(&condition->waiting, 1);
    lock_release();
    syscall(SYS_futex, &condition->signals, FUTEX_WAIT_PRIVATE, seen, NULL, NULL, 0);
    atomic_fetch_sub(&condition->waiting, 1);
    lock_acquire();
}
