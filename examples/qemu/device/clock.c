/* Time is the virtual clock: the TSC, the reference TSC page, the board's time and a saved machine agree, with -icount
 * and without, and a replay repeats it. One QEMUTimer is armed for the board's alarm. */
#include "internal.h"
#include "qemu/timer.h"
#include "synic.h"

static QEMUTimer *timer;
static synicboard_tsc_page reference;

static uint64_t tsc(void)
{
    return qemu_clock_get_ns(QEMU_CLOCK_VIRTUAL);
}

uint64_t synic_now(void)
{
    return synicboard_tsc_time(reference, tsc());
}

uint64_t synic_date(void)
{
    return qemu_clock_get_ns(QEMU_CLOCK_HOST) / 100;
}

bool synic_tsc(uint64_t *value)
{
    if (synic.is_open)
        *value = tsc();
    return synic.is_open;
}

void synic_fill_tsc_page(struct partition_tsc_page *page)
{
    *page = (struct partition_tsc_page){ .sequence = 1, .page = reference };
}

static void fire(void *opaque)
{
    synic_tick();
}

void synic_open_timer(void)
{
    reference = synicboard_tsc_page_at(SYNIC_TSC_HZ, 0, 0);
    timer = timer_new_ns(QEMU_CLOCK_VIRTUAL, fire, NULL);
}

/* The TSC is in nanoseconds. */
void synic_arm(uint64_t time)
{
    uint64_t at = time == SYNIC_NEVER ? SYNIC_NEVER : synicboard_tsc_until(reference, time);
    if (at > INT64_MAX)
        timer_del(timer);
    else
        timer_mod(timer, at);
}

/* RDMSR and WRMSR run without QEMU's lock, and what they ask of QEMU's devices needs it. */
bool synic_take_bql(void)
{
    bool is_taken = !bql_locked();
    if (is_taken)
        bql_lock();
    return is_taken;
}

void synic_release_bql(bool is_taken)
{
    if (is_taken)
        bql_unlock();
}
