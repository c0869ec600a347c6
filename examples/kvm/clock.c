/* The time of the board, and the host's timer for its earliest deadline. */
#include <errno.h>
#include <sys/ioctl.h>
#include <sys/timerfd.h>
#include <unistd.h>
#include <x86intrin.h>

#include "vmm.h"

static synicboard_tsc_page reference;
static uint32_t sequence = 1;   /* of that page */
static uint64_t tsc_offset;     /* the guest's TSC minus that of the host */
static uint64_t stopped_tsc, stopped_time;      /* of the guest, when it was stopped to be saved */
static int timer = -1;
static pthread_mutex_t arming = PTHREAD_MUTEX_INITIALIZER;
static _Atomic uint64_t wanted = UINT64_MAX, armed;     /* 0 if the timer is to be set again */

static uint64_t guest_tsc(void)
{
    return __rdtsc() + tsc_offset;
}

/* The board's time and what a guest computes from the page are the same. */
uint64_t clock_now(void)
{
    return synicboard_tsc_time(reference, guest_tsc());
}

void clock_fill_page(void *page)
{
    struct { uint32_t sequence, reserved; synicboard_tsc_page page; } *filled = page;
    filled->page = reference;
    filled->sequence = sequence;
}

/* ---- While the guest is saved, its time stops ---- */

void clock_stop(void)
{
    stopped_tsc = guest_tsc();
    stopped_time = synicboard_tsc_time(reference, stopped_tsc);
}

/* If KVM supports it, the guest's TSC continues at the saved one. Otherwise the TSC remains the host's, and
 * TscOffset changes. */
void clock_continue(void)
{
    uint64_t tsc = __rdtsc();
    tsc_offset = state_set_tsc_offset(&vm.vp[0], stopped_tsc - tsc);
    reference = synicboard_tsc_page_moved(reference, tsc + tsc_offset, stopped_time);
    sequence++;
}

uint64_t clock_stopped(void)
{
    return stopped_time;
}

uint64_t clock_tsc_offset(void)
{
    return tsc_offset;
}

void clock_transfer(void)
{
    uint64_t hz = vm.tsc_hz;
    saved_transfer(&hz, sizeof hz);
    if (hz != vm.tsc_hz)
        saved_refuse("saved where the TSC has another frequency");
    saved_transfer(&stopped_tsc, sizeof stopped_tsc);
    saved_transfer(&stopped_time, sizeof stopped_time);
    saved_transfer(&sequence, sizeof sequence);
}

/* ---- The host's timer ---- */

/* Another thread may have moved the deadline, so the timer's thread only looks: the board says
 * what is due. */
static void *run_timer(void *unused)
{
    uint64_t expirations;
    (void)unused;
    while (read(timer, &expirations, sizeof expirations) == sizeof expirations) {
        pthread_mutex_lock(&arming);
        armed = 0;
        pthread_mutex_unlock(&arming);
        lock_acquire();
        board_advance();
        irqchip_wake();
        lock_release();
    }
    return NULL;
}

void clock_open(void)
{
    pthread_t thread;
    int khz = ioctl(vm.vp[0].fd, KVM_GET_TSC_KHZ, 0);
    if (khz <= 0)
        fail("KVM_GET_TSC_KHZ");
    vm.tsc_hz = (uint64_t)khz * 1000;
    reference = synicboard_tsc_page_at(vm.tsc_hz, __rdtsc(), 0);
    if (reference.scale == 0) {
        errno = ENOTSUP;
        fail("a TSC of at most 10 MHz");
    }
    if ((timer = timerfd_create(CLOCK_MONOTONIC, TFD_CLOEXEC)) < 0)
        fail("timerfd_create");
    if ((errno = pthread_create(&thread, NULL, run_timer, NULL)) != 0)
        fail("the thread of the timer");
}

void clock_want(uint64_t time)
{
    wanted = time;
}

static void set_timer(uint64_t time)
{
    struct itimerspec setting = { 0 };
    if (time != UINT64_MAX || vm.misses_wakes) {
        uint64_t now = clock_now(), left = time > now ? time - now : 0;
        if (vm.misses_wakes && left > IRQCHIP_WAKE)
            left = IRQCHIP_WAKE;
        setting.it_value.tv_sec = left / 10000000;
        setting.it_value.tv_nsec = left % 10000000 * 100 + 1;   /* zero would disarm it */
    }
    if (timerfd_settime(timer, 0, &setting, NULL) != 0)
        fail("timerfd_settime");
}

/* Whoever is last sets what was wanted last, in whatever order threads come here. */
void clock_arm(void)
{
    if (wanted == armed)
        return;
    pthread_mutex_lock(&arming);
    uint64_t time = wanted;
    if (time != armed) {
        set_timer(time);
        armed = time;
    }
    pthread_mutex_unlock(&arming);
}
