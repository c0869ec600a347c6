/* VMBus (vmbus/): what it needs of the hypervisor, and a thread for each service, so that requests come at times that
 * have nothing to do with each other. */
#define _GNU_SOURCE
#include <errno.h>
#include <time.h>

#include "vmm.h"

struct vmbus *bus;

static uint8_t *find_page(void *unused, uint64_t number, bool is_stored)
{
    (void)unused;
    (void)is_stored;
    return number < vm.ram_size / PAGE ? vm.ram + number * PAGE : NULL;
}

static synicboard_reply perform(void *unused, const synicboard_event *event)
{
    (void)unused;
    return board_act(event);
}

static uint64_t time_of(void *unused)
{
    (void)unused;
    return clock_now();
}

static uint64_t date_of(void *unused)
{
    struct timespec now;
    (void)unused;
    clock_gettime(CLOCK_REALTIME, &now);
    return (uint64_t)now.tv_sec * 10000000 + (uint64_t)now.tv_nsec / 100;
}

static void kick(void *unused, unsigned vp)
{
    (void)unused;
    vp_kick(&vm.vp[vp]);
}

static void write_log(void *unused, const char *line)
{
    (void)unused;
    vm_log("%s", line);
}

void bus_open(void)
{
    static const struct vmbus_host host = {
        .page = find_page, .perform = perform, .time = time_of, .date = date_of, .kick = kick, .log = write_log,
    };
    struct vmbus_options options = vm.vmbus.options;
    options.vps = vm.vps;
    options.signals_in_turn = vm.pages_trap && !vm.vmbus.signals_from_threads;
    if ((bus = vmbus_open(&host, NULL, &options)) == NULL)
        fail("VMBus");
}

/* Called by the processor's own thread, which enters the guest next, or returns from it at once if a ring has more. */
void bus_deliver(struct vp *vp)
{
    if (vmbus_deliver(bus, vp->number))
        vp->run->immediate_exit = 1;
}

void bus_transfer(void)
{
    size_t length;
    void *state = vmbus_state(bus, &length);
    saved_transfer(state, length);
    if (!vmbus_is_sound(bus))
        saved_refuse("the saved guest has no state of VMBus");
}

/* ---- The threads ---- */

static void *run_service(void *argument)
{
    enum vmbus_service number = (enum vmbus_service)(uintptr_t)argument;
    uint64_t every = vm.vmbus.every[number];
    struct timespec period = { .tv_sec = (time_t)(every / 1000000), .tv_nsec = (long)(every % 1000000 * 1000) };
    lock_acquire();
    while (!vm.is_stopping) {
        vmbus_tick(bus, number);
        lock_release();
        nanosleep(&period, NULL);
        lock_acquire();
    }
    lock_release();
    return NULL;
}

void bus_start(void)
{
    for (uintptr_t number = 0; vm.vmbus.is_on && number < CHANNELS; number++) {
        pthread_t thread;
        if ((errno = pthread_create(&thread, NULL, run_service, (void *)number)) != 0)
            fail("the thread of a service");
        pthread_detach(thread);
    }
}
