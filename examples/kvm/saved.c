/* A guest in a file: the program writes it when it has stopped the guest, and another run of the program reads
 * it and continues the guest. The state of each source file is transferred by one function, in both directions,
 * so what is written and what is read cannot differ. */
#define _GNU_SOURCE
#include <errno.h>
#include <limits.h>
#include <stdio.h>
#include <stdlib.h>
#include <string.h>
#include <time.h>

#include "vmm.h"

#define FIRST_SUM 0xcbf29ce484222325
#define SUM_FACTOR 0x100000001b3

static const char magic[16] = "saved guest 4";
static const char *path;
static FILE *file;
static bool is_reading;
static uint64_t sum;            /* FNV-1a of all bytes so far */

void saved_refuse(const char *why)
{
    fprintf(stderr, "vmm: %s: %s\n", path, why);
    exit(1);
}

static void add_to_sum(const uint8_t *bytes, size_t length)
{
    for (size_t at = 0; at < length; at++)
        sum = (sum ^ bytes[at]) * SUM_FACTOR;
}

void saved_transfer(void *bytes, size_t length)
{
    if (is_reading && fread(bytes, 1, length, file) != length)
        saved_refuse("the end of the saved guest is missing");
    if (!is_reading && fwrite(bytes, 1, length, file) != length)
        fail(path);
    add_to_sum(bytes, length);
}

static void open_file(const char *name, bool reads)
{
    path = name;
    is_reading = reads;
    sum = FIRST_SUM;
    if ((file = fopen(path, reads ? "rb" : "wb")) == NULL)
        fail(path);
}

/* ---- The parts of the file ---- */

/* What the partition is opened with. */
static void transfer_header(void)
{
    char word[sizeof magic];
    memcpy(word, magic, sizeof magic);
    saved_transfer(word, sizeof word);
    if (memcmp(word, magic, sizeof magic) != 0)
        saved_refuse("no saved guest is in this file");
    saved_transfer(&vm.vps, sizeof vm.vps);
    saved_transfer(&vm.ram_size, sizeof vm.ram_size);
    saved_transfer(&vm.load, sizeof vm.load);
    saved_transfer(&vm.vmbus, sizeof vm.vmbus);
    uint8_t traps = vm.pages_trap;
    saved_transfer(&traps, sizeof traps);
    vm.pages_trap = traps != 0;
    uint8_t has_irqchip = vm.has_irqchip;
    saved_transfer(&has_irqchip, sizeof has_irqchip);
    vm.has_irqchip = has_irqchip != 0;
    if (vm.trace != NULL && !vm.pages_trap)
        saved_refuse("its pages do not trap, so there is no trace");
    if (!vm_has_valid_size())
        saved_refuse("no guest has so many processors, or so much memory");
}

static bool is_zero(uint64_t page)
{
    static const uint8_t zeros[PAGE];
    return memcmp(vm.ram + page * PAGE, zeros, PAGE) == 0;
}

/* Each page that is not all zeros, after its number. A number that no page has is the end. */
static void transfer_memory(void)
{
    uint64_t pages = vm.ram_size / PAGE;
    for (uint64_t page = 0;; page++) {
        while (!is_reading && page < pages && is_zero(page))
            page++;
        saved_transfer(&page, sizeof page);
        if (page >= pages)
            return;
        saved_transfer(vm.ram + page * PAGE, PAGE);
    }
}

static void transfer_sum(void)
{
    uint64_t expected = sum, found = sum;
    saved_transfer(&found, sizeof found);
    if (found != expected)
        saved_refuse("the saved guest was changed");
}

static void transfer_all(void)
{
    transfer_memory();
    image_transfer();
    for (unsigned number = 0; number < vm.vps; number++) {
        vp_transfer(&vm.vp[number]);
        state_transfer(&vm.vp[number]);
    }
    apic_transfer();
    hyperv_transfer();
    devices_transfer();
    load_transfer();
    bus_transfer();
    board_transfer();
    clock_transfer();
    transfer_sum();
}

/* ---- Saving ---- */

static void *run_saving(void *unused)
{
    struct timespec time = { .tv_sec = vm.save_after / 1000, .tv_nsec = vm.save_after % 1000 * 1000000L };
    (void)unused;
    nanosleep(&time, NULL);
    lock_acquire();
    if (!vm.is_stopping) {
        vm_stop(0);
        vm.is_saving = true;
    }
    lock_release();
    return NULL;
}

void saved_start(void)
{
    pthread_t thread;
    if (vm.save_to == NULL)
        return;
    if ((errno = pthread_create(&thread, NULL, run_saving, NULL)) != 0)
        fail("the thread that stops the guest");
    pthread_detach(thread);
}

/* An image does not contain the posted words, so they are absorbed first. The file gets its name when it is
 * whole: it may be the one from which this guest continued. */
static void write_file(void)
{
    static char part[PATH_MAX];
    if (snprintf(part, sizeof part, "%s.part", vm.save_to) >= (int)sizeof part) {
        errno = ENAMETOOLONG;
        fail(vm.save_to);
    }
    clock_stop();
    irqchip_wait();
    for (unsigned number = 0; number < vm.vps; number++) {
        board_absorb(&vm.vp[number]);
        state_get(&vm.vp[number]);
    }
    image_save();
    open_file(part, false);
    transfer_header();
    transfer_all();
    long length = ftell(file);
    if (fclose(file) != 0 || rename(part, vm.save_to) != 0)
        fail(path);
    fprintf(stderr, "vmm: saved at %.3f seconds, in %ld bytes: %s\n", (double)clock_stopped() / 1e7, length, vm.save_to);
}

/* The completed instruction of a processor may start the devices or end the guest. */
void saved_write(void)
{
    if (vm.save_to == NULL)
        return;
    lock_acquire();
    for (unsigned number = 0; number < vm.vps; number++)
        vp_complete(&vm.vp[number]);
    lock_release();
    load_stop();
    lock_acquire();
    if (vm.is_saving)
        write_file();
    else
        fprintf(stderr, "vmm: not saved: the guest ended before\n");
    lock_release();
}

/* ---- Continuing ---- */

void saved_open(const char *name)
{
    open_file(name, true);
    transfer_header();
}

/* The time continues when everything has been read. */
void saved_read(void)
{
    transfer_all();
    fclose(file);
    if (!image_restore())
        saved_refuse("the saved guest has no board");
    image_trace();
    clock_continue();
    hyperv_continue();
    for (unsigned number = 0; number < vm.vps; number++) {
        state_set(&vm.vp[number]);
        vp_complete(&vm.vp[number]);    /* so that its page says whether it accepts interrupts */
    }
}
