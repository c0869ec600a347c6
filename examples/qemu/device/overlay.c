/* The overlays: message and event flags pages over the guest's memory, for all processors. They are the board's live pages,
 * as RAM; if pages trap, each access is an event of the board. */
#include "internal.h"
#include "qemu/error-report.h"
#include "synic.h"

enum { PRIORITY = 1000 };       /* above whatever QEMU maps */

static MemoryRegion regions[2 * PARTITION_VPS];
static uint64_t mapped[2 * PARTITION_VPS];      /* the guest's address, or SYNIC_NEVER */

/* ---- Pages that trap ---- */

static synicboard_reply access_page(uint8_t kind, void *opaque, hwaddr offset, uint64_t value, unsigned length)
{
    synicboard_event event = { .kind = kind, .address = mapped[(uintptr_t)opaque] + offset, .length = length };
    stq_le_p(event.bytes, value);
    synicboard_reply reply = synic_perform(&event);
    if (reply.kind == SYNICBOARD_REFUSED)
        warn_report_once("synicboard: an access of an overlay was refused: %s", synicboard_refusal_text(reply.refusal));
    return reply;
}

static uint64_t trap_read(void *opaque, hwaddr offset, unsigned length)
{
    return ldq_le_p(access_page(SYNICBOARD_LOAD, opaque, offset, 0, length).bytes);
}

static void trap_write(void *opaque, hwaddr offset, uint64_t value, unsigned length)
{
    access_page(SYNICBOARD_STORE, opaque, offset, value, length);
}

static const MemoryRegionOps traps = {
    .read = trap_read,
    .write = trap_write,
    .endianness = DEVICE_LITTLE_ENDIAN,
    .valid = { .min_access_size = 1, .max_access_size = 8, .unaligned = true },
    .impl = { .min_access_size = 1, .max_access_size = 8, .unaligned = true },
};

/* ---- Regions ---- */

/* The pages are there as long as the machine, whichever board has them. */
void synic_make_regions(void)
{
    for (unsigned number = 0; number < 2 * synic.offer.vps; number++) {
        g_autofree char *name = g_strdup_printf("synicboard-%s-%u", number % 2 ? "flags" : "messages", number / 2);
        mapped[number] = SYNIC_NEVER;
        if (synic_log_options.traps)
            memory_region_init_io(&regions[number], NULL, &traps, (void *)(uintptr_t)number, name, PARTITION_PAGE);
        else
            memory_region_init_ram_ptr(&regions[number], NULL, name, PARTITION_PAGE, synic_live_page(number));
    }
}

/* QEMU flushes the TLBs at the end of the transaction. */
void synic_map_overlays(void)
{
    uint64_t wanted[2 * PARTITION_VPS];
    if (!synic.is_ready)
        return;
    synic_list_overlays(wanted);
    memory_region_transaction_begin();
    for (unsigned at = 0; at < 2 * synic.offer.vps; at++) {
        if (mapped[at] != wanted[at] && mapped[at] != SYNIC_NEVER)
            memory_region_del_subregion(get_system_memory(), &regions[at]);
        if (mapped[at] != wanted[at] && wanted[at] != SYNIC_NEVER)
            memory_region_add_subregion_overlap(get_system_memory(), wanted[at], &regions[at], PRIORITY);
        mapped[at] = wanted[at];
    }
    memory_region_transaction_commit();
}

/* A page that may be stored in is dirty for a migration before it is: the BQL is held until it has been. */
uint8_t *synic_find_page(uint64_t number, bool is_stored)
{
    hwaddr offset, length = PARTITION_PAGE;
    RCU_READ_LOCK_GUARD();
    if (number >> 52 != 0)
        return NULL;
    MemoryRegion *region = address_space_translate(&address_space_memory, number * PARTITION_PAGE, &offset, &length, is_stored,
                                                   MEMTXATTRS_UNSPECIFIED);
    if (length < PARTITION_PAGE || !memory_region_is_ram(region) || region->readonly)
        return NULL;
    if (is_stored)
        memory_region_set_dirty(region, offset, PARTITION_PAGE);
    return (uint8_t *)memory_region_get_ram_ptr(region) + offset;
}

/* ---- Moves ---- */

/* No processor stores in a page while it moves: the board finds what the guest has stored before, and the TLBs of other
 * processors are flushed before these run again. */
static void move(CPUState *cs, run_on_cpu_data data)
{
    g_autofree synicboard_event *write = data.host_ptr;
    bool is_taken = synic_take_bql();
    synic_perform(write);
    synic_map_overlays();
    synic_release_bql(is_taken);
}

/* WRMSR ends its translation block, so the processor does this before its next instruction. */
void synic_move_overlay(X86CPU *cpu, uint32_t msr, uint64_t value)
{
    synicboard_event write = { .kind = SYNICBOARD_WRITE, .vp = CPU(cpu)->cpu_index, .msr = msr, .value = value };
    async_safe_run_on_cpu(CPU(cpu), move, RUN_ON_CPU_HOST_PTR(g_memdup2(&write, sizeof(write))));
}
