/* Overlay pages as memory slots of KVM. At each page at which the board shows an overlay, its live page is
 * mapped over the guest's memory, and no access exits. Where pages trap, it is the board's own page, read-only:
 * loads need no exit, and a store exits and becomes an event of the board. */
#include <string.h>
#include <sys/ioctl.h>

#include "vmm.h"

enum { MOST_OVERLAYS = 2 * MOST_VPS, MOST_SLOTS = 2 * MOST_OVERLAYS + 1 };

/* A memory slot: a piece of the guest's memory, or an overlay. Two pieces are compared as bytes,
 * so there is no padding. */
struct piece {
    uint64_t address, size;
    const uint8_t *memory;
    uint64_t is_overlay;
};

static struct piece pieces[MOST_SLOTS];     /* by number of the slot */
static unsigned used;

static const uint8_t *page_of(synicboard_page_owner owner)
{
    const uint8_t *page = NULL;
    if (!vm.pages_trap)
        return board_live_page(owner);
    if (!(owner.kind == SYNICBOARD_OWNER_MESSAGES ? synicboard_message_page : synicboard_flag_page)(board, owner.vp, &page))
        fail("a page of the board");
    return page;
}

static void set_slot(unsigned number, const struct piece *piece, uint64_t size)
{
    struct kvm_userspace_memory_region region = {
        .slot = number, .guest_phys_addr = piece->address, .memory_size = size, .userspace_addr = (uintptr_t)piece->memory,
        .flags = vm.pages_trap && piece->is_overlay && size != 0 ? KVM_MEM_READONLY : 0,
    };
    if (ioctl(vm.fd, KVM_SET_USER_MEMORY_REGION, &region) != 0)
        fail("KVM_SET_USER_MEMORY_REGION");
}

/* Cuts the guest's memory at the overlays in it, which the board lists in ascending order. */
static unsigned cut_memory(struct piece *all)
{
    unsigned made = 0;
    uint64_t address = 0;
    synicboard_overlay next = synicboard_next_overlay(board, 0);
    for (; next.owner.kind != SYNICBOARD_OWNER_NOTHING; next = synicboard_next_overlay(board, next.page + 1)) {
        uint64_t at = next.page * PAGE;
        if (vm_memory(at, PAGE) == NULL)
            continue;
        if (at > address)
            all[made++] = (struct piece){ address, at - address, vm.ram + address, false };
        all[made++] = (struct piece){ at, PAGE, page_of(next.owner), true };
        address = at + PAGE;
    }
    if (vm.ram_size > address)
        all[made++] = (struct piece){ address, vm.ram_size - address, vm.ram + address, false };
    return made;
}

/* Slots must not overlap at any time, so all from the first difference on are removed before the
 * new ones are set. */
void overlay_set(void)
{
    struct piece all[MOST_SLOTS];
    unsigned made = cut_memory(all), same = 0;
    while (same < used && same < made && memcmp(&pieces[same], &all[same], sizeof all[same]) == 0)
        same++;
    for (unsigned number = same; number < used; number++)
        set_slot(number, &pieces[number], 0);
    for (unsigned number = same; number < made; number++)
        set_slot(number, &all[number], all[number].size);
    memcpy(pieces, all, made * sizeof all[0]);
    used = made;
    vm.slot_changes++;
}

/* While slots are changed, memory is missing: no processor may run. Until none does, others may
 * perform events, so the memory is cut again then. */
void overlay_map(void)
{
    struct piece all[MOST_SLOTS];
    unsigned made = cut_memory(all);
    if (made == used && memcmp(pieces, all, made * sizeof all[0]) == 0)
        return;
    vp_pause_others();
    overlay_set();
    vp_resume_others();
}
