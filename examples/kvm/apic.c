/* What of a local APIC is not the board's: the registers of its page that are only stored, and
 * the interrupts between processors, of which fixed ones become requests on the board. The APIC
 * timer is left out: a guest that sees Hyper-V has synthetic timers. */
#include <stdio.h>
#include <string.h>

#include "vmm.h"

/* SDM, "Local APIC Register Address Map": 16 bytes each. */
enum {
    ID = 0x20, VERSION = 0x30, TPR = 0x80, PPR = 0xa0, EOI = 0xb0, LDR = 0xd0, DFR = 0xe0, SVR = 0xf0,
    ISR = 0x100, IRR = 0x200, ICR_LOW = 0x300, ICR_HIGH = 0x310, LVT_FIRST = 0x320, LVT_LAST = 0x370, REGISTERS = 64,
};
enum { FIXED = 0, LOWEST_PRIORITY = 1, INIT = 5, STARTUP = 6 };
enum { MASKED = 1 << 16, LEVEL_ASSERT = 1 << 14, IS_LOGICAL = 1 << 11, IS_SENDING = 1 << 12 };
enum { TO_SELF = 1, TO_ALL = 2, TO_OTHERS = 3 };

static uint32_t registers[MOST_VPS][REGISTERS];

static uint32_t *stored(const struct vp *vp, uint32_t offset)
{
    return &registers[vp->number][offset / 16 % REGISTERS];
}

void apic_reset(struct vp *vp)
{
    memset(registers[vp->number], 0, sizeof registers[0]);
    *stored(vp, ID) = (uint32_t)vp->number << 24;
    *stored(vp, VERSION) = 0x50014;
    *stored(vp, DFR) = 0xffffffff;
    *stored(vp, SVR) = 0xff;
    for (uint32_t offset = LVT_FIRST; offset <= LVT_LAST; offset += 16)
        *stored(vp, offset) = MASKED;
}

/* 32 bits of a set of vectors, of which a register has a sixteenth of its place. */
static uint32_t part_of(const uint64_t words[4], uint32_t offset)
{
    uint32_t part = offset / 16 % 8;
    return (uint32_t)(words[part / 2] >> (part % 2 * 32));
}

uint32_t apic_read(struct vp *vp, uint32_t offset)
{
    synicboard_local_apic lapic = synicboard_lapic(board, vp->number);
    if (offset >= ISR && offset < ISR + 128)
        return part_of(lapic.in_service, offset);
    if (offset >= IRR && offset < IRR + 128)
        return part_of(lapic.requested, offset);
    switch (offset) {
    case TPR: return vp->tpr;
    case PPR: return lapic.processor_priority;
    default: return *stored(vp, offset);
    }
}

void apic_write(struct vp *vp, uint32_t offset, uint32_t value)
{
    switch (offset) {
    case TPR: board_write(vp, SYNICBOARD_MSR_TPR, value & 0xff); break;
    case EOI: board_write(vp, SYNICBOARD_MSR_EOI, value); break;
    case ICR_LOW: apic_write_icr(vp, (uint64_t)*stored(vp, ICR_HIGH) << 32 | value); break;
    case ID: case VERSION: break;
    default: *stored(vp, offset) = value;
    }
}

void apic_transfer(void)
{
    saved_transfer(registers, sizeof registers);
}

uint64_t apic_icr(struct vp *vp)
{
    return (uint64_t)*stored(vp, ICR_HIGH) << 32 | *stored(vp, ICR_LOW);
}

/* SDM, "Determining IPI Destination"; logical destinations in the flat model. */
static bool is_destination(const struct vp *vp, const struct vp *sender, uint64_t icr)
{
    uint8_t destination = (uint8_t)(icr >> 56);
    switch (icr >> 18 & 3) {
    case TO_SELF: return vp == sender;
    case TO_ALL: return true;
    case TO_OTHERS: return vp != sender;
    }
    if ((icr & IS_LOGICAL) != 0)
        return (*stored(vp, LDR) >> 24 & destination) != 0;
    return destination == 0xff || destination == vp->number;
}

static uint64_t destinations(const struct vp *sender, uint64_t icr)
{
    uint64_t vps = 0;
    for (unsigned number = 0; number < vm.vps; number++)
        if (is_destination(&vm.vp[number], sender, icr))
            vps |= 1ULL << number;
    return vps;
}

static void for_each(uint64_t vps, void (*send)(struct vp *vp, uint8_t vector), uint8_t vector)
{
    for (unsigned number = 0; number < vm.vps; number++)
        if ((vps >> number & 1) != 0)
            send(&vm.vp[number], vector);
}

static void send_init(struct vp *vp, uint8_t vector)
{
    (void)vector;
    vp_send_init(vp);
}

static void send(uint64_t vps, uint64_t icr)
{
    uint8_t vector = (uint8_t)icr;
    switch (icr >> 8 & 7) {
    case FIXED: case LOWEST_PRIORITY: board_send(vector, vps); break;
    case INIT:
        if ((icr & LEVEL_ASSERT) != 0)
            for_each(vps, send_init, vector);
        break;
    case STARTUP: for_each(vps, vp_send_sipi, vector); break;
    default: fprintf(stderr, "vmm: the interrupt %lx between processors is of a kind that is left out\n", icr);
    }
}

void apic_write_icr(struct vp *vp, uint64_t value)
{
    *stored(vp, ICR_HIGH) = (uint32_t)(value >> 32);
    *stored(vp, ICR_LOW) = (uint32_t)value & ~IS_SENDING;
    send(destinations(vp, value), value);
}
