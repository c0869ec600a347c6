/* What KVM holds of a processor, for a guest that is saved. */
#include <string.h>
#include <sys/ioctl.h>

#include "vmm.h"

/* Registers that are in no other part. The TSC is an offset. */
static const uint32_t msrs[] = {
    0x3b,                                               /* TSC_ADJUST */
    0x174, 0x175, 0x176,                                /* SYSENTER_CS, _ESP, _EIP */
    0x1a0, 0x277,                                       /* MISC_ENABLE, PAT */
    0xc0000081, 0xc0000082, 0xc0000083, 0xc0000084,     /* STAR, LSTAR, CSTAR, SFMASK */
    0xc0000102, 0xc0000103,                             /* KERNEL_GS_BASE, TSC_AUX */
};
enum { MSRS = sizeof msrs / sizeof msrs[0] };

struct state {
    struct kvm_sregs sregs;
    struct kvm_regs regs;
    uint32_t xsave[1024];               /* a struct kvm_xsave without dynamic features */
    struct kvm_xcrs xcrs;
    struct kvm_debugregs debugregs;
    struct kvm_mp_state mp_state;
    struct kvm_vcpu_events events;
    struct kvm_lapic_state lapic;       /* if it is KVM's */
    uint64_t msr[MSRS];
    uint64_t tsc_ahead;                 /* of the partition's TSC: 0 unless the guest has written it */
};

/* In the order in which they are set: setting the registers drops pending exceptions. */
static const struct {
    const char *name;
    unsigned long get, set;
    size_t at;
} parts[] = {
    { "KVM_SREGS", KVM_GET_SREGS, KVM_SET_SREGS, offsetof(struct state, sregs) },
    { "KVM_REGS", KVM_GET_REGS, KVM_SET_REGS, offsetof(struct state, regs) },
    { "KVM_XSAVE", KVM_GET_XSAVE, KVM_SET_XSAVE, offsetof(struct state, xsave) },
    { "KVM_XCRS", KVM_GET_XCRS, KVM_SET_XCRS, offsetof(struct state, xcrs) },
    { "KVM_DEBUGREGS", KVM_GET_DEBUGREGS, KVM_SET_DEBUGREGS, offsetof(struct state, debugregs) },
    { "KVM_MP_STATE", KVM_GET_MP_STATE, KVM_SET_MP_STATE, offsetof(struct state, mp_state) },
    { "KVM_VCPU_EVENTS", KVM_GET_VCPU_EVENTS, KVM_SET_VCPU_EVENTS, offsetof(struct state, events) },
    { "KVM_LAPIC", KVM_GET_LAPIC, KVM_SET_LAPIC, offsetof(struct state, lapic) },
};
enum { PARTS = sizeof parts / sizeof parts[0] };

static struct state states[MOST_VPS];

/* The last is there if it is KVM's. */
static unsigned parts_used(void)
{
    return vm.has_irqchip ? PARTS : PARTS - 1;
}

/* ---- The TSC ---- */

static void request_tsc_offset(struct vp *vp, unsigned long request, uint64_t *offset)
{
    struct kvm_device_attr attribute = {
        .group = KVM_VCPU_TSC_CTRL, .attr = KVM_VCPU_TSC_OFFSET, .addr = (uintptr_t)offset,
    };
    if (ioctl(vp->fd, request, &attribute) != 0)
        fail("KVM_VCPU_TSC_OFFSET");
}

/* A KVM without hardware below it may ignore what is set. */
uint64_t state_set_tsc_offset(struct vp *vp, uint64_t offset)
{
    request_tsc_offset(vp, KVM_SET_DEVICE_ATTR, &offset);
    request_tsc_offset(vp, KVM_GET_DEVICE_ATTR, &offset);
    return offset;
}

/* ---- All of it ---- */

static void request_msrs(struct vp *vp, unsigned long request, uint64_t *values)
{
    struct { struct kvm_msrs head; struct kvm_msr_entry entries[MSRS]; } all = { .head.nmsrs = MSRS };
    for (unsigned at = 0; at < MSRS; at++)
        all.entries[at] = (struct kvm_msr_entry){ .index = msrs[at], .data = values[at] };
    if (ioctl(vp->fd, request, &all) != MSRS)
        fail("KVM_MSRS");
    for (unsigned at = 0; at < MSRS; at++)
        values[at] = all.entries[at].data;
}

void state_get(struct vp *vp)
{
    struct state *state = &states[vp->number];
    for (unsigned at = 0; at < parts_used(); at++)
        if (ioctl(vp->fd, parts[at].get, (uint8_t *)state + parts[at].at) != 0)
            fail(parts[at].name);
    request_msrs(vp, KVM_GET_MSRS, state->msr);
    request_tsc_offset(vp, KVM_GET_DEVICE_ATTR, &state->tsc_ahead);
    state->tsc_ahead -= clock_tsc_offset();
}

void state_set(struct vp *vp)
{
    struct state *state = &states[vp->number];
    for (unsigned at = 0; at < parts_used(); at++)
        if (ioctl(vp->fd, parts[at].set, (uint8_t *)state + parts[at].at) != 0)
            fail(parts[at].name);
    request_msrs(vp, KVM_SET_MSRS, state->msr);
    state_set_tsc_offset(vp, clock_tsc_offset() + state->tsc_ahead);
}

void state_transfer(struct vp *vp)
{
    saved_transfer(&states[vp->number], sizeof states[0]);
}
