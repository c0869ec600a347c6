/* KVM's own local APICs (--irqchip). The board requests vectors; each processor forwards them, and they are
 * injected as MSIs. Nothing of a local APIC is the board's then, and KVM does the halting, EOI, TPR, the interrupts
 * between processors, INIT and SIPI without an exit. */
#include <errno.h>
#include <sched.h>
#include <sys/ioctl.h>
#include <unistd.h>

#include "vmm.h"

enum { IOAPIC_ROUTES = 24 };

static uint64_t marked;                         /* processors with new requests, a bit each */
static struct vectors collected[MOST_VPS];  /* to inject after the lock is released */
static atomic_uint under_way;                   /* threads that have released the lock and inject */

/* Local APICs alone: no PIC, no I/O APIC, no PIT. */
void irqchip_open(void)
{
    struct kvm_enable_cap cap = { .cap = KVM_CAP_SPLIT_IRQCHIP, .args = { IOAPIC_ROUTES } };
    if (vm.has_irqchip && ioctl(vm.fd, KVM_ENABLE_CAP, &cap) != 0)
        fail("KVM_CAP_SPLIT_IRQCHIP");
    vm.misses_wakes = vm.has_irqchip && access("/sys/module/kvm_pvm", F_OK) == 0;
}

void irqchip_mark(uint8_t vp)
{
    marked |= 1ULL << vp;
}

static bool has(const uint64_t words[4], unsigned vector)
{
    return (words[vector / 64] >> vector % 64 & 1) != 0;
}

/* Where KVM has no hardware below it (kvm_pvm, Linux 6.18), an interrupt does not always wake a processor that
 * halts: it sleeps until a signal ends KVM_RUN, and finds the interrupt when it enters again. There a processor in
 * the guest gets a signal after the board's vectors are injected, and each 20 ms for all other interrupts. A signal
 * before KVM_RUN is lost, but KVM_RUN finds what was injected before it. */
static void wake(const struct vp *vp)
{
    if (vm.misses_wakes && vp->is_in_guest)
        lock_interrupt(vp);
}

void irqchip_wake(void)
{
    for (unsigned vp = 0; vp < vm.vps; vp++)
        wake(&vm.vp[vp]);
}

static void collect(uint8_t vp)
{
    synicboard_forwarded forwarded;
    synicboard_forward(board, vp, &forwarded);
    trace_forwarded(vp, &forwarded);
    for (unsigned word = 0; word < 4; word++)
        collected[vp].words[word] |= forwarded.vectors[word];
    wake(&vm.vp[vp]);
}

void irqchip_collect(void)
{
    for (uint8_t vp = 0; marked >> vp != 0 && vp < vm.vps; vp++)
        if (marked >> vp & 1)
            collect(vp);
    marked = 0;
}

/* A fixed, edge-triggered interrupt to the processor with this APIC ID (SDM, "Message Address Register Format"). A
 * local APIC that is disabled drops it: KVM answers -1 then, which is EPERM. */
void irqchip_request(uint8_t vp, uint8_t vector)
{
    struct kvm_msi msi = { .address_lo = APIC_BASE | (uint32_t)vp << 12, .data = vector };
    if (ioctl(vm.fd, KVM_SIGNAL_MSI, &msi) < 0 && errno != EPERM)
        fail("KVM_SIGNAL_MSI");
}

bool irqchip_take(struct vectors vectors[MOST_VPS])
{
    uint64_t any = 0;
    for (unsigned vp = 0; vp < vm.vps; vp++) {
        vectors[vp] = collected[vp];
        for (unsigned word = 0; word < 4; word++) {
            any |= vectors[vp].words[word];
            vm.vp[vp].injected += (uint64_t)__builtin_popcountll(vectors[vp].words[word]);
        }
        collected[vp] = (struct vectors){ 0 };
    }
    if (any != 0)
        atomic_fetch_add(&under_way, 1);
    return any != 0;
}

void irqchip_inject(const struct vectors vectors[MOST_VPS])
{
    for (unsigned vp = 0; vp < vm.vps; vp++)
        for (unsigned vector = 16; vector < 256; vector++)
            if (has(vectors[vp].words, vector))
                irqchip_request((uint8_t)vp, (uint8_t)vector);
    atomic_fetch_sub(&under_way, 1);
}

void irqchip_wait(void)
{
    while (atomic_load(&under_way) != 0)
        sched_yield();
}
