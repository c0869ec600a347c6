/* What of Hyper-V's interface is not the board's: the leaves of CPUID, the registers that identify the guest and the
 * hypervisor, the hypercall page and the reference TSC page. The library of the partition says what they are. */
#include <string.h>
#include <sys/ioctl.h>

#include "vmm.h"

static struct partition partition;

/* An interrupt that KVM's local APIC delivers ends by EOI alone, which the guest writes to it, as to any local APIC. */
struct partition_offer hyperv_offer(void)
{
    uint32_t features = PARTITION_SYNIC | PARTITION_TIMERS | PARTITION_DIRECT_TIMERS | PARTITION_COUNTER | PARTITION_TSC_PAGE
        | PARTITION_FREQUENCIES | PARTITION_HYPERCALLS | PARTITION_VP_INDEX | PARTITION_RESET | PARTITION_RELAXED
        | PARTITION_CLUSTER_IPI | PARTITION_SUSPEND;
    features |= vm.has_irqchip ? PARTITION_NO_AUTO_EOI : PARTITION_APIC | PARTITION_PREFERS_APIC | PARTITION_ASSIST;
    features |= vm.vmbus.is_on ? PARTITION_CONNECTIONS : 0;
    return (struct partition_offer){
        .features = features, .vps = vm.vps, .spin_retries = UINT32_MAX, .tsc_hz = vm.tsc_hz, .apic_hz = APIC_HZ,
    };
}

unsigned hyperv_add_cpuid(struct kvm_cpuid_entry2 *entries, unsigned count)
{
    struct partition_offer offer = hyperv_offer();
    struct partition_leaf leaf;
    for (uint32_t number = 0x40000000; partition_leaf(&offer, number, &leaf); number++)
        entries[count++] = (struct kvm_cpuid_entry2){
            .function = number, .eax = leaf.eax, .ebx = leaf.ebx, .ecx = leaf.ecx, .edx = leaf.edx,
        };
    return count;
}

/* ---- Registers ---- */

static uint8_t *page_of(uint64_t value)
{
    uint64_t address;
    return partition_page(value, &address) ? vm_memory(address, PAGE) : NULL;
}

/* TLFS, "Establishing the Hypercall Interface". The guest's page is filled and no overlay covers it. VMCALL is KVM's, so
 * a call exits by OUT to a port. */
static void fill_hypercall(void)
{
    uint8_t *page = page_of(partition.hypercall), code[8];
    if (page != NULL)
        memcpy(page, code, partition_port_code(HYPERCALL_PORT, code));
}

static void fill_reference_tsc(void)
{
    uint8_t *page = page_of(partition.reference_tsc);
    if (page != NULL)
        clock_fill_page(page);
}

uint32_t *hyperv_assist(const struct vp *vp)
{
    return (uint32_t *)(void *)page_of(partition.assist[vp->number]);
}

bool hyperv_read_msr(struct vp *vp, uint32_t msr, uint64_t *value)
{
    struct partition_offer offer = hyperv_offer();
    enum partition_owner owner = partition_owner(&offer, msr);
    if (owner == PARTITION_OF_APIC && msr == MSR_ICR) {
        *value = apic_icr(vp);
        return true;
    }
    if (owner == PARTITION_OF_BOARD || owner == PARTITION_OF_APIC) {
        synicboard_reply reply = board_read(vp, msr);
        *value = reply.value;
        return reply.kind == SYNICBOARD_VALUE;
    }
    return owner == PARTITION_OWN && partition_read(&partition, &offer, vp->number, msr, value);
}

static bool write_own(struct vp *vp, uint32_t msr, uint64_t value)
{
    if (msr == MSR_VP_ASSIST)
        assist_leave(vp);
    enum partition_effect effect = partition_write(&partition, vp->number, msr, value);
    switch (effect) {
    case PARTITION_FILL_HYPERCALL: fill_hypercall(); break;
    case PARTITION_FILL_TSC: fill_reference_tsc(); break;
    case PARTITION_DO_RESET: vm_stop(0); break;
    default: break;
    }
    return effect != PARTITION_PROTECTION;
}

bool hyperv_write_msr(struct vp *vp, uint32_t msr, uint64_t value)
{
    struct partition_offer offer = hyperv_offer();
    enum partition_owner owner = partition_owner(&offer, msr);
    if (owner == PARTITION_OF_APIC && msr == MSR_ICR) {
        apic_write_icr(vp, value);
        return true;
    }
    if (owner == PARTITION_OF_BOARD || owner == PARTITION_OF_APIC)
        return board_write(vp, msr, value).kind == SYNICBOARD_DONE;
    return owner == PARTITION_OWN && write_own(vp, msr, value);
}

void hyperv_transfer(void)
{
    saved_transfer(&partition, sizeof partition);
}

void hyperv_continue(void)
{
    fill_reference_tsc();
}

void hyperv_call(struct vp *vp)
{
    struct kvm_regs regs;
    if (ioctl(vp->fd, KVM_GET_REGS, &regs) != 0)
        fail("KVM_GET_REGS");
    regs.rax = hypercall_handle(regs.rcx, regs.rdx, regs.r8);
    if (ioctl(vp->fd, KVM_SET_REGS, &regs) != 0)
        fail("KVM_SET_REGS");
}
