/* CPUID of a processor: what KVM supports, without what this hypervisor lacks, and the leaves of
 * Hyper-V. */
#include <string.h>
#include <sys/ioctl.h>

#include "vmm.h"

enum { MOST_ENTRIES = 256, MOST_LEAVES = 8 };

/* Bits of leaf 1. */
enum { HAS_MWAIT = 1 << 3, HAS_X2APIC = 1 << 21, HAS_TSC_DEADLINE = 1 << 24, HAS_APIC = 1 << 9 };
#define HAS_HYPERVISOR (1u << 31)

struct cpuid {
    struct kvm_cpuid2 head;
    struct kvm_cpuid_entry2 entries[MOST_ENTRIES];
};

static void change_entry(struct kvm_cpuid_entry2 *entry, uint32_t number)
{
    switch (entry->function) {
    case 1:
        entry->ebx = (entry->ebx & 0xffff) | number << 24 | vm.vps << 16;
        entry->ecx = (entry->ecx & ~(HAS_X2APIC | HAS_TSC_DEADLINE | HAS_MWAIT)) | HAS_HYPERVISOR;
        entry->edx |= HAS_APIC;
        break;
    case 0xb: case 0x1f:
        entry->edx = number;
        break;
    }
}

void cpuid_set(struct vp *vp)
{
    struct cpuid cpuid = { .head.nent = MOST_ENTRIES - MOST_LEAVES };
    unsigned count = 0;
    if (ioctl(vm.kvm, KVM_GET_SUPPORTED_CPUID, &cpuid) != 0)
        fail("KVM_GET_SUPPORTED_CPUID");
    for (unsigned at = 0; at < cpuid.head.nent; at++) {
        struct kvm_cpuid_entry2 entry = cpuid.entries[at];
        if (entry.function >> 8 == 0x400000)
            continue;           /* KVM's own leaves */
        change_entry(&entry, vp->number);
        cpuid.entries[count++] = entry;
    }
    cpuid.head.nent = hyperv_add_cpuid(cpuid.entries, count);
    if (ioctl(vp->fd, KVM_SET_CPUID2, &cpuid) != 0)
        fail("KVM_SET_CPUID2");
}
