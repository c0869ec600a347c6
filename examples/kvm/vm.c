/* The partition as KVM's objects: memory, which registers exit, CPUID, processors. */
#define _GNU_SOURCE
#include <fcntl.h>
#include <string.h>
#include <sys/ioctl.h>
#include <sys/mman.h>

#include "vmm.h"

uint8_t *vm_memory(uint64_t address, uint64_t length)
{
    return address < vm.ram_size && length <= vm.ram_size - address ? vm.ram + address : NULL;
}

bool vm_has_valid_size(void)
{
    return vm.vps >= 1 && vm.vps <= MOST_VPS && vm.ram_size >= 64 << 20 && vm.ram_size <= 2048UL << 20
        && vm.ram_size % PAGE == 0;
}

/* TLFS, "Virtual Processor Register Definitions": the synthetic registers are 40000000 and up.
 * All of them exit, and all others stay KVM's. */
static void filter_msrs(void)
{
    static uint8_t no_access[0x1000 / 8];
    struct kvm_enable_cap cap = { .cap = KVM_CAP_X86_USER_SPACE_MSR, .args = { KVM_MSR_EXIT_REASON_FILTER } };
    struct kvm_msr_filter filter = {
        .flags = KVM_MSR_FILTER_DEFAULT_ALLOW,
        .ranges = { {
            .flags = KVM_MSR_FILTER_READ | KVM_MSR_FILTER_WRITE, .base = 0x40000000, .nmsrs = 0x1000, .bitmap = no_access,
        } },
    };
    if (ioctl(vm.fd, KVM_ENABLE_CAP, &cap) != 0)
        fail("KVM_CAP_X86_USER_SPACE_MSR");
    if (ioctl(vm.fd, KVM_X86_SET_MSR_FILTER, &filter) != 0)
        fail("KVM_X86_SET_MSR_FILTER");
}

static void open_memory(void)
{
    vm.ram = mmap(NULL, vm.ram_size, PROT_READ | PROT_WRITE, MAP_PRIVATE | MAP_ANONYMOUS | MAP_NORESERVE, -1, 0);
    if (vm.ram == MAP_FAILED)
        fail("the guest's memory");
    madvise(vm.ram, vm.ram_size, MADV_HUGEPAGE);
}

void vm_open(void)
{
    if ((vm.kvm = open("/dev/kvm", O_RDWR | O_CLOEXEC)) < 0)
        fail("/dev/kvm");
    if ((vm.fd = ioctl(vm.kvm, KVM_CREATE_VM, 0)) < 0)
        fail("KVM_CREATE_VM");
    if (ioctl(vm.fd, KVM_SET_TSS_ADDR, 0xfffbd000) != 0)
        fail("KVM_SET_TSS_ADDR");
    open_memory();
    irqchip_open();
    filter_msrs();
    board_open();
    bus_open();
    for (unsigned number = 0; number < vm.vps; number++)
        vp_open(number);
    overlay_map();
    clock_open();
}
