/* machine.c: opening and closing a machine, its clock, its registers, and the guest's program: a few
 * instructions in real mode for each operation. */
#include "vm.h"

#include <errno.h>
#include <fcntl.h>
#include <stdio.h>
#include <stdlib.h>
#include <string.h>
#include <sys/ioctl.h>
#include <sys/mman.h>
#include <unistd.h>

enum { MOST_CPUID = 128, INTERFACE_LEAF = 0x40000001, HYPERV_INTERFACE = 0x31237648 };
enum { APIC_SPIV = 0xf0, APIC_ADDRESS = 0xfee00000, APIC_ENABLED = 1 << 11, BOOT_PROCESSOR = 1 << 8, MASKED = 1 << 16 };
enum { STUB = 0x80000, STUB_SIZE = 0x10000, HANDLERS = 0x1000, FIRST_OPERATION = 0x2000, OPERATION_SIZE = 16, STACK = 0xf000 };
enum { OUT = 0xe6 /* the instruction */, DONE = 0x10, INTERRUPTED = 0x13 /* its ports */ };

static const uint8_t operations[OPERATIONS][OPERATION_SIZE] = {
    [DO_WRMSR] = { 0x0f, 0x30, OUT, DONE },
    [DO_RDMSR] = { 0x0f, 0x32, OUT, DONE },
    [DO_NOTHING] = { 0x90, 0x90, OUT, DONE },
    /* sti; nop; cli: an interrupt is delivered after the nop at the latest */
    [DO_TAKE] = { 0xfb, 0x90, 0xfa, OUT, DONE },
};

struct machine vm;
static int kvm = -1, run_size;
static _Alignas(PAGE) uint8_t stub[STUB_SIZE];

static struct {
    struct kvm_cpuid2 head;
    struct kvm_cpuid_entry2 entries[MOST_CPUID];
} cpuid = { .head.nent = MOST_CPUID };

/* Ends the process if a call of the system fails. */
int checked(int result, const char *what)
{
    if (result >= 0)
        return result;
    fprintf(stderr, "kvm-peer: %s: %s\n", what, strerror(errno));
    exit(1);
}

static void open_kvm(void)
{
    kvm = checked(open("/dev/kvm", O_RDWR | O_CLOEXEC), "/dev/kvm");
    run_size = checked(ioctl(kvm, KVM_GET_VCPU_MMAP_SIZE, 0), "KVM_GET_VCPU_MMAP_SIZE");
    checked(ioctl(kvm, KVM_GET_SUPPORTED_CPUID, &cpuid), "KVM_GET_SUPPORTED_CPUID");
    /* A guest has the registers of Hyper-V if this leaf names its interface. */
    for (unsigned at = 0; at < cpuid.head.nent; at++)
        if (cpuid.entries[at].function == INTERFACE_LEAF)
            cpuid.entries[at].eax = HYPERV_INTERFACE;
}

/* The interrupt vectors of real mode, and the operations. Each vector has a handler that writes its number
 * to a port: mov al, vector; out. */
static void write_stub(void)
{
    for (unsigned vector = 0; vector < 256; vector++) {
        unsigned handler = HANDLERS + 4 * vector;
        memcpy(stub + 4 * vector, (uint8_t[]){ (uint8_t)handler, (uint8_t)(handler >> 8), 0, STUB >> 12 }, 4);
        memcpy(stub + handler, (uint8_t[]){ 0xb0, (uint8_t)vector, OUT, INTERRUPTED }, 4);
    }
    memcpy(stub + FIRST_OPERATION, operations, sizeof operations);
}

static void set_segments(int fd)
{
    struct kvm_sregs sregs;
    checked(ioctl(fd, KVM_GET_SREGS, &sregs), "KVM_GET_SREGS");
    sregs.cs.base = sregs.ds.base = sregs.es.base = sregs.ss.base = sregs.idt.base = STUB;
    sregs.cs.selector = sregs.ds.selector = sregs.es.selector = sregs.ss.selector = STUB >> 4;
    checked(ioctl(fd, KVM_SET_SREGS, &sregs), "KVM_SET_SREGS");
}

static void add_processor(unsigned vp)
{
    struct processor *p = &vm.vps[vp];
    struct kvm_enable_cap synic = { .cap = vm.is_bare ? KVM_CAP_HYPERV_SYNIC : KVM_CAP_HYPERV_SYNIC2 };
    p->fd = checked(ioctl(vm.fd, KVM_CREATE_VCPU, vp), "KVM_CREATE_VCPU");
    p->run = mmap(NULL, (size_t)run_size, PROT_READ | PROT_WRITE, MAP_SHARED, p->fd, 0);
    checked(p->run == MAP_FAILED ? -1 : 0, "mmap");
    checked(ioctl(p->fd, KVM_SET_CPUID2, &cpuid), "KVM_SET_CPUID2");
    checked(ioctl(p->fd, KVM_ENABLE_CAP, &synic), "KVM_ENABLE_CAP of the SynIC");
    checked(ioctl(p->fd, KVM_SET_MP_STATE, &(struct kvm_mp_state){ KVM_MP_STATE_RUNNABLE }), "KVM_SET_MP_STATE");
    set_segments(p->fd);
    /* Enabled by software, as the script's local APIC begins. */
    checked(ioctl(p->fd, KVM_GET_LAPIC, &p->apic), "KVM_GET_LAPIC");
    p->apic.regs[APIC_SPIV] = (char)0xff;
    p->apic.regs[APIC_SPIV + 1] = 1;
    reset_processor(vp);
}

static void add_memory(unsigned slot, uint64_t address, size_t size, uint8_t *place)
{
    struct kvm_userspace_memory_region region = {
        .slot = slot, .guest_phys_addr = address, .memory_size = size, .userspace_addr = (uintptr_t)place,
    };
    checked(ioctl(vm.fd, KVM_SET_USER_MEMORY_REGION, &region), "KVM_SET_USER_MEMORY_REGION");
}

static void close_machine(void)
{
    for (unsigned vp = 0; vp < vm.processors; vp++) {
        munmap(vm.vps[vp].run, (size_t)run_size);
        close(vm.vps[vp].fd);
    }
    for (unsigned at = 0; at < ROUTES; at++)
        if (vm.routes[at].ack != 0) {
            close(vm.routes[at].irq);
            close(vm.routes[at].ack);
        }
    if (vm.processors > 0)
        close(vm.fd);
    vm = (struct machine){ .is_bare = vm.is_bare };
}

/* A machine that cannot be of this size has no processors. */
void open_machine(unsigned processors, unsigned pages)
{
    close_machine();
    if (kvm < 0)
        open_kvm();
    if (processors == 0 || processors > MOST_PROCESSORS || pages == 0 || pages > MOST_PAGES)
        return;
    vm.processors = processors;
    vm.pages = pages;
    vm.fd = checked(ioctl(kvm, KVM_CREATE_VM, 0), "KVM_CREATE_VM");
    /* A split interrupt controller refuses the acknowledgements that ports need. */
    checked(ioctl(vm.fd, KVM_CREATE_IRQCHIP, 0), "KVM_CREATE_IRQCHIP");
    checked(ioctl(vm.fd, KVM_SET_GSI_ROUTING, &vm.table), "KVM_SET_GSI_ROUTING");
    write_stub();
    add_memory(0, 0, pages * PAGE, vm.memory);
    add_memory(1, STUB, STUB_SIZE, stub);
    for (unsigned vp = 0; vp < processors; vp++)
        add_processor(vp);
    set_clock_to_time();
}

static void set_msr(unsigned vp, uint32_t index, uint64_t value)
{
    struct {
        struct kvm_msrs head;
        struct kvm_msr_entry entry;
    } msr = { .head.nmsrs = 1, .entry = { .index = index, .data = value } };
    checked(ioctl(vm.vps[vp].fd, KVM_SET_MSRS, &msr) == 1 ? 0 : -1, "KVM_SET_MSRS");
}

/* As user space does it. */
void reset_processor(unsigned vp)
{
    struct processor *p = &vm.vps[vp];
    for (unsigned at = 0; at < 2 * TIMERS; at++)
        set_msr(vp, STIMER0 + at, 0);
    for (unsigned sint = 0; sint < SINTS; sint++)
        set_msr(vp, SINT0 + sint, MASKED);
    set_msr(vp, SCONTROL, vm.is_bare);
    set_msr(vp, SIEFP, 0);
    set_msr(vp, SIMP, 0);
    set_msr(vp, APIC_BASE, APIC_ADDRESS | APIC_ENABLED | (vp == 0 ? BOOT_PROCESSOR : 0));
    checked(ioctl(p->fd, KVM_SET_LAPIC, &p->apic), "KVM_SET_LAPIC");
    *p = (struct processor){ .fd = p->fd, .run = p->run, .apic = p->apic, .scontrol = vm.is_bare };
}

void set_clock_to_time(void)
{
    struct kvm_clock_data data = { .clock = vm.time * UNIT * 100 };
    checked(ioctl(vm.fd, KVM_SET_CLOCK, &data), "KVM_SET_CLOCK");
}

/* Up to the middle of the unit, while KVM's timers fire. */
void sleep_until(uint64_t time)
{
    struct kvm_clock_data now = { 0 };
    uint64_t end = (time * UNIT + UNIT / 2) * 100;
    while (checked(ioctl(vm.fd, KVM_GET_CLOCK, &now), "KVM_GET_CLOCK"), now.clock < end)
        usleep((useconds_t)((end - now.clock) / 1000 + 1));
}

/* Whether the exit was the guest's output. KVM reports each write of a page register or SCONTROL. */
bool is_output(struct processor *p)
{
    const struct kvm_run *run = p->run;
    if (run->exit_reason == KVM_EXIT_IO)
        return true;
    if (run->exit_reason != KVM_EXIT_HYPERV) {
        fprintf(stderr, "kvm-peer: a processor left by exit %u\n", run->exit_reason);
        exit(1);
    }
    p->scontrol = run->hyperv.u.synic.control;
    p->siefp = run->hyperv.u.synic.evt_page;
    p->simp = run->hyperv.u.synic.msg_page;
    return false;
}

/* Runs an operation. Whether a vector interrupted it, which is in RBX then. */
bool is_interrupted(unsigned vp, enum operation operation, struct kvm_regs *regs)
{
    struct processor *p = &vm.vps[vp];
    regs->rip = FIRST_OPERATION + OPERATION_SIZE * operation;
    regs->rflags = 2;
    regs->rsp = STACK - 0x100 * vp;
    checked(ioctl(p->fd, KVM_SET_REGS, regs), "KVM_SET_REGS");
    do {
        while (ioctl(p->fd, KVM_RUN, 0) < 0)
            checked(errno == EINTR ? 0 : -1, "KVM_RUN");
    } while (!is_output(p));
    checked(ioctl(p->fd, KVM_GET_REGS, regs), "KVM_GET_REGS");
    bool is_vector = p->run->io.port == INTERRUPTED;
    if (is_vector)
        regs->rbx = *((uint8_t *)p->run + p->run->io.data_offset);
    /* Completes the output, without an instruction of the guest. */
    p->run->immediate_exit = 1;
    ioctl(p->fd, KVM_RUN, 0);
    p->run->immediate_exit = 0;
    return is_vector;
}
