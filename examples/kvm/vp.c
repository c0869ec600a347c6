/* A processor: its thread, its exits, and the interrupts that it accepts. */
#define _GNU_SOURCE
#include <errno.h>
#include <signal.h>
#include <stdio.h>
#include <string.h>
#include <sys/ioctl.h>
#include <sys/mman.h>
#include <sys/syscall.h>
#include <unistd.h>

#include "vmm.h"

static bool is_paused;
static struct condition left, resumed;

/* immediate_exit makes the next KVM_RUN return at once; the signal interrupts one that runs. */
void vp_kick(struct vp *vp)
{
    if (vp->is_in_guest && !vp->run->immediate_exit) {
        vp->run->immediate_exit = 1;
        lock_interrupt(vp);
    }
    lock_wake(vp);
}

static bool is_any_in_guest(void)
{
    bool is_any = false;
    for (unsigned number = 0; number < vm.vps; number++)
        is_any = is_any || vm.vp[number].is_in_guest;
    return is_any;
}

void vp_pause_others(void)
{
    while (is_paused)
        lock_wait(&resumed);
    is_paused = true;
    for (unsigned number = 0; number < vm.vps; number++)
        vp_kick(&vm.vp[number]);
    while (is_any_in_guest())
        lock_wait(&left);
}

void vp_resume_others(void)
{
    is_paused = false;
    lock_signal(&resumed);
}

/* ---- Exits ---- */

/* Only the overlays and the page of the local APIC are no memory. */
static void handle_mmio(struct vp *vp)
{
    struct kvm_run *run = vp->run;
    uint64_t address = run->mmio.phys_addr;
    uint32_t value = 0xffffffff;
    bool is_apic = address - APIC_BASE < PAGE;
    if (run->mmio.is_write) {
        memcpy(&value, run->mmio.data, sizeof value);
        if (is_apic)
            apic_write(vp, address - APIC_BASE, value);
        else
            board_store(address, run->mmio.data, run->mmio.len);
        return;
    }
    if (is_apic)
        value = apic_read(vp, address - APIC_BASE);
    memset(run->mmio.data, 0xff, sizeof run->mmio.data);
    memcpy(run->mmio.data, &value, sizeof value);
}

static void handle_port(struct vp *vp)
{
    struct kvm_run *run = vp->run;
    uint8_t *data = (uint8_t *)run + run->io.data_offset;
    for (uint32_t at = 0; at < run->io.count; at++, data += run->io.size) {
        uint32_t value = 0;
        if (run->io.direction == KVM_EXIT_IO_OUT) {
            memcpy(&value, data, run->io.size);
            port_write(vp, run->io.port, value);
        } else {
            value = port_read(run->io.port);
            memcpy(data, &value, run->io.size);
        }
    }
}

static void handle_other(struct vp *vp)
{
    struct kvm_regs regs = { 0 };
    ioctl(vp->fd, KVM_GET_REGS, &regs);
    fprintf(stderr, "vmm: processor %u at %llx: exit reason %u\n", vp->number, regs.rip, vp->run->exit_reason);
    vm_stop(1);
}

static void handle_exit(struct vp *vp)
{
    struct kvm_run *run = vp->run;
    uint64_t value = 0;
    vp->exits[run->exit_reason % 64]++;
    switch (run->exit_reason) {
    case KVM_EXIT_X86_RDMSR:
        run->msr.error = !hyperv_read_msr(vp, run->msr.index, &value);
        run->msr.data = value;
        break;
    case KVM_EXIT_X86_WRMSR: run->msr.error = !hyperv_write_msr(vp, run->msr.index, run->msr.data); break;
    case KVM_EXIT_MMIO: handle_mmio(vp); break;
    case KVM_EXIT_IO: handle_port(vp); break;
    case KVM_EXIT_HLT: vp->is_halted = true; break;
    case KVM_EXIT_INTERNAL_ERROR: emulate(vp); break;
    case KVM_EXIT_SET_TPR:              /* enter() passes CR8 to the board */
    case KVM_EXIT_IRQ_WINDOW_OPEN:
    case KVM_EXIT_INTR: break;
    default: handle_other(vp);
    }
}

/* KVM completes the instruction of the last exit when the processor is entered again (Documentation of
 * KVM_RUN: "userspace must re-enter the guest"). It runs no other one here. Returns whether the instruction
 * exits once more. */
static bool exits_again(struct vp *vp)
{
    vp->run->cr8 = vp->tpr >> 4;
    vp->run->immediate_exit = 1;
    int result = ioctl(vp->fd, KVM_RUN, 0);
    vp->run->immediate_exit = 0;
    return result == 0;
}

void vp_complete(struct vp *vp)
{
    while (exits_again(vp))
        handle_exit(vp);
}

/* ---- INIT and SIPI ---- */

void vp_send_init(struct vp *vp)
{
    vp->has_init = true;
    vp->has_sipi = false;
    vp_kick(vp);
}

/* SDM, "INIT, SIPI": a processor that does not wait for a SIPI ignores it. */
void vp_send_sipi(struct vp *vp, uint8_t page)
{
    if (!vp->waits_for_sipi && !vp->has_init)
        return;
    vp->has_sipi = true;
    vp->sipi_page = page;
    vp_kick(vp);
}

static void set_state(struct vp *vp, const struct kvm_sregs *sregs, const struct kvm_regs *regs)
{
    struct kvm_vcpu_events events = { 0 };
    if (ioctl(vp->fd, KVM_SET_SREGS, sregs) != 0)
        fail("KVM_SET_SREGS");
    if (ioctl(vp->fd, KVM_SET_REGS, regs) != 0)
        fail("KVM_SET_REGS");
    if (ioctl(vp->fd, KVM_SET_VCPU_EVENTS, &events) != 0)
        fail("KVM_SET_VCPU_EVENTS");
}

/* A reset of the board's processor covers its local APIC, SynIC and timers. Until SIPI the
 * processor is suspended, so that none of its timers is the earliest. KVM first completes the
 * instruction of the last exit; otherwise it would complete it on the new state. */
static void accept_init(struct vp *vp)
{
    vp->has_init = false;
    exits_again(vp);
    set_state(vp, &vp->reset_sregs, &vp->reset_regs);
    vp->run->ready_for_interrupt_injection = 0;
    vp->is_halted = vp->is_suspended = false;
    vp->waits_for_sipi = true;
    assist_leave(vp);
    board_reset(vp);
    board_suspend(vp);
    apic_reset(vp);
    overlay_map();
}

static void accept_sipi(struct vp *vp)
{
    struct kvm_sregs sregs = vp->reset_sregs;
    struct kvm_regs regs = vp->reset_regs;
    vp->has_sipi = false;
    vp->waits_for_sipi = false;
    sregs.cs.selector = (uint16_t)(vp->sipi_page << 8);
    sregs.cs.base = (uint64_t)vp->sipi_page << 12;
    regs.rip = 0;
    set_state(vp, &sregs, &regs);
    board_resume(vp);
}

/* ---- The thread ---- */

/* Whether the processor has an interrupt to accept, and accepts it: then it halts no longer. */
static bool accepts(struct vp *vp)
{
    bool is_next = synicboard_next(board, vp->number) != 0 && vp->run->ready_for_interrupt_injection;
    vp->is_halted = vp->is_halted && !is_next;
    return is_next;
}

/* The vector to inject, or 0. If another one is next then, asks for an exit as soon as the processor accepts
 * it. */
static uint8_t take(struct vp *vp)
{
    uint8_t vector = accepts(vp) ? board_take(vp) : 0;
    if (vector != 0) {
        vp->run->ready_for_interrupt_injection = 0;
        vp->injected++;
    }
    vp->run->request_interrupt_window = synicboard_next(board, vp->number) != 0;
    return vector;
}

static void inject(const struct vp *vp, uint8_t vector)
{
    struct kvm_interrupt interrupt = { .irq = vector };
    if (vector != 0 && ioctl(vp->fd, KVM_INTERRUPT, &interrupt) != 0)
        fail("KVM_INTERRUPT");
}

static bool can_run(const struct vp *vp)
{
    return !vp->waits_for_sipi && !vp->is_suspended && !vp->is_halted;
}

static void enter(struct vp *vp)
{
    uint8_t vector = take(vp);
    assist_enter(vp);
    vp->run->cr8 = vp->tpr >> 4;
    vp->is_in_guest = true;
    lock_release();
    inject(vp, vector);
    int result = ioctl(vp->fd, KVM_RUN, 0), reason = errno;
    lock_acquire();
    vp->is_in_guest = false;
    vp->run->immediate_exit = 0;
    if (is_paused)
        lock_signal(&left);
    assist_end(vp);
    /* SDM, "Interaction of Task Priorities between CR8 and APIC": both are one register. A guest
     * that raises CR8 does not exit, which is soon enough: only a later event of its own can
     * make the board use the new value. */
    if (!vm.has_irqchip && vp->run->cr8 != vp->tpr >> 4)
        board_write(vp, SYNICBOARD_MSR_TPR, vp->run->cr8 << 4);
    if (result == 0)
        handle_exit(vp);
    else if (reason == EINTR || reason == EAGAIN)
        vp->exits[KVM_EXIT_INTR]++;
    else {
        errno = reason;
        fail("KVM_RUN");
    }
}

static void *run_vp(void *argument)
{
    struct vp *vp = argument;
    lock_acquire();
    vp->thread_id = (int)syscall(SYS_gettid);
    while (!vm.is_stopping) {
        board_advance();
        board_absorb(vp);
        if (vp->has_init)
            accept_init(vp);
        if (vp->has_sipi)
            accept_sipi(vp);
        bus_deliver(vp);
        accepts(vp);
        if (!can_run(vp))
            lock_wait(&vp->kicked);
        else if (is_paused)
            lock_wait(&resumed);
        else
            enter(vp);
    }
    lock_release();
    return NULL;
}

/* ---- Opening ---- */

static void get_reset_state(struct vp *vp)
{
    if (ioctl(vp->fd, KVM_GET_REGS, &vp->reset_regs) != 0)
        fail("KVM_GET_REGS");
    if (ioctl(vp->fd, KVM_GET_SREGS, &vp->reset_sregs) != 0)
        fail("KVM_GET_SREGS");
    vp->reset_sregs.apic_base = APIC_BASE | 1 << 11 | (vp->number == 0 ? 1 << 8 : 0);
    if (ioctl(vp->fd, KVM_SET_SREGS, &vp->reset_sregs) != 0)
        fail("KVM_SET_SREGS");
}

void vp_open(unsigned number)
{
    struct vp *vp = &vm.vp[number];
    int size = ioctl(vm.kvm, KVM_GET_VCPU_MMAP_SIZE, 0);
    vp->number = (uint8_t)number;
    if (size < 0)
        fail("KVM_GET_VCPU_MMAP_SIZE");
    if ((vp->fd = ioctl(vm.fd, KVM_CREATE_VCPU, number)) < 0)
        fail("KVM_CREATE_VCPU");
    vp->run = mmap(NULL, (size_t)size, PROT_READ | PROT_WRITE, MAP_SHARED, vp->fd, 0);
    if (vp->run == MAP_FAILED)
        fail("the page of a processor");
    cpuid_set(vp);
    state_set_tsc_offset(vp, 0);
    get_reset_state(vp);
    apic_reset(vp);
    vp->waits_for_sipi = number != 0 && !vm.has_irqchip;
    if (vp->waits_for_sipi)
        board_suspend(vp);
}

void vp_start(struct vp *vp)
{
    if ((errno = pthread_create(&vp->thread, NULL, run_vp, vp)) != 0)
        fail("the thread of a processor");
}

void vp_transfer(struct vp *vp)
{
    saved_transfer(&vp->is_halted, sizeof vp->is_halted);
    saved_transfer(&vp->is_suspended, sizeof vp->is_suspended);
    saved_transfer(&vp->waits_for_sipi, sizeof vp->waits_for_sipi);
    saved_transfer(&vp->has_init, sizeof vp->has_init);
    saved_transfer(&vp->has_sipi, sizeof vp->has_sipi);
    saved_transfer(&vp->sipi_page, sizeof vp->sipi_page);
    saved_transfer(&vp->tpr, sizeof vp->tpr);
    saved_transfer(&vp->is_assisted, sizeof vp->is_assisted);
}
