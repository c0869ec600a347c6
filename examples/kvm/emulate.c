/* Where KVM has no hardware to run a guest's kernel, it emulates it, and exits at an instruction
 * that its emulator does not know. The few of them that a kernel needs are carried out here; any
 * other raises #UD in the guest. */
#include <stdio.h>
#include <string.h>
#include <sys/ioctl.h>

#include "vmm.h"

enum { BREAKPOINT = 3, INVALID_OPCODE = 6, NO_EXCEPTION = -1, MOST_UNKNOWN = 100 };
#define ALIGNMENT_CHECK (1u << 18)

static unsigned unknown;

/* Carries out an instruction on the registers, and returns which exception it raises. */
static int carry_out(const uint8_t *bytes, struct kvm_regs *regs)
{
    if (bytes[0] == 0xcc) {                                     /* int3 */
        regs->rip += 1;
        return BREAKPOINT;
    }
    if (bytes[0] == 0x0f && bytes[1] == 0x01 && bytes[2] == 0xca) {     /* clac */
        regs->rip += 3;
        regs->rflags &= ~(uint64_t)ALIGNMENT_CHECK;
        return NO_EXCEPTION;
    }
    if (bytes[0] == 0x0f && bytes[1] == 0x01 && bytes[2] == 0xcb) {     /* stac */
        regs->rip += 3;
        regs->rflags |= ALIGNMENT_CHECK;
        return NO_EXCEPTION;
    }
    return INVALID_OPCODE;
}

static void print_unknown(struct vp *vp, const uint8_t *bytes, unsigned length, uint64_t rip)
{
    fprintf(stderr, "vmm: processor %u at %lx: KVM cannot emulate", vp->number, rip);
    for (unsigned at = 0; at < length; at++)
        fprintf(stderr, " %02x", bytes[at]);
    fprintf(stderr, "\n");
}

static void inject_exception(struct vp *vp, int number)
{
    struct kvm_vcpu_events events;
    if (ioctl(vp->fd, KVM_GET_VCPU_EVENTS, &events) != 0)
        fail("KVM_GET_VCPU_EVENTS");
    events.exception.injected = 1;
    events.exception.pending = 0;
    events.exception.nr = (uint8_t)number;
    events.exception.has_error_code = 0;
    if (ioctl(vp->fd, KVM_SET_VCPU_EVENTS, &events) != 0)
        fail("KVM_SET_VCPU_EVENTS");
}

void emulate(struct vp *vp)
{
    struct kvm_run *run = vp->run;
    struct kvm_regs regs;
    uint8_t bytes[sizeof run->emulation_failure.insn_bytes];
    bool has_bytes = run->emulation_failure.suberror == KVM_INTERNAL_ERROR_EMULATION && run->emulation_failure.ndata >= 3
        && (run->emulation_failure.flags & KVM_INTERNAL_ERROR_EMULATION_FLAG_INSTRUCTION_BYTES) != 0;
    if (ioctl(vp->fd, KVM_GET_REGS, &regs) != 0)
        fail("KVM_GET_REGS");
    memcpy(bytes, run->emulation_failure.insn_bytes, sizeof bytes);
    int exception = has_bytes ? carry_out(bytes, &regs) : INVALID_OPCODE;
    vm.emulated++;
    if (exception == INVALID_OPCODE)
        print_unknown(vp, bytes, has_bytes ? run->emulation_failure.insn_size : 0, regs.rip);
    if (exception == INVALID_OPCODE && (!has_bytes || ++unknown == MOST_UNKNOWN)) {
        vm_stop(1);
        return;
    }
    if (ioctl(vp->fd, KVM_SET_REGS, &regs) != 0)
        fail("KVM_SET_REGS");
    if (exception != NO_EXCEPTION)
        inject_exception(vp, exception);
}
