/* main.c: KVM as a peer of tools/conform.
 *
 *   kvm-peer                  as QEMU sets KVM up: the second SynIC capability, SCONTROL 0
 *   kvm-peer --bare           the first SynIC capability, SCONTROL as KVM sets it up
 *   kvm-peer --guarded        refuses registers that conformance/faulty --kvm leaves out, and long ticks */
#include "vm.h"

#include <stdio.h>
#include <string.h>
#include <sys/ioctl.h>
#include <sys/time.h>

enum { SECONDS = 20, LAST = 1000000, LAST_GUARDED = 20000, MSI_ADDRESS = 0xfee00000 };

static bool is_guarded;

static bool is_absent(unsigned vp) { return vp >= vm.processors; }

/* Ends the process if it uses the processor for so long without reading a line: KVM may be in a loop.
 * The time of the process and not of the clock, so that a long tick is no such loop. */
static int open_board(unsigned processors, unsigned pages, uint64_t ticket __attribute__((unused)))
{
    setitimer(ITIMER_PROF, &(struct itimerval){ .it_value.tv_sec = SECONDS }, NULL);
    /* A board that cannot be opened has no processors, so each event is refused. If the peer ended
     * here, lines that it has read would get no answer, which `shrink` would wait for. */
    open_machine(processors, pages);
    return 1;
}

/* ---- Registers: WRMSR and RDMSR by the guest, with times scaled to KVM's clock ---- */

static uint64_t *count_of(unsigned vp, uint32_t msr)
{
    bool is_count = !is_absent(vp) && msr > STIMER0 && msr < STIMER0 + 2 * TIMERS && msr % 2 == 1;
    return is_count ? &vm.vps[vp].counts[(msr - STIMER0) / 2] : NULL;
}

static uint64_t scaled(uint64_t count)
{
    return count > UINT64_MAX / UNIT ? count : count * UNIT;
}

/* Registers next to the SynIC that KVM has and the model of conformance/faulty has not. */
static bool is_left_out(uint32_t msr)
{
    enum { VP_INDEX = 0x40000002, ICR = 0x40000071, VP_ASSIST_PAGE = 0x40000073 };
    return msr == 0 || msr == APIC_BASE || msr == VP_INDEX || msr == ICR || msr == VP_ASSIST_PAGE;
}

/* Done or #GP, or refused. */
static struct peer_reply access_msr(unsigned vp, enum operation operation, uint32_t msr, uint64_t *value)
{
    struct kvm_regs regs = { .rax = (uint32_t)*value, .rdx = *value >> 32, .rcx = msr };
    if (is_absent(vp) || (is_guarded && is_left_out(msr)))
        return refused(is_absent(vp) ? 14 : 99);
    set_clock_to_time();
    bool is_fault = is_interrupted(vp, operation, &regs);
    *value = regs.rdx << 32 | (uint32_t)regs.rax;
    return finished(peer_reply(is_fault ? PEER_GENERAL_PROTECTION : PEER_DONE, 0));
}

static struct peer_reply write_msr(unsigned vp, uint32_t msr, uint64_t value)
{
    uint64_t *count = count_of(vp, msr), raw = count != NULL ? scaled(value) : value;
    struct peer_reply reply = access_msr(vp, DO_WRMSR, msr, &raw);
    if (reply.kind == PEER_DONE && count != NULL)
        *count = value;
    return reply;
}

static uint64_t as_read(unsigned vp, uint32_t msr, uint64_t raw)
{
    const uint64_t *count = count_of(vp, msr);
    if (count != NULL)
        return raw == scaled(*count) ? *count : raw / UNIT;
    /* On AMD the low 4 bits come and go. */
    if (msr == TPR && is_guarded)
        return raw & 0xf0;
    return msr == REFERENCE_COUNT ? raw / UNIT : raw;
}

static struct peer_reply read_msr(unsigned vp, uint32_t msr)
{
    uint64_t raw = 0;
    struct peer_reply reply = access_msr(vp, DO_RDMSR, msr, &raw);
    return reply.kind == PEER_DONE ? peer_reply(PEER_VALUE, as_read(vp, msr, raw)) : reply;
}

/* ---- A guest's accesses: KVM has no overlay pages, so they are those of the machine's memory ---- */

static unsigned refusal_of(uint64_t address, size_t length)
{
    if (length == 0 || length > 8)
        return 13;
    if (address / PAGE >= vm.pages)
        return 11;
    return address % PAGE + length > PAGE ? 12 : 0;
}

static struct peer_reply guest_store(uint64_t address, const uint8_t *bytes, size_t length)
{
    unsigned why = refusal_of(address, length);
    if (why)
        return refused(why);
    memcpy(vm.memory + address, bytes, length);
    return done();
}

static struct peer_reply guest_load(uint64_t address, unsigned length)
{
    unsigned why = refusal_of(address, length);
    if (why)
        return refused(why);
    struct peer_reply reply = { .kind = PEER_BYTES, .length = length };
    memcpy(reply.bytes, vm.memory + address, length);
    return reply;
}

/* ---- Vectors: they arrive at the local APIC as MSIs ---- */

static struct peer_reply absorb_posted(unsigned vp, unsigned part, uint64_t bits)
{
    if (is_absent(vp))
        return refused(14);
    if (part > 3)
        return refused(4);
    struct kvm_msi msi = { .address_lo = MSI_ADDRESS | vp << 12, .data = 64 * part };
    /* A local APIC that software disabled drops it. */
    for (; bits != 0; bits >>= 1, msi.data++)
        if (bits & 1)
            ioctl(vm.fd, KVM_SIGNAL_MSI, &msi);
    return done();
}

static struct peer_reply assert_irq(unsigned vp, unsigned vector)
{
    return absorb_posted(vp, vector / 64, (uint64_t)1 << vector % 64);
}

static struct peer_reply take_interrupt(unsigned vp)
{
    if (is_absent(vp))
        return refused(14);
    if (vm.vps[vp].is_suspended)
        return peer_reply(PEER_NONE_TAKEN, 0);
    set_clock_to_time();
    struct kvm_regs regs = { 0 };
    bool is_taken = is_interrupted(vp, DO_TAKE, &regs);
    return finished(peer_reply(is_taken ? PEER_TAKEN : PEER_NONE_TAKEN, regs.rbx));
}

/* ---- Time, suspension, reset ---- */

static struct peer_reply advance_time(uint64_t time)
{
    if (time < vm.time || vm.processors == 0)
        return refused(10);
    if (time > (is_guarded ? LAST_GUARDED : LAST))
        return is_guarded ? refused(10) : peer_reply(PEER_UNSUPPORTED, 0);
    if (time > vm.time) {
        sleep_until(time);
        for (unsigned vp = 0; vp < vm.processors; vp++)
            if (!vm.vps[vp].is_suspended)
                is_interrupted(vp, DO_NOTHING, &(struct kvm_regs){ 0 });
        vm.time = time;
        set_clock_to_time();
    }
    return done();
}

/* KVM has no such state: ticks do not enter a suspended processor, and it takes nothing. */
static struct peer_reply set_suspended(unsigned vp, bool is_suspended)
{
    if (is_absent(vp))
        return refused(14);
    if (vm.vps[vp].is_suspended == is_suspended)
        return refused(is_suspended ? 15 : 16);
    vm.vps[vp].is_suspended = is_suspended;
    return done();
}

static struct peer_reply suspend(unsigned vp) { return set_suspended(vp, true); }
static struct peer_reply resume(unsigned vp) { return set_suspended(vp, false); }

static struct peer_reply reset(unsigned vp)
{
    if (is_absent(vp))
        return refused(14);
    reset_processor(vp);
    for (unsigned port = 0; port < PORTS; port++)
        if (vm.ports[port].vp == vp)
            vm.ports[port].queued = 0;
    return done();
}

int main(int count, char **words)
{
    static const struct peer peer = {
        .open_board = open_board, .open_message_port = open_message_port, .open_event_port = open_event_port,
        .close_port = close_port, .write_msr = write_msr, .read_msr = read_msr, .post_message = post_message,
        .signal_event = signal_event, .assert_irq = assert_irq, .absorb_posted = absorb_posted,
        .guest_store = guest_store, .guest_load = guest_load, .advance_time = advance_time,
        .take_interrupt = take_interrupt, .suspend = suspend, .resume = resume, .reset = reset,
    };
    for (int at = 1; at < count; at++)
        if (strcmp(words[at], "--bare") == 0)
            vm.is_bare = true;
        else if (strcmp(words[at], "--guarded") == 0)
            is_guarded = true;
        else
            return fprintf(stderr, "kvm-peer: there is no option %s\n", words[at]), 2;
    return peer_main(&peer);
}
