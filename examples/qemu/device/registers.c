/* What QEMU's processors call: CPUID, RDMSR, WRMSR, reset. */
#include "internal.h"
#include "qapi/error.h"
#include "qemu/error-report.h"
#include "tcg/helper-tcg.h"
#include "synic.h"

static bool is_of_synic(CPUX86State *env)
{
    return synic.is_open && tcg_enabled();
}

static Notifier machine_done;

static void on_machine_done(Notifier *notifier, void *data)
{
    synic_make_ready();
}

bool synic_realize(X86CPU *cpu, Error **errp)
{
    struct partition_offer offer = { 0 };
    if (!synic_make_offer(cpu, &offer, errp))
        return false;
    if (offer.features == 0 || synic.is_open)
        return true;
    synic.offer = offer;
    synic_open_board();
    synic_open_timer();
    synic_open_calls();
    synic_open_state();
    machine_done.notify = on_machine_done;
    qemu_add_machine_init_done_notifier(&machine_done);
    atexit(synic_report);
    return true;
}

bool synic_cpuid(CPUX86State *env, uint32_t index, uint32_t *eax, uint32_t *ebx, uint32_t *ecx, uint32_t *edx)
{
    X86CPU *cpu = env_archcpu(env);
    struct partition_leaf leaf;
    if (!is_of_synic(env) || index >> 8 != 0x400000)
        return false;
    partition_leaf(&synic.offer, index, &leaf);
    *eax = leaf.eax;
    *ebx = index == 0x40000000 ? cpu->hyperv_vendor_id[0] : leaf.ebx;
    *ecx = index == 0x40000000 ? cpu->hyperv_vendor_id[1] : leaf.ecx;
    *edx = index == 0x40000000 ? cpu->hyperv_vendor_id[2] : leaf.edx;
    if (index == 0x40000002) {
        *eax = cpu->hyperv_ver_id_build;
        *ebx = (uint32_t)cpu->hyperv_ver_id_major << 16 | cpu->hyperv_ver_id_minor;
        *ecx = cpu->hyperv_ver_id_sp;
        *edx = (uint32_t)cpu->hyperv_ver_id_sb << 24 | (cpu->hyperv_ver_id_sn & 0xffffff);
    }
    return true;
}

/* ---- Registers of the partition ---- */

static void fill(uint64_t value, const void *bytes, size_t length)
{
    uint64_t address;
    if (partition_page(value, &address))
        address_space_write(&address_space_memory, address, MEMTXATTRS_UNSPECIFIED, bytes, length);
}

static bool write_own(X86CPU *cpu, uint32_t msr, uint64_t value)
{
    if (msr == MSR_VP_ASSIST)
        synic_assist_leave(cpu);
    enum partition_effect effect = partition_write(&synic.partition, CPU(cpu)->cpu_index, msr, value);
    struct partition_tsc_page page;
    uint8_t code[8];
    switch (effect) {
    case PARTITION_FILL_HYPERCALL:
        fill(value, code, partition_port_code(synic_call_port(), code));
        break;
    case PARTITION_FILL_TSC:
        synic_fill_tsc_page(&page);
        fill(value, &page, sizeof(page));
        break;
    case PARTITION_DO_RESET:
        qemu_system_reset_request(SHUTDOWN_CAUSE_GUEST_RESET);
        break;
    default:
        break;
    }
    return effect != PARTITION_PROTECTION;
}

/* ---- RDMSR and WRMSR ---- */

static bool is_board_done(const synicboard_event *event, uint64_t *value)
{
    synicboard_reply reply = synic_perform(event);
    *value = reply.value;
    return reply.kind == SYNICBOARD_DONE || reply.kind == SYNICBOARD_VALUE;
}

static bool read_register(X86CPU *cpu, uint32_t msr, uint64_t *value)
{
    uint8_t vp = CPU(cpu)->cpu_index;
    enum partition_owner owner = partition_owner(&synic.offer, msr);
    if (owner == PARTITION_OF_BOARD)
        return is_board_done(&(synicboard_event){ .kind = SYNICBOARD_READ, .vp = vp, .msr = msr }, value);
    bool is_taken = synic_take_bql();
    bool is_done = owner == PARTITION_OF_APIC ? synic_apic_read(cpu, msr, value)
        : owner == PARTITION_OWN && partition_read(&synic.partition, &synic.offer, vp, msr, value);
    synic_release_bql(is_taken);
    return is_done;
}

static bool write_register(X86CPU *cpu, uint32_t msr, uint64_t value)
{
    uint8_t vp = CPU(cpu)->cpu_index;
    enum partition_owner owner = partition_owner(&synic.offer, msr);
    if (owner == PARTITION_OF_BOARD && (msr == SYNICBOARD_MSR_SIMP || msr == SYNICBOARD_MSR_SIEFP)) {
        synic_move_overlay(cpu, msr, value);
        return true;
    }
    if (owner == PARTITION_OF_BOARD)
        return is_board_done(&(synicboard_event){ .kind = SYNICBOARD_WRITE, .vp = vp, .msr = msr, .value = value }, &value);
    bool is_taken = synic_take_bql();
    bool is_done = owner == PARTITION_OF_APIC ? synic_apic_write(cpu, msr, value) : owner == PARTITION_OWN && write_own(cpu, msr, value);
    synic_release_bql(is_taken);
    return is_done;
}

static bool is_register(CPUX86State *env)
{
    return is_of_synic(env) && (uint32_t)env->regs[R_ECX] >> 12 == 0x40000;
}

bool synic_rdmsr(CPUX86State *env, uintptr_t ra)
{
    uint64_t value = 0;
    if (!is_register(env))
        return false;
    if (!read_register(env_archcpu(env), env->regs[R_ECX], &value))
        raise_exception_err_ra(env, EXCP0D_GPF, 0, ra);
    env->regs[R_EAX] = (uint32_t)value;
    env->regs[R_EDX] = (uint32_t)(value >> 32);
    return true;
}

bool synic_wrmsr(CPUX86State *env, uintptr_t ra)
{
    uint64_t value = (uint32_t)env->regs[R_EAX] | (uint64_t)(uint32_t)env->regs[R_EDX] << 32;
    if (!is_register(env))
        return false;
    if (!write_register(env_archcpu(env), env->regs[R_ECX], value))
        raise_exception_err_ra(env, EXCP0D_GPF, 0, ra);
    return true;
}

/* ---- Reset ---- */

void synic_reset_processor(X86CPU *cpu)
{
    uint8_t vp = CPU(cpu)->cpu_index;
    if (!synic.is_open || vp >= synic.offer.vps)
        return;
    synic_perform(&(synicboard_event){ .kind = SYNICBOARD_RESET, .vp = vp });
    synic.partition.assist[vp] = 0;
    synic_assisted[vp] = 0;
    synic_map_overlays();
}
