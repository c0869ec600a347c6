/* The local APICs, which are QEMU's: what the board forwards is requested there, each vector once, as a message-signalled
 * interrupt; and the registers of Hyper-V for EOI, ICR and TPR are those of the page at the APIC's address. */
#include "internal.h"
#include "synic.h"

enum { APIC_PAGE = 0xfee00000, APIC_TPR = 0x80, APIC_EOI = 0xb0, APIC_ICR = 0x300, APIC_ICR_HIGH = 0x310 };

/* SDM, "Message Address Register Format": a fixed, edge-triggered interrupt to the processor with this APIC ID. */
void synic_deliver(uint8_t vp, uint8_t vector)
{
    X86CPU *cpu = X86_CPU(qemu_get_cpu(vp));
    if (cpu != NULL)
        address_space_stl_le(&address_space_memory, APIC_PAGE | cpu->apic_id << 12, vector, MEMTXATTRS_UNSPECIFIED, NULL);
}

void synic_deliver_all(uint8_t vp, const uint64_t vectors[4])
{
    for (unsigned vector = 16; vector < 256; vector++)
        if (vectors[vector / 64] >> vector % 64 & 1)
            synic_deliver(vp, vector);
}

/* The page is that of the processor whose thread accesses it. */
static uint32_t load(uint32_t offset)
{
    return address_space_ldl_le(&address_space_memory, APIC_PAGE + offset, MEMTXATTRS_UNSPECIFIED, NULL);
}

static void store(uint32_t offset, uint32_t value)
{
    address_space_stl_le(&address_space_memory, APIC_PAGE + offset, value, MEMTXATTRS_UNSPECIFIED, NULL);
}

bool synic_apic_read(X86CPU *cpu, uint32_t msr, uint64_t *value)
{
    switch (msr) {
    case SYNICBOARD_MSR_TPR: *value = load(APIC_TPR) & 0xff; return true;
    case MSR_ICR: *value = (uint64_t)load(APIC_ICR_HIGH) << 32 | load(APIC_ICR); return true;
    default: return false;
    }
}

bool synic_apic_write(X86CPU *cpu, uint32_t msr, uint64_t value)
{
    switch (msr) {
    case SYNICBOARD_MSR_EOI: store(APIC_EOI, 0); return true;
    case SYNICBOARD_MSR_TPR: store(APIC_TPR, value & 0xff); return true;
    case MSR_ICR:
        store(APIC_ICR_HIGH, value >> 32);
        store(APIC_ICR, value);
        return true;
    default: return false;
    }
}
