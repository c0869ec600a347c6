/* Whose each register is, and those of the partition. */
#include <string.h>

#include "partition.h"

static bool is_in(uint32_t msr, uint32_t first, uint32_t count)
{
    return msr >= first && msr < first + count;
}

/* The feature without which a register does not exist; 0 for one that never does. */
static uint32_t feature_of(uint32_t msr)
{
    switch (msr) {
    case MSR_GUEST_OS_ID: case MSR_HYPERCALL: return PARTITION_HYPERCALLS;
    case MSR_VP_INDEX: return PARTITION_VP_INDEX;
    case MSR_RESET: return PARTITION_RESET;
    case SYNICBOARD_MSR_TIME_REF_COUNT: return PARTITION_COUNTER;
    case MSR_REFERENCE_TSC: return PARTITION_TSC_PAGE;
    case MSR_TSC_FREQUENCY: case MSR_APIC_FREQUENCY: return PARTITION_FREQUENCIES;
    case SYNICBOARD_MSR_EOI: case MSR_ICR: case SYNICBOARD_MSR_TPR: return PARTITION_APIC;
    case MSR_VP_ASSIST: return PARTITION_ASSIST;
    }
    if (is_in(msr, SYNICBOARD_MSR_SCONTROL, 5) || is_in(msr, SYNICBOARD_MSR_SINT0, 16))
        return PARTITION_SYNIC;
    return is_in(msr, SYNICBOARD_MSR_STIMER0_CONFIG, 8) ? PARTITION_TIMERS : 0;
}

enum partition_owner partition_owner(const struct partition_offer *offer, uint32_t msr)
{
    uint32_t feature = feature_of(msr);
    if ((offer->features & feature) == 0)
        return PARTITION_NOBODY;
    if (msr == SYNICBOARD_MSR_TIME_REF_COUNT || feature == PARTITION_SYNIC || feature == PARTITION_TIMERS)
        return PARTITION_OF_BOARD;
    return feature == PARTITION_APIC ? PARTITION_OF_APIC : PARTITION_OWN;
}

bool partition_needs_time(uint32_t msr)
{
    return msr == SYNICBOARD_MSR_TIME_REF_COUNT || msr == SYNICBOARD_MSR_EOM || is_in(msr, SYNICBOARD_MSR_STIMER0_CONFIG, 8);
}

bool partition_read(const struct partition *partition, const struct partition_offer *offer, uint8_t vp, uint32_t msr, uint64_t *value)
{
    switch (msr) {
    case MSR_GUEST_OS_ID: *value = partition->guest_os_id; return true;
    case MSR_HYPERCALL: *value = partition->hypercall; return true;
    case MSR_VP_INDEX: *value = vp; return true;
    case MSR_RESET: *value = 0; return true;
    case MSR_REFERENCE_TSC: *value = partition->reference_tsc; return true;
    case MSR_TSC_FREQUENCY: *value = offer->tsc_hz; return true;
    case MSR_APIC_FREQUENCY: *value = offer->apic_hz; return true;
    case MSR_VP_ASSIST: *value = partition->assist[vp]; return true;
    default: return false;
    }
}

enum partition_effect partition_write(struct partition *partition, uint8_t vp, uint32_t msr, uint64_t value)
{
    switch (msr) {
    case MSR_GUEST_OS_ID: partition->guest_os_id = value; return PARTITION_DONE;
    case MSR_HYPERCALL: partition->hypercall = value; return PARTITION_FILL_HYPERCALL;
    case MSR_RESET: return (value & 1) != 0 ? PARTITION_DO_RESET : PARTITION_DONE;
    case MSR_REFERENCE_TSC: partition->reference_tsc = value; return PARTITION_FILL_TSC;
    case MSR_VP_ASSIST: partition->assist[vp] = value; return PARTITION_MOVED_ASSIST;
    default: return PARTITION_PROTECTION;
    }
}

/* TLFS, "Establishing the Hypercall Interface" and "Reference TSC Page MSR": bit 0 enables a page, whose number is above
 * the low 12 bits. */
bool partition_page(uint64_t value, uint64_t *address)
{
    *address = value & ~(uint64_t)(PARTITION_PAGE - 1);
    return (value & 1) != 0;
}

size_t partition_port_code(uint8_t port, uint8_t code[8])
{
    const uint8_t bytes[] = { 0xe7, port, 0xc3 };      /* out %eax, $port; ret */
    memcpy(code, bytes, sizeof bytes);
    return sizeof bytes;
}
