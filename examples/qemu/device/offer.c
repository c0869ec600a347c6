/* The options of -cpu: what each of QEMU's hv-* properties offers, and which are refused, since nothing here does them. */
#include "internal.h"
#include "hw/boards.h"
#include "qapi/error.h"

/* KVM has the assist page always, too. */
enum { OFFERED_ALWAYS = PARTITION_HYPERCALLS | PARTITION_ASSIST };

/* A property without features is one that is not offered. */
static const struct property {
    const char *name;
    unsigned bit;
    uint32_t features;
    uint64_t needs;             /* other properties */
} properties[] = {
    { "hv-relaxed", HYPERV_FEAT_RELAXED, PARTITION_RELAXED, 0 },
    { "hv-vapic", HYPERV_FEAT_VAPIC, PARTITION_APIC | PARTITION_PREFERS_APIC, 0 },
    { "hv-time", HYPERV_FEAT_TIME, PARTITION_COUNTER | PARTITION_TSC_PAGE, 0 },
    { "hv-crash", HYPERV_FEAT_CRASH, 0, 0 },
    { "hv-reset", HYPERV_FEAT_RESET, PARTITION_RESET, 0 },
    { "hv-vpindex", HYPERV_FEAT_VPINDEX, PARTITION_VP_INDEX, 0 },
    { "hv-runtime", HYPERV_FEAT_RUNTIME, 0, 0 },
    { "hv-synic", HYPERV_FEAT_SYNIC, PARTITION_SYNIC | PARTITION_CONNECTIONS, BIT(HYPERV_FEAT_VPINDEX) },
    { "hv-stimer", HYPERV_FEAT_STIMER, PARTITION_TIMERS, BIT(HYPERV_FEAT_SYNIC) | BIT(HYPERV_FEAT_TIME) },
    { "hv-stimer-direct", HYPERV_FEAT_STIMER_DIRECT, PARTITION_DIRECT_TIMERS, BIT(HYPERV_FEAT_STIMER) },
    { "hv-frequencies", HYPERV_FEAT_FREQUENCIES, PARTITION_FREQUENCIES, 0 },
    { "hv-reenlightenment", HYPERV_FEAT_REENLIGHTENMENT, 0, 0 },
    { "hv-tlbflush", HYPERV_FEAT_TLBFLUSH, 0, 0 },
    { "hv-evmcs", HYPERV_FEAT_EVMCS, 0, 0 },
    { "hv-ipi", HYPERV_FEAT_IPI, PARTITION_CLUSTER_IPI, BIT(HYPERV_FEAT_VPINDEX) },
    { "hv-avic", HYPERV_FEAT_AVIC, PARTITION_NO_AUTO_EOI, 0 },
    { "hv-syndbg", HYPERV_FEAT_SYNDBG, 0, 0 },
    { "hv-emsr-bitmap", HYPERV_FEAT_MSR_BITMAP, 0, 0 },
    { "hv-xmm-input", HYPERV_FEAT_XMM_INPUT, 0, 0 },
    { "hv-tlbflush-ext", HYPERV_FEAT_TLBFLUSH_EXT, 0, 0 },
    { "hv-tlbflush-direct", HYPERV_FEAT_TLBFLUSH_DIRECT, 0, 0 },
};

static const char *name_of(uint64_t bits)
{
    for (unsigned at = 0; at < ARRAY_SIZE(properties); at++)
        if (bits & BIT(properties[at].bit))
            return properties[at].name;
    return "?";
}

/* What is not offered is refused, as a guest would miss it. */
static bool collect(const X86CPU *cpu, uint32_t *features, Error **errp)
{
    for (unsigned at = 0; at < ARRAY_SIZE(properties); at++) {
        const struct property *property = &properties[at];
        if (!(cpu->hyperv_features & BIT(property->bit)))
            continue;
        if (property->features == 0) {
            error_setg(errp, "%s is not offered by the emulator", property->name);
            return false;
        }
        if ((property->needs & ~cpu->hyperv_features) != 0) {
            error_setg(errp, "%s needs %s", property->name, name_of(property->needs & ~cpu->hyperv_features));
            return false;
        }
        *features |= property->features | OFFERED_ALWAYS;
    }
    return true;
}

bool synic_make_offer(X86CPU *cpu, struct partition_offer *offer, Error **errp)
{
    unsigned vps = current_machine->smp.max_cpus;
    if (cpu->hyperv_passthrough || cpu->hyperv_enforce_cpuid || cpu->hyperv_no_nonarch_cs == ON_OFF_AUTO_ON) {
        error_setg(errp, "hv-passthrough, hv-enforce-cpuid and hv-no-nonarch-coresharing are not offered by the emulator");
        return false;
    }
    if (!collect(cpu, &offer->features, errp))
        return false;
    if (cpu->hyperv_spinlock_attempts != UINT32_MAX)
        offer->features |= OFFERED_ALWAYS;
    if (offer->features == 0)
        return true;
    if (vps > PARTITION_VPS || cpu->apic_id > 0xfe) {
        error_setg(errp, "the emulator offers the properties hv-* for at most %u processors, with APIC IDs below 255",
                   PARTITION_VPS);
        return false;
    }
    offer->vps = vps;
    offer->spin_retries = cpu->hyperv_spinlock_attempts;
    offer->tsc_hz = offer->apic_hz = SYNIC_TSC_HZ;
    return true;
}
