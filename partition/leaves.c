/* The leaves of CPUID. */
#include "partition.h"

/* TLFS, "Feature Identification": bits of leaves 40000003 and 40000004. */
struct bit { uint32_t feature, bit; };

static uint32_t collect(uint32_t features, const struct bit *bits, size_t count)
{
    uint32_t all = 0;
    for (size_t at = 0; at < count; at++)
        if ((features & bits[at].feature) != 0)
            all |= 1u << bits[at].bit;
    return all;
}

#define COLLECT(features, bits) collect(features, bits, sizeof(bits) / sizeof(bits)[0])

static const struct bit may_access[] = {
    { PARTITION_COUNTER, 1 }, { PARTITION_SYNIC, 2 }, { PARTITION_TIMERS, 3 }, { PARTITION_APIC, 4 }, { PARTITION_HYPERCALLS, 5 },
    { PARTITION_VP_INDEX, 6 }, { PARTITION_RESET, 7 }, { PARTITION_TSC_PAGE, 9 }, { PARTITION_FREQUENCIES, 11 },
};
static const struct bit may_call[] = { { PARTITION_CONNECTIONS, 4 }, { PARTITION_CONNECTIONS, 5 } };
static const struct bit has[] = { { PARTITION_FREQUENCIES, 8 }, { PARTITION_DIRECT_TIMERS, 19 } };
static const struct bit hints[] = {
    { PARTITION_PREFERS_APIC, 3 }, { PARTITION_RELAXED, 5 }, { PARTITION_NO_AUTO_EOI, 9 }, { PARTITION_CLUSTER_IPI, 10 },
};

bool partition_leaf(const struct partition_offer *offer, uint32_t number, struct partition_leaf *leaf)
{
    const struct partition_leaf leaves[] = {
        { .eax = 0x40000005, .ebx = 0x7263694d, .ecx = 0x666f736f, .edx = 0x76482074 },     /* "Microsoft Hv" */
        { .eax = 0x31237648 },                                                              /* "Hv#1" */
        { .eax = 14393, .ebx = 10 << 16 },
        { .eax = COLLECT(offer->features, may_access), .ebx = COLLECT(offer->features, may_call), .edx = COLLECT(offer->features, has) },
        { .eax = COLLECT(offer->features, hints), .ebx = offer->spin_retries },
        { .eax = offer->vps, .ebx = offer->vps },
    };
    bool is_there = number >= 0x40000000 && number - 0x40000000 < sizeof leaves / sizeof leaves[0];
    *leaf = is_there ? leaves[number - 0x40000000] : (struct partition_leaf){ 0 };
    return is_there;
}
