/* EOI assist (TLFS, "EOI Assist"), on QEMU's local APICs: most interrupts end without a write of EOI. When a vector is
 * delivered and no other one is requested, the bit "No EOI required" is set in the processor's assist page; a guest that
 * clears it has ended the interrupt. The processor may run meanwhile, so the bit is set and cleared by atomic accesses.
 * Under the BQL. */
#include "internal.h"
#include "hw/i386/apic_internal.h"
#include "qemu/atomic.h"
#include "synic.h"

enum { NO_EOI_REQUIRED = 1, WORDS = 8 };

uint8_t synic_assisted[PARTITION_VPS];
static uint64_t ended_without;

static uint32_t *word_of(uint8_t vp)
{
    uint64_t address;
    if (!(synic.offer.features & PARTITION_APIC) || !partition_page(synic.partition.assist[vp], &address))
        return NULL;
    return (uint32_t *)(void *)synic_find_page(address / PARTITION_PAGE, true);
}

static bool has(const uint32_t *words, unsigned vector)
{
    return (words[vector / 32] >> vector % 32 & 1) != 0;
}

/* Another vector is requested, or the guest writes EOI: if it has cleared the bit, the interrupt has ended, and otherwise it
 * has to write EOI. */
void synic_assist_end(X86CPU *cpu, uint32_t *isr)
{
    unsigned vp = CPU(cpu)->cpu_index;
    if (!synic.is_ready || vp >= synic.offer.vps || synic_assisted[vp] == 0)
        return;
    uint32_t *word = word_of(vp);
    if (word == NULL || (qatomic_fetch_and(word, ~(uint32_t)NO_EOI_REQUIRED) & NO_EOI_REQUIRED) == 0) {
        isr[synic_assisted[vp] / 32] &= ~(1U << synic_assisted[vp] % 32);
        ended_without++;
    }
    synic_assisted[vp] = 0;
}

static void enter(uint8_t vp, uint8_t vector, const uint32_t *irr, const uint32_t *tmr)
{
    uint32_t requested = 0, *word = word_of(vp);
    for (unsigned at = 0; at < WORDS; at++)
        requested |= irr[at];
    if (word == NULL || requested != 0 || has(tmr, vector))
        return;         /* the end of a level-triggered interrupt is reported to its device */
    qatomic_or(word, NO_EOI_REQUIRED);
    synic_assisted[vp] = vector;
}

/* A vector of a source with AutoEOI does not enter service. Whether it is one is evaluated when it is delivered, whoever
 * requested it, as the board does. */
bool synic_delivered(X86CPU *cpu, int vector, const uint32_t *irr, const uint32_t *tmr)
{
    unsigned vp = CPU(cpu)->cpu_index;
    if (!synic.is_ready || vp >= synic.offer.vps || vector < 16)
        return false;
    if (synic_is_auto(vp, vector))
        return true;
    enter(vp, vector, irr, tmr);
    return false;
}

/* The page is about to be another one. */
void synic_assist_leave(X86CPU *cpu)
{
    synic_assist_end(cpu, APIC_COMMON(cpu->apic_state)->isr);
}

uint64_t synic_assist_count(void)
{
    return ended_without;
}
