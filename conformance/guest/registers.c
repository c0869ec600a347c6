/* Accesses of registers, and the state that a case begins with. */
#include "guest.h"

static volatile uint8_t scratch[MOST][PAGE] __attribute__((aligned(PAGE)));

/* Registers that a case may change and that are not the board's. */
static const uint32_t others[] = { GUEST_OS_ID, HYPERCALL, REFERENCE_TSC, VP_ASSIST, APIC_BASE };
enum { OTHERS = sizeof others / sizeof others[0] };
static struct { bool is_known, is_there; uint64_t value; } first[MOST][OTHERS];

/* EOI and TPR where Hyper-V's registers for them are not offered. */
static void access_apic(uint32_t offset, uint64_t *value, bool is_write)
{
    if (is_write)
        apic_write(offset, (uint32_t)*value);
    else
        *value = apic_read(offset);
}

/* Returns whether it raised #GP. */
bool access_register(struct cpu *self, uint32_t msr, uint64_t *value, bool is_write)
{
    uint32_t before = self->faults;
    bool has_registers = (offer.features & HAS_APIC) != 0;
    if (!has_registers && msr == EOI && is_write)
        apic_write(0xb0, 0);
    else if (!has_registers && msr == TPR)
        access_apic(0x80, value, is_write);
    else if (is_write)
        raw_write(msr, *value);
    else
        *value = raw_read(msr);
    return self->faults != before;
}

void write_register(struct cpu *self, uint32_t msr, uint64_t value)
{
    access_register(self, msr, &value, true);
}

static void clear(volatile uint8_t *at)
{
    for (volatile uint64_t *word = (volatile uint64_t *)at; word < (volatile uint64_t *)(at + PAGE);)
        *word++ = 0;
}

/* The first call notes what they hold; later ones write it back where it changed. */
static void restore_others(struct cpu *self)
{
    for (unsigned at = 0; at < OTHERS; at++) {
        uint64_t value = 0;
        bool is_there = !access_register(self, others[at], &value, false);
        if (!first[self - cpus][at].is_known) {
            first[self - cpus][at].is_known = true;
            first[self - cpus][at].is_there = is_there;
            first[self - cpus][at].value = value;
        } else if (is_there && first[self - cpus][at].is_there && value != first[self - cpus][at].value)
            write_register(self, others[at], first[self - cpus][at].value);
    }
}

/* Some hypervisors raise #GP for vector 0 of a masked source too, although a SINT has it after a reset. */
static void mask_source(struct cpu *self, unsigned sint)
{
    uint64_t value = MASKED, other = MASKED_INSTEAD;
    if (access_register(self, SINT0 + sint, &value, true))
        access_register(self, SINT0 + sint, &other, true);
}

static void end_messages(struct cpu *self)
{
    volatile uint8_t *mine = scratch[self - cpus];
    write_register(self, SCONTROL, 1);
    write_register(self, SIMP, (uintptr_t)mine | 1);
    for (unsigned turn = 0; turn < 5; turn++) {
        clear(mine);
        write_register(self, EOM, 0);
    }
    clear(mine);
    write_register(self, SIMP, 0);
    write_register(self, SIEFP, (uintptr_t)mine | 1);
    clear(mine);
    write_register(self, SIEFP, 0);
    write_register(self, SCONTROL, 0);
}

/* As after a reset, as far as a guest can: queued messages end by EOM, vectors by EOI. A vector that is late must come
 * now, and not in the next case, so this waits as long as a take. */
void clean(struct cpu *self)
{
    restore_others(self);
    for (unsigned timer = 0; timer < TIMERS; timer++) {
        write_register(self, STIMER0 + 2 * timer, 0);
        write_register(self, STIMER0 + 2 * timer + 1, 0);
    }
    write_register(self, TPR, 0);
    for (unsigned sint = 0; sint < 16; sint++)
        mask_source(self, sint);
    end_messages(self);
    for (unsigned turn = 0; turn < 16; turn++)
        write_register(self, EOI, 0);
    while (take(self) != 0)
        write_register(self, EOI, 0);
}
