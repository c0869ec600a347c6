/* The local APIC, starting the other processors, and what they are ordered to do. */
#include "guest.h"

enum { ICR_LOW = 0x300, ICR_HIGH = 0x310, SPURIOUS = 0xf0, IS_PENDING = 0x1000, IS_MASKED = 0x10000, COPY = 0x8000 };

struct cpu cpus[MOST];
bool has_x2apic;

static volatile uint32_t *apic(uint32_t offset)
{
    uint32_t place = raw_read(APIC_BASE) & 0xfffff000;
    return (volatile uint32_t *)(uintptr_t)((place != 0 ? place : 0xfee00000) + offset);
}

uint32_t apic_read(uint32_t offset)
{
    return has_x2apic ? (uint32_t)raw_read(0x800 + offset / 16) : *apic(offset);
}

void apic_write(uint32_t offset, uint32_t value)
{
    if (has_x2apic)
        raw_write(0x800 + offset / 16, value);
    else
        *apic(offset) = value;
}

void write_icr(uint32_t apic_id, uint32_t low)
{
    if (has_x2apic) {
        raw_write(0x800 + ICR_LOW / 16, (uint64_t)apic_id << 32 | low);
        return;
    }
    *apic(ICR_HIGH) = apic_id << 24;
    *apic(ICR_LOW) = low;
    while ((*apic(ICR_LOW) & IS_PENDING) != 0)
        pause_some(20);
}

/* By the broadcast of INIT and of SIPI, which needs no tables of the firmware. */
void processors_start(void)
{
    extern uint8_t trampoline[], trampoline_end[];
    volatile uint8_t *to = (volatile uint8_t *)(uintptr_t)COPY;
    for (uint8_t *from = trampoline; from < trampoline_end;)
        *to++ = *from++;
    write_icr(0, 0xc4500);
    wait_until(counter() + 100000);
    write_icr(0, 0xc4600 | COPY / PAGE);
    wait_until(counter() + 2000);
    write_icr(0, 0xc4600 | COPY / PAGE);
    wait_until(counter() + 2000000);
    if (started > MOST)
        started = MOST;
}

static void perform(struct cpu *self)
{
    uint64_t value = self->value;
    switch (self->operation) {
    case WRITE: case READ: self->is_fault = access_register(self, self->msr, &value, self->operation == WRITE); break;
    case TAKE: value = take(self); break;
    case CLEAN: clean(self); break;
    }
    self->value = value;
    __sync_synchronize();
    self->operation = NOTHING;
}

/* Firmware may have left local interrupts enabled. */
static void close_local_sources(void)
{
    for (uint32_t offset = 0x320; offset <= 0x370; offset += 0x10)
        if (offset == 0x320 || offset >= 0x350)
            apic_write(offset, IS_MASKED);
}

void on_processor(uint32_t number);

/* The other processors wait for orders. */
static void open_processor(struct cpu *self)
{
    uint32_t registers[4];
    raw_write(GS_BASE, (uintptr_t)self);
    interrupts_load();
    has_x2apic = (raw_read(APIC_BASE) & 0x400) != 0;
    cpuid(1, registers);
    self->apic_id = has_x2apic ? (uint32_t)raw_read(0x802) : registers[1] >> 24;
    close_local_sources();
    apic_write(SPURIOUS, 0x1ff);
}

void processor_serve(struct cpu *self)
{
    open_processor(self);
    while (self != cpus)
        if (self->operation != NOTHING)
            perform(self);
        else
            pause_some(20);
}

uint64_t order(struct cpu *cpu, enum operation operation, uint32_t msr, uint64_t value)
{
    cpu->msr = msr;
    cpu->value = value;
    __sync_synchronize();
    cpu->operation = operation;
    if (cpu == cpus)
        perform(cpu);
    while (cpu->operation != NOTHING)
        pause_some(20);
    return cpu->value;
}
