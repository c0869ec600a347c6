/* The interrupt table, and taking one interrupt. */
#include "guest.h"

/* The status of the serial port. */
enum { EXITING_PORT = 0x3fd };

struct gate { uint16_t low, selector, kind, middle; uint32_t high, zero; };

static struct gate gates[256] __attribute__((aligned(16)));

/* How long a take waits for an interrupt that may not come. */
uint64_t settle = 2000;

static void set_gate(unsigned vector, uintptr_t address)
{
    gates[vector] = (struct gate){
        .low = (uint16_t)address, .selector = 0x10, .kind = 0x8e00,
        .middle = (uint16_t)(address >> 16), .high = (uint32_t)((uint64_t)address >> 32),
    };
}

/* Vectors 16 to 31 are interrupts too. */
void interrupts_open(void)
{
    extern char entries[], exceptions[], on_protection[];
    for (unsigned vector = 0; vector < 16; vector++)
        set_gate(vector, (uintptr_t)exceptions + vector * 16);
    for (unsigned vector = 16; vector < 256; vector++)
        set_gate(vector, (uintptr_t)entries + (vector - 16) * 16);
    set_gate(13, (uintptr_t)on_protection);
    out(0x21, 0xff);                            /* no interrupts of the old controllers */
    out(0xa1, 0xff);
}

void interrupts_load(void)
{
    struct { uint16_t limit; uint64_t address; } __attribute__((packed)) table = { sizeof gates - 1, (uintptr_t)gates };
    __asm__ volatile("lidt %0" : : "m"(table));
}

/* Accepts one interrupt; the handler returns with interrupts disabled. IN exits to the process above a kernel too, so
 * that a hypervisor that delivers at exits delivers here. 0: none came for a while. */
uint32_t take(struct cpu *self)
{
    uint64_t end = counter() + settle;
    self->vector = 0;
    do
        __asm__ volatile("sti; nop; inb %w0, %%al; nop; cli" : : "d"(EXITING_PORT) : "al", "memory");
    while (self->vector == 0 && counter() < end);
    return self->vector;
}

void on_exception(uint32_t vector, uint64_t first, uint64_t second);
void on_exception(uint32_t vector, uint64_t first, uint64_t second)
{
    show("\nexception ", vector, 10, "");
    show(", on the stack ", first, 16, "");
    show(" ", second, 16, "\n");
    for (;;)
        __asm__ volatile("cli; hlt");
}
