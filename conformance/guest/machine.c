/* Instructions, and waiting. */
#include "guest.h"

void out(uint16_t port, uint8_t value)
{
    __asm__ volatile("outb %0, %1" : : "a"(value), "Nd"(port));
}

uint8_t in(uint16_t port)
{
    uint8_t value;
    __asm__ volatile("inb %1, %0" : "=a"(value) : "Nd"(port));
    return value;
}

uint64_t raw_read(uint32_t msr)
{
    uint32_t low = 0, high = 0;
    __asm__ volatile("rdmsr" : "+a"(low), "+d"(high) : "c"(msr) : "memory");
    return (uint64_t)high << 32 | low;
}

void raw_write(uint32_t msr, uint64_t value)
{
    __asm__ volatile("wrmsr" : : "a"((uint32_t)value), "d"((uint32_t)(value >> 32)), "c"(msr) : "memory");
}

void cpuid(uint32_t leaf, uint32_t *registers)
{
    __asm__ volatile("cpuid" : "=a"(registers[0]), "=b"(registers[1]), "=c"(registers[2]), "=d"(registers[3])
                     : "0"(leaf), "2"(0));
}

/* The reference counter, in units of 100 ns. */
uint64_t counter(void)
{
    return raw_read(COUNTER);
}

/* Not by PAUSE, which some hypervisors intercept. */
void pause_some(unsigned times)
{
    while (times-- != 0)
        __asm__ volatile("" : : : "memory");
}

void wait_until(uint64_t time)
{
    while (counter() < time)
        pause_some(20);
}

/* The compiler may call these. */
void *memset(void *to, int value, size_t size)
{
    for (volatile uint8_t *at = to; size != 0; size--)
        *at++ = (uint8_t)value;
    return to;
}

void *memcpy(void *to, const void *from, size_t size)
{
    const uint8_t *byte = from;
    for (volatile uint8_t *at = to; size != 0; size--)
        *at++ = *byte++;
    return to;
}
