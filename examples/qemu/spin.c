/* Executes a known number of instructions, and prints how many there were meanwhile by the TSC, which counts one for each
 * with -icount shift=0: the others are those of interrupts. Without a C library. */
enum { WRITE = 1, EXIT = 60 };
#define TURNS 500000000UL       /* of two instructions each */

static long call(long number, long a, const void *b, long c)
{
    long result;
    __asm__ volatile("syscall" : "=a"(result) : "a"(number), "D"(a), "S"(b), "d"(c) : "rcx", "r11", "memory");
    return result;
}

static unsigned long tsc(void)
{
    unsigned low, high;
    __asm__ volatile("rdtsc" : "=a"(low), "=d"(high));
    return (unsigned long)high << 32 | low;
}

void _start(void)
{
    char digits[24], *at = digits + sizeof digits;
    unsigned long turns = TURNS, begin = tsc();
    __asm__ volatile("1: dec %0\njnz 1b" : "+r"(turns) : : "cc");
    unsigned long others = tsc() - begin - 2 * TURNS;
    *--at = '\n';
    do
        *--at = (char)('0' + others % 10);
    while ((others /= 10) != 0);
    call(WRITE, 1, at, digits + sizeof digits - at);
    call(EXIT, 0, 0, 0);
}
