/* What the loader passes: the command line of Multiboot or of PVH, and the framebuffer of Multiboot. */
#include "guest.h"

enum { MULTIBOOT = 0x2badb002, HAS_COMMAND_LINE = 1 << 2, OF_MULTIBOOT = 16, PVH = 0x336ec578, OF_PVH = 24 };
enum { HAS_FRAMEBUFFER = 1 << 12, OF_FRAMEBUFFER = 88 };

extern uint32_t boot_magic, boot_info;

/* `reset`: end by a reset, not by a halt. `serve`: answer scripts at the serial port. `only=NAME`, `without=NAME`: the
 * cases whose names begin so, or do not; several are separated by commas. `unit=N`: the unit of time, in units of
 * 100 ns. */
bool boot_resets, boot_serves;
const char *boot_only, *boot_without;
uint64_t boot_unit;

static const char *command_line(void)
{
    const uint32_t *info = (const uint32_t *)(uintptr_t)boot_info;
    if (boot_info == 0)
        return "reset " OPTIONS;                /* a flat image: examples/kvm, where a reset ends the run */
    if (boot_magic == MULTIBOOT)
        return (info[0] & HAS_COMMAND_LINE) != 0 ? (const char *)(uintptr_t)info[OF_MULTIBOOT / 4] : "";
    return info[0] == PVH && info[OF_PVH / 4] != 0 ? (const char *)(uintptr_t)info[OF_PVH / 4] : "";
}

/* The loader's memory may be overwritten later. */
static const char *copied(const char *line)
{
    static char copy[1024];
    unsigned at = 0;
    for (; line[at] != 0 && at < sizeof copy - 1; at++)
        copy[at] = line[at];
    copy[at] = 0;
    return copy;
}

void boot_read_options(void)
{
    for (const char *at = copied(command_line()); *at != 0;) {
        const char *number = at + 5;
        if (begins(at, "reset"))
            boot_resets = true;
        else if (begins(at, "serve"))
            boot_serves = true;
        else if (begins(at, "only="))
            boot_only = at + 5;
        else if (begins(at, "without="))
            boot_without = at + 8;
        else if (begins(at, "unit="))
            boot_unit = parse(&number, 10);
        at = second_word(at);
        while (*at == ' ')
            at++;
    }
}

/* NULL if there is none. */
const struct framebuffer *boot_framebuffer(void)
{
    const uint32_t *info = (const uint32_t *)(uintptr_t)boot_info;
    if (boot_info == 0 || boot_magic != MULTIBOOT || (info[0] & HAS_FRAMEBUFFER) == 0)
        return NULL;
    return (const struct framebuffer *)(info + OF_FRAMEBUFFER / 4);
}
