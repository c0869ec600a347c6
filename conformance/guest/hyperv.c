/* What the hypervisor offers by Hyper-V's leaves of CPUID, and the hypercall page. */
#include "guest.h"

enum { INTERFACE = 0x31237648, HAS_DIRECT = 1 << 19, NO_AUTO_EOI = 1 << 9, NOTIFY_LONG_SPIN_WAIT = 0x10008 };

struct offer offer;

static uint8_t hypercall_page[PAGE] __attribute__((aligned(PAGE)));

static void show_name(void)
{
    uint32_t registers[4], name[4];
    cpuid(0x40000000, registers);
    name[0] = registers[1];
    name[1] = registers[2];
    name[2] = registers[3];
    name[3] = 0;
    print("hypervisor ");
    print((const char *)name);
}

/* Some hypervisors enable the SynIC only for a guest that has identified itself. */
static void open_hypercalls(void)
{
    uint64_t status, control = NOTIFY_LONG_SPIN_WAIT;
    if ((offer.features & HAS_HYPERCALL) == 0)
        return;
    raw_write(GUEST_OS_ID, 0x8100ull << 48 | 1);
    raw_write(HYPERCALL, (uintptr_t)hypercall_page | (raw_read(HYPERCALL) & 0xffe) | 1);
    if ((raw_read(HYPERCALL) & 1) == 0)
        return;
    __asm__ volatile("xor %%r8d, %%r8d; call *%%rbx"
                     : "=a"(status), "+c"(control) : "b"(hypercall_page), "d"(0ull)
                     : "r8", "r9", "r10", "r11", "memory");
    show("hypercall status ", status & 0xffff, 10, "\n");
}

static void show_offer(void)
{
    static const struct { uint32_t bit; const char *name; } names[] = {
        { HAS_COUNTER, " counter" }, { HAS_SYNIC, " synic" }, { HAS_TIMERS, " timers" },
        { HAS_APIC, " apic-registers" }, { HAS_HYPERCALL, " hypercalls" },
        { HAS_VP_INDEX, " vp-index" }, { HAS_TSC_PAGE, " tsc-page" },
    };
    print("offered:");
    for (unsigned at = 0; at < sizeof names / sizeof names[0]; at++)
        if ((offer.features & names[at].bit) != 0)
            print(names[at].name);
    print(offer.direct != 0 ? " direct-timers" : "");
    print(offer.no_auto_eoi != 0 ? "; AutoEOI is not to be used\n" : "\n");
}

/* Returns whether there are a SynIC and a clock. */
bool hyperv_open(void)
{
    uint32_t registers[4], is_hypervisor;
    cpuid(1, registers);
    is_hypervisor = registers[2] >> 31;
    show_name();
    cpuid(0x40000001, registers);
    if (is_hypervisor == 0 || registers[0] != INTERFACE) {
        print(", without Hyper-V's interface\n");
        return false;
    }
    cpuid(0x40000002, registers);
    show(", version ", registers[1] >> 16, 10, "");
    show(".", registers[1] & 0xffff, 10, "");
    show(" build ", registers[0], 10, "\n");
    cpuid(0x40000003, registers);
    offer.features = registers[0];
    offer.direct = registers[3] & HAS_DIRECT;
    cpuid(0x40000004, registers);
    offer.no_auto_eoi = registers[0] & NO_AUTO_EOI;
    show_offer();
    if ((offer.features & (HAS_SYNIC | HAS_COUNTER)) != (HAS_SYNIC | HAS_COUNTER))
        return false;
    open_hypercalls();
    return true;
}

/* Registers that the board has not, and that a hypervisor that offers them has. */
static bool is_offered_elsewhere(uint32_t msr)
{
    switch (msr) {
    case 0: case APIC_BASE: return true;
    case GUEST_OS_ID: case HYPERCALL: return (offer.features & HAS_HYPERCALL) != 0;
    case VP_INDEX: return (offer.features & HAS_VP_INDEX) != 0;
    case ICR: case VP_ASSIST: return (offer.features & HAS_APIC) != 0;
    case REFERENCE_TSC: return (offer.features & HAS_TSC_PAGE) != 0;
    default: return false;
    }
}

static const char *line_is_not_offered(const char *line)
{
    const char *word = second_word(line);
    if (!begins(line, "write ") && !begins(line, "read "))
        return NULL;
    parse(&word, 10);
    uint32_t msr = (uint32_t)parse(&word, 16);
    uint64_t value = parse(&word, 16);
    bool is_write = begins(line, "write ");
    if (is_offered_elsewhere(msr))
        return "registers that the board has not, and that are offered";
    if (msr >= STIMER0 && msr < STIMER0 + 2 * TIMERS && (offer.features & HAS_TIMERS) == 0)
        return "timers are not offered";
    if (msr >= STIMER0 && msr < STIMER0 + 2 * TIMERS && msr % 2 == 0 && (value & 0x1000) != 0 && offer.direct == 0)
        return "timers with a vector are not offered";
    if ((offer.features & HAS_APIC) == 0 && (msr == EOI || msr == TPR) && (!is_write || value > 0xff))
        return "registers of the local APIC are not offered";
    if (offer.no_auto_eoi != 0 && is_write && msr >= SINT0 && msr < SINT0 + 16 && (value & 0x20000) != 0)
        return "AutoEOI is not to be used";
    return NULL;
}

/* Why the events of a script are not to be tried here; NULL if they are. */
const char *not_offered(const char *script)
{
    const char *why = NULL;
    for (const char *at = script; why == NULL && *at != 0 && !begins(at, "case "); at = next_line(at))
        why = line_is_not_offered(at);
    return why;
}
