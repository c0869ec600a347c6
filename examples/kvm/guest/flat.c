/* A guest without an operating system. It uses its SynIC, synthetic timers and local APICs,
 * checks what it finds, and prints the checks as TAP. It ends the run by a port, with 0 if all
 * checks passed. */
#include "guest.h"

enum { STACK = 16384, SERIAL = 0x3f8, PROTECTION = 13, CODE = 0x10, INTERRUPT_GATE = 0x8e00 };

uint8_t stacks[LOAD_VPS][STACK] __attribute__((aligned(STACK)));
struct processor processors[LOAD_VPS] = { { .number = 0 }, { .number = 1 } };
volatile struct message message_pages[LOAD_VPS][16] __attribute__((aligned(4096)));
volatile uint8_t flag_pages[LOAD_VPS][4096] __attribute__((aligned(4096)));
static uint32_t assist_pages[LOAD_VPS][1024] __attribute__((aligned(4096)));
volatile uint32_t faults;
static unsigned checks, failures;

/* A processor knows itself by its stack. */
struct processor *this_processor(void)
{
    uintptr_t stack;
    __asm__ volatile("mov %%rsp, %0" : "=r"(stack));
    return &processors[(stack - (uintptr_t)stacks) / STACK];
}

/* ---- TAP ---- */

static void print(const char *text)
{
    while (*text != 0)
        out_byte(SERIAL, (uint8_t)*text++);
}

static void print_decimal(uint64_t number)
{
    char digits[21], *at = digits + 20;
    *at = 0;
    do
        *--at = (char)('0' + number % 10);
    while ((number /= 10) != 0);
    print(at);
}

void check(bool holds, const char *what)
{
    failures += !holds;
    print(holds ? "ok " : "not ok ");
    print_decimal(++checks);
    print(" - ");
    print(what);
    print("\n");
}

void print_number(const char *what, uint64_t number, const char *unit)
{
    print("# ");
    print(what);
    print(" ");
    print_decimal(number);
    print(unit);
    print("\n");
}

/* ---- The local APIC ---- */

bool has_apic_registers;

static volatile uint32_t *apic_register(uint32_t offset)
{
    return (volatile uint32_t *)(uintptr_t)(0xfee00000 + offset);
}

void write_eoi(void)
{
    if (has_apic_registers)
        write_msr(EOI, 0);
    else
        *apic_register(APIC_EOI) = 0;
}

void write_icr(uint64_t value)
{
    if (has_apic_registers) {
        write_msr(ICR, value);
        return;
    }
    *apic_register(APIC_ICR + 0x10) = (uint32_t)(value >> 32);
    *apic_register(APIC_ICR) = (uint32_t)value;
}

void write_tpr(uint32_t value)
{
    if (has_apic_registers)
        write_msr(TPR, value);
    else
        *apic_register(APIC_TPR) = value;
}

uint32_t read_tpr(void)
{
    return has_apic_registers ? (uint32_t)read_msr(TPR) : *apic_register(APIC_TPR);
}

/* SDM, "Spurious-Interrupt Vector Register": after reset a local APIC is disabled by software. */
void enable_apic(void)
{
    *apic_register(APIC_SVR) = 0x1ff;
}

/* ---- Interrupts ---- */

/* TLFS, "Message Delivery": the type is cleared first, and MessagePending is read after it; EOM
 * makes the hypervisor try again. The other order would miss a message that comes in between. */
void consume(volatile struct message *slot)
{
    slot->type = 0;
    __sync_synchronize();
    if ((slot->flags & IS_PENDING) == 0)
        return;
    this_processor()->pendings++;
    write_msr(EOM, 0);
}

static void handle_timer_message(struct processor *self)
{
    volatile struct message *slot = &message_pages[self->number][TIMER_SINT];
    uint64_t expires = slot->timer.expires, delivered = slot->timer.delivered;
    self->timer_messages++;
    if (self->keeps_slots)
        return;
    uint64_t since = expires - self->last_expiry;
    bool is_on_grid = self->last_expiry == 0 || (expires > self->last_expiry && since % self->period == 0);
    if (slot->type != TIMER_EXPIRED || slot->length != 24 || delivered < expires || !is_on_grid)
        self->wrong_messages++;
    if (delivered - expires > self->latest)
        self->latest = delivered - expires;
    self->last_expiry = expires;
    consume(slot);
}

/* Sends one of a lower class to itself, which has to wait until this one ends. */
static void handle_high(struct processor *self)
{
    uint32_t before = self->seen[LOW_VECTOR];
    write_icr(LOW_VECTOR | TO_SELF);
    enable_interrupts();
    __asm__ volatile("nop; nop");
    disable_interrupts();
    self->nested += self->seen[LOW_VECTOR] != before;
}

/* TLFS, "EOI Assist": if the first bit is set, clearing it ends the interrupt. It is 0 while the page is disabled. */
static void end_interrupt(struct processor *self)
{
    if ((__atomic_exchange_n(&assist_pages[self->number][0], 0, __ATOMIC_SEQ_CST) & 1) != 0)
        self->ended_without++;
    else
        write_eoi();
}

/* Called by start.S. A vector of an AutoEOI source gets no EOI. */
void on_interrupt(unsigned vector);
void on_interrupt(unsigned vector)
{
    struct processor *self = this_processor();
    self->seen[vector]++;
    switch (vector) {
    case TIMER_MESSAGE_VECTOR: handle_timer_message(self); break;
    case MESSAGE_VECTOR: handle_letter(self); break;
    case FLAG_VECTOR:
        handle_flags(self);
        if (has_apic_registers)
            return;                                     /* AutoEOI */
        break;
    case HIGH_VECTOR: handle_high(self); break;
    case DIRECT_VECTOR: self->last_time = read_msr(COUNTER); break;
    default:
        if (vector >= FIRST_LOAD_VECTOR && vector < FIRST_LOAD_VECTOR + LOAD_VECTORS)
            handle_load(self, vector);
    }
    end_interrupt(self);
}

struct gate { uint16_t low, selector, kind, middle; uint32_t high, zero; };
static struct gate gates[256] __attribute__((aligned(16)));

static void set_gate(unsigned vector, uintptr_t address)
{
    uint32_t high = (uint32_t)(address >> 32);
    gates[vector] = (struct gate){ (uint16_t)address, CODE, INTERRUPT_GATE, (uint16_t)(address >> 16), high, 0 };
}

void load_idt(void)
{
    extern char entries[], on_protection[];
    struct { uint16_t limit; uint64_t address; } __attribute__((packed)) idt = { sizeof gates - 1, (uintptr_t)gates };
    for (unsigned vector = 32; vector < 256; vector++)
        set_gate(vector, (uintptr_t)entries + (vector - 32) * 16);
    set_gate(PROTECTION, (uintptr_t)on_protection);
    __asm__ volatile("lidt %0" : : "m"(idt));
}

/* ---- The SynIC of a processor ---- */

static void write_timer(unsigned timer, uint64_t config, uint64_t count)
{
    write_msr(CONFIG0 + 2 * timer, 0);
    write_msr(COUNT0 + 2 * timer, count);
    write_msr(CONFIG0 + 2 * timer, config);
}

void start_watch(void)
{
    write_timer(WATCH_TIMER, ENABLED | PERIODIC | DIRECT | WATCH_VECTOR << 4, WATCH_PERIOD);
}

void set_up_synic(struct processor *self)
{
    write_msr(SCONTROL, 1);
    write_msr(SIMP, (uintptr_t)message_pages[self->number] | OVERLAY_ENABLED);
    write_msr(SIEFP, (uintptr_t)flag_pages[self->number] | OVERLAY_ENABLED);
    write_msr(SINT0 + TIMER_SINT, TIMER_MESSAGE_VECTOR);
    write_msr(SINT0 + MESSAGE_SINT, MESSAGE_VECTOR);
    write_msr(SINT0 + FLAG_SINT, FLAG_VECTOR | (has_apic_registers ? AUTO_EOI : 0));
}

/* ---- Checks of one processor ---- */

static void check_identity(void)
{
    uint32_t eax = 1, ebx, ecx = 0, edx;
    __asm__ volatile("cpuid" : "+a"(eax), "=b"(ebx), "+c"(ecx), "=d"(edx));
    check(ecx >> 31 == 1, "CPUID says that there is a hypervisor");
    eax = 0x40000000, ecx = 0;
    __asm__ volatile("cpuid" : "+a"(eax), "=b"(ebx), "+c"(ecx), "=d"(edx));
    check(ebx == 0x7263694d && ecx == 0x666f736f && edx == 0x76482074, "its vendor is Microsoft Hv");
    eax = 0x40000001, ecx = 0;
    __asm__ volatile("cpuid" : "+a"(eax), "=b"(ebx), "+c"(ecx), "=d"(edx));
    check(eax == 0x31237648, "its interface is Hv#1");
    eax = 0x40000003, ecx = 0;
    __asm__ volatile("cpuid" : "+a"(eax), "=b"(ebx), "+c"(ecx), "=d"(edx));
    check((eax & 12) == 12 && (edx >> 19 & 1) == 1, "it has a SynIC, synthetic timers and their direct mode");
    has_apic_registers = (eax >> 4 & 1) != 0;
    eax = 0x40000004, ecx = 0;
    __asm__ volatile("cpuid" : "+a"(eax), "=b"(ebx), "+c"(ecx), "=d"(edx));
    check(has_apic_registers != ((eax >> 9 & 1) != 0), "it has registers of the local APIC, or says that AutoEOI is not to be used");
}

static void check_registers(void)
{
    check(read_msr(SVERSION) == 1, "SVERSION is 1");
    check(read_msr(SCONTROL) == 0, "after reset the SynIC is off");
    check(read_msr(SINT0 + 15) == MASKED, "and its sources are masked");
    (void)read_msr(EOI);
    check(faults == 1, "a read of EOI raises #GP");
    write_msr(SINT0, 5);
    check(faults == 2, "a source with vector 5 raises #GP");
    write_msr(SVERSION, 1);
    check(faults == 3, "a write of SVERSION raises #GP");
    write_msr(SINT0 + 1, 0xff | 1 << 18 | 1ULL << 63);
    check(read_msr(SINT0 + 1) == (0xff | 1 << 18 | 1ULL << 63), "a source keeps all bits");
    write_msr(SINT0 + 1, MASKED);
}

static void check_overlays(void)
{
    volatile struct message *page = message_pages[0];
    uint64_t simp = (uintptr_t)page | OVERLAY_ENABLED;
    for (unsigned at = 0; at < 16; at++)
        page[at].origin = 1000 + at;
    write_msr(SIMP, simp);
    check(read_msr(SIMP) == simp, "SIMP reads as written, at any page of memory");
    check(page[3].origin == 0 && page[3].type == 0, "its overlay is empty");
    page[3].origin = 0x123456789;
    check(page[3].origin == 0x123456789, "a store to it is seen by the next load");
    write_msr(SIEFP, simp);
    check(page[3].origin == 0x123456789, "of two overlays at one page the message page is visible");
    write_msr(SIMP, 0);
    check(page[3].origin == 0, "without it, the flag page is");
    write_msr(SIEFP, 0);
    check(page[3].origin == 1003 && page[15].origin == 1015, "without both, the memory below is unchanged");
    write_msr(SIMP, simp);
    check(page[3].origin == 0x123456789, "an overlay that was off has kept its bytes");
    page[3].origin = 0;
    write_msr(SIMP, 0);
}

static void check_priorities(void)
{
    struct processor *self = this_processor();
    disable_interrupts();
    write_tpr(0x60);
    write_icr(HIGH_VECTOR | TO_SELF);
    __asm__ volatile("sti; nop; nop" : : : "memory");
    check(self->seen[HIGH_VECTOR] == 0, "TPR holds back a vector of its class");
    write_tpr(0x5f);
    check(SPIN_UNTIL(self->seen[HIGH_VECTOR] == 1), "a lower TPR releases it");
    check(self->seen[LOW_VECTOR] == 0, "TPR still holds back a vector of a lower class");
    write_tpr(0);
    check(SPIN_UNTIL(self->seen[LOW_VECTOR] == 1) && self->nested == 0, "which did not interrupt the handler of the higher one");
    __asm__ volatile("mov %0, %%cr8" : : "r"(0x7UL));
    check(read_tpr() == 0x70, "TPR reads what is written to CR8");
    write_tpr(0x20);
    uint64_t cr8;
    __asm__ volatile("mov %%cr8, %0" : "=r"(cr8));
    check(cr8 == 2, "CR8 reads what is written to TPR");
    __asm__ volatile("mov %0, %%cr8" : : "r"(0UL));
}

static void check_time(void)
{
    static volatile struct { uint32_t sequence, reserved; uint64_t scale, offset; } page __attribute__((aligned(4096)));
    write_msr(REFERENCE_TSC, (uintptr_t)&page | 1);
    uint64_t before = read_msr(COUNTER), computed;
    uint32_t sequence;
    do {                /* TLFS, "Partition Reference TSC Mechanism": again if the page has changed meanwhile */
        sequence = page.sequence;
        computed = (uint64_t)((unsigned __int128)read_tsc() * page.scale >> 64) + page.offset;
    } while (page.sequence != sequence);
    uint64_t after = read_msr(COUNTER);
    check(before < after, "the reference counter advances");
    check(sequence != 0 && before <= computed && computed <= after, "the reference TSC page agrees with it");
    write_msr(REFERENCE_TSC, 0);
}

static void check_direct_timers(void)
{
    enum { PERIODS = 100, PERIOD = 10000, SHOTS = 50, DELAY = 5000 };
    struct processor *self = this_processor();
    uint64_t begin = read_msr(COUNTER), late = 0, early = 0;
    write_timer(0, ENABLED | PERIODIC | DIRECT | DIRECT_VECTOR << 4, PERIOD);
    bool has_come = WAIT_UNTIL(self->seen[DIRECT_VECTOR] >= PERIODS, 10);
    write_timer(0, 0, 0);
    uint64_t took = self->last_time - begin;
    check(has_come, "a periodic timer of 1 ms in direct mode interrupts 100 times");
    check(took >= PERIODS * PERIOD, "which takes 100 ms or more");
    print_number("it took", took / 10, " us");
    self->seen[DIRECT_VECTOR] = 0;
    write_timer(0, AUTO_ENABLE | DIRECT | DIRECT_VECTOR << 4, 0);
    for (unsigned shot = 1; shot <= SHOTS && has_come; shot++) {
        uint64_t due = read_msr(COUNTER) + DELAY;
        write_msr(COUNT0, due);
        has_come = WAIT_UNTIL(self->seen[DIRECT_VECTOR] == shot, 2);
        early += self->last_time < due;
        late += self->last_time - due;
    }
    check(has_come && early == 0, "50 one-shots of 500 us with AutoEnable interrupt once each, none of them early");
    print_number("the handler read the time after the deadline, on average by", late * 100 / SHOTS, " ns");
}

static void check_timer_messages(uint64_t flags, const char *what)
{
    enum { MESSAGES = 100, PERIOD = 10000 };
    struct processor *self = this_processor();
    self->timer_messages = self->wrong_messages = self->pendings = 0;
    self->last_expiry = self->latest = 0;
    self->period = PERIOD;
    write_msr(SINT0 + TIMER_SINT, TIMER_MESSAGE_VECTOR | flags);
    write_timer(1, ENABLED | PERIODIC | TIMER_SINT << 16, PERIOD);
    bool has_come = WAIT_UNTIL(self->timer_messages >= MESSAGES, 10);
    write_timer(1, 0, 0);
    check(has_come && self->wrong_messages == 0, what);
    print_number("the latest was delivered after its deadline by", self->latest / 10, " us");
}

static void check_occupied_slot(void)
{
    struct processor *self = this_processor();
    volatile struct message *slot = &message_pages[0][TIMER_SINT];
    self->timer_messages = 0;
    self->last_expiry = 0;
    self->keeps_slots = true;
    write_timer(1, ENABLED | PERIODIC | TIMER_SINT << 16, self->period);
    uint32_t begin = self->seen[WATCH_VECTOR];
    WAIT_UNTIL(self->seen[WATCH_VECTOR] - begin >= 10, 2);
    check(self->timer_messages == 1, "an occupied slot gets one message in 100 ms");
    check((slot->flags & IS_PENDING) != 0, "which has MessagePending set");
    write_timer(1, 0, 0);
    self->keeps_slots = false;
    slot->type = 0;
    __sync_synchronize();
    write_msr(EOM, 0);
    check(WAIT_UNTIL(self->timer_messages == 2, 2), "EOM delivers the one that is queued");
    check(slot->type == 0 && (slot->flags & IS_PENDING) == 0, "after which nothing is queued");
}

/* ---- What things cost here ---- */

enum { ROUNDS = 2000 };

static uint64_t nanoseconds(uint64_t tsc)
{
    return tsc * 1000 / (read_msr(TSC_FREQUENCY) / 1000000) / ROUNDS;
}

#define MEASURE(what, action) do {                          \
    uint64_t begin_ = read_tsc();                           \
    for (unsigned round_ = 0; round_ < ROUNDS; round_++)    \
        action;                                             \
    print_number(what, nanoseconds(read_tsc() - begin_), " ns"); } while (0)

/* An emulated processor may take it some instructions later. */
static void interrupt_self(struct processor *self)
{
    uint32_t before = self->seen[LOW_VECTOR];
    write_icr(LOW_VECTOR | TO_SELF);
    for (unsigned turn = 0; turn < 10000 && self->seen[LOW_VECTOR] == before; turn++)
        __asm__ volatile("pause");
}

static void measure(void)
{
    struct processor *self = this_processor();
    uint32_t before = self->seen[LOW_VECTOR];
    MEASURE("a read of VP_INDEX, which the board does not see, takes", (void)read_msr(VP_INDEX));
    MEASURE("a write of TPR takes", write_tpr(0));
    MEASURE("a write of EOI takes", write_eoi());
    MEASURE("a write of EOM takes", write_msr(EOM, 0));
    MEASURE("a store to an overlay takes", message_pages[0][5].origin = 0);
    MEASURE("a load from an overlay takes", (void)message_pages[0][5].origin);
    MEASURE("an interrupt to itself, up to its EOI, takes", interrupt_self(self));
    check(self->seen[LOW_VECTOR] - before == ROUNDS, "2000 interrupts to itself were taken, one after another");
}

/* From here on, so in the load, too. */
static void check_assist(void)
{
    struct processor *self = this_processor();
    uint32_t before = self->seen[LOW_VECTOR];
    check(self->ended_without == 0, "until now each interrupt ended by a write of EOI");
    write_msr(VP_ASSIST, (uintptr_t)assist_pages[0] | 1);
    MEASURE("an interrupt to itself that ends by the assist page takes", interrupt_self(self));
    check(self->seen[LOW_VECTOR] - before == ROUNDS, "2000 interrupts to itself were taken with an assist page");
    check(self->ended_without >= ROUNDS / 2, "most of which ended without a write of EOI");
    before = self->seen[LOW_VECTOR];
    write_icr(HIGH_VECTOR | TO_SELF);
    check(WAIT_UNTIL(self->seen[LOW_VECTOR] == before + 1, 2) && self->nested == 0, "one of a lower class still waits for the end of another, and comes then");
}

/* ---- The run ---- */

/* Called by start.S. */
void first_main(void);
void first_main(void)
{
    load_idt();
    check_identity();
    enable_apic();
    check_registers();
    check_overlays();
    check_priorities();
    check_time();
    start_watch();
    check_direct_timers();
    set_up_synic(this_processor());
    check_timer_messages(0, "100 messages of a periodic timer of 1 ms, each for a period of its grid");
    if (has_apic_registers)
        check_timer_messages(AUTO_EOI, "100 more from an AutoEOI source, with a needless EOI");
    write_msr(SINT0 + TIMER_SINT, TIMER_MESSAGE_VECTOR);
    check_occupied_slot();
    measure();
    if (has_apic_registers)
        check_assist();
    check_processors();
    check_load();
    print("1..");
    print_decimal(checks);
    print("\n");
    out(END_PORT, failures != 0);
}
