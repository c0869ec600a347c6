/* Checks of two processors: starting, interrupting each other, suspending, INIT, and the load of
 * the devices. */
#include "guest.h"

enum { TRAMPOLINE = 0x8000, TO_SECOND_HIGH = 1 };
enum { INIT = 5 << 8 | 1 << 14, STARTUP = 6 << 8 };
#define TO_SECOND ((uint64_t)TO_SECOND_HIGH << 56)

static struct processor *const first = &processors[0], *const second = &processors[1];
static volatile uint32_t starts;
static volatile uint64_t second_index, second_scontrol, second_sint, second_type;
static struct mailbox mailbox __attribute__((aligned(4096)));

/* Called by start.S. The first processor sets `work` and interrupts this one. */
void second_main(void);
void second_main(void)
{
    struct processor *self = this_processor();
    load_idt();
    enable_apic();
    second_index = read_msr(VP_INDEX);
    second_scontrol = read_msr(SCONTROL);
    second_sint = read_msr(SINT0 + TIMER_SINT);
    set_up_synic(self);
    second_type = message_pages[1][TIMER_SINT].type;
    start_watch();
    starts++;
    for (disable_interrupts();; wait_for_interrupt()) {
        if (self->work == NULL)
            continue;
        enable_interrupts();
        self->work(self);
        disable_interrupts();
        self->work = NULL;
    }
}

/* SDM, "Typical BSP Initialization Sequence". */
static bool start_second(void)
{
    extern uint8_t trampoline[], trampoline_end[];
    uint32_t before = starts;
    for (size_t at = 0; trampoline + at < trampoline_end; at++)
        ((volatile uint8_t *)TRAMPOLINE)[at] = trampoline[at];
    write_icr(TO_SECOND | INIT);
    write_icr(TO_SECOND | STARTUP | TRAMPOLINE >> 12);
    return WAIT_UNTIL(starts == before + 1, 10);
}

static bool run_on_second(void (*work)(struct processor *self))
{
    second->work = work;
    write_icr(TO_SECOND | CALL_VECTOR);
    return WAIT_UNTIL(second->work == NULL, 10);
}

/* ---- Starting, and interrupts between them ---- */

enum { CALLS = 500 };

/* Nothing else sends this vector to the second processor. */
static void answer_calls(struct processor *self)
{
    for (uint32_t turn = 1; turn <= CALLS; turn++) {
        if (!WAIT_UNTIL(self->seen[LOW_VECTOR] >= turn, 2))
            return;
        write_icr(HIGH_VECTOR + 1);        /* to processor 0 */
    }
}

static void check_calls(void)
{
    bool has_come = true;
    second->work = answer_calls;
    write_icr(TO_SECOND | CALL_VECTOR);
    for (uint32_t turn = 1; turn <= CALLS && has_come; turn++) {
        write_icr(TO_SECOND | LOW_VECTOR);
        has_come = WAIT_UNTIL(first->seen[HIGH_VECTOR + 1] >= turn, 2);
    }
    check(has_come && first->seen[HIGH_VECTOR + 1] == CALLS, "500 interrupts to it, and 500 from it, come in turn");
    WAIT_UNTIL(second->work == NULL, 2);
}

/* ---- Suspending ---- */

static struct {
    uint64_t partition;
    uint32_t vp, vtl, name, reserved[3];
    uint64_t value[2];
} registers __attribute__((aligned(64)));
static uint8_t hypercall_page[4096] __attribute__((aligned(4096)));

/* TLFS, "HvCallSetVpRegisters", for HvRegisterExplicitSuspend, which is register 0. */
static uint64_t set_suspended(uint32_t vp, uint64_t value)
{
    uint64_t result;
    registers.partition = UINT64_MAX;
    registers.vp = vp;
    registers.value[0] = value;
    __asm__ volatile("call *%1"
        : "=a"(result) : "r"(hypercall_page), "c"(0x51 | 1ULL << 32), "d"(&registers) : "memory", "r8", "r9", "r10", "r11");
    return result;
}

static void start_periods(struct processor *self)
{
    self->seen[DIRECT_VECTOR] = 0;
    write_msr(COUNT0, 10000);
    write_msr(CONFIG0, ENABLED | PERIODIC | DIRECT | DIRECT_VECTOR << 4);
}

static void check_suspending(void)
{
    write_msr(GUEST_OS_ID, 1ULL << 63);
    write_msr(HYPERCALL, (uintptr_t)hypercall_page | 1);
    run_on_second(start_periods);
    WAIT_UNTIL(second->seen[DIRECT_VECTOR] >= 5, 5);
    uint64_t result = set_suspended(1, 1);
    uint32_t before = second->seen[DIRECT_VECTOR], watches = first->seen[WATCH_VECTOR];
    check(result == 1ULL << 32, "the hypercall that suspends it succeeds");
    WAIT_UNTIL(first->seen[WATCH_VECTOR] - watches >= 5, 2);
    check(second->seen[DIRECT_VECTOR] - before <= 1, "while it is suspended its timer of 1 ms does not interrupt it");
    before = second->seen[DIRECT_VECTOR];
    set_suspended(1, 0);
    check(WAIT_UNTIL(second->seen[DIRECT_VECTOR] - before >= 5, 5), "after it has resumed its timer does");
    check(set_suspended(7, 1) == 0xe, "suspending a processor that does not exist fails");
}

/* ---- One interrupt to several ---- */

/* TLFS, "HvCallSendSyntheticClusterIpi", with its input in registers. */
static uint64_t send_to(uint64_t vps, uint64_t vector)
{
    register uint64_t mask __asm__("r8") = vps;
    uint64_t result;
    __asm__ volatile("call *%2"
        : "=a"(result), "+r"(mask) : "r"(hypercall_page), "c"(0x0b | 1ULL << 16), "d"(vector) : "memory", "r9", "r10", "r11");
    return result;
}

static void check_sending(void)
{
    uint32_t seen = first->seen[LOW_VECTOR], too = second->seen[LOW_VECTOR];
    check(send_to(3, LOW_VECTOR) == 0, "the hypercall that interrupts both processors succeeds");
    check(WAIT_UNTIL(first->seen[LOW_VECTOR] == seen + 1 && second->seen[LOW_VECTOR] == too + 1, 2), "it interrupts each once");
    check(send_to(3, 15) == 5, "with a vector below 16 it fails");
}

/* ---- INIT ---- */

static void occupy_slot(struct processor *self)
{
    self->timer_messages = 0;
    self->keeps_slots = true;
    write_msr(COUNT0 + 2, 10000);
    write_msr(CONFIG0 + 2, ENABLED | PERIODIC | TIMER_SINT << 16);
    WAIT_UNTIL((message_pages[1][TIMER_SINT].flags & IS_PENDING) != 0, 2);
}

static void check_init(void)
{
    run_on_second(occupy_slot);
    check(message_pages[1][TIMER_SINT].type == TIMER_EXPIRED, "the first processor sees the message of the second");
    write_icr(TO_SECOND | INIT);
    check(WAIT_UNTIL(message_pages[1][TIMER_SINT].origin == 77, 2), "INIT unmaps the overlays of the second");
    uint32_t before = second->seen[WATCH_VECTOR], watches = first->seen[WATCH_VECTOR];
    WAIT_UNTIL(first->seen[WATCH_VECTOR] - watches >= 5, 2);
    check(second->seen[WATCH_VECTOR] == before, "and ends its timers");
    second->keeps_slots = false;
    check(start_second(), "it starts again");
    check(second_scontrol == 0 && second_sint == MASKED, "with its registers reset");
    check(second_type == 0, "and with its message page empty");
    run_on_second(start_periods);
    check(WAIT_UNTIL(second->seen[DIRECT_VECTOR] >= 5, 5), "and its timers work");
}

void check_processors(void)
{
    message_pages[1][TIMER_SINT].origin = 77;
    check(start_second(), "the second processor starts");
    check(second_index == 1, "its VP_INDEX is 1");
    check(second_scontrol == 0 && second_sint == MASKED, "its SynIC is off and its sources are masked");
    check_calls();
    check_suspending();
    check_sending();
    if (has_apic_registers)         /* an APIC outside the board resets its processor without the board */
        check_init();
}

/* ---- The load ---- */

/* Each raise is one interrupt: the raiser waits until it was handled. */
void handle_load(struct processor *self, unsigned vector)
{
    unsigned index = vector - FIRST_LOAD_VECTOR;
    uint32_t raised = mailbox.raised[self->number][index];
    self->loads++;
    self->wrong_loads += raised != mailbox.handled[self->number][index] + 1;
    mailbox.handled[self->number][index] = raised;
}

void handle_letter(struct processor *self)
{
    volatile struct message *slot = &message_pages[self->number][MESSAGE_SINT];
    self->letters++;
    self->wrong_letters += slot->letter.number != self->letters || slot->letter.check != ~slot->letter.number;
    consume(slot);
}

/* Where pages trap, each flag has a byte of its own: a store of a byte of flags exits with the value to store,
 * and a flag of the same byte that is signalled meanwhile would be lost. Elsewhere the flags share bytes, and one
 * is cleared as Linux does it. Returns whether it was set. */
static bool clear_flag(volatile uint8_t *flags, unsigned flag)
{
    bool was_set = (flags[flag / 8] >> flag % 8 & 1) != 0;
    if (was_set && mailbox.flag_stride == 1)
        __asm__ volatile("lock btrl %1, %0" : "+m"(*(volatile uint32_t *)flags) : "r"(flag) : "memory");
    else if (was_set)
        flags[flag / 8] = 0;
    __sync_synchronize();
    return was_set;
}

void handle_flags(struct processor *self)
{
    for (unsigned flag = 0; flag < FLAGS; flag++) {
        if (!clear_flag(&flag_pages[self->number][256 * FLAG_SINT], flag * mailbox.flag_stride))
            continue;
        self->signalled[flag] = mailbox.signalled[self->number][flag];
    }
}

static bool has_all(const struct processor *self)
{
    uint64_t signals = 0;
    for (unsigned flag = 0; flag < FLAGS; flag++)
        signals += self->signalled[flag];
    return self->loads == mailbox.raises * LOAD_VECTORS && self->letters == mailbox.messages && signals == mailbox.signals;
}

/* Waits as long as anything arrives. */
static void wait_for_load(void)
{
    uint64_t before = UINT64_MAX, now = 0;
    while (now != before && !(has_all(first) && has_all(second))) {
        before = now;
        WAIT_UNTIL(has_all(first) && has_all(second), 3);
        now = first->loads + first->letters + second->loads + second->letters;
    }
}

void check_load(void)
{
    uint32_t load = in(LOAD_PORT);
    mailbox.raises = load / (LOAD_VPS * LOAD_VECTORS);
    mailbox.messages = mailbox.signals = load / 10 / LOAD_VPS;
    first->wrong_loads = second->wrong_loads = 0;
    start_periods(first);
    out(MAILBOX_PORT, (uint32_t)(uintptr_t)&mailbox);
    uint64_t begin = read_msr(COUNTER);
    wait_for_load();
    uint64_t took = read_msr(COUNTER) - begin;
    uint32_t raises = mailbox.raises * LOAD_VECTORS * LOAD_VPS, messages = mailbox.messages * LOAD_VPS;
    print_number("the load took", took / 10000, " ms");
    print_number("interrupts of devices handled:", first->loads + second->loads, "");
    check(first->loads + second->loads == raises && first->wrong_loads + second->wrong_loads == 0,
        "each interrupt of the devices was handled once, none lost");
    print_number("messages received:", first->letters + second->letters, "");
    check(first->letters + second->letters == messages && first->wrong_letters + second->wrong_letters == 0,
        "each message was received once and in order, none lost");
    print_number("posts that found no buffer:", mailbox.refused, "");
    print_number("signals:", mailbox.signals * LOAD_VPS, "");
    check(has_all(first) && has_all(second), "after the last signal of each flag the processor has seen its counter");
    if (has_apic_registers)         /* otherwise the board sees no raise */
        check(in(FRESH_PORT) == raises && in(ABSORBED_PORT) == raises, "each raise was fresh, and was absorbed once");
    check(first->seen[DIRECT_VECTOR] > 0 && second->seen[DIRECT_VECTOR] > 0, "the timers of both ran meanwhile");
}
