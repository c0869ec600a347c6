/* What the files of the flat guest share: instructions, registers, and the state of a processor. */
#ifndef GUEST_H
#define GUEST_H

#include <stdbool.h>
#include <stddef.h>
#include <stdint.h>

#include "mailbox.h"

enum {
    GUEST_OS_ID = 0x40000000, HYPERCALL = 0x40000001, VP_INDEX = 0x40000002, COUNTER = 0x40000020,
    REFERENCE_TSC = 0x40000021, TSC_FREQUENCY = 0x40000022, EOI = 0x40000070, ICR = 0x40000071, TPR = 0x40000072,
    VP_ASSIST = 0x40000073,
    SCONTROL = 0x40000080, SVERSION = 0x40000081, SIEFP = 0x40000082, SIMP = 0x40000083, EOM = 0x40000084,
    SINT0 = 0x40000090, CONFIG0 = 0x400000b0, COUNT0 = 0x400000b1,
};
enum { MASKED = 1 << 16, AUTO_EOI = 1 << 17, OVERLAY_ENABLED = 1 };
enum { ENABLED = 1, PERIODIC = 2, AUTO_ENABLE = 8, DIRECT = 1 << 12 };  /* bits of STIMERn_CONFIG */
enum { TO_SELF = 1 << 18 };                                             /* of ICR */
enum { APIC_EOI = 0xb0, APIC_ICR = 0x300, APIC_TPR = 0x80, APIC_SVR = 0xf0 };    /* in the page of the local APIC */

/* Vectors of this guest; those of the devices are 70 to 7f. */
enum {
    LOW_VECTOR = 0x40, TIMER_MESSAGE_VECTOR = 0x50, MESSAGE_VECTOR = 0x51, FLAG_VECTOR = 0x52, HIGH_VECTOR = 0x60,
    DIRECT_VECTOR = 0x30, CALL_VECTOR = 0x90, WATCH_VECTOR = 0xa0,
};
enum { TIMER_SINT = 2, WATCH_TIMER = 3, WATCH_PERIOD = 100000, WATCHES_A_SECOND = 100 };

/* TLFS, "SynIC Message". */
struct message {
    uint32_t type;
    uint8_t length, flags, reserved[2];
    uint64_t origin;
    union {
        struct {
            uint32_t timer, reserved;
            uint64_t expires, delivered;
        } timer;
        struct letter letter;
        uint8_t payload[240];
    };
};
enum { IS_PENDING = 1, TIMER_EXPIRED = 0x80000010 };

/* A processor, as its own code sees it. The counts are written by its handlers alone. */
struct processor {
    uint32_t number;
    volatile uint32_t seen[256];            /* interrupts, by vector */
    volatile uint32_t timer_messages, wrong_messages, pendings, nested;
    volatile uint32_t ended_without;        /* interrupts that ended without a write of EOI */
    volatile bool keeps_slots;              /* its handlers leave messages where they are */
    volatile uint64_t period, last_expiry, latest, last_time;
    volatile uint64_t letters, wrong_letters;
    volatile uint32_t loads, wrong_loads;   /* interrupts of raisers */
    volatile uint32_t signalled[FLAGS];     /* the messenger's counters, as last seen */
    void (*volatile work)(struct processor *self);
};

extern struct processor processors[LOAD_VPS];
extern volatile struct message message_pages[LOAD_VPS][16];
extern volatile uint8_t flag_pages[LOAD_VPS][4096];
extern volatile uint32_t faults;

static inline uint64_t read_msr(uint32_t msr)
{
    uint32_t low, high;
    __asm__ volatile("rdmsr" : "=a"(low), "=d"(high) : "c"(msr) : "memory");
    return (uint64_t)high << 32 | low;
}

static inline void write_msr(uint32_t msr, uint64_t value)
{
    __asm__ volatile("wrmsr" : : "a"((uint32_t)value), "d"((uint32_t)(value >> 32)), "c"(msr) : "memory");
}

static inline uint64_t read_tsc(void)
{
    uint32_t low, high;
    __asm__ volatile("rdtsc" : "=a"(low), "=d"(high) : : "memory");
    return (uint64_t)high << 32 | low;
}

static inline void out_byte(uint16_t port, uint8_t value)
{
    __asm__ volatile("outb %0, %1" : : "a"(value), "Nd"(port) : "memory");
}

static inline void out(uint16_t port, uint32_t value)
{
    __asm__ volatile("outl %0, %1" : : "a"(value), "Nd"(port) : "memory");
}

static inline uint32_t in(uint16_t port)
{
    uint32_t value;
    __asm__ volatile("inl %1, %0" : "=a"(value) : "Nd"(port) : "memory");
    return value;
}

static inline void disable_interrupts(void)
{
    __asm__ volatile("cli" : : : "memory");
}

static inline void enable_interrupts(void)
{
    __asm__ volatile("sti" : : : "memory");
}

/* STI takes effect after the next instruction, so no interrupt comes before HLT. */
static inline void wait_for_interrupt(void)
{
    __asm__ volatile("sti; hlt; cli" : : : "memory");
}

/* Waits until a condition holds; the answer is false if that takes too long. The watch timer
 * ends each HLT. */
#define WAIT_UNTIL(condition, seconds) ({                                                       \
    struct processor *self_ = this_processor();                                                 \
    uint32_t begin_ = self_->seen[WATCH_VECTOR];                                                \
    disable_interrupts();                                                                       \
    while (!(condition) && self_->seen[WATCH_VECTOR] - begin_ < (seconds) * WATCHES_A_SECOND)   \
        wait_for_interrupt();                                                                   \
    enable_interrupts();                                                                        \
    (bool)(condition); })

/* The same without a timer, with interrupts enabled: a local APIC that KVM emulates may deliver an interrupt late. */
#define SPIN_UNTIL(condition) ({                                                                \
    for (unsigned turn_ = 0; turn_ < 1000000 && !(condition); turn_++)                          \
        __asm__ volatile("pause");                                                              \
    (bool)(condition); })

/* flat.c */
extern bool has_apic_registers;             /* of Hyper-V: EOI, ICR, TPR and the assist page; otherwise the APIC's page is used */
void write_eoi(void);
void write_icr(uint64_t value);
void write_tpr(uint32_t value);
uint32_t read_tpr(void);
void enable_apic(void);
struct processor *this_processor(void);
void check(bool holds, const char *what);
void print_number(const char *what, uint64_t number, const char *unit);
void set_up_synic(struct processor *self);
void start_watch(void);
void load_idt(void);
void consume(volatile struct message *slot);

/* processors.c */
void check_processors(void);
void check_load(void);
void handle_load(struct processor *self, unsigned vector);
void handle_letter(struct processor *self);
void handle_flags(struct processor *self);

#endif
