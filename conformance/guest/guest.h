/* What the parts of the guest share. It runs without an operating system, in long mode, at its own addresses. */
#ifndef GUEST_H
#define GUEST_H

#include <stdbool.h>
#include <stddef.h>
#include <stdint.h>

enum { MOST = 8, TIMERS = 4, PAGE = 4096, PAGES = 64 };

enum {
    GUEST_OS_ID = 0x40000000, HYPERCALL, VP_INDEX, RESET, COUNTER = 0x40000020, REFERENCE_TSC,
    EOI = 0x40000070, ICR, TPR, VP_ASSIST,
    SCONTROL = 0x40000080, SVERSION, SIEFP, SIMP, EOM, SINT0 = 0x40000090, STIMER0 = 0x400000b0,
    APIC_BASE = 0x1b, GS_BASE = 0xc0000101,
};

/* TLFS, "Feature Identification": bits of EAX of leaf 40000003. */
enum {
    HAS_COUNTER = 1 << 1, HAS_SYNIC = 1 << 2, HAS_TIMERS = 1 << 3, HAS_APIC = 1 << 4, HAS_HYPERCALL = 1 << 5,
    HAS_VP_INDEX = 1 << 6, HAS_TSC_PAGE = 1 << 9,
};

enum operation { NOTHING, WRITE, READ, TAKE, CLEAN };

struct cpu {
    volatile uint32_t vector, faults;           /* interrupts.S writes these two */
    uint32_t apic_id;
    volatile uint32_t operation, msr;
    volatile uint64_t value;
    volatile bool is_fault;
    uint64_t pages[2][2];                       /* SIEFP and SIMP: as in the script, as written */
    uint64_t config[TIMERS], count[TIMERS], raw_count[TIMERS];
    bool has_period[TIMERS];                    /* whether the count was written as a period */
} __attribute__((aligned(64)));

/* machine.c */
void out(uint16_t port, uint8_t value);
uint8_t in(uint16_t port);
uint64_t raw_read(uint32_t msr);
void raw_write(uint32_t msr, uint64_t value);
void cpuid(uint32_t leaf, uint32_t *registers);
uint64_t counter(void);
void pause_some(unsigned times);
void wait_until(uint64_t time);

/* text.c */
bool begins(const char *text, const char *word);
uint64_t parse(const char **at, unsigned radix);
const char *next_line(const char *at);
const char *second_word(const char *line);
char *put_text(char *to, const char *text);
char *put_number(char *to, uint64_t number, unsigned radix);

/* screen.c, font.c */
extern const uint8_t font[][8];
void screen_open(void);
void screen_put(char c);

/* console.c */
void console_open(void);
void print(const char *text);
void print_line(const char *line);
void show(const char *what, uint64_t value, unsigned radix, const char *end);
bool console_has_input(void);
char console_read(void);

/* boot.c */
struct framebuffer { uint64_t address; uint32_t pitch, width, height; uint8_t bits, kind; };
extern bool boot_resets, boot_serves;
extern const char *boot_only, *boot_without;
extern uint64_t boot_unit;
void boot_read_options(void);
const struct framebuffer *boot_framebuffer(void);

/* interrupts.c */
extern uint64_t settle;
void interrupts_open(void);
void interrupts_load(void);
uint32_t take(struct cpu *self);

/* processors.c */
extern struct cpu cpus[MOST];
extern volatile uint32_t started;
extern bool has_x2apic;
uint32_t apic_read(uint32_t offset);
void apic_write(uint32_t offset, uint32_t value);
void write_icr(uint32_t apic_id, uint32_t low);
void processors_start(void);
void processor_serve(struct cpu *self);
uint64_t order(struct cpu *cpu, enum operation operation, uint32_t msr, uint64_t value);

/* registers.c */
enum { MASKED = 0x10000, MASKED_INSTEAD = 0x1001f };    /* a SINT after a reset; instead, where that raises #GP */
bool access_register(struct cpu *self, uint32_t msr, uint64_t *value, bool is_write);
void write_register(struct cpu *self, uint32_t msr, uint64_t value);
void clean(struct cpu *self);

/* hyperv.c */
struct offer { uint32_t features, direct, no_auto_eoi; };
extern struct offer offer;
bool hyperv_open(void);
const char *not_offered(const char *script);

/* events.c */
extern uint64_t unit;
extern unsigned board_cpus, board_pages;
extern volatile uint8_t arena[PAGES * PAGE];
void open_board(const char *line);
bool perform_event(const char *line, char *answer);
bool is_late(void);
bool turns_over(const char *line);

/* measure.c */
void measure(void);

/* cases.c */
extern const char suite[];
void run_all(void);

/* serve.c */
void serve(void);

#endif
