/* The partition's side of Hyper-V's interface, which every host of a board needs next to it: the leaves of CPUID, the
 * registers that are not the board's, the hypercall page and the reference TSC page, and the inputs of hypercalls. It
 * has no threads, no clock and no globals, and calls nothing back. Tested, not proved (docs/TESTING.md). */
#ifndef PARTITION_H
#define PARTITION_H

#include <stdbool.h>
#include <stddef.h>
#include <stdint.h>
#include <stdio.h>

#include "synicboard.h"

enum { PARTITION_PAGE = 4096, PARTITION_VPS = 64 };

/* What a guest is offered: bits of `features`. A register or a hypercall that is not offered is one that does not exist. */
enum {
    PARTITION_SYNIC = 1 << 0,
    PARTITION_TIMERS = 1 << 1,
    PARTITION_DIRECT_TIMERS = 1 << 2,
    PARTITION_COUNTER = 1 << 3,         /* the reference counter */
    PARTITION_TSC_PAGE = 1 << 4,
    PARTITION_FREQUENCIES = 1 << 5,
    PARTITION_HYPERCALLS = 1 << 6,
    PARTITION_VP_INDEX = 1 << 7,
    PARTITION_RESET = 1 << 8,
    PARTITION_APIC = 1 << 9,            /* the registers EOI, ICR and TPR */
    PARTITION_PREFERS_APIC = 1 << 10,   /* the guest should use these registers */
    PARTITION_NO_AUTO_EOI = 1 << 11,    /* it should not use AutoEOI */
    PARTITION_RELAXED = 1 << 12,        /* it should have no watchdogs */
    PARTITION_CLUSTER_IPI = 1 << 13,    /* it should send interrupts by HvCallSendSyntheticClusterIpi */
    PARTITION_CONNECTIONS = 1 << 14,    /* it may post messages and signal events */
    PARTITION_SUSPEND = 1 << 15,        /* HvRegisterExplicitSuspend, by HvCallSetVpRegisters */
    PARTITION_ASSIST = 1 << 16,         /* the assist page: Linux writes its register whatever CPUID says */
};

struct partition_offer {
    uint32_t features;
    uint32_t vps;                       /* processors that the guest may have, at most 64 */
    uint32_t spin_retries;              /* before a guest reports a spin lock that waits; UINT32_MAX for never */
    uint64_t tsc_hz, apic_hz;           /* of the TSC, and of the local APICs' timers */
};

/* ---- CPUID ---- */

struct partition_leaf { uint32_t eax, ebx, ecx, edx; };

/* Stores a leaf from 40000000 on and returns true; false if there is no such leaf, whose registers are 0. */
bool partition_leaf(const struct partition_offer *offer, uint32_t number, struct partition_leaf *leaf);

/* ---- Registers ---- */

enum {
    MSR_GUEST_OS_ID = 0x40000000, MSR_HYPERCALL = 0x40000001, MSR_VP_INDEX = 0x40000002, MSR_RESET = 0x40000003,
    MSR_REFERENCE_TSC = 0x40000021, MSR_TSC_FREQUENCY = 0x40000022, MSR_APIC_FREQUENCY = 0x40000023, MSR_ICR = 0x40000071,
    MSR_VP_ASSIST = 0x40000073,
};

/* Whose a register is. EOI, ICR and TPR are those of the local APIC, which is the board's or another. */
enum partition_owner { PARTITION_NOBODY, PARTITION_OF_BOARD, PARTITION_OF_APIC, PARTITION_OWN };
enum partition_owner partition_owner(const struct partition_offer *offer, uint32_t msr);

/* Whether an access of a board's register depends on the time, so that the host ticks before it: the counter is the
 * time, a period starts at it, and EOM stamps messages with it. */
bool partition_needs_time(uint32_t msr);

/* The state of the registers, for a saved guest, too: no pointers. A reset of the machine is all zeros. */
struct partition {
    uint64_t guest_os_id, hypercall, reference_tsc, assist[PARTITION_VPS];
};

/* What the host does after a write. */
enum partition_effect {
    PARTITION_PROTECTION,               /* inject #GP */
    PARTITION_DONE,
    PARTITION_FILL_HYPERCALL,           /* store the code of a hypercall in the page, if there is one */
    PARTITION_FILL_TSC,                 /* store the reference TSC page in the page, if there is one */
    PARTITION_DO_RESET,                 /* reset the machine */
    PARTITION_MOVED_ASSIST,             /* the processor's assist page is another one */
};

/* Both are for registers that are PARTITION_OWN. A read returns false for #GP. */
bool partition_read(const struct partition *partition, const struct partition_offer *offer, uint8_t vp, uint32_t msr, uint64_t *value);
enum partition_effect partition_write(struct partition *partition, uint8_t vp, uint32_t msr, uint64_t value);

/* The address of the page that a register enables, or false. */
bool partition_page(uint64_t value, uint64_t *address);

/* Code that calls by OUT to a port, for a hypercall page; the guest's registers have the input. Returns its length. */
size_t partition_port_code(uint8_t port, uint8_t code[8]);

/* The first bytes of a reference TSC page. */
struct partition_tsc_page { uint32_t sequence, reserved; synicboard_tsc_page page; };

/* ---- Hypercalls ---- */

enum partition_call { PARTITION_POST = 1, PARTITION_SIGNAL, PARTITION_SEND, PARTITION_SET_SUSPENDED };

/* A hypercall whose input has been checked. The host performs it, and returns its status in RAX. */
struct partition_request {
    enum partition_call call;
    union {
        struct { uint32_t connection, type, length; uint8_t payload[240]; } post;
        struct { uint32_t connection; uint16_t flag; } signal;
        struct { uint8_t vector; uint64_t vps; } send;          /* processors that exist */
        struct { uint8_t vp; bool is_suspended; } suspend;
    };
};

/* How many bytes of the guest's memory at the address in RDX the call with this RCX needs: at most a page, and 0 for one
 * whose input is in registers, or that fails without any. They must be in one page, at a multiple of 8. */
size_t partition_input_length(uint64_t control);

/* Checks the call: RCX, RDX and R8, and the bytes of its input, null if the guest has no such memory. Returns
 * HV_STATUS_SUCCESS and the request, or the status of a call that fails. */
uint64_t partition_decode(const struct partition_offer *offer, uint64_t control, uint64_t input, uint64_t second, const void *bytes,
                          struct partition_request *request);

/* RAX of a call that succeeds: a call that repeats counts what it did. */
uint64_t partition_result(const struct partition_request *request, uint64_t status);

/* ---- Traces ---- */

/* A trace that `synicboard check` checks: each event of a sparse board with its reply (docs/FORMATS.md, "Trace"). With
 * live pages the guest's stores are no events, so the trace of such a board is not legal. */
struct partition_trace {
    FILE *file;                         /* null if nothing is written; then the calls do nothing */
    uint64_t entries;
    bool has_failed;
};

/* Begins a trace in an open file: of a board that is opened now, or of one that is restored from an image. */
void partition_trace_begin(struct partition_trace *trace, FILE *file, unsigned vps, const void *image, size_t length);
void partition_trace_event(struct partition_trace *trace, const synicboard_event *event, const synicboard_reply *reply);

/* The EOMs that a board with live pages performed in one call. */
void partition_trace_eoms(struct partition_trace *trace, uint64_t eoms);

/* What synicboard_forward does: the board's APIC takes each vector, the greatest first, and ends it at once. */
void partition_trace_forwarded(struct partition_trace *trace, uint8_t vp, const synicboard_forwarded *forwarded);

/* Writes the last line and closes the file. Returns false if a write has failed. */
bool partition_trace_end(struct partition_trace *trace, const synicboard *board);

#endif
