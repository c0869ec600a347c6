/* vm.h: a virtual machine of KVM that answers a script (docs/CONFORMANCE.md, "KVM as a peer").
 *
 * Time: one unit of the script's time is 10 ms of KVM's clock. Before each event the peer sets the clock of
 * the machine to the script's time, and an event takes much less than half a unit. A tick sleeps up to the
 * middle of its unit, so that each timer of the unit has fired, enters each processor, so that KVM processes
 * them, and sets the clock back to the beginning of the unit. */
#ifndef VM_H
#define VM_H

#include <linux/kvm.h>
#include <stdbool.h>
#include <stddef.h>
#include <stdint.h>

#include "peer.h"

enum { MOST_PROCESSORS = 8, MOST_PAGES = 64, PAGE = 4096, SLOT = 256, SINTS = 16, TIMERS = 4, PORTS = 16 };
enum { ROUTES = MOST_PROCESSORS * SINTS, BUFFERS = 16, UNIT = 100000 /* in 100 ns */ };
enum { APIC_BASE = 0x1b, REFERENCE_COUNT = 0x40000020, TPR = 0x40000072, SCONTROL = 0x40000080, SIEFP = 0x40000082 };
enum { SIMP = 0x40000083, SINT0 = 0x40000090, STIMER0 = 0x400000b0 };

struct port {
    bool is_open, is_event;
    unsigned vp, sint, base, count, buffers, queued;
    uint8_t queue[BUFFERS][SLOT];
};

struct processor {
    int fd;
    struct kvm_run *run;
    struct kvm_lapic_state apic;            /* after a reset */
    bool is_suspended;
    uint64_t scontrol, siefp, simp;         /* as the last exit to user space reported them */
    uint64_t counts[TIMERS];                /* of the script's time */
};

/* The eventfds of a source's interrupt route; 0 if it has none. KVM signals `ack` at EOM, or at EOI of
 * the source's vector. */
struct route {
    int irq, ack;
};

extern struct machine {
    bool is_bare;       /* the first SynIC capability, and SCONTROL as KVM sets it up */
    int fd;
    unsigned processors, pages;
    uint64_t time;
    struct processor vps[MOST_PROCESSORS];
    struct route routes[ROUTES];            /* those of processor 0 first */
    struct {
        struct kvm_irq_routing head;
        struct kvm_irq_routing_entry entries[ROUTES];
    } table;
    struct port ports[PORTS];
    _Alignas(PAGE) uint8_t memory[MOST_PAGES * PAGE];
} vm;

/* machine.c */
enum operation { DO_WRMSR, DO_RDMSR, DO_NOTHING, DO_TAKE, OPERATIONS };
int checked(int result, const char *what);
void open_machine(unsigned processors, unsigned pages);
void reset_processor(unsigned vp);
void set_clock_to_time(void);
void sleep_until(uint64_t time);
bool is_output(struct processor *p);
bool is_interrupted(unsigned vp, enum operation operation, struct kvm_regs *regs);

/* ports.c */
void raise_source(const struct port *port);
struct peer_reply finished(struct peer_reply reply);
struct peer_reply open_message_port(unsigned port, unsigned vp, unsigned sint, unsigned buffers);
struct peer_reply open_event_port(unsigned port, unsigned vp, unsigned sint, unsigned base, unsigned count);
struct peer_reply close_port(unsigned port);
struct peer_reply post_message(unsigned port, uint32_t type, const uint8_t *payload, size_t length);
struct peer_reply signal_event(unsigned port, unsigned flag);

static inline struct peer_reply refused(unsigned why) { return peer_reply(PEER_REFUSED, why); }
static inline struct peer_reply done(void) { return finished(peer_reply(PEER_DONE, 0)); }

#endif
